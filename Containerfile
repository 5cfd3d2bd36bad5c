# A machine for SIGMA: Debian 12 with the packages of share/packages, the one list of them.
#
#     podman build --tag sigma .
#     podman run --rm --interactive sigma ./sigma reduce < examples/one.sigma
#
# The program of dist/ answers at once. To prove and test everything, give the container the Rattle kit, which is no part of this
# repository, as a folder, and call the gate:
#
#     podman run --rm --volume KIT:/kit --env PATH=/kit/bin:/usr/local/bin:/usr/bin:/bin sigma .ci/run
FROM debian:12
COPY share/packages share/missing_packages /sigma/share/
RUN apt-get update \
    && apt-get install -y --no-install-recommends $(/sigma/share/missing_packages --all build lab page tests browsers pack) \
    && rm -rf /var/lib/apt/lists/*
COPY . /sigma
WORKDIR /sigma
CMD ["./sigma"]
