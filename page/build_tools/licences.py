"""Finds the licences of the packages whose code stands in the page."""

from __future__ import annotations

import os
import re
import subprocess
from pathlib import Path

from bundle import BuildError

DOCUMENTS = Path("/usr/share/doc")


def packages_of(files: tuple[Path, ...]) -> dict[str, str]:
    """Return the Debian packages that these files belong to, with their versions.

    Parameters
    ----------
    files
        Files of installed packages.

    Returns
    -------
    dict
        The version of each package, by its name, in alphabetical order.
    """
    folders = sorted({os.path.realpath(file.parent) for file in files})
    words = ["dpkg-query", "--search", *[f"{folder}/*" for folder in folders]]
    found = subprocess.run(words, capture_output=True, text=True, check=False).stdout
    owners: dict[str, str] = {}
    for line in found.splitlines():
        names, _, place = line.partition(": ")
        owners[place] = names.split(",")[0].split(":")[0]
    packages: set[str] = set()
    for file in files:
        place = os.path.realpath(file)
        if place not in owners:
            raise BuildError(f"no package has {file}, so its licence isn't known")
        packages.add(owners[place])
    listed = ["dpkg-query", "--show", "--showformat=${Package} ${Version}\\n", *sorted(packages)]
    shown = subprocess.run(listed, capture_output=True, text=True, check=True).stdout
    return dict(line.split(" ", 1) for line in shown.splitlines())


def _licence_of(package: str) -> str:
    """Return what Debian's copyright file says, without the parts on Debian's own packaging."""
    file = DOCUMENTS / package / "copyright"
    if not file.is_file():
        raise BuildError(f"the licence of {package} is missing: {file}")
    stanzas = re.split(r"\n\s*\n(?=\S)", file.read_text(encoding="utf-8"))
    kept = [each for each in stanzas if not re.match(r"Files:\s*debian/", each)]
    return "\n\n".join(each.strip() for each in kept)


def licences(files: tuple[Path, ...]) -> str:
    """Return the licences of the packages that these files belong to, as one text."""
    parts = []
    for package, version in packages_of(files).items():
        parts.append(f"== {package} {version} ==\n\n{_licence_of(package)}\n")
    return "\n".join(parts)
