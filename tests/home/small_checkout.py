"""A small checkout with the launcher of this one, and a kit that stands in for the real one."""

from __future__ import annotations

import hashlib
import os
import shutil
import subprocess
from collections.abc import Mapping, Sequence
from pathlib import Path

from support.places import TOP
from support.program import Answer

CRATE = "sigma_cli"
KIT = "some-kit logic 12ab"
SOURCE = f"crates/{CRATE}/src/main.rt"

# What the launcher and what it reads may call. A kit isn't among them.
COMMANDS = (
    "sh awk sed grep cat cmp cksum sort find dirname readlink mkdir rm rmdir cp mv ln chmod wc date touch mktemp sha256sum "
    "cut flock sleep id head tail tr tee git tar gzip dpkg-deb md5sum xargs env kill ls stat basename printf getconf"
).split()

# `rt ci` appends the source to the program, so that a program tells what it was built from. `rt try` makes no module, so that the
# launcher takes the slow way. A file `wait` in the kit's folder makes a build wait until it is gone.
STAND_IN = """#!/bin/sh
case $1 in
    version) echo "{kit}" && exit ;;
    doc) echo "{folder}/START" && exit ;;
    ci) ;;
    *) exit 1 ;;
esac
echo began >>"{folder}/calls"
while [ -e "{folder}/wait" ]; do sleep 0.05; done
[ ! -e "{folder}/fail" ] || exit 1
cat <<\\END
{said}
END
mkdir -p crates/{crate}/out
{{ cat "{program}" && cat {source}; }} >crates/{crate}/out/{crate}
chmod 755 crates/{crate}/out/{crate}
"""
VERDICT = "logic=proved functions=1 sum=12ab native=nat"
PROVED = f"== {CRATE}\n{VERDICT}\nrt: {CRATE} proved"
KEPT = f"rt: {CRATE} is kept: an earlier run on this machine proved the same files"


def sha256(path: Path) -> str:
    """Compute the checksum of a file."""
    return hashlib.sha256(path.read_bytes()).hexdigest()


class SmallCheckout:
    """A checkout with one crate of one source.

    Parameters
    ----------
    folder
        Where it is made; `folder/bin` is all that a call has in PATH.
    program
        The program that stands for each that is built.
    """

    def __init__(self, folder: Path, program: Path) -> None:
        self.folder = folder
        self.program = program
        self.top = folder / "checkout"
        self.bin = folder / "bin"
        self.kit = folder / "kit"
        for made in (self.top / f"crates/{CRATE}/src", self.top / "examples/answers", self.bin):
            made.mkdir(parents=True)
        self.kit.mkdir()
        for name in (
            "sigma",
            "VERSION",
            "HANDLES",
            "examples/one.sigma",
            "examples/answers/one.reduce",
        ):
            shutil.copy(TOP / name, self.top / name)
        shutil.copytree(TOP / "share", self.top / "share")
        (self.top / "crates.txt").write_text(f"{CRATE}:\n")
        self.write_source("fn main() {} // first\n")
        for command in COMMANDS:
            path = shutil.which(command)
            if path is not None:
                (self.bin / command).symlink_to(path)

    def write_source(self, text: str) -> None:
        """Write the one source."""
        (self.top / SOURCE).write_text(text)

    def give_kit(self, said: str = PROVED, name: str = KIT) -> None:
        """Put the stand-in for `rt` into PATH, which says this when it proves."""
        text = STAND_IN.format(
            kit=name,
            folder=self.kit,
            crate=CRATE,
            said=said,
            program=self.program,
            source=f"crates/{CRATE}/src/main.rt",
        )
        rt = self.bin / "rt"
        rt.write_text(text)
        rt.chmod(0o755)

    def builds(self) -> int:
        """Count the builds that the kit began."""
        calls = self.kit / "calls"
        return len(calls.read_text().splitlines()) if calls.exists() else 0

    def environment(self, **more: str) -> dict[str, str]:
        """Answer the environment of a call: this PATH, and a home that is empty."""
        home = self.folder / "home"
        home.mkdir(exist_ok=True)
        return {"PATH": str(self.bin), "HOME": str(home), "LC_ALL": "C", **more}

    def call(
        self,
        *words: str,
        text: bytes | None = None,
        command: Path | None = None,
        environment: Mapping[str, str] | None = None,
    ) -> Answer:
        """Call the launcher, or another command, on a text; without one it is the example."""
        given = (self.top / "examples/one.sigma").read_bytes() if text is None else text
        ran = subprocess.run(
            [command or self.top / "sigma", *words],
            input=given,
            capture_output=True,
            env=environment or self.environment(),
            timeout=120,
            check=False,
        )
        return Answer(ran.returncode, ran.stdout, ran.stderr)

    def start(self, *words: str, new_group: bool = False) -> subprocess.Popen[bytes]:
        """Start the launcher on the example, and don't wait for it."""
        with (self.top / "examples/one.sigma").open("rb") as example:
            return subprocess.Popen(
                [self.top / "sigma", *words],
                stdin=example,
                stdout=subprocess.PIPE,
                stderr=subprocess.PIPE,
                env=self.environment(),
                start_new_session=new_group,
            )

    def sum_of_sources(self) -> str:
        """Ask what the launcher calls the sources as they are."""
        script = f'here=$1 crate={CRATE}; . "$here/share/sources"; sum_of_sources "$here"'
        return run_shell(script, self.top, environment=self.environment()).decode().strip()

    def give_dist(self, **other: str) -> None:
        """Write dist/ with a program of the sources as they are; words replace lines of BUILT."""
        dist = self.top / "dist"
        dist.mkdir(exist_ok=True)
        shutil.copy(self.program, dist / "sigma")
        told = {
            "version": "1.0.0",
            "sources": self.sum_of_sources(),
            "kit": KIT,
            "verdict": VERDICT,
            "program": sha256(dist / "sigma"),
        } | other
        (dist / "BUILT").write_text("".join(f"{key} {value}\n" for key, value in told.items()))

    def which(self) -> tuple[int, dict[str, str]]:
        """Call `--which`, and answer its status and its lines by their first words."""
        answer = self.call("--which")
        lines = (line.split(maxsplit=1) for line in answer.output.decode().splitlines())
        return answer.status, {words[0]: words[1] if len(words) > 1 else "" for words in lines}

    def kept(self) -> list[str]:
        """List what the folder of programs has."""
        out = self.top / "out"
        return sorted(each.name for each in out.iterdir()) if out.exists() else []

    def commit(self) -> None:
        """Commit all of it, at a time that is always the same."""
        git: Sequence[str] = (
            "git",
            "-C",
            str(self.top),
            "-c",
            "user.name=Try",
            "-c",
            "user.email=try@try.example",
        )
        dates = {
            "GIT_AUTHOR_DATE": "2001-02-03T04:05:06Z",
            "GIT_COMMITTER_DATE": "2001-02-03T04:05:06Z",
        }
        for words in (
            ["init", "-q"],
            ["add", "."],
            ["-c", "commit.gpgsign=false", "commit", "-q", "-m", "try"],
        ):
            subprocess.run([*git, *words], check=True, env={**os.environ, **dates})


def run_shell(
    script: str, *words: str | Path, environment: Mapping[str, str] | None = None
) -> bytes:
    """Run a script of sh with these words, and answer its output."""
    ran = subprocess.run(
        ["sh", "-c", script, "sh", *words], check=True, capture_output=True, env=environment
    )
    return ran.stdout
