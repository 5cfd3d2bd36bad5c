"""`sigma-page`: it gives the browser a link to the page that is installed, with the model in it."""

from __future__ import annotations

import base64
import gzip
import os
import re
import subprocess
from pathlib import Path
from urllib.parse import unquote

import pytest

from support.places import EXAMPLES, TOP
from support.program import Answer, Program


class Opener:
    """An installed `sigma-page`, and a program in place of xdg-open that shows what it is given."""

    def __init__(self, folder: Path, program: Path) -> None:
        self.folder = folder
        self.prefix = folder / "a home"
        self.bin = folder / "bin"
        self.bin.mkdir()
        (self.bin / "xdg-open").write_text('#!/bin/sh\nexec cat "$1"\n')
        (self.bin / "xdg-open").chmod(0o755)
        page = folder / "page.html"
        page.write_text("<!doctype html>\n")
        environment = {**os.environ, "SIGMA": str(program), "PAGE": str(page)}
        install: list[str | Path] = [TOP / "install", f"PREFIX={self.prefix}"]
        subprocess.run(install, check=True, env=environment, capture_output=True)

    def open(self, *words: str, path: str | None = None) -> Answer:
        """Call `sigma-page` in the folder of the models."""
        ran = subprocess.run(
            [self.prefix / "bin/sigma-page", *words],
            cwd=self.folder,
            capture_output=True,
            check=False,
            env={"PATH": path or f"{self.bin}:{os.environ['PATH']}", "HOME": str(self.folder)},
        )
        return Answer(ran.returncode, ran.stdout, ran.stderr)

    def link(self, *words: str) -> str:
        """Answer the link that the browser gets."""
        answer = self.open(*words)
        assert (answer.status, answer.errors) == (0, b"")
        found = re.search(r'content="0;url=([^"]*)"', answer.output.decode())
        assert found is not None
        return found.group(1).replace("&amp;", "&")


@pytest.fixture
def opener(tmp_path: Path, program: Program) -> Opener:
    """Install the page."""
    return Opener(tmp_path, program.path)


def test_the_page_as_it_was_left(opener: Opener) -> None:
    """The link has the place of the page alone."""
    assert unquote(opener.link()) == f"file://{opener.prefix}/lib/sigma/sigma.html"


@pytest.mark.parametrize("name", ["bank.sigma", "-n.sigma", "a b&c.sigma", "100%.sigma", "ä.sigma"])
def test_a_model_in_the_link(opener: Opener, name: str) -> None:
    """It is the file to the byte, with its name, whatever the name is."""
    text = (EXAMPLES / "bank.sigma").read_bytes()
    (opener.folder / name).write_bytes(text)
    place, _, rest = opener.link(name).partition("#model=")
    model, _, told = rest.partition("&name=")
    assert unquote(place) == f"file://{opener.prefix}/lib/sigma/sigma.html"
    assert gzip.decompress(base64.urlsafe_b64decode(model + "==")) == text
    assert unquote(told) == name


def test_what_is_refused(opener: Opener) -> None:
    """A missing model, two of them, and a page that isn't there."""
    opener.open("nothing.sigma").refuses(1, "sigma-page: nothing.sigma can't be read")
    opener.open("one", "two").refuses(2, "sigma-page: one model at most (see sigma-page --help)")
    (opener.prefix / "lib/sigma/sigma.html").unlink()
    opener.open().refuses(1, "sigma-page: the page is missing: page/make makes it")


@pytest.mark.parametrize("missing", ["xdg-open", "gzip", "base64"])
def test_a_command_that_is_missing(opener: Opener, missing: str) -> None:
    """One line names it, and no empty model is opened."""
    some = opener.folder / "some"
    some.mkdir()
    for name in ("sh", "readlink", "awk", "od", "xdg-open", "gzip", "base64", "tr", "cmp", "mkdir"):
        found = next(
            (
                each
                for each in (opener.bin, Path("/usr/bin"), Path("/bin"))
                if (each / name).exists()
            )
        )
        if name != missing:
            (some / name).symlink_to(found / name)
    answer = opener.open(path=str(some))
    assert answer.status == 127 and answer.output == b""
    assert answer.errors.decode().startswith(f"sigma-page: it needs {missing}, which is missing")
