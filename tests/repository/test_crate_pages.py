"""Each crate has a page, README.md in its folder, and what the page names exists.

A name in code marks is a name of the crates, and a file is one of the crate, or of the crate that
its path begins with. A name of several parts, as NAME::NAME, is looked up part by part.
"""

from __future__ import annotations

import re
from collections.abc import Iterator
from functools import cache
from pathlib import Path

import pytest

from support.places import TOP, kept_files

FILE = re.compile(r"([a-z_]+/)?(src|specs|proofs|must-fail)/")
NAME = re.compile(r"[A-Za-z_][A-Za-z0-9_]*((::|\.)[A-Za-z_][A-Za-z0-9_]*)*")
OWN = ("src/", "specs/", "proofs/", "must-fail/")


def crates() -> list[str]:
    """List the crates of crates.txt."""
    lines = (line.split("#")[0] for line in (TOP / "crates.txt").read_text().splitlines())
    return [re.split("[: ]", line)[0] for line in lines if line.strip()]


@cache
def known_names() -> frozenset[str]:
    """List what may be named.

    That is each word of the crates' sources, of the command line and of the kit's crates, and each
    file of the crates, cases, examples and tests.
    """
    named = kept_files("crates/*.rt", "crates/*.antt", "crates/*.edit", "crates.txt", "share/*")
    words: set[str] = set()
    for path in named:
        words.update(re.findall(r"[A-Za-z0-9_']+", path.read_text(errors="replace")))
    for path in kept_files("crates", "cases", "examples", "share", "tests"):
        words.update((path.name, path.stem, path.parent.name))
    words.update(path.name for path in TOP.iterdir())
    return frozenset(words)


def marks(text: str) -> Iterator[str]:
    """List what a page has in code marks, outside of its blocks of code."""
    is_fenced = False
    for line in text.splitlines():
        if line.startswith("```"):
            is_fenced = not is_fenced
        elif not is_fenced and not line.startswith("    "):
            yield from line.split("`")[1::2]


def is_there(crate: Path, mark: str) -> bool:
    """Answer whether a file of a page exists; the ends of edits and modules may be left out."""
    path = crate / mark if mark.startswith(OWN) else TOP / "crates" / mark
    return any(Path(f"{path}{end}").exists() for end in ("", ".edit", ".antt"))


def missing(crate: Path, text: str) -> list[str]:
    """List what a page names that doesn't exist."""
    found: list[str] = []
    for mark in marks(text):
        if FILE.match(mark):
            if not is_there(crate, mark):
                found.append(f"there is no file {mark}")
        elif NAME.fullmatch(mark):
            if not all(part in known_names() for part in re.split(r"::|\.", mark)):
                found.append(f"nothing is called {mark}")
    return found


@pytest.mark.parametrize("crate", crates())
def test_pages(crate: str) -> None:
    """The crate has a page, and what it names exists."""
    folder = TOP / "crates" / crate
    text = (folder / "README.md").read_text()
    assert text.strip(), "the page is empty"
    assert not missing(folder, text)


def test_what_is_missing_is_noticed() -> None:
    """A name and a file that don't exist are noticed, and those in blocks of code aren't looked up."""
    text = "`no_such_name_at_all` `print::no_such_name` `src/none.rt` `reducer/specs/None`\n"
    wanted = [
        "nothing is called no_such_name_at_all",
        "nothing is called print::no_such_name",
        "there is no file src/none.rt",
        "there is no file reducer/specs/None",
    ]
    folder = TOP / "crates" / "reducer"
    assert missing(folder, text) == wanted
    assert not missing(folder, f"```\n{text}```\n    {text}`src/lib.rt` and `no sentence at all`")
