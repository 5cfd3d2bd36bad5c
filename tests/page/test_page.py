"""The page's own tests, called part by part, and how its module for browsers is made."""

from __future__ import annotations

import re
import subprocess
from collections.abc import Callable
from pathlib import Path

import pytest

from support.places import TOP
from support.program import LONGEST, Program

PAGE = TOP / "page"
SMALL = PAGE / "module/tests/small.ll"
SHOWN = 3000
Needs = Callable[[str], str]


def succeeds(*words: str | Path, program: Program | None = None) -> str:
    """Call a command of the page, fail with the end of what it wrote, or answer that."""
    place = {"SIGMA": str(program.path)} if program else {}
    ran = subprocess.run(
        ["env", *(f"{name}={value}" for name, value in place.items()), *words],
        stdin=subprocess.DEVNULL,
        stdout=subprocess.PIPE,
        stderr=subprocess.STDOUT,
        timeout=3 * LONGEST,
        check=False,
    )
    output = ran.stdout.decode(errors="replace")
    if ran.returncode:
        pytest.fail(f"status {ran.returncode} of {words}\n{output[-SHOWN:]}", pytrace=False)
    if re.search(r"\b[1-9]\d* skipped|\bskipped [1-9]", output):
        pytest.fail(f"{words} skipped something\n{output[-SHOWN:]}", pytrace=False)
    return output


def test_types() -> None:
    """The types of the page's sources are right."""
    succeeds(PAGE / "test", "types")


def test_plain_functions(program: Program) -> None:
    """The page's plain functions, under node, and the program behind them."""
    output = succeeds(PAGE / "test", "unit", program=program)
    counts = [line.split()[-1] for line in output.splitlines() if " pass " in f"{line} "]
    assert counts and int(counts[-1]) > 0, output[-SHOWN:]


def test_wrong_bodies(program: Program) -> None:
    """Lines of the page that are turned: a test of plain functions refuses each."""
    output = succeeds(PAGE / "test", "wrong", program=program)
    assert re.search(r"^wrong bodies: \d\d+ refused, 0 not$", output, re.M), output[-SHOWN:]


def page_to_try() -> Path:
    """Answer the page of dist/ if it is of the page's sources as they are, else make one."""
    built = TOP / "dist/BUILT"
    sums = [line for line in succeeds(TOP / "release", "--sums").splitlines() if "page" in line]
    if built.is_file() and sums and sums[0] in built.read_text().splitlines():
        return TOP / "dist/sigma.html"
    succeeds(PAGE / "make")
    return PAGE / "out/sigma.html"


@pytest.mark.parametrize("words", [("--page", "none.html"), ("--page=none.html",)])
def test_a_page_is_named_from_where_one_stands(
    words: tuple[str, ...], program: Program, tmp_path: Path
) -> None:
    """A file without a folder is one of the folder that the command is given in."""
    ran = subprocess.run(
        ["env", f"SIGMA={program.path}", PAGE / "test", "browsers", *words],
        cwd=tmp_path,
        capture_output=True,
        timeout=LONGEST,
        check=False,
    )
    assert ran.stderr.decode() == f"page/test: no page is {tmp_path / 'none.html'}\n"
    assert ran.returncode == 1


@pytest.mark.browsers
def test_in_browsers(program: Program) -> None:
    """The page is used in browsers by mouse and keys, and answers as the program."""
    page = page_to_try()
    succeeds(PAGE / "test", "browsers", "--page", page, program=program)
    succeeds(PAGE / "test", "faithful", "--page", page, program=program)


def test_the_c_of_the_module(needs: Needs) -> None:
    """The C beside the program: its memory, and whole numbers of 128 bits."""
    needs("cc")
    succeeds(PAGE / "module/tests/try")


def test_a_small_module_becomes_webassembly(needs: Needs, tmp_path: Path) -> None:
    """A small module as the kit lowers one becomes WebAssembly."""
    needs("rt")
    made = tmp_path / "small.wasm"
    succeeds(PAGE / "module/link", SMALL, made)
    assert made.read_bytes().startswith(b"\0asm")


@pytest.mark.parametrize(
    "old, new",
    [
        ("@sigma_page(", "@other("),
        ('"probe-stack"="inline-asm"', '"probe-stack"="other"'),
        ("\ntarget triple", "\nother triple"),
    ],
    ids=["without the call", "with attributes of x86-64", "without a target"],
)
def test_other_modules_are_refused(old: str, new: str, needs: Needs, tmp_path: Path) -> None:
    """A module that isn't as the kit lowers one becomes no WebAssembly."""
    needs("rt")
    text = SMALL.read_text()
    assert old in text
    edited = tmp_path / "edited.ll"
    edited.write_text(text.replace(old, new))
    words = [PAGE / "module/link", edited, tmp_path / "small.wasm"]
    ran = subprocess.run(words, capture_output=True, timeout=LONGEST, check=False)
    assert ran.returncode != 0
