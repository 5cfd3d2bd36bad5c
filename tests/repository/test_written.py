"""The parts of pages that `docs/write` writes are fresh: tables of crates, commands, tests, definitions and wrong bodies."""

from __future__ import annotations

import re
import subprocess
import sys

import pytest

from support.places import TOP

from writing.examples import vertices
from writing.lab import cli
from writing.pages import WRITERS, pages_with_parts
from writing.parts import UnknownPart, first_sentence, lowered, rewritten, table


def test_parts_are_fresh() -> None:
    """No page has a part that `docs/write` would write otherwise."""
    ran = subprocess.run(
        [TOP / "docs/write", "--check"], capture_output=True, text=True, check=False
    )
    assert ran.returncode == 0, f"docs/write writes these parts anew:\n{ran.stdout}{ran.stderr}"


def test_a_stale_part_is_noticed() -> None:
    """A cell that somebody typed is written over, and what stands around the part stays."""
    page = TOP / "docs/work/map.md"
    text = page.read_text()
    assert "<!-- docs/write: crates -->" in text
    typed = text.replace("| crate | is for |", "| crate | is perhaps for |", 1)
    assert typed != text
    assert rewritten(page, typed, WRITERS) == rewritten(page, text, WRITERS)
    assert rewritten(page, f"before\n{typed}after\n", WRITERS).startswith("before\n")


def test_an_unknown_part_is_refused() -> None:
    """A page can't ask for what nothing writes."""
    text = "<!-- docs/write: weather -->\n<!-- docs/write: end -->\n"
    with pytest.raises(UnknownPart, match="weather"):
        rewritten(TOP / "README.md", text, WRITERS)


def test_vertices_of_an_example() -> None:
    """Vertices come in the order that is asked for, whole and indented; one that isn't there is refused."""
    page = TOP / "docs/use/patterns.md"
    text = vertices(page, "desk", "LEAVE", "OPEN")
    link = "[`examples/desk.sigma`](../../examples/desk.sigma)"
    assert text.startswith(f"From {link}:\n\n    vertex LEAVE {{\n")
    assert re.findall("^ {4}(vertex|})", text, re.M) == ["vertex", "}", "vertex", "}"]
    assert text.endswith("\n    }")
    with pytest.raises(ValueError, match="no vertex OPE"):
        vertices(page, "desk", "OPE")


@pytest.mark.parametrize("name", list(cli.MODULES))
def test_each_option_of_the_lab_is_listed(name: str) -> None:
    """What the help of a command names stands in the command's section of the list of options."""
    words = [sys.executable, "-m", "sigma_lab", name, "--help"]
    ran = subprocess.run(words, cwd=TOP / "lab", capture_output=True, text=True, check=True)
    options = set(re.findall(r"(?<![\w-])--?[a-z][a-z-]*", ran.stdout)) - {"-h", "--help"}
    page = WRITERS["words of the lab"](TOP / "README.md")
    section = f"{page}\n".partition(f"## {name}\n")[2].partition("\n## ")[0]
    assert {"--json", "--csv"} <= options
    assert options - {"--output"} <= set(re.findall(r"--?[a-z][a-z-]*", section))


def test_the_forms_of_parts() -> None:
    """Tables, first sentences and small letters."""
    assert table(("a", "b"), [("1", "2")]) == "| a | b |\n|---|---|\n| 1 | 2 |"
    assert first_sentence("Reads 1.5 texts of `a`. And\nmore.") == "Reads 1.5 texts of `a`"
    assert [lowered(text) for text in ("The end", "PCG32 words", "A list", "`a` b")] == [
        "the end",
        "PCG32 words",
        "a list",
        "`a` b",
    ]
    assert len(pages_with_parts()) > 30
