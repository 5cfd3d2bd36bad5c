"""Each link of a page that leads into the repository leads to a file, and to a heading of it."""

from __future__ import annotations

from pathlib import Path
from urllib.parse import unquote

import pytest

from support.pages import anchors, links
from support.places import TOP, kept_files

PAGES = kept_files("*.md")
ELSEWHERE = ("http://", "https://", "mailto:")


def broken(page: Path, text: str) -> list[str]:
    """List the links of a page that lead nowhere."""
    found: list[str] = []
    for line, link in links(text):
        if link.startswith(ELSEWHERE):
            continue
        name, _, anchor = unquote(link).partition("#")
        target = (page.parent / name).resolve() if name else page
        if not target.is_relative_to(TOP) or not target.exists():
            found.append(f"line {line}: there is no {name}")
        elif anchor and target.suffix == ".md":
            there = text if target == page else target.read_text()
            if anchor not in anchors(there):
                found.append(f"line {line}: {name or 'the page'} has no heading #{anchor}")
    return found


@pytest.mark.parametrize("page", PAGES, ids=lambda page: str(page.relative_to(TOP)))
def test_links(page: Path) -> None:
    """No link of the page is broken."""
    assert not broken(page, page.read_text())


def test_broken_links_are_noticed() -> None:
    """A missing file and a missing heading are noticed, and code isn't looked at."""
    text = "# A heading, twice\n## A heading, twice\n[a](none.md) [b](#none) [c](README.md#none)\n"
    text += "[d](#a-heading-twice) [e](#a-heading-twice-1) [f](https://example.org/x)\n"
    text += "    [g](none.md)\n`[h](none.md)`\n```\n[i](none.md)\n```\n![j](none.png)\n"
    assert broken(TOP / "README.md", text) == [
        "line 3: there is no none.md",
        "line 3: the page has no heading #none",
        "line 3: README.md has no heading #none",
        "line 10: there is no none.png",
    ]
    assert len(PAGES) > 80
