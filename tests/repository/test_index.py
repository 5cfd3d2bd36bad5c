"""The index of all pages, docs/README.md, leads to each page of docs."""

from __future__ import annotations

from support.pages import links
from support.places import TOP, kept_files

INDEX = TOP / "docs/README.md"
FOLDERS = ("use", "trust", "work")


def targets() -> list[str]:
    """List the pages to which the index leads, without their headings."""
    found = (link.partition("#")[0] for _, link in links(INDEX.read_text()))
    return [str((INDEX.parent / name).resolve().relative_to(TOP)) for name in found]


def test_each_page_is_in_the_index() -> None:
    """A page that nobody finds helps nobody."""
    pages = [page.relative_to(TOP) for page in kept_files("docs/*.md")]
    wanted = {str(page) for page in pages if page.parts[1] in FOLDERS and page.name != "README.md"}
    assert len(wanted) > 20
    assert not wanted - set(targets())
