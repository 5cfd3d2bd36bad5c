"""Pages are written in short sentences: few have more than twenty words, and the gate shows those."""

from __future__ import annotations

from collections.abc import Callable
from pathlib import Path

import pytest

from support.pages import Sentence, sentences
from support.places import TOP, kept_files

LONGEST = 20
GROUPS = {
    "README and docs": kept_files("README.md", "docs/*.md", "CONTRIBUTING.md"),
    "pages of crates": kept_files("crates/*/README.md"),
}
# How many of a hundred sentences may be long.
ALLOWED = {"README and docs": 10, "pages of crates": 10}


def long_ones(page: Path) -> tuple[int, list[Sentence]]:
    """Count the sentences of a page, and list the long ones."""
    found = list(sentences(page.read_text()))
    return len(found), [sentence for sentence in found if sentence.words > LONGEST]


@pytest.mark.parametrize("group", GROUPS)
def test_sentences_are_short(group: str, record_property: Callable[[str, object], None]) -> None:
    """No more sentences than allowed have more than twenty words."""
    total, shown = 0, list[str]()
    for page in GROUPS[group]:
        number, found = long_ones(page)
        total += number
        name = page.relative_to(TOP)
        shown += [f"{name}:{one.line}: {one.words} words: {one.text[:60]}" for one in found]
    told = f"{group}: {len(shown)} of {total} sentences have more than {LONGEST} words"
    record_property("shown", "\n".join([*shown, told]))
    assert total > 500
    assert len(shown) * 100 <= total * ALLOWED[group], told


def test_sentences_are_counted() -> None:
    """Items, tables, code and links are told apart, and words are counted."""
    page = (
        "# A heading of many words\n\nOne two. Three\nfour `a b c`: five.\n- [An item](x.md) - 6\n"
    )
    page += "  goes on\n\n| a | table |\n    code here\n```\nfenced\n```\nEnd 1.5 of it? Yes!\n"
    found = [(each.line, each.text, each.words) for each in sentences(page)]
    assert found == [
        (3, "One two.", 2),
        (3, "Three four `a b c`: five.", 4),
        (5, "[An item](x.md) - 6 goes on", 5),
        (13, "End 1.5 of it?", 4),
        (13, "Yes!", 1),
    ]
