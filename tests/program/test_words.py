"""Words that ask for no job: each is refused by one line, and nothing is read."""

from __future__ import annotations

import pytest

from support.places import example
from support.program import Program

UNKNOWN: dict[str, list[str | bytes]] = {
    "no word": [],
    "a run without a seed": ["run", "--until", "5"],
    "an option that isn't the command's": ["reduce", "--seed", "1"],
    "another word": ["grow"],
    "two words": ["reduce", "reduce"],
    "a word that isn't UTF-8": [b"reduce\xff"],
}


@pytest.mark.parametrize("words", UNKNOWN.values(), ids=UNKNOWN.keys())
def test_words_that_ask_for_no_job(words: list[str | bytes], call: Program) -> None:
    """The words are refused."""
    call(words, example("one")).refuses(2, "sigma: bad command line")
