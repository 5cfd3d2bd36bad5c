"""Texts near the limits that were made to be slow, for each command that searches.

Each call may take ten seconds of processor time, and most take less than one. What is wanted is
worked out here, and never taken from the program.
"""

from __future__ import annotations

from collections.abc import Callable
from functools import partial

import pytest

from program import slow_reductions, slow_searches
from program.slow_reductions import Pair
from support.models import replaced
from support.program import Program

SECONDS = 10

# two texts and their runs
SECONDS_OF_TWO = 20
COMPARE = ["compare", "--until", "100", "--seed", "1", "--events", "1000", "--runs", "2"]


def test_a_long_text(call: Program) -> None:
    """A long text without a fault is accepted in two seconds."""
    call("check", slow_searches.long_text(), seconds=2).gives(b"accepted LONG\n")


def test_an_unknown_name_in_the_last_line(call: Program) -> None:
    """A long text that is refused at its end takes at most three seconds."""
    text = replaced(slow_searches.long_text(), (b"schedule LAST;", b"schedule LOST;"))
    place = text.index(b"LOST;")
    call("check", text, seconds=3).refuses(1, f"sigma: byte {place}: unknown name")


def test_a_token_too_much_at_the_end(call: Program) -> None:
    """A long text with one word after its end takes at most three seconds."""
    text = slow_searches.long_text()
    place = len(text)
    call("check", text + b"end\n", seconds=3).refuses(1, f"sigma: byte {place}: unexpected")


def test_a_canonical_text_that_is_too_long(call: Program) -> None:
    """A long text whose canonical text is too long takes at most five seconds."""
    text = slow_searches.dense_text()
    call("check", text, seconds=5).refuses(1, f"sigma: byte {len(text) - 3}: model too long")


# A reducer that begins again at the first rule after each application looks at 804,000 parts of
# conditions 80,000 times in the text of the 80,000 edges, which would take some ten minutes.
REDUCTIONS: dict[str, Callable[[], Pair]] = {
    "a chain of 1,000 events": partial(slow_reductions.chain, 1000),
    "a chain of 1,001 events": partial(slow_reductions.chain, 1001),
    "80,000 edges to prune": slow_reductions.prunes,
    "a star of 1,900 events": partial(slow_reductions.star, False),
    "a star of 1,900 events that are watched": partial(slow_reductions.star, True),
    "a chain that ends in a large event": slow_reductions.chain_with_a_large_end,
    "870 pairs beside 126,000 edges": partial(slow_reductions.pairs, 1),
    "870 pairs beside 126,000 edges, version 2": partial(slow_reductions.pairs, 2),
    "urgent edges on one sum": partial(slow_reductions.urgent, "equal"),
    "urgent edges on one variable": partial(slow_reductions.urgent, "small"),
}


@pytest.mark.parametrize("make", REDUCTIONS.values(), ids=REDUCTIONS.keys())
def test_reductions(make: Callable[[], Pair], call: Program) -> None:
    """The model is reduced in ten seconds."""
    original, reduced = make()
    call("reduce", original, seconds=SECONDS).gives(reduced)


CERTIFICATES: dict[str, Callable[[], Pair]] = {
    **REDUCTIONS,
    "urgent edges that are never taken": partial(slow_reductions.urgent, "never"),
    "870 settles, prunes, merges and drops": slow_reductions.settles,
    "1,800 prunes and drops": slow_reductions.turns,
    "200 prunes and slices": slow_reductions.slices,
}


@pytest.mark.parametrize("make", CERTIFICATES.values(), ids=CERTIFICATES.keys())
def test_certificates(make: Callable[[], Pair], call: Program) -> None:
    """The certificate is checked in ten seconds."""
    original, reduced = make()
    call("certify", original + reduced, seconds=SECONDS).gives(b"sound\n")


@pytest.mark.parametrize("make", CERTIFICATES.values(), ids=CERTIFICATES.keys())
def test_reductions_are_the_same_models(make: Callable[[], Pair], call: Program) -> None:
    """A model and what was made of it are the same within twenty seconds."""
    original, reduced = make()
    made, _, _ = reduced.partition(b"certificate\n")
    call(COMPARE, original + made, seconds=SECONDS_OF_TWO).gives(b"same\n")


@pytest.mark.parametrize("make", [slow_searches.twins, slow_searches.far_twins])
def test_models_with_twins_are_the_same_as_without(make: Callable[[], Pair], call: Program) -> None:
    """A model and what its twins are fused to are the same within twenty seconds."""
    call(COMPARE, b"".join(make()), seconds=SECONDS_OF_TWO).gives(b"same\n")


@pytest.mark.parametrize("form", slow_searches.OPERANDS)
def test_long_models_are_the_same_as_themselves(form: str, call: Program) -> None:
    """Ranges that move one at a time are found in both models within twenty seconds."""
    call(COMPARE, slow_searches.rounds(form) * 2, seconds=SECONDS_OF_TWO).gives(b"same\n")


@pytest.mark.parametrize("make", [slow_searches.twins, slow_searches.far_twins])
def test_twins(make: Callable[[], Pair], call: Program) -> None:
    """Twins that are found one after the other, or far apart, are fused in ten seconds."""
    text, fused = make()
    call("fuse", text, seconds=SECONDS).gives(fused)


def test_events_that_differ_in_their_last_edge(call: Program) -> None:
    """Events that are nearly alike aren't fused."""
    text = slow_searches.alike()
    call("fuse", text, seconds=SECONDS).gives(text)


@pytest.mark.parametrize("form", slow_searches.OPERANDS)
def test_ranges_that_move_a_thousand_times(form: str, call: Program) -> None:
    """Ranges that move one at a time are found in ten seconds.

    With 1,999 variables and 3,100 sums there would be 4,000 rounds.
    """
    text = slow_searches.rounds(form)
    call("narrow", text, seconds=SECONDS).gives(text)


@pytest.mark.parametrize("make", [slow_searches.all_in_conflict, slow_searches.readers])
def test_conflicts(make: Callable[[], Pair], call: Program) -> None:
    """Two million pairs in conflict, and events that read 500 variables, take ten seconds."""
    text, found = make()
    call("conflicts", text, seconds=SECONDS).gives(found)


def test_no_conflicts(call: Program) -> None:
    """160,000 edges without a conflict take ten seconds."""
    call("conflicts", slow_searches.apart(), seconds=SECONDS).gives(b"")


def test_saved_cells(call: Program) -> None:
    """Twelve million saved values are resumed in ten seconds."""
    wanted = b"at 0 N=2\nat 1 N=3\nat 2 N=4\nended 2\n"
    words = "resume --until 10 --events 10"
    call(words, slow_searches.saved_cells(), seconds=SECONDS).gives(wanted)


def test_saved_lists(call: Program) -> None:
    """Half a million carried lists are resumed in ten seconds."""
    wanted = b"at 0 P15=0\nat 1 P15=5\nended 1\n"
    words = "resume --until 10 --events 1000000 --room 0"
    call(words, slow_searches.saved_lists(), seconds=SECONDS).gives(wanted)


def test_saved_cancels(call: Program) -> None:
    """Of a million pending events 2,000 are cancelled in ten seconds."""
    text, history = slow_searches.saved_cancels()
    words = "resume --until 5000 --events 1000000 --room 0"
    call(words, text, seconds=SECONDS).gives(history)
