"""How runs end, and runs that are saved and go on: with each status that a run may have."""

from __future__ import annotations

import pytest

from support.models import CLOCK, faulty_desk, replaced, shop_of_another_kind
from support.places import example, stored_answer
from support.program import Program

MOST_EVENTS = 2**40
SAVED_CLOCK = (
    CLOCK + "snapshot\nseed 0 42\nclk 5\nevents 2\nvalue N 2\nnoted 1\npending 5 5 RUN\nend\n"
).encode()


def test_a_trial(call: Program) -> None:
    """A trial reads nothing, so that its input may be anything."""
    wanted = (
        "original vertices 2 variables 9 edges 3\nreduced vertices 2 variables 2 edges 4\n"
        "applications 2\noriginal stopped 20 events 8 notes 1\n"
        "reduced stopped 20 events 7 notes 1\n"
    )
    words = "trial --seed 42 --vertices 2 --until 20 --events 100"
    call(words, example("one")).gives(wanted.encode())


def test_a_trial_of_too_many_vertices(call: Program) -> None:
    """A trial has at most 500 vertices."""
    words = "trial --seed 42 --vertices 501 --until 20 --events 100"
    call(words).refuses(2, "sigma: bad command line")


def test_ten_events_of_the_desk(call: Program) -> None:
    """A run whose budget is spent says so."""
    lines = stored_answer("desk.run").splitlines(keepends=True)
    wanted = b"".join(lines[:5]) + b"budget 10\n"
    call("run --seed 7 --until=30 --events 10", example("desk")).ends(7, wanted)


def test_a_fault(call: Program) -> None:
    """The desk with room for one faults when the second customer comes."""
    wanted = b"at 0 QUEUE=0 FREE=false\nat 8 QUEUE=1 FREE=false\nfault 13 range\n"
    call("run --until 30 --seed 7 --events 1000", faulty_desk()).ends(6, wanted)


def test_a_starting_value_too_many(call: Program) -> None:
    """Starting values have to be as many as the first vertex takes."""
    line = "sigma: starting values needed 0 given 1"
    words = "run --until 30 --seed 7 --events 10 --start 1"
    call(words, example("desk")).refuses(9, line)
    words = "replicate --until 600 --seed 1 --events 100000 --runs 5 --start 1"
    call(words, example("bank")).refuses(9, line)


def test_a_starting_value_outside_its_range(call: Program) -> None:
    """A starting value has to be in its variable's range."""
    queued = replaced(example("desk"), (b"OPEN {", b"OPEN(QUEUE) {"))
    words = "run --until 30 --seed 7 --events 10 --start=21"
    call(words, queued).refuses(9, "sigma: starting value 1 outside: 21")


def test_no_run(call: Program) -> None:
    """There has to be a run."""
    words = "replicate --until 600 --seed 1 --events 100000 --runs 0"
    call(words, example("bank")).refuses(2, "sigma: bad command line")


IN_PARTS = [("clinic", 20, 480, 7), ("bank", 30, 480, 7), ("shop", 9, 100, 3)]


@pytest.mark.parametrize("name, part, until, seed", IN_PARTS)
def test_a_run_that_is_saved_in_parts(
    name: str, part: int, until: int, seed: int, call: Program
) -> None:
    """A run that is saved after every so many events, and goes on each time, is the whole run.

    Only the last line of each part, which says how far the run is, is left out.
    """
    text = example(name)
    common = f"--until {until} --seed {seed}"
    whole = call(f"run {common} --events {MOST_EVENTS}", text)
    lines = call(f"run {common} --events {part}", text).output.splitlines(keepends=True)
    parts, events, last = lines[:-1], part, lines[-1:]
    while (saved := call(f"save {common} --events {events}", text)).status == 0:
        resumed = call(f"resume --until {until} --events {part}", saved.output)
        assert resumed.errors == b""
        lines = resumed.output.splitlines(keepends=True)
        parts, last = parts + lines[:-1], lines[-1:]
        events += part
    assert events > 3 * part
    assert b"".join(parts + last) == whole.output
    assert resumed.status == whole.status
    saved.refuses(10, "sigma: run finished")


def test_a_clock_that_is_saved(call: Program) -> None:
    """A saved run has the model and where the run is."""
    call("save --until 12 --seed 42 --events 2", CLOCK.encode()).gives(SAVED_CLOCK)


def test_a_clock_that_is_resumed(call: Program) -> None:
    """A saved run goes on from its clock."""
    wanted = b"at 5 N=2\nat 10 N=3\nstopped 12\n"
    call("resume --until 12 --events 100", SAVED_CLOCK).gives(wanted)


def test_a_stop_time_before_the_clock(call: Program) -> None:
    """A saved run can't go on to before its clock."""
    words = "resume --until 4 --events 1"
    call(words, SAVED_CLOCK).refuses(9, "sigma: stop time below clock 5")


def test_too_many_events_together(call: Program) -> None:
    """The events before and after are at most 2^40 together."""
    words = f"resume --until 12 --events {MOST_EVENTS - 1}"
    call(words, SAVED_CLOCK).refuses(9, "sigma: too many events")


def test_a_saved_value_outside_its_range(call: Program) -> None:
    """A saved value outside its range is named by the first byte of its line."""
    text = replaced(SAVED_CLOCK, (b"value N 2", b"value N 4"))
    place = text.index(b"value N 4")
    words = "resume --until 12 --events 1"
    call(words, text).refuses(1, f"sigma: byte {place}: bad snapshot")


def test_a_saved_run_for_a_model(call: Program) -> None:
    """A saved run is no model."""
    place = SAVED_CLOCK.index(b"snapshot")
    call("check", SAVED_CLOCK).refuses(1, f"sigma: byte {place}: unexpected")


def test_a_truth_value_for_a_number(call: Program) -> None:
    """A refused text is refused by a run as by `check`, and has no output."""
    for words in ("check", "run --until 5 --seed 1 --events 9"):
        call(words, shop_of_another_kind()).refuses(1, "sigma: byte 59: kind mismatch")
