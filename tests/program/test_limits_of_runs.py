"""Runs at the ends of their limits. What is wanted is worked out here."""

from __future__ import annotations

import re
from functools import cache

import pytest

from program.wide_models import padding
from support import limits
from support.models import CLOCK, filled, replaced, vertex
from support.program import Program

SAVE = "save --until 1000 --seed 1 --events 1001"


def big(line: str = "") -> str:
    """Write a model of which a million events are pending at once.

    The first event schedules a thousand of A, and each of them a thousand of B.
    """
    edges = [f"schedule B after {delay};" for delay in range(1, 1001)]
    text = "model BIG;\n" + vertex("RUN", *["schedule A;"] * 1000) + vertex("A", *edges)
    return text + vertex("B", *([line] if line else [])) + "end\n"


@pytest.mark.parametrize(
    "line, until, wanted",
    [
        ("", 1000, "at 0\nended 1000\n"),
        ("cancel all B;", 1000, "at 0\nended 1\n"),
        ("", 0, "at 0\nstopped 0\n"),
    ],
    ids=["they occur", "they are cancelled", "they are due later"],
)
def test_a_million_events_pending(line: str, until: int, wanted: str, call: Program) -> None:
    """A million events are pending at once."""
    words = f"run --until {until} --seed 1 --events 2000000 --room 1100000"
    call(words, big(line).encode()).gives(wanted.encode())


def test_65_536_runs(call: Program) -> None:
    """There are as many runs as there may be, each as long as it may be.

    Their seeds go on from 0 after the last one.
    """
    text = "model STAY;\nvar N : 0..9 = 1;\nwatch N, RUN;\n"
    text += vertex("RUN", f"schedule RUN after {limits.UNTIL};") + "end\n"
    wanted = [limits.REPORT]
    for run in range(1, limits.RUNS + 1):
        head = f"{run},{(limits.SEED + run - 1) % 2**64},stopped,{limits.UNTIL},"
        wanted.append(f"{head}N,1,1,1,{limits.UNTIL},\n{head}RUN,,,,,2\n")
    wanted.append(f"total,,,,N,1,1,,{limits.RUNS * limits.UNTIL},\n")
    wanted.append(f"total,,,,RUN,,,,,{2 * limits.RUNS}\n")
    words = f"replicate --until {limits.UNTIL} --seed {limits.SEED} --events {limits.EVENTS}"
    call(f"{words} --runs {limits.RUNS}", text.encode()).gives("".join(wanted).encode())


@pytest.mark.parametrize(
    "words",
    [
        "--seed 7 --vertices 500 --until 1000 --events 100000",
        f"--seed {limits.SEED} --vertices 500 --until {limits.UNTIL} --events 100000",
        f"--seed 0 --vertices 500 --until 0 --events {limits.EVENTS}",
    ],
    ids=["short", "as long as it may be", "of few events"],
)
def test_trials(words: str, call: Program) -> None:
    """A trial of as many vertices as may be is done, and writes the same once more."""
    first = call(f"trial {words}")
    lines = first.output.decode().splitlines()
    assert lines[0].startswith("original vertices 500 variables 9 edges ") and len(lines) == 5
    first.gives(first.output)
    call(f"trial {words}").gives(first.output)


def test_a_saved_run_of_large_numbers(call: Program) -> None:
    """Each number of a saved run is as large as it may be."""
    text = (
        f"{CLOCK}snapshot\nseed 4294967295 4294967295\nclk {limits.UNTIL}\n"
        f"events {limits.EVENTS - 1}\nstream 0 1\nstream 63 4503599627370496\nvalue N 2\nnoted 1\n"
        "pending 0 255 RUN\npending 9223372036854775807 255 RUN\nend\n"
    )
    wanted = f"at {limits.UNTIL} N=3\nstopped {limits.UNTIL}\n"
    words = f"resume --until {limits.UNTIL} --events 1"
    call(words, filled(text.encode(), limits.DOCUMENT)).gives(wanted.encode())


def test_120_000_notes(call: Program) -> None:
    """A history of more than a megabyte is written note by note."""
    text = "model FLIP;\nvar N : 0..1 = 0;\nwatch N, RUN;\n"
    text += vertex("RUN", "set N := 1 - N;", "schedule RUN after 1;") + "end\n"
    notes = [f"on {t} RUN N={(t + 1) % 2}\nat {t} N={(t + 1) % 2}\n" for t in range(60_000)]
    wanted = "".join(notes) + "stopped 59999\n"
    call("run --until 59999 --seed 1 --events 100000", text.encode()).gives(wanted.encode())


@cache
def saved_million() -> tuple[bytes, bytes]:
    """Write a model and its saved run with a million events pending, as long as it may be."""
    edges = [f"schedule BBBBBBBBBB after {delay};" for delay in range(1, 1001)]
    head = "model BIG;\nvar N : 0..9 = 0;\n" + vertex("RUN", *["schedule A;"] * 1000)
    head += vertex("A", *edges) + vertex("BBBBBBBBBB")
    pending = "".join(f"pending {delay} 5 BBBBBBBBBB\n" * 1000 for delay in range(1, 1001))
    saved = f"snapshot\nseed 0 1\nclk 0\nevents 1001\nvalue N 0\n{pending}end\n"
    model = head + padding(limits.DOCUMENT - len(head) - len("end\n") - len(saved)) + "end\n"
    assert len(model + saved) == limits.DOCUMENT
    return model.encode(), (model + saved).encode()


def test_a_million_events_pending_for_save(call: Program) -> None:
    """A run with a million events pending is saved."""
    model, saved = saved_million()
    call(SAVE, model).gives(saved)


def test_a_million_events_pending_for_resume(call: Program) -> None:
    """A saved run with a million events pending goes on."""
    words = "resume --until 1000 --events 1000000 --room 0"
    call(words, saved_million()[1]).gives(b"at 0\nended 1000\n")


def test_a_million_events_pending_for_replicate(call: Program) -> None:
    """A run with a million events pending is in a report."""
    words = "replicate --until 1000 --seed 1 --events 2000000 --runs 1"
    call(words, saved_million()[0]).gives(limits.REPORT.encode())


def test_a_saved_run_that_is_a_byte_too_long(call: Program) -> None:
    """A document that would have a byte more isn't written."""
    longer = replaced(saved_million()[0], (b"model BIG", b"model ABIG"))
    call(SAVE, longer).refuses(11, "sigma: snapshot too long")


def test_the_words_of_the_options_are_the_limits(call: Program) -> None:
    """Each option takes its greatest value, and refuses the next one before anything is read."""
    ends = {"until": limits.UNTIL, "seed": limits.SEED, "events": limits.EVENTS}
    words = f"run --until {limits.UNTIL} --seed {limits.SEED} --events {limits.EVENTS}"
    call(words).refuses(1, "sigma: byte 0: unexpected")
    for option, most in ends.items():
        wrong = re.sub(rf"--{option} \d+", f"--{option} {most + 1}", words)
        call(wrong).refuses(2, "sigma: bad command line")
