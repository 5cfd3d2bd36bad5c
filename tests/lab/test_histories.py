"""Histories: what is read, what is refused, areas."""

from __future__ import annotations

import tracemalloc
from collections.abc import Iterator

import numpy as np
import pytest
from hypothesis import given
from hypothesis import strategies as st
from lab import EXAMPLES, example

from sigma_lab import program
from sigma_lab.errors import BadReport, InputError
from sigma_lab.history import History, Note, notes_of
from sigma_lab.plan import Plan
from sigma_lab.replication import run
from sigma_lab.seeds import spawn

SMALL = "at 0 X=0 Y=5\non 3 E X=4 Y=5\nat 3 X=4 Y=5\nat 10 X=1 Y=5\nstopped 20\n"


def test_notes_are_those_of_the_text() -> None:
    made = History.parse(SMALL)
    assert (made.outcome, made.end, made.items, made.events) == ("stopped", 20, ["X", "Y"], ["E"])
    assert list(made.notes())[1] == Note(3, "E", {"X": 4, "Y": 5})
    assert made.at_event("E", "X + Y").tolist() == [9] and made.times("E").tolist() == [3]
    assert made.to_frame()["event"].tolist() == [None, "E", None, None]
    assert made.course("X")[0].tolist() == [0, 3, 10]


def test_areas() -> None:
    made = History.parse(SMALL)
    assert made.areas("X", np.array([0, 20])).tolist() == [4 * 7 + 10]
    assert made.areas("X", np.array([0, 5, 11, 20])).tolist() == [8, 21, 9]
    assert made.areas("X*Y", np.array([0, 20])).tolist() == [5 * 38]
    assert made.areas("X > 0", np.array([0, 20])).tolist() == [17]
    with pytest.raises(InputError, match="is an event"):
        made.areas("E", np.array([0, 1]))
    with pytest.raises(InputError, match="no value Z"):
        made.areas("Z", np.array([0, 1]))


def test_areas_beyond_64_bits_stay_exact() -> None:
    large = 2**62
    made = History.parse(f"at 0 X={large}\nat 9 X=-{large}\nstopped {2**48}\n")
    expected = large * 9 - large * (2**48 - 9)
    assert made.areas("X", np.array([0, 2**48], dtype=np.int64)).tolist() == [expected]
    assert made.course("4*X")[1].tolist() == [2**64, -(2**64)]
    least = -(2**63)
    made = History.parse(f"at 0 X={least}\nstopped 9\n")
    assert made.areas("X", np.array([0, 9])).tolist() == [9 * least]
    assert made.areas("X*X", np.array([0, 9])).tolist() == [9 * least**2]
    made = History.parse("on 3 E X=1000000\nat 3 X=1000000\nstopped 9\n")
    assert made.at_event("E", "X*100000000000000").tolist() == [10**20]


def test_edges_beyond_a_history_are_refused() -> None:
    made = History.parse(SMALL)
    with pytest.raises(InputError, match="ends at 20, before the last edge"):
        made.areas("X", np.array([0, 21]))


@pytest.mark.parametrize(
    "text, why",
    [
        ("", "is empty"),
        ("at 0 X=1\n", "without its outcome"),
        ("at 0 X=1\nstopped 5", "no line end"),
        ("at 5 X=1\nat 3 X=2\nstopped 6\n", "2: it goes back in time"),
        ("at 0 X=1\nstopped 6\nat 7 X=2\n", "3: a line after the outcome"),
        ("at 0 X=1\nstopped 6\nstopped 6\n", "a line after the outcome"),
        ("at 0 X=1\nat 1 Y=2\nstopped 6\n", "2: this is no note: at 1 Y=2"),
        ("at 0 X=01\nstopped 6\n", "1: this is no note"),
        ("at 0 X=1\nat 9 X=2\nstopped 6\n", "3: it ends before its last note"),
        ("at 0 X=1\nat 3 X=true\nstopped 6\n", "2: this is no note"),
        ("at 0 X=1\nat 3 X=2\r\nstopped 6\n", "2: this is no note"),
        ("at 0 X=9223372036854775808\nstopped 6\n", "64 bits"),
        ("at 0 X=1\nfault 6\n", "no outcome"),
        ("at 0 X=1\nended 6 range\n", "no outcome"),
        ("at 0 X=1 X=1,2\nat 1 X=1 X=1\nstopped 6\n", "2: this is no note"),
    ],
)
def test_spoilt_histories_are_refused(text: str, why: str) -> None:
    with pytest.raises(BadReport, match=why):
        History.parse(text)
    for size in (1, 7):
        blocks = [text.encode()[at : at + size] for at in range(0, len(text), size)]
        with pytest.raises(BadReport, match=why):
            History.of_blocks(blocks)


def test_a_history_that_is_still_being_written() -> None:
    made = History.parse("at 0 X=1\nat 4 X=2\n", whole=False)
    assert (made.outcome, made.end, len(made)) == ("unfinished", 4, 2)


def test_where_blocks_are_cut_makes_no_difference() -> None:
    text = program.call(["run", "--until=480", "--seed=7", "--events=100000"], example("bank"))
    whole = list(History.parse(text).notes())
    for size in (1, 13, 1000):
        blocks = [text[at : at + size] for at in range(0, len(text), size)]
        assert list(History.of_blocks(blocks).notes()) == whole
        assert list(notes_of(blocks)) == whole


def test_outcomes() -> None:
    slow = example("desk").replace("0..20", "0..1").replace("after 4", "after 14")
    made = run(slow, Plan(30, seed=7))
    words = ["run", "--until=30", "--events=1000000000", f"--seed={spawn(7)}"]
    last = program.ask(words, slow).output.decode().splitlines()[-1]
    assert last == f"{made.outcome} {made.end} {made.fault}" and made.outcome == "fault"
    made = run(example("bank"), Plan(480, events=5))
    assert made.outcome == "budget" and made.end == list(made.notes())[-1].time


def test_arrays_and_truth_values() -> None:
    desk = run(example("desk"), Plan(30, seed=7))
    assert desk.to_frame()["FREE"].dtype == bool
    assert desk.course("FREE and BUSY" if "BUSY" in desk.items else "not FREE")[1].dtype == np.int64
    rooms = run(example("emergency"), Plan(60, start=(3,)))
    waiting = [name for name in rooms.items if name.startswith("WAITING")]
    assert waiting == ["WAITING[0]", "WAITING[1]", "WAITING[2]"]


@pytest.mark.parametrize("name", [path.name for path in sorted(EXAMPLES.glob("answers/*.run"))])
def test_histories_of_the_examples_are_read(name: str) -> None:
    text = (EXAMPLES / "answers" / name).read_text()
    made = History.parse(text)
    assert len(made) == text.count("\n") - 1 and text.splitlines()[-1].startswith(made.outcome)


def test_a_long_history_takes_8_bytes_for_each_value() -> None:
    """10^6 notes of one value took 405 MB."""
    lines = 40_000

    def blocks() -> Iterator[bytes]:
        for at in range(0, lines, 1000):
            yield "".join(f"at {k} X={k % 7}\n" for k in range(at, at + 1000)).encode()
        yield f"stopped {lines}\n".encode()

    tracemalloc.start()
    made = History.of_blocks(blocks())
    kept, peak = tracemalloc.get_traced_memory()
    tracemalloc.stop()
    assert len(made) == lines and kept < 32 * lines and peak < 64 * lines


@given(st.binary(max_size=200))
def test_any_bytes_are_a_history_or_are_refused(data: bytes) -> None:
    for text in (data, b"at 0 X=1\n" + data, data + b"\nstopped 6\n"):
        try:
            made = History.parse(text)
        except BadReport:
            continue
        assert len(made) == text.count(b"\n") - 1
