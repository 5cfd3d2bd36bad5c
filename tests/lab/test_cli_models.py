"""Commands over models: places, faults, traces, conflicts, pictures; what each answers and refuses."""

from __future__ import annotations

import time
from collections.abc import Callable
from pathlib import Path

import pytest
from lab import EXAMPLES, example

from sigma_lab import cli

Lab = Callable[..., str]


@pytest.fixture
def lab(capsys: pytest.CaptureFixture[str]) -> Lab:
    """Runs a command here: its output, or its errors where the status isn't 0; both where both is asked for."""

    def run(*words: object, status: int = 0, both: bool = False) -> str:
        made = cli.main(list(map(str, words)))
        shown = capsys.readouterr()
        assert made == status, shown.err
        assert "Traceback" not in shown.err
        return shown.out + shown.err if both else shown.out if status == 0 else shown.err

    return run


@pytest.fixture
def written(tmp_path: Path) -> Callable[[str], Path]:
    """Writes a text to a file."""

    def write(text: str, name: str = "m.sigma") -> Path:
        path = tmp_path / name
        path.write_text(text, encoding="utf-8")
        return path

    return write


# Places


@pytest.mark.parametrize(
    "text, place, line, caret",
    [
        (
            "model M; var X : 0..9 = 10;\nvertex V { }\nend\n",
            "1:25: initial outside",
            "model M; var X : 0..9 = 10;",
            "                        ^",
        ),
        (
            "# \u00e9t\u00e9\0\nmodel M;\r\n\t \tvertex V { schedule W; }\r\nend",
            "3:24: unknown name",
            "\t \tvertex V { schedule W; }",
            "\t \t                    ^",
        ),
        (
            "model M; # \u00e9\u00e9",
            "1:14: unexpected",
            "model M; # \u00e9\u00e9",
            "             ^",
        ),
        ("model M;\n", "2:1: unexpected", "", "^"),
        ("model M; \u00e9\n", "1:10: bad byte", "model M; \u00e9", "         ^"),
        ("", "1:1: unexpected", "", "^"),
    ],
)
def test_places(
    text: str, place: str, line: str, caret: str, lab: Lab, written: Callable[..., Path]
) -> None:
    path = written("")
    path.write_bytes(text.encode())
    shown = lab("place", path, status=1, both=True).split("\n")
    assert shown[:3] == [f"{path}:{place}", line, caret]


def test_places_of_several_files(lab: Lab, written: Callable[..., Path]) -> None:
    wrong = written("model M; vertex V { } ende")
    good = [EXAMPLES / "one.sigma", EXAMPLES / "desk.sigma"]
    said = lab("place", good[0], wrong, good[1], status=1, both=True).splitlines()
    assert said[:4] == [
        f"{good[0]}: accepted ONE",
        f"{wrong}:1:23: unexpected",
        "model M; vertex V { } ende",
        "                      ^",
    ]
    assert f"{good[1]}: accepted DESK" in said
    assert "can't read" in lab("place", "/no/such", status=2)
    assert "required: MODEL" in lab("place", status=2)
    assert "text too long" in lab("place", written(" " * 4194305), status=1, both=True)


# Faults and traces

FAULTY = """version 2;
model FAULTY;
var KIND : 0..5 = 0;
var A[20] : 0..9 = 3;
var OPEN : bool = true;
var N : 0..1000000 = 0;
vertex GO(KIND) {
  set A[KIND * 4] := 7 / KIND;
  schedule STEP;
}
vertex STEP {
  set N := N + 1;
  schedule FAIL(KIND, N) after 1 when N = 700;
  schedule STEP when N < 700;
}
vertex FAIL(KIND, N) {
  set A[N] := 1;
}
end
"""
ONE_RUN = ["--until", 30, "--seed", 7, "--start", 2]


@pytest.mark.parametrize(
    "change, kind, part",
    [
        ("set A[N] := 1;", "index", "change 1 of FAIL: set A[N] := 1"),
        ("set OPEN := 4611686018427387904 * N > 0;", "overflow", "change 1 of FAIL: set OPEN"),
        ("schedule GO(1) after 5 - N;", "delay", "edge 1 of FAIL: schedule GO(1) after 5 - N"),
        ("set KIND := KIND + 4;", "range", "change 1 of FAIL: set KIND := KIND + 4"),
        (
            "set OPEN := true; set A[1], A[2] := 1, 9; set A[1] := 10 - A[2]; set A[KIND] := A[1] * 9 + N;"
            " set OPEN := 1 / A[1] > 0; schedule GO(1) after 3;",
            "range",
            "change 4 of FAIL: set A[KIND] := A[1] * 9 + N",
        ),
        (
            "set KIND := 0; schedule STEP after 3; schedule GO(1) after 5 / KIND;",
            "division",
            "edge 2 of FAIL: schedule GO(1) after 5 / KIND",
        ),
    ],
)
def test_why_it_faults(
    change: str, kind: str, part: str, lab: Lab, written: Callable[..., Path]
) -> None:
    text = FAULTY.replace("set A[N] := 1;", change)
    said = lab("whyfault", written(text), *ONE_RUN)
    assert said.startswith(f"at 1 the event FAIL(2,700): {kind}; ") and part in said


def test_why_other_events_fault(lab: Lab, written: Callable[..., Path]) -> None:
    slow = example("desk").replace("0..20", "0..1").replace("after 4", "after 14")
    said = lab("whyfault", written(slow), "--until", 30, "--seed", 7)
    assert said.startswith("at 13 the event ARRIVE: range; ")
    assert "QUEUE = 1" in said and "change 1 of ARRIVE: set QUEUE := QUEUE + 1" in said
    later = lab("whyfault", written(FAULTY.replace("700", "701")), *ONE_RUN)
    assert later.startswith("at 1 the event FAIL(2,701): index; ")
    first = lab("whyfault", written(FAULTY), "--until", 30, "--seed", 7, "--start=0", "--events=5")
    assert first.startswith("at 0 the event GO(0): division; ")
    assert "change 1 of GO: set A[KIND * 4] := 7 / KIND" in first
    carried = FAULTY.replace("set A[N] := 1;", "schedule FAIL(9, 0);")
    outside = lab("whyfault", written(carried), *ONE_RUN)
    assert outside.startswith("at 1 the event FAIL(9,0): range; ") and "KIND is 9" in outside


def test_what_has_no_fault(lab: Lab, written: Callable[..., Path]) -> None:
    slow = written(example("desk").replace("0..20", "0..1").replace("after 4", "after 14"))
    words = ["--until", 30, "--seed", 7]
    assert "stopped 30" in lab("whyfault", EXAMPLES / "desk.sigma", *words, status=1)
    assert "starting values needed 0" in lab("whyfault", slow, *words, "--start", 5, status=2)
    assert ":1:1: unexpected" in lab("whyfault", written("", "e"), *words, status=1)
    assert "can't read" in lab("whyfault", "/no/such", *words, status=2)
    assert "required: --seed" in lab("whyfault", slow, "--until", 30, status=2)
    assert "required: MODEL" in lab("whyfault", *words, status=2)


def test_traces(lab: Lab, written: Callable[..., Path]) -> None:
    """From the first event, and from a later tick the same; up to a fault; of a parameter that its event changes."""
    shop = EXAMPLES / "shop.sigma"
    whole = lab("trace", 0, 10, shop, "--seed", 7)
    late = lab("trace", 5, 10, shop, "--seed", 7)
    assert whole.endswith(late) and late.startswith("6 ARRIVE\n    QUEUE 0 -> 1\n")
    assert lab("trace", 1, 1, written(FAULTY), "--seed", 7, "--start", 2).endswith(
        "fault 1 index\n"
    )
    carry = written(
        "model CARRY; var C1 : 0..9 = 4; var B : bool = true; vertex A { schedule C(7, false) after 3; }"
        " vertex C(C1, B) { set C1 := 1; } end"
    )
    carried = "3 C(7,false)\n    C1 4 -> 1\n    B true -> false\n"
    assert lab("trace", 0, 3, carry, "--seed", 7) == "0 A\n" + carried
    assert lab("trace", 2, 3, carry, "--seed", 7) == carried
    assert lab("trace", 4, 9, carry, "--seed", 7).strip() == ""
    assert "9" in lab("trace", 9, 4, shop, "--seed", 7, status=2)
    assert "required: --seed" in lab("trace", 4, 9, shop, status=2)
    wrong = written(example("shop").replace("FREE : bool", "FREE : 0..1"), "w.sigma")
    assert "kind mismatch" in lab("trace", 4, 9, wrong, "--seed", 7, status=1)


ENDLESS = """model ENDLESS;
var N : 0..1 = 0;
watch N;
vertex OPEN { schedule PING after 3; }
vertex PING { set N := 1 - N; urgent PONG; }
vertex PONG { urgent PING; }
end
"""


def test_urgent_events_without_end(lab: Lab, written: Callable[..., Path]) -> None:
    """Each command ends by itself, and says what goes on without end."""
    path = written(ENDLESS)
    began = time.monotonic()
    said = lab("whyfault", path, "--until", 9, "--seed", 1)
    assert "without end: PING -> PONG -> PING" in said or "PONG -> PING -> PONG" in said
    assert "the budget of 10000000 events is spent" in said
    shown = lab("trace", 0, 5, path, "--seed", 1).splitlines()
    assert "there are more: take a shorter time" in shown[-1]
    before = lab("trace", 6, 9, path, "--seed", 1, status=1)
    assert "has spent its 10000000 events before tick 6" in before and "whyfault" in before
    few = lab("trace", 0, 5, path, "--seed", 1, "--events", 50).splitlines()
    assert "has spent its 50 events" in few[-1]
    report = path.with_name("report")
    lab("replicate", path, "--until", 9, "--runs", 2, "--keep", report)
    assert "2 spent the budget" in lab("means", "N.average", report, status=3)
    assert time.monotonic() - began < 100


# Conflicts

THROUGH = """model THROUGH;
var LEVEL : 0..9 = 5;
var SEEN : 0..9 = 0;
vertex OPEN {
  schedule SELL after 1;
  schedule COUNT after 1 priority 7;
  schedule DRAW after 1 priority 7;
  schedule STOP after 1 priority 7;
}
vertex SELL {
  schedule SELL after 1 priority 7;
  urgent PASS;
}
vertex PASS {
  urgent TAKE;
}
vertex TAKE {
  set LEVEL := LEVEL - 1;
  draw SEEN from 4 in 0..9;
  cancel STOP;
}
vertex COUNT {
  set SEEN := LEVEL;
}
vertex DRAW {
  draw SEEN from 4 in 0..9;
}
vertex STOP {
}
end
"""


def test_conflicts_through_urgent_events(lab: Lab, written: Callable[..., Path]) -> None:
    """By variables, by streams and by what is cancelled; not with another priority."""
    assert lab("conflicts-through", written(THROUGH)).splitlines() == [
        "OPEN SELL cancels through TAKE",
        "SELL SELL variables,streams,cancels through TAKE",
        "SELL COUNT variables through TAKE",
        "SELL DRAW variables,streams through TAKE",
        "SELL STOP cancels through TAKE",
    ]
    apart = THROUGH.replace("SELL after 1 priority 7", "SELL after 1")
    assert lab("conflicts-through", written(apart)).splitlines() == [
        "OPEN SELL cancels through TAKE",
        "SELL SELL variables,streams,cancels through TAKE",
    ]
    assert lab("conflicts-through", EXAMPLES / "desk.sigma") == ""
    wrong = written(example("shop").replace("FREE : bool", "FREE : 0..1"))
    assert "kind mismatch" in lab("conflicts-through", wrong, status=1)
    assert "required: MODEL" in lab("conflicts-through", status=2)


MEETING = """model MEETING;
var N : 0..1000 = 0;
watch N;
vertex OPEN {
  schedule TWO after 2;
  schedule THREE after 3;
  schedule LATER after 5;
}
vertex TWO {
  set N := N + 1;
  schedule TWO after 2;
  schedule ECHO when N > 0;
}
vertex THREE {
  set N := N * 2 % 1000;
  schedule THREE after 3;
}
vertex ECHO {
  set N := N + 1;
}
vertex LATER {
  set N := N;
  schedule LATER after 5 priority 7;
}
end
"""


def test_pairs_that_meet(lab: Lab, written: Callable[..., Path]) -> None:
    """Two and three meet every six ticks: ten times up to tick 60, in each of three runs."""
    said = lab("meets", written(MEETING), "--until", 60, "--runs", 3, "--only-count")
    row = next(line.split() for line in said.splitlines() if line.split()[:2] == ["TWO", "THREE"])
    assert "30" in row and "3" in row
    wrong = written(example("shop").replace("FREE : bool", "FREE : 0..1"))
    assert "kind mismatch" in lab("meets", wrong, "--until", 60, status=1)
    assert "required: --until" in lab("meets", written(MEETING), status=2)


# Pictures


def is_svg(path: Path) -> bool:
    text = path.read_text()
    return text.count("</svg>") == 1 and text.rstrip().endswith("</svg>")


def test_pictures(lab: Lab, tmp_path: Path) -> None:
    day, picture = EXAMPLES / "answers" / "bank.run", tmp_path / "p.svg"
    out = ["--picture", picture]
    lab("course", day, "QUEUE", "IDLE", "--unit", "60=hours", *out)
    assert is_svg(picture)
    report = EXAMPLES / "answers" / "bank.replicate"
    lab("histogram", 0.2, f"the bank's={report}", "--measure", "QUEUE.average", *out)
    assert is_svg(picture)
    lab("histogram", 0.2, f"a={report}", f"b={report}", "--measure", "IDLE.time in 60=h", *out)
    values = tmp_path / "values"
    values.write_text("".join(f"{k}\n" for k in range(1, 10)))
    lab("histogram", 2, values, "--values", *out)
    lab("welch", EXAMPLES / "desk.sigma", "QUEUE", "--until", 400, "--runs", 3, *out)
    lab("sweep", EXAMPLES / "emergency.sigma", "FREE=2,3", "BROKEN[1]", "--until", 99, *out)
    assert is_svg(picture)


@pytest.mark.parametrize(
    "words, status, message",
    [
        (["course", "DAY", "QUEUES"], 2, "QUEUES"),
        (["course", "CUT", "QUEUE"], 1, "without its outcome"),
        (["course", "DAY", "QUEUE", "--unit", "0=x"], 2, "above 0"),
        (
            ["histogram", "1", "REPORT", "--measure", "B.average"],
            2,
            "its items are QUEUE IDLE CLOSE",
        ),
        (["histogram", "0", "REPORT", "--measure", "QUEUE.average"], 2, "above 0"),
        (["histogram", "1", "REPORT"], 2, "--measure MEASURE or --values"),
        (["histogram", "1", "HALF", "--values"], 2, "no line end"),
        (["histogram", "1", "WORD", "--values"], 2, "2: this is no time"),
        (["histogram", "1", "SHORT", "--measure", "QUEUE.average"], 3, "spent the budget"),
    ],
)
def test_what_has_no_picture(
    words: list[str], status: int, message: str, lab: Lab, tmp_path: Path
) -> None:
    files = {name: tmp_path / name for name in ("CUT", "HALF", "WORD", "SHORT")}
    day = EXAMPLES / "answers" / "bank.run"
    files["CUT"].write_text("".join(day.read_text().splitlines(keepends=True)[:-1]))
    files["HALF"].write_text("1\n2")
    files["WORD"].write_text("1\nx\n")
    short = ["--until", 600, "--events", 30, "--runs", 2, "--keep", files["SHORT"]]
    lab("replicate", EXAMPLES / "bank.sigma", *short)
    files |= {"DAY": day, "REPORT": EXAMPLES / "answers" / "bank.replicate"}
    picture = tmp_path / "p.svg"
    said = lab(*(files.get(word, word) for word in words), "--picture", picture, status=status)
    assert message in said and not picture.exists()


def test_what_reduce_writes_is_drawn(lab: Lab, tmp_path: Path) -> None:
    reduced = EXAMPLES / "answers" / "polling.reduce"
    lab("graph", reduced, "--output", tmp_path / "p.svg")
    assert is_svg(tmp_path / "p.svg")


# A page of a study


def test_pages_that_cant_be_made(lab: Lab, written: Callable[..., Path]) -> None:
    desk = EXAMPLES / "desk.sigma"
    assert "required: MODEL, WORD" in lab("report", "--until", 480, status=2)
    assert "required: WORD" in lab("report", desk, "--until", 480, status=2)
    assert "no item" in lab("report", desk, "NONE.average", "--until", 480, "--runs", 3, status=2)
    assert "can't read" in lab("report", "/no/such", "QUEUE.average", "--until", 480, status=2)
    wrong = written(example("shop").replace("FREE : bool", "FREE : 0..1"))
    assert "kind mismatch" in lab("report", wrong, "QUEUE.average", "--until", 480, status=1)
