"""The words of all commands: help, options that there aren't, values, limits, reports and histories that are spoilt."""

from __future__ import annotations

import re
from collections.abc import Callable
from pathlib import Path

import numpy as np
import pytest
from lab import EXAMPLES, TOP, report

from sigma_lab import cli
from sigma_lab.errors import BadReport, InputError
from sigma_lab.history import History
from sigma_lab.long_run import LongRun
from sigma_lab.plan import Plan
from sigma_lab.report import Report

BANK = str(EXAMPLES / "bank.sigma")
OLDER_TOOLS = (
    "batches conflicts-through course enough fit graph histogram join-reports means meets observations place"
    " replicate-hashed replicate-on report runs-of-part search since sweep tables trace welch whyfault"
).split()
Lab = Callable[..., str]


@pytest.fixture
def lab(capsys: pytest.CaptureFixture[str]) -> Lab:
    """Runs a command here: its output, or its errors where the status isn't 0."""

    def run(*words: object, status: int = 0) -> str:
        made = cli.main(list(map(str, words)))
        shown = capsys.readouterr()
        assert made == status, shown.err
        assert "Traceback" not in shown.err
        return shown.out if status == 0 else shown.err

    return run


@pytest.mark.parametrize("name", cli.MODULES)
def test_each_command_has_a_help(name: str, lab: Lab) -> None:
    said = lab(name, "--help")
    about = cli.command_of(name).about
    assert said.startswith(f"usage: sigma-lab {name}") and about in " ".join(said.split())
    assert "--json" in said and "--csv" in said


def test_each_older_tool_has_its_command() -> None:
    found = [tool for name in cli.MODULES for tool in cli.command_of(name).replaces]
    assert sorted(found) == OLDER_TOOLS


@pytest.mark.parametrize("name", cli.MODULES)
def test_an_option_that_a_command_hasnt(name: str, lab: Lab) -> None:
    said = lab(name, "--grow=5", status=2)
    assert said.startswith(f"sigma-lab {name}: ") and said.count("\n") == 1
    assert f"sigma-lab {name} --help has its words" in said


BASE = ["enough", BANK, "QUEUE.average", "1", "--until", "9"]


@pytest.mark.parametrize(
    "words, message",
    [
        ([*BASE, "--most=9", "--most", "9"], "--most: it is given twice"),
        ([*BASE, "--until=9"], "--until: it is given twice"),
        ([*BASE, "--seed=1", "--seed", "2"], "--seed: it is given twice"),
        ([*BASE, "--most"], "--most: expected one argument"),
        ([*BASE, "--most="], "--most: no whole number: ''"),
        ([*BASE[:4], "--until", "--seed", "1"], "--until: expected one argument"),
        ([*BASE, "--all=1"], "--all: ignored explicit argument '1'"),
        (["enough", BANK, "--until", "9"], "required: MEASURE, WIDTH"),
        (BASE[:4], "required: --until"),
        ([*BASE, "--sed", "1"], "unrecognized arguments: --sed"),
        ([*BASE, "9"], "unrecognized arguments: 9"),
        ([*BASE[:5], "281474976710657"], "until is a whole number from 0 to 281474976710656"),
        ([*BASE, "--events", "0"], "events is a whole number from 1 to 1099511627776: 0"),
        ([*BASE, "--start", "1,,2"], "--start: no whole number: ''"),
    ],
)
def test_options_are_written_alike(words: list[str], message: str, lab: Lab) -> None:
    said = lab(*words, status=2)
    assert message in said and said.count("\n") == 1


def test_a_word_that_may_be_repeated(lab: Lab) -> None:
    words = ["search", EXAMPLES / "emergency.sigma", "FREE=3", "--cost", "FREE", "--until", 960]
    targets = ["--target", "BROKEN[0] <= 90 by 9 worst 99"] * 2
    assert "FREE=3 costs 3" in lab(*words, *targets, "--most", 300)


def test_limits_are_those_of_the_program() -> None:
    """share/commands has the limits of the program's own words."""
    text = (TOP / "share" / "commands").read_text()
    found = re.findall(r"^option (\w+).*?\n((?:(?!option |command ).*\n)*)", text, re.M)
    limits = {}
    for option, rest in found:
        ends = re.findall(r"^\s*(?:from|to) (\d+)", rest, re.M)
        if len(ends) == 2:
            limits[option] = tuple(map(int, ends))
    assert {"until", "events", "seed", "runs"} <= limits.keys()
    for name in ("until", "events"):
        least, most = limits[name]
        words = {"until": 9} | {name: least}
        assert getattr(Plan(**words), name) == least
        assert getattr(Plan(**({"until": 9} | {name: most})), name) == most
        for outside in (least - 1, most + 1):
            with pytest.raises(
                InputError, match=f"{name} is a whole number from {least} to {most}"
            ):
                Plan(**({"until": 9} | {name: outside}))
    least, most = limits["seed"]
    assert Plan(9, seed=least).seed == least and Plan(9, seed=most).seed == most
    with pytest.raises(InputError):
        Plan(9, seed=most + 1)


# Reports and histories that are spoilt in one place

ROWS = [
    f"{run},{run},stopped,10,{item}"
    for run in range(1, 5)
    for item in (f"A,0,{run},{run},{10 * run},", "E,,,,,1")
]
GOOD = report(*ROWS, "total,,,,A,0,4,,100,", "total,,,,E,,,,,4")


def changed(text: str, line: int | None, old: str, new: str) -> str:
    """A text with one of its lines changed, or all of them."""
    lines = text.splitlines(keepends=True)
    for at in range(len(lines)) if line is None else [line - 1]:
        lines[at], count = re.subn(old, new, lines[at])
        assert count, (line, old)
    return "".join(lines)


@pytest.mark.parametrize(
    "line, old, new, message",
    [
        (None, r"\n", "\r\n", ":1: .*CR LF"),
        (1, "^", "\ufeff", ":1: "),
        (1, ",area", "", ":1: "),
        (2, ",10,$", ",NaN,", ":2: "),
        (2, ",10,$", ",1 0,", ":2: "),
        (2, ",10,$", ",10.0,", ":2: "),
        (3, "1$", "01", ":3: "),
        (2, "stopped", "halted", ":3: run 1 has two outcomes"),
        (2, "A", "A[x]", ":2: "),
        (2, "$", ",", ":2: .*fields"),
        (3, ",1$", ",", ":5: this item has other columns"),
        (4, ",2,2,20,", ",2,3,20,", ":4: the last value"),
        (4, ",20,", ",21,", ":4: the area"),
        (4, r"^.*\n", "", ":4: item 1 of run 2 is E, and the first run has A"),
        (5, r"^.*\n", "", ":5: run 2 has no row of E"),
        (5, "^2,2", "2,7", ":5: run 2 has two seeds"),
        (3, "^.*", "1,1,stopped,10,A,0,1,1,10,", ":3: run 1 has A twice"),
        (10, "100", "101", ":10: the total area of A is 101, and its rows come to 100"),
        (11, "4", "5", ":11: the total count of E is 5, and its rows come to 4"),
        (10, ",4,", ",5,", ":10: the total greatest of A is 5, and its rows come to 4"),
        (11, "\n", "\n5,5,stopped,10,A,0,1,1,10,\n", ":12: a row after the totals"),
    ],
)
def test_a_spoilt_line_is_named(line: int | None, old: str, new: str, message: str) -> None:
    assert len(Report.parse(GOOD, "report")) == 4
    with pytest.raises(BadReport, match=f"report{message}"):
        Report.parse(changed(GOOD, line, old, new), "report")


def without(*lines: int) -> str:
    return "".join(
        line for at, line in enumerate(GOOD.splitlines(keepends=True), 1) if at not in lines
    )


@pytest.mark.parametrize(
    "text, message",
    [
        (without(4, 5), "report:4: run 3 where run 2 has to be"),
        (without(10, 11), "report.*without its totals"),
        (without(11), "report.*total"),
        (without(*range(2, 12)), "report.*no run"),
        (without(1), "report:1: "),
        ("", "report.*empty"),
        (GOOD[:-1], "report:11: .*no line end"),
        (GOOD + GOOD, "seed 1 is that of two runs"),
        (changed(changed(GOOD, 4, ",10,", ",11,"), 5, ",10,", ",11,"), "stopped at other times"),
        (changed(changed(GOOD, 4, "^2,2", "2,1"), 5, "^2,2", "2,1"), "seed 1 is that of two runs"),
    ],
)
def test_what_lacks_rows_is_refused(text: str, message: str) -> None:
    with pytest.raises(BadReport, match=message):
        Report.parse(text, "report")


def test_reports_of_two_models_are_no_report() -> None:
    later = re.sub(r"^(\d),(\d)", lambda m: f"{m[1]},{int(m[2]) + 4}", GOOD, flags=re.M)
    assert len(Report.parse(GOOD + later)) == 8
    with pytest.raises(InputError, match="other items"):
        Report.parse(GOOD + later.replace(",E,", ",F,"))


def test_a_large_area_that_is_off_by_one() -> None:
    """The sum of nine areas of 31 digits."""
    least, greatest, area = -(2**63), 2**63 - 1, int("12980742146337069071326240823051")
    rows = [
        f"{run},{run},ended,{2**48},A,{least},{greatest},7,{area + run}," for run in range(1, 10)
    ]
    total = 9 * area + 45
    good = report(*rows, f"total,,,,A,{least},{greatest},,{total},")
    assert Report.parse(good).values("A", "area").sum() == total
    with pytest.raises(BadReport, match=f"is {total + 1}, and its rows come to {total}"):
        Report.parse(good.replace(str(total), str(total + 1)))


HISTORY = "at 0 A=1 B=true\nat 5 A=2 B=false\non 7 E A=2 B=true\nstopped 9\n"


@pytest.mark.parametrize(
    "line, old, new, message",
    [
        (2, "at 5", "at 0", "2: a second line of values in one tick"),
        (3, "on 7", "on 4", "3: it goes back in time"),
        (4, "9", "6", "4: it ends before its last note"),
        (2, "A=2", "C=2", "2: "),
        (2, "false", "0", "2: "),
        (2, "A=2", "A=2,3", "2: "),
        (2, " B=false", "", "2: "),
        (2, "A=2", "A=2x", "2: "),
        (4, ".*\n", "", "without its outcome"),
        (4, "\n", "\nstopped 9\n", "5: a line after the outcome"),
        (1, "^", "\ufeff", "1: "),
        (None, "\n", "\r\n", "1: "),
        (4, "\n", "", "no line end"),
    ],
)
def test_a_spoilt_line_of_a_history_is_named(
    line: int | None, old: str, new: str, message: str
) -> None:
    assert len(History.parse(HISTORY)) == 3
    with pytest.raises(BadReport, match=message):
        History.parse(changed(HISTORY, line, old, new))


def test_a_history_without_its_beginning() -> None:
    """The time before its first line counted as a value of 0."""
    values = {tick: tick * 7919 % 101 % 9 for tick in range(0, 5000, 10)}
    text = "".join(f"at {tick} A={value}\n" for tick, value in values.items())
    late = "".join(text.splitlines(keepends=True)[100:]) + "stopped 5000\n"
    assert late.startswith("at 1000 ")
    with pytest.raises(InputError, match="begins at tick 1000"):
        LongRun(["A"]).read([late.encode()])
    made = LongRun(["A"], start=1000).read([late.encode()]).mean("A", check=False)
    expected = np.mean([value for tick, value in values.items() if tick >= 1000])
    assert made.estimate.value == pytest.approx(expected)
    with pytest.raises(InputError, match="begins after the first edge"):
        History.parse(late).areas("A", np.array([0, 5000]))


def test_no_control_character_reaches_a_terminal(
    lab: Lab, tmp_path: Path, capsys: pytest.CaptureFixture[str]
) -> None:
    """A name in a file could set the title of a terminal, or more."""
    spoilt = tmp_path / "esc.csv"
    spoilt.write_text(report("1,1,ended,10,\x1b]0;owned\a,0,4,1,20,"))
    said = lab("means", "QUEUE", spoilt, status=1)
    assert "\\x1b]0;owned\\x07" in said and not re.search(r"[\x00-\x08\x0b-\x1f\x7f]", said)
    model = tmp_path / "esc.sigma"
    model.write_text("model M; \x1b]0;owned\a vertex V { }\nend\n")
    assert cli.main(["place", str(model)]) == 1
    shown = capsys.readouterr()
    assert "?]0;owned?" in shown.out + shown.err and "\x1b" not in shown.out + shown.err
