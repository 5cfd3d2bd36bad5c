"""Reports: what is read, what is refused, how they join and compare."""

from __future__ import annotations

import re
from dataclasses import replace
from fractions import Fraction

import pytest
from hypothesis import given
from hypothesis import strategies as st
from lab import example, report

from sigma_lab import program, report_text
from sigma_lab.errors import BadReport, IncompleteRuns, InputError
from sigma_lab.plan import Plan
from sigma_lab.replication import replicate
from sigma_lab.report import Report, check_comparable, concat

BANK = example("bank")
WORDS = ["replicate", "--until=600", "--seed=1", "--events=100000"]
GOOD = report("1,1,ended,10,Q,0,4,1,20,", "2,2,ended,10,Q,0,4,3,30,", "total,,,,Q,0,4,,50,")


def bank_bytes(runs: int = 8) -> bytes:
    return program.call([*WORDS, f"--runs={runs}"], BANK)


def test_what_the_program_writes_is_read_and_written_byte_for_byte() -> None:
    theirs = bank_bytes(50)
    assert Report.parse(theirs).to_csv().encode() == theirs


def test_rows_are_those_of_the_text() -> None:
    bank = Report.parse(bank_bytes(3))
    rows = [line.split(",") for line in bank_bytes(3).decode().splitlines()[1:-3]]
    assert bank.items == ("QUEUE", "IDLE", "CLOSE") and len(bank) == 3
    assert [str(area) for area in bank.values("QUEUE", "area")] == [row[8] for row in rows[::3]]
    assert [str(n) for n in bank.values("CLOSE", "count")] == [row[9] for row in rows[2::3]]
    assert bank.seeds.tolist() == [1, 2, 3]
    assert bank.values("QUEUE", "average")[0] == int(rows[0][8]) / int(rows[0][3])
    frame = bank.to_frame()
    assert frame.index.names == ["run", "item"] and len(frame) == 9
    assert frame.loc[(2, "QUEUE"), "area"] == int(rows[3][8])
    assert frame["count"].isna().sum() == 6
    assert bank.wide("last").columns.tolist() == ["QUEUE", "IDLE"]


def test_numbers_beyond_64_bits_stay_exact() -> None:
    area = 2**100 + 1
    text = report(f"1,1,ended,{2**48},X,0,{2**60},5,{area},", f"total,,,,X,0,{2**60},,{area},")
    made = Report.parse(text)
    assert made.values("X", "area")[0] == area and made.to_csv() == text
    assert made.to_frame()["area"].iloc[0] == area


@pytest.mark.parametrize(
    "rows, word",
    [
        (
            ["1,1,ended,10,Q,0,4,1,20,", "2,2,ended,10,Q,0,4,3,30,", "total,,,,Q,0,4,,50,"]
            + ["2,2,ended,10,Q,0,4,3,30,"],
            "5: a row after the totals",
        ),
        (
            ["1,1,ended,10,Q,,,1,20.5,", "2,2,ended,10,Q,,,3,300.5,", "total,,,,Q,,,,51.0,"],
            "rows come to 321.0",
        ),
        (
            ["1,1,ended,10,Q,,,1,20.5,", "2,2,ended,10,Q,,,3,300.5,", "total,,,,Q,,,,9zzz,"],
            "no row of totals",
        ),
        (
            ["1,1,ended,10,Q,0,4,1,20,", "3,2,ended,10,Q,0,4,3,30,", "total,,,,Q,0,4,,50,"],
            "3: run 3 where run 2 has to be",
        ),
        (
            ["1,1,ended,10,Q,0,4,1,20,", "2,1,ended,10,Q,0,4,3,30,", "total,,,,Q,0,4,,50,"],
            "seed 1 is that of two",
        ),
        (["1,1,ended,10,Q,0,4,1,20,", "2,2,ended,10,Q,0,4,3,30,"], "without its totals"),
        (["1,1,ended,10,Q,0,4,5,20,", "total,,,,Q,0,4,,20,"], "2: the last value"),
        (["1,1,ended,10,Q,0,4,1,50,", "total,,,,Q,0,4,,50,"], "2: the area"),
        (
            ["1,1,stopped,10,Q,0,4,1,20,", "2,2,stopped,11,Q,0,4,3,30,", "total,,,,Q,0,4,,50,"],
            "other times",
        ),
        (["1,01,ended,10,Q,0,4,1,20,", "total,,,,Q,0,4,,20,"], "2: a field hasn't the form"),
        (["1, 1,ended,10,Q,0,4,1,20,", "total,,,,Q,0,4,,20,"], "form"),
        (["1,1_0,ended,10,Q,0,4,1,20,", "total,,,,Q,0,4,,20,"], "form"),
        (["1,1,ended,10,Q,-0,4,1,20,", "total,,,,Q,0,4,,20,"], "form"),
        (["1,1,ended,10,Q,0,4,1,20,\r", "total,,,,Q,0,4,,20,"], "CR LF"),
        (["1,1,ended,10,Q,0,4,1,20", "total,,,,Q,0,4,,20,"], "9 fields"),
        (["1,1,over,10,Q,0,4,1,20,", "total,,,,Q,0,4,,20,"], "form"),
        (["1,1,ended,10,Q,0,4,1,20,", "1,1,ended,10,Q,0,4,1,20,", "total,,,,Q,0,4,,40,"], "twice"),
        (
            ["1,1,ended,10,Q,0,4,1,20,", "1,1,ended,10,R,0,4,1,20,", "2,2,ended,10,Q,0,4,1,20,"]
            + ["total,,,,Q,0,4,,40,", "total,,,,R,0,4,,20,"],
            "run 2 has no row of R",
        ),
        (
            ["1,1,ended,10,Q,0,4,1,20,", "1,2,ended,10,R,0,4,1,20,", "total,,,,Q,0,4,,20,"],
            "3: run 1 has two seeds",
        ),
        (
            ["1,1,ended,10,Q,0,4,1,20,", "2,2,ended,10,Q,,,,,3", "total,,,,Q,0,4,,20,3"],
            "3: this item has other columns",
        ),
        (["1,1,ended,10,Q,0,4,,20,", "total,,,,Q,0,4,,20,"], "no such set of columns"),
        (["1,1,ended,1.5,Q,0,4,1,3,", "total,,,,Q,0,4,,3,"], "decimals are for"),
        (["1,1,ended,10,Q,0,4,1,20,", "total,,,,R,0,4,,20,"], "isn't in its place"),
        (["1,1,ended,10,Q,0,4,1,20,", "total,,,,Q,0,3,,20,"], "the total greatest of Q is 3"),
        ([f"1,{2**64},ended,10,Q,0,4,1,20,", "total,,,,Q,0,4,,20,"], "outside its limits"),
        (["1,1,ended,10,E,,,,,-1", "total,,,,E,,,,,-1"], "outside its limits"),
        (["total,,,,Q,0,4,,20,"], "totals of no run"),
        ([], "no run"),
    ],
)
def test_spoilt_reports_are_refused(rows: list[str], word: str) -> None:
    with pytest.raises(BadReport, match=word):
        Report.parse(report(*rows))


def test_a_cut_or_empty_report_is_refused() -> None:
    assert len(Report.parse(GOOD)) == 2
    for cut in range(len(GOOD)):
        with pytest.raises(BadReport):
            Report.parse(GOOD[:cut])
    for mark in ("\ufeff", "\n", "x"):
        with pytest.raises(BadReport):
            Report.parse(mark + GOOD)


def test_a_fault_is_named_by_file_and_line() -> None:
    with pytest.raises(BadReport, match=r"^bank\.csv:3: run 3 where run 2"):
        Report.parse(GOOD.replace("\n2,2", "\n3,2"), "bank.csv")


# Warm-ups


def test_warm_up_is_exact() -> None:
    late, early = replicate(BANK, Plan(400, runs=8)), replicate(BANK, Plan(100, runs=8))
    steady = replicate(BANK, Plan(400, runs=8, warm_up=100))
    for item in ("QUEUE", "IDLE"):
        rest = late.values(item, "area") - early.values(item, "area")
        assert (steady.values(item, "area") == rest).all()
        grown = late.values(item, "last") - early.values(item, "last")
        assert (steady.values(item, "change") == grown).all()
    assert (steady.values("QUEUE", "time") == 300).all() and steady.attrs.warm_up == 100
    again = Report.parse(steady.to_csv(with_provenance=True))
    assert again.attrs == steady.attrs and again.to_csv() == steady.to_csv()
    with pytest.raises(InputError, match="warm-up"):
        Plan(400, warm_up=400)


def test_a_running_count_after_a_warm_up_is_warned_of() -> None:
    """TICK/DONE was 0.29, where half of the events are a TICK: DONE.last counted those of the warm-up too."""
    text = (
        "version 2; model C; var DONE : 0..1000000 = 0; watch DONE, TICK;\n"
        "vertex GO { set DONE := DONE + 1; schedule GO after 1; urgent TICK when DONE % 2 = 0; } vertex TICK { } end\n"
    )
    made = replicate(text, Plan(100, runs=5, warm_up=40))
    for words in ("DONE.last", "DONE", "TICK/DONE", "DONE/TICK"):
        assert "DONE.change from the warm-up on" in made.estimate(words).warnings[-1]
    assert "DONE.change" in made.quantile("DONE", 0.5).warnings[-1]
    assert "DONE.change" in made.predict("DONE").warnings[-1]
    right = made.estimate("TICK/DONE.change")
    assert right.value == 0.5 and not any("DONE.change" in each for each in right.warnings)
    whole = replicate(text, Plan(100, runs=5)).estimate("TICK/DONE")
    assert not any("DONE.change" in each for each in whole.warnings)
    with pytest.raises(InputError, match="a sweep has it"):
        Report.parse(made.to_csv(with_provenance=True)).estimate("DONE.change")


@pytest.mark.parametrize(
    "times, areas, rest",
    [
        ((10000, 20000), (-12345678, -20000001), -7654323),
        ((1000, 9000), (-1000000, -9999999), -8999999),
    ],
)
def test_warm_up_of_negative_areas(
    times: tuple[int, int], areas: tuple[int, int], rest: int
) -> None:
    """The awk tool gave -12345677 for the first, and hung on the second."""
    early, late = (
        Report.parse(report(f"1,1,stopped,{t},X,-2000,0,0,{a},", f"total,,,,X,-2000,0,,{a},"))
        for t, a in zip(times, areas)
    )
    assert late.after(early).values("X", "area").tolist() == [rest]


def test_warm_up_of_decimals() -> None:
    """The awk tool gave 120034467 for 1234467.75."""
    early = Report.parse(report("1,1,stopped,99.75,X,,,0,99.75,", "total,,,,X,,,,99.75,"))
    late = Report.parse(report("1,1,stopped,480.125,X,,,0,1234567.5,", "total,,,,X,,,,1234567.5,"))
    steady = late.after(early)
    assert steady.values("X", "area")[0] == Fraction("1234467.75")
    assert steady.times == [Fraction("380.375")]
    assert Report.parse(steady.to_csv()).to_csv() == steady.to_csv()
    more = Report.parse(report("1,2,stopped,480.125,X,,,0,0.5,", "total,,,,X,,,,0.5,"))
    assert "1234568.0," in late.concat(more).to_csv().splitlines()[-1]


def test_other_runs_are_no_warm_up() -> None:
    early = Report.parse(report("1,1,stopped,10,E,,,,,5", "total,,,,E,,,,,5"))
    late = Report.parse(report("1,1,stopped,20,E,,,,,4", "total,,,,E,,,,,4"))
    with pytest.raises(InputError, match="doesn't go on"):
        late.after(early)
    ended = Report.parse(report("1,1,ended,10,E,,,,,4", "total,,,,E,,,,,4"))
    with pytest.raises(IncompleteRuns):
        late.after(ended)
    with pytest.raises(InputError, match="differ in events"):
        replicate(BANK, Plan(400, runs=2)).after(replicate(BANK, Plan(100, runs=2, events=9999)))


# Joining and comparing


def test_reports_of_other_designs_do_not_join() -> None:
    """Five runs with FREE=2 and five with FREE=6 joined silently."""
    rooms = example("emergency")
    two = replicate(rooms, Plan(960, runs=5, start=(2,)), label="two")
    six = replicate(rooms, Plan(960, runs=5, start=(6,)), first_run=6, label="six")
    with pytest.raises(InputError, match="start differ"):
        two.concat(six)
    with pytest.raises(InputError, match="start differ"):
        Report.parse(two.to_csv(with_provenance=True) + six.to_csv(with_provenance=True))
    for other in (
        replicate(rooms, Plan(900, runs=5, start=(2,)), first_run=6),
        replicate(rooms, Plan(960, runs=5, start=(2,), events=9999), first_run=6),
        replicate(rooms + "\n", Plan(960, runs=5, start=(2,)), first_run=6),
        replicate(rooms, Plan(960, runs=5, start=(2,), warm_up=60), first_run=6),
    ):
        with pytest.raises(InputError, match="differ|columns|items"):
            two.concat(other)
    with pytest.raises(BadReport, match="is that of two runs"):
        two.concat(two)


def test_a_series_goes_on() -> None:
    whole = replicate(BANK, Plan(600, runs=30))
    parts = [
        replicate(BANK, Plan(600, runs=10)),
        replicate(BANK, Plan(600, runs=15), first_run=11),
        replicate(BANK, Plan(600, runs=5), first_run=26),
    ]
    made = concat(parts)
    assert made.to_csv(with_provenance=True) == whole.to_csv(with_provenance=True)
    files = "".join(part.to_csv(with_provenance=True) for part in parts)
    assert Report.parse(files).to_csv() == whole.to_csv()
    assert Report.parse("".join(part.to_csv() for part in parts)).to_csv() == whole.to_csv()


def test_designs_are_compared_if_their_plans_allow_it() -> None:
    rooms = example("emergency")
    two, six = (replicate(rooms, Plan(960, runs=5, start=(k,))) for k in (2, 6))
    check_comparable({"two": two, "six": six})
    with pytest.raises(InputError, match="in common"):
        check_comparable({"two": two, "six": six}, paired=False)
    fresh = replicate(rooms, Plan(960, runs=5, start=(6,), seed=2))
    check_comparable({"two": two, "six": fresh}, paired=False)
    with pytest.raises(InputError, match="other seeds"):
        check_comparable({"two": two, "six": fresh})
    short = replicate(rooms, Plan(900, runs=5, start=(6,)))
    with pytest.raises(InputError, match="stopped at other times"):
        check_comparable({"two": two, "six": short})
    with pytest.raises(InputError, match="warm_up|other times"):
        steady = replicate(rooms, Plan(960, runs=5, warm_up=60, start=(2,)))
        check_comparable({"two": two, "six": steady})


def test_runs_that_were_cut_off() -> None:
    short = replicate(BANK, Plan(600, events=300, runs=8))
    with pytest.raises(IncompleteRuns, match="8 spent the budget"):
        short.sample("QUEUE.average")
    kept = replicate(BANK, Plan(600, events=300, runs=8, on_cut="keep"))
    assert len(kept.sample("QUEUE.average")) == 8


# Provenance


def test_a_spoilt_line_of_provenance_is_refused() -> None:
    text = replicate(BANK, Plan(600, runs=2)).to_csv(with_provenance=True)
    assert Report.parse(text).attrs.until == 600
    for found, put in (
        ('"until":600', '"until":601'),
        ('"runs"', '"run"'),
        ('{"events"', '{ "events"'),
        ('"seed":1', '"seed":-1'),
        ('"seed":1', '"seed":"1"'),
        (",480,", ",481,"),
        ("\n1,", "\n\n1,"),
    ):
        if found in text:
            with pytest.raises(BadReport):
                Report.parse(text.replace(found, put, 1))
    with pytest.raises(BadReport):
        Report.parse(text.splitlines(keepends=True)[0])


@given(st.binary(max_size=300))
def test_any_bytes_are_a_report_or_are_refused(data: bytes) -> None:
    for text in (data, GOOD.encode() + data, data + GOOD.encode()):
        try:
            made = Report.parse(text)
        except (BadReport, InputError):
            continue
        assert made.to_csv().encode() == text


def test_columns_that_are_written_are_read_again() -> None:
    columns = report_text.read(GOOD.encode())[0]
    assert report_text.write(columns) == GOOD
    assert replace(columns, seeds=[7, 8]) != columns
    assert re.search(r"^2,8,ended", report_text.write(replace(columns, seeds=[7, 8])), re.M)
