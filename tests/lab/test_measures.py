"""Measures and formulas: what words mean, and which are refused."""

from __future__ import annotations

import numpy as np
import pytest
from hypothesis import given
from hypothesis import strategies as st
from lab import example, report

from sigma_lab.errors import InputError, LabError
from sigma_lab.formula import Formula
from sigma_lab.measures import EventMeasure, Measure, at, count, item, measure, ratio, values_at
from sigma_lab.plan import Plan
from sigma_lab.replication import replicate
from sigma_lab.report import Report

ROWS = ("1,1,ended,10,W,0,90,30,200,", "1,1,ended,10,C,,,,,3")
MORE = ("2,2,ended,10,W,0,90,90,500,", "2,2,ended,10,C,,,,,1")
SMALL = Report.parse(report(*ROWS, *MORE, "total,,,,W,0,90,,700,", "total,,,,C,,,,,4"))


def test_terms_have_the_column_that_they_name() -> None:
    assert SMALL.sample("W.last").above.tolist() == [30, 90]
    assert SMALL.sample("W").above.tolist() == [30, 90]
    assert SMALL.sample("C").above.tolist() == [3, 1]
    assert SMALL.sample("W average").above.tolist() == [20.0, 50.0]
    assert SMALL.sample("60*C+W.area").above.tolist() == [380, 560]
    assert SMALL.sample("W.time").above.tolist() == [10, 10]


def test_a_factor_does_not_change_what_is_estimated() -> None:
    """`60*W/C` was the ratio of totals, and `W/C*60` the mean of single ratios."""
    for words, factor in (("60*W/C", 1.0), ("W/C*60", 60.0), ("W/C/2", 0.5), ("-W/C", -1.0)):
        sample = SMALL.sample(words)
        assert sample.below is not None and sample.below.tolist() == [3, 1]
        total = sample.scale * sum(sample.above) / sum(sample.below)
        sign = -1 if words.startswith("-") else 1
        assert total == pytest.approx(
            sign * 30 * {"60*W/C": 60, "W/C*60": 60}.get(words, abs(factor))
        )


@pytest.mark.parametrize(
    "words", ["W/C + 0", "1 + W/C", "W/C/C", "(W/C)*C", "W/C - W/C", "W//C", "W%C"]
)
def test_a_name_below_a_line_of_a_larger_formula_is_refused(words: str) -> None:
    with pytest.raises(InputError, match="ratio of totals"):
        measure(words)


def test_what_is_a_count() -> None:
    assert SMALL.sample("C").is_count and SMALL.sample(count("C")).is_count
    assert not SMALL.sample("2*C").is_count
    assert not SMALL.sample("W").is_count and not SMALL.sample("W.area").is_count


def test_units_scale_estimates_and_leave_numbers_exact() -> None:
    made = SMALL.sample("W.area in 60=hours")
    assert made.above.tolist() == [200, 500] and made.scale == 1 / 60 and made.unit == "hours"
    assert SMALL.sample("C/W in %").scale == 100
    made = SMALL.sample(ratio("W", "C", scale=60, unit="min"))
    assert made.below is not None
    assert (made.scale, made.unit, sum(made.above), sum(made.below)) == (60, "min", 120, 4)


def test_labels() -> None:
    assert item("QUEUE", "average").label == "QUEUE.average"
    assert measure("QUEUE average").label == "QUEUE.average"
    assert measure("A[0]+A[1] last").label == "A[0]+A[1] last"
    assert ratio("WAITED", "LEAVE", scale=60, unit="min").label == "WAITED/LEAVE in min"
    assert at("DOOR", "WAIT").quantile(0.9).label == "DOOR:WAIT.q0.9"
    assert at("DOOR", "WAIT").share_at_most(200).label == "DOOR:WAIT<=200"


def test_measures_at_events() -> None:
    made = measure("DOOR:WAIT q0.95 where CLASS = 1 in 60=min")
    assert isinstance(made, EventMeasure)
    assert (made.event, made.value, made.probability) == ("DOOR", "WAIT", 0.95)
    assert (made.where, made.scale, made.unit) == ("CLASS = 1", 1 / 60, "min")
    assert measure("DOOR:WAIT<=200") == at("DOOR", "WAIT").share_at_most(200)
    assert measure("DOOR:WAIT.q0.9") == at("DOOR", "WAIT").quantile(0.9)
    assert values_at("DOOR:WAIT where CLASS = 1").where == "CLASS = 1"
    for words in ("DOOR:WAIT.q1.5", "DOOR:.mean", ":WAIT.mean", "DOOR:1.mean"):
        with pytest.raises(InputError):
            measure(words)


@pytest.mark.parametrize(
    "words, why",
    [
        ("CLOSE.average", "is an event"),
        ("QUEUES.average", "no item QUEUES"),
        ("", "no item"),
        ("1 + 2", "no item"),
        ("QUEUE least greatest", "formula"),
        ("QUEUE.least greatest", "names two columns, least and greatest"),
        ("QUEUE.count", "is a variable"),
        ("QUEUE last/count", "one column"),
        ("__import__('os')", "formula"),
        ("QUEUE.__class__", "formula"),
        ("QUEUE mean", "no column mean"),
        ("QUEUE.mean", "no column mean"),
        ("QUEUE/0", "divides by 0"),
        ("QUEUE.average in 0=h", "above 0"),
        ("max(QUEUE", "formula"),
        ("QUEUE if IDLE else 2", "formula"),
        ("[QUEUE]", "formula"),
        ("QUEUE**9999", "formula"),
        ("QUEUE.change", "no change"),
        ("abs(QUEUE, IDLE)", "formula"),
        ("(" * 3000 + "QUEUE", "formula"),
    ],
)
def test_words_that_ask_for_nothing(words: str, why: str) -> None:
    bank = replicate(example("bank"), Plan(600, runs=3))
    with pytest.raises(InputError, match=why):
        bank.sample(words)


def test_an_unknown_column_is_refused_in_python_too() -> None:
    with pytest.raises(InputError):
        item("Q", "mean")
    with pytest.raises(InputError):
        Measure("Q", scale=0.0)
    with pytest.raises(InputError):
        ratio("", "C")


def test_formulas_are_exact_on_whole_numbers() -> None:
    large = np.array([2**62, 1], dtype=object)
    assert Formula("4*A+1")(lambda name: large).tolist() == [2**64 + 1, 5]
    assert Formula("S < UPTO and not S = 3")(lambda name: {"S": 2, "UPTO": 5}[name])
    assert not Formula("S < UPTO and not S = 2")(lambda name: {"S": 2, "UPTO": 5}[name])
    assert Formula("min(A, 3) <> 2 or false")(lambda name: 5)
    assert Formula("a.last - a.last").names == ("a.last",)


def test_truth_values_count_as_0_or_1() -> None:
    """The sum of two conditions was 1 where both held, as of `or`."""
    assert SMALL.sample("(W > 20) + (C > 2)").above.tolist() == [2, 1]
    assert SMALL.sample("(W > 50) - (C > 2)").above.tolist() == [-1, 1]
    assert SMALL.sample("-(W > 50)").above.tolist() == [0, -1]
    assert Formula("(A > 2) + (A > 3)")(lambda name: 5) == 2


@given(
    st.lists(st.integers(-(2**63), 2**63 - 1), min_size=1, max_size=4),
    st.integers(0, 2**65),
    st.sampled_from(["A*A*A*A", "A*K", "A+K", "K-A", "-A", "abs(A)", "max(A, K)", "A//(K+1)"]),
)
def test_formulas_never_leave_64_bits_without_a_word(
    values: list[int], constant: int, words: str
) -> None:
    """A = 10^6 times 10^14 was 7766279631452241920."""
    words = words.replace("K", str(constant))
    made = np.asarray(Formula(words)(lambda name: np.array(values))).tolist()
    assert made == [Formula(words)(lambda name: int(value)) for value in values]


LETTERS = st.text("QUEUEIDLEabs.01()[]+-*/%<>= ,'\"_", max_size=40)


@given(LETTERS)
def test_any_words_are_a_measure_or_are_refused(words: str) -> None:
    try:
        made = measure(words)
        if isinstance(made, Measure):
            SMALL.sample(made)
    except LabError:
        pass
