"""Intervals of formulas hold whatever the names are, and are exact where each name stands once."""

from __future__ import annotations

import math

import pytest
from hypothesis import given
from hypothesis import strategies as st

from sigma_lab.errors import InputError
from sigma_lab.formula import Formula
from sigma_lab.intervals import interval_of

ENDS = {"A": (-5, 7), "B": (0, 10), "C": (3, 4)}
LEAVES = st.sampled_from(["A", "B", "C", "2", "0", "3.5", "true"])


def _joined(parts: st.SearchStrategy[str]) -> st.SearchStrategy[str]:
    operators = st.sampled_from("+ - * / // % < <= = <> and or".split())
    return st.one_of(
        st.tuples(parts, operators, parts).map(lambda each: f"({each[0]} {each[1]} {each[2]})"),
        st.tuples(st.sampled_from(["-", "not ", "abs"]), parts).map(lambda e: f"({e[0]}({e[1]}))"),
        st.tuples(st.sampled_from(["min", "max"]), parts, parts).map(
            lambda each: f"{each[0]}({each[1]}, {each[2]})"
        ),
        parts.map(lambda each: f"(1 < {each} < 6)"),
    )


@given(
    st.recursive(LEAVES, _joined, max_leaves=6),
    st.fixed_dictionaries({name: st.integers(*ends) for name, ends in ENDS.items()}),
)
def test_no_value_lies_beyond_its_interval(words: str, values: dict[str, int]) -> None:
    formula = Formula(words)
    low, high = interval_of(formula, formula.tree, lambda name: ENDS[name])
    try:
        value = float(formula(values.__getitem__))
    except InputError:
        return
    slack = 1e-9 * max(1.0, abs(value))
    assert low - slack <= value <= high + slack


@pytest.mark.parametrize(
    "words, expected",
    [
        ("A", (-5, 7)),
        ("A - 2*B", (-25, 7)),
        ("A*B", (-50, 70)),
        ("abs(A)", (0, 7)),
        ("abs(0 - C)", (3, 4)),
        ("min(A, C)", (-5, 4)),
        ("B/4", (0, 2.5)),
        ("A//2", (-3, 3)),
        ("B % 7", (0, 7)),
        ("A/B", (-math.inf, math.inf)),
        ("not A", (0, 1)),
        ("(A > 2) + (B > 3)", (0, 2)),
        ("1" + "0" * 400, (math.inf, math.inf)),
    ],
)
def test_ends(words: str, expected: tuple[float, float]) -> None:
    formula = Formula(words)
    assert interval_of(formula, formula.tree, lambda name: ENDS[name]) == expected
