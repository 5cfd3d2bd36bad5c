"""Differences of designs, and the best one."""

from __future__ import annotations

import math

import numpy as np
import pytest
from scipy import stats as ss

from sigma_lab import stats


def test_pairs_and_independent_runs():
    g = np.random.default_rng(2)
    common = g.normal(size=100)
    a, b = common + g.normal(0, 0.1, 100), common + 0.5 + g.normal(0, 0.1, 100)
    pair, apart = stats.paired_difference(a, b), stats.welch_difference(a, b)
    assert pair.half_width < apart.half_width / 5
    assert stats.pairing_gain(a, b) > 50
    reference = ss.ttest_rel(b, a)
    assert pair.value / pair.standard_error == pytest.approx(reference.statistic)
    reference = ss.ttest_ind(b, a, equal_var=False)
    assert apart.value / apart.standard_error == pytest.approx(reference.statistic)
    assert 2 * ss.t.sf(abs(apart.value) / apart.standard_error, apart.df) == pytest.approx(
        reference.pvalue
    )


def test_pairs_of_truth_values():
    """They ended in a TypeError."""
    made = stats.paired_difference([True, False, True, False], [False, True, True, True])
    assert made.value == 0.25


def test_intervals_and_p_values_agree():
    """Unpaired, p had n - 1 degrees of freedom and the interval Welch's: they disagreed in 5 %."""
    disagree = 0
    for k in range(25):
        g = np.random.default_rng(k)
        designs = {"a": g.normal(0, 1, 10), "b": g.normal(1.0, 2, 10)}
        for paired in (True, False):
            row = stats.compare(designs, paired=paired).iloc[0]
            disagree += (row["low"] > 0 or row["high"] < 0) != (row["p_adjusted"] < 0.05)
    assert disagree == 0


def test_equal_differences_have_no_p_value():
    """30 differences, all 5, had p = 1."""
    table = stats.compare({"a": np.zeros(30), "b": np.full(30, 5.0), "c": np.arange(30.0)})
    assert table["more"][0] == 5
    assert math.isnan(table["p"][0]) and math.isnan(table["p_adjusted"][0])
    assert math.isnan(table["low"][0]) and table["p"][1] < 0.001
    assert table["p_adjusted"][1] == pytest.approx(2 * table["p"][1])


def test_many_designs_hold_together():
    misses = 0
    for k in range(80):
        g = np.random.default_rng(k)
        table = stats.compare({f"d{i}": g.normal(size=25) for i in range(5)}, against="all")
        misses += ((table["low"] > 0) | (table["high"] < 0)).any()
    assert misses / 80 < 0.12
    assert len(table) == 10 and (table["p_adjusted"] >= table["p"]).all()


def mcb_of(k, spread=0.5):
    g = np.random.default_rng(k)
    common = g.normal(size=30)
    means = {"a": 0.0, "b": 0.1, "c": 1.0}
    return stats.mcb(
        {name: common + mu + g.normal(0, spread, 30) for name, mu in means.items()}
    ).set_index("design")


def test_the_best_is_among_those_that_may_be():
    right = held = 0
    truth = {
        "a": 0.1,
        "b": -0.1,
        "c": -1.0,
    }  # how much better than the best other one; less is better
    for k in range(100):
        made = mcb_of(k)
        right += made.loc["a", "may_be_best"]
        assert not made.loc["c", "may_be_best"]
        held += all(made.loc[n, "low"] <= x <= made.loc[n, "high"] for n, x in truth.items())
    assert right >= 93 and held >= 93


def test_a_clear_best_is_said():
    made = mcb_of(1, 0.01)
    assert list(made["is_best"]) == [True, False, False] and made.loc["a", "low"] == 0
    assert made.loc["b", "high"] == 0
    greatest = stats.mcb({"x": [1.0, 2, 3, 4], "y": [5.0, 6.5, 7, 9]}, minimize=False)
    assert list(greatest["is_best"]) == [False, True]
