"""Estimates from independent runs, against numpy, scipy, statsmodels and theory."""

from __future__ import annotations

import math

import numpy as np
import pytest
from hypothesis import given, settings
from hypothesis import strategies as st
from scipy import stats as ss

from sigma_lab import estimators, stats
from sigma_lab.errors import InputError, NoEstimate
from sigma_lab.estimates import Estimate, sample_quantile
from sigma_lab.measures import Sample


def held(make, truth, groups=400):
    """How many intervals of a hundred hold the truth; a missing end is no fault."""
    made = [make(np.random.default_rng(k)) for k in range(groups)]
    return 100 * np.mean([not (e.low > truth or e.high < truth) for e in made])


def test_student_t_is_scipy_s():
    x = np.random.default_rng(1).normal(5, 2, 40)
    made = stats.mean(x, method="t", confidence_level=0.9)
    low, high = ss.t.interval(0.9, 39, x.mean(), ss.sem(x))
    assert (made.value, made.low, made.high) == pytest.approx((x.mean(), low, high), abs=1e-12)
    assert (made.n, made.df, made.confidence_level) == (40, 39, 0.9)


def test_willink_by_his_own_formula():
    """Willink 2005: the interval is mean - g(t) s / sqrt(n), with g the inverse of Johnson's cubic."""
    x = np.random.default_rng(4).exponential(1, 25)
    made = stats.mean(x)
    a = ss.skew(x, bias=False) / 6 / math.sqrt(25)
    for end, t in ((made.low, ss.t.ppf(0.975, 24)), (made.high, ss.t.ppf(0.025, 24))):
        r = (x.mean() - end) / (x.std(ddof=1) / 5)
        assert r + a * (1 + 2 * r**2) * 1.0 == pytest.approx(t, abs=0.25)
    assert made.high - made.value > made.value - made.low and "Willink" in made.method


def test_large_whole_numbers_lose_nothing():
    base = 2**100
    x = np.array([base + k for k in (2, 3, 4, 7)], dtype=object)
    assert stats.mean(x).standard_error == pytest.approx(np.std([2, 3, 4, 7], ddof=1) / 2)
    assert stats.paired_difference(x, x + np.array([1, 2, 1, 2], dtype=object)).value == 1.5
    near = 2**53 + np.array([0, 1, 2, 3, 4])
    assert stats.mean(near, method="t").standard_error == pytest.approx(ss.sem([0, 1, 2, 3, 4]))


def test_ends_that_a_float_cant_tell_apart_are_said():
    """The half width of 2^62 + 1 and 2^62 + 3 was 0."""
    made = estimators.mean(np.array([2**62 + 1, 2**62 + 3], dtype=object))
    assert made.standard_error == 1 and "25.4 apart: take a number off first" in made.warnings[-1]
    assert not estimators.mean(np.array([1, 3], dtype=object)).warnings
    assert not estimators.mean([2.0**53, 2.0**53 + 400]).warnings


@settings(deadline=None, max_examples=30)
@given(st.floats(-1e9, 1e9), st.integers(2, 50))
def test_equal_values_are_no_certainty(x, n):
    made = stats.mean(np.full(n, x))
    assert math.isnan(made.low) and math.isnan(made.high)
    assert any("no certainty" in warning for warning in made.warnings)


def test_equal_values_with_a_known_range():
    """30 days without a loss, of which a day can have 40: up to 11.6 % of days may have one."""
    made = stats.mean([0] * 30, bounds=(0, 40))
    share = 1 - 0.025 ** (1 / 30)
    assert (made.low, made.high) == (0, pytest.approx(40 * share))
    some = stats.mean([7] * 30, bounds=(0, 10))
    assert (some.low, some.high) == pytest.approx((7 - 7 * share, 7 + 3 * share))


def test_none_seen_of_clustered_counts():
    """A zero was called an exact Poisson bound of anything whole: 40 on 2 % of days held 63 %."""

    def rare(g):
        return 40 * g.binomial(1, 0.02, 50)

    assert held(lambda g: stats.mean(rare(g), bounds=(0, 40)), 0.8, 300) >= 91
    assert math.isnan(stats.mean([0] * 30).high)
    made = stats.mean([0] * 30, method="poisson")
    assert (made.low, made.high) == (0, pytest.approx(-math.log(0.025) / 30))
    assert held(lambda g: stats.mean(g.poisson(0.02, 40), method="poisson"), 0.02) >= 95


def test_a_unit_doesnt_change_the_method():
    """1 of 30 late had 0.08 to 17.2 %, and in per cent -3.5 to 10.2."""
    late = np.array([1] + [0] * 29, dtype=object)
    seeds = np.arange(30, dtype=np.uint64)
    plain = stats.estimate(Sample(seeds, late))
    in_parts = stats.estimate(Sample(seeds, late, scale=100, unit="%"))
    assert (in_parts.low, in_parts.high) == pytest.approx((100 * plain.low, 100 * plain.high))
    assert in_parts.high == pytest.approx(100 * ss.binomtest(1, 30).proportion_ci(0.95).high)
    ratio = [
        stats.estimate(Sample(seeds, late, np.full(30, 50, dtype=object), scale=k)).high
        for k in (1, 100)
    ]
    assert ratio[1] == pytest.approx(100 * ratio[0])


def test_a_negative_scale_turns_the_interval():
    made = Estimate(2, 1, 4, 0.5, 9).scale(-3, "EUR")
    assert (made.value, made.low, made.high, made.standard_error) == (-6, -12, -3, 1.5)
    assert made.half_width == 6 and made.unit == "EUR"
    with pytest.raises(InputError):
        made.scale(0)


def test_zeros_and_ones_are_a_share():
    some = stats.mean([0, 1] + [0] * 28)
    assert some.low > 0 and "Clopper" in some.method
    assert held(lambda g: stats.mean(g.binomial(1, 0.05, 40)), 0.05) >= 95
    assert stats.mean([True, False, True]).value == pytest.approx(2 / 3)
    wide = stats.mean([0, 1] + [0] * 28, bounds=(0, 40))
    assert any("only 0 and 1" in warning for warning in wide.warnings)
    assert stats.mean([0] * 9, bounds=(0, 1)).high == pytest.approx(1 - 0.025 ** (1 / 9))


def test_ratios_are_of_the_totals():
    a, b = np.array([1, 2, 3, 10]), np.array([2, 5, 4, 9])
    made = stats.ratio(a, b)
    rest = [(a.sum() - a[i]) / (b.sum() - b[i]) for i in range(4)]
    assert made.value == 16 / 20
    assert made.standard_error == pytest.approx(
        math.sqrt(3 / 4 * ((rest - np.mean(rest)) ** 2).sum())
    )
    for bad in (lambda: stats.ratio([1, 2], [0, 0]), lambda: stats.mean_of_ratios([1, 2], [0, 1])):
        with pytest.raises(NoEstimate):
            bad()


def test_none_lost_of_those_who_came():
    """LOST/CAME of none lost was exact, 0 to 0.00369, whatever the clusters."""
    made = stats.ratio(np.zeros(20), np.full(20, 50))
    assert made.value == 0 and math.isnan(made.high) and made.warnings


@settings(max_examples=80, deadline=None)
@given(st.integers(5, 400), st.floats(0.02, 0.98), st.sampled_from([0.8, 0.95, 0.99]))
def test_ends_of_quantiles_hold_by_the_binomial(n, p, level):
    made = stats.quantile(np.arange(1, n + 1), p, confidence_level=level)
    half = (1 - level) / 2
    if not math.isnan(made.low):
        assert ss.binom.cdf(made.low - 1, n, p) <= half + 1e-12
        assert ss.binom.cdf(made.low, n, p) > half - 1e-12
    else:
        assert (1 - p) ** n > half - 1e-12
    if not math.isnan(made.high):
        assert ss.binom.sf(made.high - 1, n, p) <= half + 1e-12
    else:
        assert p**n > half - 1e-12 and any("takes" in each for each in made.warnings)


def test_one_definition_of_a_quantile():
    """The quantile 0.9 of 1 .. 10 was 9 here and 10 there."""
    from sigma_lab import clusters
    from sigma_lab.observations import Observations

    x = np.arange(1, 11.0)
    seen = Observations(np.repeat([0, 1], 10), np.tile(x, 2), np.arange(2, dtype=np.uint64))
    assert sample_quantile(x, 0.9) == stats.quantile(x, 0.9).value == 9
    assert clusters.quantile(seen, 0.9).value == 9
    assert list(seen.by_run((0.9,))["q0.9"]) == [9, 9]
    assert sample_quantile(np.arange(1, 101), 0.07) == 7  # 100 * 0.07 is above 7 by rounding
    assert sample_quantile(x, 0.9) == np.quantile(x, 0.9, method="inverted_cdf")


def test_quantiles_hold():
    truth = ss.expon.ppf(0.9)
    assert held(lambda g: stats.quantile(g.exponential(size=50), 0.9), truth) >= 94


def test_predictions_hold():
    for n in (10, 60):
        hits = []
        for k in range(300):
            g = np.random.default_rng(k)
            made = stats.prediction(g.normal(3, 2, n))
            hits.append(made.low <= g.normal(3, 2) <= made.high)
        assert 92 <= 100 * np.mean(hits) <= 98


def test_a_prediction_of_equal_values_has_no_interval():
    """30 fives predicted 5 to 5."""
    for n in (30, 60):
        made = stats.prediction([5] * n)
        assert math.isnan(made.low) and math.isnan(made.high)


def test_means_hold():
    for n in (5, 20):
        assert 91 <= held(lambda g, n=n: stats.mean(g.normal(size=n)), 0, 300) <= 98.5
    assert held(lambda g: stats.mean(g.exponential(size=10)), 1, 400) >= 91
    assert 92 <= held(lambda g: stats.ratio(g.gamma(4, 2, 20), g.gamma(4, 1, 20)), 2) <= 98


@pytest.mark.parametrize(
    "bad",
    [
        lambda: stats.mean([]),
        lambda: stats.mean([1, math.nan]),
        lambda: stats.mean([1, 2], confidence_level=95),
        lambda: stats.mean([1, 2, 3], method="willink"),
        lambda: stats.mean([1, 2, 3], method="exact"),
        lambda: stats.mean([1, -2, 3], method="poisson"),
        lambda: stats.quantile([1, 2], 1.0),
        lambda: stats.quantile([1, 2, math.nan] * 10, 0.5),
        lambda: stats.ratio([1, 2, math.nan], [1, 1, 1]),
        lambda: stats.ratio([1, 2, 3], [1, 1]),
        lambda: stats.prediction([1, math.inf]),
        lambda: stats.welch_difference([1, 2, math.nan], [1, 1, 1]),
        lambda: stats.compare({"a": [1, 2]}),
        lambda: stats.proportion(3, 2),
        lambda: stats.paired_difference([1, 2], [1, 2, 3]),
        lambda: estimators.quantile(Sample(np.zeros(2), np.ones(2), np.ones(2)), 0.5),
    ],
)
def test_what_has_no_answer(bad):
    with pytest.raises(InputError):
        bad()
