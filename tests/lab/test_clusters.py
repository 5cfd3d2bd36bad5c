"""Values at events, in clusters of runs."""

from __future__ import annotations

import math

import numpy as np
import pytest

from sigma_lab import clusters
from sigma_lab.errors import NoEstimate
from sigma_lab.observations import Observations


def observations(matrix):
    """A run in each row."""
    runs, count = matrix.shape
    return Observations(
        np.repeat(np.arange(runs), count), matrix.ravel(), np.arange(runs, dtype=np.uint64)
    )


def lindley(g, runs=20, customers=300, load=0.8):
    """Waits in M/M/1 by Lindley's equation."""
    gaps, services = g.exponential(1, (runs, customers)), g.exponential(load, (runs, customers))
    wait, out = np.zeros(runs), np.empty((runs, customers))
    for k in range(customers):
        out[:, k] = wait
        wait = np.maximum(0.0, wait + services[:, k] - gaps[:, k])
    return observations(out)


def test_they_hold():
    truth = lindley(np.random.default_rng(10**6), 20000).value
    groups = [lindley(np.random.default_rng(k)) for k in range(80)]
    for make, value in (
        (clusters.mean, truth.mean()),
        (lambda o: clusters.share_at_most(o, 2), (truth <= 2).mean()),
        (lambda o: clusters.quantile(o, 0.9), np.quantile(truth, 0.9)),
        (lambda o: clusters.quantile(o, 0.99), np.quantile(truth, 0.99)),
    ):
        made = [make(group) for group in groups]
        share = 100 * np.mean([not (e.low > value or e.high < value) for e in made])
        assert share >= 86, (share, value)


def test_no_quantile_ends_at_the_greatest_value_without_ground():
    """0.9999 of them were at most 2463, from 2463 to 2463."""
    made = lindley(np.random.default_rng(3), 5, 1000)
    far = clusters.quantile(made, 0.9999)
    assert math.isnan(far.high) and any("too few runs" in each for each in far.warnings)
    for p in (0.5, 0.9, 0.99, 0.999):
        here = clusters.quantile(made, p)
        assert not here.high <= here.low


def test_shares_of_all_and_none():
    made = lindley(np.random.default_rng(3), 10, 50)
    assert 0 < clusters.share_at_most(made, 1e9).low < 1
    assert 0 < clusters.share_at_most(made, -1).high < 1


def test_a_scale_comes_last():
    raw = lindley(np.random.default_rng(3), 10, 50)
    hours = Observations(raw.run, raw.value, raw.seeds, 1 / 60, "h")
    for make in (clusters.mean, lambda o: clusters.quantile(o, 0.9)):
        assert make(hours).low == pytest.approx(make(raw).low / 60) and make(hours).unit == "h"


def busy_days(seed, busy):
    """A day is busy or not; busy days have many customers with long waits."""
    g = np.random.default_rng(seed)
    run, value = [], []
    for day in range(200):
        is_busy = g.random() < busy
        n = 200 if is_busy else 5
        run += [day] * n
        value += list(g.exponential(60 if is_busy else 20, n))
    return Observations(np.array(run), np.array(value), np.arange(200, dtype=np.uint64))


def test_a_difference_of_quantiles_is_that_of_the_values():
    """The column `more` was over days, the column `value` over customers: they had other signs."""
    a, b = busy_days(1, 0.2), busy_days(2, 0.3)
    apart = clusters.quantile(b, 0.9).value - clusters.quantile(a, 0.9).value
    made = clusters.quantile_difference(a, b, 0.9)
    assert made.value == pytest.approx(apart) and made.low <= apart <= made.high


def test_a_bootstrap_of_a_quantile_holds():
    hits = []
    for k in range(100):
        g = np.random.default_rng(k)
        common = g.normal(size=(40, 30)) + g.normal(size=(40, 1))
        a, b = observations(common), observations(common + 0.3 + 0.2 * g.normal(size=(40, 30)))
        made = clusters.quantile_difference(a, b, 0.5, resamples=199)
        hits.append(made.low <= 0.3 <= made.high)
    assert np.mean(hits) >= 0.88


def test_few_runs_have_no_interval():
    one = observations(np.ones((1, 9)) * np.arange(9))
    assert math.isnan(clusters.mean(one).low) and math.isnan(clusters.quantile(one, 0.5).low)
    none = Observations(np.array([], dtype=int), np.array([]), np.arange(3, dtype=np.uint64))
    for make in (clusters.mean, lambda o: clusters.quantile(o, 0.5)):
        with pytest.raises(NoEstimate):
            make(none)
