"""Batch means, streams and warm-up."""

from __future__ import annotations

import math
import re

import numpy as np
import pytest
from scipy.signal import lfilter

from sigma_lab import stats
from sigma_lab.errors import InputError, NoEstimate
from sigma_lab.streams import AreaStream


def areas(x):
    """The areas of a value that changes each tick."""
    sums = np.concatenate([[0], np.cumsum(x)])
    return lambda edges: np.diff(sums[np.asarray(edges)])


def autoregressive(g, n, r):
    """A series whose neighbours correlate by r, with mean 0 and deviation 1."""
    noise = g.normal(size=n) * math.sqrt(1 - r * r)
    noise[0] = g.normal()
    return lfilter([1], [1, -r], noise)


def share_held(make, truth, groups):
    made = [make(np.random.default_rng(k)) for k in range(groups)]
    return 100 * np.mean([e.low <= truth <= e.high for e in made])


def test_means_hold():
    def make(g):
        return stats.batch_means(areas(autoregressive(g, 40000, 0.9)), 7, 40000).estimate

    assert 93 <= share_held(make, 0, 200) <= 100


def test_batches_are_of_one_length():
    made = stats.batch_means(areas(np.random.default_rng(1).normal(size=4123)), 0, 4123)
    assert made.length == 100 and made.start == 23 and len(made.means) == 41


def test_skewed_and_dependent_values_hold_if_one_goes_on():
    hits = []
    for k in range(60):
        x = np.exp(autoregressive(np.random.default_rng(k), 2_000_000, 0.98))
        n = 4000
        while n <= len(x):
            try:
                made = stats.batch_means(areas(x[:n]), 0, n).estimate
                hits.append(made.low <= math.exp(0.5) <= made.high)
                break
            except NoEstimate as error:
                found = re.search(r"until=(\d+)", str(error))
                n = int(found[1])
    assert len(hits) >= 55 and np.mean(hits) >= 0.88


def test_ratios_hold():
    """Waiting by departures: both sides depend on themselves and on each other."""

    def make(g):
        level = np.exp(0.3 * autoregressive(g, 60000, 0.95))
        below = g.poisson(level)
        above = g.poisson(3 * level)
        return stats.batch_ratio(areas(above), areas(below), 0, 60000).estimate

    assert 92 <= share_held(make, 3, 200) <= 99.5


def test_quantiles_hold():
    def make(g):
        return stats.batch_quantile(autoregressive(g, 40000, 0.9), 0.9).estimate

    assert 92 <= share_held(make, 1.2815515655446004, 150) <= 100


@pytest.mark.parametrize(
    "begin, end, length",
    [(0, 7, None), (0, 7, 7), (3, 4000, 7), (0, 3999, 13), (0, 399, None), (5, 800, 19)],
)
def test_batches_never_hang(begin, end, length):
    x = np.random.default_rng(1).normal(size=5000)
    try:
        made = stats.batch_means(areas(x), begin, end, length=length, check=False)
    except NoEstimate:
        assert (length or (end - begin) // 40) < 20
    else:
        assert len(made.means) >= 40


def test_batches_that_are_too_short_say_how_long():
    x = np.repeat(np.random.default_rng(1).normal(size=50), 100)
    with pytest.raises(NoEstimate, match="go on to until="):
        stats.batch_means(areas(x), 0, 5000)
    with pytest.raises(NoEstimate, match="values"):
        stats.batch_quantile(x, 0.5)


def test_a_stream_has_the_areas_of_the_run():
    g = np.random.default_rng(2)
    times = np.concatenate([[0], np.cumsum(g.integers(0, 5, 30000))])
    values = g.integers(-3, 9, len(times))
    end = int(times[-1]) + 7
    stream = AreaStream(cells=256)
    stream.hold(times.tolist(), values.tolist())
    stream.close(end)
    assert 256 <= end // stream.grain <= 512 * 2 and stream.grain & (stream.grain - 1) == 0
    course = np.repeat(values, np.diff(np.append(times, end)))
    edges = np.arange(0, end + 1, stream.grain)
    assert (stream.areas(edges) == areas(course)(edges)).all()
    counted = AreaStream(cells=256)
    counted.count(times.tolist())
    counted.close(end)
    before = np.searchsorted(times, np.arange(0, end + 1, counted.grain), side="left")
    assert (counted.areas(np.arange(0, end + 1, counted.grain)) == np.diff(before)).all()
    with pytest.raises(InputError):
        stream.areas(np.array([0, 3]))
    with pytest.raises(InputError):
        stream.hold([0], [1])


def test_batches_of_a_stream_hold():
    def make(g):
        x = autoregressive(g, 50000, 0.9)
        stream = AreaStream(cells=2048)
        stream.hold(list(range(len(x))), (1000 * x).round().astype(int).tolist())
        stream.close(len(x))
        made = stats.batch_means(stream.areas, 1000, len(x), grain=stream.grain)
        return made.estimate

    assert 91 <= share_held(make, 0, 60) <= 100


def test_welch_and_mser():
    t = np.arange(400)
    g = np.random.default_rng(1)
    steps = 5 - 5 * np.exp(-t / 20) + g.normal(0, 0.3, (30, 400))
    made = stats.warmup_curve(steps, 10, 5)
    assert made.advise() == made.mser and 400 <= made.mser <= 1500
    assert abs(made.frame["smooth"].iloc[200] - steps[:, 195:206].mean()) < 1e-12
    assert np.isnan(made.frame["smooth"].iloc[-1])
    assert stats.mser5(np.arange(100.0)) is None


def test_mser_of_large_numbers():
    """It cancelled: 125 or None for x + 10^8."""
    x = np.random.default_rng(1).normal(0, 1, 2000)
    x[:200] += 20 * np.exp(-np.arange(200) / 40)
    assert len({stats.mser5(x + shift) for shift in (0, 1e6, 1e8, 1e9)}) == 1
