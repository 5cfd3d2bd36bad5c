"""Estimates from values at events, which are clusters: a run has many, and only runs are independent.

References
----------
Korn and Graubard 1998, Confidence intervals for proportions with small expected number of positive counts.
Francisco and Fuller 1991, Quantile estimation with a complex survey design (test inversion).
"""

from __future__ import annotations

import math
from collections.abc import Callable
from dataclasses import dataclass
from functools import cached_property
from typing import TYPE_CHECKING, Any

import numpy as np
from numpy.typing import NDArray

from .errors import NoEstimate
from .estimates import Estimate, Floats, finite, order, risk_of
from .estimators import pseudovalues, ratio, student_t

if TYPE_CHECKING:
    from .observations import Observations


def counts(observations: Observations, chosen: NDArray[np.bool_] | None = None) -> Floats:
    """How many values each run has, or how many of those chosen; shape (runs,)."""
    run = observations.run if chosen is None else observations.run[chosen]
    return np.bincount(run, minlength=observations.runs).astype(float)


def sums(observations: Observations) -> Floats:
    """The sum of each run's values; shape (runs,)."""
    weights = finite(observations.value)
    made = np.bincount(observations.run, weights, minlength=observations.runs)
    return np.asarray(made, dtype=float)


def _few_runs(observations: Observations, value: float, level: float) -> Estimate | None:
    """An estimate without an interval where fewer than two runs have values."""
    if not len(observations):
        raise NoEstimate(f"none of {observations.runs} runs has a value")
    filled = int((counts(observations) > 0).sum())
    if filled >= 2:
        return None
    made = Estimate(value, n=filled, method="one run", confidence_level=level)
    return made.warn("an interval takes two runs with values")


def mean(observations: Observations, *, confidence_level: float = 0.95) -> Estimate:
    """The mean of all values, with its interval by the jackknife over runs."""
    if len(observations):
        few = _few_runs(observations, float(finite(observations.value).mean()), confidence_level)
        made = few or ratio(
            sums(observations), counts(observations), confidence_level=confidence_level
        )
        return made.scale(observations.scale, observations.unit)
    raise NoEstimate(f"none of {observations.runs} runs has a value")


@dataclass(frozen=True, eq=False)
class Shares:
    """Shares of clustered values, for one set of observations at one confidence level."""

    observations: Observations
    level: float

    @cached_property
    def values(self) -> Floats:
        """All values, as floats."""
        return finite(self.observations.value)

    @cached_property
    def count(self) -> Floats:
        """How many values each run has."""
        return counts(self.observations)

    @cached_property
    def filled(self) -> int:
        """How many runs have values."""
        return int((self.count > 0).sum())

    @cached_property
    def span(self) -> tuple[float, float]:
        """The thresholds that ten runs, or half of them, still lie below and above.

        Beyond them too few runs show how values cluster.
        """
        least = np.full(self.observations.runs, math.inf)
        greatest = np.full(self.observations.runs, -math.inf)
        np.minimum.at(least, self.observations.run, self.values)
        np.maximum.at(greatest, self.observations.run, self.values)
        k = max(1, min(10, self.filled // 2))
        return float(np.sort(least)[k - 1]), float(np.sort(greatest)[-k])

    @cached_property
    def worth_at_span(self) -> tuple[float, float]:
        """For how many independent values the values stand, by how they cluster at these thresholds."""
        low, high = self.span
        return self.worth(self.values <= low), self.worth(self.values < high)

    def worth(self, chosen: NDArray[np.bool_]) -> float:
        """For how many independent values the values stand, by how the chosen ones cluster."""
        below, runs = counts(self.observations, chosen), self.observations.runs
        total = float(self.count.sum())
        p = float(below.sum()) / total
        rest = (below - p * self.count) / total
        variance = runs / (runs - 1) * float((rest**2).sum())
        if variance <= 0:
            return float(self.filled)  # all or none: a run counts as one value
        return min(max(p * (1 - p) / variance, 1.0), total)

    def at_most(self, limit: float) -> Estimate:
        """The share of values up to `limit`: Clopper and Pearson's interval of as many values as they are worth."""
        from scipy import special

        chosen = self.values <= limit
        p = float(counts(self.observations, chosen).sum() / self.count.sum())
        worth = self.worth(chosen)
        low, high = self.span
        if limit < low:
            worth = min(worth, self.worth_at_span[0])
        if limit >= high:
            worth = min(worth, self.worth_at_span[1])
        error = math.sqrt(p * (1 - p) / worth)
        normal = float(special.ndtri(1 - risk_of(self.level) / 2))
        worth = max(1.0, worth * (normal / student_t(self.filled - 1, self.level)) ** 2)
        ends = clopper_pearson(p * worth, worth, self.level)
        method = "share of clustered values (Korn and Graubard)"
        made = Estimate(p, *ends, error, self.observations.runs, math.nan, method, self.level)
        said = f"{'all' if p == 1 else 'none'} of {len(self.values)} values in {self.filled} runs"
        return made.warn(said if p in (0, 1) else "")


def clopper_pearson(ones: float, n: float, confidence_level: float) -> tuple[float, float]:
    """Clopper and Pearson's interval, of numbers that needn't be whole."""
    from scipy import stats

    half = risk_of(confidence_level) / 2
    low = 0.0 if ones <= 0 else float(stats.beta.ppf(half, ones, n - ones + 1))
    high = 1.0 if ones >= n else float(stats.beta.isf(half, ones + 1, n - ones))
    return low, high


def share_at_most(
    observations: Observations, limit: float, *, confidence_level: float = 0.95
) -> Estimate:
    """Which share of all values is at most `limit`, in raw units."""
    if not len(observations):
        raise NoEstimate(f"none of {observations.runs} runs has a value")
    share = float((finite(observations.value) <= limit).mean())
    few = _few_runs(observations, share, confidence_level)
    return few or Shares(observations, confidence_level).at_most(limit)


def quantile(observations: Observations, p: float, *, confidence_level: float = 0.95) -> Estimate:
    """The quantile of all values.

    Its ends are the values whose shares have intervals that just hold `p`.  Far out there may be no upper end.
    """
    if not len(observations):
        raise NoEstimate(f"none of {observations.runs} runs has a value")
    values = np.sort(finite(observations.value))
    value = float(values[order(len(values), p)])
    few = _few_runs(observations, value, confidence_level)
    if few:
        return few.scale(observations.scale, observations.unit)
    shares = Shares(observations, confidence_level)
    distinct = np.unique(values)
    below, above = distinct[distinct <= value], distinct[distinct >= value]
    at_low = _first(lambda x: shares.at_most(x).high >= p, below)
    at_high = _first(lambda x: shares.at_most(x).low >= p, above)
    low = float(below[min(at_low, len(below) - 1)])
    is_known = at_high < len(above)
    high = float(above[at_high]) if is_known else math.nan
    made = Estimate(
        value,
        low,
        high,
        n=observations.runs,
        method=f"quantile {p:g} of clustered values, test inversion",
        confidence_level=confidence_level,
    ).scale(observations.scale, observations.unit)
    return made.warn(
        "" if is_known else "too few runs for an upper end",
        f"both ends are the value {low * observations.scale:g}, which many have"
        if low == high
        else "",
    )


def _first(test: Callable[[float], bool], choices: Floats) -> int:
    """The first place where a test that stays true becomes true; the number of choices if it never does."""
    low, high = 0, len(choices)
    while low < high:
        middle = (low + high) // 2
        low, high = (low, middle) if test(float(choices[middle])) else (middle + 1, high)
    return low


# Differences of two designs


def share_pseudovalues(observations: Observations, limit: float) -> Floats:
    """The jackknife's pseudovalues of the share of values up to `limit` (raw units), one for each run."""
    chosen = finite(observations.value) <= limit
    return pseudovalues(counts(observations, chosen), counts(observations))


def mean_pseudovalues(observations: Observations) -> Floats:
    """The jackknife's pseudovalues of the mean of all values, one for each run."""
    return pseudovalues(sums(observations), counts(observations))


def quantile_difference(
    first: Observations,
    second: Observations,
    p: float,
    *,
    paired: bool = True,
    confidence_level: float = 0.95,
    resamples: int = 999,
) -> Estimate:
    """What the quantile of the second design is more: a bootstrap of the runs, in pairs if they have the same seeds.

    Returns
    -------
    Estimate
        The difference of the two quantiles, with percentile ends (Efron and Tibshirani 1993, chapter 13).
    """
    from scipy import stats

    sides = tuple(_WeightedQuantile(side, p) for side in (first, second))
    numbers = tuple(np.arange(side.runs) for side in (first, second))

    def apart(a: NDArray[Any], b: NDArray[Any]) -> float:
        return sides[1].of(b) - sides[0].of(a)

    if paired and first.runs != second.runs:
        raise NoEstimate("pairs need as many runs of both designs")
    made = stats.bootstrap(
        numbers,
        apart,
        n_resamples=resamples,
        vectorized=False,
        paired=paired,
        confidence_level=confidence_level,
        method="percentile",
        random_state=np.random.default_rng(1),
    )
    ends = made.confidence_interval
    return Estimate(
        apart(*numbers),
        float(ends.low),
        float(ends.high),
        float(made.standard_error),
        min(first.runs, second.runs),
        method=f"difference of quantiles {p:g}, bootstrap of runs",
        confidence_level=confidence_level,
    ).scale(first.scale, first.unit)


class _WeightedQuantile:
    """The quantile of all values of some runs, each of which may be chosen several times."""

    def __init__(self, observations: Observations, p: float) -> None:
        values = finite(observations.value)
        at = np.argsort(values, kind="stable")
        self.values, self.run = values[at], observations.run[at]
        self.runs, self.p = observations.runs, p

    def of(self, chosen: NDArray[Any]) -> float:
        """The quantile where the runs `chosen` stand for all."""
        weights = np.bincount(chosen, minlength=self.runs)[self.run]
        below = np.cumsum(weights)
        if below[-1] == 0:
            return math.nan
        place = order(int(below[-1]), self.p) + 1
        return float(self.values[int(np.searchsorted(below, place))])
