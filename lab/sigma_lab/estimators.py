"""Estimates from independent runs: means, shares, ratios, quantiles, and predictions.

References
----------
Law 2015, Simulation Modeling and Analysis, 5th edition, sections 4.5 and 9.4.
Willink 2005, A confidence interval and test for the mean of an asymmetric distribution.
Clopper and Pearson 1934; Garwood 1936; Efron and Tibshirani 1993, chapter 11 (jackknife).
David and Nagaraja 2003, Order Statistics, section 7.1; Boos and Hughes-Oliver 2000 (skewness and the t interval).
"""

from __future__ import annotations

import math
from fractions import Fraction
from typing import TYPE_CHECKING, Any, Literal

import numpy as np
from numpy.typing import ArrayLike, NDArray

from .errors import InputError, NoEstimate
from .estimates import UNBOUNDED, Bounds, Estimate, Floats, finite, order, risk_of, skewness

if TYPE_CHECKING:
    from .measures import Sample

Method = Literal["auto", "t", "willink", "exact", "poisson"]

FEWEST_FOR_SKEWED = 5
"""Willink's interval takes this many values; of fewer the skewness says nothing."""


def estimate(
    sample: Sample,
    *,
    method: Method = "auto",
    confidence_level: float = 0.95,
    bounds: Bounds = UNBOUNDED,
) -> Estimate:
    """The mean over the runs of a measure, or the ratio of totals, in the measure's unit.

    Parameters
    ----------
    sample : Sample
        A number of each run, or the two sides of a ratio, in raw units.
    method, confidence_level, bounds
        As of `mean`.  A ratio is always made by the jackknife.
    """
    if sample.below is not None:
        made = ratio(sample.above, sample.below, confidence_level=confidence_level)
    else:
        made = mean(sample.above, method=method, confidence_level=confidence_level, bounds=bounds)
    return made.scale(sample.scale, sample.unit).warn(*sample.warnings)


def mean(
    values: ArrayLike,
    *,
    method: Method = "auto",
    confidence_level: float = 0.95,
    bounds: Bounds = UNBOUNDED,
) -> Estimate:
    """The mean over independent runs.

    Parameters
    ----------
    values : array_like, shape (n,)
        A number of each run.  Whole numbers beyond 2^53 lose nothing.
    method : {"auto", "t", "willink", "exact", "poisson"}
        `t` is Student's.  `willink` moves and widens it by the skewness, and takes 5 values.  `exact` is Clopper and
        Pearson's, for values that are 0 or 1.  `poisson` is Garwood's, for counts that you know to be Poisson.
        `auto` is `exact` for 0 and 1, else `willink`, and `t` for fewer than 5 values.
    confidence_level : float
        Above 0 and below 1.
    bounds : (float, float)
        The least and the greatest value that a run can have.  Equal values have an interval only where it is known.

    Returns
    -------
    Estimate
        Equal values are no certainty: another value may just not have been seen.

    Raises
    ------
    InputError
        If there is no value, or if `method` can't be used for these values.
    """
    first, more = _deviations(values)
    n = len(more)
    ones = _ones(values)
    if method == "poisson":
        return _poisson(values, confidence_level)
    if method == "exact":
        if ones is None:
            raise InputError("the exact interval is for values that are 0 or 1")
        return proportion(ones, n, confidence_level=confidence_level)
    average = _plus(first, float(more.mean()))
    level = confidence_level
    if n < 2:
        return Estimate(average, n=n, method="one run", confidence_level=level).warn(
            "an interval takes two runs"
        )
    if method == "auto" and ones is not None and (more.any() or bounds == (0, 1)):
        made = proportion(ones, n, confidence_level=level)
        return made.warn(_unseen(bounds) if bounds != (0, 1) else "")
    if not more.any():
        return equal_values(average, n, level, bounds)
    is_skewed = method == "willink" or method == "auto" and n >= FEWEST_FOR_SKEWED
    if is_skewed and n < FEWEST_FOR_SKEWED:
        raise InputError(f"Willink's interval takes {FEWEST_FOR_SKEWED} values or more")
    return _moments(average, more, level, is_skewed)


def _moments(average: float, more: Floats, level: float, is_skewed: bool) -> Estimate:
    """The interval by the standard deviation, and by the skewness too if `is_skewed`."""
    n = len(more)
    error = float(more.std(ddof=1) / math.sqrt(n))
    t = student_t(n - 1, level)
    skew = skewness(more)
    low = high = t
    if is_skewed:
        unbiased = skew * math.sqrt(n * (n - 1)) / (n - 2)
        low, high = skewed_t(t, unbiased, n), -skewed_t(-t, unbiased, n)
    name = "Willink" if is_skewed else "Student's t"
    made = Estimate(
        average, average - low * error, average + high * error, error, n, n - 1, name, level
    )
    # Boos and Hughes-Oliver 2000: the t interval needs some 100 (skewness / 2)^2 values; Willink's a fifth.
    need = math.ceil((5 if is_skewed else 25) * skew**2)
    return made.warn(
        f"skewed values (skewness {skew:.1f}): take {need} runs" if n < need else "",
        f"so large numbers have no room for ends {2 * t * error:.3g} apart: take a number off first"
        if 2 * t * error < 16 * math.ulp(average)
        else "",
    )


def student_t(df: float, confidence_level: float) -> float:
    """The two-sided quantile of Student's t."""
    from scipy import special

    return float(special.stdtrit(df, 1 - risk_of(confidence_level) / 2))


def skewed_t(t: float, skew: float, n: int) -> float:
    """The quantile `t` of Student's t, moved by the skewness of n values (Willink 2005, equation 10)."""
    slope = skew / 6 / math.sqrt(n)
    if abs(slope) < 1e-6:
        return t
    return float(np.cbrt(1 + 6 * slope * (t - slope)) - 1) / (2 * slope)


def equal_values(value: float, n: int, confidence_level: float, bounds: Bounds) -> Estimate:
    """What n equal values say: how many runs may have another one, and what that does to the mean.

    With the confidence level at most a share 1 - (risk / 2)^(1 / n) of all runs has another value.  Where the least and
    the greatest value are known, that share moves the mean by so much at most.
    """
    share = 1 - (risk_of(confidence_level) / 2) ** (1 / n)
    low, high = (value + share * (end - value) for end in bounds)
    return Estimate(
        value,
        low if math.isfinite(low) else math.nan,
        high if math.isfinite(high) else math.nan,
        n=n,
        method="equal values",
        confidence_level=confidence_level,
    ).warn(
        f"all {n} values are equal, which is no certainty: up to {100 * share:.3g} % of all runs may have another one"
    )


def _unseen(bounds: Bounds) -> str:
    if bounds == UNBOUNDED:
        return ""
    return f"values from {shown_bound(bounds[0])} to {shown_bound(bounds[1])} are possible, and only 0 and 1 were seen"


def shown_bound(end: float) -> str:
    """A bound in words."""
    return f"{end:.10g}" if math.isfinite(end) else "any value"


def _deviations(values: ArrayLike) -> tuple[Any, Floats]:
    """The first value, exactly, and what each value is more: large whole numbers lose nothing."""
    made = np.asarray(values)
    floats = finite(made)
    if made.dtype == object:
        return made[0], np.array([float(value - made[0]) for value in made])
    if np.issubdtype(made.dtype, np.integer):
        return made[0].item(), np.array([float(value - made[0].item()) for value in made.tolist()])
    return float(floats[0]), floats - floats[0]


def _plus(first: Any, more: float) -> float:
    """The sum, rounded once."""
    return first + more if isinstance(first, float) else float(Fraction(first) + Fraction(more))


def _ones(values: ArrayLike) -> int | None:
    """How many values are 1, where all are 0 or 1 and whole; else None."""
    made = np.asarray(values)
    is_whole = made.dtype == bool or np.issubdtype(made.dtype, np.integer)
    if not is_whole and not (made.dtype == object and all(isinstance(v, int) for v in made)):
        return None
    return int(sum(map(int, made))) if all(value in (0, 1) for value in made.tolist()) else None


def _poisson(values: ArrayLike, level: float) -> Estimate:
    """Garwood's exact interval of the mean of Poisson counts."""
    from scipy import stats

    counts = finite(values, "counts")
    if (counts < 0).any() or (counts != np.round(counts)).any():
        raise InputError("counts are whole numbers from 0 on")
    n, total, half = len(counts), float(counts.sum()), risk_of(level) / 2
    low = float(stats.gamma.ppf(half, total)) / n if total else 0.0
    high = float(stats.gamma.isf(half, total + 1)) / n
    error = math.sqrt(total) / n
    return Estimate(total / n, low, high, error, n, math.nan, "Poisson counts (Garwood)", level)


def proportion(ones: int, n: int, *, confidence_level: float = 0.95) -> Estimate:
    """A share of independent runs, with Clopper and Pearson's exact interval."""
    from scipy import stats

    if not 0 <= ones <= n or n < 1:
        raise InputError("a share has from 0 to n ones, and n of 1 or more")
    risk_of(confidence_level)
    ends = stats.binomtest(ones, n).proportion_ci(confidence_level, method="exact")
    error = math.sqrt(ones * (n - ones) / n) / n
    low, high = float(ends.low), float(ends.high)
    return Estimate(
        ones / n, low, high, error, n, math.nan, "Clopper and Pearson", confidence_level
    )


def pseudovalues(above: ArrayLike, below: ArrayLike) -> Floats:
    """The jackknife's pseudovalues of the ratio of two sums, one for each run.

    Raises
    ------
    NoEstimate
        If the sum below is 0, or if one run alone makes it.
    """
    a, b = finite(above), finite(below)
    if len(a) != len(b):
        raise InputError("a ratio has as many values above as below")
    rest = b.sum() - b
    if b.sum() == 0 or (rest == 0).any():
        raise NoEstimate("what is below the / is 0 in all runs, or in all but one")
    n = len(a)
    return np.asarray(n * (a.sum() / b.sum()) - (n - 1) * (a.sum() - a) / rest, dtype=float)


def ratio(above: ArrayLike, below: ArrayLike, *, confidence_level: float = 0.95) -> Estimate:
    """The ratio of the totals of all runs, with its interval by the jackknife over runs.

    Raises
    ------
    NoEstimate
        If the total below is 0.
    """
    a, b = finite(above), finite(below)
    n, level = len(a), confidence_level
    if len(b) == n and b.sum() == 0:
        raise NoEstimate("what is below the / is 0 in all runs")
    value = float(_total(above) / _total(below))
    if n < 2:
        return Estimate(value, n=n, method="one run", confidence_level=level).warn(
            "an interval takes two runs"
        )
    pseudo = pseudovalues(a, b)
    if np.ptp(pseudo) <= 1e-12 * max(float(abs(pseudo).max()), 1e-300):
        return equal_values(value, n, level, UNBOUNDED)
    centred = pseudo - pseudo.mean()
    made = _moments(float(pseudo.mean()), centred, level, n >= FEWEST_FOR_SKEWED)
    return Estimate(
        value,
        made.low,
        made.high,
        made.standard_error,
        n,
        n - 1,
        f"ratio of totals, jackknife, {made.method}",
        level,
        made.warnings,
    )


def _total(values: ArrayLike) -> Fraction | float:
    made = np.asarray(values)
    return Fraction(sum(made.tolist())) if made.dtype == object else float(made.sum())


def mean_of_ratios(
    above: ArrayLike, below: ArrayLike, *, method: Method = "auto", confidence_level: float = 0.95
) -> Estimate:
    """The mean over runs of each run's ratio: what a single day looks like."""
    a, b = finite(above), finite(below)
    if (b == 0).any():
        raise NoEstimate(f"{int((b == 0).sum())} runs have 0 below the /, so they have no ratio")
    return mean(a / b, method=method, confidence_level=confidence_level)


def numbers_of(sample: Sample | ArrayLike) -> tuple[NDArray[Any], float, str]:
    """The numbers of a sample that is no ratio, its scale and its unit."""
    below = getattr(sample, "below", None)
    if below is not None:
        raise InputError("a ratio of totals has no value of a single run")
    above = getattr(sample, "above", sample)
    return np.asarray(above), getattr(sample, "scale", 1.0), getattr(sample, "unit", "")


def quantile(sample: Sample | ArrayLike, p: float, *, confidence_level: float = 0.95) -> Estimate:
    """The quantile of single runs, as `the worst day in ten`, between two values that were seen.

    The interval is exact for independent runs of any distribution.  An end that takes more runs is NaN, with a warning
    that says how many.
    """
    from scipy import stats

    numbers, scale, unit = numbers_of(sample)
    values = np.sort(finite(numbers))
    n, half = len(values), risk_of(confidence_level) / 2
    value = float(values[order(n, p)])
    # Of low = values[l - 1] and high = values[u - 1]: P(low > quantile) = P(Bin(n, p) <= l - 1), and
    # P(high < quantile) = P(Bin(n, p) >= u).
    at_low = int(stats.binom.ppf(half, n, p))
    while at_low > 0 and stats.binom.cdf(at_low - 1, n, p) > half:
        at_low -= 1
    at_high = int(stats.binom.isf(half, n, p)) + 1
    low = float(values[at_low - 1]) if at_low >= 1 else math.nan
    high = float(values[at_high - 1]) if at_high <= n else math.nan
    made = Estimate(
        value,
        low,
        high,
        n=n,
        method=f"order statistics, quantile {p:g}",
        confidence_level=confidence_level,
    ).scale(scale, unit)
    return made.warn(
        f"a lower end takes {math.ceil(math.log(half) / math.log1p(-p))} runs"
        if math.isnan(low)
        else "",
        f"an upper end takes {math.ceil(math.log(half) / math.log(p))} runs"
        if math.isnan(high)
        else "",
        f"both ends are the value {low * scale:g}, which many runs have" if low == high else "",
    )


def prediction(sample: Sample | ArrayLike, *, confidence_level: float = 0.95) -> Estimate:
    """Between which values one further run lies.

    Of enough runs the ends are order statistics, which is exact for any distribution.  Of fewer they are those of normal
    values.  Equal values have no interval.
    """
    numbers, scale, unit = numbers_of(sample)
    first, more = _deviations(numbers)
    n, risk = len(more), risk_of(confidence_level)
    if n < 2:
        raise NoEstimate("a prediction takes two runs")
    average = _plus(first, float(more.mean()))
    if not more.any():
        return equal_values(average, n, confidence_level, UNBOUNDED).scale(scale, unit)
    rank = int((n + 1) * risk / 2)
    if rank >= 1:
        values = np.sort(finite(numbers))
        held = 1 - 2 * rank / (n + 1)
        made = Estimate(
            average,
            float(values[rank - 1]),
            float(values[n - rank]),
            n=n,
            method="one further run, order statistics",
            confidence_level=held,
        )
        return made.scale(scale, unit)
    reach = student_t(n - 1, confidence_level) * float(more.std(ddof=1)) * math.sqrt(1 + 1 / n)
    made = Estimate(
        average,
        average - reach,
        average + reach,
        n=n,
        df=n - 1,
        method="one further run, normal values",
        confidence_level=confidence_level,
    ).scale(scale, unit)
    held = 100 * (n - 1) / (n + 1)
    return made.warn(f"for values that aren't normal the least and the greatest hold {held:.1f} %")
