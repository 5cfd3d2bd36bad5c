"""Differences of designs, and which design may be the best.

Intervals and p-values agree: both are Student's t, with the same degrees of freedom.

References
----------
Welch 1947; Holm 1979; Law 2015, section 10.2.
Hsu 1984, Constrained simultaneous confidence intervals for multiple comparisons with the best.
Nelson and Matejcik 1995 (common random numbers).
"""

from __future__ import annotations

import math
from collections.abc import Mapping
from dataclasses import replace
from itertools import combinations
from typing import TYPE_CHECKING, Literal

import numpy as np
from numpy.typing import ArrayLike

from .errors import InputError
from .estimates import UNBOUNDED, Estimate, finite, risk_of
from .estimators import equal_values, pseudovalues, student_t

if TYPE_CHECKING:
    import pandas as pd

    from .measures import Measure, Sample
    from .report import Report

Adjust = Literal["bonferroni", "holm"]
Against = Literal["first", "all"]


def paired_difference(
    first: ArrayLike, second: ArrayLike, *, confidence_level: float = 0.95
) -> Estimate:
    """What the second design has more than the first, run by run, under common random numbers.

    Parameters
    ----------
    first, second : array_like, shape (n,)
        A number of each run, the same run at the same place.

    Returns
    -------
    Estimate
        The mean difference, with Student's t.  Equal differences have no interval.
    """
    a, b = np.asarray(first), np.asarray(second)
    finite(a), finite(b)
    if len(a) != len(b):
        raise InputError("pairs need as many runs of both designs")
    whole = a.dtype == object or np.issubdtype(a.dtype, np.integer)
    apart = b - a if a.dtype == object or b.dtype == object else b.astype(float) - a.astype(float)
    if whole and np.issubdtype(b.dtype, np.integer) and a.dtype != object:
        apart = b.astype(object) - a.astype(object)
    more = np.array([float(value) for value in apart])
    n, value = len(more), float(more.mean())
    if n < 2:
        return _one_run(value, n, "paired differences", confidence_level)
    error = float(more.std(ddof=1)) / math.sqrt(n)
    if np.ptp(more) == 0:
        return equal_values(value, n, confidence_level, UNBOUNDED)
    reach = student_t(n - 1, confidence_level) * error
    ends = value - reach, value + reach
    method = "paired differences, Student's t"
    return Estimate(value, *ends, error, n, n - 1, method, confidence_level)


def _one_run(value: float, n: int, method: str, level: float) -> Estimate:
    made = Estimate(value, n=n, method=method, confidence_level=level)
    return made.warn("an interval takes two runs")


def welch_difference(
    first: ArrayLike, second: ArrayLike, *, confidence_level: float = 0.95
) -> Estimate:
    """What the second design has more, of independent runs of both (Welch's t)."""
    from statsmodels.stats.weightstats import CompareMeans

    a, b = finite(first), finite(second)
    value, n = float(b.mean() - a.mean()), min(len(a), len(b))
    if n < 2:
        return _one_run(value, n, "Welch's t", confidence_level)
    if np.ptp(a) == 0 and np.ptp(b) == 0:
        return equal_values(value, n, confidence_level, UNBOUNDED)
    both = CompareMeans.from_data(b, a)
    low, high = both.tconfint_diff(risk_of(confidence_level), usevar="unequal")
    df = float(both.dof_satt())
    error = float(both.std_meandiff_separatevar)
    method = "independent runs, Welch's t"
    return Estimate(value, float(low), float(high), error, n, df, method, confidence_level)


def pairing_gain(first: ArrayLike, second: ArrayLike) -> float:
    """How many times fewer runs pairing takes: the variance of independent differences by that of these pairs."""
    a, b = finite(first), finite(second)
    spread = float((b - a).var(ddof=1))
    return math.inf if spread == 0 else float(a.var(ddof=1) + b.var(ddof=1)) / spread


def p_value(difference: Estimate) -> float:
    """The two-sided p-value of no difference, by the t of the interval; NaN where no t is known."""
    from scipy import special

    if math.isnan(difference.df) or not difference.standard_error > 0:
        return math.nan
    t = abs(difference.value) / difference.standard_error
    return float(2 * special.stdtr(difference.df, -t))


def compare(
    designs: Mapping[str, ArrayLike],
    *,
    against: Against = "first",
    adjust: Adjust = "holm",
    paired: bool = True,
    confidence_level: float = 0.95,
) -> pd.DataFrame:
    """Differences of designs.

    Parameters
    ----------
    designs : mapping of str to array_like
        A number of each run of each design.
    against : {"first", "all"}
        Compare with the first design, or each with each.
    adjust : {"bonferroni", "holm"}
        How p-values are adjusted for the number of comparisons.  Intervals are always Bonferroni's: they hold all
        together at `confidence_level`.
    paired : bool
        Whether runs pair in their order (the same seeds), or are independent.

    Returns
    -------
    DataFrame
        A row for each comparison: design, than, more, low, high, standard_error, df, n, p, p_adjusted, warnings.
    """
    import pandas as pd

    names = list(designs)
    if len(names) < 2:
        raise InputError("a comparison needs two designs")
    if against not in ("first", "all") or adjust not in ("bonferroni", "holm"):
        raise InputError("compare is against first or all, adjusted by bonferroni or holm")
    pairs = list(combinations(names, 2)) if against == "all" else [(names[0], n) for n in names[1:]]
    level = 1 - risk_of(confidence_level) / len(pairs)
    difference = paired_difference if paired else welch_difference
    rows = []
    for a, b in pairs:
        made = difference(designs[a], designs[b], confidence_level=level)
        parts = made.to_dict()
        rows.append(
            {"design": b, "than": a, "more": made.value, "p": p_value(made)}
            | {
                name: parts[name]
                for name in ("low", "high", "standard_error", "df", "n", "warnings")
            }
        )
    table = pd.DataFrame(rows)
    table.insert(table.columns.get_loc("p") + 1, "p_adjusted", _adjusted(table["p"], adjust))
    table.attrs["confidence_level"] = confidence_level
    return table


def _adjusted(p: pd.Series, adjust: Adjust) -> list[float]:
    """The adjusted p-values; those that aren't known stay NaN."""
    from statsmodels.stats.multitest import multipletests

    known = p.notna().to_numpy()
    made = np.full(len(p), math.nan)
    if known.any():
        # The tests without a p-value count too, with 1, so that none of the others gains by them.
        made[:] = multipletests(p.fillna(1.0).to_numpy(), method=adjust)[1]
    made[~known] = math.nan
    return list(made)


def mcb(
    designs: Mapping[str, ArrayLike],
    *,
    minimize: bool = True,
    paired: bool = True,
    confidence_level: float = 0.95,
) -> pd.DataFrame:
    """Multiple comparisons with the best: how far each design may be from the best of the others.

    The intervals are Hsu's constrained ones: they hold all together, and an interval that has 0 as its end on the good
    side says that the design is the best.  Under common random numbers each pair has a variance of its own.

    Returns
    -------
    DataFrame
        A row for each design: design, mean, low and high (of the design minus the best other one; above 0 is better),
        may_be_best, is_best.
    """
    import pandas as pd

    names = list(designs)
    if len(names) < 2:
        raise InputError("a comparison needs two designs")
    sign = -1.0 if minimize else 1.0
    values = {name: sign * finite(designs[name]) for name in names}
    # Of k designs, k - 1 one-sided comparisons with the true best one have to hold.
    level = 1 - 2 * risk_of(confidence_level) / (len(names) - 1)
    if level <= 0:
        raise InputError("the confidence level is too low for so many designs")
    difference = paired_difference if paired else welch_difference
    low: dict[tuple[str, str], float] = {}
    high: dict[tuple[str, str], float] = {}
    for a, b in combinations(names, 2):
        made = difference(values[b], values[a], confidence_level=level)  # a minus b
        ends = (made.low, made.high) if made.is_two_sided else (-math.inf, math.inf)
        low[a, b], high[a, b] = ends
        low[b, a], high[b, a] = -ends[1], -ends[0]
    reach = {i: min(high[i, j] for j in names if j != i) for i in names}
    good = [name for name in names if reach[name] > 0]
    rows = []
    for i in names:
        others = [low[i, j] for j in good if j != i]
        worst = min(others) if others else 0.0
        rows.append(
            {
                "design": i,
                "mean": float(sign * values[i].mean()),
                "low": 0.0 if good == [i] else min(0.0, worst),
                "high": max(0.0, reach[i]),
                "may_be_best": reach[i] > 0,
                "is_best": good == [i],
            }
        )
    return pd.DataFrame(rows)


def plain(sample: Sample) -> ArrayLike:
    """A number of each run: its value, or its pseudovalue where the sample is a ratio of totals; scaled."""
    if sample.below is not None:
        return pseudovalues(sample.above, sample.below) * sample.scale
    return sample.above if sample.scale == 1 else finite(sample.above) * sample.scale


def compare_reports(
    reports: Mapping[str, Report],
    measure: Measure,
    *,
    against: Literal["first", "all", "least", "greatest"] = "first",
    adjust: Adjust = "holm",
    paired: bool = True,
    confidence_level: float = 0.95,
) -> pd.DataFrame:
    """Differences of designs by their reports, as `compare`; from the best, which is the least or the greatest, as `mcb`.

    Raises
    ------
    InputError
        If the designs stopped at other times or have other warm-ups, if runs pair and the seeds differ, or if runs
        don't pair and two designs have a seed in common.
    """
    from .report import check_comparable

    check_comparable(reports, paired=paired)
    samples = {name: measure.of(report) for name, report in reports.items()}
    if paired:
        samples = _aligned(samples)
    designs = {name: plain(sample) for name, sample in samples.items()}
    if against == "least" or against == "greatest":
        minimize = against == "least"
        return mcb(designs, minimize=minimize, paired=paired, confidence_level=confidence_level)
    return compare(
        designs, against=against, adjust=adjust, paired=paired, confidence_level=confidence_level
    )


def _aligned(samples: Mapping[str, Sample]) -> dict[str, Sample]:
    """The samples with their runs in the order of the first one's seeds."""
    first = next(iter(samples.values())).seeds
    made = {}
    for name, sample in samples.items():
        at = np.argsort(sample.seeds)[np.argsort(np.argsort(first))]
        if not np.array_equal(sample.seeds[at], first):
            raise InputError(
                f"{name} has other seeds than the first design, so its runs don't pair"
            )
        below = None if sample.below is None else sample.below[at]
        made[name] = replace(sample, seeds=first, above=sample.above[at], below=below)
    return made


def levels(confidence_level: float, count: int, together: bool) -> float:
    """The level of each of `count` intervals, so that they hold together if that is asked for (Bonferroni)."""
    risk = risk_of(confidence_level)
    return 1 - risk / max(1, count) if together else confidence_level
