"""Batch means: the mean, a ratio, or a quantile over one long run.

References
----------
Law and Carson 1979, A sequential procedure for determining the length of a steady-state simulation.
Tafazzoli, Wilson, Lada and Steiger 2011 (Skart: correlation and skewness); Willink 2005.
Seila 1982 (quantiles by batches).
"""

from __future__ import annotations

import math
from collections.abc import Callable
from dataclasses import dataclass
from typing import Any

import numpy as np
from numpy.typing import NDArray

from .errors import NoEstimate
from .estimates import Estimate, Floats, finite, sample_quantile, skewness
from .estimators import pseudovalues, skewed_t, student_t

Areas = Callable[[NDArray[np.int64]], NDArray[Any]]
"""The areas (value times ticks), or the counts, between neighbouring edges."""

MOST_CORRELATION = 0.4
PARTS = 10
"""Each batch has so many parts; those of neighbours may correlate by less than MOST_CORRELATION."""


@dataclass(frozen=True, eq=False)
class Batches:
    """What batches of one run say.

    Attributes
    ----------
    estimate : Estimate
        `n` is the number of batches.
    means : array, shape (batches,)
        The mean, ratio or quantile of each batch.
    correlation : float
        That of neighbouring tenths of a batch.
    start, length : int
        Where the first batch begins, and how long a batch is: ticks, or values for a quantile.
    """

    estimate: Estimate
    means: Floats
    correlation: float
    start: int
    length: int


@dataclass(frozen=True)
class Layout:
    """Where batches lie: `count` of `length` from `begin` on, in grains of `grain` ticks."""

    begin: int
    length: int
    count: int
    grain: int = 1

    @property
    def edges(self) -> NDArray[np.int64]:
        """The edges of all parts, in ticks."""
        step = self.length // PARTS
        grains = self.begin + np.arange(self.count * PARTS + 1, dtype=np.int64) * step
        return grains * self.grain


def lay_out(start: int, end: int, length: int | None, batches: int, grain: int = 1) -> Layout:
    """Batches of one length up to `end`; what doesn't fill a batch is left out at the beginning.

    Raises
    ------
    NoEstimate
        If fewer than `batches` fit, each of ten grains or more.
    """
    first, last = -(-start // grain), end // grain
    size = (last - first) // batches if length is None else length // grain
    size -= size % PARTS
    count = (last - first) // size if size > 0 else 0
    if size < PARTS:
        raise NoEstimate(
            f"{end - start} ticks are too few for {batches} batches of {PARTS * grain} ticks or more"
        )
    if count < batches:
        raise NoEstimate(
            f"a batch of {size * grain} ticks leaves {count} batches, and {batches} are needed"
        )
    return Layout(last - count * size, size, count, grain)


def batch_means(
    areas_of: Areas,
    start: int,
    end: int,
    *,
    length: int | None = None,
    confidence_level: float = 0.95,
    batches: int = 40,
    grain: int = 1,
    check: bool = True,
    what: str = "the value",
) -> Batches:
    """The mean over time of one run.

    Parameters
    ----------
    areas_of : callable
        The areas between edges (ticks, rising).
    start, end : int
        The end of the warm-up and of the run, in ticks.
    length : int, optional
        Of a batch, in ticks; a fortieth of the run if None.
    batches : int
        The fewest batches.
    grain : int
        Edges are multiples of so many ticks, as an `AreaStream` asks for.
    check : bool
        Whether batches that are too short are refused.

    Returns
    -------
    Batches
        The interval is widened by the correlation that is left, and moved by skewness, as Skart's is.

    Raises
    ------
    NoEstimate
        If neighbouring tenths of a batch correlate by 0.4 or more (Law and Carson), with the stop time that is needed.
    """
    layout = lay_out(start, end, length, batches, grain)
    parts = _parts(areas_of, layout) / (layout.length * grain / PARTS)
    means = parts.mean(axis=1)
    _refuse_equal(means, what)
    correlation = autocorrelation(parts.ravel())
    if check:
        _refuse_correlated(correlation, layout, start, end)
    error = max(correlated_error(means), correlated_error(parts.ravel()))
    value = float(means.mean())
    return _answer(value, means, error, correlation, layout, confidence_level)


def batch_ratio(
    above_of: Areas,
    below_of: Areas,
    start: int,
    end: int,
    *,
    length: int | None = None,
    confidence_level: float = 0.95,
    batches: int = 40,
    grain: int = 1,
    check: bool = True,
) -> Batches:
    """The ratio of two totals over one run, as waiting by departures, by the jackknife over batches.

    The parameters are those of `batch_means`.  Correlation is that of `above - ratio * below`.
    """
    layout = lay_out(start, end, length, batches, grain)
    above, below = _parts(above_of, layout), _parts(below_of, layout)
    total = float(below.sum())
    if total == 0:
        raise NoEstimate("what is below the / is 0 in all batches")
    value = float(above.sum()) / total
    rest = (above - value * below) / below.mean()
    pseudo = pseudovalues(above.sum(axis=1), below.sum(axis=1))
    _refuse_equal(pseudo, "the ratio")
    correlation = autocorrelation(rest.ravel())
    if check:
        _refuse_correlated(correlation, layout, start, end)
    error = max(correlated_error(pseudo), correlated_error(rest.ravel()))
    return _answer(value, pseudo, error, correlation, layout, confidence_level)


def batch_quantile(
    values: Floats,
    p: float,
    *,
    confidence_level: float = 0.95,
    batches: int = 40,
    check: bool = True,
) -> Batches:
    """The quantile of values at events of one run, in their order, by batches of as many values each.

    The batches stand for independent runs: the ends are values whose shares have intervals that just hold `p`.

    Raises
    ------
    NoEstimate
        If the tenths of a batch correlate in which share of them lies below the quantile, with how many values are
        needed.
    """
    from . import clusters
    from .observations import Observations

    floats = finite(values)
    layout = lay_out(0, len(floats), None, batches)
    used = floats[layout.begin :]
    value = sample_quantile(used, p)
    shares = (used <= value).reshape(layout.count * PARTS, -1).mean(axis=1)
    correlation = autocorrelation(shares)
    if check:
        _refuse_correlated(correlation, layout, 0, len(floats), "values")
    run = np.repeat(np.arange(layout.count), layout.length)
    seen = Observations(run, used, np.arange(layout.count, dtype=np.uint64))
    made = clusters.quantile(seen, p, confidence_level=confidence_level)
    each = np.array([sample_quantile(part, p) for part in used.reshape(layout.count, -1)])
    return Batches(made, each, correlation, layout.begin, layout.length)


def _parts(areas_of: Areas, layout: Layout) -> Floats:
    """The areas of all parts, shape (batches, 10)."""
    made = np.asarray(areas_of(layout.edges), dtype=float)
    return made.reshape(layout.count, PARTS)


def _refuse_equal(means: Floats, what: str) -> None:
    if np.ptp(means) <= 1e-12 * max(float(abs(means).max()), 1e-300):
        raise NoEstimate(f"all batches of {what} are equal")


def _refuse_correlated(
    correlation: float, layout: Layout, start: int, end: int, unit: str = "ticks"
) -> None:
    if correlation < MOST_CORRELATION:
        return
    need = start + math.ceil(1.1 * (end - start) * longer(correlation))
    if end - start > 10**5:
        need = start + -(-(need - start) // 10**4) * 10**4
    part = layout.length * layout.grain // PARTS
    go_on = f"go on to until={need}" if unit == "ticks" else f"take {need} {unit}"
    raise NoEstimate(
        f"tenths of a batch, {part} {unit}, correlate by {correlation:.2f}, and less than {MOST_CORRELATION:.2f} is "
        f"needed: {go_on}"
    )


def _answer(
    value: float,
    means: Floats,
    error: float,
    correlation: float,
    layout: Layout,
    confidence_level: float,
) -> Batches:
    count = layout.count
    skew, t = skewness(means), student_t(count - 1, confidence_level)
    begin, length = layout.begin * layout.grain, layout.length * layout.grain
    made = Estimate(
        value,
        value - skewed_t(t, skew, count) * error,
        value - skewed_t(-t, skew, count) * error,
        error,
        count,
        count - 1,
        f"{count} batches of {length} ticks from {begin}, whose tenths correlate by {correlation:.2f}",
        confidence_level,
    )
    return Batches(made, means, correlation, begin, length)


def autocorrelation(values: Floats) -> float:
    """The correlation of neighbouring values."""
    centred = values - values.mean()
    squares = float((centred * centred).sum())
    return float((centred[1:] * centred[:-1]).sum()) / squares if squares > 0 else 0.0


def correlated_error(values: Floats) -> float:
    """The standard error of the mean of values whose correlation dies out by one rate."""
    r = min(max(autocorrelation(values), 0.0), 0.8)
    return float(values.std(ddof=1)) / math.sqrt(len(values)) * math.sqrt((1 + r) / (1 - r))


def longer(correlation: float) -> float:
    """By how much longer parts have to be that correlate by so much, so that they correlate by 0.3."""
    from scipy.optimize import brentq

    def along(x: float) -> float:
        """The correlation of neighbouring parts of x time constants."""
        return (1 - math.exp(-x)) ** 2 / (2 * (x - 1 + math.exp(-x)))

    known = min(correlation, 0.98)
    wanted = brentq(lambda x: along(x) - 0.3, 1e-3, 50)
    return float(wanted / brentq(lambda x: along(x) - known, 1e-3, 50))
