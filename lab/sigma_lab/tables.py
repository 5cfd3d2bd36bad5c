"""Tables of whole ticks with whole weights, which models draw from, made of distributions.

References
----------
Panter and Dite 1951 (where bins end).
"""

from __future__ import annotations

import math
from dataclasses import dataclass
from typing import Any

import numpy as np
from numpy.typing import NDArray

from .distributions import Distribution
from .errors import InputError, LabError
from .estimates import Floats

TOTAL = 10**9
"""The sum of a table's weights, nearly."""

SHOWN_QUANTILES = (0.5, 0.9, 0.99, 0.999, 0.9999)


class NoTable(LabError):
    """A distribution that no table of whole ticks has."""


@dataclass(frozen=True)
class Table:
    """Rows of a value and its weight.

    Attributes
    ----------
    name : str
    asked : Distribution
        What was asked for.
    values, weights : array, shape (rows,)
        Whole ticks, and whole weights from 1 on.
    cut : float
        Which part of the distribution lay below 0 and was cut off.
    """

    name: str
    asked: Distribution
    values: Floats
    weights: NDArray[np.int64]
    cut: float = 0.0

    @property
    def mean(self) -> float:
        return float(np.average(self.values, weights=self.weights))

    @property
    def sd(self) -> float:
        return float(math.sqrt(np.average((self.values - self.mean) ** 2, weights=self.weights)))

    def quantile(self, p: float) -> float:
        order = np.argsort(self.values)
        shares = np.cumsum(self.weights[order]) / self.weights.sum()
        at = min(int(np.searchsorted(shares, p - 1e-12)), len(shares) - 1)
        return float(self.values[order][at])

    def errors(self) -> dict[str, float]:
        """By how much the mean and the deviation are off (relative), and quantiles (in deviations)."""
        sd = self.asked.sd
        off = {
            "mean": self.mean / self.asked.mean - 1 if self.asked.mean else 0.0,
            "sd": self.sd / sd - 1 if sd else 0.0,
        }
        for p in SHOWN_QUANTILES:
            off[f"q{p}"] = (self.quantile(p) - self.asked.quantile(p)) / sd if sd else 0.0
        return off

    @property
    def text(self) -> str:
        order = np.lexsort((self.values, -self.weights))
        rows = " ".join(f"{int(self.values[i])} : {int(self.weights[i])};" for i in order)
        return f"table {self.name} {{ {rows} }}"

    @property
    def summary(self) -> str:
        off = self.errors()
        worst = max(SHOWN_QUANTILES, key=lambda p: float(abs(off[f"q{p}"])))
        return (
            f"{self.name}: {len(self.values)} rows from {int(self.values.min())} to {int(self.values.max())}, mean {self.mean:.6g} for "
            f"{self.asked.mean:.6g}, deviation {self.sd:.6g} for {self.asked.sd:.6g}, quantile {worst} off by "
            f"{abs(off[f'q{worst}']):.3f} deviations, {'nothing' if self.cut < 1e-9 else f'{100 * self.cut:.3f} %'} cut off"
        )


def _cells(asked: Distribution) -> tuple[Floats, Floats, Floats, float]:
    """Whole ticks or ranges of them: the mass, the mean and the width (ticks) of each, and what was cut off below 0."""
    if asked.family == "data":
        values, counts = np.unique(asked.whole_data, return_counts=True)
        gaps = np.gradient(values) if len(values) > 1 else np.ones(1)
        return counts / counts.sum(), values, np.maximum(gaps, 1), 0.0
    law, shift = asked.law, asked.shift
    low = float(law.ppf(1e-11))
    high = max(low, float(law.isf(1e-11)))
    if asked.is_whole:
        return _whole_cells(law, shift, math.floor(low), math.ceil(high))
    edges = _edges(law, shift, low, high)
    mass, moment = _mass(law, shift, edges)
    keep = mass > 0
    widths = np.append(np.diff(edges), 1)
    cut = float(law.cdf(-shift)) if shift <= 0 else 0.0
    return mass[keep] / mass.sum(), moment[keep] / mass[keep], widths[keep], cut


def _whole_cells(
    law: Any, shift: float, low: int, high: int
) -> tuple[Floats, Floats, Floats, float]:
    """The cells of a law of whole numbers."""
    count = min(high - low + 1, 20000)
    edges = np.unique(np.round(np.linspace(low - 1, high, count + 1)))
    mass = np.diff(law.cdf(edges))
    middle = (edges[:-1] + 1 + edges[1:]) / 2
    keep = mass > 0
    return mass[keep] / mass.sum(), middle[keep] + shift, np.diff(edges)[keep], 0.0


def _edges(law: Any, shift: float, low: float, high: float) -> Floats:
    """Where cells of a continuous law end: halves of ticks, all of them or those that tell."""
    first = max(math.floor(low + shift), 0) - 0.5
    last = math.ceil(high + shift) + 0.5
    if last - first <= 50000:
        edges = np.arange(first, last + 0.75)
    else:
        middle = law.ppf(np.linspace(0, 1, 5002)[1:-1]) + shift
        tail = law.isf(np.geomspace(1e-11, 0.1, 2000)) + shift
        grid = np.concatenate([np.linspace(first, last, 15000), middle, tail])
        edges = np.unique(np.floor(grid[(grid >= first) & (grid <= last)]) + 0.5)
    edges[0] = max(edges[0], 0.0)  # what lies below 0 is cut off
    return np.asarray(edges, dtype=float)


def _mass(law: Any, shift: float, edges: Floats) -> tuple[Floats, Floats]:
    """The mass and the first moment of each cell, and at the end of what lies beyond the last edge."""
    from scipy import integrate, special

    above = law.sf(edges - shift)
    nodes, weights = special.roots_legendre(8)
    widths = np.diff(edges)
    at = edges[:-1, None] + widths[:, None] * (nodes + 1) / 2
    under = (law.sf(at - shift) * weights).sum(axis=1) * widths / 2
    moment = edges[:-1] * above[:-1] - edges[1:] * above[1:] + under
    last = float(edges[-1])

    def beyond(t: float) -> float:
        """What lies beyond, at last * e^t since tails are long."""
        return float(law.sf(last * math.exp(t) - shift)) * last * math.exp(t)

    # 40 is far beyond each tail.
    rest = integrate.quad(beyond, 0, 40, limit=400, points=[0.1, 1, 4])[0]
    tail = last * float(above[-1]) + rest
    return np.append(-np.diff(above), above[-1]), np.append(moment, tail)


def discretize(asked: Distribution, rows: int = 200, name: str = "T") -> Table:
    """A table in whole ticks of a distribution.

    Each row is the mean of a bin, so no tail is cut off.  What rounding leaves goes to the next row, and the rest to the
    weights.

    Parameters
    ----------
    asked : Distribution
    rows : int
        The most rows, 1 to 1000.
    name : str

    Raises
    ------
    NoTable
        If the mean is off by more than 0.1 % or the deviation by more than 0.5 %.
    """
    if not 1 <= rows <= 1000:
        raise InputError(f"a table has 1 to 1000 rows: {rows}")
    mass, means, widths, cut = _cells(asked)
    is_exact = len(mass) <= rows
    bin_mass, bin_moment = _bins(mass, means, widths, rows)
    values = _rounded(bin_mass, bin_moment, not is_exact)
    values, inverse = np.unique(values, return_inverse=True)
    weights = _tilted(
        values, np.bincount(inverse, bin_mass).astype(float), float((mass * means).sum())
    )
    if asked.family == "data" and is_exact:
        whole = np.unique(asked.whole_data, return_counts=True)[1]
    else:
        whole = np.maximum(1, np.round(weights * TOTAL))
    table = Table(name, asked, values, whole.astype(np.int64), cut)
    _check(table, rows)
    return table


def _bins(mass: Floats, means: Floats, widths: Floats, rows: int) -> tuple[Floats, Floats]:
    """The mass and the moment of as many bins as there are rows, narrow where much lies (Panter and Dite)."""
    bins = np.arange(len(mass))
    if len(mass) > rows:
        share = np.cumsum(mass ** (1 / 3) * widths ** (2 / 3))
        bins = np.minimum((share / share[-1] * rows * (1 - 1e-12)).astype(int), rows - 1)
    starts = np.flatnonzero(np.diff(bins, prepend=-1))
    bin_mass, bin_moment = np.add.reduceat(mass, starts), np.add.reduceat(mass * means, starts)
    while len(bin_mass) > 1 and bin_mass.min() < 1 / TOTAL:  # no row has a weight below 1
        at = int(bin_mass.argmin())
        into = at - 1 if at else 1
        bin_mass[into] += bin_mass[at]
        bin_moment[into] += bin_moment[at]
        bin_mass, bin_moment = np.delete(bin_mass, at), np.delete(bin_moment, at)
    return bin_mass, bin_moment


def _rounded(mass: Floats, moment: Floats, carries: bool) -> Floats:
    """The mean of each bin in whole ticks; where bins are wide, what rounding leaves goes to the next one."""
    values, left = np.empty(len(mass)), 0.0
    for i, (m, first) in enumerate(zip(mass, moment)):
        values[i] = max(0.0, math.floor((first + (left if carries else 0.0)) / m + 0.5))
        left += first - m * values[i]
    return values


def _tilted(values: Floats, weights: Floats, target: float) -> Floats:
    """The weights, with a slight tilt that makes the mean exact."""
    mean = float((weights * values).sum())
    variance = float((weights * (values - mean) ** 2).sum())
    tilt = (
        1 + (target - mean) * (values - mean) / variance if variance > 0 else np.ones(len(values))
    )
    return weights * tilt if (tilt > 0.5).all() else weights


def _check(table: Table, rows: int) -> None:
    off = table.errors()
    asked = table.asked
    if abs(off["mean"]) <= 0.001 and abs(off["sd"]) <= 0.005:
        return
    got = f"its mean is {table.mean:.6g} for {asked.mean:.6g} and its deviation {table.sd:.6g} for {asked.sd:.6g}"
    if table.cut > 1e-6:
        raise NoTable(
            f"{table.name}: {100 * table.cut:.3g} per cent of it lies below 0; cut there {got}: a gamma or a lognormal has no such times"
        )
    if len(table.values) >= 0.9 * rows and rows < 1000 and asked.sd > 2:
        raise NoTable(f"{table.name}: in {len(table.values)} rows {got}: more rows are needed")
    is_whole = all(map(float.is_integer, asked.data)) if asked.data else asked.is_whole
    # Rounding to whole ticks makes the deviation larger, and a tail that is cut makes it smaller.
    if not is_whole and (asked.sd < 5 or table.sd > asked.sd):
        how = ", of which the deviation has 5" if asked.sd < 5 else ""
        raise NoTable(f"{table.name}: in whole ticks {got}: take a finer tick{how}")
    raise NoTable(
        f"{table.name}: in {len(table.values)} rows {got}: too much of it lies in times that are rare and long"
    )
