"""Times that were rounded when they were written down: cells, likelihood and a test of fit.

A time of 7 minutes stands for all times that round to 7.  A fit that takes it for exactly 7 rejects the true law, since
no continuous law has the same time twice.

References
----------
Choulakian, Lockhart and Stephens 1994, Cramer-von Mises statistics for discrete distributions (grouped A^2).
"""

from __future__ import annotations

import math
from collections.abc import Callable
from dataclasses import dataclass
from typing import Any, Literal

import numpy as np
from numpy.typing import NDArray

from .distributions import Distribution
from .errors import InputError
from .estimates import Floats

Kind = Literal["nearest", "up", "down"]
KINDS: tuple[Kind, ...] = ("nearest", "up", "down")
MOST_CELLS = 2000
Cdf = Callable[[Floats, Floats], Floats]


@dataclass(frozen=True, eq=False)
class Cells:
    """Counts of rounded times.

    Attributes
    ----------
    edges : array, shape (cells,)
        Where cells begin, in ticks, from 0 on; the last cell has no end.
    counts : array of int, shape (cells,)
        How many times lie in each.
    """

    edges: Floats
    counts: NDArray[np.int64]

    @property
    def n(self) -> int:
        """How many times."""
        return int(self.counts.sum())

    @property
    def middles(self) -> Floats:
        """The times at the middles of their cells, each as often as it occurs."""
        width = float(self.edges[-1] - self.edges[-2])
        ends = np.append(self.edges[1:], self.edges[-1] + width)
        return np.repeat((self.edges + ends) / 2, self.counts)

    def again(self, times: Floats) -> Cells:
        """Other times, rounded as these were."""
        at = np.searchsorted(self.edges, times, side="right") - 1
        return Cells(self.edges, np.bincount(at.clip(0), minlength=len(self.edges)))

    def shares(self, below: Floats) -> Floats:
        """The share of each cell, where `below` is the share of a law below each edge but the first."""
        return np.diff(np.concatenate([[0.0], below, [1.0]]))

    def distances(self, shares: Floats) -> tuple[float, float]:
        """Kolmogorov and Smirnov's distance, and the grouped A^2, from a law with these shares."""
        sums = np.cumsum(shares)[:-1]
        apart = np.cumsum(self.counts / self.n)[:-1] - sums
        inside = (sums > 1e-12) & (sums < 1 - 1e-12)
        weights = shares[:-1][inside] / (sums[inside] * (1 - sums[inside]))
        return float(np.abs(apart).max()), float(self.n * (apart[inside] ** 2 * weights).sum())


def unit_of(times: Floats) -> float | None:
    """The unit that all times are multiples of, if they look rounded; else None.

    They do if times repeat, and if their range has no more than 2000 units.
    """
    for decimals in range(7):
        whole = np.round(times * 10**decimals)
        if np.abs(times * 10**decimals - whole).max() < 1e-6:
            unit = int(np.gcd.reduce(whole.astype(np.int64))) / 10**decimals
            repeats = len(np.unique(times)) < 0.95 * len(times)
            few = unit > 0 and float(np.ptp(times)) / unit <= MOST_CELLS
            return unit if repeats and few else None
    return None


def cells_of(times: Floats, unit: float, kind: Kind) -> Cells:
    """Rounded times as cells.

    Parameters
    ----------
    times : array
        In ticks.
    unit : float
        They are multiples of it, in ticks.
    kind : {"nearest", "up", "down"}
        How they were rounded.  Of the nearest, times below half a unit are taken to have been written as one unit if
        no time is 0.
    """
    at = np.round(times / unit).astype(np.int64)
    if np.abs(at * unit - times).max() > 1e-6 * unit:
        raise InputError(f"the times are no multiples of {unit:g} ticks")
    most = int(at.max()) * 3 + 3
    if most > 20 * MOST_CELLS:
        raise InputError(f"a unit of {unit:g} ticks is too fine for rounding to matter")
    first = 1 if at.min() >= 1 else 0
    if kind == "nearest":
        edges = (np.arange(first, most) - 0.5) * unit
        edges[0] = 0.0
        return Cells(edges, np.bincount(at - first, minlength=len(edges)))
    edges = np.arange(most) * unit
    if kind == "down":
        return Cells(edges, np.bincount(at, minlength=most))
    if first == 0:
        raise InputError("a time of 0 wasn't rounded up")
    return Cells(edges, np.bincount(at - 1, minlength=most))


def _power(x: Floats, scale: float, shape: float) -> Floats:
    with np.errstate(over="ignore"):
        return np.asarray((x / scale) ** shape, dtype=float)


def cdf(family: str, shift: float, numbers: Floats, x: Floats) -> Floats:
    """The share of a family below `x`, from its numbers in the form that `start_of` gives."""
    from scipy import special

    y = np.maximum(x - shift, 0.0) if family != "normal" else x
    first, second = float(numbers[0]), float(numbers[-1])
    if family == "exponential":
        return np.asarray(-np.expm1(-y / math.exp(first)))
    if family == "normal":
        return np.asarray(special.ndtr((y - first) / math.exp(second)))
    if family == "lognormal":
        with np.errstate(divide="ignore"):
            return np.asarray(special.ndtr((np.log(y) - first) / math.exp(second)))
    if family == "weibull":
        return np.asarray(-np.expm1(-_power(y, math.exp(first), math.exp(second))))
    shape = math.exp(2 * (first - second))
    return np.asarray(special.gammainc(shape, y * math.exp(first - 2 * second)))


def start_of(family: str, times: Floats) -> Floats:
    """Numbers to begin with, by moments."""
    mean, sd = float(times.mean()), max(float(times.std()), 1e-6 * float(times.mean()))
    if family == "exponential":
        return np.array([math.log(mean)])
    if family == "normal":
        return np.array([mean, math.log(sd)])
    spread = math.sqrt(math.log1p((sd / mean) ** 2))
    if family == "lognormal":
        return np.array([math.log(mean) - spread**2 / 2, math.log(spread)])
    if family == "weibull":
        shape = min(max((sd / mean) ** -1.086, 0.1), 50.0)
        return np.array([math.log(mean / math.gamma(1 + 1 / shape)), math.log(shape)])
    return np.array([math.log(mean), math.log(sd)])


def distribution_of(family: str, shift: float, numbers: Floats) -> Distribution:
    """The distribution with numbers in the form of `start_of`."""
    first, second = float(numbers[0]), float(numbers[-1])
    made: dict[str, Any] = {
        "exponential": lambda: (math.exp(first),),
        "normal": lambda: (first, math.exp(second)),
        "gamma": lambda: (math.exp(first), math.exp(second)),
        "weibull": lambda: (math.exp(first), math.exp(second)),
    }
    if family == "lognormal":
        mean = math.exp(first + math.exp(2 * second) / 2)
        sd = mean * math.sqrt(math.expm1(math.exp(2 * second)))
        return Distribution(family, (mean, sd), shift)
    return Distribution(family, made[family](), shift)


FAMILIES = ("exponential", "gamma", "weibull", "lognormal", "normal")
"""The families that are fitted to rounded times."""


def fit_cells(family: str, shift: float, cells: Cells) -> tuple[Floats, float]:
    """The likeliest numbers of a family, and the logarithm of their likelihood."""
    from scipy import optimize

    seen = np.flatnonzero(cells.counts)
    counts = cells.counts[seen]
    low, high = cells.edges[seen], np.append(cells.edges, math.inf)[seen + 1]
    is_first = seen == 0

    def badness(numbers: Floats) -> float:
        """The negative log-likelihood."""
        try:
            below = np.where(is_first, 0.0, cdf(family, shift, numbers, low))
            share = cdf(family, shift, numbers, high) - below
        except (OverflowError, ValueError):
            return 1e300
        return float(-(counts * np.log(np.maximum(share, 1e-300))).sum())

    start = start_of(family, np.maximum(cells.middles - shift, 1e-9))
    options = {"xatol": 1e-4, "fatol": 1e-4, "maxfev": 400}
    simplex = np.vstack([start, *(start + np.eye(len(start)) * _step(family, start))])
    made = optimize.minimize(
        badness, start, method="Nelder-Mead", options=options | {"initial_simplex": simplex}
    )
    if not made.fun < 1e299:
        raise ValueError("the likelihood of these data is 0")
    return np.asarray(made.x, dtype=float), float(-made.fun)


def _step(family: str, start: Floats) -> Floats:
    """How far the search begins to look: a fifth, in logarithms or in deviations."""
    steps = np.full(len(start), 0.2)
    if family == "normal":
        steps[0] = 0.2 * math.exp(start[1])
    return steps
