"""The laws of a run's number that error rates and coverage are measured under, each with its mean and its range."""

from __future__ import annotations

import math
from collections.abc import Callable
from dataclasses import dataclass

import numpy as np
from numpy.typing import NDArray
from scipy import integrate, stats

Generator = np.random.Generator
Floats = NDArray[np.float64]


@dataclass(frozen=True)
class Law:
    """A law with mean 1.

    Attributes
    ----------
    name : str
        Its name in tables.
    draw : callable
        So many numbers.
    greatest : float
        No number is greater; numbers beyond it were cut to it.
    least : float
        No number is less.
    sd : float
        The standard deviation, nearly.
    """

    name: str
    draw: Callable[[Generator, int], Floats]
    greatest: float
    least: float = 0.0
    sd: float = 1.0


def _cut(law: object, end: float) -> tuple[Callable[[Generator, int], Floats], float]:
    """Draws of a law of scipy that are cut at `end` and scaled to mean 1, and the greatest of them."""
    mean = integrate.quad(law.sf, 0, end, limit=500)[0]  # type: ignore[attr-defined]

    def draw(generator: Generator, n: int) -> Floats:
        numbers = law.rvs(size=n, random_state=generator)  # type: ignore[attr-defined]
        return np.asarray(np.minimum(numbers, end) / mean, dtype=float)

    return draw, end / mean


_SPREAD = math.sqrt(math.log(10.0))  # of a lognormal law whose deviation is 3 times its mean
_EXPONENTIAL = _cut(stats.expon(), 30.0)
_LOGNORMAL = _cut(stats.lognorm(_SPREAD, scale=math.exp(-(_SPREAD**2) / 2)), 300.0)

LAWS = (
    Law("normal", lambda g, n: np.clip(g.normal(1.0, 0.5, n), -2.0, 4.0), 4.0, -2.0, 0.5),
    Law("exponential", *_EXPONENTIAL),
    Law("lognormal, cv 3", *_LOGNORMAL, sd=3.0),
    Law("large on 3 % of runs", lambda g, n: g.binomial(1, 0.03, n) / 0.03, 1 / 0.03, sd=5.7),
)
