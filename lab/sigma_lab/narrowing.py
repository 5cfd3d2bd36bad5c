"""When an interval is narrow enough, and how many more runs it needs.

An interval that is looked at until it is narrow is narrow by chance too often, so it is widened a little.
Three things have to hold, since few runs may look calm by chance: the interval reaches no farther than the goal; what
wasn't seen, times the share of runs that may have it, moves the mean no farther than the goal; and there are enough runs
for the skewness that was seen.

References
----------
Law 2015, section 9.4.1 (relative precision); Willink 2005; Boos and Hughes-Oliver 2000.
"""

from __future__ import annotations

import math
from dataclasses import dataclass

from .errors import InputError
from .estimates import Bounds, Estimate, Floats, risk_of, skewness

WIDENED = 0.75
"""An interval that stops runs when it looks narrow is made at this part of the risk, to make up for that."""

RUNS_BY_SKEWNESS = 5
"""Willink's interval takes this many runs times the square of the skewness."""


@dataclass(frozen=True)
class Goal:
    """How narrow an interval is to be.

    Parameters
    ----------
    half_width : float or None
        In the measure's unit, above 0.
    relative : float or None
        As a part of the mean, above 0 and below 1.  It is asked for as g / (1 + g) of the mean that was measured, so that
        it is g of the true one.
    """

    half_width: float | None = None
    relative: float | None = None

    def __post_init__(self) -> None:
        if (self.half_width is None) == (self.relative is None):
            raise InputError("a half width or a relative one is needed")
        if self.half_width is not None and not 0 < self.half_width < math.inf:
            raise InputError("a half width is above 0")
        if self.relative is not None and not 0 < self.relative < 1:
            raise InputError("a relative half width is above 0 and below 1")

    def of(self, value: float) -> float:
        """How far the interval of this estimate may reach."""
        if self.half_width is not None:
            return self.half_width
        assert self.relative is not None
        return self.relative / (1 + self.relative) * abs(value)


def inner_level(confidence_level: float) -> float:
    """The level at which an interval is made that stops runs, so that it holds at `confidence_level`."""
    return 1 - WIDENED * risk_of(confidence_level)


def needed_runs(made: Estimate, numbers: Floats, bounds: Bounds, goal: float) -> float:
    """How many runs the goal takes, as far as these runs tell; no more than were made if it is reached.

    Parameters
    ----------
    made : Estimate
        The estimate from all runs, in the unit of `goal`.
    numbers : array, shape (runs,)
        The numbers whose mean it is, or pseudovalues of a ratio, in the same unit.
    bounds : (float, float)
        The least and the greatest that a number of a run can be.
    """
    if goal <= 0:
        return math.inf
    n = len(numbers)
    risk = risk_of(made.confidence_level)
    reach = made.half_width
    if math.isnan(reach):
        return math.inf
    by_interval = n * (reach / goal) ** 2 * 1.02 if reach > goal else 0.0
    farthest = max(bounds[1] - made.value, made.value - bounds[0])
    by_unseen = -math.log(risk / 2) * farthest / goal
    by_skewness = RUNS_BY_SKEWNESS * skewness(numbers) ** 2
    if by_skewness > n:
        by_skewness = max(by_skewness, 1.5 * n)
    return max(by_interval, by_unseen, by_skewness)
