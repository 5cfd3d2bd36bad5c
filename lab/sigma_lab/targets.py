"""Targets of a design, and how runs decide them.

A target is met at its bound.  A design that is better than the bound by the margin must not be passed over; inside the
margin both answers are right.  Each decision is wrong with at most the risk that it is given, whatever the distribution
of the runs, as `evidence` explains.
"""

from __future__ import annotations

import math
import re
from dataclasses import dataclass
from typing import Literal

import numpy as np

from .errors import InputError
from .estimates import Bounds, Floats, finite
from .evidence import fewest_runs, first_refuted
from .measures import EventMeasure, Measure, Sample
from .measures import measure as read_measure
from .ranges import Ranges

Sense = Literal["<=", ">="]
State = Literal["meets", "misses", "passed over", "more"]

_NUMBER = r"-?(?:\d+(?:\.\d+)?|\.\d+)(?:[eE]-?\d+)?"
_WORDS = re.compile(
    rf"\s*(.+?)\s*(>=|<=)\s*({_NUMBER})\s+by\s+({_NUMBER})(?:\s+worst\s+({_NUMBER}))?\s*"
)


@dataclass(frozen=True)
class Target:
    """What a design is to reach: `Target(item("LOST"), "<=", 1, margin=0.5)`.

    Parameters
    ----------
    measure : Measure or str
        A mean over runs, or a ratio of totals.  A chance is the mean of a condition: `measure("QUEUE.greatest <= 20")`.
    sense : {"<=", ">="}
        On which side of the bound a design is good.
    bound : float
        In the measure's unit.
    margin : float
        Above 0.  A design that is better than the bound by the margin isn't passed over.
    worst : float, optional
        The worst value that a run can have, in the measure's unit: the greatest for `<=`, the least for `>=`.  By
        default the range that the model declares decides.  The narrower the range, the fewer runs are needed.
    """

    measure: Measure | str
    sense: Sense
    bound: float
    margin: float
    worst: float | None = None

    def __post_init__(self) -> None:
        if isinstance(self.measure, str):
            object.__setattr__(self, "measure", read_measure(self.measure))
        if isinstance(self.measure, EventMeasure):
            raise InputError("a target is of items of a report, and not of values at an event")
        if self.sense not in ("<=", ">="):
            raise InputError(f"a target is <= or >=: {self.sense}")
        if not (math.isfinite(self.bound) and 0 < self.margin < math.inf):
            raise InputError("a bound is a number, and a margin is above 0")
        if self.worst is not None and not self.sign * (self.bound - self.worst) > 0:
            raise InputError(f"the worst value misses the target: {self.worst:g}")

    @classmethod
    def parse(cls, text: str) -> Target:
        """The target of its words: `LOST.last <= 1 by 0.5`, or `QUEUE average in 60=h <= 2 by 1 worst 40`."""
        found = _WORDS.fullmatch(text)
        if not found:
            raise InputError(f"a target is ITEM.COLUMN <= X by MARGIN [worst W], or >=: {text!r}")
        what, sense, bound, margin, worst = found.groups()
        limit = None if worst is None else float(worst)
        return cls(what, "<=" if sense == "<=" else ">=", float(bound), float(margin), limit)

    @property
    def sign(self) -> float:
        """1 where more is better, and -1 where less is."""
        return 1.0 if self.sense == ">=" else -1.0

    @property
    def what(self) -> Measure:
        """The measure itself."""
        assert isinstance(self.measure, Measure)
        return self.measure

    @property
    def text(self) -> str:
        """Its words."""
        return f"{self.what.label} {self.sense} {self.bound:.10g} by {self.margin:.10g}"

    def limits(self, ranges: Ranges) -> Limits:
        """How far runs can lie from the bound.  Raises InputError if a limit isn't known."""
        above, below = ranges.of_measure(self.what)
        return Limits.of(self, above, below)


@dataclass(frozen=True)
class Limits:
    """How far the excess of a run over a target's bound, and over its bound and margin, can lie from 0.

    Attributes
    ----------
    worst : float
        The least excess over the bound, at most 0 as a rule.
    best, best_at_margin : float
        The greatest excess over the bound, and over the bound and margin.
    """

    worst: float
    best: float
    best_at_margin: float

    @classmethod
    def of(cls, target: Target, above: Bounds, below: Bounds) -> Limits:
        """Those of a target whose sides lie in these ranges, in raw units."""
        scale = target.what.scale * target.what.sides[0]
        above = (
            (above[0] * scale, above[1] * scale)
            if scale > 0
            else (above[1] * scale, above[0] * scale)
        )
        worst = _least(target, target.bound, above, below)
        if target.worst is not None:
            away = target.sign * (target.worst - target.bound)
            worst = away * (below[1] if target.what.is_ratio else 1.0)
        margin = target.bound + target.sign * target.margin
        best = _greatest(target, target.bound, above, below)
        at_margin = _greatest(target, margin, above, below)
        label = target.what.label
        if not math.isfinite(worst):
            raise InputError(f"no range of {label} is declared: state the worst value of a run")
        if not math.isfinite(best):
            raise InputError(f"no range of {label} is declared: state the range of its items")
        if at_margin <= 0:
            raise InputError(f"the margin is too wide: no run of {label} is better than {margin:g}")
        return cls(worst, best, at_margin)

    def fewest_runs(self, risk: float) -> float:
        """The fewest runs that can meet the target at this risk."""
        return fewest_runs(self.best, -self.worst, risk)


def _least(target: Target, bound: float, above: Bounds, below: Bounds) -> float:
    return min(_corners(target, bound, above, below))


def _greatest(target: Target, bound: float, above: Bounds, below: Bounds) -> float:
    return max(_corners(target, bound, above, below))


def _corners(target: Target, bound: float, above: Bounds, below: Bounds) -> list[float]:
    """The excess over a bound at the ends of the ranges."""
    parts = [0.0 if bound == 0 else bound * side for side in below]
    made = [target.sign * (a - b) for a in above for b in parts]
    # Without a limit on both sides their difference has none.
    return [x if not math.isnan(x) else math.inf for x in made] + [
        -math.inf for x in made if math.isnan(x)
    ]


def excess(target: Target, sample: Sample, bound: float) -> Floats:
    """By how much each run is better than a bound: `above - bound * below`, in the measure's unit."""
    above = finite(sample.above) * sample.scale
    below = np.ones(len(above)) if sample.below is None else finite(sample.below)
    return np.asarray(target.sign * (above - bound * below), dtype=float)


def decide(target: Target, sample: Sample, limits: Limits, risk: float) -> tuple[State, int]:
    """What the runs say of a target, and after how many of them.

    Parameters
    ----------
    target : Target
    sample : Sample
        The numbers of independent runs of one design.
    limits : Limits
        What a run can have.
    risk : float
        The chance of a wrong answer that is allowed, for each of the two errors.

    Returns
    -------
    (state, runs)
        `meets`; `misses`; `passed over`, where it may meet the bound but isn't better by the margin; or `more`, where
        more runs are needed.

    Raises
    ------
    InputError
        If a run is worse than what was stated.
    """
    over = excess(target, sample, target.bound)
    margin = excess(target, sample, target.bound + target.sign * target.margin)
    try:
        meets = first_refuted(over, -limits.worst, risk)
        not_better = first_refuted(-margin, limits.best_at_margin, risk)
        misses = first_refuted(-over, limits.best, risk)
    except InputError as error:
        raise InputError(f"{target.text}: {error}") from None
    if meets is None and not_better is None:
        return "more", len(sample)
    if not_better is None or meets is not None and meets <= not_better:
        assert meets is not None
        return "meets", meets
    return ("misses" if misses is not None else "passed over"), not_better
