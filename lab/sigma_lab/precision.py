"""So many runs that an interval is as narrow as you ask."""

from __future__ import annotations

import math
from collections.abc import Mapping
from dataclasses import dataclass, replace
from typing import Any

import numpy as np

from . import comparisons, estimators, replication
from .errors import GoalMissed, InputError
from .estimates import Bounds, Estimate, Floats
from .measures import EventMeasure, Measure
from .measures import measure as read_measure
from .narrowing import Goal, inner_level, needed_runs
from .plan import Plan
from .ranges import Ranges, Stated, check_inside
from .report import Report

FEWEST_FIRST = 50
Worst = Stated | Mapping[str, Stated] | None


@dataclass(frozen=True, eq=False)
class Precise:
    """An estimate that is narrow enough.

    Attributes
    ----------
    estimate : Estimate
    report : Report
        All runs.
    looks : int
        How often the runs were looked at.
    """

    estimate: Estimate
    report: Report
    looks: int


def bounds_of(measure: Measure, ranges: Ranges, worst: Worst) -> tuple[Bounds, Bounds]:
    """The ranges of what is above and below the `/` of a measure, in raw units; `worst` of the measure is in its unit."""
    above, below = ranges.of_measure(measure)
    if worst is None or isinstance(worst, Mapping):
        return above, below
    if measure.is_ratio:
        raise InputError(
            "of a ratio the worst values are stated for its items, as {'WAITED': 5000}"
        )
    low, high = sorted((above[0] * measure.scale, above[1] * measure.scale))
    low, high = worst if isinstance(worst, tuple) else (low, worst)
    if not low < high:
        raise InputError("the least value is below the greatest")
    ends = sorted((low / measure.scale, high / measure.scale))
    return (ends[0], ends[1]), below


def run_until_precise(
    model: Any,
    measure: str | Measure,
    plan: Plan,
    *,
    half_width: float | None = None,
    relative: float | None = None,
    worst: Worst = None,
    most: int = 100_000,
    confidence_level: float = 0.95,
    progress: str = "",
) -> Precise:
    """Runs until an interval is narrow enough.

    Parameters
    ----------
    model : Model, path or str
    measure : str or Measure
        A mean over the runs, or a ratio of totals.
    plan : Plan
        `plan.runs` is the number of first runs; fewer than 50 are made 50.
    half_width, relative : float
        How far the interval may reach, in the measure's unit or as a part of the mean: one of the two.
    worst : number, pair, or mapping of str to these, optional
        The greatest value of a run in the measure's unit, or its least and greatest; or these of items.  By default the
        range that the model declares.  The narrower the range, the fewer runs are needed.
    most : int
        The most runs.

    Raises
    ------
    InputError
        If no range of the measure is known.
    GoalMissed
        If `most` runs don't do.
    """
    wanted = read_measure(measure) if isinstance(measure, str) else measure
    if isinstance(wanted, EventMeasure):
        raise InputError("precision is of items of a report, and not of values at an event")
    goal = Goal(half_width, relative)
    text = replication.ready(model)
    stated = worst if isinstance(worst, Mapping) else None
    ranges = Ranges.of_model(text, plan.until - plan.warm_up, stated)
    above, below = bounds_of(wanted, ranges, worst)
    if not np.isfinite(above).all():
        raise InputError(f"no range of {wanted.label} is declared: state its worst value")
    if not np.isfinite(below).all():
        raise InputError(f"no range of what is below the / of {wanted.label} is declared: state it")
    report: Report | None = None
    looks, lot = 0, min(max(plan.runs, FEWEST_FIRST), most)
    while True:
        done = len(report) if report else 0
        more = replication.replicate(
            text, plan.change(runs=lot), first_run=done + 1, progress=progress
        )
        report = more if report is None else report.concat(more)
        looks, done = looks + 1, len(report)
        here, numbers, ends = _look(wanted, report, above, below, inner_level(confidence_level))
        need = needed_runs(here, numbers, ends, goal.of(here.value))
        if need <= done:
            method = f"{here.method}, widened for stopping"
            made = replace(here, confidence_level=confidence_level, method=method)
            return Precise(made, report, looks)
        if done >= most:
            said = "many more" if math.isinf(need) else f"{math.ceil(need)}"
            raise GoalMissed(f"{done} runs don't do, {said} are needed: {here}")
        lot = int(min(max(math.ceil(min(need, 2 * done)) - done, done // 20, 5), most - done))


def _look(
    measure: Measure, report: Report, above: Bounds, below: Bounds, level: float
) -> tuple[Estimate, Floats, Bounds]:
    """The estimate, the numbers that it is the mean of, and their range, in the measure's unit."""
    sample = measure.of(report)
    here = estimators.estimate(sample, confidence_level=level, bounds=above)
    numbers = np.asarray(comparisons.plain(sample), dtype=float)
    if sample.below is None:
        ends = sorted((above[0] * sample.scale, above[1] * sample.scale))
        check_inside(numbers, (ends[0], ends[1]), measure.label)
        return here, numbers, (ends[0], ends[1])
    # A run moves the ratio r by (a - r b) / mean(b), nearly.
    under = float(np.asarray(sample.below, dtype=float).mean())
    raw = here.value / sample.scale
    shifts = [sample.scale * (a - raw * b) / under for a in above for b in below]
    return here, numbers, (here.value + min(shifts), here.value + max(shifts))
