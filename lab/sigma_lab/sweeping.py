"""Sweeps: a row for each design and measure, with what it has more than the first design."""

from __future__ import annotations

from collections.abc import Sequence
from dataclasses import dataclass, field
from typing import TYPE_CHECKING, Any, Literal

from . import clusters, comparisons, estimators, replication
from .designs import Design, Grid, costs_of, designs, over_designs
from .errors import InputError
from .estimates import UNBOUNDED, Bounds, Estimate
from .measures import EventMeasure, Measure, measures as read_measures
from .observations import Observations
from .plan import Plan
from .ranges import Ranges
from .report import Report

if TYPE_CHECKING:
    import pandas as pd

Family = Literal["design", "all", "none"]


@dataclass(frozen=True, eq=False)
class Runs:
    """The runs of one design: its report, and its values at events by (event, value, condition)."""

    report: Report | None
    seen: dict[tuple[str, str, str], Observations] = field(default_factory=dict)


@dataclass(frozen=True, eq=False)
class Sweep:
    """A table of designs.

    Attributes
    ----------
    frame : DataFrame
        A row for each design and measure: the names' values, cost, measure, value, low, high, standard_error, n, method,
        unit, more (than the first design: the difference of the two values), more_low, more_high, warnings.
    reports : dict of str to Report
        The report of each design, by its name.
    observations : dict of str to dict
        The values at events of each design, by (event, value, condition).
    """

    frame: pd.DataFrame
    reports: dict[str, Report]
    observations: dict[str, dict[tuple[str, str, str], Observations]]

    def best(
        self, measure: Measure, *, minimize: bool = True, confidence_level: float = 0.95
    ) -> pd.DataFrame:
        """Multiple comparisons with the best design of the sweep, as `comparisons.mcb`."""
        return comparisons.compare_reports(
            self.reports,
            measure,
            against="least" if minimize else "greatest",
            confidence_level=confidence_level,
        )


class _MakeRuns:
    """Makes all that the measures of a sweep take from a design, each run once for reports and once for events."""

    def __init__(self, wanted: Sequence[Measure | EventMeasure], first_run: int) -> None:
        self.is_reported = any(isinstance(each, Measure) for each in wanted)
        self.events = list(
            dict.fromkeys(_key(each) for each in wanted if isinstance(each, EventMeasure))
        )
        self.first_run = first_run

    def __call__(self, way: Design, plan: Plan) -> Runs:
        report = None
        if self.is_reported:
            report = replication.replicate(way.text, plan, first_run=self.first_run, label=way.name)
        seen: list[Observations] = []
        if self.events:
            seen = replication.observe_all(way.text, self.events, plan, first_run=self.first_run)
        return Runs(report, dict(zip(self.events, seen)))


def _key(measure: EventMeasure) -> tuple[str, str, str]:
    return measure.event, measure.value, measure.where


def sweep(
    model: Any,
    grid: Grid,
    measures: Sequence[str | Measure | EventMeasure],
    plan: Plan,
    *,
    where: str = "",
    cost: str = "",
    common: bool = True,
    family: Family = "design",
    confidence_level: float = 0.95,
    progress: str = "",
) -> Sweep:
    """A table of designs.

    Parameters
    ----------
    model : Model, path or str
    grid, where
        As of `designs.designs`.
    measures : sequence of str, Measure or EventMeasure
        What is measured of each design.
    plan : Plan
        `plan.runs` runs of each design.
    cost : str
        A formula over the names of the grid, for a column of its own.
    common : bool
        Whether all designs have the same runs, which makes differences narrower; else each has runs of its own.
    family : {"design", "all", "none"}
        Intervals hold together over the designs for each measure, over designs and measures, or each by itself
        (Bonferroni).

    Returns
    -------
    Sweep
        The column `more` is the difference of the column `value`, with the interval of that difference.
    """
    wanted = read_measures(measures)
    if not wanted:
        raise InputError("a measure is needed")
    if family not in ("design", "all", "none"):
        raise InputError(f"a family is design, all or none: {family}")
    ways = designs(model, grid, where)
    prices = costs_of(ways, cost) if cost else None
    if common:
        made = over_designs(_MakeRuns(wanted, 1), ways, plan, progress)
    else:
        made = [
            _MakeRuns(wanted, 1 + at * plan.runs)(way, way.plan(plan))
            for at, way in enumerate(ways)
        ]
    times = len(wanted) if family == "all" else 1
    each = comparisons.levels(confidence_level, len(ways) * times, family != "none")
    between = comparisons.levels(confidence_level, (len(ways) - 1) * times, family != "none")
    rows = []
    for at, (way, runs) in enumerate(zip(ways, made)):
        ranges = Ranges.of_model(way.text, plan.until - plan.warm_up)
        for measure in wanted:
            here = value_of(measure, runs, each, ranges)
            row: dict[str, Any] = {**way.values} | ({"cost": prices[at]} if prices else {})
            parts = here.to_dict()
            row |= {"measure": measure.label, "value": here.value}
            row |= {
                name: parts[name]
                for name in ("low", "high", "standard_error", "n", "method", "unit")
            }
            if at:
                more = difference_of(measure, made[0], runs, between, common)
                row |= {"more": more.value, "more_low": more.low, "more_high": more.high}
            rows.append(row | {"warnings": parts["warnings"]})
    import pandas as pd

    return Sweep(
        pd.DataFrame(rows),
        {way.name: runs.report for way, runs in zip(ways, made) if runs.report is not None},
        {way.name: runs.seen for way, runs in zip(ways, made)},
    )


def value_of(
    measure: Measure | EventMeasure,
    runs: Runs,
    confidence_level: float,
    ranges: Ranges | None = None,
) -> Estimate:
    """The estimate of a measure from the runs of a design, in the measure's unit."""
    level = confidence_level
    if isinstance(measure, Measure):
        assert runs.report is not None
        bounds: Bounds = UNBOUNDED if ranges is None else ranges.of_measure(measure)[0]
        return estimators.estimate(measure.of(runs.report), confidence_level=level, bounds=bounds)
    seen = runs.seen[_key(measure)]
    if measure.probability is not None:
        made = clusters.quantile(seen, measure.probability, confidence_level=level)
    elif measure.limit is not None:
        return clusters.share_at_most(seen, measure.limit, confidence_level=level)
    else:
        made = clusters.mean(seen, confidence_level=level)
    return made.scale(measure.scale, measure.unit)


def difference_of(
    measure: Measure | EventMeasure,
    first: Runs,
    second: Runs,
    confidence_level: float,
    paired: bool = True,
) -> Estimate:
    """What the second design has more than the first: the difference of the two values that `value_of` gives.

    Of means over runs and of ratios of totals it is that of their values or pseudovalues, run by run.  Of a mean or a
    share of values at events likewise; of a quantile there it is a bootstrap of the runs.
    """
    difference = comparisons.paired_difference if paired else comparisons.welch_difference
    if isinstance(measure, Measure):
        assert first.report is not None and second.report is not None
        samples = measure.of(first.report), measure.of(second.report)
        if samples[0].below is None:
            made = difference(samples[0].above, samples[1].above, confidence_level=confidence_level)
            return made.scale(samples[0].scale, samples[0].unit)
        sides = [
            estimators.pseudovalues(each.above, each.below)
            for each in samples
            if each.below is not None
        ]
        values = [estimators.estimate(each).value for each in samples]
        made = difference(*sides, confidence_level=confidence_level).scale(samples[0].scale)
        return _recentred(made, values[1] - values[0], samples[0].unit)
    seen = first.seen[_key(measure)], second.seen[_key(measure)]
    if measure.probability is not None:
        made = clusters.quantile_difference(
            *seen, measure.probability, paired=paired, confidence_level=confidence_level
        )
        return made.scale(measure.scale, measure.unit)
    limit = measure.limit
    sides = [
        clusters.mean_pseudovalues(each)
        if limit is None
        else clusters.share_pseudovalues(each, limit)
        for each in seen
    ]
    apart = [value_of(measure, each, confidence_level).value for each in (first, second)]
    made = difference(*sides, confidence_level=confidence_level)
    made = made.scale(measure.scale) if limit is None else made
    return _recentred(made, apart[1] - apart[0], measure.unit)


def _recentred(made: Estimate, value: float, unit: str) -> Estimate:
    """The interval of pseudovalues, for the difference of the two estimates itself."""
    parts = (made.low, made.high, made.standard_error, made.n, made.df)
    method = f"jackknife, {made.method}"
    return Estimate(value, *parts, method, made.confidence_level, made.warnings, unit)
