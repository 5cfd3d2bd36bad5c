"""The design with the best mean, perhaps of those that meet targets."""

from __future__ import annotations

from collections.abc import Mapping, Sequence
from dataclasses import dataclass
from typing import TYPE_CHECKING, Any

import numpy as np

from . import estimators
from .choosing import Contest
from .designs import Design, Grid, Replicate, designs, over_designs
from .errors import GoalMissed, InputError
from .estimates import Floats, finite, risk_of
from .measures import EventMeasure, Measure
from .measures import measure as read_measure
from .plan import Plan
from .precision import Worst, bounds_of
from .ranges import Ranges, check_inside
from .report import Report
from .searching import Note, judged
from .targets import Limits, Target

if TYPE_CHECKING:
    import pandas as pd

LARGEST_LOT = 20_000


@dataclass(frozen=True, eq=False)
class Selection:
    """The chosen design, and when each other one was left.

    Attributes
    ----------
    design : Design
    table : DataFrame
        A row for each design: the names' values, mean, low, high, runs, state (`chosen`, `worse`, `misses`,
        `passed over`, `left` where it is as good as the chosen one, `undecided`), left_after, left_for.
    reports : dict of str to Report
    runs : int
        How many runs were made.
    certain : bool
        Whether the promise holds; False where the most runs were made before.
    """

    design: Design
    table: pd.DataFrame
    reports: dict[str, Report]
    runs: int
    certain: bool


def select_best(
    model: Any,
    grid: Grid,
    measure: str | Measure,
    *,
    indifference: float,
    plan: Plan,
    minimize: bool = True,
    targets: Sequence[str | Target] = (),
    where: str = "",
    worst: Worst = None,
    most: int = 100_000,
    confidence_level: float = 0.95,
    progress: str = "",
    note: Note = lambda line: None,
) -> Selection:
    """The design with the best mean.

    With the confidence level, whatever the distribution of the runs, no other design is better than the chosen one by the
    indifference or more.  All designs have the same runs.

    Parameters
    ----------
    model, grid, where
        As of `designs.designs`.
    measure : str or Measure
        A mean over runs; no ratio of totals.
    indifference : float
        The difference that matters, in the measure's unit.
    plan : Plan
        `plan.runs` is the number of first runs of each design.
    targets : sequence of str or Target
        Chances and other targets that the chosen design has to meet.  Half of the risk is for these; the other designs
        of the promise are then those that are better than each bound by its margin.
    worst : number, pair, or mapping of str to these, optional
        The greatest value of a run, or the least and the greatest, in place of the range that the model declares.
    most : int
        The most runs of a design.

    Raises
    ------
    InputError
        If no range of the measure is known, or if a run is beyond the range that was stated.
    GoalMissed
        If no design meets the targets.
    """
    wanted = read_measure(measure) if isinstance(measure, str) else measure
    if isinstance(wanted, EventMeasure) or wanted.is_ratio:
        raise InputError("the best mean is of a mean over runs, and not of a ratio or at an event")
    ways = designs(model, grid, where)
    asked = [Target.parse(each) if isinstance(each, str) else each for each in targets]
    risk = risk_of(confidence_level) / (2 if asked else 1)
    state = _State(wanted, ways, plan, minimize, asked, risk, worst)
    contest = Contest(indifference, state.bounds(), risk, len(ways))
    lot = plan.runs
    while True:
        state.run(lot, progress)
        state.look(contest, note)
        if not state.alive:
            raise GoalMissed(f"none of {len(ways)} designs meets all targets")
        ready = all(state.states[k] == "meets" for k in state.alive)
        winner = contest.winner(state.values()) if ready else None
        if winner is not None or state.done >= most:
            return state.answer(contest, winner, confidence_level)
        lot = min(state.done, LARGEST_LOT, most - state.done)


class _State:
    """The runs of all designs so far."""

    def __init__(
        self,
        measure: Measure,
        ways: Sequence[Design],
        plan: Plan,
        minimize: bool,
        targets: Sequence[Target],
        risk: float,
        worst: Worst,
    ) -> None:
        self.measure, self.ways, self.plan, self.targets = measure, ways, plan, targets
        self.sign = -1.0 if minimize else 1.0
        self.worst, self.done = worst, 0
        self.risk = risk / max(1, len(ways) * len(targets))
        self.reports: dict[int, Report] = {}
        self.alive = list(range(len(ways)))
        self.states = {k: "more" if targets else "meets" for k in self.alive}
        self.lost_after: dict[int, int] = {}
        self.range = self._range()
        self.limits: dict[int, list[Limits]] = {
            k: [target.limits(self._ranges(k)) for target in targets] for k in self.alive
        }

    def _ranges(self, k: int) -> Ranges:
        stated = self.worst if isinstance(self.worst, Mapping) else None
        return Ranges.of_model(self.ways[k].text, self.plan.until - self.plan.warm_up, stated)

    def bounds(self) -> tuple[float, float]:
        """The least and the greatest value of any design's run, where more is better."""
        low, high = sorted((self.sign * self.range[0], self.sign * self.range[1]))
        return low, high

    def _range(self) -> tuple[float, float]:
        """The least and the greatest value of any design's run, in the measure's unit."""
        ends = [
            end * self.measure.scale
            for k in self.alive
            for end in bounds_of(self.measure, self._ranges(k), self.worst)[0]
        ]
        return min(ends), max(ends)

    def run(self, lot: int, progress: str) -> None:
        """Makes a lot of runs of each design that is left."""
        ways = [self.ways[k] for k in self.alive]
        plan = self.plan.change(runs=lot)
        made = over_designs(Replicate(self.done + 1), ways, plan, progress)
        for k, more in zip(self.alive, made):
            self.reports[k] = more if self.done == 0 else self.reports[k].concat(more)
        self.done += lot

    def values(self) -> dict[int, Floats]:
        """The numbers of the designs that are left, where more is better."""
        made = {k: self.sign * self._numbers(k) for k in self.alive}
        for numbers in made.values():
            check_inside(self.sign * numbers, self.range, self.measure.label)
        return made

    def _numbers(self, k: int) -> Floats:
        sample = self.measure.of(self.reports[k])
        return np.asarray(finite(sample.above) * sample.scale, dtype=float)

    def look(self, contest: Contest, note: Note) -> None:
        """Decides the targets, and lets worse designs leave."""
        for k in [k for k in self.alive if self.states[k] == "more"]:
            state, lost = judged(self.targets, self.limits[k], self.reports[k], self.risk)
            self.states[k] = state
            if lost:
                self.alive.remove(k)
                self.lost_after[k] = self.done
                note(f"{self.ways[k].name} {state} {', '.join(lost)}, after {self.done} runs")
        values = self.values()
        if len(values) > 1:
            before = set(contest.left)
            contest.leave(values, [k for k in self.alive if self.states[k] == "meets"])
            for k in set(contest.left) - before:
                self.alive.remove(k)
                after, rival = contest.left[k]
                means = [self.sign * float(values[each].mean()) for each in (k, rival)]
                names = self.ways[k].name, self.ways[rival].name
                note(
                    f"{names[0]} is left after {after} runs: {means[0]:.10g}, {names[1]} has {means[1]:.10g}"
                )

    def answer(self, contest: Contest, winner: int | None, level: float) -> Selection:
        """The chosen design and the table of all."""
        import pandas as pd

        values = self.values()
        good = [k for k in self.alive if self.states[k] == "meets"] or self.alive
        chosen = max(good, key=lambda k: float(values[k].mean())) if winner is None else winner
        rows = []
        for k, way in enumerate(self.ways):
            here = estimators.estimate(self.measure.of(self.reports[k]), confidence_level=level)
            after, rival = contest.left.get(k, (self.lost_after.get(k), None))
            rows.append(
                {**way.values, "mean": here.value, "low": here.low, "high": here.high}
                | {"runs": here.n, "state": self._state_of(k, chosen, contest, winner)}
                | {"left_after": after, "left_for": "" if rival is None else self.ways[rival].name}
            )
        reports = {way.name: self.reports[k] for k, way in enumerate(self.ways)}
        total = sum(map(len, reports.values()))
        return Selection(self.ways[chosen], pd.DataFrame(rows), reports, total, winner is not None)

    def _state_of(self, k: int, chosen: int, contest: Contest, winner: int | None) -> str:
        if k in contest.left:
            return "worse"
        if self.states[k] in ("misses", "passed over"):
            return self.states[k]
        if k == chosen:
            return "chosen"
        return "left" if winner is not None else "undecided"
