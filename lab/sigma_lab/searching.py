"""The cheapest design that meets all targets."""

from __future__ import annotations

from collections.abc import Callable, Mapping, Sequence
from dataclasses import dataclass
from typing import TYPE_CHECKING, Any

from . import estimators
from .designs import Design, Grid, Replicate, costs_of, designs
from .errors import GoalMissed, InputError
from .estimates import Estimate, risk_of
from .plan import Plan
from .ranges import Ranges, Stated
from .report import Report
from .targets import Limits, State, Target, decide

if TYPE_CHECKING:
    import pandas as pd

Note = Callable[[str], None]


@dataclass(frozen=True, eq=False)
class Search:
    """The chosen design, and how each design that was looked at was decided.

    Attributes
    ----------
    design : Design
    cost : float
    log : DataFrame
        A row for each design that was looked at: the names' values, cost, state, runs, by (which targets it missed), and
        the estimate of each target's measure.
    fresh : dict of str to Estimate
        The chosen design's estimates from runs that no design had before, all together at the confidence level.
    runs : int
        How many runs were made.
    certain : bool
        Whether no cheaper design was left undecided.
    confirmed : bool
        Whether the fresh intervals meet the targets too, with their whole length.
    """

    design: Design
    cost: float
    log: pd.DataFrame
    fresh: dict[str, Estimate]
    runs: int
    certain: bool
    confirmed: bool


@dataclass(frozen=True, eq=False)
class Verdict:
    """What the runs of one design say of all targets."""

    state: State
    lost: tuple[str, ...]
    report: Report
    values: dict[str, float]


def search(
    model: Any,
    grid: Grid,
    *,
    cost: str,
    targets: Sequence[str | Target],
    plan: Plan,
    where: str = "",
    worst: Mapping[str, Stated] | None = None,
    most: int = 100_000,
    fresh: int = 0,
    confidence_level: float = 0.95,
    progress: str = "",
    note: Note = lambda line: None,
) -> Search:
    """The cheapest design that meets all targets.

    Designs are looked at in the order of their costs, and one that misses a target is left after that target alone.  With
    the confidence level, for all designs and targets together and whatever the distribution of the runs: the chosen
    design meets each bound, and no cheaper design that was decided is better than each bound by its margin.

    Parameters
    ----------
    model, grid, where
        As of `designs.designs`.
    cost : str
        A formula over the names of the grid.
    targets : sequence of str or Target
        All of them have to be met.
    plan : Plan
        `plan.runs` is the number of first runs of a design.
    worst : mapping of str to number or pair, optional
        Of items, the greatest value of a run, or the least and the greatest, in place of the range that is declared.
    most : int
        The most runs of a design.
    fresh : int
        How many runs of their own the chosen design gets at the end; by default as many as decided it, and 200.

    Raises
    ------
    GoalMissed
        If no design meets the targets.
    InputError
        If no range of a target's measure is known, or if a run is beyond the range that was stated.
    """
    wanted = [Target.parse(each) if isinstance(each, str) else each for each in targets]
    if not wanted:
        raise InputError("a target is needed")
    if not 1 <= plan.runs <= most:
        raise InputError("the first runs are no more than the most")
    ways = designs(model, grid, where)
    costs = costs_of(ways, cost)
    risk = risk_of(confidence_level) / len(ways) / len(wanted)
    judge = _Judge(wanted, plan, risk, most, worst or {}, progress)
    rows, total, longest, certain = [], 0, 0, True
    for number in sorted(range(len(ways)), key=lambda k: (costs[k], k)):
        way, price = ways[number], costs[number]
        verdict = judge(way)
        done = len(verdict.report)
        total, longest = total + done, max(longest, done)
        row: dict[str, Any] = {**way.values, "cost": price, "state": verdict.state, "runs": done}
        rows.append(row | {"by": ", ".join(verdict.lost)} | verdict.values)
        note(_said(way, price, verdict))
        if verdict.state == "meets":
            break
        certain = certain and verdict.state != "more"
    else:
        left = "" if certain else f", and some are undecided after {most} runs"
        raise GoalMissed(f"none of {len(ways)} designs meets all targets{left}")
    return _confirmed(
        way,
        price,
        rows,
        judge,
        (fresh or max(200, done), longest, total),
        certain,
        confidence_level,
    )


def _confirmed(
    way: Design,
    price: float,
    rows: list[dict[str, Any]],
    judge: _Judge,
    numbers: tuple[int, int, int],
    certain: bool,
    confidence_level: float,
) -> Search:
    """The answer, with the estimates of the chosen design from fresh runs."""
    import pandas as pd

    fresh, longest, total = numbers
    again = Replicate(longest + 1)(way, way.plan(judge.plan).change(runs=fresh))
    level = 1 - risk_of(confidence_level) / len(judge.targets)
    ranges = judge.ranges(way)
    made = {
        target.text: estimators.estimate(
            target.what.of(again), confidence_level=level, bounds=ranges.of_measure(target.what)[0]
        )
        for target in judge.targets
    }
    ends = [
        each.low if target.sign > 0 else each.high
        for target, each in zip(judge.targets, made.values())
    ]
    confirmed = all(
        target.sign * (end - target.bound) >= 0 for target, end in zip(judge.targets, ends)
    )
    log = pd.DataFrame(rows)
    log["state"] = log["state"].replace("more", "undecided")
    return Search(way, price, log, made, total + fresh, certain, confirmed)


def _said(way: Design, price: float, verdict: Verdict) -> str:
    names = ", ".join(verdict.lost)
    said = {
        "meets": "meets",
        "misses": f"misses {names}",
        "passed over": f"is passed over: not better by its margin in {names}",
        "more": "is undecided",
    }[verdict.state]
    values = ", ".join(f"{name} {value:.10g}" for name, value in verdict.values.items())
    return f"{way.name} costs {price:.10g}: {said}, {len(verdict.report)} runs: {values}"


class _Judge:
    """Makes runs of a design until all targets are decided, or one is lost, or the most runs are made."""

    def __init__(
        self,
        targets: Sequence[Target],
        plan: Plan,
        risk: float,
        most: int,
        worst: Mapping[str, Stated],
        progress: str = "",
    ) -> None:
        self.targets, self.plan, self.risk, self.most = targets, plan, risk, most
        self.worst, self.progress = worst, progress

    def ranges(self, way: Design) -> Ranges:
        """The ranges of a design's items."""
        return Ranges.of_model(way.text, self.plan.until - self.plan.warm_up, self.worst)

    def __call__(self, way: Design) -> Verdict:
        limits = [target.limits(self.ranges(way)) for target in self.targets]
        report: Report | None = None
        lot = self.plan.runs
        while True:
            done = len(report) if report else 0
            more = Replicate(done + 1)(way, way.plan(self.plan).change(runs=lot))
            report = more if report is None else report.concat(more)
            done = len(report)
            state, lost = judged(self.targets, limits, report, self.risk)
            if state != "more" or done >= self.most:
                return Verdict(state, lost, report, _values(self.targets, report))
            least = [each.fewest_runs(self.risk) for each in limits]
            lot = int(min(max(done, min(least) - done), self.most - done))


def judged(
    targets: Sequence[Target], limits: Sequence[Limits], report: Report, risk: float
) -> tuple[State, tuple[str, ...]]:
    """What the runs of one design say of all targets together, and which targets it lost."""
    states = [
        decide(target, target.what.of(report), limit, risk)[0]
        for target, limit in zip(targets, limits)
    ]
    lost = tuple(
        target.what.label
        for target, state in zip(targets, states)
        if state in ("misses", "passed over")
    )
    if "misses" in states:
        return "misses", lost
    if lost:
        return "passed over", lost
    return ("more" if "more" in states else "meets"), lost


def _values(targets: Sequence[Target], report: Report) -> dict[str, float]:
    return {
        target.what.label: estimators.estimate(target.what.of(report)).value for target in targets
    }
