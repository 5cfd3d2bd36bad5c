"""Rules of runs: faults, endless runs, clips that were needed, ranges that are nearly used up."""

from __future__ import annotations

from collections.abc import Iterator
from dataclasses import replace

from .. import probe
from ..faults import whyfault
from ..model import Model
from ..plan import Plan
from ..report import Report
from ..tree import Binary, Draw, EventGraph, Name, Variable, walk
from .finding import NOTE, SLIP, WRONG, Finding

NEAR = 0.9
"""Of a range: what is above is nearly used up."""


def _report(graph: EventGraph, plan: Plan) -> Report:
    return Model.from_graph(graph).replicate(plan.change(on_cut="keep"))


def faults(model: Model, plan: Plan) -> Iterator[Finding]:
    """Runs that fault or spend their budget, with the event of the first of them."""
    report = _report(probe.all_events(model.graph), plan)
    runs = list(zip((int(seed) for seed in report.seeds), report.outcomes))
    for outcome in dict.fromkeys(each for _, each in runs if each in ("fault", "budget")):
        seeds = [seed for seed, each in runs if each == outcome]
        why = whyfault(
            model, until=plan.until, seed=seeds[0], start=tuple(plan.start), events=plan.events
        )
        lines = str(why).split("\nthe last events")[0].splitlines()
        words = f"{len(seeds)} of {plan.runs} runs; {' | '.join(map(str.strip, lines))}"
        yield Finding(outcome, WRONG, f"seed {seeds[0]}", words)


def _wider(variable: Variable) -> Variable:
    """A clipped variable with one number more at each end: up to the first such value runs do the same."""
    low, high = variable.low, variable.high
    if not variable.clip or low is None or high is None or max(-low, high) >= probe.WIDE:
        return variable
    return replace(variable, low=low - 1, high=high + 1)


def reached(model: Model, plan: Plan) -> Iterator[Finding]:
    """Clips that were needed, and ranges that are nearly used up."""
    graph = model.graph
    scalars = [each for each in graph.variables if not each.is_bool and (each.size or 1) <= 256]
    if not scalars:
        return
    wide = tuple(map(_wider, graph.variables))
    names = tuple(each.name for each in scalars)
    report = _report(replace(graph, variables=wide, watch=names), plan)
    ends: dict[str, tuple[int, int]] = {}
    for item in report.items:
        name = item.partition("[")[0]
        known = [int(each) for each in report.values(item, "least") if each is not None]
        known += [int(each) for each in report.values(item, "greatest") if each is not None]
        if known:
            known += ends.get(name, ())
            ends[name] = min(known), max(known)
    for variable in scalars:
        if variable.name in ends:
            yield from _reach(graph, variable, *ends[variable.name], plan.runs)


def _reach(
    graph: EventGraph, variable: Variable, least: int, greatest: int, runs: int
) -> Iterator[Finding]:
    low, high = variable.low, variable.high
    assert low is not None and high is not None, "truth values have no range"
    if variable.clip and (least < low or greatest > high):
        side = "below" if least < low else "above"
        yield Finding(
            "clip",
            SLIP,
            variable.name,
            f"a value {side} {low}..{high} was clipped in {runs} runs",
            "take a range that holds it, unless the loss is meant",
        )
    is_near = not variable.clip and high > 9 and greatest >= NEAR * high
    if is_near and variable.name not in _drawn(graph):
        yield Finding(
            "range",
            NOTE,
            variable.name,
            f"it reached {greatest} of {low}..{high} in {runs} runs",
            "a longer run may fault: take a wider range" if greatest < high else "",
        )


def _drawn(graph: EventGraph) -> set[str]:
    """Variables that hold draws, parameters and remainders, which use their whole range as a rule."""
    answer = {name for each in graph.vertices for name in each.parameters}
    for vertex in graph.vertices:
        for change in vertex.changes:
            if isinstance(change, Draw):
                answer.add(change.target.name)
            else:
                answer |= {
                    target.name
                    for target, value in zip(change.targets, change.values)
                    if any(
                        isinstance(each, Binary) and each.operator == "%" for each in walk(value)
                    )
                    or isinstance(value, Name)
                }
    return answer


RULES = (faults, reached)
