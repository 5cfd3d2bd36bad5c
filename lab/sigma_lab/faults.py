"""Why a run faults, or never ends: which event, in which part, with what values, and who scheduled it."""

from __future__ import annotations

from collections.abc import Iterator
from dataclasses import dataclass, field, replace
from typing import TYPE_CHECKING

from . import probe
from .blame import Blame, FaultingEvent
from .carrying import carrying_of
from .errors import NoEstimate
from .plan import EVENTS
from .probe import Run, Snapshot
from .trace import TracedEvent, traced, written
from .tree import EventGraph
from .writing import write_vertex_head

if TYPE_CHECKING:
    from .model import Model

_LOOK_BACK = 2000  # the most events at the end of a budget that are looked at
_FIRST_BUDGET = 10**6  # after so many events it is first asked whether the run is endless


@dataclass(frozen=True, repr=False)
class Fault:
    """An event that faults.

    Attributes
    ----------
    tick : int
        When.
    kind : str
        `range`, `index`, `division`, `delay` or `overflow`.
    vertex, event : str
        Its name, and its name with what it carried.
    place, part : str
        `change 1`, `edge 2` or `parameters`, and its text.
    values : dict
        The values before the event of all that it uses.
    blamed : tuple of Blame
        What isn't allowed.
    scheduled : str
        Which event scheduled it, and when; empty for the first one, and if its vertex can't carry that.
    """

    tick: int
    kind: str
    vertex: str
    event: str
    place: str
    part: str
    values: dict[str, str] = field(default_factory=dict)
    blamed: tuple[Blame, ...] = ()
    scheduled: str = ""

    def __str__(self) -> str:
        values = ", ".join(f"{name} = {value}" for name, value in self.values.items())
        first = f"at {self.tick} the event {self.event}: {self.kind}" + (
            f"; {values}" if values else ""
        )
        where = (
            f"its parameters: {self.part}"
            if self.place == "parameters"
            else f"{self.place} of {self.vertex}: {self.part}"
        )
        by = [f"    scheduled by {self.scheduled}"] if self.scheduled else []
        return "\n".join([first, f"    {where}", *(f"    {each}" for each in self.blamed), *by])

    __repr__ = __str__


@dataclass(frozen=True, repr=False)
class Stuck:
    """A run that spent its budget: where, and the events that come again and again there."""

    tick: int
    until: int
    events: int
    in_tick: int
    cycle: tuple[str, ...]
    last: list[TracedEvent]
    is_whole: bool  # whether the events in `last` have the changes of all variables

    @property
    def changed(self) -> set[str]:
        """The variables that a turn of the cycle changes."""
        return {name for each in self.last[-len(self.cycle) :] for name, _, _ in each.changes}

    @property
    def is_endless(self) -> bool:
        """Whether the same events come again and again at one tick, and change nothing."""
        return bool(self.cycle) and self.is_whole and not self.changed

    def __str__(self) -> str:
        lines = [
            f"at {self.tick} of {self.until} the budget of {self.events} events is spent, {self.in_tick} of them at this tick"
        ]
        if self.cycle:
            lines.append(f"    without end: {' -> '.join((*self.cycle, self.cycle[0]))}")
            changed = self.changed
            lines.append(
                f"    each turn changes {', '.join(sorted(changed))}"
                if changed
                else "    no turn changes anything"
            )
        elif self.in_tick < self.events:
            lines.append("    time goes on: no cycle is seen, so the budget may just be too small")
        lines.append("the last events:")
        return "\n".join(
            [
                *lines,
                *(
                    f"    {line}"
                    for each in self.last[-max(8, 2 * len(self.cycle)) :]
                    for line in str(each).split("\n")
                ),
            ]
        )

    __repr__ = __str__


def whyfault(
    model: Model,
    *,
    until: int,
    seed: int,
    start: tuple[int, ...] = (),
    events: int = EVENTS,
) -> Fault | Stuck:
    """Which event of a run faults, in which part and with what values; or what comes again and again in an endless run.

    Parameters
    ----------
    until : int
        The stop time.
    seed : int
        The seed of the run, as the column `seed` of a report has it.
    start : tuple of int
        The starting values; without them the variables' own values.
    events : int
        The most events; a run that has more is taken for endless. One in which the same events come again and again at
        one tick, and change nothing, is noticed before.

    Raises
    ------
    NoEstimate
        If the run does neither.
    """
    graph = model.filled().graph
    for budget in _budgets(events):
        run = probe.run_of(graph, until, seed, start, budget)
        end = probe.ending(graph, run)
        if end.outcome != "budget":
            break
        stuck = _stuck(graph, run, end)
        if budget == events or stuck.is_endless:
            return stuck
    if end.outcome != "fault":
        raise NoEstimate(f"the run doesn't fault: {end.outcome} {end.tick}")
    event = FaultingEvent(graph, run, snapshot_of(graph, run, end.events))
    return replace(_fault(event), scheduled=_scheduled(graph, run, end.events))


def _budgets(events: int) -> Iterator[int]:
    """Budgets that grow to the one that was asked for, so that an endless run is noticed long before it."""
    budget = _FIRST_BUDGET
    while budget < events:
        yield budget
        budget *= 10
    yield events


def snapshot_of(graph: EventGraph, run: Run, events: int) -> Snapshot:
    """The run after so many events, which it has."""
    snapshot = probe.saved(graph, run, events)
    if snapshot is None:
        raise NoEstimate(f"the run is over after {events} events")
    return snapshot


def _fault(event: FaultingEvent) -> Fault:
    vertex, lines = event.vertex, event.lines
    last = event.history(event.variant(vertex))[-1]
    _, tick, kind = last.split(" ")
    culprit, changes = event.culprit(), len(vertex.changes)
    if culprit == 0:
        place, part = "parameters", write_vertex_head(vertex)
    elif culprit <= changes:
        place, part = f"change {culprit}", lines[culprit - 1]
    else:
        place, part = f"edge {culprit - changes}", lines[culprit - 1]
    values = event.values_of([part, ", ".join(vertex.parameters), *lines])
    blamed = tuple(event.blame(kind, culprit))
    return Fault(int(tick), kind, vertex.name, str(event.event), place, part, values, blamed)


def _scheduled(graph: EventGraph, run: Run, events: int) -> str:
    """Which event scheduled the one after so many events, and when."""
    variant = carrying_of(graph)
    run = variant.run(run)
    if not events:
        return ""
    following = snapshot_of(variant.graph, run, events).pending[0]
    if not variant.carries[following.vertex]:
        return ""
    before = snapshot_of(variant.graph, run, following.values[-2] - 1)
    cause = before.pending[0]
    own = len(graph.vertex(cause.vertex).parameters)
    return f"{replace(cause, values=cause.values[:own])} at {before.clock + cause.delay}"


def cycle_of(names: list[str]) -> tuple[str, ...]:
    """The shortest row of names that the end of the list repeats at least three times."""
    for length in range(1, len(names) // 3 + 1):
        turn = names[-length:]
        if names[-2 * length : -length] == turn and names[-3 * length : -2 * length] == turn:
            return tuple(turn)
    return ()


def _stuck(graph: EventGraph, run: Run, end: probe.Ending) -> Stuck:
    before = probe.ending(graph, run, end.tick - 1).events if end.tick else 0
    done = max(0, end.events - _LOOK_BACK)
    small = [each.name for each in graph.variables if (each.size or 1) <= 64]
    changing = written(graph)
    watched = [name for name in changing if name in small]
    found, _ = traced(graph, snapshot_of(graph, run, done), run.until, end.events - done, watched)
    last = [each for each in found if each.tick == end.tick]
    cycle = cycle_of([each.vertex for each in last])
    in_tick, is_whole = end.events - before, len(watched) == len(changing)
    return Stuck(end.tick, run.until, end.events, in_tick, cycle, last or found[-20:], is_whole)
