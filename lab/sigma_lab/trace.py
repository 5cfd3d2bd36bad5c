"""What happened in a run between two ticks: each event, what it carried, and all that it changed.

The program is asked, by variants of the model that watch and keep more (`sigma_lab.probe`).  Nothing is simulated here.
"""

from __future__ import annotations

from dataclasses import dataclass
from typing import TYPE_CHECKING

from . import probe
from .errors import InputError, NoEstimate
from .plan import EVENTS
from .probe import Snapshot
from .tree import EventGraph, Set, Variable

if TYPE_CHECKING:
    import pandas as pd

    from .model import Model


MOST_SHOWN = 100_000
_MORE = "more events let it go on, and whyfault names urgent events without end"


@dataclass(frozen=True)
class TracedEvent:
    """An event of a run.

    Attributes
    ----------
    tick : int
        When it occurred.
    vertex : str
        Its name.
    carried : tuple of str
        The values that it carried.
    changes : tuple of (name, before, after)
        Each variable or cell that it changed.
    """

    tick: int
    vertex: str
    carried: tuple[str, ...]
    changes: tuple[tuple[str, str, str], ...]

    def __str__(self) -> str:
        head = f"{self.tick} {self.vertex}" + (
            f"({','.join(self.carried)})" if self.carried else ""
        )
        return "\n".join(
            [head, *(f"    {name} {before} -> {after}" for name, before, after in self.changes)]
        )


@dataclass(frozen=True, repr=False)
class Trace:
    """The events between two ticks; `end` is what ended them before the last tick: a fault, or too many events."""

    events: list[TracedEvent]
    end: str | None = None

    def __str__(self) -> str:
        return "\n".join([*map(str, self.events), *([self.end] if self.end else [])])

    __repr__ = __str__

    @property
    def frame(self) -> pd.DataFrame:
        """A row for each change, or for an event that changes nothing."""
        rows = [
            (number, each.tick, each.vertex, ",".join(each.carried), *change)
            for number, each in enumerate(self.events, 1)
            for change in each.changes or ((None, None, None),)
        ]
        import pandas as pd

        return pd.DataFrame(
            rows, columns=["event", "tick", "vertex", "carried", "changed", "before", "after"]
        )

    def _repr_html_(self) -> str:
        table = str(self.frame.to_html(index=False, na_rep=""))
        return table + (f"<p>{self.end}</p>" if self.end else "")


def shown_cells(variable: Variable, values: list[int]) -> list[str]:
    """The cells of a variable as the program writes them."""
    return [str(bool(each)).lower() if variable.is_bool else str(each) for each in values]


def traced(
    graph: EventGraph, snapshot: Snapshot, until: int, events: int, watched: list[str]
) -> tuple[list[TracedEvent], str]:
    """The events from a snapshot on, and the history's last line."""
    variant, kept = probe.keeping(graph)
    names = [name for names in kept.values() for name in names]
    variant = probe.with_watch(variant, [*(each.name for each in graph.vertices), *watched, *names])
    history = probe.resumed(variant, snapshot, until, events)
    now = {
        name: ",".join(shown_cells(graph.variable(name), snapshot.values[name])) for name in watched
    }
    answer = []
    for tick, vertex, values in probe.notes(history):
        changes = []
        for name in watched:
            if values[name] == now[name]:
                continue
            sides = zip(now[name].split(","), values[name].split(","))
            is_array = graph.variable(name).size is not None
            changes += [
                (f"{name}[{at}]" if is_array else name, a, b)
                for at, (a, b) in enumerate(sides)
                if a != b
            ]
            now[name] = values[name]
        answer.append(
            TracedEvent(tick, vertex, tuple(values[each] for each in kept[vertex]), tuple(changes))
        )
    return answer, history[-1]


def written(graph: EventGraph, vertices: set[str] | None = None) -> list[str]:
    """The variables that these events, or all, may change, in order of declaration."""
    names: set[str] = set()
    for vertex in graph.vertices:
        if vertices is None or vertex.name in vertices:
            names |= set(vertex.parameters)
            for change in vertex.changes:
                names |= {
                    each.name
                    for each in (change.targets if isinstance(change, Set) else (change.target,))
                }
    return [each.name for each in graph.variables if each.name in names]


def trace(
    model: Model,
    first: int,
    last: int,
    *,
    seed: int,
    start: tuple[int, ...] = (),
    events: int = EVENTS,
    only: tuple[str, ...] = (),
) -> Trace:
    """The events from one tick to another, with what each carries and all that it changes.

    Parameters
    ----------
    first, last : int
        The ticks.
    seed : int
        The seed of the run, as the column `seed` of a report has it.
    start : tuple of int
        The starting values; without them the variables' own values.
    events : int
        The most events of the run.
    only : tuple of str
        The variables to show; all without it.

    Raises
    ------
    InputError
        If the ticks are the wrong way round, or a variable isn't known.
    NoEstimate
        If the run has spent its events before the first tick.
    """
    if first > last:
        raise InputError(f"{first} is after {last}")
    graph = model.filled().graph
    unknown = [name for name in only if name not in {each.name for each in graph.variables}]
    if unknown:
        raise InputError(f"{graph.name} has no variable {unknown[0]}")
    run = probe.run_of(graph, last, seed, start, events)
    before = probe.ending(graph, run, first - 1) if first else None
    if before is not None and before.outcome == "budget":
        raise NoEstimate(f"the run has spent its {events} events before tick {first}: {_MORE}")
    if before is not None and before.outcome in ("fault", "ended"):
        return Trace([])
    done = before.events if before else 0
    snapshot = probe.saved(graph, run, done)
    if snapshot is None:
        return Trace([])
    watched = [name for name in written(graph) if not only or name in only]
    found, end = traced(graph, snapshot, last, min(events - done, MOST_SHOWN), watched)
    if not end.startswith("budget"):
        return Trace(found, end if end.startswith("fault") else None)
    if events - done <= MOST_SHOWN:
        return Trace(found, f"the run has spent its {events} events: {_MORE}")
    return Trace(found, f"these are {MOST_SHOWN} events, and there are more: take a shorter time")
