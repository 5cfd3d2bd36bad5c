"""Which conflicting events of a run were due together: at one tick, with one priority, both pending.

In a variant of the model each event carries which event scheduled it, and with what priority (`sigma_lab.carrying`).
Two events of a tick were due together if the later one was scheduled before the earlier one occurred.
"""

from __future__ import annotations

from collections.abc import Iterator
from dataclasses import dataclass, field

from . import probe
from .carrying import Carrying
from .probe import Run
from .tree import EventGraph

Pair = tuple[str, str]
LOOKS = 50
"""The most times that one run is saved, for events that can't carry more."""

_UNKNOWN = -1


@dataclass(frozen=True)
class Due:
    """An event that occurred, or was due when the run broke off.

    Attributes
    ----------
    vertex : str
        Its name.
    born : int
        The number of the event that scheduled it, from 1 on; 0 if it can't carry that.
    rank : int
        Its priority, or -1 if it can't carry that.
    soon : frozenset of str
        The vertices that can't carry more, of which it scheduled one for its own tick.
    """

    vertex: str
    born: int
    rank: int
    soon: frozenset[str] = frozenset()


@dataclass
class Counts:
    """Of one run: in which ticks pairs met, and with what priorities."""

    ticks: dict[Pair, int] = field(default_factory=dict)
    priorities: dict[Pair, set[int]] = field(default_factory=dict)
    unknown: int = 0

    def add(self, pair: Pair, priority: int) -> None:
        """Counts one tick."""
        self.ticks[pair] = self.ticks.get(pair, 0) + 1
        self.priorities.setdefault(pair, set()).add(priority)


class Together:
    """The count of one run.

    Parameters
    ----------
    graph : EventGraph
        The model.
    carrying : Carrying
        Its variant.
    pairs : set of (str, str)
        The pairs that conflict.
    run : Run
        The words of the run.
    """

    def __init__(self, graph: EventGraph, carrying: Carrying, pairs: set[Pair], run: Run) -> None:
        self._graph, self._carrying, self._pairs, self._run = graph, carrying, pairs, run
        self._looks: dict[int, list[probe.Pending]] = {}
        self._made = run.events
        self.counts = Counts()

    def count(self) -> Counts:
        """Makes the run, and counts."""
        given = self._carrying.run(self._run)
        tick, first, number, last = -1, 1, 0, ""
        here: list[Due] = []
        for last in probe.stream(self._carrying.graph, given):
            if not last.startswith("on "):
                continue
            now, due = self._read(last)
            number += 1
            if now != tick:
                self._look(tick, first, here)
                tick, first, here = now, number, []
            here.append(due)
        if last.startswith(("fault", "budget")):
            now = int(last.split(" ")[1]) if last.startswith("fault") else tick
            if now != tick:
                self._look(tick, first, here)
                tick, first, here = now, number + 1, []
            here += self._left(given, number, tick)
        self._made = number
        self._look(tick, first, here)
        return self.counts

    def _read(self, line: str) -> tuple[int, Due]:
        _, now, vertex, born, rank, *flags = line.split(" ")
        soon = (name for name, flag in zip(self._carrying.soon, flags) if flag.endswith("true"))
        known = int(rank.partition("=")[2]) if self._carrying.carries[vertex] else _UNKNOWN
        return int(now), Due(vertex, int(born.partition("=")[2]), known, frozenset(soon))

    def _left(self, run: Run, number: int, tick: int) -> Iterator[Due]:
        """What was due at a tick when the run broke off after so many events."""
        snapshot = probe.saved(self._carrying.graph, run, number)
        for each in snapshot.pending if snapshot else ():
            if snapshot is not None and snapshot.clock + each.delay == tick:
                carries = self._carrying.carries[each.vertex]
                yield Due(each.vertex, each.values[-2] if carries else 0, each.priority)

    def _look(self, tick: int, first: int, here: list[Due]) -> None:
        """Counts the pairs of one tick; `first` is the number of its first event in the run."""
        seen: set[Pair] = set()
        for later, second in enumerate(here):
            for earlier in range(later - 1, -1, -1):
                one = here[earlier].vertex
                straight = (one, second.vertex)
                pair = straight if straight in self._pairs else (second.vertex, one)
                if pair not in self._pairs or pair in seen:
                    continue
                common = self._common(tick, first + earlier, here[earlier : later + 1])
                if common is not None:
                    seen.add(pair)
                    self.counts.add(pair, common)

    def _ranks(self, due: Due) -> set[int]:
        return self._carrying.ranks[due.vertex] if due.rank == _UNKNOWN else {due.rank}

    def _common(self, tick: int, number: int, here: list[Due]) -> int | None:
        """The priority that the first and the last of these events had in common while both were due, or None.

        The last one was scheduled before the first one occurred if no event from there on can have scheduled it.
        Where neither occurred, both were pending at the end.
        """
        one, other = here[0], here[-1]
        ranks, others = self._ranks(one), self._ranks(other)
        if not ranks & others:
            return None
        carries = self._carrying.carries[other.vertex]
        if carries:
            due = other.born < number
        else:
            due = not any(other.vertex in each.soon for each in here[:-1])
        due = due or number > self._made
        if carries and not due:
            return None
        if due and len(ranks) == len(others) == 1:
            return min(ranks)
        pending = self._pending(tick, min(number - 1, self._made))
        mine = {each.priority for each in pending[:1]}
        found = (
            each.priority
            for each in pending[1:]
            if each.vertex == other.vertex and each.priority in mine
        )
        return next(found, None)

    def _pending(self, tick: int, before: int) -> list[probe.Pending]:
        """What was due at a tick after so many events."""
        if before not in self._looks:
            if len(self._looks) >= LOOKS or not before:
                self.counts.unknown += 1
                return []
            snapshot = probe.saved(self._graph, self._run, before)
            assert snapshot is not None, "the event after so many occurred"
            pending = snapshot.pending
            self._looks[before] = [each for each in pending if snapshot.clock + each.delay == tick]
        return self._looks[before]
