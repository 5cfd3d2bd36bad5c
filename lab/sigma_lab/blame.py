"""Which part of an event faults, and which value in it isn't allowed."""

from __future__ import annotations

from collections.abc import Callable, Iterator
from dataclasses import dataclass, fields, is_dataclass, replace
from typing import Optional, TypeVar, Union, cast

from . import parse, probe
from .probe import Run, Snapshot
from .trace import shown_cells
from .tree import (
    Binary,
    ByTable,
    Cell,
    Change,
    Draw,
    Edge,
    EventGraph,
    Expression,
    Name,
    Number,
    Set,
    Source,
    Unary,
    Uniform,
    Variable,
    Vertex,
    walk,
)
from .writing import lines_of, write_delay, write_expression

_CELLS = 12  # the most cells of an array that are shown
_HALF = 2**32
_WORD = 2**63
T = TypeVar("T")


@dataclass(frozen=True)
class Blame:
    """What a fault is in: the text of a part, its value, and what would be allowed."""

    part: str
    value: int | None
    allowed: str

    def __str__(self) -> str:
        return (
            f"{self.part} is {self.value}, and {self.allowed}"
            if self.value is not None
            else f"{self.part}: {self.allowed}"
        )


Suspect = tuple[Union[Expression, Source], Optional[Expression], Blame]
"""What stands there, what could stand there, and why it may be to blame."""


class FaultingEvent:
    """A run just before the event that faults."""

    def __init__(self, graph: EventGraph, run: Run, snapshot: Snapshot):
        self.graph, self.run, self.snapshot = graph, run, snapshot
        self.event = snapshot.pending[0]
        self.vertex = graph.vertex(self.event.vertex)
        self.lines = lines_of(self.vertex)

    def variant(self, vertex: Vertex, *more: Variable) -> EventGraph:
        vertices = tuple(
            vertex if each.name == vertex.name else each for each in self.graph.vertices
        )
        return replace(self.graph, variables=self.graph.variables + more, vertices=vertices)

    def history(self, graph: EventGraph) -> list[str]:
        return probe.resumed(graph, self.snapshot, self.run.until, 1)

    def kind(self, vertex: Vertex) -> str | None:
        """The kind of fault that the event has if its vertex is this one."""
        last = self.history(self.variant(vertex))[-1]
        return last.split(" ")[2] if last.startswith("fault") else None

    def front(self, count: int) -> Vertex:
        """The vertex with its first lines only."""
        edges = max(0, count - len(self.vertex.changes))
        return replace(
            self.vertex, changes=self.vertex.changes[:count], edges=self.vertex.edges[:edges]
        )

    def culprit(self) -> int:
        """The number of the first line with which the event faults; 0 if it does without any."""
        if self.kind(self.front(0)):
            return 0
        before, culprit = 0, len(self.lines)
        while culprit - before > 1:
            middle = (culprit + before) // 2
            if self.kind(self.front(middle)):
                culprit = middle
            else:
                before = middle
        return culprit

    def value(self, part: Expression | Uniform | ByTable, done: int) -> int | None:
        """The value of a number, or of a draw, after so many changes; None if it can't be found."""
        high, low = probe.fresh(self.graph, "PROBE_HIGH", "PROBE_LOW")
        if isinstance(part, (Uniform, ByTable)):
            look: Change = Draw(Name(low), part)
        else:  # in two parts, since no variable takes all numbers of 64 bits
            look = Set(
                (Name(high), Name(low)),
                (Binary("/", part, Number(_HALF)), Binary("%", part, Number(_HALF))),
            )
        vertex = replace(self.vertex, changes=(*self.vertex.changes[:done], look), edges=())
        graph = probe.with_watch(
            self.variant(vertex, probe.wide(high), probe.wide(low)), [self.vertex.name, high, low]
        )
        noted = list(probe.notes(self.history(graph)))
        return int(noted[0][2][high]) * _HALF + int(noted[0][2][low]) if noted else None

    def values_of(self, texts: list[str]) -> dict[str, str]:
        """The values before the event of what these texts use; of a parameter the one that is carried."""
        carried = dict(zip(self.vertex.parameters, self.event.values))
        answer: dict[str, str] = {}
        for text in texts:
            words = {token for token in parse.TOKEN.findall(text) for token in token if token}
            for variable in self.graph.variables:
                if variable.name in words and variable.name not in answer:
                    cells = (
                        [carried[variable.name]]
                        if variable.name in carried
                        else self.snapshot.values[variable.name]
                    )
                    shown = ",".join(shown_cells(variable, cells[:_CELLS]))
                    answer[variable.name] = shown + (".." if len(cells) > _CELLS else "")
        return answer

    def blame(self, kind: str, culprit: int) -> Iterator[Blame]:
        """What in the line of this number isn't allowed; 0 is the head with its parameters."""
        if culprit == 0:
            yield from self._parameters()
            return
        changes = len(self.vertex.changes)
        part: Change | Edge
        if culprit <= changes:
            part = self.vertex.changes[culprit - 1]
        else:
            part = self.vertex.edges[culprit - 1 - changes]
        found = list(_KINDS[kind](self, part, min(culprit - 1, changes)))
        if len(found) > 1:
            # Some may be in parts that aren't reached.  A real one is gone once another value stands in its place.
            real = [
                blame
                for old, new, blame in found
                if new is not None and self.kind(self._repaired(culprit, old, new)) != kind
            ]
            yield from real or [blame for _, _, blame in found]
        else:
            yield from (blame for _, _, blame in found)

    def _parameters(self) -> Iterator[Blame]:
        for parameter, value in zip(self.vertex.parameters, self.event.values):
            variable = self.graph.variable(parameter)
            if not _fits(variable, value):
                yield Blame(parameter, value, f"its range is {variable.range}")

    def _repaired(self, culprit: int, old: object, new: Expression) -> Vertex:
        vertex = self.front(culprit)
        return replace(
            vertex,
            changes=replaced(vertex.changes, old, new),
            edges=replaced(vertex.edges, old, new),
        )

    # What may be to blame, each with what could stand there in its place.

    def range(self, part: Change | Edge, done: int) -> Iterator[Suspect]:
        """Stores outside the range of their variable."""
        pairs: list[tuple[Name | Cell, Expression | Source]] = []
        if isinstance(part, Set):
            pairs += zip(part.targets, part.values)
        elif isinstance(part, Draw):
            pairs.append((part.target, part.source))
        for target, value in pairs:
            variable = self.graph.variable(target.name)
            found = self.value(value, done)
            if (
                found is None
                and not variable.is_bool
                or found is not None
                and not _fits(variable, found)
            ):
                blame = Blame(write_expression(target), found, f"its range is {variable.range}")
                yield value, Number(0), blame

    def index(self, part: Change | Edge, done: int) -> Iterator[Suspect]:
        """Cells that the array doesn't have."""
        for cell in dict.fromkeys(each for each in walk(part) if isinstance(each, Cell)):
            size = self.graph.variable(cell.name).size or 1
            found = self.value(cell.index, done)
            if found is None or not 0 <= found < size:
                shown = f"{write_expression(cell.index)} of {write_expression(cell)}"
                allowed = f"{cell.name} has the cells 0 to {size - 1}"
                yield cell, Cell(cell.name, Number(0)), Blame(shown, found, allowed)

    def division(self, part: Change | Edge, done: int) -> Iterator[Suspect]:
        """Divisors that are 0."""
        divisions = (
            each for each in walk(part) if isinstance(each, Binary) and each.operator in "/%"
        )
        for each in dict.fromkeys(divisions):
            if self.value(each.right, done) == 0:
                allowed = f"it divides in {write_expression(each)}"
                yield each, Number(0), Blame(write_expression(each.right), 0, allowed)

    def delay(self, part: Change | Edge, done: int) -> Iterator[Suspect]:
        """Delays below 0."""
        if isinstance(part, Edge):
            drawn = isinstance(part.delay, (Uniform, ByTable))
            allowed = "a draw that is below 0" if drawn else "a delay is 0 or more"
            yield Number(0), None, Blame(
                write_delay(part.delay), self.value(part.delay, done), allowed
            )

    def overflow(self, part: Change | Edge, done: int) -> Iterator[Suspect]:
        """Results that 64 bits don't hold."""
        for each in dict.fromkeys(each for each in walk(part) if isinstance(each, (Binary, Unary))):
            if each.operator not in "+-*":
                continue
            left = self.value(each.left, done) if isinstance(each, Binary) else 0
            right = self.value(each.right if isinstance(each, Binary) else each.operand, done)
            if left is None or right is None:
                continue
            result = {"+": left + right, "-": left - right, "*": left * right}[each.operator]
            if not -_WORD <= result < _WORD:
                yield each, Number(0), Blame(write_expression(each), result, "numbers have 64 bits")


_KINDS: dict[str, Callable[[FaultingEvent, Change | Edge, int], Iterator[Suspect]]] = {
    "range": FaultingEvent.range,
    "index": FaultingEvent.index,
    "division": FaultingEvent.division,
    "delay": FaultingEvent.delay,
    "overflow": FaultingEvent.overflow,
}


def _fits(variable: Variable, value: int) -> bool:
    """Whether a store of this value is no fault."""
    if variable.low is None or variable.high is None or variable.clip:
        return True
    return variable.low <= value <= variable.high


def replaced(part: T, old: object, new: Expression) -> T:
    """A part of a tree in which one expression stands for another."""
    if part == old:
        return cast(T, new)
    if isinstance(part, tuple):
        return cast(T, tuple(replaced(each, old, new) for each in part))
    if not is_dataclass(part) or isinstance(part, type):
        return part
    changed = {each.name: replaced(getattr(part, each.name), old, new) for each in fields(part)}
    return replace(part, **changed)
