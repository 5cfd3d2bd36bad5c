"""What an event does, while it is being written: its changes, and then its edges."""

from __future__ import annotations

from collections.abc import Callable
from typing import TypeVar, Union, cast

from .errors import InputError
from .terms import Term, Value, node
from .tree import (
    CANCEL,
    CANCEL_ALL,
    SCHEDULE,
    URGENT,
    ByTable,
    Cell,
    Change,
    Draw,
    Edge,
    Name,
    Set,
    Source,
    Target,
    Uniform,
    Vertex,
)

MOST_TARGETS = 16  # of one `set`
Delay = Union[Value, Source]
Pair = tuple[Value, Value]
B = TypeVar("B", bound="Body")


class Body:
    """The changes and edges of one event.

    All changes are made before any edge is followed, whatever the order in which they are given here.

    Parameters
    ----------
    name : str
        The event's name.
    parameters : tuple of str
        The variables that take the values which the event carries.
    """

    def __init__(self, name: str, parameters: tuple[str, ...] = ()) -> None:
        self.name, self.parameters = name, parameters
        self._changes: list[Change | Callable[[Body], None]] = []
        self._edges: list[Edge | Callable[[Body], None]] = []

    def set(self: B, *stores: Value | Pair) -> B:
        """Stores values: `set(QUEUE, QUEUE + 1)`, or several at once: `set((A, B), (B, A))`.

        The values of one call are found before any of them is stored.
        """
        if len(stores) == 2 and not isinstance(stores[0], tuple):
            pairs = [cast(Pair, stores)]
        elif all(isinstance(each, tuple) and len(each) == 2 for each in stores):
            pairs = [cast(Pair, each) for each in stores]
        else:
            raise InputError("set takes a variable and a value, or pairs of these")
        if not 0 < len(pairs) <= MOST_TARGETS:
            raise InputError(f"{self.name}: a set has 1 to {MOST_TARGETS} targets: {len(pairs)}")
        self._changes.append(
            Set(tuple(target(each) for each, _ in pairs), tuple(node(each) for _, each in pairs))
        )
        return self

    def draw(self: B, where: Value, source: Source) -> B:
        """Stores a drawn value: `draw(WHO, draw(2, HELP))`."""
        self._changes.append(Draw(target(where), source))
        return self

    def schedule(
        self: B,
        event: str,
        *values: Value,
        after: Delay = 0,
        priority: int = 5,
        when: Value = True,
    ) -> B:
        """Lets an event occur after a delay.

        Parameters
        ----------
        event : str
            Its name.
        values : Value
            What it carries.
        after : Value or Source
            The delay in ticks, or what it is drawn from.
        priority : int
            Of events at one tick the one with the least priority comes first, 1 to 255.
        when : Value
            The condition, asked after all changes.
        """
        return self._edge(SCHEDULE, event, values, when, after, priority)

    def urgent(self: B, event: str, *values: Value, when: Value = True) -> B:
        """Lets an event follow at once, before all that aren't urgent."""
        return self._edge(URGENT, event, values, when)

    def cancel(self: B, event: str, *values: Value, when: Value = True) -> B:
        """Takes away the next pending event that carries these values."""
        return self._edge(CANCEL, event, values, when)

    def cancel_all(self: B, event: str, when: Value = True) -> B:
        """Takes away all pending events of that name."""
        return self._edge(CANCEL_ALL, event, (), when)

    def _edge(
        self: B,
        kind: str,
        event: str,
        values: tuple[Value, ...],
        when: Value,
        after: Delay = 0,
        priority: int = 5,
    ) -> B:
        delay = after if isinstance(after, (Uniform, ByTable)) else node(after)
        carried, condition = tuple(node(each) for each in values), node(when)
        self._edges.append(Edge(kind, str(event), carried, delay, priority, condition))
        return self

    def later(self, make: Callable[[Body], None]) -> None:
        """Changes and edges that are known once the model is put together; `make` writes them into another body."""
        self._changes.append(make)
        self._edges.append(make)

    @property
    def changes(self) -> list[Change]:
        """The changes so far, with those that are known late."""
        made: list[Change] = []
        for each in self._changes:
            made += self._written(each).changes if callable(each) else [each]
        return made

    @property
    def edges(self) -> list[Edge]:
        """The edges so far.  An urgent edge that asks and carries nothing is followed once, however often it is given."""
        made: list[Edge] = []
        for each in self._edges:
            for edge in self._written(each).edges if callable(each) else [each]:
                if edge != Edge(URGENT, edge.target) or edge not in made:
                    made.append(edge)
        return made

    def _written(self, make: Callable[[Body], None]) -> Body:
        body = Body(self.name, self.parameters)
        make(body)
        return body

    def vertex(self) -> Vertex:
        """The event as a part of a model."""
        return Vertex(self.name, self.parameters, tuple(self.changes), tuple(self.edges))


def target(value: Value) -> Target:
    """The variable or cell that a value names.

    Raises
    ------
    InputError
        If it is another expression.
    """
    found = node(value)
    if not isinstance(found, (Name, Cell)):
        raise InputError(f"{value} is no variable or cell")
    return found


def name_of(term: Term) -> str:
    """The name of a scalar variable."""
    found = term.node
    if not isinstance(found, Name):
        raise InputError(f"{term} is no variable")
    return found.name
