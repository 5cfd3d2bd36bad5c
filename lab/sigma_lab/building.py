"""Models that are built in Python: variables, tables, events, and parts that write several of these.

    bank = Model("BANK")
    QUEUE = bank.var("QUEUE", 0, 1000000)
    with bank.event("ENTER") as e:
        e.set(QUEUE, QUEUE + 1)
        e.schedule("ENTER", after=draw(54, 1, 6))
"""

from __future__ import annotations

from collections.abc import Iterable, Mapping
from dataclasses import replace
from types import TracebackType
from typing import Any, TypeVar, Union

from . import parse, writing
from .body import Body
from .errors import InputError
from .part import Part
from .terms import Array, TableName, Term, Value
from .tree import ByTable, EventGraph, Name, Table, Uniform, Variable, Vertex, walk

Rows = Union[Mapping[int, int], Iterable[tuple[int, int]], str]
STREAMS = 64
P = TypeVar("P", bound="Part")


class Building:
    """The part of `Model` that builds and edits."""

    def __init__(self, name: str, *, note: str = "") -> None:
        self.path = name
        self._source: str | None = None
        self._base: EventGraph | None = EventGraph(name, version=2)
        self._made: EventGraph | None = None
        self._notes: dict[str, str] = {"": note} if note else {}
        self._parts: list[Part] = []
        self._more: dict[str, list[Body]] = {}
        self._begun: list[Event] = []
        self._given: set[int] = set()

    # What there is.

    @property
    def text(self) -> str:
        """The text as it was read, or as it is written of what was built, with comments."""
        if self._source is not None:
            return self._source
        graph = self.graph
        notes = dict(self._notes)
        for part in self._parts:
            notes = {**part.notes(), **notes}
        return writing.write(graph, notes)

    @property
    def graph(self) -> EventGraph:
        """The tree of the text.

        Raises
        ------
        InputError
            If a part isn't complete, as a way without an end, or an event was begun without `with`.
        """
        if self._made is None:
            self._made = self._put_together()
        return self._made

    def _read(self) -> EventGraph:
        """The tree of the text that was read."""
        raise NotImplementedError

    def base(self) -> EventGraph:
        """The tree without what parts write."""
        if self._base is None:
            self._base = self._read()
        return self._base

    def outline(self) -> str:
        """What the parts of the model are, in sentences: resources, queues, shifts, and the steps of each way."""
        return "\n".join(line for part in self._parts for line in part.outline())

    def _put_together(self) -> EventGraph:
        base = self.base()
        waiting = [each.name for each in self._begun]
        if waiting:
            raise InputError(
                f"{', '.join(waiting)} was begun, and isn't in the model: "
                f'write `with model.event("{waiting[0]}") as e:`'
            )
        for part in self._parts:
            part.complete()
        if not self._parts and not self._more:
            return base
        first = base.vertices[0] if base.vertices else Vertex("OPEN")
        start = Body(first.name, first.parameters)
        for part in self._parts:
            part.opening(start)
        vertices = [_joined(first, start), *base.vertices[1:]]
        variables = list(base.variables)
        for part in self._parts:
            vertices += part.vertices()
            variables += part.variables()
        if first.name in {edge.target for each in vertices for edge in each.edges}:
            raise InputError(
                f"{first.name} is the first event, and begins what parts of the model need: "
                "it occurs once, so no edge may lead to it"
            )
        known = {each.name for each in vertices}
        missing = [name for name in self._more if name not in known]
        if missing:
            raise InputError(f"there is no event {missing[0]} to extend")
        for at, vertex in enumerate(vertices):
            for body in self._more.get(vertex.name, ()):
                vertices[at] = _joined(vertices[at], body)
        _check_names([each.name for each in variables], base, vertices)
        return replace(base, variables=tuple(variables), vertices=tuple(vertices), version=2)

    # Building.

    def edit(self, **parts: Any) -> None:
        """Puts other parts into the tree, as `variables` or `vertices`."""
        if self._source is not None:
            self._keep_comments()
        self._base = replace(self.base(), version=2, **parts)
        self._source = self._made = None

    def _keep_comments(self) -> None:
        from . import inputs

        source = self._source or ""
        kept = parse.notes_of(source)
        lost = [
            name
            for name in inputs.unfilled(source)
            if f"# table {name} " not in kept.get(name, "").join(("# ", "\n"))
        ]
        if lost:
            raise InputError(f"{', '.join(lost)} isn't filled in: edit `model.filled()`")
        self._notes = {**kept, **self._notes}

    def touch(self) -> None:
        """Forgets the tree that was put together, since a part changed."""
        self._made = None

    def add(self, part: P) -> P:
        """Adds a part, which writes variables and events of its own."""
        if part.name in {each.name for each in self._parts} | self.base().names:
            raise InputError(f"{part.name} is declared already")
        if self._source is not None:
            self.edit()
        if not self.base().vertices:
            self.edit(vertices=(Vertex("OPEN"),))
        self._parts.append(part)
        self.touch()
        return part

    def part(self, kind: type[P]) -> P | None:
        """The part of this kind, if there is one."""
        return next((each for each in self._parts if isinstance(each, kind)), None)

    def note(self, name: str, words: str) -> None:
        """Writes a comment above what has this name; above the whole text for an empty name."""
        self._notes[name] = words

    def _declare(self, variable: Variable, note: str) -> None:
        if variable.name in self.base().names or variable.name in {
            each.name for each in self._parts
        }:
            raise InputError(f"{variable.name} is declared already")
        self.edit(variables=(*self.base().variables, variable))
        if note:
            self.note(variable.name, note)

    def var(
        self,
        name: str,
        low: int,
        high: int,
        start: int | None = None,
        *,
        clip: bool = False,
        note: str = "",
    ) -> Term:
        """Declares a whole number.

        Parameters
        ----------
        name : str
            Letters, digits and `_`, at most 32 characters.
        low, high : int
            Its range; a run that leaves it faults.
        start : int, optional
            Its value at time 0; the one nearest to 0 if it isn't given.
        clip : bool
            Whether a value beyond the range becomes its end, in place of a fault.
        note : str
            A comment above it.
        """
        self._declare(Variable(name, low, high, _nearest(low, high, start), clip), note)
        return Term(Name(name), low >= 0)

    def flag(self, name: str, start: bool = False, *, note: str = "") -> Term:
        """Declares a truth value."""
        self._declare(Variable(name, None, None, start), note)
        return Term(Name(name))

    def array(
        self,
        name: str,
        size: int,
        low: int,
        high: int,
        start: int | None = None,
        *,
        clip: bool = False,
        note: str = "",
    ) -> Array:
        """Declares an array of whole numbers, whose cells count from 0 and all start alike."""
        self._declare(Variable(name, low, high, _nearest(low, high, start), clip, size), note)
        return Array(name, size, low >= 0)

    def flags(self, name: str, size: int, start: bool = False, *, note: str = "") -> Array:
        """Declares an array of truth values."""
        self._declare(Variable(name, None, None, start, size=size), note)
        return Array(name, size)

    def table(self, name: str, rows: Rows, *, note: str = "") -> TableName:
        """Declares a table.

        Parameters
        ----------
        rows : mapping, pairs or str
            `{value: weight}`, pairs of these, or a distribution by its words, as `"exponential 300"`.
        """
        if name in self.base().names:
            raise InputError(f"{name} is declared already")
        self.edit(tables=(*self.base().tables, Table(name, rows_of(name, rows))))
        words = note or (f"{name} has the distribution {rows}" if isinstance(rows, str) else "")
        if words:
            self.note(name, words)
        return TableName(name)

    def watch(self, *items: Term | Array | str) -> None:
        """Adds to what reports and histories show: variables, arrays, and names of events."""
        names = [each.name if isinstance(each, Array) else str(each) for each in items]
        self.edit(watch=tuple(dict.fromkeys((*self.base().watch, *names))))

    def starts_with(self, *parameters: Term | str) -> None:
        """Lets the first event take starting values: `plan.start` then has a number for each of these variables."""
        names = tuple(str(each) for each in parameters)
        first, *others = self.base().vertices or (Vertex("OPEN"),)
        self.edit(vertices=(replace(first, parameters=names), *others))

    def event(self, name: str, *parameters: Term | str, note: str = "") -> Event:
        """A new event, to be filled inside `with`.

        The first one of the model occurs at time 0.  A model with parts has a first event OPEN by then.

        Raises
        ------
        InputError
            If there is one of that name.  `extend` adds to it, and `remove` takes it away.
        """
        if name in {each.name for each in self.base().vertices}:
            raise InputError(
                f"there is an event {name} already: `extend` adds to it, and `remove` takes it away"
            )
        return Event(self, name, tuple(str(each) for each in parameters), False, note)

    def extend(self, name: str) -> Event:
        """An event that is there, to be added to inside `with`: changes after its changes, edges after its edges."""
        return Event(self, name, (), True, "")

    def remove(self, name: str) -> None:
        """Takes an event away that `event` made."""
        left = tuple(each for each in self.base().vertices if each.name != name)
        if len(left) == len(self.base().vertices):
            raise InputError(f"there is no event {name}")
        self.edit(vertices=left)
        self._more.pop(name, None)

    def commit(self, event: Event) -> None:
        """Puts an event that was filled into the model."""
        if event.adds:
            if event.name not in {each.name for each in self.graph_without(event).vertices}:
                raise InputError(f"there is no event {event.name} to extend")
            if self._source is not None:
                self.edit()
            self._more.setdefault(event.name, []).append(event)
            self.touch()
            return
        if event.name in {each.name for each in self.base().vertices}:
            raise InputError(f"there is an event {event.name} already")
        self.edit(vertices=(*self.base().vertices, event.vertex()))
        if event.note:
            self.note(event.name, event.note)

    def graph_without(self, event: Event) -> EventGraph:
        """The tree, although this event isn't in it yet."""
        base = self.base()
        more = tuple(Vertex(each.name) for part in self._parts for each in part.vertices())
        return replace(base, vertices=(*(base.vertices or (Vertex("OPEN"),)), *more))

    def stream(self) -> int:
        """The least random stream that no draw of the model uses and that wasn't given before."""
        used = {each.stream for each in walk(self.base()) if isinstance(each, (Uniform, ByTable))}
        free = next((each for each in range(STREAMS) if each not in used | self._given), None)
        if free is None:
            raise InputError(f"all {STREAMS} streams are in use")
        self._given.add(free)
        return free

    def change_variable(self, name: str, **parts: Any) -> None:
        """Gives a variable that was declared or read another `low`, `high`, `initial`, `clip` or `size`."""
        if name not in {each.name for each in self.base().variables}:
            raise InputError(f"{name} is no variable of {self.base().name} that can be changed")
        self.edit(
            variables=tuple(
                replace(each, **parts) if each.name == name else each
                for each in self.base().variables
            )
        )

    def change_table(self, name: str, rows: Rows) -> None:
        """Gives a table other rows."""
        if name not in {each.name for each in self.base().tables}:
            raise InputError(f"{name} is no table of {self.base().name}")
        pairs = rows_of(name, rows)
        self._notes.pop(name, None)
        self.edit(
            tables=tuple(
                replace(each, rows=pairs) if each.name == name else each
                for each in self.base().tables
            )
        )
        self._notes.pop(name, None)


class Event(Body):
    """An event that is being filled inside `with`.  If that fails, the model stays as it was."""

    def __init__(
        self, model: Building, name: str, parameters: tuple[str, ...], adds: bool, note: str
    ) -> None:
        super().__init__(name, parameters)
        self._model, self.adds, self.note = model, adds, note
        model._begun.append(self)
        model.touch()

    def __enter__(self) -> Event:
        return self

    def __exit__(
        self,
        kind: type[BaseException] | None,
        error: BaseException | None,
        trace: TracebackType | None,
    ) -> None:
        self._model._begun.remove(self)
        if kind is None:
            self._model.commit(self)


def _joined(vertex: Vertex, body: Body) -> Vertex:
    return replace(
        vertex,
        changes=(*vertex.changes, *body.changes),
        edges=(*vertex.edges, *body.edges),
    )


def _check_names(names: list[str], base: EventGraph, vertices: list[Vertex]) -> None:
    seen: set[str] = set()
    for name in (*names, *(each.name for each in base.tables), *(each.name for each in vertices)):
        if name in seen:
            raise InputError(f"{name} is declared twice")
        seen.add(name)


def _nearest(low: int, high: int, start: int | None) -> int:
    return min(max(0, low), high) if start is None else start


def rows_of(name: str, rows: Rows) -> tuple[tuple[int, int], ...]:
    """The rows of a table, of any way to give them."""
    if isinstance(rows, str):
        from . import inputs

        table = inputs.discretize(inputs.Distribution.parse(rows), name=name)
        return tuple(
            (int(value), int(weight)) for value, weight in zip(table.values, table.weights)
        )
    pairs = rows.items() if isinstance(rows, Mapping) else rows
    return tuple((int(value), int(weight)) for value, weight in pairs)
