"""Setups that depend on the sequence, and vehicles that carry from place to place."""

from __future__ import annotations

from collections.abc import Iterable, Mapping, Sequence

from ..body import Body
from ..building import Building
from ..errors import InputError
from ..terms import Array, Term, Value, choose, smallest, term
from ..tree import Name, Variable, Vertex
from .pool import FOREVER
from .resource import Resource

_FAR = 2**50


class Matrix:
    """Whole numbers by row and column, as an array of the model.

    Parameters
    ----------
    name : str
        The array's name.
    rows : sequence of sequences of int
        As many rows as columns, each number 0 or more.
    """

    def __init__(self, name: str, rows: Sequence[Sequence[int]]) -> None:
        size = len(rows)
        if not size or any(len(row) != size for row in rows):
            raise InputError(f"{name}: as many rows as columns are needed")
        values = [value for row in rows for value in row]
        if any(not isinstance(value, int) or value < 0 for value in values):
            raise InputError(f"{name}: ticks are whole numbers, 0 or more: take a finer tick")
        self.size, self.values = size, values
        self.array = Array(name, size * size, True)

    def at(self, row: Value, column: Value) -> Term:
        """The cell at a row and a column."""
        return self.array[term(row) * self.size + column]

    def variable(self) -> Variable:
        return Variable(self.array.name, 0, max(1, *self.values), 0, size=len(self.values))

    def opening(self, e: Body) -> None:
        """Stores the numbers, 16 at once."""
        known = [(self.array[at], value) for at, value in enumerate(self.values) if value]
        for at in range(0, len(known), 16):
            e.set(*known[at : at + 16])


class Setups:
    """How long a machine takes to be set up, by the kind before and the kind that comes.

    Parameters
    ----------
    model : Model
        The model that it is written into.
    name : str
        What the names of its variables begin with.
    times : sequence of sequences of int
        `times[before][next]`, in ticks.
    start : int
        The kind for which the machine is set up at time 0.

    Attributes
    ----------
    kind : Term
        The kind for which it is set up.
    count, spent : Term
        How many setups took time, and the ticks of all.
    """

    def __init__(
        self, model: Building, name: str, times: Sequence[Sequence[int]], start: int = 0
    ) -> None:
        self.model, self.name = model, name
        self._times = Matrix(f"{name}_TIMES", times)
        if not 0 <= start < self._times.size:
            raise InputError(f"{name} has the kinds 0 to {self._times.size - 1}, and no {start}")
        self._first = start
        self.kind, self.time = Term(Name(f"{name}_KIND"), True), Term(Name(f"{name}_TIME"), True)
        self.count, self.spent = Term(Name(f"{name}_COUNT"), True), Term(
            Name(f"{name}_SPENT"), True
        )
        model.add(self)

    def begin(self, e: Body, kind: Value) -> None:
        """Finds how long the setup takes, and counts it."""
        e.set(self.time, self._times.at(self.kind, kind))
        e.set(
            (self.kind, kind),
            (self.count, choose(self.time > 0, self.count + 1, self.count)),
            (self.spent, self.spent + self.time),
        )

    def complete(self) -> None:
        """It is always complete."""

    def variables(self) -> Iterable[Variable]:
        yield self._times.variable()
        yield Variable(str(self.kind), 0, self._times.size - 1, self._first)
        for each in (self.time, self.count, self.spent):
            yield Variable(str(each), 0, FOREVER, 0)

    def opening(self, e: Body) -> None:
        self._times.opening(e)

    def vertices(self) -> Iterable[Vertex]:
        return ()

    def notes(self) -> Mapping[str, str]:
        n = self.name
        return {
            f"{n}_TIMES": f"{n}: how long a setup takes, by the kind before times {self._times.size} plus the next",
            f"{n}_KIND": "The kind for which the machine is set up",
            f"{n}_COUNT": "How many setups took time, and the ticks of all",
        }

    def outline(self) -> list[str]:
        return [f"{self.name}: setups by sequence of {self._times.size} kinds."]


class Transport(Resource):
    """Vehicles that carry entities between places; the one that is nearest of those that are free comes.

    Parameters
    ----------
    model : Model
        The model that it is written into.
    name : str
        What the names of its variables begin with.
    vehicles : int
        How many vehicles, 1 to 16.
    times : sequence of sequences of int
        `times[from][to]`, in ticks, empty and loaded alike.
    start : int
        The place where all stand at time 0.

    Attributes
    ----------
    empty, loaded : Term
        The ticks that all drove empty and loaded.
    """

    def __init__(
        self,
        model: Building,
        name: str,
        vehicles: int,
        times: Sequence[Sequence[int]],
        start: int = 0,
        *,
        classes: int = 1,
    ) -> None:
        if not 1 <= vehicles <= 16:
            raise InputError(f"{name} has 1 to 16 vehicles: {vehicles}")
        self._times, self.vehicles, self._first = Matrix(f"{name}_TIMES", times), vehicles, start
        if not 0 <= start < self._times.size:
            raise InputError(f"{name} has the places 0 to {self._times.size - 1}, and no {start}")
        self.trip, self._best = Term(Name(f"{name}_TRIP"), True), Term(Name(f"{name}_BEST"), True)
        self.empty, self.loaded = Term(Name(f"{name}_EMPTY"), True), Term(
            Name(f"{name}_LOADED"), True
        )
        self.place = Array(f"{name}_PLACE", vehicles, True)
        self._used = Array(f"{name}_USED", vehicles)
        super().__init__(model, name, vehicles, classes)
        self._vehicle = self.line.pool.array(
            f"{name}_VEHICLE", vehicles - 1, "By which vehicle one is carried"
        )

    def call(self, e: Body, it: Term, start: Value) -> None:
        """Chooses the nearest free vehicle, which drives to `start`."""
        v, n = self._best % self.vehicles, self.vehicles
        near = [
            choose(self._used[at], _FAR + at, self._times.at(self.place[at], start) * n + at)
            for at in range(n)
        ]
        e.set(self._best, smallest(*near) if n > 1 else near[0])
        e.set((self._vehicle[it], v), (self._used[v], True), (self.trip, self._best // n))
        e.set(self.empty, self.empty + self.trip)

    def load(self, e: Body, it: Term, start: Value, end: Value) -> None:
        """Drives loaded from `start` to `end`."""
        e.set(self.trip, self._times.at(start, end))
        e.set((self.loaded, self.loaded + self.trip), (self.place[self._vehicle[it]], end))

    def unload(self, e: Body, it: Term) -> None:
        """The vehicle is free."""
        e.set(self._used[self._vehicle[it]], False)

    def variables(self) -> Iterable[Variable]:
        yield from super().variables()
        yield self._times.variable()
        yield Variable(self.place.name, 0, self._times.size - 1, self._first, size=self.vehicles)
        yield Variable(self._used.name, None, None, False, size=self.vehicles)
        yield Variable(str(self._best), 0, 2 * _FAR, 0)
        for each in (self.trip, self.empty, self.loaded):
            yield Variable(str(each), 0, FOREVER, 0)

    def opening(self, e: Body) -> None:
        super().opening(e)
        self._times.opening(e)

    def notes(self) -> Mapping[str, str]:
        n = self.name
        return {
            **super().notes(),
            f"{n}_TIMES": f"{n}: how long a trip takes, by the place from times {self._times.size} plus the place to",
            f"{n}_PLACE": "Where each vehicle is, or will be once it has unloaded",
            f"{n}_USED": "Whether each vehicle is in use",
            f"{n}_EMPTY": "The ticks that all drove empty, and loaded",
        }
