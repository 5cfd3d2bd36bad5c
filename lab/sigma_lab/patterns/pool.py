"""The entities of a model: one pool of numbers for all ways, and lists of who waits."""

from __future__ import annotations

from collections.abc import Callable, Iterable, Mapping
from typing import TYPE_CHECKING

from ..body import Body
from ..building import Building
from ..errors import InputError
from ..terms import Array, Term, Value, choose, clk, largest
from ..tree import Name, Variable, Vertex

if TYPE_CHECKING:
    from .lines import Line

FOREVER = 2**48
"""The greatest tick, and the greatest total of ticks."""

MOST_CELLS = 65536


class Pool:
    """The numbers of all entities of a model.

    Each way has room for so many entities at once; the pool is their sum.  A number is free again once its entity
    has left, so numbers never run out while a way has room.  Each entity stands in at most one list at a time: it is
    linked to who stands before and after it, and each list has a head of its own.

    Parameters
    ----------
    model : Building
        The model.
    name : str
        What the names of its variables begin with.
    """

    def __init__(self, model: Building, name: str = "ENTITY") -> None:
        self.model, self.name = model, name
        self.size = 0
        self.lines: list[Line] = []
        self.logs = False
        self._heads = 0
        self._makers: list[Callable[[], Variable]] = []
        self._notes: dict[str, str] = {}
        self.fresh = Term(Name(f"{name}_FRESH"), True)
        self.idle = Term(Name(f"{name}_IDLE"), True)
        self.free = Array(f"{name}_FREE", 0, True)
        self.after, self.before = Array(f"{name}_AFTER", 0, True), Array(f"{name}_BEFORE", 0, True)
        self.since = Array(f"{name}_SINCE", 0, True)
        self.waited = Array(f"{name}_WAITED", 0, True)

    @classmethod
    def of(cls, model: Building) -> Pool:
        """The pool of a model; it is made for the first one who asks."""
        known = model.part(cls)
        return known if known is not None else model.add(cls(model))

    def grow(self, most: int) -> None:
        """Gives a way room for so many entities.

        Raises
        ------
        InputError
            If the arrays would have more cells than a text may declare.
        """
        if most < 1:
            raise InputError(f"a way has room for 1 entity or more: {most}")
        self.size += most
        self.model.touch()

    def heads(self, count: int) -> int:
        """Takes so many heads of lists; answers the first of them, which `head` turns into a place."""
        self._heads += count
        return self._heads - count

    def head(self, number: int) -> int:
        """The place of the head of a list."""
        return self.size + number

    @property
    def nobody(self) -> int:
        """A place that stands in a list of its own: taking it out of its list changes nothing."""
        return self.size + self._heads

    def array(
        self,
        name: str,
        high: Callable[[], int] | int | None,
        note: str = "",
        *,
        low: int = 0,
    ) -> Array:
        """An array with a cell for each place, and so for each entity; it grows with the pool.

        Parameters
        ----------
        high : int, callable or None
            The greatest value, now or once the model is put together; None for truth values.
        """

        def make() -> Variable:
            size = self.nobody + 1
            if high is None:
                return Variable(name, None, None, False, size=size)
            most = high() if callable(high) else high
            return Variable(name, low, most, min(max(0, low), most), size=size)

        self._makers.append(make)
        if note:
            self._notes[name] = note
        return Array(name, 0, low >= 0)

    # Coming and leaving.

    def enter(self, e: Body, it: Term) -> None:
        """Takes a number for an entity that comes."""
        any_idle = self.idle > 0
        e.set(it, choose(any_idle, self.free[largest(self.idle - 1, 0)], self.fresh))
        e.set(
            (self.fresh, choose(any_idle, self.fresh, self.fresh + 1)),
            (self.idle, largest(self.idle - 1, 0)),
        )
        e.later(lambda late: self._forget(late, it))

    def _forget(self, e: Body, it: Term) -> None:
        """Lets one who comes have waited for nothing, whoever had its number."""
        if self.logs:
            e.set(self.waited[it], 0)

    def leave(self, e: Body, it: Term) -> None:
        """Gives the number of an entity back."""
        e.set((self.free[self.idle], it), (self.idle, self.idle + 1))

    # Lists.

    def put_last(self, e: Body, who: Term, head: Value) -> None:
        """Puts who to the end of a list."""
        last = self.before[head]
        e.set(
            (self.after[last], who),
            (self.before[head], who),
            (self.after[who], head),
            (self.before[who], last),
        )

    def put_first(self, e: Body, who: Term, head: Value) -> None:
        """Puts who to the front of a list."""
        first = self.after[head]
        e.set(
            (self.before[first], who),
            (self.after[head], who),
            (self.before[who], head),
            (self.after[who], first),
        )

    def take_out(self, e: Body, who: Term) -> None:
        """Takes who out of its list."""
        after, before = self.after[who], self.before[who]
        e.set((self.after[before], after), (self.before[after], before))

    def is_place(self, name: str, note: str = "") -> Variable:
        """A variable that holds a place."""
        if note:
            self._notes[name] = note
        return Variable(name, 0, self.nobody, 0)

    # The part of a model.

    def complete(self) -> None:
        if not self.size:
            raise InputError("the model has resources and no way: add a Flow")
        if self.nobody >= MOST_CELLS:
            raise InputError(
                f"{self.nobody + 1} entities and queues at once are too many: at most {MOST_CELLS}"
            )
        for line in self.lines:
            line.complete()

    def variables(self) -> Iterable[Variable]:
        yield Variable(str(self.fresh), 0, self.size, 0)
        yield Variable(str(self.idle), 0, self.size, 0)
        yield Variable(self.free.name, 0, self.size - 1, 0, size=self.size)
        if self._heads:
            for array in (self.after, self.before):
                yield Variable(array.name, 0, self.nobody, 0, size=self.nobody + 1)
            yield Variable(self.since.name, 0, FOREVER, 0, size=self.nobody + 1)
        if self.logs:
            yield Variable(self.waited.name, 0, FOREVER, 0, size=self.nobody + 1)
        for make in self._makers:
            yield make()
        for line in self.lines:
            yield from line.variables()
        from .dispatch import variables

        yield from variables(self)

    def opening(self, e: Body) -> None:
        heads = range(self.size, self.nobody + 1) if self._heads else range(0)
        for at in range(0, len(heads), 8):
            part = heads[at : at + 8]
            stores = [(array[head], head) for head in part for array in (self.after, self.before)]
            e.set(*stores)

    def vertices(self) -> Iterable[Vertex]:
        from .dispatch import vertices

        return vertices(self)

    def notes(self) -> Mapping[str, str]:
        from .dispatch import notes

        n = self.name
        own = {
            f"{n}_FRESH": f"Entities have numbers from 0 to {self.size - 1}. The least that was never used",
            f"{n}_IDLE": f"How many used numbers are free again: {n}_FREE[0] and so on",
            f"{n}_AFTER": f"Lists of who waits: who stands after and before whom. {self.size} and above are their heads",
            f"{n}_SINCE": "The tick at which an entity joined its queue",
            f"{n}_WAITED": "The ticks that an entity has waited in queues so far",
        }
        return {**own, **self._notes, **notes(self)}

    def outline(self) -> list[str]:
        return [f"Room for {self.size} entities at once."]


def now_minus(past: Term) -> Term:
    """The ticks since a moment."""
    return Term((clk - past).node, True)
