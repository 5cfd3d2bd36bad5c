"""Stores of pieces that are counted: put in, taken out, and waited for."""

from __future__ import annotations

from collections.abc import Iterable, Mapping
from dataclasses import dataclass

from ..body import Body
from ..building import Building
from ..errors import InputError
from ..terms import Term, Value
from ..tree import Name, Variable, Vertex
from .lines import Claim, Line

MOST_PIECES = 10**9


class Store:
    """Pieces that are alike.  A `Team` may claim some of them, as an assembly does.

    Parameters
    ----------
    model : Model
        The model that it is written into.
    name : str
        What the names of its variables begin with.
    capacity : int, optional
        The most pieces; who puts more waits until there is room.
    start : int
        How many there are at time 0.
    classes : int
        The number of classes of those who take; 0 goes first.

    Attributes
    ----------
    pieces : Term
        How many there are.
    getting, putting : Line
        The queues of those who wait for pieces, and for room: `store.getting.queue`.
    """

    adds, comes_back = -1, False

    def __init__(
        self,
        model: Building,
        name: str,
        capacity: int | None = None,
        start: int = 0,
        *,
        classes: int = 1,
    ) -> None:
        most = MOST_PIECES if capacity is None else capacity
        if not 0 <= start <= most or most < 1:
            raise InputError(f"{name} has 0 to {most} pieces: {start}")
        self.model, self.name, self.capacity, self._start = model, name, capacity, start
        self.pieces = Term(Name(f"{name}_PIECES"), True)
        self.getting = Line(model, name, (Claim((self,)),), classes)
        self.putting = Line(model, f"{name}_PUT", (Claim((_Room(self),)),), 1)
        model.add(self)

    @property
    def level(self) -> Term:
        return self.pieces

    def able(self, amount: Value) -> Term:
        return self.pieces >= amount

    # The part of a model.

    def complete(self) -> None:
        """A store is always complete."""

    def variables(self) -> Iterable[Variable]:
        most = MOST_PIECES if self.capacity is None else self.capacity
        yield Variable(str(self.pieces), 0, most, self._start)

    def opening(self, e: Body) -> None:
        """Nothing is done at time 0."""

    def vertices(self) -> Iterable[Vertex]:
        return ()

    def notes(self) -> Mapping[str, str]:
        return {str(self.pieces): f"{self.name}: how many pieces there are"}

    def outline(self) -> list[str]:
        most = "" if self.capacity is None else f" of at most {self.capacity}"
        return [f"{self.name}: {self._start} pieces{most}."]


@dataclass(frozen=True)
class _Room:
    """The room of a store, which putting takes."""

    store: Store
    adds, comes_back = 1, False

    @property
    def name(self) -> str:
        return f"room in {self.store.name}"

    @property
    def level(self) -> Term:
        return self.store.pieces

    def able(self, amount: Value) -> Term:
        assert self.store.capacity is not None
        return self.store.pieces + amount <= self.store.capacity
