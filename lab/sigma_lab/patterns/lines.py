"""Queues: who waits for what, by class and then by when they came."""

from __future__ import annotations

from collections.abc import Iterable, Mapping
from dataclasses import dataclass
from typing import TYPE_CHECKING, Protocol

from ..body import Body
from ..errors import InputError
from ..terms import Array, Term, Value, all_of, any_of, by_number, choose, clk, total
from ..tree import Name, Number, Variable, Vertex
from .pool import FOREVER, Pool, now_minus

if TYPE_CHECKING:
    from ..building import Building

MOST_NAME = 32


class Supply(Protocol):
    """What can be taken if there is enough: servers of a resource, pieces of a store, room in a buffer."""

    @property
    def name(self) -> str:
        ...

    @property
    def level(self) -> Term:
        """The variable that taking changes."""

    @property
    def adds(self) -> int:
        """1 if taking adds to the level, as to how many are busy; -1 if it takes from it."""

    @property
    def comes_back(self) -> bool:
        """Whether what was taken is given back."""

    def able(self, amount: Value) -> Term:
        """Whether so much can be taken now."""


@dataclass(frozen=True)
class Claim:
    """So much of a supply, or of the first of several that has it."""

    options: tuple[Supply, ...]
    amount: int = 1


class Line:
    """A queue for one claim or for several at once.

    The first of the first class that isn't empty is served once all claims can be met; nobody behind it overtakes.

    Parameters
    ----------
    model : Building
        The model.
    name : str
        What the names of its variables begin with.
    claims : tuple of Claim
        What one takes who is served.
    classes : int
        The number of classes; 0 goes first.
    """

    def __init__(self, model: Building, name: str, claims: tuple[Claim, ...], classes: int) -> None:
        if classes < 1:
            raise InputError(f"{name}: a queue has 1 class or more: {classes}")
        if len(name) + len("_INTERRUPTED") > MOST_NAME:
            raise InputError(
                f"{name} is too long: at most {MOST_NAME - len('_INTERRUPTED')} letters"
            )
        self.name, self.claims, self.classes = name, claims, classes
        self.pool = Pool.of(model)
        self.model = model
        self._first = self.pool.heads(classes)
        self.queue = Array(f"{name}_QUEUE", classes, True)
        self.served = Array(f"{name}_SERVED", classes, True)
        self.waited = Array(f"{name}_WAITED", classes, True)
        self.left = Array(f"{name}_LEFT", classes, True)
        self.wait = Term(Name(f"{name}_WAIT"), True)
        self.who = Term(Name(f"{name}_WHO"), True)
        self.kind: Term = Term(Name(f"{name}_CLASS"), True)
        self.points: list[tuple[str, str | None]] = []  # where one goes who is served, who gives up
        self.gives_up = False
        self.needs: list[Value] = []
        self.origin = [
            self.pool.array(
                f"{name}_FROM_{at}", len(claim.options) - 1, "Which of several was taken"
            )
            if len(claim.options) > 1
            else None
            for at, claim in enumerate(claims)
        ]
        self._at: Array | None = None
        self._need: Array | None = None
        self.pool.lines.append(self)

    # What others need to know.

    @property
    def is_used(self) -> bool:
        """Whether a way waits here."""
        return bool(self.points)

    @property
    def c(self) -> Value:
        """The class at hand."""
        return self.kind if self.classes > 1 else 0

    def carried(self, who: Value, kind: Value) -> tuple[Value, ...]:
        """What its events carry."""
        return (who, kind) if self.classes > 1 else (who,)

    @property
    def parameters(self) -> tuple[str, ...]:
        return tuple(str(each) for each in self.carried(self.who, self.kind))

    def head(self, kind: Value) -> Value:
        """The place of the list of a class."""
        first = self.pool.head(self._first)
        return first if self.classes == 1 else kind + Term(Number(first), True)

    def first_class(self) -> Term:
        """The first class in which somebody waits; the last one if nobody does."""
        answer = Term(Number(self.classes - 1), True)
        for number in reversed(range(self.classes - 1)):
            answer = choose(self.queue[number] > 0, number, answer)
        return answer

    def need(self, at: int, who: Value) -> Value:
        """How much of a claim an entity takes."""
        if len(self.claims) > 1 or not self.needs:
            return self.claims[at].amount
        return self.needs[0] if self._need is None else self._need[who]

    def able(self, who: Value) -> Term:
        """Whether all that an entity claims can be taken."""
        return all_of(
            any_of(option.able(self.need(at, who)) for option in claim.options)
            for at, claim in enumerate(self.claims)
        )

    # Steps of ways.

    def join(
        self, e: Body, who: Term, order: Value, served: str, gone: str | None, amount: Value = 1
    ) -> int:
        """Puts who into the queue: `served` occurs when it is its turn, and `gone` if it gives up."""
        if isinstance(order, int) and not 0 <= order < self.classes:
            raise InputError(f"{self.name} has the classes 0 to {self.classes - 1}, and no {order}")
        number = len(self.points)
        self.points.append((served, gone))
        self.needs.append(amount)
        if number == 1:
            self._at = self.pool.array(
                f"{self.name}_AT", lambda: len(self.points) - 1, "At which step an entity waits"
            )
        if self._need is None and (
            len({str(each) for each in self.needs}) > 1 or not isinstance(amount, int)
        ):
            self._need = self.pool.array(f"{self.name}_NEED", 10**6, "How many an entity needs")
        e.urgent(f"{self.name}_JOIN", *self.carried(who, order))
        return number

    def before_joining(self, e: Body, who: Term, number: int) -> None:
        """The stores of a step before it joins; known once the model is put together."""
        if self._need is not None:
            e.set(self._need[who], self.needs[number])
        if self._at is not None:
            e.set(self._at[who], number)

    def complete(self) -> None:
        """A queue is always complete."""

    def variables(self) -> Iterable[Variable]:
        if not self.is_used:
            return
        for array, high in (
            (self.queue, self.pool.size),
            (self.served, FOREVER),
            (self.waited, FOREVER),
            (self.left, FOREVER),
        ):
            yield Variable(array.name, 0, high, 0, size=self.classes)
        yield Variable(str(self.wait), 0, FOREVER, 0)
        yield self.pool.is_place(str(self.who))
        if self.classes > 1:
            yield Variable(str(self.kind), 0, self.classes - 1, 0)

    def to_points(self, e: Body, served: bool) -> None:
        """Goes on where the entity belongs."""
        targets = [point[0] if served else point[1] for point in self.points]
        for number, name in enumerate(targets):
            if name is not None:
                here: Value = True if self._at is None else self._at[self.who] == number
                e.urgent(name, self.who, when=here)

    def joining(self, dispatcher: str) -> Vertex:
        """The event of one who joins."""
        e = Body(f"{self.name}_JOIN", self.parameters)
        self.pool.put_last(e, self.who, self.head(self.c))
        e.set(
            (self.queue[self.c], self.queue[self.c] + 1),
            (self.pool.since[self.who], clk),
        )
        e.urgent(dispatcher, when=self.able(self.who))
        return e.vertex()

    def starting(self) -> Vertex:
        """The event of one whose turn it is."""
        e = Body(f"{self.name}_START", self.parameters)
        self.count_wait(e)
        if self.gives_up:
            e.cancel(f"{self.name}_GIVE_UP", *self.carried(self.who, self.kind))
        self.to_points(e, served=True)
        return e.vertex()

    def count_wait(self, e: Body) -> None:
        """Counts one who is served, and how long it waited."""
        c, who = self.c, self.who
        e.set(self.wait, now_minus(self.pool.since[who]))
        e.set(
            (self.waited[c], self.waited[c] + self.wait),
            (self.served[c], self.served[c] + 1),
        )
        if self.pool.logs:
            e.set(self.pool.waited[who], self.pool.waited[who] + self.wait)

    def giving_up(self, dispatcher: str) -> Vertex:
        """The event of one whose patience ends."""
        c = self.c
        e = Body(f"{self.name}_GIVE_UP", self.parameters)
        self.pool.take_out(e, self.who)
        e.set((self.queue[c], self.queue[c] - 1), (self.left[c], self.left[c] + 1))
        if self.pool.logs:
            waited, since = self.pool.waited[self.who], self.pool.since[self.who]
            e.set(waited, waited + now_minus(since))
        if self._need is not None:
            e.urgent(dispatcher)
        self.to_points(e, served=False)
        return e.vertex()

    def own_events(self, dispatcher: str) -> list[Vertex] | None:
        """The events of a queue that chooses by rules of its own, in place of the usual ones."""
        return None

    def notes(self) -> Mapping[str, str]:
        """The comments of its variables and events."""
        n = self.name
        by = " by class, 0 first" if self.classes > 1 else ""
        taken = " and ".join(
            " or ".join(
                f"{claim.amount} of {option.name}" if claim.amount > 1 else option.name
                for option in claim.options
            )
            for claim in self.claims
        )
        return {
            f"{n}_QUEUE": f"How many wait for {taken}{by}",
            f"{n}_SERVED": "How many were served, and the ticks that these waited",
            f"{n}_LEFT": "How many gave up",
            f"{n}_WAIT": f"At {n}_START: how long this one waited, who it is, and its class",
            f"{n}_JOIN": f"One more waits for {taken}, at the end of its list",
            f"{n}_START": "One is served: its turn is over",
            f"{n}_GIVE_UP": "One has waited too long, and leaves its list",
        }

    def total_waiting(self) -> Term:
        """How many wait, of all classes."""
        return total(self.queue)


def spread_by(number: Value, values: list[Value]) -> Value:
    """The value at a number: itself if there is only one."""
    return values[0] if len(values) == 1 else by_number(number, values)
