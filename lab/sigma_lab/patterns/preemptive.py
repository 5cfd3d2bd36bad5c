"""Servers whose urgent customers interrupt others."""

from __future__ import annotations

from collections.abc import Iterable, Mapping
from typing import Literal

from ..body import Body
from ..building import Building
from ..errors import InputError
from ..terms import Array, Term, Value, choose, clk
from ..tree import Name, Number, Variable, Vertex
from .lines import Claim, Line
from .pool import FOREVER, now_minus
from .resource import MOST_STAFF, Resource

END_PRIORITY = 4
Policy = Literal["resume", "repeat"]


class Preemptive(Resource):
    """Servers of whom an urgent customer takes one from a less urgent one.

    A customer of the first `interrupts` classes interrupts when no server is free and no more serve than are on duty:
    whoever works on after the end of a shift, or at a server that broke down, isn't interrupted, since that would free
    nobody.  The one who is interrupted has the last class that is served, and of these it is the one who began last.
    It goes to the front of its class.  `Flow.serve` alone uses these servers.

    Parameters
    ----------
    interrupts : int
        How many of the first classes interrupt, 1 to `classes - 1`.
    policy : {"resume", "repeat"}
        Whether one who was interrupted goes on with what is left, or begins again with the same time.

    Attributes
    ----------
    interrupted : Array
        How often customers of each class were interrupted.

    Notes
    -----
    NAME_START, `wait` and `served` are of the first start; patience ends there.
    """

    line: _PreemptiveLine

    def __init__(
        self,
        model: Building,
        name: str,
        staff: Value = 1,
        classes: int = 2,
        interrupts: int = 1,
        *,
        policy: Policy = "resume",
        most_staff: int = MOST_STAFF,
    ) -> None:
        if not 1 <= interrupts < classes:
            raise InputError(
                f"{name}: of {classes} classes 1 to {classes - 1} can interrupt: {interrupts}"
            )
        if policy not in ("resume", "repeat"):
            raise InputError(f"{name}: a policy is resume or repeat: {policy}")
        self.interrupts, self.policy = interrupts, policy
        super().__init__(model, name, staff, classes, most_staff=most_staff)

    def _make_line(self, classes: int) -> Line:
        return _PreemptiveLine(self, classes)

    @property
    def interrupted(self) -> Array:
        return self.line.interrupted

    @property
    def work(self) -> Array:
        """How long the service of each entity takes, or what is left of it."""
        return self.line.work

    def outline(self) -> list[str]:
        first, *rest = super().outline()
        urgent = (
            "class 0 interrupts"
            if self.interrupts == 1
            else f"classes 0 to {self.interrupts - 1} interrupt"
        )
        how = "goes on with what is left" if self.policy == "resume" else "begins again"
        return [
            first,
            f"    {urgent.capitalize()} the last class that is served, which {how}.",
            *rest,
        ]


class _PreemptiveLine(Line):
    """The queue of such servers, and who is served, by class."""

    def __init__(self, resource: Preemptive, classes: int) -> None:
        super().__init__(resource.model, resource.name, (Claim((resource,)),), classes)
        self.resource = resource
        name = self.name
        self._serving_first = self.pool.heads(classes)
        self.serving = Array(f"{name}_SERVING", classes, True)
        self.interrupted = Array(f"{name}_INTERRUPTED", classes, True)
        self.work = self.pool.array(
            f"{name}_WORK", FOREVER, "How long a service takes, or what is left of it"
        )
        self._due = self.pool.array(f"{name}_DUE", FOREVER, "When a service that goes on will end")
        self._begun = self.pool.array(f"{name}_BEGUN", None, "Whether a service was begun before")
        self._taken = Term(Name(f"{name}_TAKEN"))
        self._other = Term(Name(f"{name}_OTHER"), True)

    def variables(self) -> Iterable[Variable]:
        yield from super().variables()
        if self.is_used:
            yield Variable(self.serving.name, 0, self.pool.size, 0, size=self.classes)
            yield Variable(self.interrupted.name, 0, FOREVER, 0, size=self.classes)
            yield Variable(str(self._other), 0, self.classes - 1, 0)

    def _serving_head(self, kind: Value) -> Term:
        return kind + Term(Number(self.pool.head(self._serving_first)), True)

    def before_joining(self, e: Body, who: Term, number: int) -> None:
        super().before_joining(e, who, number)
        e.set(self._begun[who], False)

    def joining(self, dispatcher: str) -> Vertex:
        e = Body(f"{self.name}_JOIN", self.parameters)
        self.pool.put_last(e, self.who, self.head(self.c))
        e.set((self.queue[self.c], self.queue[self.c] + 1), (self.pool.since[self.who], clk))
        return e.urgent(dispatcher).vertex()

    def own_events(self, dispatcher: str) -> list[Vertex]:
        events = [self._choosing(dispatcher), self._beginning(), self.starting()]
        if self.gives_up:
            events.append(self.giving_up(dispatcher))
        return [*events, self._bumping(), self._going_back(dispatcher), self._ending(dispatcher)]

    def _choosing(self, dispatcher: str) -> Vertex:
        e, who, taken = Body(dispatcher), self.who, self._taken
        busy, waiting = self.resource.busy, self.queue[self.c]
        e.set(self.kind, self.first_class())
        e.set(taken, (waiting > 0) & self.resource.able(1))
        e.set(who, choose(taken, self.pool.after[self.head(self.c)], self.pool.nobody))
        self.pool.take_out(e, who)
        e.set((waiting, choose(taken, waiting - 1, waiting)), (busy, choose(taken, busy + 1, busy)))
        e.urgent(f"{self.name}_BEGIN", *self.carried(who, self.kind), when=taken)
        e.urgent(dispatcher, when=taken)
        urgent = (self.kind < self.resource.interrupts) & (self.queue[self.kind] > 0)
        e.urgent(f"{self.name}_BUMP", when=~taken & urgent & (busy == self.resource.on_duty))
        return e.vertex()

    def _beginning(self) -> Vertex:
        e, who, kind = Body(f"{self.name}_BEGIN", self.parameters), self.who, self.kind
        if (
            self.pool.logs
        ):  # the wait after an interruption; that before the first start is counted there
            waited = self.pool.waited[who]
            again = waited + now_minus(self.pool.since[who])
            e.set(waited, choose(self._begun[who], again, waited))
        self.pool.put_last(e, who, self._serving_head(kind))
        e.set((self.serving[kind], self.serving[kind] + 1), (self._due[who], clk + self.work[who]))
        end = f"{self.name}_END"
        e.schedule(end, *self.carried(who, kind), after=self.work[who], priority=END_PRIORITY)
        e.urgent(f"{self.name}_START", *self.carried(who, kind), when=~self._begun[who])
        return e.vertex()

    def starting(self) -> Vertex:
        """The first start of a service."""
        e = Body(f"{self.name}_START", self.parameters)
        self.count_wait(e)
        e.set(self._begun[self.who], True)
        if self.gives_up:
            e.cancel(f"{self.name}_GIVE_UP", *self.carried(self.who, self.kind))
        return e.vertex()

    def _bumping(self) -> Vertex:
        """Finds who is interrupted, and takes it out of those who are served."""
        e, other, who, taken = Body(f"{self.name}_BUMP"), self._other, self.who, self._taken
        busy = self.resource.busy
        last: Value = 0
        for number in range(self.classes):
            last = choose(self.serving[number] > 0, number, last)
        e.set((self.kind, self.first_class()), (other, last))
        urgent = (self.kind < self.resource.interrupts) & (self.queue[self.kind] > 0)
        can = (busy == self.resource.on_duty) & (self.serving[other] > 0) & (self.kind < other)
        e.set(taken, urgent & can)
        e.set(who, choose(taken, self.pool.before[self._serving_head(other)], self.pool.nobody))
        self.pool.take_out(e, who)
        serving = self.serving[other]
        e.set((serving, choose(taken, serving - 1, serving)), (busy, choose(taken, busy - 1, busy)))
        e.urgent(f"{self.name}_BACK", *self.carried(who, other), when=taken)
        return e.vertex()

    def _going_back(self, dispatcher: str) -> Vertex:
        """Puts who was interrupted to the front of its class."""
        e, who, kind = Body(f"{self.name}_BACK", self.parameters), self.who, self.kind
        self.pool.put_first(e, who, self.head(kind))
        e.set(
            (self.queue[kind], self.queue[kind] + 1),
            (self.interrupted[kind], self.interrupted[kind] + 1),
            (self.pool.since[who], clk),
        )
        if self.resource.policy == "resume":
            e.set(self.work[who], self._due[who] - clk)
        e.cancel(f"{self.name}_END", *self.carried(who, kind))
        return e.urgent(dispatcher).vertex()

    def _ending(self, dispatcher: str) -> Vertex:
        e, who, kind = Body(f"{self.name}_END", self.parameters), self.who, self.kind
        self.pool.take_out(e, who)
        busy = self.resource.busy
        e.set((self.serving[kind], self.serving[kind] - 1), (busy, busy - 1))
        e.urgent(dispatcher)
        self.to_points(e, served=True)
        return e.vertex()

    def notes(self) -> Mapping[str, str]:
        n = self.name
        return {
            **super().notes(),
            f"{n}_SERVING": "How many are served now, by class",
            f"{n}_INTERRUPTED": "How often one of each class was interrupted",
            f"{n}_OTHER": "The last class that is served",
            f"{n}_BEGIN": "A service begins, or goes on",
            f"{n}_START": "A service begins for the first time",
            f"{n}_BUMP": "Somebody urgent waits, and all on duty serve: one who can be interrupted is looked for",
            f"{n}_BACK": "One is interrupted, and goes to the front of its class",
            f"{n}_END": "A service ends",
        }
