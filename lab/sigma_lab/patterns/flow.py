"""The way of entities through a model."""

from __future__ import annotations

from ..body import Body
from ..errors import InputError
from ..terms import Array, Term, Value, choose
from ..tree import Name, Variable
from .dispatch import look_for_next
from .lines import Line
from .moving import Setups, Transport
from .steps import Steps
from .store import Store


class Flow(Steps):
    """The way of entities through a model.

    Parameters
    ----------
    model : Model
        The model that it is written into.
    name : str
        What one entity is called, as PATIENT.
    most : int
        How many may be inside at once; one more is a fault of the run.

    Attributes
    ----------
    it : Term
        The number of the entity at hand, in each step.
    inside, done : Term
        How many are inside, and how many came to the end.
    stay, stayed : Term
        At the end: how long this one was inside, and the total of all.

    Examples
    --------
    >>> way = Flow(m, "PATIENT", most=500)
    >>> urgency = way.attribute("URGENCY", 0, 2)
    >>> way.arrive(gap=draw(m.stream(), 4, 12))
    >>> way.set_drawn(urgency, draw(m.stream(), m.table("TRIAGE", {0: 6, 1: 40, 2: 54})))
    >>> way.serve(doctor, draw(m.stream(), 5, 20), order=urgency)
    >>> way.leave()
    """

    # Several that go on as one.

    def batch(self, size: int, name: str | None = None) -> None:
        """Waits until `size` are together, and goes on as one, the one that came last; `separate` ends that.

        Parameters
        ----------
        size : int
            How many are together.
        name : str, optional
            What the names of the batch's variables begin with.
        """
        if size < 1:
            raise InputError(f"{self.name}: a batch has 1 or more: {size}")
        label = name or f"{self.name}_BATCH_{sum('_LINK' in each for each in self._said) + 1}"
        it, nobody = self.it, lambda: self.pool.size
        link = self.pool.array(f"{label}_LINK", nobody, f"{label}: who is in the batch with whom")
        count, first = Term(Name(f"{label}_COUNT"), True), Term(Name(f"{label}_FIRST"), True)
        self._said[f"{label}_COUNT"] = f"{label}: how many are together so far"
        self._said[f"{label}_LINK"] = f"{label}: who is in the batch with whom"
        self._variables.append(Variable(str(count), 0, size, 0))
        self._late_variables.append(lambda: Variable(str(first), 0, self.pool.size, self.pool.size))
        step = self.step()
        step.later(lambda e: self._gather(e, link, count, first, size))
        new = self._go_on(f"{label}_FULL"[:32], step, words=f"{size} go on as one")
        new.batches = (*step.batches, link)
        step.urgent(new.name, it, when=count == 0)
        self._story.append(f"waits until {size} are together")

    def _gather(self, e: Body, link: Array, count: Term, first: Term, size: int) -> None:
        it = self.it
        e.set((link[it], first), (count, (count + 1) % size if size > 1 else 0))
        e.set(first, choose(count == 0, self.pool.size, it))

    def separate(self) -> None:
        """All that went on as one go on by themselves."""
        step = self.step()
        if not step.batches:
            raise InputError(f"{self.name}: nothing was put together here")
        *others, link = step.batches
        apart = self._go_on(
            f"{self.name}_SEPARATES", step, words="one of a batch goes on by itself"
        )
        step.urgent(apart.name, self.it)
        new = self._go_on(f"{self.name}_GOES_ON", apart, words="goes on by itself")
        new.batches = tuple(others)
        apart.urgent(new.name, self.it)
        apart.later(lambda e: _next_of_batch(e, apart.name, link[self.it], self.pool.size))
        self._story.append("separates")

    # Stores.

    def put(self, store: Store, amount: Value = 1) -> None:
        """Puts pieces into a store; waits while there is no room for them."""
        if store.capacity is not None:
            self._wait_at(
                store.putting, amount, f"{self.name}_PUTS_{store.name}", f"puts into {store.name}"
            )
            return
        step = self.step()
        step.set(store.pieces, store.pieces + amount)
        step.later(lambda e: look_for_next(e, self.pool, store.pieces))
        self._story.append(f"puts {amount} into {store.name}")

    def get(self, store: Store, amount: Value = 1, order: Value = 0) -> None:
        """Takes pieces out of a store; waits until there are so many."""
        self._wait_at(
            store.getting,
            amount,
            f"{self.name}_HAS_{store.name}",
            f"takes from {store.name}",
            order,
        )

    def _wait_at(self, line: Line, amount: Value, name: str, words: str, order: Value = 0) -> None:
        step = self.step()
        served = self._go_on(name, step, words=words)
        number = line.join(step, self.it, order, served.name, None, amount)
        step.later(lambda e: line.before_joining(e, self.it, number))
        self._story.append(words)

    # Setups and transport.

    def set_up(self, setups: Setups, kind: Value) -> None:
        """Sets a machine up for a kind of part, as long as that takes after the kind before."""
        setups.begin(self.step(), kind)
        self.delay(setups.time, name=f"{self.name}_SET_UP")
        self._story[-1] = f"sets up by {setups.name}"

    def move(self, transport: Transport, start: Value, end: Value, order: Value = 0) -> None:
        """Is carried from one place to another: waits for a vehicle, which comes empty and goes loaded."""
        self.seize(transport, order=order)
        transport.call(self.step(), self.it, start)
        self.delay(transport.trip, name=f"{self.name}_ON_{transport.name}")
        transport.load(self.step(), self.it, start, end)
        self.delay(transport.trip, name=f"{self.name}_OFF_{transport.name}")
        transport.unload(self.step(), self.it)
        self.release(transport)
        self._story[-5:] = [f"is carried by {transport.name}"]


def _next_of_batch(e: Body, name: str, following: Term, nobody: int) -> None:
    e.urgent(name, following, when=following < nobody)
