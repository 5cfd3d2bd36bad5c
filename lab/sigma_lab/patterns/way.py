"""The steps of a way, and what it writes into the model."""

from __future__ import annotations

from collections.abc import Callable, Iterable, Mapping
from typing import TYPE_CHECKING

from ..body import MOST_TARGETS, Body
from ..building import Building
from ..errors import InputError
from ..terms import Array, Term, Value
from ..tree import Name, Variable, Vertex
from .pool import FOREVER, Pool, now_minus
from .resource import Seizable

if TYPE_CHECKING:
    import pandas as pd

    from ..history import History

MOST_NAME = 32


Held = tuple[Seizable, int]
"""What an entity has: of this queue, the claim of this number."""


class Step(Body):
    """A step of a way: an event, and what an entity surely and perhaps holds there."""

    def __init__(self, name: str, it: str) -> None:
        super().__init__(name, (it,))
        self.surely: frozenset[Held] = frozenset()
        self.perhaps: frozenset[Held] = frozenset()
        self.batches: tuple[Array, ...] = ()
        self.is_begun = False
        self.is_reached = False

    def comes_from(self, step: Step) -> None:
        """Notes that a step leads here.

        Raises
        ------
        InputError
            If this step goes on already, and others come to it with something else in hand.
        """
        same = (self.surely, self.perhaps, self.batches) == (
            step.surely,
            step.perhaps,
            step.batches,
        )
        if self.is_begun and self.is_reached and not same:
            raise InputError(
                f"{step.name} goes to {self.name} with {named(step.perhaps)} in hand; "
                f"others come there with {named(self.perhaps)}"
            )
        self.surely = self.surely & step.surely if self.is_reached else step.surely
        self.perhaps |= step.perhaps
        self.batches = step.batches
        self.is_reached = True


def named(held: Iterable[Held]) -> str:
    """What is held, for a message."""
    return ", ".join(sorted({one.line.name for one, _ in held})) or "nothing"


class Way:
    """The steps of a way: what `Flow` and its parts have in common."""

    def __init__(self, model: Building, name: str, most: int = 512) -> None:
        if len(name) > MOST_NAME - 12:
            raise InputError(f"{name} is too long: at most {MOST_NAME - 12} letters")
        self.model, self.name, self.most = model, name, most
        self.pool = Pool.of(model)
        self.pool.grow(most)
        self.it = Term(Name(name), True)
        self.inside, self.done = Term(Name(f"{name}_INSIDE"), True), Term(
            Name(f"{name}_DONE"), True
        )
        self.stay, self.stayed = Term(Name(f"{name}_STAY"), True), Term(
            Name(f"{name}_STAYED"), True
        )
        self._came = self.pool.array(f"{name}_CAME", FOREVER, "When an entity came")
        self._attributes: dict[str, tuple[int, int]] = {}
        self._steps: dict[str, Step] = {}
        self._step: Step | None = None
        self._variables: list[Variable] = []
        self._arrays: list[Variable] = []
        self._late_variables: list[Callable[[], Variable]] = []
        self._events: list[Body] = []
        self._start: list[Callable[[Body], None]] = []
        self._said: dict[str, str] = {}
        self._story: list[str] = []
        self._ends: list[str] = []
        self._logged: tuple[str, ...] | None = None
        self._gives_up = False
        model.add(self)

    def attribute(self, name: str, low: int, high: int, *, note: str = "") -> Term:
        """A number that each entity has; when one comes, it has the number of the range that is nearest to 0.

        Parameters
        ----------
        low, high : int
            Its range.
        """
        if low > high:
            raise InputError(f"{name}: an attribute goes from {low} to {high}")
        self._attributes[name] = low, high
        words = note or f"{self.name}: {name.lower().replace('_', ' ')} of each"
        return self.pool.array(name, high, words, low=low)[self.it]

    def reference(self, name: str, *, note: str = "") -> Term:
        """An attribute that holds the number of another entity."""
        words = note or f"{self.name}: the number of another entity"
        return self.pool.array(name, lambda: self.pool.size - 1, words)[self.it]

    def of(self, attribute: Term, number: Value) -> Term:
        """The attribute of the entity of this number."""
        return Array(str(attribute).partition("[")[0], 0, attribute.natural)[number]

    @property
    def came(self) -> Term:
        """When the entity at hand came."""
        return self._came[self.it]

    def _clear(self, e: Body) -> None:
        """Gives one who comes its first attributes, since its number had others perhaps."""
        stores = [
            (Array(name, 0)[self.it], min(max(0, low), high))
            for name, (low, high) in self._attributes.items()
        ]
        for at in range(0, len(stores), MOST_TARGETS):
            e.set(*stores[at : at + MOST_TARGETS])

    def _new_step(self, name: str, *, fixed: bool = False) -> Step:
        """A new step; its name gets a number if it was used before, unless it is fixed."""
        base = name[:MOST_NAME]
        number = 1
        while not fixed and name in self._steps or len(name) > MOST_NAME:
            number += 1
            name = f"{base[: MOST_NAME - 4]}_{number}"
        step = self._steps.setdefault(name, Step(name, str(self.it)))
        self.model.touch()
        return step

    def step(self) -> Step:
        """The event of this step; changes and edges of your own may be added to it.

        Raises
        ------
        InputError
            If the way doesn't go on here: it begins with `arrive` or `at`.
        """
        if self._step is None:
            raise InputError(f"{self.name}: no step goes on here; begin with arrive or at")
        return self._step

    def _go_on(self, name: str, step: Step | None = None, *, words: str = "") -> Step:
        """A new step after the one at hand."""
        new = self._new_step(name)
        new.comes_from(step or self.step())
        new.is_begun = True
        self._said[new.name] = f"{self.name}: {words}"
        self._step = new
        return new

    def at(self, name: str, *, from_outside: bool = False) -> None:
        """Begins a step that others go to by `go`, `route` or `gone`.

        Parameters
        ----------
        from_outside : bool
            Whether events that aren't steps of the way lead there, as `e.urgent("FOUND", number)`.
        """
        new = self._new_step(name, fixed=True)
        if new.is_begun:
            raise InputError(f"{self.name}: the step {name} was begun already")
        if self._step is not None:
            self._step.urgent(name, self.it)
            new.comes_from(self._step)
        new.is_reached = new.is_reached or from_outside
        new.is_begun = True
        self._said.setdefault(name, f"{self.name}: {name.lower().replace('_', ' ')}")
        self._story.append(f"at {name}:")
        self._step = new

    # The end of a way.

    def _finish(self, step: Step) -> None:
        """Lets the entity at hand leave the model."""
        step.set(self.stay, now_minus(self._came[self.it]))
        step.set(self.inside, self.inside - 1)
        step.later(self._write_log)
        step.later(lambda e: self.pool.leave(e, self.it))
        self._ends.append(step.name)
        self.model.touch()

    def log(self, *attributes: Term | str) -> None:
        """Watches each end of the way, so that `entities` has a row for each entity that left.

        Parameters
        ----------
        attributes : Term
            Attributes that the rows have too.
        """
        names = [str(each).partition("[")[0] for each in attributes]
        unknown = [name for name in names if name not in self._attributes]
        if unknown:
            raise InputError(f"{self.name} has no attribute {unknown[0]}")
        if not self._ends:
            raise InputError(f"{self.name}: log comes after the end of the way")
        self._logged = tuple(names)
        self.pool.logs = True
        kept = [
            f"{self.name}_LOG_{name}"[:MOST_NAME] for name in ("NUMBER", "CAME", "WAITED", *names)
        ]
        self.model.watch(*self._ends, *kept)
        self._variables += [Variable(name, 0, FOREVER, 0) for name in kept]
        self._serial = self.pool.array(
            f"{self.name}_SERIAL", FOREVER, "The how many-th one an entity is, from 1"
        )
        self._variables.append(Variable(f"{self.name}_CAME_SO_FAR", 0, FOREVER, 0))

    def _write_log(self, e: Body) -> None:
        if self._logged is None:
            return
        it = self.it
        kept = [self._serial[it], self._came[it], self.pool.waited[it]]
        kept += [Array(name, 0, True)[it] for name in self._logged]
        names = ("NUMBER", "CAME", "WAITED", *self._logged)
        for name, value in zip(names, kept):
            e.set(Term(Name(f"{self.name}_LOG_{name}"[:MOST_NAME])), value)

    def _write_number(self, e: Body) -> None:
        """Counts those who come, if they are logged."""
        if self._logged is not None:
            count = Term(Name(f"{self.name}_CAME_SO_FAR"), True)
            e.set(count, count + 1)
            e.set(self._serial[self.it], count)

    def entities(self, history: History) -> pd.DataFrame:
        """A row for each entity that left in a run, as `log` watched it.

        Returns
        -------
        pandas.DataFrame
            number (1 came first), came and left (ticks), waited (ticks in queues), served (the rest of its stay),
            end (the step at which it left), and a column for each attribute of `log`.
        """
        if self._logged is None:
            raise InputError(f"{self.name}.log() comes before the run")
        frame = history.to_frame()
        rows = frame[frame["event"].isin(self._ends)]

        def column(name: str) -> str:
            return f"{self.name}_LOG_{name}"[:MOST_NAME]

        answer = rows[[column("NUMBER"), column("CAME"), "time", column("WAITED"), "event"]].copy()
        answer.columns = ["number", "came", "left", "waited", "end"]
        answer.insert(4, "served", answer["left"] - answer["came"] - answer["waited"])
        for name in self._logged:
            answer[name] = rows[column(name)]
        return answer.sort_values("number").reset_index(drop=True)

    # The part of a model.

    def complete(self) -> None:
        """Raises InputError if the way has no beginning or no end, or goes to a step that isn't begun."""
        if not self._steps:
            raise InputError(f"{self.name}: nobody comes: use arrive")
        if self._step is not None:
            raise InputError(
                f"{self.name}: the way has no end after {self._step.name}: use leave or go"
            )
        for step in self._steps.values():
            if not step.is_begun:
                raise InputError(f'{self.name} goes to {step.name}: begin it by at("{step.name}")')
            if not step.is_reached:
                raise InputError(f"{self.name}: nobody goes to {step.name}")

    def variables(self) -> Iterable[Variable]:
        n = self.name
        yield Variable(n, 0, self.pool.size - 1, 0)
        yield Variable(f"{n}_INSIDE", 0, self.most, 0)
        for name in ("DONE", "STAYED", "STAY"):
            yield Variable(f"{n}_{name}", 0, FOREVER, 0)
        yield from self._arrays
        yield from self._variables
        yield from (make() for make in self._late_variables)

    def opening(self, e: Body) -> None:
        for start in self._start:
            start(e)

    def vertices(self) -> Iterable[Vertex]:
        for event in (*self._events, *self._steps.values()):
            yield event.vertex()

    def notes(self) -> Mapping[str, str]:
        n = self.name
        return {
            n: f"The {n} at hand, by its number",
            f"{n}_INSIDE": f"How many {n} are inside",
            f"{n}_DONE": "How many came to the end, and the ticks that these stayed",
            f"{n}_STAY": "At the end: how long this one stayed",
            **self._said,
        }

    def outline(self) -> list[str]:
        return [f"{self.name}: {'; '.join(self._story)}.".replace(":;", ":")]
