"""Resources: servers with a queue, shifts and breakdowns; buffers with room for so many; several at once, and one of several."""

from __future__ import annotations

from collections.abc import Iterable, Mapping, Sequence
from dataclasses import dataclass

from ..body import Body
from ..building import Building
from ..errors import InputError
from ..terms import Array, Term, Value, by_number
from ..tree import Name, Source, Variable, Vertex
from .dispatch import look_for_next
from .lines import Claim, Line, Supply

SHIFT_PRIORITY = 1
MOST_STAFF = 1000


class Seizable:
    """What a way can seize: it has a queue.

    Attributes
    ----------
    queue : Array
        How many wait, by class.
    served, waited, left : Array
        By class how many were served, the ticks that these waited, and how many gave up.
    wait, kind : Term
        At the event NAME_START: how long this one waited, and its class.
    """

    line: Line

    @property
    def queue(self) -> Array:
        return self.line.queue

    @property
    def served(self) -> Array:
        return self.line.served

    @property
    def waited(self) -> Array:
        return self.line.waited

    @property
    def left(self) -> Array:
        return self.line.left

    @property
    def wait(self) -> Term:
        return self.line.wait

    @property
    def kind(self) -> Term:
        return self.line.kind

    def log(self) -> None:
        """Watches NAME_START, with the wait and the class of each who is served."""
        line = self.line
        line.model.watch(
            f"{line.name}_START", line.wait, *([line.kind] if line.classes > 1 else [])
        )


class Resource(Seizable):
    """Servers that are alike, and those who wait for one: by class, and within a class who came first.

    Parameters
    ----------
    model : Model
        The model that it is written into.
    name : str
        What the names of its variables and events begin with.
    staff : int or Term
        How many servers; a variable may give it, as a starting value.
    classes : int
        How many classes of customers; 0 goes first.
    most_staff : int
        The most servers that there may be.

    Attributes
    ----------
    busy, staff : Term
        How many serve, and how many are on duty.
    down : Term or None
        How many are broken down.
    """

    comes_back, adds = True, 1
    _busy_word, _staff_word = "BUSY", "STAFF"

    def __init__(
        self,
        model: Building,
        name: str,
        staff: Value = 1,
        classes: int = 1,
        *,
        most_staff: int = MOST_STAFF,
    ) -> None:
        if isinstance(staff, int) and not 0 <= staff <= most_staff:
            raise InputError(f"{name} has 0 to {most_staff} servers: {staff}")
        self.model, self.name, self._given, self.most_staff = model, name, staff, most_staff
        self.busy = Term(Name(f"{name}_{self._busy_word}"), True)
        self.staff = Term(Name(f"{name}_{self._staff_word}"), True)
        self.down: Term | None = None
        self._shifts: _Shifts | None = None
        self._breakdowns: _Breakdowns | None = None
        self.line = self._make_line(classes)
        model.add(self)

    def _make_line(self, classes: int) -> Line:
        return Line(self.model, self.name, (Claim((self,)),), classes)

    @property
    def level(self) -> Term:
        return self.busy

    @property
    def on_duty(self) -> Term:
        """How many servers can work: on duty and not broken down."""
        return self.staff if self.down is None else self.staff - self.down

    def able(self, amount: Value) -> Term:
        if isinstance(amount, int) and amount == 1:
            return self.busy < self.on_duty
        return self.busy + amount <= self.on_duty

    # Shifts and breakdowns.

    def roster(self, shifts: Sequence[tuple[int, Value]], period: int | None = None) -> None:
        """How many are on duty from which tick on; who serves when a shift ends finishes that first.

        Parameters
        ----------
        shifts : sequence of (tick, staff)
            As `[(0, 1), (480, 4), (960, 2)]`, with rising ticks.  Before the first one there are as many as the
            resource was made with.
        period : int, optional
            The shifts begin again so many ticks after the first one.

        Raises
        ------
        InputError
            If there are no shifts, ticks don't rise, or the period ends before the last shift begins.
        """
        name, ticks = self.name, [tick for tick, _ in shifts]
        if not ticks:
            raise InputError(f"{name}: a roster has one shift or more")
        if ticks[0] < 0 or any(a >= b for a, b in zip(ticks, ticks[1:])):
            raise InputError(f"{name}: the shifts of a roster begin one after the other: {ticks}")
        for _, staff in shifts:
            if isinstance(staff, int) and not 0 <= staff <= self.most_staff:
                raise InputError(f"{name} has 0 to {self.most_staff} servers: {staff}")
        if period is not None and ticks[0] + period <= ticks[-1]:
            raise InputError(
                f"{name}: the period {period} ends at {ticks[0] + period}, before the last shift is over, "
                f"which begins at {ticks[-1]}"
            )
        if self._shifts is not None:
            raise InputError(f"{name} has a roster already")
        self._shifts = _Shifts(tuple(shifts), period)
        self.model.touch()

    def breakdowns(self, uptime: Source | Value, repair: Source | Value, units: int = 1) -> None:
        """So many of the servers break down, by the clock; who is served then is served to the end.

        Parameters
        ----------
        uptime, repair : Source or Value
            How long one works until it breaks, and how long the repair takes, in ticks.
        units : int
            How many servers break down, each for itself.
        """
        if self._breakdowns is not None:
            raise InputError(f"{self.name} has breakdowns already")
        if not 1 <= units <= self.most_staff:
            raise InputError(f"{self.name}: 1 to {self.most_staff} servers break down: {units}")
        if isinstance(self._given, int) and self._shifts is None and units > self._given:
            raise InputError(f"{self.name} has {self._given} servers, and {units} can't break down")
        self.down = Term(Name(f"{self.name}_DOWN"), True)
        self._breakdowns = _Breakdowns(uptime, repair, units)
        self.model.touch()

    # The part of a model.

    def complete(self) -> None:
        """A resource is always complete."""

    def variables(self) -> Iterable[Variable]:
        given = self._given if isinstance(self._given, int) else 0
        yield Variable(str(self.staff), 0, self.most_staff, given)
        yield Variable(str(self.busy), 0, self.most_staff, 0)
        if self._breakdowns is not None:
            yield Variable(str(self.down), 0, self._breakdowns.units, 0)
        if self._shifts is not None:
            yield Variable(f"{self.name}_SHIFT_NO", 0, max(1, len(self._shifts.rows) - 1), 0)

    def opening(self, e: Body) -> None:
        if not isinstance(self._given, int):
            e.set(self.staff, self._given)
        if self._shifts is not None:
            first = self._shifts.rows[0][0]
            e.schedule(f"{self.name}_SHIFT", 0, after=first, priority=SHIFT_PRIORITY)
        if self._breakdowns is not None:
            for _ in range(self._breakdowns.units):
                e.schedule(f"{self.name}_BREAK", after=self._breakdowns.uptime)

    def vertices(self) -> Iterable[Vertex]:
        if self._shifts is not None:
            yield self._shifting(self._shifts)
        if self._breakdowns is not None:
            yield from self._breaking(self._breakdowns)

    def _shifting(self, shifts: _Shifts) -> Vertex:
        number = Term(Name(f"{self.name}_SHIFT_NO"), True)
        e = Body(f"{self.name}_SHIFT", (str(number),))
        e.set(self.staff, by_number(number, [staff for _, staff in shifts.rows]))
        count = len(shifts.rows)
        again: Value = True if shifts.period is not None else number < count - 1
        if shifts.period is not None or count > 1:
            after = by_number(number, shifts.lengths)
            following: Value = (number + 1) % count if count > 1 else 0
            e.schedule(e.name, following, after=after, priority=SHIFT_PRIORITY, when=again)
        look_for_next(e, self.line.pool, self.level)
        return e.vertex()

    def _breaking(self, breakdowns: _Breakdowns) -> Iterable[Vertex]:
        assert self.down is not None
        e = Body(f"{self.name}_BREAK").set(self.down, self.down + 1)
        yield e.schedule(f"{self.name}_REPAIRED", after=breakdowns.repair).vertex()
        e = Body(f"{self.name}_REPAIRED").set(self.down, self.down - 1)
        e.schedule(f"{self.name}_BREAK", after=breakdowns.uptime)
        look_for_next(e, self.line.pool, self.level)
        yield e.vertex()

    def notes(self) -> Mapping[str, str]:
        n = self.name
        return {
            str(self.staff): f"{n}: how many are on duty, and how many of these serve",
            f"{n}_DOWN": "How many are broken down",
            f"{n}_SHIFT": "A shift begins: who serves finishes that first",
            f"{n}_BREAK": "One breaks down: who is served then is served to the end",
            f"{n}_REPAIRED": "One is repaired",
        }

    def outline(self) -> list[str]:
        classes = f", {self.line.classes} classes" if self.line.classes > 1 else ""
        answer = [f"{self.name}: {self._staff_word.lower()} {self._given}{classes}."]
        if self._shifts is not None:
            rows = ", ".join(f"{staff} from {tick}" for tick, staff in self._shifts.rows)
            again = f", again each {self._shifts.period} ticks" if self._shifts.period else ""
            answer.append(f"    On duty: {rows}{again}.")
        if self._breakdowns is not None:
            answer.append(f"    {self._breakdowns.units} of them break down.")
        return answer


class Buffer(Resource):
    """Room for so many, as between two machines.

    `way.seize(buffer)` enters it once there is room; until then one keeps what it holds, as a machine that is blocked.

    Parameters
    ----------
    capacity : int or Term
        For how many there is room.

    Attributes
    ----------
    busy : Term
        How many are in it.
    queue : Array
        How many are blocked by it.
    """

    _busy_word, _staff_word = "LEVEL", "CAPACITY"

    def __init__(
        self,
        model: Building,
        name: str,
        capacity: Value,
        classes: int = 1,
        *,
        most: int = MOST_STAFF,
    ) -> None:
        super().__init__(model, name, capacity, classes, most_staff=most)


class Team(Seizable):
    """Several at once: one waits until all are there, and takes all in one moment.

    Parameters
    ----------
    name : str
        The name of the queue.
    members : Resource, Store, AnyOf, or pairs of these and an amount
        As `Team(m, "ASSEMBLY", machine, (wheels, 4))`.
    classes : int
        The number of classes; 0 goes first.
    """

    def __init__(
        self,
        model: Building,
        name: str,
        *members: Supply | AnyOf | tuple[Supply, int],
        classes: int = 1,
    ) -> None:
        if not members:
            raise InputError(f"{name}: a team has members")
        self.name = name
        self.line = Line(model, name, tuple(_claim(each) for each in members), classes)


class AnyOf(Seizable):
    """One of several resources: the first in this order that is free.

    Parameters
    ----------
    name : str
        The name of the queue.
    resources : Resource
        Those who have the skill, in order of preference.
    """

    def __init__(self, model: Building, name: str, *resources: Resource, classes: int = 1) -> None:
        if len(resources) < 2:
            raise InputError(f"{name}: there are several to choose from")
        self.name, self.options = name, resources
        self.line = Line(model, name, (Claim(resources),), classes)


def _claim(member: Supply | AnyOf | tuple[Supply, int]) -> Claim:
    if isinstance(member, AnyOf):
        return Claim(member.options)
    supply, amount = member if isinstance(member, tuple) else (member, 1)
    if amount < 1:
        raise InputError(f"{supply.name}: one takes 1 or more: {amount}")
    return Claim((supply,), amount)


@dataclass(frozen=True)
class _Shifts:
    rows: tuple[tuple[int, Value], ...]
    period: int | None

    @property
    def lengths(self) -> list[Value]:
        ticks = [tick for tick, _ in self.rows]
        end = ticks[0] + self.period if self.period is not None else ticks[-1]
        return [b - a for a, b in zip(ticks, [*ticks[1:], end])]


@dataclass(frozen=True)
class _Breakdowns:
    uptime: Source | Value
    repair: Source | Value
    units: int
