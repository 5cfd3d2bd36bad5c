"""How long a step takes: a number, a term, something drawn, or one of these for each number of an attribute."""

from __future__ import annotations

from collections.abc import Mapping
from typing import Union

from ..body import Body
from ..errors import InputError
from ..terms import Term, Value, all_of, choose, node
from ..tree import Binary, ByTable, Expression, Name, Number, Source, Uniform, Variable

Duration = Union[Value, Source, Mapping[int, Union[Value, Source]]]


def check(name: str, time: Duration) -> None:
    """Raises InputError if a duration is empty or below 0."""
    parts = list(time.values()) if isinstance(time, Mapping) else [time]
    if not parts:
        raise InputError(f"{name}: a duration is missing")
    for each in parts:
        if isinstance(each, int) and each < 0 or isinstance(each, Uniform) and each.low < 0:
            raise InputError(f"{name}: a duration is 0 ticks or more: {each}")


def after(
    e: Body,
    event: str,
    values: tuple[Value, ...],
    time: Duration,
    by: Value,
    *,
    when: Value = True,
    priority: int = 5,
) -> None:
    """Schedules an event after a duration, by an edge for each number of `by`; the last one is for all others too."""
    if not isinstance(time, Mapping):
        e.schedule(event, *values, after=time, priority=priority, when=when)
        return
    *numbers, last = time
    for number in numbers:
        mine = Term(_equal(by, number))
        both = mine if when is True else mine & when
        e.schedule(event, *values, after=time[number], priority=priority, when=both)
    others = all_of(
        [*(~Term(_equal(by, number)) for number in numbers), *([] if when is True else [when])]
    )
    e.schedule(event, *values, after=time[last], priority=priority, when=others)


def store(e: Body, target: Term, time: Duration, by: Value, prefix: str) -> list[Variable]:
    """Finds a duration now and stores it; answers the variables that this needs."""
    parts = time if isinstance(time, Mapping) else {0: time}
    needed: list[Variable] = []
    found: dict[int, Value] = {}
    for number, each in parts.items():
        if isinstance(each, (Uniform, ByTable)):
            name = f"{prefix}_{number}" if len(parts) > 1 else prefix
            needed.append(Variable(name, 0, 2**48, 0))
            e.draw(Term(Name(name), True), each)
            found[number] = Term(Name(name), True)
        else:
            found[number] = each
    numbers = list(found)
    value = found[numbers[-1]]
    for number in reversed(numbers[:-1]):
        value = choose(Term(_equal(by, number)), found[number], value)
    e.set(target, value)
    return needed


def _equal(by: Value, number: int) -> Expression:
    return Binary("=", node(by), Number(number))
