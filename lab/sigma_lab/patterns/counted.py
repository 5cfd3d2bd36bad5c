"""Queues that count and know no entities: fewer variables, and faster."""

from __future__ import annotations

from ..building import Building
from ..errors import InputError
from ..terms import Value
from ..tree import Source

MOST_WAITING = 10**6


def queue(model: Building, name: str, servers: Value, time: Source, then: str | None = None) -> str:
    """A queue with servers; the event `then` occurs for each one that was served.

    Parameters
    ----------
    servers : int or Term
        How many serve.
    time : Source
        How long a service takes.

    Returns
    -------
    str
        The event that puts one into the queue: `e.urgent(queue(..))`.
    """
    return _station(model, name, servers, time, 1, then)


def batch(
    model: Building,
    name: str,
    size: int,
    time: Source,
    machines: Value = 1,
    then: str | None = None,
) -> str:
    """Machines that begin when `size` wait; the event `then` occurs once for each batch."""
    if size < 1:
        raise InputError(f"{name}: a batch has 1 or more: {size}")
    return _station(model, name, machines, time, size, then)


def _station(
    model: Building, name: str, servers: Value, time: Source, size: int, then: str | None
) -> str:
    waiting = model.var(
        f"{name}_QUEUE", 0, MOST_WAITING, note=f"{name}: how many wait, and how many are free"
    )
    free = model.var(f"{name}_FREE", 0, MOST_WAITING, servers if isinstance(servers, int) else 0)
    if not model.base().vertices:
        model.starts_with()
    if not isinstance(servers, int):
        with model.extend(model.base().vertices[0].name) as e:
            e.set(free, servers)
    with model.event(f"{name}_JOIN", note=f"{name}: one more waits") as e:
        e.set(waiting, waiting + 1)
        e.urgent(f"{name}_START", when=(free > 0) & (waiting >= size) if size > 1 else free > 0)
    with model.event(f"{name}_START", note=f"{name}: a service begins") as e:
        e.set((waiting, waiting - size), (free, free - 1))
        e.schedule(f"{name}_END", after=time)
    with model.event(f"{name}_END", note=f"{name}: a service ends") as e:
        e.set(free, free + 1)
        e.urgent(f"{name}_START", when=waiting >= size if size > 1 else waiting > 0)
        if then is not None:
            e.urgent(then)
    return f"{name}_JOIN"


def arrivals(model: Building, name: str, gap: Source, then: str) -> None:
    """Customers with such gaps: the event `then` occurs for each."""
    with model.event(name, note=f"{name}: one comes") as e:
        e.schedule(name, after=gap)
        e.urgent(then)
    with model.extend(model.base().vertices[0].name) as e:
        e.schedule(name, after=gap)
