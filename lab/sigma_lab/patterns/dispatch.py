"""Who is served next: one event for all queues that depend on each other.

Queues depend on each other if they claim the same supply.  Of all heads of queues whose claims can be met, the one
with the least class is served, and of equal ones the one that came first.  A head that can't be served holds up its
own queue and no other.
"""

from __future__ import annotations

from collections.abc import Iterator, Mapping
from typing import TYPE_CHECKING

import networkx as nx

from ..body import Body
from ..terms import Term, Value, choose, smallest
from ..tree import Name, Variable, Vertex
from .lines import Line, Supply

if TYPE_CHECKING:
    from .pool import Pool

NEVER = 2**60
_CHUNK = 8


def groups(pool: Pool) -> list[list[Line]]:
    """The queues that ways use, in groups that depend on each other, in the order in which they were made."""
    used = [line for line in pool.lines if line.is_used]
    shared: nx.Graph[str] = nx.Graph()
    for at, line in enumerate(used):
        shared.add_node(at)
        for supply in supplies(line):
            shared.add_edge(at, str(supply.level))
    parts = [
        sorted(at for at in part if isinstance(at, int)) for part in nx.connected_components(shared)
    ]
    return [[used[at] for at in part] for part in sorted(parts)]


def supplies(line: Line) -> list[Supply]:
    """All supplies that a queue may take from."""
    return [option for claim in line.claims for option in claim.options]


def dispatcher(pool: Pool, level: Term) -> str | None:
    """The event that looks for the next one once a level changed; None if nobody waits for it."""
    for group in groups(pool):
        if any(str(level) == str(supply.level) for line in group for supply in supplies(line)):
            return f"{group[0].name}_NEXT"
    return None


def look_for_next(e: Body, pool: Pool, level: Term) -> None:
    """Lets the next one be looked for, since a level changed."""
    name = dispatcher(pool, level)
    if name is not None:
        e.urgent(name)


def vertices(pool: Pool) -> Iterator[Vertex]:
    """The events of all queues."""
    for group in groups(pool):
        name = f"{group[0].name}_NEXT"
        yield from (line.joining(name) for line in group)
        own = group[0].own_events(name) if len(group) == 1 else None
        if own is not None:
            yield from own
            continue
        yield _choosing(group, name)
        for line in group:
            yield line.starting()
            if line.gives_up:
                yield line.giving_up(name)


def variables(pool: Pool) -> Iterator[Variable]:
    """What the choosing events use."""
    for group in groups(pool):
        name = group[0].name
        if len(group) == 1:
            yield Variable(f"{name}_TAKEN", None, None, False)
            continue
        yield pool.is_place(f"{name}_CHOSEN")
        yield Variable(f"{name}_FIRST", 0, NEVER, NEVER)
        for line in group:
            yield Variable(f"{line.name}_RANK", 0, NEVER, NEVER)


def notes(pool: Pool) -> Mapping[str, str]:
    """The comments of the choosing events."""
    answer: dict[str, str] = {}
    for group in groups(pool):
        name = group[0].name
        answer[
            f"{name}_NEXT"
        ] = "The next one is chosen, and taken out of its list, if there is one who can be served"
        answer[f"{name}_TAKEN"] = "Whether there was one who can be served"
        answer[f"{name}_FIRST"] = "The rank of who is served next: its class, and when it came"
        answer[f"{name}_CHOSEN"] = "Who is served next"
        for line in group:
            answer |= line.notes()
    return answer


def _choosing(group: list[Line], name: str) -> Vertex:
    """The choice and the taking are one event, so that no two of one moment take one server."""
    pool, e = group[0].pool, Body(name)
    for line in group:
        if line.classes > 1:
            e.set(line.kind, line.first_class())
    ready = [(line.queue[line.c] > 0) & line.able(pool.after[line.head(line.c)]) for line in group]
    if len(group) == 1:
        taken = Term(Name(f"{group[0].name}_TAKEN"))
        e.set(taken, ready[0])
        chosen, who = [taken], group[0].who
    else:
        taken, chosen = _rank(e, group, ready)
        who = Term(Name(f"{group[0].name}_CHOSEN"), True)
    served: Value = pool.nobody
    for line, mine in reversed(list(zip(group, chosen))):
        served = choose(mine, pool.after[line.head(line.c)], served)
    e.set(who, served)
    pool.take_out(e, who)
    for line, mine in zip(group, chosen):
        waiting = line.queue[line.c]
        e.set(waiting, choose(mine, waiting - 1, waiting))
    _take(e, group, chosen, who)
    for line, mine in zip(group, chosen):
        e.urgent(f"{line.name}_START", *line.carried(who, line.kind), when=mine)
    e.urgent(name, when=taken)
    return e.vertex()


def _rank(e: Body, group: list[Line], ready: list[Term]) -> tuple[Term, list[Term]]:
    """Ranks the heads of several queues: by class, then by when they came, then by the order of the queues."""
    pool = group[0].pool
    ranks = [Term(Name(f"{line.name}_RANK"), True) for line in group]
    for at, (line, rank, can) in enumerate(zip(group, ranks, ready)):
        came = pool.since[pool.after[line.head(line.c)]]
        by_class: Value = line.kind * 2**48 + came if line.classes > 1 else came
        assert isinstance(by_class, Term)
        e.set(rank, choose(can, by_class * len(group) + at, NEVER))
    first = Term(Name(f"{group[0].name}_FIRST"), True)
    e.set(first, smallest(*ranks))
    return first < NEVER, [(rank == first) & (first < NEVER) for rank in ranks]


def _take(e: Body, group: list[Line], chosen: list[Term], who: Term) -> None:
    """Takes what the one who is served claims."""
    changes: dict[str, tuple[Term, Value]] = {}
    for line, mine in zip(group, chosen):
        for at, claim in enumerate(line.claims):
            origin = line.origin[at]
            need = line.need(at, who)
            if origin is not None:
                number: Value = len(claim.options) - 1
                for option in reversed(range(len(claim.options) - 1)):
                    number = choose(claim.options[option].able(need), option, number)
                e.set(origin[who], choose(mine, number, origin[who]))
            for option_at, supply in enumerate(claim.options):
                here = mine if origin is None else mine & (origin[who] == option_at)
                level, so_far = changes.get(str(supply.level), (supply.level, supply.level))
                after = level + need if supply.adds > 0 else level - need
                changes[str(level)] = level, choose(here, after, so_far)
    pairs: list[tuple[Value, Value]] = list(changes.values())
    for at in range(0, len(pairs), _CHUNK):
        e.set(*pairs[at : at + _CHUNK])


def give_back(e: Body, line: Line, numbers: tuple[int, ...], it: Term) -> None:
    """Gives back what an entity took by these claims of a queue, and lets the next ones be looked for."""
    levels: dict[str, Term] = {}
    for at in numbers:
        claim = line.claims[at]
        origin, need = line.origin[at], line.need(at, it)
        for option_at, supply in enumerate(claim.options):
            if not supply.comes_back:
                continue
            amount = need if origin is None else choose(origin[it] == option_at, need, 0)
            level = supply.level
            e.set(level, level - amount if supply.adds > 0 else level + amount)
            levels[str(level)] = level
    for level in levels.values():
        look_for_next(e, line.pool, level)
