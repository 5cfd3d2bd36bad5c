"""Rules of edges: cancels, shared streams, endless rounds, edges that are both taken."""

from __future__ import annotations

from collections.abc import Callable, Iterator
from itertools import islice
from operator import eq, ge, gt, le, lt, ne

import networkx as nx

from .. import conflicts
from ..graph import links
from ..model import Model
from ..tree import (
    ALWAYS,
    Binary,
    CANCEL,
    CANCEL_ALL,
    Edge,
    EventGraph,
    Expression,
    Number,
    SCHEDULE,
    Set,
    URGENT,
    Unary,
    names_read,
)
from ..writing import write_edge, write_expression, write_vertex_head
from .finding import Finding, NOTE, SLIP, WRONG

MOST_CYCLES = 20  # that are looked at


def cancels(model: Model) -> Iterator[Finding]:
    """A `cancel` without values of a vertex with parameters takes the next event, whoever's it is."""
    graph = model.graph
    for vertex in graph.vertices:
        for edge in vertex.edges:
            target = graph.vertex(edge.target)
            if edge.kind == CANCEL and target.parameters and not edge.values:
                yield Finding(
                    "cancel",
                    SLIP,
                    vertex.name,
                    f"`{write_edge(edge)}` takes the next {target.name} of any value",
                    f"write `cancel {write_vertex_head(target)}` for one, or `cancel all {target.name}`",
                )
            kinds = {
                each.kind
                for other in graph.vertices
                for each in other.edges
                if each.target == edge.target
            }
            if edge.kind in (CANCEL, CANCEL_ALL) and not kinds & {SCHEDULE, URGENT}:
                yield Finding(
                    "cancel",
                    SLIP,
                    vertex.name,
                    f"`{write_edge(edge)}` cancels what nothing schedules",
                )


def shared_streams(model: Model) -> Iterator[Finding]:
    """A stream that several vertices draw from: designs then don't see the same words."""
    first = model.graph.vertices[0].name
    once = {first} - {
        edge.target for each in model.graph.vertices for edge in each.edges
    }  # it draws once, before all others
    for number, drawers in conflicts.streams(model.graph).items():
        if len(set(drawers) - once) > 1:
            yield Finding(
                "stream",
                NOTE,
                f"stream {number}",
                f"{', '.join(drawers)} draw from it, so one shifts what the others get",
                "give each source of chance a stream of its own, so that designs can be compared with the same words",
            )


def cycles(model: Model) -> Iterator[Finding]:
    """Events that lead to themselves at once: without an end if no condition of theirs ever fails."""
    at_once = links(model.graph, at_once=True)
    order = {each.name: at for at, each in enumerate(model.graph.vertices)}
    found = [
        _turned(cycle, order)
        for cycle in islice(nx.simple_cycles(nx.DiGraph(at_once)), MOST_CYCLES)
    ]
    for cycle in sorted(found, key=lambda each: [order[name] for name in each]):
        pairs = list(zip(cycle, [*cycle[1:], cycle[0]]))
        shown = " -> ".join([*cycle, cycle[0]])
        free = all(
            any(data["edge"].condition == ALWAYS for data in at_once[a][b].values())
            for a, b in pairs
        )
        if free:
            yield Finding(
                "cycle",
                WRONG,
                cycle[0],
                f"{shown} never ends: each of them leads to the next at once and always",
            )
        else:
            conditions = {
                write_expression(data["edge"].condition)
                for a, b in pairs
                for data in at_once[a][b].values()
            } - {"true"}
            written = _written_by(model.graph, cycle)
            read = {
                name
                for a, b in pairs
                for data in at_once[a][b].values()
                for name in names_read(data["edge"].condition)
            }
            if not read & written:
                yield Finding(
                    "cycle",
                    WRONG,
                    cycle[0],
                    f"{shown} never ends once it begins: no event of it changes what it asks",
                )
            else:
                yield Finding(
                    "cycle",
                    NOTE,
                    cycle[0],
                    f"{shown} goes round at once while {' and '.join(sorted(conditions))}",
                )


def _turned(cycle: list[str], order: dict[str, int]) -> list[str]:
    """The cycle from its first vertex of the text on."""
    at = cycle.index(min(cycle, key=order.__getitem__))
    return cycle[at:] + cycle[:at]


def _written_by(graph: EventGraph, names: list[str]) -> set[str]:
    answer: set[str] = set()
    for name in names:
        vertex = graph.vertex(name)
        answer |= set(vertex.parameters)
        for change in vertex.changes:
            answer |= {
                each.name
                for each in (change.targets if isinstance(change, Set) else (change.target,))
            }
    return answer


def both_taken(model: Model) -> Iterator[Finding]:
    """Two urgent edges of a vertex to one target: both may be taken."""
    for vertex in model.graph.vertices:
        urgent: dict[str, list[Edge]] = {}
        for edge in vertex.edges:
            if edge.kind == URGENT:
                urgent.setdefault(edge.target, []).append(edge)
        for target, edges in urgent.items():
            conditions = [write_expression(each.condition) for each in edges]
            pairs = [
                (a, b)
                for at, a in enumerate(edges)
                for b in edges[at + 1 :]
                if not _apart(a.condition, b.condition)
            ]
            if not pairs or all(each.condition == ALWAYS for each in edges):
                continue
            alike = any(a.values == b.values for a, b in pairs)
            yield Finding(
                "both",
                SLIP if alike else NOTE,
                vertex.name,
                f"its edges to {target} may both be taken: when {'; when '.join(conditions)}",
                "if only one is meant, choose by one `if`, or let one condition deny the other",
            )


def _apart(one: Expression, other: Expression) -> bool:
    """Whether two conditions surely don't hold together: some part of one denies a part of the other."""
    return any(_denies(a, b) for a in _parts(one) for b in _parts(other))


def _parts(part: Expression) -> list[Expression]:
    if isinstance(part, Binary) and part.operator == "and":
        return [*_parts(part.left), *_parts(part.right)]
    return [part]


def _denies(a: Expression, b: Expression) -> bool:
    """Whether two conditions surely don't hold together, by their form."""
    if Unary("not", a) == b or Unary("not", b) == a:
        return True
    if not (isinstance(a, Binary) and isinstance(b, Binary) and a.left == b.left):
        return False
    if a.operator not in _COMPARE or b.operator not in _COMPARE:
        return False
    if not (isinstance(a.right, Number) and isinstance(b.right, Number)):
        return a.right == b.right and not _both(a.operator, 0, b.operator, 0)
    return not _both(a.operator, a.right.value, b.operator, b.right.value)


_COMPARE: dict[str, Callable[[int, int], bool]] = {
    "=": eq,
    "<>": ne,
    "<": lt,
    "<=": le,
    ">": gt,
    ">=": ge,
}


def _both(one: str, limit: int, other: str, bound: int) -> bool:
    """Whether a whole number stands in both relations: if one does, one near a limit does."""
    near = {each + step for each in (limit, bound) for step in (-1, 0, 1)}
    return any(_COMPARE[one](each, limit) and _COMPARE[other](each, bound) for each in near)


RULES = (cancels, shared_streams, cycles, both_taken)
