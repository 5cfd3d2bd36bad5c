"""Rules of variables and events: what isn't filled, reached or read; resets, clips and rings."""

from __future__ import annotations

from collections.abc import Iterator

import networkx as nx

from ..graph import links
from ..inputs import unfilled
from ..model import Model
from ..tree import ALWAYS, Binary, ByTable, EventGraph, If, Number, Set, URGENT, names_read, walk
from ..writing import write_expression
from .finding import Finding, NOTE, SLIP, WRONG


def placeholders(model: Model) -> Iterator[Finding]:
    """Tables and values that a comment asks for, and that aren't filled in."""
    names = unfilled(model.text)
    if names:
        yield Finding(
            "placeholder",
            WRONG,
            ", ".join(names),
            "not filled in, so runs take what stands there for them",
            "`sigma-lab tables --fill MODEL` writes the model with them",
        )


def unreached(model: Model) -> Iterator[Finding]:
    """Vertices to which no edge leads, and edges whose condition can't hold."""
    graph = model.graph
    first = graph.vertices[0].name
    reached = {first} | nx.descendants(nx.DiGraph(links(graph)), first)
    for vertex in graph.vertices:
        if vertex.name not in reached:
            yield Finding(
                "unreached", SLIP, vertex.name, "no edge of an event that can occur leads to it"
            )
    for each in model.narrow().reduce().applications:
        if each.rule == "prune":
            yield Finding(
                "unreached",
                SLIP,
                each.places[0],
                f"the condition of `{each.part}` can't hold",
                each.ranges,
            )
        elif each.rule == "settle":
            yield Finding(
                "condition",
                NOTE,
                each.places[0],
                f"the condition of `{each.part}` always holds",
                each.ranges,
            )
        elif (
            each.rule == "drop" and each.places[0] in reached and not _merged(graph, each.places[0])
        ):
            yield Finding(
                "unreached",
                SLIP,
                each.places[0],
                "it can't occur, by the ranges that no run leaves",
            )


def _merged(graph: EventGraph, name: str) -> bool:
    """Whether an edge always leads there at once, so that the reduction may have merged it away."""
    return any(
        edge.kind == URGENT and edge.target == name and edge.condition == ALWAYS
        for each in graph.vertices
        for edge in each.edges
    )


def unread(model: Model) -> Iterator[Finding]:
    """Variables that nothing reads and nobody watches, and those that never change."""
    uses = model.uses()
    graph = model.graph
    parameters = {name: vertex.name for vertex in graph.vertices for name in vertex.parameters}
    for name, row in uses.iterrows():
        if not row["readers"] and not row["watched"] and name not in parameters:
            yield Finding(
                "unread",
                NOTE,
                name,
                "no event reads it, and it isn't watched",
                "watch it, or remove it",
            )
        elif not row["writers"] and row["readers"]:
            yield Finding(
                "constant",
                NOTE,
                name,
                f"no event changes it: it stays {str(graph.variable(name).initial).lower()}",
            )
    drawn = {source.table for source in walk(graph) if isinstance(source, ByTable)}
    for table in graph.tables:
        if table.name not in drawn:
            yield Finding("unread", NOTE, table.name, "no draw takes this table")


def resets(model: Model) -> Iterator[Finding]:
    """`if c then N + 1 else 0`: a counter that is put back, where `else N` was meant."""
    for vertex in model.graph.vertices:
        for change in vertex.changes:
            for target, value in (
                zip(change.targets, change.values) if isinstance(change, Set) else ()
            ):
                if (
                    not isinstance(value, If)
                    or not isinstance(value.no, Number)
                    or value.no.value != 0
                ):
                    continue
                counts = (
                    isinstance(value.yes, Binary)
                    and value.yes.operator == "+"
                    and value.yes.left == target
                )
                if counts:
                    name = write_expression(target)
                    yield Finding(
                        "reset",
                        SLIP,
                        vertex.name,
                        f"{name} becomes 0 where `{write_expression(value.condition)}` doesn't hold",
                        f"write `else {name}` to keep it",
                    )


def clips(model: Model) -> Iterator[Finding]:
    """A clipped variable that is added to itself: what lies beyond the range is lost."""
    graph = model.graph
    for vertex in graph.vertices:
        for change in vertex.changes:
            for target, value in (
                zip(change.targets, change.values) if isinstance(change, Set) else ()
            ):
                variable = graph.variable(target.name)
                adds = (
                    isinstance(value, Binary)
                    and value.operator in "+-"
                    and target.name in names_read(value)
                )
                if variable.clip and adds:
                    yield Finding(
                        "clip",
                        NOTE,
                        target.name,
                        f"{vertex.name} adds to it, and beyond {variable.low}..{variable.high} nothing is added",
                        "take a range that holds the sum, without clip, so that a slip faults",
                    )


def rings(model: Model) -> Iterator[Finding]:
    """A store at `A[(HEAD + QUEUE) % 4]` where QUEUE may be above 4: it overwrites who is in the ring, unseen."""
    graph = model.graph
    seen: set[tuple[str, str]] = set()
    for vertex in graph.vertices:
        for change in vertex.changes:
            for part in walk(change.targets if isinstance(change, Set) else change.target):
                if not isinstance(part, Binary):
                    continue
                for name, places in _ring(graph, part):
                    if (vertex.name, name) not in seen:
                        seen.add((vertex.name, name))
                        yield Finding(
                            "ring",
                            SLIP,
                            vertex.name,
                            f"it stores at `{write_expression(part)}`, and {name} may be above {places}",
                            f"let {name} go up to {places}, so that an overflow is a fault",
                        )


def _ring(graph: EventGraph, part: Binary) -> Iterator[tuple[str, int]]:
    """Of a place in a ring the variables that may be above its size."""
    if part.operator != "%" or not isinstance(part.right, Number):
        return
    if isinstance(part.left, Binary) and part.left.operator == "+":
        for name in names_read(part.left):
            variable = graph.variable(name)
            if variable.high is not None and variable.high > part.right.value:
                yield name, part.right.value


RULES = (placeholders, unreached, unread, resets, clips, rings)
