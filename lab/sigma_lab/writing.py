"""Writes the tree of a model as its canonical text, that of `sigma print`, byte for byte."""
from __future__ import annotations

from collections.abc import Mapping

from .parse import LEVEL_OF, COMPARE, NOT, UNARY
from .tree import (
    ALWAYS,
    Binary,
    ByTable,
    Call,
    Cell,
    Change,
    Clock,
    Edge,
    EventGraph,
    Expression,
    If,
    NOW,
    Name,
    Number,
    Set,
    Source,
    Truth,
    Unary,
    Uniform,
    Variable,
    Vertex,
)


def _level(part: Expression) -> int:
    """How tightly the outermost operator binds; 0 is `if` and `or`, but an `if` may only stand where any expression may."""
    if isinstance(part, If):
        return -1
    if isinstance(part, Binary):
        return LEVEL_OF[part.operator]
    if isinstance(part, Unary):
        return NOT if part.operator == "not" else UNARY
    return UNARY


def _at(part: Expression, level: int) -> str:
    """An operand at a place where only what binds as tightly as this level may stand without parentheses."""
    text = write_expression(part)
    return text if _level(part) >= level else f"({text})"


def write_expression(part: Expression) -> str:
    if isinstance(part, Number):
        return str(part.value)
    if isinstance(part, Truth):
        return "true" if part.value else "false"
    if isinstance(part, Clock):
        return "clk"
    if isinstance(part, Name):
        return part.name
    if isinstance(part, Cell):
        return f"{part.name}[{write_expression(part.index)}]"
    if isinstance(part, Call):
        return f"{part.function}({write_expression(part.left)}, {write_expression(part.right)})"
    if isinstance(part, If):
        return f"if {write_expression(part.condition)} then {write_expression(part.yes)} else {write_expression(part.no)}"
    if isinstance(part, Unary):
        return (
            f"-{_at(part.operand, UNARY)}"
            if part.operator == "-"
            else f"not {_at(part.operand, NOT)}"
        )
    level = LEVEL_OF[part.operator]
    left = level + 1 if level == COMPARE else level
    return f"{_at(part.left, left)} {part.operator} {_at(part.right, level + 1)}"


def _write_source(source: Source) -> str:
    if isinstance(source, Uniform):
        return f"from {source.stream} in {source.low}..{source.high}"
    return f"from {source.stream} by {source.table}"


def _listed(parts: tuple[Expression, ...]) -> str:
    return ", ".join(write_expression(each) for each in parts)


def write_change(change: Change) -> str:
    if isinstance(change, Set):
        return f"set {_listed(change.targets)} := {_listed(change.values)};"
    return f"draw {write_expression(change.target)} {_write_source(change.source)};"


def write_delay(delay: Expression | Source) -> str:
    return (
        f"draw {_write_source(delay)}"
        if isinstance(delay, (Uniform, ByTable))
        else write_expression(delay)
    )


def write_edge(edge: Edge) -> str:
    text = f"{edge.kind} {edge.target}"
    if edge.values:
        text += f"({_listed(edge.values)})"
    if edge.delay != NOW:
        text += f" after {write_delay(edge.delay)}"
    if edge.priority != 5:
        text += f" priority {edge.priority}"
    if edge.condition != ALWAYS:
        text += f" when {write_expression(edge.condition)}"
    return text + ";"


def write_variable(variable: Variable) -> str:
    size = "" if variable.size is None else f"[{variable.size}]"
    initial = str(variable.initial).lower() if variable.is_bool else variable.initial
    return f"var {variable.name}{size} : {variable.range} = {initial};"


def write_vertex_head(vertex: Vertex) -> str:
    return vertex.name + (f"({', '.join(vertex.parameters)})" if vertex.parameters else "")


def lines_of(vertex: Vertex) -> list[str]:
    """The changes and edges of a vertex, in their order."""
    return [write_change(each) for each in vertex.changes] + [
        write_edge(each) for each in vertex.edges
    ]


def write(graph: EventGraph, notes: Mapping[str, str] | None = None) -> str:
    """The text of a model in the layout of `sigma print`.

    Parameters
    ----------
    graph : EventGraph
        Its `version` line is there if the tree has version 2.
    notes : mapping of str to str, optional
        A comment for each name of a variable, table or vertex; that of an empty name stands at the head.
    """
    said = notes or {}
    lines = _comment(said.get("", ""))
    if graph.version == 2:
        lines.append("version 2;")
    lines.append(f"model {graph.name};")
    for variable in graph.variables:
        lines += [*_comment(said.get(variable.name, "")), write_variable(variable)]
    for table in graph.tables:
        rows = " ".join(f"{value} : {weight};" for value, weight in table.rows)
        lines += [*_comment(said.get(table.name, "")), f"table {table.name} {{ {rows} }}"]
    if graph.watch:
        lines.append(f"watch {', '.join(graph.watch)};")
    for vertex in graph.vertices:
        lines += [*_comment(said.get(vertex.name, "")), f"vertex {write_vertex_head(vertex)} {{"]
        lines += [f"  {each}" for each in lines_of(vertex)]
        lines.append("}")
    return "\n".join([*lines, "end", ""])


def _comment(text: str) -> list[str]:
    return [f"# {line}".rstrip() for line in text.splitlines()]
