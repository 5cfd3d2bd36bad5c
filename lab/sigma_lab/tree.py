"""The tree of a model: what its text says, without layout and comments.

All parts are frozen dataclasses.  Nothing here checks: the program says whether a text is a model.
"""
from __future__ import annotations

from collections.abc import Iterator
from dataclasses import dataclass, fields, is_dataclass
from typing import Union


@dataclass(frozen=True)
class Number:
    value: int


@dataclass(frozen=True)
class Truth:
    value: bool


@dataclass(frozen=True)
class Clock:
    pass


@dataclass(frozen=True)
class Name:
    """The value of a scalar variable."""

    name: str


@dataclass(frozen=True)
class Cell:
    """The value of a cell of an array."""

    name: str
    index: Expression


@dataclass(frozen=True)
class Unary:
    """`-` or `not`, and its operand."""

    operator: str
    operand: Expression


@dataclass(frozen=True)
class Binary:
    operator: str
    left: Expression
    right: Expression


@dataclass(frozen=True)
class Call:
    """`min` or `max` of two numbers."""

    function: str
    left: Expression
    right: Expression


@dataclass(frozen=True)
class If:
    condition: Expression
    yes: Expression
    no: Expression


Expression = Union[Number, Truth, Clock, Name, Cell, Unary, Binary, Call, If]
Target = Union[Name, Cell]

# Changes and edges.


@dataclass(frozen=True)
class Uniform:
    """`from STREAM in LOW..HIGH`."""

    stream: int
    low: int
    high: int


@dataclass(frozen=True)
class ByTable:
    """`from STREAM by TABLE`."""

    stream: int
    table: str


Source = Union[Uniform, ByTable]


@dataclass(frozen=True)
class Set:
    targets: tuple[Target, ...]
    values: tuple[Expression, ...]


@dataclass(frozen=True)
class Draw:
    target: Target
    source: Source


Change = Union[Set, Draw]

SCHEDULE, URGENT, CANCEL, CANCEL_ALL = "schedule", "urgent", "cancel", "cancel all"
NOW = Number(0)
ALWAYS = Truth(True)


@dataclass(frozen=True)
class Edge:
    """An edge of any kind; those without a delay, a priority or a condition have what a text then leaves out."""

    kind: str
    target: str
    values: tuple[Expression, ...] = ()
    delay: Expression | Source = NOW
    priority: int = 5
    condition: Expression = ALWAYS


# The parts of a model.


@dataclass(frozen=True)
class Variable:
    """A variable; of a truth value `low` and `high` are None.  `size` is None of a scalar."""

    name: str
    low: int | None
    high: int | None
    initial: int | bool
    clip: bool = False
    size: int | None = None

    @property
    def is_bool(self) -> bool:
        return self.low is None

    @property
    def range(self) -> str:
        return "bool" if self.is_bool else f"{self.low}..{self.high}{' clip' if self.clip else ''}"


@dataclass(frozen=True)
class Table:
    name: str
    rows: tuple[tuple[int, int], ...]


@dataclass(frozen=True)
class Vertex:
    name: str
    parameters: tuple[str, ...] = ()
    changes: tuple[Change, ...] = ()
    edges: tuple[Edge, ...] = ()


@dataclass(frozen=True)
class EventGraph:
    """A whole model: what its text says, without layout and comments."""

    name: str
    variables: tuple[Variable, ...] = ()
    tables: tuple[Table, ...] = ()
    watch: tuple[str, ...] = ()
    vertices: tuple[Vertex, ...] = ()
    version: int = 1

    def variable(self, name: str) -> Variable:
        return next(each for each in self.variables if each.name == name)

    def vertex(self, name: str) -> Vertex:
        return next(each for each in self.vertices if each.name == name)

    def table(self, name: str) -> Table:
        return next(each for each in self.tables if each.name == name)

    @property
    def names(self) -> set[str]:
        """The names of all variables, tables and vertices."""
        names = {each.name for each in self.variables} | {each.name for each in self.tables}
        return names | {each.name for each in self.vertices}


def walk(part: object) -> Iterator[object]:
    """This part of a tree and all parts in it, from left to right."""
    yield part
    if isinstance(part, tuple):
        for each in part:
            yield from walk(each)
    elif is_dataclass(part):
        for field in fields(part):
            value = getattr(part, field.name)
            if isinstance(value, tuple) or is_dataclass(value):
                yield from walk(value)


def names_read(part: object) -> list[str]:
    """The variables that expressions of this part name, each once, in order."""
    return list(dict.fromkeys(each.name for each in walk(part) if isinstance(each, (Name, Cell))))
