"""Designs of an experiment: values of a model's parameters or of placeholders in its text.

A parameter is one of the first vertex, which is a starting value.  A placeholder is a line with `# sweep NAME: LINE`,
which LINE takes the place of once its names have values.
"""

from __future__ import annotations

import itertools
import math
import re
from collections.abc import Callable, Mapping, Sequence
from dataclasses import dataclass
from typing import Any, TypeVar

from . import execution, replication
from .errors import InputError
from .formula import Formula
from .parse import parse
from .plan import Plan
from .report import Report

MOST_DESIGNS = 1000
Grid = Mapping[str, Sequence[int]]

_PLACEHOLDER = re.compile(r"^.*# sweep ([A-Za-z0-9_, ]+): (.*)$", re.M)
_SPAN = re.compile(r"(-?\d{1,18})\.\.(-?\d{1,18})(?:/([1-9]\d{0,17}))?")
Made = TypeVar("Made")


@dataclass(frozen=True)
class Design:
    """Values of names, with the text and the starting values that they make.

    Attributes
    ----------
    values : mapping of str to int
    text : str
        The model's text, with its tables filled.
    start : tuple of int
        The starting values.
    """

    values: Mapping[str, int]
    text: str
    start: tuple[int, ...]

    @property
    def name(self) -> str:
        """Its name in tables, as `FREE=3 LONGEST=9`."""
        return " ".join(f"{name}={value}" for name, value in self.values.items()) or "design"

    def plan(self, plan: Plan) -> Plan:
        """The plan with this design's starting values."""
        return plan.change(start=self.start) if self.start else plan


def read_values(words: str) -> list[int]:
    """The values of `2..9`, `10..50/10` or `1,4,9`."""
    span = _SPAN.fullmatch(words)
    values: list[int] = []
    if span:
        low, high, step = int(span[1]), int(span[2]), int(span[3] or 1)
        if (high - low) // step >= MOST_DESIGNS:
            raise InputError(f"these are more than {MOST_DESIGNS} values: {words}")
        values = list(range(low, high + 1, step))
    elif re.fullmatch(r"-?\d{1,18}(,-?\d{1,18})*", words):
        values = [int(word) for word in words.split(",")]
    if not values or len(set(values)) < len(values):
        raise InputError(f"no values, or one twice: {words}")
    return values


def parameters(text: str) -> dict[str, int]:
    """The parameters of the first vertex, with the values that their variables begin with."""
    graph = parse(text)
    initial = {each.name: int(each.initial) for each in graph.variables}
    return {name: initial.get(name, 0) for name in graph.vertices[0].parameters}


def designs(model: Any, grid: Grid, where: str = "") -> list[Design]:
    """A design for each choice of values that fulfils a constraint, the last name going round first.

    Parameters
    ----------
    model : Model, path or str
    grid : mapping of str to sequence of int
        The values of each name.  Parameters that it doesn't name keep the value that the model begins with.
    where : str
        A constraint on names, as `S < UPTO`.

    Raises
    ------
    InputError
        If a name is no parameter and no placeholder, or if there are no designs or more than 1000.
    """
    text = replication.ready(model)
    taken = parameters(text)
    held = {
        name for found in _PLACEHOLDER.finditer(text) for name in re.split(r", *", found[1].strip())
    }
    for name, values in grid.items():
        if name not in taken and name not in held:
            known = " ".join([*taken, *sorted(held)]) or "none"
            raise InputError(
                f"{name} is no parameter of the first vertex and no placeholder; there are {known}"
            )
        if not len(values) or any(isinstance(v, bool) or int(v) != v for v in values):
            raise InputError(f"the values of {name} are whole numbers, one or more")
    if math.prod(map(len, grid.values())) > MOST_DESIGNS:
        raise InputError(f"these are more than {MOST_DESIGNS} designs")
    condition = Formula(where) if where else None
    for name in condition.names if condition else ():
        if name not in grid and name not in taken:
            raise InputError(f"the constraint names {name}, which is no parameter")
    made = [
        _design(text, taken, dict(zip(grid, map(int, choice))))
        for choice in itertools.product(*grid.values())
        if condition is None or condition((taken | dict(zip(grid, choice))).__getitem__)
    ]
    if not made:
        raise InputError("no design fulfils the constraint")
    return made


def _design(text: str, taken: Mapping[str, int], values: dict[str, int]) -> Design:
    filled = _PLACEHOLDER.sub(lambda found: _filled(found, values), text)
    return Design(values, filled, tuple(values.get(name, at) for name, at in taken.items()))


def _filled(found: re.Match[str], values: Mapping[str, int]) -> str:
    names = re.split(r", *", found[1].strip())
    if not set(names) & set(values):
        return found[0]
    missing = [name for name in names if name not in values]
    if missing:
        raise InputError(f"the line with {names[0]} also needs a value of {' '.join(missing)}")
    return re.sub(
        r"[A-Za-z_]\w*",
        lambda word: str(values[word[0]]) if word[0] in values else word[0],
        found[2],
    )


def costs_of(ways: Sequence[Design], cost: str) -> list[float]:
    """The cost of each design, by a formula over the names that have values."""
    price = Formula(cost)
    for name in price.names:
        if name not in ways[0].values:
            raise InputError(f"the cost names {name}, which has no values")
    return [float(price(way.values.__getitem__)) for way in ways]


def over_designs(
    task: Callable[[Design, Plan], Made], ways: Sequence[Design], plan: Plan, progress: str = ""
) -> list[Made]:
    """`task` of each design with its plan, in order.

    Of as many designs as there are workers, or more, each is made by one worker; fewer are made one after the other by
    all workers.
    """
    workers = execution.workers_of(plan)
    if len(ways) < workers or len(ways) == 1:
        return [task(way, way.plan(plan)) for way in ways]
    return execution.shared_out(
        _Task(task),
        [(way, way.plan(plan).change(workers=1, client=None)) for way in ways],
        plan,
        progress=progress,
    )


class _Task:
    """A task of one argument, which can be sent to another process."""

    def __init__(self, task: Callable[[Design, Plan], Any]) -> None:
        self.task = task

    def __call__(self, lot: tuple[Design, Plan]) -> Any:
        return self.task(*lot)


class Replicate:
    """Makes the report of a design, from a run of its series on; it can be sent to another process."""

    def __init__(self, first_run: int = 1) -> None:
        self.first_run = first_run

    def __call__(self, way: Design, plan: Plan) -> Report:
        return replication.replicate(way.text, plan, first_run=self.first_run, label=way.name)
