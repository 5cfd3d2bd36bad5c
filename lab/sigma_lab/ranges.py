"""The least and the greatest value that a run can have of a measure: what the model declares, or what a person states.

What wasn't seen in some runs may still be possible, so no decision takes the values that were seen for all there are.
"""

from __future__ import annotations

import ast
import math
from collections.abc import Mapping
from typing import Any

import numpy as np
from numpy.typing import NDArray

from .errors import InputError
from .estimates import Bounds
from .intervals import interval_of
from .measures import Measure, column_of

Stated = float | tuple[float, float]
"""The greatest value of a run, or the least and the greatest."""

_NO_LIMIT = 2**40  # the most events of a run: a range that no counter can leave limits nothing


class Ranges:
    """The ranges of the items of a model's runs.

    Parameters
    ----------
    declared : mapping of str to (float, float)
        Of each variable (an array by its name), the range that the model declares.
    ticks : float
        How many ticks a run has at most, after the warm-up.
    stated : mapping of str to float or (float, float)
        Of items (`LOST`, `QUEUE[2]`, or `QUEUE.area` for one column) the greatest value of a run, or the least and the
        greatest, where these are narrower than what is declared.
    """

    def __init__(
        self,
        declared: Mapping[str, Bounds],
        ticks: float,
        stated: Mapping[str, Stated] | None = None,
    ) -> None:
        self.declared, self.ticks = dict(declared), ticks
        self.stated = dict(stated or {})

    @classmethod
    def of_model(
        cls, text: str, ticks: float, stated: Mapping[str, Stated] | None = None
    ) -> Ranges:
        """Those of a model's text.  Raises ModelError if it is none."""
        from .model import Model

        declared = {
            each.name: (0.0, 1.0)
            if each.low is None or each.high is None
            else (_limit(each.low), _limit(each.high))
            for each in Model.from_text(text).graph.variables
        }
        return cls(declared, ticks, stated)

    def is_event(self, item: str) -> bool:
        """Whether an item is no variable of the model."""
        return item.partition("[")[0] not in self.declared

    def of(self, item: str, column: str) -> Bounds:
        """The range of a column of an item; its ends are infinite where they aren't known."""
        for name in (f"{item}.{column}", f"{item.partition('[')[0]}.{column}"):
            if name in self.stated:
                return _pair(self.stated[name], 0.0 if column in ("count", "time") else -math.inf)
        if column == "time":
            return 0.0, self.ticks
        own = self.stated.get(item, self.stated.get(item.partition("[")[0]))
        if self.is_event(item) or column == "count":
            return (0.0, math.inf) if own is None else _pair(own, 0.0)
        low, high = self.declared[item.partition("[")[0]]
        if own is not None:
            low, high = _pair(own, low)
        if column == "area":
            return min(0.0, low * self.ticks), max(0.0, high * self.ticks)
        return (low - high, high - low) if column == "change" else (low, high)

    def of_measure(self, measure: Measure) -> tuple[Bounds, Bounds]:
        """The range of what is above and of what is below the `/` of a measure, in raw units and without the ratio's
        factor; below is (1, 1) if it is no ratio."""
        _, above, below = measure.sides

        def span(node: ast.expr, default: str) -> Bounds:
            return interval_of(
                measure.formula, node, lambda term: self.of(*column_of(term, default, self))
            )

        return span(above, measure.columns[0]), (
            (1.0, 1.0) if below is None else span(below, measure.columns[1])
        )


def check_inside(numbers: NDArray[Any], bounds: Bounds, label: str) -> None:
    """Raises InputError if a number lies beyond the range that was stated or declared."""
    slack = 1e-9 * max(1.0, *(abs(end) for end in bounds if math.isfinite(end)))
    low, high = float(np.min(numbers)), float(np.max(numbers))
    if low < bounds[0] - slack or high > bounds[1] + slack:
        raise InputError(
            f"{label}: runs have {low:g} to {high:g}, which is beyond the range {bounds[0]:g} to {bounds[1]:g}"
        )


def _limit(end: int) -> float:
    """An end of a declared range, which is infinite if it is out of reach."""
    return math.copysign(math.inf, end) if abs(end) >= _NO_LIMIT else float(end)


def _pair(stated: Stated, least: float) -> Bounds:
    low, high = stated if isinstance(stated, tuple) else (least, stated)
    if not low < high:
        raise InputError(f"a range has a least value below its greatest: {low:g} and {high:g}")
    return float(low), float(high)
