"""What is measured of a run: items of its report, ratios of them, and values at events.

    item("QUEUE", "average")                        the mean over time of QUEUE
    count("LOST")                                   how often the event LOST occurred
    ratio("WAITED", "LEAVE", scale=60, unit="min")  the totals of both over all runs, divided
    at("DOOR", "WAIT").quantile(0.9)                a quantile of WAIT over all occurrences of DOOR
    measure("60*ORDERS+8*LOST")                     the same in words, as the command line takes them

In words a term is `NAME.COLUMN` or `NAME`, which is the last value of a variable and the count of an event.
"""

from __future__ import annotations

import ast
import math
import re
from collections.abc import Sequence
from dataclasses import dataclass, field, replace
from typing import TYPE_CHECKING, Any

import numpy as np
from numpy.typing import NDArray

from .errors import InputError
from .formula import Formula
from .sides import Sides, sides_of

if TYPE_CHECKING:
    from .ranges import Ranges
    from .report import Report

COLUMNS = ("least", "greatest", "last", "area", "count", "average", "time", "change")
_UNIT = r"(?: in (?:(\d+(?:\.\d+)?)(?:=([^\s=]+))?|(%)))?"
_JOINTS = ("and", "or", "not", "true", "false", "in")
_WORDS = re.compile(rf"\s*(.*\S)\s+([a-z]+)(?:/([a-z]+))?{_UNIT}\s*")
_FORMULA = re.compile(rf"\s*(.*?\S)\s*{_UNIT}\s*")
_AT_EVENT = re.compile(
    rf"\s*([A-Za-z]\w*):(.+?)(?:[ .](mean|q0?\.\d+)| ?(<=-?\d+(?:\.\d+)?))(?: where (.+?))?{_UNIT}\s*"
)
_AT_ITEM = re.compile(rf"\s*([A-Za-z]\w*):(.+?)(?: where (.+?))?{_UNIT}\s*")


@dataclass(frozen=True)
class Sample:
    """A number of each run, exact and in raw units, or the two sides of a ratio.

    Attributes
    ----------
    seeds : array of uint64, shape (runs,)
        The seeds of the runs, in their order.
    above : array, shape (runs,)
        Python's exact numbers (object), or float64 for averages.
    below : array, shape (runs,), or None
        What is below the `/` of a ratio of totals.
    is_count : bool
        Whether each number is how often one event occurred, so that a Poisson bound of none makes sense.
    scale : float
        Estimates of these numbers are multiplied by it, after they are made.
    unit : str
        The unit of the scaled estimates, or an empty text.
    warnings : tuple of str
        What estimates of these numbers warn of besides.
    """

    seeds: NDArray[np.uint64]
    above: NDArray[Any]
    below: NDArray[Any] | None = None
    is_count: bool = False
    scale: float = 1.0
    unit: str = ""
    warnings: tuple[str, ...] = ()

    def __len__(self) -> int:
        return len(self.above)

    def after(self, warm_up: int, last: Sequence[str]) -> Sample:
        """The sample of a report that begins at a tick, with a warning of these items' last values."""
        if not warm_up or not last:
            return self
        name = last[0]
        count = f"{name}.last counts from the beginning, and {name}.change from the warm-up on"
        return replace(self, warnings=(f"if {name} is a running count, {count}",))


@dataclass(frozen=True)
class Measure:
    """A number of each run: a formula over items, or a ratio of the totals of two formulas.

    Parameters
    ----------
    text : str
        The formula over terms, as `A[0].area + A[1].area`, `60*WAITED/LEAVE`.
    scale : float
        The estimate is multiplied by it, once it is made: 1/60 for minutes of 60 ticks.
    unit : str
        The unit after scaling, as `min`.
    name : str
        What tables call it, if not its words.
    columns : tuple of two str
        The columns of names without one of their own, above and below the `/`.  An empty text is the last value of a
        variable and the count of an event.

    Attributes
    ----------
    sides : Sides
        A factor, as of `W/C*60`, and what is above and below the `/` of a ratio.

    Raises
    ------
    InputError
        If the text is no formula, a column isn't known, or a name stands below a `/` of a larger formula: of
        `WAITED/LEAVE + 1` it isn't clear whether totals or single runs are divided.
    """

    text: str
    scale: float = 1.0
    unit: str = ""
    name: str = ""
    columns: tuple[str, str] = ("", "")
    formula: Formula = field(init=False, repr=False, compare=False)
    sides: Sides = field(init=False, repr=False, compare=False)

    def __post_init__(self) -> None:
        formula = Formula(self.text)
        object.__setattr__(self, "formula", formula)
        if not formula.names:
            raise InputError(f"no item: {self.text!r}")
        for column in (*self.columns, *(_term(name)[1] for name in formula.names)):
            if column and column not in COLUMNS:
                raise InputError(
                    f"no column {column} in {self.text}; there are {' '.join(COLUMNS)}"
                )
        if not (isinstance(self.scale, (int, float)) and math.isfinite(self.scale) and self.scale):
            raise InputError(f"a scale is a number other than 0: {self.scale}")
        object.__setattr__(self, "sides", sides_of(formula))
        if self.columns[1] != self.columns[0] and not self.is_ratio:
            raise InputError(f"{self.text} is no ratio, so it has one column")

    @property
    def label(self) -> str:
        """The name that tables show."""
        if self.name:
            return self.name
        above, below = self.columns
        column = above if above == below else f"{above or 'last'}/{below or 'last'}"
        single = re.fullmatch(r"[A-Za-z]\w*(?:\[\d+\])?", self.text)
        words = f"{self.text}.{column}" if single and column else f"{self.text} {column}".strip()
        return f"{words} in {self.unit}" if self.unit else words

    @property
    def is_ratio(self) -> bool:
        """Whether it is a ratio of totals."""
        return self.sides[2] is not None

    def of(self, report: Report) -> Sample:
        """Its numbers in a report, in the order of the runs.

        Raises
        ------
        IncompleteRuns
            If runs were cut off and the report doesn't keep these.
        InputError
            If the report has no such item or column.
        """
        report.check_whole()
        factor, above, below = self.sides

        used: list[tuple[str, str]] = []

        def numbers(node: ast.expr, default: str) -> NDArray[Any]:
            def values(term: str) -> NDArray[Any]:
                used.append(column_of(term, default, report))
                return report.values(*used[-1])

            made = self.formula.evaluate(values, node)
            return np.broadcast_to(np.asarray(made), (len(report),))

        single = isinstance(above, ast.Name) and below is None
        name, column = _term(self.formula.names[0])
        is_count = single and (column or self.columns[0] or "count") == "count"
        return Sample(
            report.seeds,
            numbers(above, self.columns[0]),
            None if below is None else numbers(below, self.columns[1]),
            is_count and report.is_event(name),
            self.scale * factor,
            self.unit,
        ).after(report.attrs.warm_up, [name for name, column in used if column == "last"])


def _term(word: str) -> tuple[str, str]:
    """The item and the column of a term; the column may be empty."""
    name, _, column = word.partition(".")
    return name, column


def column_of(term: str, default: str, where: Report | Ranges) -> tuple[str, str]:
    """The item and the column of a term, by default the count of an event and the last value of a variable."""
    name, column = _term(term)
    return name, column or default or ("count" if where.is_event(name) else "last")


@dataclass(frozen=True)
class EventMeasure:
    """A number from the values of an item at all occurrences of an event.

    Parameters
    ----------
    event : str
        A watched event.
    value : str
        A formula over watched items.
    what : str
        `mean`, `q0.9` (a quantile) or `<=200` (which share is at most 200, in raw units).
    where : str
        A condition on watched items, as `CLASS = 1`.
    scale, unit, name
        As of `Measure`; a share has no scale.

    Raises
    ------
    InputError
        If a part has no such form.
    """

    event: str
    value: str
    what: str = "mean"
    where: str = ""
    scale: float = 1.0
    unit: str = ""
    name: str = ""

    def __post_init__(self) -> None:
        if not re.fullmatch(r"[A-Za-z]\w*", self.event, re.A):
            raise InputError(f"no event: {self.event!r}")
        if not Formula(self.value).names:
            raise InputError(f"no item: {self.value!r}")
        if self.where:
            Formula(self.where)
        if self.probability is None and self.limit is None and self.what != "mean":
            raise InputError(f"mean, q0.9 or <=200 is measured at an event: {self.what}")
        if self.probability is not None and not 0 < self.probability < 1:
            raise InputError(f"a quantile is at a share above 0 and below 1: {self.what}")
        if not (math.isfinite(self.scale) and self.scale):
            raise InputError(f"a scale is a number other than 0: {self.scale}")

    @property
    def probability(self) -> float | None:
        """The share that a quantile is at, or None."""
        return float(self.what[1:]) if re.fullmatch(r"q\d*\.?\d+", self.what) else None

    @property
    def limit(self) -> float | None:
        """The limit of a share, or None."""
        return float(self.what[2:]) if re.fullmatch(r"<=-?\d+(\.\d+)?", self.what) else None

    @property
    def label(self) -> str:
        """The name that tables show."""
        where = f" where {self.where}" if self.where else ""
        lead = "" if self.limit is not None else "."
        words = f"{self.event}:{self.value}{lead}{self.what}{where}"
        return self.name or (f"{words} in {self.unit}" if self.unit else words)

    def mean(self) -> EventMeasure:
        """The mean over all occurrences."""
        return replace(self, what="mean")

    def quantile(self, p: float) -> EventMeasure:
        """The least value that a share `p`, above 0 and below 1, of all values doesn't exceed."""
        return replace(self, what=f"q{float(p):.15f}".rstrip("0"))

    def share_at_most(self, limit: float) -> EventMeasure:
        """Which share of all values is at most `limit`."""
        return replace(self, what=f"<={float(limit):.15f}".rstrip("0").rstrip("."))


def item(name: str, column: str = "last", *, scale: float = 1.0, unit: str = "") -> Measure:
    """A column of an item: `item("QUEUE", "average")`."""
    return Measure(name, scale, unit, columns=(column, column))


def count(event: str, *, scale: float = 1.0, unit: str = "") -> Measure:
    """How often an event occurs in a run."""
    return Measure(event, scale, unit, columns=("count", "count"))


def ratio(above: str, below: str, *, scale: float = 1.0, unit: str = "", name: str = "") -> Measure:
    """The ratio of the totals of two formulas over all runs, times `scale`.

    Parameters
    ----------
    above, below : str
        Formulas over terms: `WAITED` (last value), `LEAVE` (count), `QUEUE.area`.
    """
    for side in (above, below):
        Formula(side)
    return Measure(f"({above})/({below})", scale, unit, name or _bare_ratio(above, below, unit))


def _bare_ratio(above: str, below: str, unit: str) -> str:
    sides = [side if re.fullmatch(r"[\w\[\].]+", side) else f"({side})" for side in (above, below)]
    return "/".join(sides) + (f" in {unit}" if unit else "")


def at(
    event: str, value: str, *, where: str = "", scale: float = 1.0, unit: str = ""
) -> EventMeasure:
    """The values of an item at each occurrence of an event: `at("DOOR", "WAIT").quantile(0.9)`."""
    return EventMeasure(event, value, "mean", where, scale, unit)


def unit_of(size: str | None, word: str | None, per_cent: str | None) -> tuple[float, str]:
    """The scale and the name of a unit of `size` ticks, or of per cent."""
    if per_cent:
        return 100.0, "%"
    if size is None:
        return 1.0, ""
    if not float(size) > 0:
        raise InputError("a unit is above 0")
    return 1 / float(size), word or f"units of {size}"


def measure(text: str) -> Measure | EventMeasure:
    """The measure of its words.

    Parameters
    ----------
    text : str
        `QUEUE.average`, `QUEUE average`, `WAITED/LEAVE`, `WAITED/LEAVE last/count`, `DOOR:WAIT.q0.9`,
        `DOOR:WAIT q0.9 where CLASS = 1`, `DOOR:WAIT<=200`; each with ` in 60=min` or ` in %` at its end.

    Raises
    ------
    InputError
        If there is no such measure.
    """
    found = _AT_EVENT.fullmatch(text)
    if found:
        event, value, what, share, where, *unit = found.groups()
        return EventMeasure(event, value, what or share, where or "", *unit_of(*unit))
    found = _WORDS.fullmatch(text)
    if found and re.search(r"[\w\])]$", found[1]) and found[1].split()[-1] not in _JOINTS:
        words, above, below, *unit = found.groups()
        if named := re.search(r"[\w\]]\.([a-z]+)", words):
            raise InputError(f"{text!r} names two columns, {named[1]} and {above}")
        return Measure(words, *unit_of(*unit), columns=(above, below or above))
    found = _FORMULA.fullmatch(text)
    if not found:
        raise InputError(f"no item: {text!r}")
    words, *unit = found.groups()
    return Measure(words, *unit_of(*unit))


def values_at(text: str) -> EventMeasure:
    """The values at an event, of their words: `DOOR:WAIT`, `DOOR:WAIT where CLASS = 1 in 60=min`."""
    found = _AT_ITEM.fullmatch(text)
    if not found:
        raise InputError(f"an event and an item are needed, as DOOR:WAIT: {text!r}")
    event, value, where, *unit = found.groups()
    return EventMeasure(event, value, "mean", where or "", *unit_of(*unit))


def measures(texts: Sequence[str | Measure | EventMeasure]) -> list[Measure | EventMeasure]:
    """Measures of their words, and measures as they are."""
    return [measure(text) if isinstance(text, str) else text for text in texts]
