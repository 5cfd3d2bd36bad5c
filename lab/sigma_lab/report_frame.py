"""Reports as DataFrames."""

from __future__ import annotations

from collections.abc import Sequence
from typing import TYPE_CHECKING, Any

import numpy as np
import pandas as pd

from .errors import InputError
from .report_columns import COLUMNS

if TYPE_CHECKING:
    from .report import Report


def _column(values: Sequence[Any]) -> Any:
    """int64 where all are whole and have room, nullable Int64 with gaps, and else Python's numbers themselves."""
    present = [value for value in values if value is not None]
    if any(type(value) is not int or not -(2**63) <= value < 2**63 for value in present):
        array = np.empty(len(values), dtype=object)
        array[:] = [pd.NA if value is None else value for value in values]
        return array
    if len(present) == len(values):
        return np.array(values, dtype=np.int64)
    return pd.array([pd.NA if value is None else value for value in values], dtype="Int64")


def _of(report: Report, item: str, column: str) -> list[Any]:
    try:
        return list(report.values(item, column))
    except InputError:
        return [None] * len(report)


def tidy(report: Report) -> pd.DataFrame:
    """A row for each run and item."""
    width, count = len(report.items), len(report)
    columns: dict[str, Any] = {}
    for name in (*COLUMNS, "change", "average"):
        of_items = [_of(report, item, name) for item in report.items]
        flat = [value for row in zip(*of_items) for value in row]
        if name == "average":
            columns[name] = np.array([np.nan if v is None else v for v in flat], dtype=float)
        elif name != "change" or any(value is not None for value in flat):
            columns[name] = _column(flat)
    columns["seed"] = np.repeat(report.seeds, width)
    columns["outcome"] = pd.Categorical(np.repeat(np.array(report.outcomes), width))
    columns["time"] = _column([time for time in report.times for _ in range(width)])
    index = [np.repeat(np.arange(1, count + 1), width), list(report.items) * count]
    return pd.DataFrame(columns, index=pd.MultiIndex.from_arrays(index, names=["run", "item"]))


def wide(report: Report, column: str) -> pd.DataFrame:
    """A row for each run, a column for each item."""
    columns = {item: _of(report, item, column) for item in report.items}
    known = {item: _column(c) for item, c in columns.items() if None not in c}
    if not known:
        raise InputError(f"no item of {report.label} has the column {column}")
    return pd.DataFrame(known, index=pd.RangeIndex(1, len(report) + 1, name="run"))


def summary(report: Report, confidence_level: float) -> pd.DataFrame:
    """A row for each item with its estimate."""
    from . import estimators, measures

    rows = []
    for item in report.items:
        column = "count" if report.is_event(item) else "average"
        if column == "average" and not all(report.times):
            column = "last"
        here = estimators.estimate(
            measures.item(item, column).of(report), confidence_level=confidence_level
        )
        values = {name: getattr(here, name) for name in ("value", "low", "high", "n", "method")}
        rows.append({"item": item, "column": column, **values})
    return pd.DataFrame(rows).set_index(["item", "column"])
