"""The time after a warm-up, from two reports of the same runs."""

from __future__ import annotations

from dataclasses import replace
from typing import TYPE_CHECKING

from .errors import IncompleteRuns, InputError
from .report_columns import Columns, Number
from .report_text import number_text

if TYPE_CHECKING:
    from .report import Report

Values = dict[str, list[Number]]


def after(early: Report, late: Report) -> Report:
    """The report of the time between the ends of the same runs; see `Report.after`."""
    from .report import Report

    differ = [name for name in early.attrs.differences(late.attrs) if name != "until"]
    if differ:
        raise InputError(f"the two reports differ in {', '.join(differ)}")
    if early.items != late.items or early.seeds.tolist() != late.seeds.tolist():
        raise InputError("the two reports are not of the same runs and items")
    if early.attrs.warm_up or late.attrs.warm_up:
        raise InputError("a report that begins after a warm-up has no earlier part")
    times = []
    rows = zip(early.seeds.tolist(), early.outcomes, early.times, late.times)
    for seed, outcome, before, now in rows:
        if outcome != "stopped":
            raise IncompleteRuns(
                f"the run with seed {seed} was not stopped when the warm-up ended, but {outcome} at {number_text(before)}"
            )
        if now <= before:
            raise InputError(f"the run with seed {seed} is no longer than its warm-up")
        times.append(now - before)
    made = []
    for item in late.items:
        first, second = ({c: _get(r, item, c) for c in _COLUMNS} for r in (early, late))
        _check(item, first, second, times, early)
        made.append(_difference(first, second))
    end = early.times[0]
    attrs = replace(late.attrs, warm_up=int(end))
    columns = Columns(late.items, list(late._columns.seeds), list(late.outcomes), times, made)
    return Report(columns, late.label, attrs, late.on_cut)


_COLUMNS = ("least", "greatest", "last", "area", "count")


def _get(report: Report, item: str, column: str) -> list[Number]:
    return report._columns.values[report.items.index(item)].get(column, [])


def _difference(first: Values, second: Values) -> Values:
    made: Values = {}
    if second["last"]:
        made["last"] = list(second["last"])
    for column in ("area", "count"):
        if second[column]:
            made[column] = [b - a for a, b in zip(first[column], second[column])]
    if second["last"]:
        made["change"] = [b - a for a, b in zip(first["last"], second["last"])]
    return made


def _check(item: str, first: Values, second: Values, times: list[Number], early: Report) -> None:
    """A run goes on: its least value falls, its greatest one and its count grow, and its area fits."""
    for run, seed in enumerate(early.seeds.tolist()):
        good = [bool(first[column]) == bool(second[column]) for column in _COLUMNS]
        for column, sign in (("least", -1), ("greatest", 1), ("count", 1)):
            if first[column] and second[column]:
                good.append(sign * (second[column][run] - first[column][run]) >= 0)
        if first["area"] and second["area"] and second["least"]:
            rest = second["area"][run] - first["area"][run]
            least, greatest = second["least"][run], second["greatest"][run]
            good.append(least * times[run] <= rest <= greatest * times[run])
        if not all(good):
            raise InputError(
                f"the run with seed {seed} doesn't go on from its warm-up in {item}, so they are other runs"
            )
