"""Reports of runs: read, joined, and the average of an item in each run."""

from __future__ import annotations

import csv
import io
from dataclasses import dataclass, replace

from support.limits import REPORT


@dataclass(frozen=True)
class Row:
    """What one run says of one item; a variable has no count, and an event nothing else."""

    run: int
    seed: int
    outcome: str
    time: int
    item: str
    least: int | None
    greatest: int | None
    last: int | None
    area: int | None
    count: int | None


def read_rows(report: bytes) -> list[Row]:
    """Read the rows of the runs, without the totals."""
    table = csv.DictReader(io.StringIO(report.decode()))
    assert table.fieldnames == REPORT.strip().split(","), "this is no report"
    rows = []
    for row in table:
        if row["run"] == "total":
            break
        least, greatest, last, area, count = (
            int(row[name]) if row[name] else None
            for name in ("least", "greatest", "last", "area", "count")
        )
        head = (int(row["run"]), int(row["seed"]), row["outcome"], int(row["time"]), row["item"])
        rows.append(Row(*head, least, greatest, last, area, count))
    return rows


def written(value: int | None) -> str:
    """Write a number, or nothing."""
    return "" if value is None else str(value)


def write_report(rows: list[Row]) -> bytes:
    """Write a report of these rows, with the totals of each item."""
    text = [REPORT]
    for row in rows:
        numbers = (row.least, row.greatest, row.last, row.area, row.count)
        head = f"{row.run},{row.seed},{row.outcome},{row.time},{row.item}"
        text.append(f"{head},{','.join(map(written, numbers))}\n")
    for item in dict.fromkeys(row.item for row in rows):
        own = [row for row in rows if row.item == item]
        least = min((row.least for row in own if row.least is not None), default=None)
        greatest = max((row.greatest for row in own if row.greatest is not None), default=None)
        areas = [row.area for row in own if row.area is not None]
        counts = [row.count for row in own if row.count is not None]
        sums = (sum(areas) if areas else None, sum(counts) if counts else None)
        numbers = (least, greatest, None, *sums)
        text.append(f"total,,,,{item},{','.join(map(written, numbers))}\n")
    return "".join(text).encode()


def joined(parts: list[bytes]) -> bytes:
    """Join the reports of parts, whose runs are numbered on from part to part."""
    rows: list[Row] = []
    for part in parts:
        before = rows[-1].run if rows else 0
        rows += [replace(row, run=before + row.run) for row in read_rows(part)]
    return write_report(rows)


def averages(report: bytes, item: str) -> list[float]:
    """Compute the average over time of a variable in each run."""
    rows = [row for row in read_rows(report) if row.item == item]
    return [row.area / row.time for row in rows if row.area is not None]
