"""Rows of what was measured, and the files that keep them."""

from __future__ import annotations

import argparse
import csv
import math
from collections.abc import Iterable, Sequence
from dataclasses import asdict, dataclass, fields
from pathlib import Path

HERE = Path(__file__).resolve().parent


@dataclass(frozen=True)
class Row:
    """A share of series, in per cent.

    Attributes
    ----------
    method : str
        What was measured.
    law : str
        The law of a run's number.
    runs : str
        How many runs a series had, or how many it took on average.
    promised : float
        The share that the method promises, in per cent: at least, for intervals; at most, for errors.
    share : float
        The share that was seen.
    error : float
        Its standard error.
    series : int
        How many series there were.
    note : str
        What else a reader should know.
    """

    method: str
    law: str
    runs: str
    promised: int
    share: float
    error: float
    series: int
    note: str = ""


def row(
    method: str,
    law: str,
    runs: object,
    promised: int,
    hits: Iterable[bool],
    note: str = "",
) -> Row:
    """The row of hits, which it also prints."""
    seen = list(map(bool, hits))
    p = sum(seen) / len(seen)
    error = 100 * math.sqrt(max(p * (1 - p), 1 / len(seen) / 4) / len(seen))
    made = Row(
        method, law, str(runs), promised, round(100 * p, 1), round(error, 1), len(seen), note
    )
    print(*asdict(made).values(), sep=" | ", flush=True)
    return made


def keep(name: str, rows: list[Row]) -> None:
    """Writes the rows of a script beside it, in place of older ones of the same method, law and number of runs."""
    path = HERE / f"{name}.csv"
    new = [{key: str(value) for key, value in asdict(each).items()} for each in rows]
    if path.exists():
        keys = {_key(each) for each in new}
        new = [each for each in kept(name) if _key(each) not in keys] + new
    with open(path, "w", newline="", encoding="ascii") as file:
        table = csv.DictWriter(file, [each.name for each in fields(Row)], lineterminator="\n")
        table.writeheader()
        table.writerows(new)


def _key(row: dict[str, str]) -> tuple[str, str, str]:
    """Decisions take as many runs as they need, so these don't tell rows apart."""
    return row["method"], row["law"], row["runs"] if row["promised"] == "95" else ""


def chosen(about: str, series: int, names: Sequence[str]) -> tuple[int, list[str]]:
    """How many series are measured, and under which laws, by the words of the command line."""
    parser = argparse.ArgumentParser(description=about)
    parser.add_argument("--series", type=int, default=series, help=f"how many ({series})")
    parser.add_argument("laws", nargs="*", metavar="LAW", help=", ".join(names))
    words = parser.parse_args()
    unknown = set(words.laws) - set(names)
    if unknown:
        parser.error(f"no law {min(unknown)}; there are {', '.join(names)}")
    return words.series, words.laws or list(names)


def kept(name: str) -> list[dict[str, str]]:
    """The rows that were kept."""
    with open(HERE / f"{name}.csv", newline="", encoding="ascii") as file:
        return list(csv.DictReader(file))
