"""The four studies beside independent programs in SimPy 2.3.1: means, how far they are apart, and lines.

    /usr/bin/python3 compare.py [RUNS] [STUDY ..]

It ends with status 1 if two means are more than three standard errors apart, counted for the number of comparisons.
"""

from __future__ import annotations

import importlib
import math
import re
import sys
from dataclasses import dataclass
from pathlib import Path
from time import perf_counter

HERE = Path(__file__).resolve().parent
sys.path[:0] = [str(HERE), str(HERE.parent), str(HERE.parents[1])]

from sigma_lab.plan import Plan  # noqa: E402
from sigma_lab.report import Report  # noqa: E402


@dataclass(frozen=True)
class Study:
    """A study: its run, and its measures as formulas over `ITEM.column` and the time of the run."""

    until: int
    start: tuple[int, ...]
    measures: dict[str, str]


DAY, HOUR, WEEK = 8640, 3600, 1000
STUDIES = {
    "emergency_department": Study(
        14 * DAY,
        (3, 12, 4, 4, 1),
        {
            "doctors busy": "DOCTOR_BUSY.average",
            "patients inside": "PATIENT_INSIDE.average",
            "red wait, s": "10 * DOCTOR_WAITED[0].last / DOCTOR_SERVED[0].last",
            "yellow wait, min": "DOCTOR_WAITED[1].last / DOCTOR_SERVED[1].last / 6",
            "green home a day": "8640 * DOCTOR_LEFT[2].last / time",
            "interrupted a day": "8640 * (DOCTOR_INTERRUPTED[1].last + DOCTOR_INTERRUPTED[2].last) / time",
        },
    ),
    "production_line": Study(
        100 * HOUR,
        (5,),
        {
            "parts an hour": "3600 * PART_DONE.last / time",
            "setups an hour": "3600 * SETUP_COUNT.last / time",
            "third machine busy": "THIRD_BUSY.average",
            "in the first buffer": "BEFORE_LEVEL.average",
        },
    ),
    "inventory": Study(
        120 * WEEK,
        (120, 215),
        {
            "on the shelf": "SHELF.average",
            "owed": "OWED.average",
            "orders a week": "1000 * ORDERS.last / time",
            "cost a week": "1000 * (32 * ORDERS.last + 3 * PIECES.last) / time + SHELF.average + 5 * OWED.average",
        },
    ),
    "network": Study(
        10**6,
        (8,),
        {
            "copies a message": "COPIES.last / SENT.last",
            "dropped of 1000 copies": "1000 * DROPPED.last / COPIES.last",
            "time, ms": "TOOK.last / ACKNOWLEDGED.last / 100",
            "waiting at node 2": "NODE_2_QUEUE[0].average",
        },
    ),
}


def values(report: Report, formula: str, time: int) -> list[float]:
    """The value of a formula in each run."""
    found: dict[str, list[float]] = {}

    def name(match: re.Match[str]) -> str:
        key = f"v{len(found)}"
        found[key] = [float(each) for each in report.values(match[1], match[2])]
        return key

    code = compile(re.sub(r"([A-Z]\w*(?:\[\d+\])?)\.(\w+)", name, formula), formula, "eval")
    rows = [dict(zip(found, each), time=time) for each in zip(*found.values())]
    return [float(eval(code, {}, row)) for row in rows]


def mean_and_error(numbers: list[float]) -> tuple[float, float]:
    """The mean, and its standard error."""
    mean = sum(numbers) / len(numbers)
    spread = sum((each - mean) ** 2 for each in numbers) / (len(numbers) - 1)
    return mean, math.sqrt(spread / len(numbers))


def compare(
    name: str, runs: int, part: float = 1.0
) -> list[tuple[str, float, float, float, float, float]]:
    """For each measure both means with their errors, and by how many errors they are apart.

    `part` makes the runs shorter.
    """
    study = STUDIES[name]
    until = int(study.until * part)
    model = importlib.import_module(name).build()
    begun = perf_counter()
    report = model.replicate(Plan(until, runs=runs, start=study.start))
    seconds = perf_counter() - begun
    beside = importlib.import_module(f"simpy_{name}")
    begun = perf_counter()
    theirs = [beside.run(seed, until, study.start) for seed in range(1, runs + 1)]
    print(
        f"{name}: {runs} runs, {seconds:.1f} s; SimPy {perf_counter() - begun:.1f} s; lines {lines(name)}"
    )
    rows = []
    for label, formula in study.measures.items():
        mine = mean_and_error(values(report, formula, until))
        other = mean_and_error([each[label] for each in theirs])
        apart = (mine[0] - other[0]) / math.hypot(mine[1], other[1])
        rows.append((label, *mine, *other, apart))
    return rows


def lines(name: str) -> str:
    """The lines of both programs, without blank ones and the comment at the head."""

    def count(path: Path) -> int:
        text = path.read_text()
        return sum(1 for line in text.split('"""', 2)[2].splitlines() if line.strip())

    return f"{count(HERE.parent / f'{name}.py')} and {count(HERE / f'simpy_{name}.py')}"


def main(words: list[str]) -> int:
    """Compares the studies that are named, or all."""
    runs = int(words[0]) if words else 30
    worst = 0.0
    for name in words[1:] or STUDIES:
        for label, mean, error, other, other_error, apart in compare(name, runs):
            print(
                f"    {label:24} {mean:10.4g} +- {error:<9.3g} SimPy {other:10.4g} +- {other_error:<9.3g}"
                f" {apart:+.1f} errors apart"
            )
            worst = max(worst, abs(apart))
    print(f"at most {worst:.1f} standard errors apart")
    return 0 if worst <= 3 else 1


if __name__ == "__main__":
    sys.exit(main(sys.argv[1:]))
