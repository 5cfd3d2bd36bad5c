"""Examples whose answer theory knows, beside what the lab measures of them.

    python3 lab/measured/theory.py

Each example is run 100 times after a warm-up.  An interval of 95 per cent misses the answer in 1 of 20 cases by chance.

References
----------
Gross, Shortle, Thompson and Harris 2008 (queues); examples/README.md (the examples).
"""

from __future__ import annotations

import csv
import sys
from dataclasses import dataclass
from pathlib import Path

sys.path.insert(0, str(Path(__file__).resolve().parents[1]))

from rows import HERE  # noqa: E402

from sigma_lab import clusters, replication  # noqa: E402
from sigma_lab.estimates import Estimate  # noqa: E402
from sigma_lab.plan import Plan  # noqa: E402

EXAMPLES = HERE.parents[1] / "examples"
RUNS = 100


@dataclass(frozen=True)
class Case:
    """A number that theory knows.

    Attributes
    ----------
    model : str
        The example.
    measure : str
        What is measured.
    truth : float
        What theory says.
    until, warm_up : int
        In ticks.
    start : tuple of int
        Starting values.
    """

    model: str
    measure: str
    truth: float
    until: int
    warm_up: int
    start: tuple[int, ...] = ()


CASES = (
    Case("mm1", "N.average", 4.0, 550_000, 50_000),
    Case("mmc", "N.average", 4.989, 550_000, 50_000, (3,)),
    Case("loss", "BUSY.average", 2.670, 210_000, 10_000),
    Case("geo", "N.average", 1.05, 51_000, 1_000),
    Case("repair", "DOWN.average", 1.7963, 210_000, 10_000),
    Case("inventory", "STOCK.average", 3.729, 210_000, 10_000),
    Case("inventory", "OWED.average", 0.229, 210_000, 10_000),
)

WAITS = {"mean": 320.0, 0.5: 188.0, 0.9: 832.0, 0.99: 1753.0}
"""Of M/M/1 with load 0.8 and services of 80 ticks: the mean of all waits, and quantiles."""


def line(name: str, truth: float, made: Estimate) -> dict[str, object]:
    """A row, which is also printed."""
    holds = made.low <= truth <= made.high
    row: dict[str, object] = {"measured": name, "theory": truth, "value": f"{made.value:.4f}"}
    row |= {"low": f"{made.low:.4f}", "high": f"{made.high:.4f}", "holds": holds}
    print(*row.values(), sep=" | ", flush=True)
    return row


def main() -> None:
    """Measures all of it, and keeps it."""
    rows = []
    for case in CASES:
        plan = Plan(case.until, runs=RUNS, warm_up=case.warm_up, start=case.start)
        report = replication.replicate(EXAMPLES / f"{case.model}.sigma", plan)
        name = f"{case.model} {case.measure}"
        rows.append(line(name, case.truth, report.estimate(case.measure)))
    plan = Plan(300_000, runs=RUNS, warm_up=50_000)
    seen = replication.observe(EXAMPLES / "waiting.sigma", "ARRIVE", "WAIT", plan)
    for what, truth in WAITS.items():
        made = clusters.mean(seen) if what == "mean" else clusters.quantile(seen, float(what))
        rows.append(line(f"waiting, ARRIVE:WAIT, {what}", truth, made))
    rows.append(line("waiting, share of 0", 0.2, clusters.share_at_most(seen, 0)))
    with open(HERE / "theory.csv", "w", newline="", encoding="ascii") as file:
        table = csv.DictWriter(file, list(rows[0]), lineterminator="\n")
        table.writeheader()
        table.writerows(rows)


if __name__ == "__main__":
    main()
