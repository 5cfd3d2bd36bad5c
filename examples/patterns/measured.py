"""Runs the patterns of docs/use/patterns.md of which theory knows the answer, and compares both.

    python3 examples/patterns/measured.py [TICKS [RUNS]]

A run takes 1,200,000 ticks and there are 20 of each pattern, unless the words say otherwise. The last column says by how
many standard errors theory and measurement differ.
"""

from __future__ import annotations

import sys
from pathlib import Path

sys.path.insert(0, str(Path(__file__).resolve().parents[1]))

import theory  # noqa: E402
from beside_theory import Case, compare, words  # noqa: E402


def cases(ticks: int) -> list[Case]:
    """What theory says of runs of so many ticks."""
    two = theory.TwoClasses((1 / 250, 1 / 200), (60, 100), (7200, 10_000))
    skills = theory.waiting_skills((1 / 100, 1 / 150), 120)
    queue, waits = theory.over_shifts(1 / 100, 160, 2400)
    # A machine breaks down each 400 ticks of its work for 80 ticks on average, so a piece takes the sum of both.
    broken = 50 / 400
    piece = 50 + broken * 80
    wanted = {
        "fifo": {"QUEUE.average": theory.waiting_general(1 / 100, 40, 2800)},
        "leaving": {"QUEUE.average": theory.waiting_or_leaving(2, 1 / 100, 180, 200)},
        "jockeying": {"N[0].average+N[1].average": 1.6 + theory.waiting(2, 1.6)},
        "shortest": {"QUEUE.average": theory.waiting_shortest(1 / 100, 80)},
        "priorities": {f"QUEUE[{kind}].average": two.waiting(kind) for kind in (0, 1)},
        "preemption": {
            "N[0].average": 0.24 / (1 - 0.24),
            "N[1].average": two.interrupted(),
        },
        "breakdowns": {
            "QUEUE.average": theory.waiting_general(
                1 / 100, piece, piece**2 + broken * 2 * 80**2
            )
        },
        "skills": {f"QUEUE[{kind}].average": skills[kind] for kind in (0, 1)},
        "shifts": {"QUEUE.average": queue, "WAITS[1].last": ticks / 4800 * waits},
        "batches": {"QUEUE.average": theory.waiting_batches(4, 1 / 100, 280)},
        "joining": {"ORDERS.average": theory.orders_split(1 / 100, 60)},
        "routing": {
            f"N[{at}].average": load / (1 - load) for at, load in enumerate((0.6, 0.7, 0.5))
        },
        "blocking": {"DONE.count": ticks * theory.pieces(100, 80, 2)},
        # A trip takes 40 ticks or 80, each as likely; of the latter 20 on average are the empty way to the piece.
        "transport": {
            "QUEUE.average": theory.waiting_general(1 / 100, 60, (40**2 + 80**2) / 2) + 20 / 100
        },
        "together": {"QUEUE.average": theory.waiting_together(1 / 100, 80)},
    }
    return [
        Case(f"patterns/{name}", measure, truth)
        for name, measures in wanted.items()
        for measure, truth in measures.items()
    ]


if __name__ == "__main__":
    ticks, runs = words(__doc__.splitlines()[0], 1_200_000)
    compare(cases(ticks), ticks, runs)
