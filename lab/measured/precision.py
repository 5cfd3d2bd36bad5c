"""How often an interval misses the mean that `run_until_precise` ends with, where 5 per cent are promised.

    python3 lab/measured/precision.py [--series N] [LAW ..]
"""

from __future__ import annotations

import math
import sys
from pathlib import Path

import numpy as np

sys.path.insert(0, str(Path(__file__).resolve().parents[1]))

from laws import LAWS, Law  # noqa: E402
from rows import Row, chosen, keep, row  # noqa: E402

from sigma_lab import estimators  # noqa: E402
from sigma_lab.narrowing import Goal, inner_level, needed_runs  # noqa: E402

SERIES = 1000


def precisions(law: Law, relative: float, series: int) -> Row:
    """An interval that is narrow enough misses the mean."""
    goal, bounds = Goal(relative=relative), (law.least, law.greatest)
    wrong, took = [], []
    for number in range(series):
        values = law.draw(np.random.default_rng(number), 60_000)
        runs = 50
        while True:
            made = estimators.mean(values[:runs], bounds=bounds, confidence_level=inner_level(0.95))
            need = needed_runs(made, values[:runs], bounds, goal.of(made.value))
            if need <= runs or runs == len(values):
                break
            more = max(need, runs + runs // 20, runs + 5)
            runs = math.ceil(min(more, 2 * runs, len(values)))
        wrong.append(not made.low <= 1 <= made.high)
        took.append(runs)
    name = f"precise to {relative:.0%}, misses the mean"
    return row(name, law.name, round(np.mean(took)), 5, wrong)


def main() -> None:
    """Measures what the words ask for, and keeps it."""
    series, names = chosen("How often intervals miss.", SERIES, [law.name for law in LAWS])
    for law in (law for law in LAWS if law.name in names):
        keep("precision", [precisions(law, relative, series) for relative in (0.1, 0.3)])


if __name__ == "__main__":
    main()
