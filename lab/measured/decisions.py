"""How often decisions are wrong, where 5 per cent are promised.

    python3 lab/measured/decisions.py [--series N] [LAW ..]

Each series of runs is one whole decision, as `search` and `select_best` make it.  The truth lies
just beyond the bound, which is where a decision errs most often.
"""

from __future__ import annotations

import sys
from pathlib import Path

import numpy as np

sys.path.insert(0, str(Path(__file__).resolve().parents[1]))

from laws import LAWS, Floats, Law  # noqa: E402
from rows import Row, chosen, keep, row  # noqa: E402

from sigma_lab.choosing import Contest  # noqa: E402
from sigma_lab.measures import Sample, item  # noqa: E402
from sigma_lab.targets import Limits, Sense, Target, decide  # noqa: E402

SERIES = 1000
RISK = 0.05
MARGINS = {"normal": 0.1, "exponential": 0.3, "lognormal, cv 3": 0.5}
MOST = 20_000


def sample_of(values: Floats) -> Sample:
    """The sample of a series of runs."""
    return Sample(np.arange(len(values), dtype=np.uint64), values)


def decided(target: Target, law: Law, values: Floats, risk: float) -> tuple[str, int]:
    """The decision of a target, and after how many runs."""
    limits = Limits.of(target, (law.least, law.greatest), (1.0, 1.0))
    return decide(target, sample_of(values), limits, risk)


def targets(law: Law, series: int) -> list[Row]:
    """Wrongly met, and wrongly passed over."""
    made, margin = [], MARGINS.get(law.name, 0.5)
    for sense, sign in (("<=", -1.0), (">=", 1.0)):
        for error in ("met", "passed over"):
            # The mean of the law is 1.  It misses the bound by a thousandth, or is better by a bit more than the margin.
            bound = 1 + sign * 0.001 if error == "met" else 1 - sign * margin * 1.001
            target = Target(item("X"), sense, bound, margin)  # type: ignore[arg-type]
            wrong, took = [], []
            for number in range(series):
                values = law.draw(np.random.default_rng(number), MOST)
                state, runs = decided(target, law, values, RISK)
                wrong.append(
                    state == "meets" if error == "met" else state in ("misses", "passed over")
                )
                took.append(runs)
            name = f"target {sense}, wrongly {error}"
            made.append(row(name, law.name, round(np.mean(took)), 5, wrong))
    return made


def searches(law: Law, series: int) -> Row:
    """Four designs, the third one just misses the bound, the fourth one is better by the margin."""
    sense: Sense = "<="
    margin = MARGINS.get(law.name, 0.5)
    target = Target(item("X"), sense, 1.0, margin)
    wrong, took = [], []
    for number in range(series // 2):
        generator, taken, all_runs = np.random.default_rng(number), -1, 0
        for design, mean in enumerate((1 + 2 * margin, 1 + margin, 1.001, 1 - 1.01 * margin)):
            values = law.draw(generator, MOST) * mean
            wide = Law(law.name, law.draw, law.greatest * mean, law.least * mean)
            state, runs = decided(target, wide, values, RISK / 4)
            all_runs += runs
            if state == "meets":
                taken = design
                break
        wrong.append(taken not in (3, -1) or taken == -1 and state != "more")
        took.append(all_runs)
    return row("search, 4 designs", law.name, round(np.mean(took)), 5, wrong)


def selections(law: Law, designs: int, series: int) -> Row:
    """The best of some designs, the others behind by the indifference, under common random numbers."""
    by = 2 * MARGINS.get(law.name, 0.5)
    wrong, took, undecided = [], [], 0
    for number in range(series // 4):
        generator = np.random.default_rng(number)
        common = law.draw(generator, MOST)
        values = {
            k: 0.5 * (common + law.draw(generator, MOST)) - by * (k > 0) for k in range(designs)
        }
        contest = Contest(by, (law.least - by, law.greatest), RISK, designs)
        runs, winner = 50, None
        while winner is None and runs <= MOST:
            alive = {k: v[:runs] for k, v in values.items() if k not in contest.left}
            contest.leave(alive)
            alive = {k: v for k, v in alive.items() if k not in contest.left}
            winner = contest.winner(alive)
            runs *= 2
        undecided += winner is None
        wrong.append(0 in contest.left or winner not in (0, None))
        took.append(runs // 2)
    note = f"{undecided} undecided" if undecided else ""
    return row(f"best of {designs}", law.name, round(np.mean(took)), 5, wrong, note)


def main() -> None:
    """Measures what the words ask for, and keeps it."""
    series, names = chosen("How often decisions are wrong.", SERIES, [law.name for law in LAWS])
    for law in (law for law in LAWS if law.name in names):
        keep("decisions", targets(law, series))
        keep("decisions", [searches(law, series)])
        keep("decisions", [selections(law, designs, series) for designs in (2, 5)])


if __name__ == "__main__":
    main()
