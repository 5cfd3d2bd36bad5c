"""Makes runs of SimPy's own examples and of three studies in both programs, and compares their means.

    python3 examples/beside_simpy/compare.py [RUNS]

There are 1,000 runs of each, unless the word says otherwise, and of the studies, which are longer, a part. It writes of
each measure both means with their standard errors, and by how many standard errors of their difference they differ.
It needs SimPy.
"""

from __future__ import annotations

import math
import subprocess
import sys
from dataclasses import dataclass
from pathlib import Path

HERE = Path(__file__).resolve().parent
sys.path.insert(0, str(HERE.parents[1] / "lab"))

from sigma_lab.plan import Plan  # noqa: E402
from sigma_lab.replication import replicate  # noqa: E402
from sigma_lab.report import Report  # noqa: E402

UNTIL_NOTHING_IS_LEFT = 2**48


@dataclass(frozen=True)
class Study:
    """A model in both programs.

    Attributes
    ----------
    name : str
        That of the model and of SimPy's program.
    until : int
        The tick at which runs stop.
    measures : tuple of str
        What is measured of both: the last value of an item, or OURS=SIMPY'S where the formulas differ.
    start : tuple of int
        Starting values.
    part : int
        One of so many runs is made.
    """

    name: str
    until: int
    measures: tuple[str, ...]
    start: tuple[int, ...] = ()
    part: int = 1

    def runs(self, runs: int) -> tuple[Report, Report]:
        """The runs of both."""
        count = math.ceil(runs / self.part)
        ours = replicate(
            HERE.parent / f"{self.name}.sigma", Plan(self.until, runs=count, start=self.start)
        )
        line = [sys.executable, str(HERE / f"{self.name}.py"), "1", str(count)]
        made = subprocess.run(line, stdout=subprocess.PIPE, check=True)
        return ours, Report.parse(made.stdout, self.name)


RENEGED = "RENEGED[0]+RENEGED[1]+RENEGED[2]=RENEGED"
STUDIES = (
    Study("bank_renege", UNTIL_NOTHING_IS_LEFT, ("RENEGED", "WAITED")),
    Study("carwash", 19, ("WASHED", "DIRT")),
    Study("machine_shop", 4_031_999, ("PARTS", "JOBS")),
    Study("movie_renege", 11_999, (RENEGED, "WHEN", "QUARREL")),
    Study("gas_station", 1999, ("FILLED", "STAYED", "TRUCKS")),
    Study("latency", 99, ("RECEIVED", "TRAVELLED")),
    Study("process_communication", 99, ("LATE[0]", "LATE[1]"), (2,)),
    Study("bank_jockeying", UNTIL_NOTHING_IS_LEFT, ("SERVED", "TOTAL", "LONG"), (5,), 5),
    Study("job_shop", 2_920_000, ("DONE[0]", "TOTAL[0]", "TOTAL[1]", "TOTAL[2]"), (5,), 50),
    Study(
        "call_centre",
        UNTIL_NOTHING_IS_LEFT,
        ("COME[0]", *(f"GOOD[{skill}]" for skill in range(4)), "LOST[1]"),
        (6, 7, 4, 5, 5, 4),
        10,
    ),
)


def row(name: str, measure: str, ours: Report, theirs: Report) -> str:
    """Both means with their errors, and how far they are apart."""
    formula, _, other = measure.rpartition("=")
    first, second = ours.estimate(formula or other), theirs.estimate(other)
    error = math.hypot(first.standard_error, second.standard_error)
    difference = abs(first.value - second.value)
    # Two numbers that are always the same aren't apart; of one run nothing is known.
    numbers = (f"{each.value:10.3f} ({each.standard_error:.3f})" for each in (first, second))
    apart = difference / error if error > 0 else math.nan if difference else 0.0
    return f"{name:<22} {other:<10} {' '.join(numbers)} {apart:8.1f}"


def main() -> None:
    """Prints a row for each measure."""
    runs = int(sys.argv[1]) if len(sys.argv) > 1 else 1000
    print("model                  measure         SIGMA  error       SimPy  error    apart")
    for study in STUDIES:
        ours, theirs = study.runs(runs)
        for measure in study.measures:
            print(row(study.name, measure, ours, theirs), flush=True)


if __name__ == "__main__":
    main()
