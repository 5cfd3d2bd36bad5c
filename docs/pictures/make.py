"""Draws the plots of the pages as SVG into this folder.

    python3 docs/pictures/make.py
"""

from __future__ import annotations

import sys
from collections.abc import Mapping
from pathlib import Path

HERE = Path(__file__).resolve().parent
TOP = HERE.parents[1]
sys.path.insert(0, str(TOP / "lab"))

from sigma_lab import plots, replication  # noqa: E402
from sigma_lab.experiments import find_warm_up, sweep  # noqa: E402
from sigma_lab.history import History  # noqa: E402
from sigma_lab.measures import measure  # noqa: E402
from sigma_lab.model import Model  # noqa: E402
from sigma_lab.plan import Plan  # noqa: E402
from sigma_lab.report import Report  # noqa: E402

EXAMPLES = TOP / "examples"
DAY = Plan(600, runs=1000)


def bank(old: str = "", new: str = "") -> Model:
    """The bank, with another text in the place of one."""
    text = (EXAMPLES / "bank.sigma").read_text()
    assert old in text
    return Model.from_text(text.replace(old, new) if old else text)


def histogram(name: str, reports: Mapping[str, Report], what: str, width: float) -> None:
    """How the runs of designs lie."""
    samples = {label: report.values(*what.split(".")) for label, report in reports.items()}
    plots.save(plots.histogram(samples, width, measure(what).label), HERE / f"{name}.svg")


def starts(model: str, until: int, values: Mapping[str, int]) -> dict[str, Report]:
    """A thousand runs of a model for each starting value, by its name."""
    path = EXAMPLES / f"{model}.sigma"
    return {
        name: replication.replicate(path, Plan(until, runs=1000, start=(value,)))
        for name, value in values.items()
    }


def main() -> None:
    """Draws all of them."""
    history = History.read(EXAMPLES / "answers" / "bank.run")
    plots.save(plots.course(history, ["QUEUE", "IDLE"], 60, "hours"), HERE / "bank_day.svg")
    designs = {
        "as it is": bank().replicate(DAY),
        "no service above 8 minutes": bank("in 3..9", "in 3..8").replicate(DAY),
    }
    histogram("bank_designs", designs, "QUEUE.average", 0.2)
    line = "draw SERVICE from 1 in 3..9;"
    swept = bank(line, f"{line} # sweep longest: draw SERVICE from 1 in 3..longest;")
    made = sweep(swept, {"longest": range(6, 10)}, ["QUEUE.average"], DAY)
    plots.save(plots.sweep(made.frame, "longest", "QUEUE.average"), HERE / "bank_sweep.svg")

    waits = replication.observe(
        EXAMPLES / "waiting.sigma", "ARRIVE", "WAIT", Plan(100_000, runs=50)
    )
    minutes = waits.to_frame()["value"] / 60
    plots.save(plots.histogram({"customers": minutes}, 2, "wait", "minutes"), HERE / "waits.svg")
    settled = find_warm_up(
        EXAMPLES / "mm1.sigma", "N", Plan(100_000, runs=200), step=1000, window=8
    )
    plots.save(plots.welch(settled, "N"), HERE / "mm1_welch.svg")

    doctors = starts("emergency", 960, {"two doctors": 2, "three doctors": 3})
    histogram("emergency_designs", doctors, "BROKEN[1].last", 1)
    day = replication.run(EXAMPLES / "emergency.sigma", Plan(960, seed=7, start=(2,)))
    waiting = ["WAITING[1]", "WAITING[2]"]
    plots.save(plots.course(day, waiting, quantity="patients"), HERE / "emergency_day.svg")
    places = starts("flow_line", 2400, {"2 places": 2, "8 places": 8})
    histogram("flow_line_designs", places, "PARTS[4].last", 4)


if __name__ == "__main__":
    main()
