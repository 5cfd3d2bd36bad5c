"""Rows of what theory says beside what the lab measures, for the programs that compare the two."""

from __future__ import annotations

import argparse
import sys
from collections.abc import Sequence
from dataclasses import dataclass
from pathlib import Path

EXAMPLES = Path(__file__).resolve().parent
sys.path.insert(0, str(EXAMPLES.parent / "lab"))

from sigma_lab.plan import Plan  # noqa: E402
from sigma_lab.replication import replicate  # noqa: E402


@dataclass(frozen=True)
class Case:
    """A number that theory knows.

    Attributes
    ----------
    model : str
        The model, below the folder of the examples.
    measure : str
        What is measured.
    theory : float
        What theory says of it.
    start : tuple of int
        Starting values.
    """

    model: str
    measure: str
    theory: float
    start: tuple[int, ...] = ()


def words(about: str, ticks: int) -> tuple[int, int]:
    """How long a run is, and how many are made, by the words of the command line."""
    parser = argparse.ArgumentParser(description=about)
    parser.add_argument("ticks", nargs="?", type=int, default=ticks, help=f"of a run ({ticks})")
    parser.add_argument("runs", nargs="?", type=int, default=20, help="of each model (20)")
    found = parser.parse_args()
    return found.ticks, found.runs


def row(case: Case, ticks: int, runs: int) -> str:
    """Model, measure, theory, the mean of the runs, its standard error, and how many of these they are apart."""
    plan = Plan(ticks, runs=runs, events=10**9, start=case.start)
    made = replicate(EXAMPLES / f"{case.model}.sigma", plan).estimate(case.measure)
    apart = abs(made.value - case.theory) / made.standard_error
    name = Path(case.model).name
    numbers = f"{case.theory:10.4f} {made.value:10.4f} {made.standard_error:8.4f} {apart:6.1f}"
    return f"{name:<12} {case.measure:<25} {numbers}"


def compare(cases: Sequence[Case], ticks: int, runs: int) -> None:
    """Prints a row for each."""
    print(f"{'model':<12} {'measure':<25}     theory   measured    error  apart")
    for case in cases:
        print(row(case, ticks, runs), flush=True)
