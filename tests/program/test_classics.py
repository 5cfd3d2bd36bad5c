"""Models of which theory knows the answer: none is more than four standard errors apart from it.

The formulas are those of Gross and others, Fundamentals of Queueing Theory, chapters 2 and 3, and
of Hadley and Whitin, Analysis of Inventory Systems, 1963, chapter 4.
"""

from __future__ import annotations

import math
import re
from collections import Counter
from statistics import fmean, stdev

import pytest

from support.places import example
from support.program import Program
from support.reports import averages

# A slotted queue has an event in each tick, and forgets its beginning soon.
TICKS = 1_000_000
SLOTS = 100_000
RUNS = 20
CELLS = 1_000


def exponential_table(mean: float) -> str:
    """Write the rows of a table of exponential times, whose cells are equally likely.

    A row is the mean of its cell, to the next whole tick.
    """

    def below(end: float) -> float:
        return mean if math.isinf(end) else mean - (end + mean) * math.exp(-end / mean)

    ends = [-mean * math.log(1 - cell / CELLS) for cell in range(CELLS)] + [math.inf]
    means = [(below(high) - below(low)) * CELLS for low, high in zip(ends, ends[1:])]
    rows = Counter(round(value) for value in means)
    return " ".join(f"{ticks} : {weight};" for ticks, weight in sorted(rows.items()))


def filled(text: str) -> str:
    """Fill the tables of a model in, where a comment asks for exponential times."""

    def fill(match: re.Match[str]) -> str:
        return f"table {match[1]} {{ {exponential_table(float(match[2]))} }}"

    form = r"# table (\w+) exponential (\d+);\ntable \1 \{ [^}]* \}"
    return re.sub(form, fill, text)


def lost(servers: int, work: float) -> float:
    """Compute the share of customers that find no server free and leave (Erlang's B)."""
    terms = [work**count / math.factorial(count) for count in range(servers + 1)]
    return terms[-1] / sum(terms)


def waiting(servers: int, work: float) -> float:
    """Compute the share of customers that find no server free and wait (Erlang's C)."""
    share = lost(servers, work)
    return share / (1 - work / servers * (1 - share))


def down(machines: int, repair: float) -> float:
    """Compute how many machines are down, with one repairman.

    `repair` is how long a repair takes beside the time between two failures of a machine.
    """
    weights = [math.perm(machines, count) * repair**count for count in range(machines + 1)]
    return sum(count * weight for count, weight in enumerate(weights)) / sum(weights)


def in_stock(least: int, most: int, wanted: float) -> float:
    """Compute what is in stock, if so much is wanted while an order is under way.

    Stock and orders together are `least` + 1 to `most`, each as likely.
    """
    levels = range(least + 1, most + 1)
    total = 0.0
    for level in levels:
        shares = [math.exp(-wanted) * wanted**n / math.factorial(n) for n in range(level)]
        total += sum((level - n) * share for n, share in enumerate(shares))
    return total / len(levels)


CLASSICS = [
    ("mm1", "N", 0.8 / (1 - 0.8), ""),
    ("mmc", "N", 2.4 + waiting(3, 2.4) * 2.4 / (3 - 2.4), "--start 3"),
    ("md1", "N", 0.8 + 0.8**2 / 2 / (1 - 0.8), ""),
    ("geo", "N", 0.3 * (1 - 0.3) / (0.5 - 0.3), ""),
    ("repair", "DOWN", down(5, 100 / 400), ""),
    ("loss", "BUSY", 3 * (1 - lost(5, 3)), ""),
    ("inventory", "STOCK", in_stock(4, 12, 5), ""),
    ("inventory", "OWED", in_stock(4, 12, 5) - 8.5 + 5, ""),
]


@pytest.mark.parametrize("name, item, theory, words", CLASSICS)
def test_classics(name: str, item: str, theory: float, words: str, call: Program) -> None:
    """The average over twenty runs is what theory says, within four standard errors."""
    text = filled(example(name).decode())
    ticks = SLOTS if name == "geo" else TICKS
    answer = call(
        f"replicate --until {ticks} --seed 1 --events 1000000000 --runs {RUNS} {words}",
        text.encode(),
    )
    assert (answer.status, answer.errors) == (0, b"")
    found = averages(answer.output, item)
    assert len(found) == RUNS
    error = stdev(found) / math.sqrt(RUNS)
    assert error < 0.05 * theory
    assert abs(fmean(found) - theory) <= 4 * error


def test_tables_of_exponential_times() -> None:
    """The tables have the mean of the times to a tenth of a per cent, and their deviation to one."""
    for mean in (80, 100, 240, 300, 400):
        rows = re.findall(r"(\d+) : (\d+);", exponential_table(mean))
        times = [int(ticks) for ticks, weight in rows for _ in range(int(weight))]
        assert len(times) == CELLS and len(rows) <= CELLS
        assert abs(fmean(times) - mean) < 0.001 * mean
        assert abs(stdev(times) - mean) < 0.01 * mean
