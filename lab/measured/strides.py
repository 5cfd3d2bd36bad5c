"""How often intervals of 95 per cent hold for runs whose seeds are a stride apart.

    python3 lab/measured/strides.py [--series N] [STRIDE ..]

A run's number is the sum of draws, some of each of its streams, and a series of runs has Student's interval.  Without a
STRIDE each series has its own, as in the lab; with some, all series have the same one.
"""

from __future__ import annotations

import argparse
import sys
from collections.abc import Iterable, Iterator
from pathlib import Path

import numpy as np
from numpy.typing import NDArray
from scipy import stats as ss

sys.path.insert(0, str(Path(__file__).resolve().parents[1]))

from laws import Floats  # noqa: E402
from rows import Row, keep, row  # noqa: E402

from sigma_lab import seeds  # noqa: E402

Words = NDArray[np.uint64]

SERIES = 5000
STREAMS = (1, 2, 5, 10, 20, 64)
RUNS = (5, 10, 20, 100, 1000)
DRAWS = (1, 2)
VALUES = 1000  # a draw is from 0 to 999

_FACTOR = np.uint64(6364136223846793005)  # of PCG32's generator


def words(seed: Words, stream: int, count: int) -> Iterator[Words]:
    """The first words of a stream, for each of some seeds: PCG32 (O'Neill 2014), as the program has it."""
    step = np.uint64(2 * stream + 1)
    state = (seed + step) * _FACTOR + step
    for _ in range(count):
        mixed = ((state >> np.uint64(18)) ^ state) >> np.uint64(27) & np.uint64(2**32 - 1)
        turn = state >> np.uint64(59)
        yield (mixed >> turn | mixed << (np.uint64(32) - turn)) & np.uint64(2**32 - 1)
        state = state * _FACTOR + step


def draws(seed: Words, stream: int, count: int) -> Iterator[Floats]:
    """The first draws of a stream from 0 to 999, for each of some seeds."""
    for word in words(seed, stream, count):
        yield (word * np.uint64(VALUES) >> np.uint64(32)).astype(float)


def sums(seed: Words, streams: tuple[int, ...], count: int) -> dict[int, Floats]:
    """The sum of the first draws of the first streams, for each number of streams."""
    total = np.zeros(seed.shape)
    made: dict[int, Floats] = {}
    for stream in range(max(streams)):
        for each in draws(seed, stream, count):
            total += each
        if stream + 1 in streams:
            made[stream + 1] = total.copy()
    return made


def seeds_of(strides: Iterable[int], runs: int) -> Words:
    """The seeds of series 0, 1, .. with these strides: a row for each, a column for each run."""
    apart = np.array(list(strides), dtype=np.uint64)
    first = np.array([seeds.spawn(number) for number in range(len(apart))], dtype=np.uint64)
    return first[:, None] + np.arange(runs, dtype=np.uint64) * apart[:, None]


def independent(series: int, runs: int) -> Words:
    """Seeds that share nothing, to compare with."""
    generator = np.random.default_rng(1)
    return generator.integers(0, 2**64, (series, runs), dtype=np.uint64)


def excess(numbers: Floats, variance: float) -> float:
    """The variance of the means of series, by that of means of independent runs with this variance."""
    truth = numbers.shape[1] / variance
    return float(numbers.mean(axis=1).var() * truth)


def holds(numbers: Floats, truth: float) -> NDArray[np.bool_]:
    """Which series have Student's intervals that hold the truth."""
    runs = numbers.shape[1]
    half = ss.t.ppf(0.975, runs - 1) * numbers.std(axis=1, ddof=1) / np.sqrt(runs)
    made: NDArray[np.bool_] = abs(numbers.mean(axis=1) - truth) <= half
    return made


def measured(name: str, seed: Words) -> list[Row]:
    """A row for each number of draws, streams and runs."""
    rows = []
    for count in DRAWS:
        for streams, numbers in sums(seed, STREAMS, count).items():
            terms = streams * count
            truth, variance = terms * (VALUES - 1) / 2, terms * (VALUES**2 - 1) / 12
            law = f"{streams} streams, {count} draws each"
            for runs in RUNS:
                here = numbers[:, :runs]
                note = f"variance {excess(here, variance):.2f}"
                rows.append(row(name, law, runs, 95, holds(here, truth), note))
    return rows


def main() -> None:
    """Measures what the words ask for, and keeps it."""
    parser = argparse.ArgumentParser(description="How often intervals of runs hold, by stride.")
    add = parser.add_argument
    add("--series", type=int, default=SERIES, help=f"how many series ({SERIES})")
    add("strides", nargs="*", type=lambda word: int(word, 0), metavar="STRIDE")
    asked = parser.parse_args()
    for stride in asked.strides:
        same = [stride] * asked.series
        keep("strides", measured(f"{stride:#018x}", seeds_of(same, max(RUNS))))
    if not asked.strides:
        own = map(seeds.stride, range(asked.series))
        keep("strides", measured("its own", seeds_of(own, max(RUNS))))
        keep("strides", measured("independent", independent(asked.series, max(RUNS))))


if __name__ == "__main__":
    main()
