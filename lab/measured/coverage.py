"""How often intervals of 95 per cent hold.

    python3 lab/measured/coverage.py

Each law has mean 1, so the truth is known; of queues it is that of M/M/1.
"""

from __future__ import annotations

import math
import sys
from collections.abc import Callable
from pathlib import Path
from typing import Any

import numpy as np
from scipy import signal, stats as ss

sys.path.insert(0, str(Path(__file__).resolve().parents[1]))

from laws import LAWS, Floats, Generator, Law  # noqa: E402
from rows import Row, keep, row  # noqa: E402

from sigma_lab import clusters, stats  # noqa: E402
from sigma_lab.errors import NoEstimate  # noqa: E402
from sigma_lab.estimates import Estimate  # noqa: E402
from sigma_lab.observations import Observations  # noqa: E402

SERIES = 1000


def holds(made: Estimate, truth: float) -> bool:
    """Whether the interval has the truth; a missing end is no limit."""
    return not (made.low > truth or made.high < truth)


def means(law: Law, runs: int) -> list[Row]:
    """Willink's interval, which is the default, and Student's t."""
    made = []
    for method in ("auto", "t"):
        hits = []
        for series in range(SERIES):
            values = law.draw(np.random.default_rng(series), runs)
            bounds = (law.least, law.greatest)
            here = stats.mean(values, method=method, bounds=bounds)  # type: ignore[arg-type]
            hits.append(holds(here, 1.0))
        name = "mean" if method == "auto" else "mean, method t"
        made.append(row(name, law.name, runs, 95, hits))
    return made


def quantiles(law: Law, p: float, runs: int) -> Row:
    """A quantile of single runs."""
    draws = law.draw(np.random.default_rng(10**6), 2_000_000)
    truth = float(np.quantile(draws, p, method="inverted_cdf"))
    made = [
        stats.quantile(law.draw(np.random.default_rng(series), runs), p) for series in range(SERIES)
    ]
    open_ends = 100 * np.mean([math.isnan(each.high) for each in made])
    note = f"no upper end in {open_ends:.0f} %" if open_ends else ""
    hits = [holds(each, truth) for each in made]
    return row(f"quantile {p:g} of runs", law.name, runs, 95, hits, note)


def predictions(law: Law, runs: int) -> Row:
    """Where one further run lies."""
    hits = []
    for series in range(SERIES):
        values = law.draw(np.random.default_rng(series), runs + 1)
        hits.append(holds(stats.prediction(values[:-1]), float(values[-1])))
    return row("one further run", law.name, runs, 95, hits)


def shares(runs: int) -> Row:
    """A share of runs."""
    hits = [
        holds(stats.mean(np.random.default_rng(series).binomial(1, 0.05, runs)), 0.05)
        for series in range(SERIES)
    ]
    return row("share of runs", "1 on 5 % of runs", runs, 95, hits)


def ratios(runs: int) -> Row:
    """A ratio of totals: waiting of clustered customers."""
    hits = []
    for series in range(SERIES):
        generator = np.random.default_rng(series)
        below = generator.poisson(generator.gamma(4, 10, runs)) + 1
        above = below * generator.gamma(2, 0.5, runs) * (below / 41)
        hits.append(holds(stats.ratio(above, below), RATIO))
    return row("ratio of totals", "clustered customers", runs, 95, hits)


def _ratio_truth() -> float:
    generator = np.random.default_rng(10**6)
    below = generator.poisson(generator.gamma(4, 10, 4_000_000)) + 1.0
    return float((below * below / 41).sum() / below.sum())


RATIO = _ratio_truth()


def differences(law: Law, runs: int) -> list[Row]:
    """The second design has 1 more on average, under common random numbers and without."""
    hits: dict[bool, list[bool]] = {True: [], False: []}
    for series in range(SERIES // 2):
        generator = np.random.default_rng(series)
        common, first, second = (law.draw(generator, runs) for _ in range(3))
        a, b = common + first, common + second + 1
        hits[True].append(holds(stats.paired_difference(a, b), 1.0))
        other = law.draw(generator, runs) + second + 1
        hits[False].append(holds(stats.welch_difference(a, other), 1.0))
    return [
        row("difference, same seeds", law.name, runs, 95, hits[True]),
        row("difference, independent", law.name, runs, 95, hits[False]),
    ]


def best_of_five(law: Law, runs: int) -> Row:
    """Multiple comparisons with the best: all five intervals together."""
    means_of = np.array([0.0, 0.2, 0.2, 0.5, 1.0])
    truth = np.array([np.delete(means_of, k).min() - means_of[k] for k in range(5)])
    hits = []
    for series in range(SERIES // 10):
        generator = np.random.default_rng(series)
        common = law.draw(generator, runs)
        designs = {str(k): common + law.draw(generator, runs) + m for k, m in enumerate(means_of)}
        made = stats.mcb(designs)
        hits.append(bool(((made["low"] <= truth) & (truth <= made["high"])).all()))
    return row("best of 5, all together", law.name, runs, 95, hits)


def queue(generator: Generator, runs: int, customers: int, load: float = 0.8) -> Floats:
    """Waits in M/M/1 from an empty system on, a run in each row (Lindley)."""
    gaps = generator.exponential(1, (runs, customers))
    services = generator.exponential(load, (runs, customers))
    wait, out = np.zeros(runs), np.empty((runs, customers))
    for k in range(customers):
        out[:, k] = wait
        wait = np.maximum(0.0, wait + services[:, k] - gaps[:, k])
    return out


def at_events(runs: int) -> list[Row]:
    """Values at events, in runs of 500 customers of M/M/1 with load 0.8."""
    truth = queue(np.random.default_rng(10**6), 10_000, 500).ravel()
    seed, size = np.arange(runs, dtype=np.uint64), 500
    wanted: dict[str, tuple[Callable[[Observations], Estimate], float]] = {
        "mean at an event": (clusters.mean, float(truth.mean())),
        "share at an event": (lambda o: clusters.share_at_most(o, 4), float((truth <= 4).mean())),
    }
    for p in (0.5, 0.9, 0.99):
        at = float(np.quantile(truth, p, method="inverted_cdf"))
        wanted[f"quantile {p:g} at an event"] = (lambda o, p=p: clusters.quantile(o, p), at)
    made: dict[str, list[Estimate]] = {name: [] for name in wanted}
    for series in range(SERIES // 5):
        waits = queue(np.random.default_rng(series), runs, size).ravel()
        seen = Observations(np.repeat(np.arange(runs), size), waits, seed)
        for name, (estimate, _) in wanted.items():
            made[name].append(estimate(seen))
    rows = []
    for name, estimates in made.items():
        open_ends = 100 * np.mean([math.isnan(each.high) for each in estimates])
        note = f"no upper end in {open_ends:.0f} %" if open_ends else ""
        hits = [holds(each, wanted[name][1]) for each in estimates]
        rows.append(row(name, "M/M/1, load 0.8", runs, 95, hits, note))
    return rows


def long_runs(correlation: float, length: int) -> list[Row]:
    """Batch means of one run of a series whose logarithm is autoregressive."""
    series = SERIES // 10
    wanted: dict[str, tuple[Callable[[Floats], Any], float]] = {
        "batch means": (lambda x: stats.batch_means(_areas(x), 0, len(x)), math.exp(0.125)),
        "batch quantile 0.9": (
            lambda x: stats.batch_quantile(x, 0.9),
            math.exp(0.5 * float(ss.norm.ppf(0.9))),
        ),
        "batch ratio": (
            lambda x: stats.batch_ratio(_areas(x * x), _areas(x), 0, len(x)),
            math.exp(0.5) / math.exp(0.125),
        ),
    }
    rows = []
    for name, (estimate, truth) in wanted.items():
        hits = []
        for k in range(series):
            noise = np.random.default_rng(k).normal(size=length)
            noise[1:] *= math.sqrt(1 - correlation**2)
            values = np.exp(0.5 * signal.lfilter([1], [1, -correlation], noise))
            try:
                hits.append(holds(estimate(values).estimate, truth))
            except NoEstimate:
                continue
        note = f"answered in {100 * len(hits) / series:.0f} %"
        law = f"AR(1), {correlation:g}, lognormal"
        rows.append(row(name, law, f"1 of {length}", 95, hits or [False], note))
    return rows


def _areas(values: Floats) -> Callable[[Any], Any]:
    sums = np.concatenate([[0.0], np.cumsum(values)])
    return lambda edges: np.diff(sums[np.asarray(edges)])


def main() -> None:
    """Measures all of it, and keeps it."""
    rows: list[Row] = [shares(20), *at_events(20), *at_events(50)]
    rows += long_runs(0.9, 40_000) + long_runs(0.98, 200_000)
    for law, sizes in zip(LAWS, ((5, 10, 50), (5, 10, 50), (10, 50, 200), (50, 100, 200))):
        for runs in sizes:
            rows += means(law, runs)
    rows += [ratios(runs) for runs in (10, 50)]
    rows += [quantiles(LAWS[1], p, 100) for p in (0.5, 0.9, 0.99)]
    rows += [predictions(law, runs) for law in LAWS[:2] for runs in (20, 100)]
    for law in LAWS[:3]:
        rows += differences(law, 50)
    rows.append(best_of_five(LAWS[0], 30))
    keep("coverage", rows)


if __name__ == "__main__":
    main()
