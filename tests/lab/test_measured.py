"""What was measured of intervals and decisions, and the page that shows it."""

from __future__ import annotations

import subprocess
import sys

import numpy as np
import pytest
from lab import TOP

from sigma_lab import program, seeds

MEASURED = TOP / "lab" / "measured"
sys.path.insert(0, str(MEASURED))

import statistics_page as page  # noqa: E402
import rows  # noqa: E402
import strides  # noqa: E402


def test_the_page_has_what_was_measured():
    text = page.PAGE.read_text(encoding="utf-8")
    assert page.filled(text) == text, "run lab/measured/statistics_page.py"


def test_no_decision_that_is_promised_at_5_is_above_7():
    seen = [*rows.kept("decisions"), *rows.kept("precision")]
    assert {row["law"] for row in seen} == set(page.LAWS)
    wrong = [row for row in seen if float(row["share"]) > 7]
    assert not wrong


def test_no_default_holds_below_92_at_its_fewest_runs():
    rows_of = [row for row in rows.kept("coverage") if page.is_enough(row)]
    assert len({row["method"] for row in rows_of}) > 10
    assert not [row for row in rows_of if float(row["share"]) < 92]


def test_strides_of_their_own_hold_as_independent_seeds_do():
    """With one stride for all series, 20 runs of 20 streams hold in 88 or in 97 % of series."""
    seen = rows.kept("strides")
    shares = {(row["method"], row["law"], row["runs"]): float(row["share"]) for row in seen}
    own = {key[1:]: share for key, share in shares.items() if key[0] == "its own"}
    assert len(own) == len(strides.STREAMS) * len(strides.RUNS) * len(strides.DRAWS)
    for key, share in own.items():
        assert share > max(92, shares["independent", *key] - 2), key
    assert shares["0x9e3779b97f4a7c15", "20 streams, 1 draws each", "20"] < 90


def test_a_fixed_stride_is_told_from_strides_of_their_own():
    """The measure itself, of fewer series."""
    series, runs, streams = 1000, 20, 20
    own = strides.seeds_of(map(seeds.stride, range(series)), runs)
    fixed = strides.seeds_of([0x9E3779B97F4A7C15] * series, runs)
    variance = streams * (strides.VALUES**2 - 1) / 12
    seen = [
        strides.excess(strides.sums(each, (streams,), 1)[streams], variance)
        for each in (own, fixed)
    ]
    assert seen[0] < 1.15 < 1.35 < seen[1]


def test_the_words_of_strides_are_the_draws_of_the_program():
    text = "".join(f"var A{k} : 0..999 = 0; " for k in range(8))
    draws = " ".join(f"draw A{k} from {9 * k} in 0..999;" for k in range(8))
    watched = ", ".join(f"A{k}" for k in range(8))
    model = f"version 2; model P; {text} watch {watched}; vertex GO {{ {draws} schedule GO after 1; }} end\n"
    for seed in (0, 1, seeds.spawn(5), 2**64 - 1):
        words = ["run", "--until=2", "--events=9", f"--seed={seed}"]
        lines = program.call(words, model).decode().splitlines()[:3]
        shown = [[int(part.partition("=")[2]) for part in line.split()[2:]] for line in lines]
        made = [
            [int(each[0]) for each in strides.draws(np.array([seed], dtype=np.uint64), 9 * k, 3)]
            for k in range(8)
        ]
        assert shown == [list(each) for each in zip(*made)]


@pytest.mark.parametrize("script", ["coverage", "decisions", "precision", "strides"])
def test_the_scripts_are_whole(script):
    """They load, and have all that they name; that they can be repeated takes half an hour."""
    made = subprocess.run(
        [sys.executable, "-c", f"import {script}; {script}.main"], cwd=MEASURED, capture_output=True
    )
    assert made.returncode == 0, made.stderr.decode()
