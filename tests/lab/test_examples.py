"""The programs of `examples`: theory's formulas in cases that have other names too, and runs beside theory."""

from __future__ import annotations

import math
import subprocess
import sys

import pytest
from lab import EXAMPLES, environment

sys.path.insert(0, str(EXAMPLES))

import theory  # noqa: E402


def printed(program: str, *words: str) -> list[list[str]]:
    """The rows that a program prints."""
    made = subprocess.run(
        [sys.executable, str(EXAMPLES / program), *words],
        env=environment(),
        capture_output=True,
        text=True,
    )
    assert made.returncode == 0, made.stderr
    return [line.split() for line in made.stdout.splitlines()]


def test_classics_are_close_to_theory() -> None:
    _, *rows = printed("classics.py", "1000000", "20")
    assert len(rows) == 8
    assert max(float(row[-1]) for row in rows) <= 4


def test_patterns_are_close_to_theory() -> None:
    _, *rows = printed("patterns/measured.py", "600000", "20")
    assert len(rows) == 21
    assert max(float(row[-1]) for row in rows) <= 4


def test_erlang() -> None:
    """Of 5 lines and 3 erlangs 11.01 per cent are lost, by the tables of Erlang's B."""
    assert theory.lost(5, 3) == pytest.approx(0.1101, abs=5e-5)
    assert theory.delayed(1, 0.8) == pytest.approx(0.8)
    assert theory.waiting(1, 0.8) == pytest.approx(0.8**2 / 0.2)


def test_one_server() -> None:
    assert theory.waiting_general(0.01, 80, 2 * 80**2) == pytest.approx(theory.waiting(1, 0.8))
    assert theory.waiting_batches(1, 0.01, 80) == pytest.approx(theory.waiting(1, 0.8))
    assert theory.waiting_or_leaving(1, 0.01, 50, 1e9) == pytest.approx(theory.waiting(1, 0.5))
    # With little work the order of jobs hardly matters.
    little = theory.waiting_shortest(0.0001, 80)
    assert little == pytest.approx(theory.waiting(1, 0.008), rel=0.02)
    assert theory.waiting_shortest(0.01, 80) < theory.waiting(1, 0.8)


def test_two_classes() -> None:
    """Kleinrock's law: the work that waits doesn't depend on the order. Who isn't interrupted, is as alone."""
    two = theory.TwoClasses((1 / 250, 1 / 200), (60, 100), (7200, 10_000))
    work = sum(two.waiting(kind) * two.means[kind] for kind in (0, 1))
    load = 60 / 250 + 100 / 200
    assert work == pytest.approx(load * two.left / (1 - load))
    alone = theory.TwoClasses((1e-12, 1 / 200), (60, 100), (7200, 20_000))
    assert alone.interrupted() == pytest.approx(0.5 / (1 - 0.5))


def test_chains() -> None:
    """M/M/2 as a chain; what can't be told apart is one queue."""

    def ways(there: int):  # type: ignore[no-untyped-def]
        if there < 300:
            yield there + 1, 0.01
        if there:
            yield there - 1, min(there, 2) / 160

    shares = theory.solve(0, ways)
    assert math.fsum(shares.values()) == pytest.approx(1)
    queue = sum(share * max(there - 2, 0) for there, share in shares.items())
    assert queue == pytest.approx(theory.waiting(2, 1.6))
    first, second = theory.waiting_skills((1 / 200, 1 / 200), 120)
    assert first == pytest.approx(second, rel=0.1)
    assert first + second > theory.waiting(3, 1.2)


def test_machines_and_stocks() -> None:
    assert theory.down(1, 0.25) == pytest.approx(0.2)
    assert theory.in_stock(4, 12, 0) == pytest.approx(8.5)
    assert theory.owed(4, 12, 0) == pytest.approx(0)
    assert theory.pieces(100, 80, 1000) == pytest.approx(1 / 100)
    # One order at a time takes as long as the longer of its two parts.
    assert theory.orders_split(1e-7, 60) == pytest.approx(1e-7 * 90, rel=1e-4)


def test_shifts() -> None:
    """Shifts that are far longer than the queue's memory are M/M/3 and M/M/2 in turn."""
    queue, waits = theory.over_shifts(0.01, 160, 1e6, most=120)
    assert queue == pytest.approx((theory.waiting(3, 1.6) + theory.waiting(2, 1.6)) / 2, rel=3e-3)
    assert waits == pytest.approx(0.01 * 1e6 * theory.delayed(2, 1.6), rel=3e-3)


def test_a_crew() -> None:
    """A crew of two with a job that never waits: half of the work is that of both."""
    assert theory.waiting_together(1e-6, 80) < 1e-6
    assert theory.waiting_together(0.01, 80) > theory.waiting(2, 0.8)
