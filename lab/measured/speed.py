"""How long the lab takes: runs shared out, reports and histories read, commands started.

    SIGMA=.. /usr/bin/python3 lab/measured/speed.py

Seconds of the clock, the least of three. Run it on a machine that does nothing else.
"""

from __future__ import annotations

import os
import subprocess
import sys
import tempfile
import time
from collections.abc import Callable
from pathlib import Path

TOP = Path(__file__).resolve().parents[2]
sys.path.insert(0, str(TOP / "lab"))

from sigma_lab import program  # noqa: E402
from sigma_lab.history import History  # noqa: E402
from sigma_lab.plan import Plan  # noqa: E402
from sigma_lab.replication import replicate  # noqa: E402
from sigma_lab.report import Report  # noqa: E402

BANK = (TOP / "examples" / "bank.sigma").read_text()
RUNS, NOTES = 10_000, 200_000


def least(work: Callable[[], object]) -> float:
    """The least of three times, in seconds."""
    times = []
    for _ in range(3):
        began = time.perf_counter()
        work()
        times.append(time.perf_counter() - began)
    return min(times)


def command(*words: object) -> None:
    """A process of `sigma-lab`."""
    line = [str(TOP / "lab" / "sigma-lab"), *map(str, words)]
    made = subprocess.run(line, env=os.environ, capture_output=True)
    assert made.returncode in (0, 1), made.stderr


def main() -> None:
    """Prints a line for each."""
    words = ["replicate", "--until=600", "--events=100000", "--seed=1", f"--runs={RUNS}"]
    one = least(lambda: program.call(words, BANK))
    print(f"{RUNS} runs in one call of the program: {one:.2f} s")
    for workers in (1, 2, 4):
        here = least(lambda: replicate(BANK, Plan(600, runs=RUNS, workers=workers)))
        print(f"the same by the lab with {workers} workers: {here:.2f} s, {here / one:.2f} times")
    with tempfile.TemporaryDirectory() as folder:
        report, wrong = Path(folder) / "report.csv", Path(folder) / "wrong.sigma"
        report.write_bytes(program.call(words, BANK))
        wrong.write_text("model X; foo\n")
        print(f"reading {RUNS} runs: {least(lambda: Report.read(report)):.2f} s")
        print(
            f"sigma-lab means of {RUNS} runs: {least(lambda: command('means', 'QUEUE.average', report)):.2f} s"
        )
        print(f"sigma-lab place: {least(lambda: command('place', wrong)):.2f} s")
        print(f"sigma-lab --version: {least(lambda: command('--version')):.2f} s")
    text = "".join(f"at {k} X={k % 7} Y=true\n" for k in range(NOTES)) + f"stopped {NOTES}\n"
    data = text.encode()
    blocks = [data[at : at + 2**18] for at in range(0, len(data), 2**18)]
    print(f"a history of {NOTES} notes: {least(lambda: History.of_blocks(blocks)):.2f} s")


if __name__ == "__main__":
    main()
