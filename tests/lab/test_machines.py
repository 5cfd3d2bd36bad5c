"""Runs on many machines: a dask client's workers, workers that die, other programs, parts of a cluster's tasks."""

from __future__ import annotations

import os
import shutil
import signal
import threading
import time
from collections.abc import Iterator
from pathlib import Path
from typing import Any

import distributed
import pytest
from lab import EXAMPLES, PACKAGE, command, environment, example, wait_for

from sigma_lab import program
from sigma_lab.errors import InputError
from sigma_lab.plan import Plan
from sigma_lab.replication import observe, replicate

BANK = example("bank")


Client = Any


@pytest.fixture(scope="module")
def client() -> Iterator[Client]:
    """Two workers, each a process of its own."""
    os.environ["PYTHONPATH"] = str(PACKAGE)
    begin: Any = distributed
    with begin.LocalCluster(
        n_workers=2, threads_per_worker=1, processes=True, dashboard_address=None
    ) as cluster, begin.Client(cluster) as made:
        yield made


def pids(client: Client) -> list[int]:
    return sorted(client.run(os.getpid).values())


def test_workers_make_the_bytes_of_this_machine(client: Client) -> None:
    plan = Plan(600, runs=60, warm_up=30)
    here = replicate(BANK, plan).to_csv(with_provenance=True)
    assert replicate(BANK, plan.change(client=client)).to_csv(with_provenance=True) == here


def test_values_at_events_come_from_workers(client: Client) -> None:
    plan = Plan(600, runs=8)
    here = observe(BANK, "CLOSE", "QUEUE", plan)
    there = observe(BANK, "CLOSE", "QUEUE", plan.change(client=client))
    assert there.value.tolist() == here.value.tolist()


def test_lots_follow_the_clients_workers(client: Client) -> None:
    from sigma_lab.execution import workers_of

    assert workers_of(Plan(5, workers=7)) == 7
    assert workers_of(Plan(5, workers=7, client=client)) == 2


def test_a_worker_that_dies_loses_nothing(client: Client) -> None:
    plan = Plan(600, runs=40_000)
    victim = pids(client)[0]
    killed: list[float] = []

    def kill() -> None:
        time.sleep(1.0)
        os.kill(victim, signal.SIGKILL)
        killed.append(time.monotonic())

    killer = threading.Thread(target=kill)
    killer.start()
    there = replicate(BANK, plan.change(client=client))
    finished = time.monotonic()
    killer.join()
    assert killed[0] < finished, "the runs were made before the worker was killed"
    assert len(there) == plan.runs
    assert there.to_csv(with_provenance=True) == replicate(BANK, plan).to_csv(with_provenance=True)
    client.wait_for_workers(2, timeout=60)
    wait_for(lambda: not Path(f"/proc/{victim}").exists())


def test_a_worker_with_another_program_is_refused(client: Client, tmp_path: Path) -> None:
    other = tmp_path / "sigma"
    shutil.copy(program.find(), other)
    with open(other, "ab") as file:
        file.write(b"\n")
    mine = os.environ["SIGMA"]
    os.environ["SIGMA"] = str(other)
    try:
        with pytest.raises(InputError, match="program is another one"):
            replicate(BANK, Plan(600, runs=4, client=client))
    finally:
        os.environ["SIGMA"] = mine


def test_errors_of_the_program_come_back(client: Client) -> None:
    with pytest.raises(program.Refused) as error:
        replicate(BANK.replace("IDLE : 0..2", "IDLE : bool"), Plan(5, runs=2, client=client))
    assert error.value.line == 8
    with pytest.raises(program.BadStart):
        replicate(BANK, Plan(5, runs=2, start=(1,), client=client))


def test_the_command_uses_a_scheduler(client: Client, tmp_path: Path) -> None:
    address: Any = client.scheduler_info()["address"]
    words = ["replicate", EXAMPLES / "bank.sigma", "--until", 600, "--runs", 40]
    here = command(*words)
    there = command(*words, "--dask", address)
    assert there.returncode == 0, there.stderr
    assert there.stdout == here.stdout and here.stdout.count(b"\n") == 125


def test_tasks_of_a_cluster_make_parts(tmp_path: Path) -> None:
    """As tasks of a Slurm array do, each of which knows its number alone."""
    words = ["replicate", EXAMPLES / "bank.sigma", "--until", 600, "--runs", 50, "--workers", 1]
    for task in (3, 1, 4, 2):
        made = command(*words, "--part", f"{task}/4", "--keep", tmp_path / f"part{task}.csv")
        assert made.returncode == 0, made.stderr
    joined = command("join", *sorted(tmp_path.iterdir()), env=environment())
    assert joined.stdout == command(*words).stdout
    # A part that is missing shows: run numbers of the series aren't one row any more.
    few = command("join", tmp_path / "part1.csv", tmp_path / "part3.csv")
    assert few.returncode == 0 and b'"first_run":null' in few.stdout.splitlines()[0]
