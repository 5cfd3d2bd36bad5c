"""Sharing work out: threads that wait for the program, or a dask client's workers; progress; stopping.

A piece of work is made of tasks `task(lot)`.  What comes of them is in the order of the lots, however they are shared
out.
"""

from __future__ import annotations

import os
import sys
import threading
import time
from collections.abc import Callable, Iterator, Sequence
from concurrent.futures import FIRST_EXCEPTION, Future, ThreadPoolExecutor, wait
from contextlib import contextmanager
from typing import Any, Generic, TypeVar

from . import processes
from .errors import InputError, Stopped
from .plan import Plan

Lot = TypeVar("Lot")
Made = TypeVar("Made")
Advance = Callable[[int], None]

_SECONDS = 0.4
"""How long a lot of runs takes, about: short enough to show progress."""
_LEAST_SECONDS = 0.03
"""How long a lot takes at least, about, so that starting a process costs little beside it."""
_MOST_OF_CALL = 65536
_LOTS_OF_WORKER = 8


def default_workers() -> int:
    """How many processes run at once: SIGMA_LAB_WORKERS, or as many as there are processors."""
    named = os.environ.get("SIGMA_LAB_WORKERS", "")
    if named and not named.isdecimal():
        raise InputError(f"SIGMA_LAB_WORKERS is a whole number: {named}")
    return max(1, int(named or "0") or len(os.sched_getaffinity(0)))


def workers_of(plan: Plan) -> int:
    """How many lots are worked on at once by a plan's workers or client."""
    if plan.client is not None:
        return max(1, int(sum(plan.client.nthreads().values())))
    return plan.workers or default_workers()


@contextmanager
def bar(title: str, total: int) -> Iterator[Advance]:
    """A bar on the error output, where that is a terminal and the title isn't empty; else nothing.

    It yields a function that takes by how much the work has grown.
    """
    if not title or not sys.stderr.isatty():
        yield lambda done: None
        return
    from rich.console import Console
    from rich.progress import BarColumn, Progress, TextColumn, TimeRemainingColumn

    columns = (
        TextColumn("{task.description}"),
        BarColumn(),
        TextColumn("{task.completed} of {task.total}"),
        TimeRemainingColumn(),
    )
    with Progress(*columns, console=Console(stderr=True), transient=True) as shown:
        number = shown.add_task(title, total=total)
        yield lambda done: shown.advance(number, done)


def shared_out(
    task: Callable[[Lot], Made], lots: Sequence[Lot], plan: Plan, *, progress: str = ""
) -> list[Made]:
    """`task` of each lot, in order, by the plan's workers or client.

    Parameters
    ----------
    task : callable
        It is sent to other processes where the plan has a client, so it must be picklable there.
    lots : sequence
        What `task` takes, one after the other.
    plan : Plan
        Its `workers` and `client` are used.
    progress : str
        The title of a bar.

    Raises
    ------
    Stopped
        If a person stops it.  All processes that it started are ended before.
    """
    if plan.client is not None:
        return _by_client(task, lots, plan.client, progress)
    with bar(progress, len(lots)) as advance:
        queue = _Given(list(lots))
        return [made for _, made in _by_threads(task, queue, workers_of(plan), advance)]


def runs_shared_out(
    task: Callable[[tuple[int, int]], Made], runs: int, plan: Plan, *, progress: str = ""
) -> tuple[list[Made], Stopped | None]:
    """`task` of lots of neighbouring runs, each given by its first run, from 0, and its number of runs.

    Returns
    -------
    list
        What was made, in the order of the runs.
    Stopped or None
        What stopped it.  The runs that were made are then the first ones, without a gap.
    """
    if plan.client is not None:
        size = min(_MOST_OF_CALL, -(-runs // (_LOTS_OF_WORKER * workers_of(plan))))
        lots = [(at, min(size, runs - at)) for at in range(0, runs, size)]
        return _by_client(task, lots, plan.client, progress), None
    workers = min(runs, workers_of(plan))
    with bar(progress, runs) as advance:
        lots_of = _Growing(runs, workers)
        made: list[tuple[int, Made]] = []
        try:
            made = _by_threads(task, lots_of, workers, advance)
        except Stopped as stopped:
            return _front(stopped.report), stopped
        return [each for _, each in made], None


def _front(made: list[tuple[int, tuple[int, Any]]] | None) -> list[Any]:
    """What was made of the first lots, up to the first gap."""
    return [each for number, (at, each) in enumerate(made or []) if number == at]


class _Given(Generic[Lot]):
    """Lots that are given beforehand."""

    def __init__(self, lots: list[Lot]) -> None:
        self._lots, self._at, self._lock = lots, 0, threading.Lock()

    def take(self) -> tuple[int, Lot, int] | None:
        """The number of the next lot, the lot, and how large it is."""
        with self._lock:
            if self._at >= len(self._lots):
                return None
            self._at += 1
            return self._at - 1, self._lots[self._at - 1], 1

    def took(self, size: int, seconds: float) -> None:
        """Learns how long a lot took."""


class _Growing:
    """Lots of neighbouring runs, whose size grows with what was learnt about how long a run takes."""

    def __init__(self, runs: int, workers: int) -> None:
        self._runs, self._workers = runs, workers
        self._at, self._number, self._rate = 0, 0, 0.0
        self._lock = threading.Lock()

    def take(self) -> tuple[int, tuple[int, int], int] | None:
        """The number of the next lot, its first run and its runs, and its runs again."""
        with self._lock:
            left = self._runs - self._at
            if left <= 0:
                return None
            even = -(-left // (2 * self._workers))
            wanted = float(min(even, 4))
            if self._rate:
                wanted = max(min(even, self._rate * _SECONDS), self._rate * _LEAST_SECONDS)
            size = int(min(max(1, wanted), left, _MOST_OF_CALL))
            lot = self._number, (self._at, size), size
            self._at += size
            self._number += 1
            return lot

    def took(self, size: int, seconds: float) -> None:
        """Learns how long a lot took."""
        with self._lock:
            self._rate = size / max(seconds, 1e-6)


def _by_threads(
    task: Callable[[Any], Made], lots: Any, workers: int, advance: Advance
) -> list[tuple[int, Made]]:
    """What is made of all lots, with their numbers, in order.  Raises Stopped with what was made before."""
    made: list[tuple[int, Made]] = []
    group = processes.part_of_thread()
    halted = threading.Event()

    def work() -> None:
        with processes.owned_by(group):
            while not halted.is_set() and (taken := lots.take()) is not None:
                number, lot, size = taken
                began = time.monotonic()
                made.append((number, task(lot)))
                lots.took(size, time.monotonic() - began)
                advance(size)

    pool = ThreadPoolExecutor(workers)
    working: list[Future[None]] = []
    try:
        working = [pool.submit(work) for _ in range(workers)]
        ended = wait(working, return_when=FIRST_EXCEPTION).done
        for each in ended:
            each.result()
    except BaseException as error:
        halted.set()
        group.end()
        pool.shutdown(wait=True, cancel_futures=True)
        if isinstance(error, KeyboardInterrupt):
            raise _stopped(error, _in_order(made)) from None
        raise
    pool.shutdown()
    return _in_order(made)


def _in_order(made: list[tuple[int, Made]]) -> list[tuple[int, Made]]:
    return sorted(made, key=lambda pair: pair[0])


def _stopped(error: KeyboardInterrupt, made: Any) -> Stopped:
    return Stopped(str(error) or "stopped", made, int(getattr(error, "number", 2)))


class _Elsewhere(Generic[Lot, Made]):
    """A task on a worker of dask, which checks that the worker has the same program."""

    def __init__(self, task: Callable[[Lot], Made], program: str) -> None:
        self._task, self._program = task, program

    def __call__(self, lot: Lot) -> Made:
        from . import program

        here = program.checksum()
        if here != self._program:
            raise InputError(
                f"the worker's program is another one ({here[:12]}) than that of the caller ({self._program[:12]})"
            )
        return self._task(lot)


def _by_client(
    task: Callable[[Lot], Made], lots: Sequence[Lot], client: Any, progress: str
) -> list[Made]:
    """What a dask client's workers make.  A lot of a worker that dies is made anew by another one."""
    from . import program

    futures = client.map(_Elsewhere(task, program.checksum()), list(lots), pure=False)
    try:
        with bar(progress, len(lots)) as advance:
            made = []
            for future in futures:
                made.append(future.result())
                advance(1)
            return made
    except BaseException as error:
        client.cancel(futures)
        if isinstance(error, KeyboardInterrupt):
            raise _stopped(error, None) from None
        raise
