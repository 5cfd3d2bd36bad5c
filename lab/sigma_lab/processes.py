"""Processes that the lab starts: they end with the work that they belong to."""

from __future__ import annotations

import os
import shutil
import subprocess
import threading
from collections.abc import Iterator, Sequence
from contextlib import contextmanager, suppress
from functools import cache
from pathlib import Path
from typing import Any

from .errors import NoProgram, ProgramError


class Processes:
    """Processes of one piece of work, which can be ended together."""

    def __init__(self) -> None:
        self._lock = threading.Lock()
        self._running: set[subprocess.Popen[bytes]] = set()
        self._parts: list[Processes] = []
        self._stopped = False

    def part(self) -> Processes:
        """Processes of a part of the work, which end with the whole."""
        made = Processes()
        with self._lock:
            made._stopped = self._stopped
            self._parts.append(made)
        return made

    def start(self, words: Sequence[str], **streams: Any) -> subprocess.Popen[bytes]:
        """Starts a process; none is started once all were ended."""
        with self._lock:
            if self._stopped:
                raise ProgramError("stopped")
            process = _start(words, **streams)
            self._running.add(process)
            return process

    def forget(self, process: subprocess.Popen[bytes]) -> None:
        """Takes a process that ended off the list."""
        with self._lock:
            self._running.discard(process)

    def end(self) -> None:
        """Ends all processes, and lets no other one start."""
        with self._lock:
            self._stopped = True
            for process in self._running:
                with suppress(OSError):
                    process.kill()
            parts = list(self._parts)
        for part in parts:
            part.end()


_of_thread = threading.local()


@contextmanager
def owned_by(processes: Processes) -> Iterator[None]:
    """Processes that this thread starts belong to `processes`."""
    before = getattr(_of_thread, "processes", None)
    _of_thread.processes = processes
    try:
        yield
    finally:
        _of_thread.processes = before


def part_of_thread() -> Processes:
    """Processes of a part of the work that this thread does."""
    whole: Processes | None = getattr(_of_thread, "processes", None)
    return Processes() if whole is None else whole.part()


@cache
def _lead() -> tuple[str, ...]:
    """Words that end the program when the thread that started it ends, even by SIGKILL."""
    found = shutil.which("setpriv")
    return (found, "--pdeathsig", "KILL", "--") if found else ()


def is_program(path: Path) -> bool:
    """Whether a path names a file that may be started."""
    return path.is_file() and os.access(path, os.X_OK)


def _start(words: Sequence[str], **streams: Any) -> subprocess.Popen[bytes]:
    if not is_program(Path(words[0])):
        raise NoProgram(f"{words[0]} can't be started: it is no program")
    try:
        return subprocess.Popen([*_lead(), *words], **streams)
    except OSError as error:
        raise NoProgram(f"{words[0]} can't be started: {error.strerror}") from None


@contextmanager
def running(words: Sequence[str], **streams: Any) -> Iterator[subprocess.Popen[bytes]]:
    """A process that is ended when the block is left, however it is left.

    Parameters
    ----------
    words : sequence of str
        The program's path and its words.
    **streams
        As of `subprocess.Popen`.
    """
    processes: Processes = getattr(_of_thread, "processes", None) or Processes()
    process = processes.start(words, **streams)
    try:
        yield process
    finally:
        if process.poll() is None:
            process.kill()
        process.wait()
        processes.forget(process)
        for end in (process.stdin, process.stdout, process.stderr):
            if end is not None:
                with suppress(OSError):
                    end.close()
