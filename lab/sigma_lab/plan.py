"""How runs are made: one `Plan` for every experiment."""

from __future__ import annotations

from collections.abc import Sequence
from dataclasses import KW_ONLY, dataclass, replace
from typing import Any, Literal

from . import seeds
from .errors import InputError

OnCut = Literal["raise", "keep"]

EVENTS = 10**7
"""The most events of a run where nobody says otherwise: what urgent events without end spend in a second."""


@dataclass(frozen=True)
class Plan:
    """How many runs are made, from which seed, and how long they are.

    Parameters
    ----------
    until : int
        The tick at which runs stop, 0 to 2^48.
    seed : int
        The seed of the series of runs.  Designs of one experiment have common runs; other seeds have other runs.
    runs : int
        How many runs, 1 to 10^7.
    warm_up : int
        Areas, counts and times are counted from this tick on.
    events : int
        The most events of a run, 1 to 2^40.  Urgent events without end are cut off by it.
    start : sequence of int
        The starting values: those of the first vertex's parameters.
    workers : int, optional
        How many processes run at once here; all processors if None.
    client : dask.distributed.Client, optional
        Runs are made by its workers, on other machines perhaps.
    timeout : float, optional
        Seconds that one call of the program may take.
    on_cut : {"raise", "keep"}
        Whether runs that fault or spend their budget are refused, or taken as they are.

    Raises
    ------
    InputError
        If a number is outside its limits.
    """

    until: int
    _: KW_ONLY
    seed: int = 1
    runs: int = 100
    warm_up: int = 0
    events: int = EVENTS
    start: Sequence[int] = ()
    workers: int | None = None
    client: Any = None
    timeout: float | None = None
    on_cut: OnCut = "raise"

    def __post_init__(self) -> None:
        for name, least, most in (
            ("until", 0, 2**48),
            ("runs", 1, seeds.MOST_RUNS),
            ("warm_up", 0, 2**48),
            ("events", 1, 2**40),
        ):
            object.__setattr__(self, name, whole(name, getattr(self, name), least, most))
        object.__setattr__(self, "seed", seeds.check(self.seed))
        values = tuple(
            whole("a starting value", value, -(2**63), 2**63 - 1) for value in self.start
        )
        object.__setattr__(self, "start", values)
        if self.workers is not None:
            object.__setattr__(self, "workers", whole("workers", self.workers, 1, 4096))
        if self.warm_up and self.warm_up >= self.until:
            raise InputError("a warm-up ends before the stop time")
        if self.timeout is not None and not self.timeout > 0:
            raise InputError(f"a timeout is above 0 seconds: {self.timeout}")
        if self.on_cut not in ("raise", "keep"):
            raise InputError(f"on_cut is raise or keep: {self.on_cut}")

    def change(self, **parts: Any) -> Plan:
        """The plan with other parts, as `plan.change(runs=1000)`."""
        try:
            return replace(self, **parts)
        except TypeError as error:
            raise InputError(f"a plan has no such part: {error}") from None


def whole(name: str, value: Any, least: int, most: int) -> int:
    """The whole number `value`, if it lies from `least` to `most`.

    Raises
    ------
    InputError
        If it is no whole number there.
    """
    try:
        exact = int(value)
        good = not isinstance(value, (bool, str)) and exact == value and least <= exact <= most
    except (TypeError, ValueError, OverflowError):
        good = False
    if not good:
        raise InputError(f"{name} is a whole number from {least} to {most}: {value}")
    return exact
