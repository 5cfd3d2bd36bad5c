"""Areas and counts of a run that is too long to keep: memory stays the same however long it is."""

from __future__ import annotations

from collections.abc import Sequence
from typing import Any

import numpy as np
from numpy.typing import NDArray

from .errors import InputError

CELLS = 8192
"""A stream keeps from this number of cells to twice as many."""


class AreaStream:
    """The area of a value, or the count of events, in cells of one width, which doubles as the run goes on.

    Parameters
    ----------
    cells : int
        The least number of cells that are kept once the run is long enough.

    Attributes
    ----------
    grain : int
        The width of a cell, in ticks: 1, 2, 4, ..  Edges of `areas` are multiples of it.
    """

    def __init__(self, cells: int = CELLS) -> None:
        self.grain = 1
        self._cells = cells
        self._sums: list[int] = [0]  # the area up to each edge
        self._area, self._time, self._value = 0, 0, 0

    def hold(self, times: Sequence[int], values: Sequence[int]) -> None:
        """The value changes to `values[k]` at the tick `times[k]`, in order."""
        for time, value in zip(times, values):
            self._advance(time)
            self._value = value

    def count(self, times: Sequence[int]) -> None:
        """One event at each of these ticks, in order."""
        for time in times:
            self._advance(time)
            self._area += 1

    def close(self, end: int) -> None:
        """The run ends at this tick."""
        self._advance(end)

    def _advance(self, time: int) -> None:
        """Goes on to a tick, and notes the area at each edge before it."""
        if time < self._time:
            raise InputError("a stream goes on in time")
        edge = len(self._sums) * self.grain
        while edge <= time:
            self._sums.append(self._area + self._value * (edge - self._time))
            edge += self.grain
            if len(self._sums) > 2 * self._cells:
                self._sums = self._sums[::2]
                self.grain *= 2
                edge = len(self._sums) * self.grain
        self._area += self._value * (time - self._time)
        self._time = time

    def areas(self, edges: NDArray[np.int64]) -> NDArray[Any]:
        """The areas, or counts, between edges (ticks, rising, multiples of `grain` up to the last cell)."""
        if (edges % self.grain).any() or edges[-1] // self.grain >= len(self._sums):
            raise InputError(f"edges of a stream are multiples of {self.grain} up to its end")
        sums = [self._sums[at] for at in (edges // self.grain).tolist()]
        return np.array([float(b - a) for a, b in zip(sums, sums[1:])])
