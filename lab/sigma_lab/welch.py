"""How long the warm-up is: Welch's procedure and MSER-5.

References
----------
Welch 1983, The statistical analysis of simulation results; Law 2015, section 9.5.1.
White 1997, An effective truncation heuristic for bias reduction in simulation output (MSER-5).
"""

from __future__ import annotations

import math
from dataclasses import dataclass
from typing import TYPE_CHECKING

import numpy as np

from .errors import InputError, NoEstimate
from .estimates import Floats, finite
from .estimators import student_t

if TYPE_CHECKING:
    import pandas as pd


@dataclass(frozen=True, eq=False)
class Welch:
    """The mean over runs of each step of time.

    Attributes
    ----------
    frame : DataFrame
        A row for each step: time (its end, in ticks), mean, smooth (NaN for the last steps), low and high.
    mser : int or None
        The tick at which MSER-5 ends the warm-up; None if the runs are too short to tell.
    runs, step, window : int
        How many runs, the ticks of a step, and the steps to either side that are smoothed over.
    """

    frame: pd.DataFrame
    mser: int | None
    runs: int
    step: int
    window: int

    def advise(self) -> int:
        """The tick at which a warm-up ends: that of MSER-5.

        Raises
        ------
        NoEstimate
            If the runs are too short.  Make them longer by a factor of two or more.
        """
        if self.mser is None:
            raise NoEstimate(
                "the cut of MSER-5 would lie in the second half: take runs twice as long"
            )
        return self.mser


def moving_average(values: Floats, window: int) -> Floats:
    """Welch's: the mean of 2 w + 1 values, and of fewer near the beginning; the last w have none."""
    n = len(values)
    sums = np.concatenate([[0.0], np.cumsum(values)])
    at = np.arange(n - window)
    wide = np.minimum(at, window)
    smooth = np.full(n, math.nan)
    smooth[: n - window] = (sums[at + wide + 1] - sums[at - wide]) / (2 * wide + 1)
    return smooth


def welch(steps: Floats, step: int, window: int, *, confidence_level: float = 0.95) -> Welch:
    """Welch's procedure.

    Parameters
    ----------
    steps : array, shape (runs, steps)
        The mean of each step of time in each run.
    step : int
        The ticks of a step.
    window : int
        How many steps to either side are smoothed over.
    """
    import pandas as pd

    if steps.ndim != 2:
        raise InputError("steps are a row for each run")
    runs, count = steps.shape
    if window < 0 or runs < 2 or count < 2 * window + 1:
        raise NoEstimate("Welch's procedure takes two runs, and more steps than its window has")
    average = steps.mean(axis=0)
    error = steps.std(axis=0, ddof=1) / math.sqrt(runs)
    reach = student_t(runs - 1, confidence_level) * error
    parts = {"time": step * np.arange(1, count + 1), "mean": average}
    parts |= {"smooth": moving_average(average, window)}
    parts |= {"low": average - reach, "high": average + reach}
    cut = mser5(average)
    return Welch(pd.DataFrame(parts), None if cut is None else cut * step, runs, step, window)


def mser5(values: Floats) -> int | None:
    """How many values MSER-5 leaves out: means of five, and the cut with the least standard error of the rest.

    None if the least lies in the second half: the series is too short to tell.
    """
    floats = finite(values)
    fives = floats[: len(floats) // 5 * 5].reshape(-1, 5).mean(axis=1)
    n = len(fives)
    if n < 4:
        return None
    # Of large numbers the squares would cancel, so the last value is taken off first.
    tail = fives[::-1] - fives[n // 2 :].mean()
    k = np.arange(1, n + 1)
    score = ((np.cumsum(tail**2) - np.cumsum(tail) ** 2 / k) / k**2)[::-1]
    best = int(np.argmin(score[: n - 2]))
    return None if best > n // 2 else 5 * best
