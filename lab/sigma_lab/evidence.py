"""Decisions from runs as they come, that are wrong as seldom as they say whatever the distribution.

A test bets against what it wants to refute.  Let each run have an excess, whose mean would be at most 0 if the refuted
sentence were true.  One coin is put on a positive excess, a part of it in each run.  If the sentence is true the wealth
is a supermartingale, so it reaches 1 / risk with a chance of `risk` at most (Ville's inequality), at any run and however
often it is looked at.  All that is assumed is that runs are independent and how far below 0 an excess can lie.  So a value
that is rare and large, and that wasn't seen yet, is counted with from the first run on.

References
----------
Ville 1939.
Waudby-Smith and Ramdas 2023, Estimating means of bounded random variables by betting.
"""

from __future__ import annotations

import math

import numpy as np

from .errors import InputError
from .estimates import Floats

BOLDEST = 0.9
"""The part of the wealth that the worst possible run may cost."""


def log_wealth(excess: Floats, reach: float) -> Floats:
    """The logarithm of the wealth after each run, against a mean excess of 0 or less.

    Parameters
    ----------
    excess : array, shape (runs,)
        By how much each run exceeds what is to be refuted.
    reach : float
        How far below 0 an excess can lie.  Where it is 0 or less the mean can't be below 0: the wealth is infinite.

    Returns
    -------
    array, shape (runs,)
        Its wealth e^w.  Each bet is made from the runs before it (the rule called aGRAPA by Waudby-Smith and Ramdas).

    Raises
    ------
    InputError
        If an excess lies farther below 0, or if `reach` isn't finite.
    """
    if math.isnan(reach) or reach == math.inf:
        raise InputError("a decision takes the worst value that a run can have")
    n = len(excess)
    if n and float(excess.min()) < -reach - 1e-9 * max(1.0, abs(reach)):
        raise InputError("a run is worse than the worst value that was stated")
    if reach <= 0:
        return np.full(n, math.inf)
    took = np.arange(n)
    before = np.concatenate([[0.0], np.cumsum(excess)[:-1]])
    squares = np.concatenate([[0.0], np.cumsum(excess**2)[:-1]])
    mean = before / np.maximum(took, 1)
    # The second moment, to which one imagined run adds half of the reach.
    moment = (reach**2 / 4 + squares) / (took + 1)
    bet = np.clip(mean / moment, 0.0, BOLDEST / reach)
    return np.asarray(np.cumsum(np.log1p(bet * excess)), dtype=float)


def first_refuted(excess: Floats, reach: float, risk: float) -> int | None:
    """After how many runs a mean excess of 0 or less is refuted at this risk, or None."""
    refuted = np.flatnonzero(log_wealth(excess, reach) >= -math.log(risk))
    return int(refuted[0]) + 1 if len(refuted) else None


def fewest_runs(best: float, reach: float, risk: float) -> float:
    """The fewest runs that can refute at this risk, where each had the best possible excess; infinite if none can."""
    if reach <= 0:
        return 1.0
    if best <= 0:
        return math.inf
    return -math.log(risk) / math.log1p(BOLDEST * best / reach) + 1
