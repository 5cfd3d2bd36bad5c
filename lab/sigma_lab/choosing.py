"""Which designs have the best mean, decided from runs as they come.

Runs of different designs pair: they have the same seeds.  A design leaves once another one is better for sure.  The last
ones are taken as equally good once none of them can be better than the chosen one by the indifference.  So with the
confidence level no other design is better than the chosen one by the indifference or more, whatever the distribution.

References
----------
Kim and Nelson 2001, 2006 (fully sequential selection, common random numbers); Waudby-Smith and Ramdas 2023 (the test).
"""

from __future__ import annotations

from collections.abc import Iterable, Mapping
from dataclasses import dataclass, field

import numpy as np

from .errors import InputError
from .estimates import Bounds, Floats
from .evidence import first_refuted


@dataclass
class Contest:
    """Designs whose means are compared; the greatest mean is the best.

    Parameters
    ----------
    indifference : float
        The difference that matters, above 0.
    bounds : (float, float)
        The least and the greatest value that a run of a design can have.
    risk : float
        The chance of a wrong choice that is allowed.
    designs : int
        How many designs begin.

    Attributes
    ----------
    left : dict of int to (int, int)
        Of each design that has left, after how many runs, and which better design made it leave.
    """

    indifference: float
    bounds: Bounds
    risk: float
    designs: int
    left: dict[int, tuple[int, int]] = field(default_factory=dict)

    def __post_init__(self) -> None:
        if not self.indifference > 0:
            raise InputError("the indifference is the difference that matters, above 0")
        if not np.isfinite(self.bounds).all():
            raise InputError("the least and the greatest value of a run have to be stated")

    @property
    def _risk(self) -> float:
        """The risk of one test.  The best design meets each other one in two tests: is it worse, and is it better by the
        indifference?"""
        return self.risk / 2 / max(1, self.designs - 1)

    def leave(self, values: Mapping[int, Floats], better: Iterable[int] | None = None) -> None:
        """Lets the designs leave that are worse than another one for sure.

        Parameters
        ----------
        values : mapping of int to array, shape (runs,)
            The runs of the designs that are left, paired.
        better : iterable of int, optional
            The designs that others may leave for; all if None.
        """
        reach = self.bounds[1] - self.bounds[0]
        means = {k: float(values[k].mean()) for k in values}
        rivals = sorted(means if better is None else better, key=lambda k: -means[k])
        for design in sorted(means, key=means.__getitem__):
            for rival in rivals:
                if rival in self.left or means[rival] <= means[design]:
                    continue
                after = first_refuted(values[rival] - values[design], reach, self._risk)
                if after is not None:
                    self.left[design] = after, rival
                    break

    def winner(self, values: Mapping[int, Floats]) -> int | None:
        """The chosen one of the designs that are left, or None if some may still be better by the indifference."""
        best = max(values, key=lambda k: float(values[k].mean()))
        reach = self.bounds[1] - self.bounds[0] - self.indifference
        for other in values:
            if other == best:
                continue
            # Refuted is that the other one is better by the indifference.
            over = values[best] - values[other] + self.indifference
            if first_refuted(over, reach, self._risk) is None:
                return None
        return best
