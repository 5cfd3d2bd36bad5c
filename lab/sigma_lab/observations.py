"""Values at events: the clusters that runs make of them."""

from __future__ import annotations

from collections.abc import Sequence
from dataclasses import dataclass
from typing import TYPE_CHECKING, Any

import numpy as np
from numpy.typing import NDArray

from .errors import NoEstimate

if TYPE_CHECKING:
    import pandas as pd

    from .estimates import Estimate


@dataclass(frozen=True, eq=False)
class Observations:
    """The values at all occurrences of an event, run by run.

    Attributes
    ----------
    run : array of int64, shape (values,)
        The run of each value, from 0, rising.
    value : array, shape (values,)
        The values, in raw units.
    seeds : array of uint64, shape (runs,)
        The seeds of all runs, those without a value too.
    scale, unit
        Estimates are multiplied by `scale` after they are made.
    """

    run: NDArray[np.int64]
    value: NDArray[Any]
    seeds: NDArray[np.uint64]
    scale: float = 1.0
    unit: str = ""

    def __len__(self) -> int:
        return len(self.value)

    @property
    def runs(self) -> int:
        """The number of runs."""
        return len(self.seeds)

    def to_frame(self) -> pd.DataFrame:
        """The columns run (from 1), seed and value, in raw units."""
        import pandas as pd

        return pd.DataFrame(
            {"run": self.run + 1, "seed": self.seeds[self.run], "value": self.value}
        )

    def by_run(self, quantiles: Sequence[float] = (), limits: Sequence[float] = ()) -> pd.DataFrame:
        """A row for each run with values: its seed, how many, their mean, and quantiles and shares.

        A quantile is the least value that the share of the run's values doesn't exceed.
        """
        from .estimates import sample_quantile

        groups = self.to_frame().groupby("run")["value"]
        table = groups.agg(values="size", mean="mean")
        table.insert(0, "seed", self.seeds[table.index - 1])
        for p in quantiles:
            table[f"q{p:g}"] = groups.agg(lambda values, p=p: sample_quantile(values, p))
        for limit in limits:
            table[f"<={limit:g}"] = groups.agg(lambda values, limit=limit: (values <= limit).mean())
        return table

    def need_values(self) -> None:
        """Raises NoEstimate if no run has a value."""
        if not len(self):
            raise NoEstimate(f"none of {self.runs} runs has a value")

    def mean(self, *, confidence_level: float = 0.95) -> Estimate:
        """The mean of all values, with an interval from runs as clusters."""
        from . import clusters

        return clusters.mean(self, confidence_level=confidence_level)

    def quantile(self, p: float, *, confidence_level: float = 0.95) -> Estimate:
        """The least value that a share `p` of all values doesn't exceed, with its interval."""
        from . import clusters

        return clusters.quantile(self, p, confidence_level=confidence_level)

    def share_at_most(self, limit: float, *, confidence_level: float = 0.95) -> Estimate:
        """Which share of all values is at most `limit` (in raw units)."""
        from . import clusters

        return clusters.share_at_most(self, limit, confidence_level=confidence_level)
