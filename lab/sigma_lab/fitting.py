"""Which distribution fits measured times, and how sure that is.

A family fits if the data lie no farther from it than samples of it do, each fitted anew (a parametric bootstrap).

References
----------
Law 2015, sections 6.5 and 6.6 (families, shifted families, tests).
Stute, Gonzalez Manteiga and Presedo Quindimil 1993 (bootstrap of a test with estimated parameters).
Besag and Clifford 1991 (when a bootstrap may stop).
"""

from __future__ import annotations

import math
from collections.abc import Sequence
from dataclasses import dataclass, field
from typing import TYPE_CHECKING, Any, Literal

import numpy as np
from numpy.typing import ArrayLike

from . import rounding as rounded
from .distributions import Distribution
from .errors import InputError, LabError
from .estimates import Floats, finite
from .exact_fits import EXACT, POSITIVE, WHOLE, Fitted
from .exact_fits import shifted as moved
from .rounding import Cells, Kind
from .tables import NoTable

if TYPE_CHECKING:
    import pandas as pd

Rounding = Literal["auto", "none", "nearest", "up", "down"]

FEWEST = 20
"""Of fewer times no family is advised: a test couldn't tell."""

_CLEARLY = 2.0
"""Another direction of rounding than to the nearest has to be e^2 times as likely."""

_ENOUGH = 10
"""A bootstrap stops once so many samples lie as far: the p-value is then above 0.05 at most 199 samples."""


@dataclass(frozen=True, eq=False)
class Fit:
    """The families fitted to times.

    Attributes
    ----------
    table : DataFrame
        A row for each family, best first: family, numbers (its words), aic_more (than the best), distance (Kolmogorov
        and Smirnov's), a2 (Anderson and Darling's, of rounded times the grouped one), p (by the bootstrap), fits (p of
        0.05 or more).
    distributions : dict of str to Distribution
    n : int
        How many times.
    rounding : str
        How times were taken: `none`, or as `nearest 60` for times rounded to 60 ticks.
    autocorrelation_p : float
        Ljung and Box's p-value: small if times depend on their neighbours.  NaN for fewer than 10 times.
    refused : dict of str to str
        The families that couldn't be fitted, and why.
    """

    table: pd.DataFrame
    distributions: dict[str, Distribution]
    n: int
    rounding: str
    autocorrelation_p: float
    refused: dict[str, str] = field(default_factory=dict)

    @property
    def best(self) -> Distribution | None:
        """The fitting family with the least AIC; none if nothing fits, or of fewer than 20 times."""
        fitting = self.table[self.table["fits"]]
        if self.n < FEWEST or fitting.empty:
            return None
        return self.distributions[str(fitting["family"].iloc[0])]


def fit(
    times: ArrayLike,
    *,
    tick: float = 1.0,
    rounding: Rounding = "auto",
    families: Sequence[str] | None = None,
    shifted: bool = True,
    n_resamples: int = 199,
    rng: np.random.Generator | int | None = 1,
) -> Fit:
    """Fits families to measured times.

    Parameters
    ----------
    times : array_like
        Times of 0 or more, 3 or more of them, in the order in which they were measured.
    tick : float
        How many ticks the unit of `times` has, as 60 for minutes of 60 ticks.
    rounding : {"auto", "none", "nearest", "up", "down"}
        How times were rounded when they were written down.  `auto` takes times that repeat and are multiples of one unit
        as rounded, in the direction that is likeliest.
    families : sequence of str, optional
        Those that are tried; all by default.
    shifted : bool
        Whether families that begin above 0 are tried too.
    n_resamples : int
        How many bootstrap samples a family gets, 19 or more.
    rng : Generator or int
        Where samples are drawn from.

    Raises
    ------
    InputError
        If there are too few times, or if one is negative or no number.
    NoTable
        If no family could be fitted.
    """
    if not (19 <= n_resamples <= 10**5 and 0 < tick < math.inf):
        raise InputError("a bootstrap has 19 samples or more, and a unit is above 0")
    given = finite(times, "times") * tick
    if len(given) < 3 or (given < 0).any():
        raise InputError("a fit takes at least 3 times, of 0 or more")
    if np.ptp(given) == 0:
        raise InputError("all times are equal: the model needs no table")
    generator = np.random.default_rng(rng)
    unit = _unit(finite(times), tick, rounding)
    parts: list[_Data] = []
    if unit is None:
        choices = dict(EXACT)
        if shifted and given.min() > 0:
            choices |= {f"shifted {n}": moved(EXACT[n]) for n in ("exponential", *POSITIVE)}
        parts.append(_Exact(given, choices))
        said = "none"
    else:
        kinds: tuple[Kind, ...] = rounded.KINDS
        if rounding == "nearest" or rounding == "up" or rounding == "down":
            kinds = (rounding,)
        cells = _likeliest(given, unit, kinds, shifted)
        parts.append(cells)
        said = f"{cells.kind} {unit:g}"
        if unit == 1:
            parts.append(_Exact(given, WHOLE))
    rows, found, refused = _all_fits(parts, families, n_resamples, generator)
    if not rows:
        raise NoTable("no family could be fitted")
    import pandas as pd

    table = pd.DataFrame(rows).sort_values("aic", ignore_index=True)
    table.insert(2, "aic_more", table.pop("aic") - min(row["aic"] for row in rows))
    return Fit(table, found, len(given), said, _independence(given), refused)


def _unit(times: Floats, tick: float, rounding: Rounding) -> float | None:
    """The unit of rounded times, in ticks."""
    if rounding == "none":
        return None
    if rounding not in ("auto", *rounded.KINDS):
        raise InputError(f"rounding is auto, none, nearest, up or down: {rounding}")
    unit = rounded.unit_of(times)
    if unit is None and rounding != "auto":
        raise InputError("the times don't repeat, so they aren't rounded")
    return None if unit is None else unit * tick


class _Data:
    """Times as they are fitted: exact or rounded."""

    kind = "none"

    def __init__(self) -> None:
        self.families: dict[str, Any] = {}
        self.refused: dict[str, str] = {}

    def fitted(self, family: str) -> Distribution:
        """The likeliest distribution of a family."""
        raise NotImplementedError

    def log_likelihood(self, law: Distribution) -> float:
        """The logarithm of the likelihood."""
        raise NotImplementedError

    def distances(self, law: Distribution) -> tuple[float, float]:
        """Kolmogorov and Smirnov's distance, and Anderson and Darling's A^2 (NaN for laws of whole ticks)."""
        raise NotImplementedError

    def sample(self, law: Distribution, generator: np.random.Generator) -> _Data:
        """As many times of a law, written down in the same way."""
        raise NotImplementedError


def _draw(law: Distribution, n: int, generator: np.random.Generator) -> Floats:
    times = law.law.rvs(size=n, random_state=generator) + law.shift
    return np.asarray(np.maximum(times, 0.0 if law.is_whole else 1e-12), dtype=float)


class _Exact(_Data):
    """Times that weren't rounded, or whole ticks as laws of whole ticks have them."""

    def __init__(self, times: Floats, families: dict[str, Fitted]) -> None:
        super().__init__()
        self.times = np.sort(times)
        self.families = dict(families)
        if self.times[0] <= 0:
            self.refused = {name: "it has times of 0" for name in (*POSITIVE, "geometric")}

    def fitted(self, family: str) -> Distribution:
        made: Distribution = self.families[family](self.times)
        return made

    def log_likelihood(self, law: Distribution) -> float:
        x = self.times - law.shift
        logs = law.law.logpmf(x) if law.is_whole else law.law.logpdf(x)
        return float(np.sum(logs))

    def distances(self, law: Distribution) -> tuple[float, float]:
        x, n = self.times - law.shift, len(self.times)
        if law.is_whole:
            values, counts = np.unique(x, return_counts=True)
            shares = np.cumsum(counts) / n
            before = np.append(0, shares[:-1])
            at, below = law.law.cdf(values), law.law.cdf(values - 1)
            return float(max(np.abs(shares - at).max(), np.abs(before - below).max())), math.nan
        u = np.clip(law.law.cdf(x), 1e-300, 1 - 1e-16)
        i = np.arange(1, n + 1)
        distance = max((i / n - u).max(), (u - (i - 1) / n).max())
        return float(distance), float(-n - np.mean((2 * i - 1) * (np.log(u) + np.log1p(-u[::-1]))))

    def sample(self, law: Distribution, generator: np.random.Generator) -> _Data:
        return _Exact(_draw(law, len(self.times), generator), self.families)


class _Rounded(_Data):
    """Times that were rounded to a unit."""

    def __init__(self, cells: Cells, kind: Kind, shift: float) -> None:
        super().__init__()
        self.cells, self.kind, self.shift = cells, kind, shift
        self.numbers: dict[str, tuple[Floats, float]] = {}
        self.families = dict.fromkeys(rounded.FAMILIES)
        if shift > 0:
            names = [name for name in rounded.FAMILIES if name != "normal"]
            self.families |= dict.fromkeys(f"shifted {name}" for name in names)

    def _fit(self, family: str) -> tuple[Floats, float, str, float]:
        name = family.removeprefix("shifted ")
        shift = self.shift if name != family else 0.0
        if family not in self.numbers:
            self.numbers[family] = rounded.fit_cells(name, shift, self.cells)
        return *self.numbers[family], name, shift

    def fitted(self, family: str) -> Distribution:
        numbers, _, name, shift = self._fit(family)
        return rounded.distribution_of(name, shift, numbers)

    def log_likelihood(self, law: Distribution) -> float:
        return self._fit(("shifted " if law.shift else "") + law.family)[1]

    def distances(self, law: Distribution) -> tuple[float, float]:
        numbers, _, name, shift = self._fit(("shifted " if law.shift else "") + law.family)
        below = rounded.cdf(name, shift, numbers, self.cells.edges[1:])
        return self.cells.distances(self.cells.shares(below))

    def sample(self, law: Distribution, generator: np.random.Generator) -> _Data:
        cells = self.cells.again(_draw(law, self.cells.n, generator))
        return _Rounded(cells, self.kind, _least(cells) if law.shift else 0.0)  # type: ignore[arg-type]


def _least(cells: Cells) -> float:
    """Where the first cell with a time begins."""
    return float(cells.edges[int(np.flatnonzero(cells.counts)[0])])


def _likeliest(times: Floats, unit: float, kinds: Sequence[Kind], shifted: bool) -> _Data:
    """The times as cells, rounded in the direction under which some family is likeliest."""
    best: tuple[float, _Rounded] | None = None
    for kind in kinds:
        if kind == "up" and times.min() <= 0:
            continue
        cells = rounded.cells_of(times, unit, kind)
        made = _Rounded(cells, kind, _least(cells) if shifted else 0.0)
        logs = -math.inf
        for family in rounded.FAMILIES:
            try:
                logs = max(logs, made._fit(family)[1])
            except (ValueError, OverflowError):
                continue
        if best is None or logs > best[0] + _CLEARLY:
            best = logs, made
    if best is None:
        raise InputError("a time of 0 wasn't rounded up")
    return best[1]


def _all_fits(
    parts: Sequence[_Data],
    families: Sequence[str] | None,
    samples: int,
    generator: np.random.Generator,
) -> tuple[list[dict[str, Any]], dict[str, Distribution], dict[str, str]]:
    """A row and a distribution for each family, and why others have none."""
    known = {name: data for data in parts for name in data.families}
    unknown = sorted(set(families or ()) - set(known))
    if unknown:
        raise InputError(
            f"no family {' '.join(unknown)} for these data; there are {', '.join(known)}"
        )
    rows: list[dict[str, Any]] = []
    found: dict[str, Distribution] = {}
    refused = {name: why for data in parts for name, why in data.refused.items() if name in known}
    for name, data in known.items():
        if name in refused or families is not None and name not in families:
            continue
        try:
            with np.errstate(all="ignore"):
                law, row = _row(data, name, samples, generator)
        except _failures() as error:
            refused[name] = str(error)[:80]
            continue
        found[name] = law
        rows.append(row)
    return rows, found, refused


def _failures() -> tuple[type[Exception], ...]:
    """What a family that has no fit ends in."""
    from scipy import stats

    return ValueError, FloatingPointError, RuntimeError, LabError, stats.FitError


def _row(
    data: _Data, name: str, samples: int, generator: np.random.Generator
) -> tuple[Distribution, dict[str, Any]]:
    """The likeliest distribution of a family, and its row."""
    law = data.fitted(name)
    logs = data.log_likelihood(law)
    if not math.isfinite(logs):
        raise ValueError("the likelihood of these data is 0")
    distance, a2 = data.distances(law)
    p = _bootstrap(data, name, law, samples, generator)
    count = len(law.numbers) + (law.shift > 0)
    row = {"family": name, "numbers": law.words, "aic": 2 * count - 2 * logs}
    return law, row | {"distance": distance, "a2": a2, "p": p, "fits": p >= 0.05}


def _bootstrap(
    data: _Data,
    family: str,
    law: Distribution,
    samples: int,
    generator: np.random.Generator,
) -> float:
    """Which share of samples of the law, each fitted anew, lie as far from their fit as the data from theirs."""
    which = 0 if law.is_whole else 1
    seen = data.distances(law)[which]
    as_far = done = 0
    for _ in range(samples):
        try:
            again = data.sample(law, generator)
            far = again.distances(again.fitted(family))[which]
        except _failures():
            continue
        done += 1
        as_far += far >= seen
        if as_far == _ENOUGH:
            return _ENOUGH / done
    return (as_far + 1) / (done + 1)


def _independence(times: Floats) -> float:
    """Ljung and Box's p-value for the order in which times were measured."""
    if len(times) < 10:
        return math.nan
    from statsmodels.stats.diagnostic import acorr_ljungbox

    lags = [min(10, len(times) // 5)]
    return float(acorr_ljungbox(times, lags=lags)["lb_pvalue"].iloc[0])
