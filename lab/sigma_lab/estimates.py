"""What an experiment answers: a value with its interval, and what the interval assumes."""

from __future__ import annotations

import math
from collections.abc import Sequence
from dataclasses import asdict, dataclass, replace
from html import escape
from typing import Any

import numpy as np
from numpy.typing import ArrayLike, NDArray

from .errors import InputError

Floats = NDArray[np.float64]
Bounds = tuple[float, float]
"""The least and the greatest value that a run can have; infinite where no limit is known."""

UNBOUNDED: Bounds = (-math.inf, math.inf)


def shown(number: float) -> str:
    """A number with six digits, and with all digits before its point."""
    return f"{number:.0f}" if 1e5 <= abs(number) < 1e15 else f"{number:.6g}"


@dataclass(frozen=True)
class Estimate:
    """A value with its interval.

    Attributes
    ----------
    value : float
        The estimate.
    low, high : float
        The ends of the interval; NaN for an end that the runs can't give.
    standard_error : float
        The standard error of `value`, or NaN.
    n : int
        The number of independent values: runs or batches.
    df : float
        The degrees of freedom of Student's t, or NaN.
    method : str
        How the interval was made.
    confidence_level : float
        Of the interval, above 0 and below 1.
    warnings : tuple of str
        What makes the interval hold less often than it says, or why an end is missing.
    unit : str
        The unit of all of these numbers, or an empty text.
    """

    value: float
    low: float = math.nan
    high: float = math.nan
    standard_error: float = math.nan
    n: int = 0
    df: float = math.nan
    method: str = ""
    confidence_level: float = 0.95
    warnings: tuple[str, ...] = ()
    unit: str = ""

    @property
    def half_width(self) -> float:
        """How far the interval reaches from the value to its farther end; NaN where an end is missing."""
        return max(self.value - self.low, self.high - self.value) if self.is_two_sided else math.nan

    @property
    def is_two_sided(self) -> bool:
        """Whether both ends are known."""
        return not (math.isnan(self.low) or math.isnan(self.high))

    def scale(self, factor: float, unit: str = "") -> Estimate:
        """The same estimate in another unit: every number times `factor`, which isn't 0.

        The interval is made before the unit is changed, so a unit never changes the method.
        """
        if not (math.isfinite(factor) and factor != 0):
            raise InputError(f"a scale is a number other than 0: {factor}")
        low, high = sorted_ends(self.low * factor, self.high * factor, factor < 0)
        return replace(
            self,
            value=self.value * factor,
            low=low,
            high=high,
            standard_error=self.standard_error * abs(factor),
            unit=unit or (self.unit if factor == 1 else ""),
        )

    def warn(self, *warnings: str) -> Estimate:
        """The same estimate with further warnings; empty ones are left out."""
        return replace(self, warnings=self.warnings + tuple(filter(None, warnings)))

    def to_dict(self) -> dict[str, Any]:
        """The attributes and `half_width`, with the warnings as one text."""
        made = asdict(self) | {"half_width": self.half_width}
        made["warnings"] = "; ".join(self.warnings)
        return made

    def __str__(self) -> str:
        unit = f" {self.unit}" if self.unit else ""
        level = f"{100 * self.confidence_level:.4g} %"
        text = (
            f"{shown(self.value)}{unit}, {self._interval()} ({level}, n = {self.n}, {self.method})"
        )
        return "; ".join([text, *self.warnings])

    def _interval(self) -> str:
        if self.is_two_sided:
            return f"from {shown(self.low)} to {shown(self.high)}"
        if not math.isnan(self.low):
            return f"from {shown(self.low)} on"
        return "no interval" if math.isnan(self.high) else f"up to {shown(self.high)}"

    def _repr_html_(self) -> str:
        cells = (f"{shown(self.value)} {self.unit}".strip(), self._interval(), self.method)
        row = "".join(f"<td>{escape(cell)}</td>" for cell in cells)
        notes = "".join(f"<div>{escape(warning)}</div>" for warning in self.warnings)
        return f"<table><tr>{row}</tr></table>{notes}"


def sorted_ends(low: float, high: float, is_turned: bool) -> tuple[float, float]:
    """The ends of an interval, exchanged where its sign was turned."""
    return (high, low) if is_turned else (low, high)


def risk_of(confidence_level: float) -> float:
    """1 minus a confidence level, which is above 0 and below 1."""
    if not 0 < confidence_level < 1:
        raise InputError(f"a confidence level is above 0 and below 1: {confidence_level}")
    return 1 - confidence_level


def finite(values: ArrayLike, what: str = "values") -> Floats:
    """Values as floats.

    Raises
    ------
    InputError
        If there are none, if they form no list, or if one is NaN or infinite.
    """
    made = np.asarray(values)
    if made.ndim != 1 or not len(made):
        raise InputError(f"no {what}")
    floats = made.astype(float)
    if not np.isfinite(floats).all():
        raise InputError(f"one of the {what} is no finite number")
    return floats


def skewness(values: Floats) -> float:
    """The skewness of values, 0 of equal ones.  (scipy.stats has it too, and takes half a second to load.)"""
    centred = values - values.mean()
    variance = float((centred**2).mean())
    return float((centred**3).mean() / variance**1.5) if variance > 0 else 0.0


def order(n: int, p: float) -> int:
    """The place, from 0, of the quantile at `p` among `n` sorted values.

    The lab has one definition of a quantile: the least value that a share `p` of all values doesn't exceed.  It is
    numpy's `inverted_cdf`, but that n p is taken as whole where it differs from a whole number by rounding alone.
    """
    if not 0 < p < 1:
        raise InputError(f"a quantile is of a share above 0 and below 1: {p}")
    return min(n, max(1, math.ceil(n * p - 1e-9))) - 1


def sample_quantile(values: Sequence[float] | Floats, p: float) -> float:
    """The quantile at `p` of values, by the definition of `order`."""
    floats = finite(values)
    return float(np.partition(floats, order(len(floats), p))[order(len(floats), p)])
