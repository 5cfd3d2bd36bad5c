"""Distributions of times, in ticks, by the names and numbers that a model's comments give them.

References
----------
Law 2015, section 6.2 (families and their parameters).
"""

from __future__ import annotations

import math
import re
from collections.abc import Callable
from dataclasses import dataclass
from pathlib import Path
from typing import Any

import numpy as np

from .errors import InputError
from .estimates import Floats, sample_quantile
from .model_files import named_file

LARGEST = 1e12


def _positive(*numbers: float) -> bool:
    return all(number > 0 for number in numbers)


def _stats() -> Any:
    from scipy import stats

    return stats


def _lognormal(mean: float, sd: float) -> Any:
    spread = math.sqrt(math.log1p((sd / mean) ** 2))
    return _stats().lognorm(spread, scale=mean * math.exp(-(spread**2) / 2))


def _geometric(mean: float) -> Any:
    """A mean of 1 is 1 always, of which scipy's own law knows nothing."""
    return _stats().geom(1 / mean) if mean > 1 else _stats().randint(1, 2)


@dataclass(frozen=True)
class Family:
    """A family of distributions.

    Attributes
    ----------
    words : str
        What its numbers are.
    law : callable
        The frozen distribution of scipy for these numbers.
    good : callable
        Whether these numbers are allowed.
    is_whole : bool
        Whether its values are whole ticks.
    """

    words: str
    law: Callable[..., Any]
    good: Callable[..., Any]
    is_whole: bool = False


FAMILIES: dict[str, Family] = {
    "exponential": Family("MEAN", lambda m: _stats().expon(scale=m), _positive),
    "normal": Family("MEAN DEVIATION", lambda m, s: _stats().norm(m, s), _positive),
    "lognormal": Family("MEAN DEVIATION", _lognormal, _positive),
    "gamma": Family(
        "MEAN DEVIATION", lambda m, s: _stats().gamma((m / s) ** 2, scale=s * s / m), _positive
    ),
    "erlang": Family(
        "MEAN STAGES",
        lambda m, k: _stats().gamma(k, scale=m / k),
        lambda m, k: _positive(m, k) and k == int(k),
    ),
    "weibull": Family("SCALE SHAPE", lambda b, a: _stats().weibull_min(a, scale=b), _positive),
    "triangular": Family(
        "LEAST LIKELIEST GREATEST",
        lambda a, c, b: _stats().triang((c - a) / (b - a), loc=a, scale=b - a),
        lambda a, c, b: 0 <= a <= c <= b and a < b,
    ),
    "beta": Family(
        "LEAST GREATEST A B",
        lambda a, b, p, q: _stats().beta(p, q, loc=a, scale=b - a),
        lambda a, b, p, q: 0 <= a < b and _positive(p, q),
    ),
    "poisson": Family("MEAN", lambda m: _stats().poisson(m), lambda m: 0 < m <= 1e8, True),
    "geometric": Family("MEAN", _geometric, lambda m: 1 <= m <= 1e6, True),
    "uniform": Family(
        "LEAST GREATEST",
        lambda a, b: _stats().randint(int(a), int(b) + 1),
        lambda a, b: 0 <= a <= b and a == int(a) and b == int(b),
        True,
    ),
}


@dataclass(frozen=True)
class Distribution:
    """A family with its numbers, moved by `shift` ticks: `gamma 30 10`, `shifted 20 exponential 300`.

    Parameters
    ----------
    family : str
        One of FAMILIES, or `data`.
    numbers : tuple of float
        The family's numbers, in ticks where they are times.
    shift : float
        Ticks that are added to each value.
    data : tuple of float
        Of the family `data`, the times themselves, in ticks.

    Raises
    ------
    InputError
        If there is no such family, or if its numbers don't fit.
    """

    family: str
    numbers: tuple[float, ...]
    shift: float = 0.0
    data: tuple[float, ...] = ()

    def __post_init__(self) -> None:
        if self.family == "data":
            if not self.data:
                raise InputError("data wants times")
            return
        known = FAMILIES.get(self.family)
        if known is None:
            raise InputError(
                f"no distribution {self.family}; there are {' '.join(FAMILIES)} and data"
            )
        if len(self.numbers) != len(known.words.split()):
            raise InputError(f"{self.family} wants {known.words}")
        all_numbers = (*self.numbers, self.shift)
        if not all(math.isfinite(x) and 0 <= x <= LARGEST for x in all_numbers) or not known.good(
            *self.numbers
        ):
            given = " ".join(map(str, self.numbers))
            raise InputError(
                f"{self.family} wants {known.words}, fitting numbers from 0 to 10^12: {given}"
            )
        if known.is_whole and self.shift != int(self.shift):
            raise InputError(f"{self.family} is shifted by whole ticks")

    @property
    def law(self) -> Any:
        """The frozen distribution of scipy, without the shift."""
        return FAMILIES[self.family].law(*self.numbers)

    @property
    def is_whole(self) -> bool:
        """Whether its values are whole ticks."""
        return self.family == "data" or FAMILIES[self.family].is_whole

    @property
    def mean(self) -> float:
        """The mean, in ticks."""
        return float(np.mean(self.data)) if self.data else float(self.law.mean()) + self.shift

    @property
    def sd(self) -> float:
        """The standard deviation, in ticks."""
        return float(np.std(self.data)) if self.data else float(self.law.std())

    def quantile(self, p: float) -> float:
        """The quantile at `p`, in ticks."""
        return sample_quantile(self.data, p) if self.data else float(self.law.ppf(p)) + self.shift

    @property
    def words(self) -> str:
        """Its words in a model's comment."""
        numbers = " ".join(f"{x:.12g}" for x in self.numbers)
        return (f"shifted {self.shift:.12g} " if self.shift else "") + f"{self.family} {numbers}"

    @classmethod
    def parse(cls, words: str, folder: Path | None = None) -> Distribution:
        """The distribution of its words, as in `# table GAP exponential 300;`.

        Parameters
        ----------
        words : str
            Also `data FILE`, or `data FILE 60` for a file whose unit has 60 ticks.
        folder : Path, optional
            That of a model whose comment has these words, which then names files in this folder or below it.
        """
        parts = words.split()
        shift = 0.0
        if parts[:1] == ["shifted"]:
            shift = _real(parts[1]) if len(parts) > 1 else 0.0
            parts = parts[2:]
        if not parts:
            raise InputError("a distribution is needed")
        if parts[0] != "data":
            return cls(parts[0], tuple(map(_real, parts[1:])), shift)
        if not 2 <= len(parts) <= 3:
            raise InputError("data wants FILE, and how many ticks its unit has")
        ticks = _real(parts[2]) if len(parts) == 3 else 1.0
        path = Path(parts[1]) if folder is None else named_file(folder, parts[1])
        times = read_times(path) * ticks + shift
        return cls("data", (), 0.0, tuple(times.tolist()))

    @property
    def whole_data(self) -> Floats:
        """Of the family `data`, the times in whole ticks."""
        return np.asarray(np.floor(np.array(self.data) + 0.5))


def _real(word: str) -> float:
    if not re.fullmatch(r"\d{1,20}(\.\d{1,20})?([eE][-+]?\d{1,3})?", word):
        raise InputError(f"no number: {word}")
    return float(word)


def read_times(path: str | Path) -> Floats:
    """Measured times, one a line.

    Raises
    ------
    InputError
        With the line that has no time.
    """
    try:
        lines = Path(path).read_text("ascii", "replace").split("\n")
    except OSError as error:
        raise InputError(f"can't read {path}: {error.strerror}") from None
    if lines.pop() != "":
        raise InputError(f"{path}: the last line has no line end, so the file is cut off")
    for number, line in enumerate(lines, 1):
        if not re.fullmatch(r"\d{1,13}(\.\d{1,15})?", line):
            raise InputError(f"{path}:{number}: this is no time: {line[:40]}")
    if not lines:
        raise InputError(f"{path} has no time")
    return np.array([float(line) for line in lines])
