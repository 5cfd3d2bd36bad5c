"""The likeliest distribution of each family for times that weren't rounded.

References
----------
Law 2015, section 6.5 (maximum likelihood) and 6.8 (shifted families); Johnson and Kotz 1999 (triangular).
"""

from __future__ import annotations

import math
from collections.abc import Callable

import numpy as np

from .distributions import Distribution
from .estimates import Floats

Fitted = Callable[[Floats], Distribution]


def _gamma(y: Floats) -> Distribution:
    from scipy import stats

    shape, _, scale = stats.gamma.fit(y, floc=0)
    return Distribution("gamma", (shape * scale, math.sqrt(shape) * scale))


def _weibull(y: Floats) -> Distribution:
    from scipy import stats

    largest = float(y.max())  # so that no power overflows
    shape, _, scale = stats.weibull_min.fit(y / largest, floc=0)
    return Distribution("weibull", (largest * scale, shape))


def _lognormal(y: Floats) -> Distribution:
    spread, middle = float(np.log(y).std()), float(np.log(y).mean())
    mean = math.exp(middle + spread**2 / 2)
    return Distribution("lognormal", (mean, mean * math.sqrt(math.expm1(spread**2))))


def _beta(y: Floats) -> Distribution:
    from scipy import stats

    margin = float(np.ptp(y)) / (len(y) + 1)
    low, high = max(float(y.min()) - margin, 0.0), float(y.max()) + margin
    a, b, *_ = stats.beta.fit(y, floc=low, fscale=high - low)
    return Distribution("beta", (low, high, a, b))


def _triangular(y: Floats) -> Distribution:
    """The likeliest mode is one of the values (Johnson and Kotz 1999)."""
    from scipy import optimize

    y, span = np.sort(y), float(np.ptp(y))

    def ends(at: Floats) -> tuple[float, float]:
        return max(0.0, float(y[0]) - span * math.exp(at[0])), float(y[-1]) + span * math.exp(at[1])

    def modes(low: float, high: float) -> Floats:
        """The log-likelihood with each value as the mode."""
        with np.errstate(divide="ignore"):
            left, right = np.log(y - low), np.log(high - y)
        n = np.arange(len(y))
        below = np.cumsum(left) - left - n * left
        above = right.sum() - np.cumsum(right) - n[::-1] * right
        return np.asarray(below + above - len(y) * math.log(high - low), dtype=float)

    def badness(at: Floats) -> float:
        return -float(modes(*ends(at)).max()) if (at < 3).all() else math.inf

    options = {"maxfev": 200, "xatol": 1e-3, "fatol": 1e-4}
    made = optimize.minimize(badness, [-3.0, -3.0], method="Nelder-Mead", options=options)
    low, high = ends(made.x)
    return Distribution("triangular", (low, float(y[int(modes(low, high).argmax())]), high))


EXACT: dict[str, Fitted] = {
    "exponential": lambda y: Distribution("exponential", (float(y.mean()),)),
    "gamma": _gamma,
    "weibull": _weibull,
    "lognormal": _lognormal,
    "normal": lambda y: Distribution("normal", (float(y.mean()), float(y.std()))),
    "triangular": _triangular,
    "beta": _beta,
}
"""Of times in any number of ticks."""

POSITIVE = ("gamma", "weibull", "lognormal")
"""Those that have no times of 0."""

WHOLE: dict[str, Fitted] = {
    "uniform": lambda y: Distribution("uniform", (float(y.min()), float(y.max()))),
    "poisson": lambda y: Distribution("poisson", (float(y.mean()),)),
    "geometric": lambda y: Distribution("geometric", (float(y.mean()),)),
}
"""Of times in whole ticks."""


def shifted(base: Fitted) -> Fitted:
    """The family moved to begin a mean gap of as many values below the least one (Law 2015, section 6.8)."""

    def fitted(y: Floats) -> Distribution:
        shift = max(0.0, float(y.min() - (y.mean() - y.min()) / (len(y) - 1)))
        plain = base(y - shift)
        return Distribution(plain.family, plain.numbers, shift)

    return fitted
