"""Between which numbers a formula lies, where its names lie between ends: interval arithmetic.

The ends are never too near.  They are exact where each name stands in the formula once.

References
----------
Moore 1966, Interval Analysis.
"""

from __future__ import annotations

import ast
import math
from collections.abc import Callable, Iterable

from .estimates import UNBOUNDED, Bounds
from .formula import Formula

TRUTH: Bounds = (0.0, 1.0)


def interval_of(formula: Formula, node: ast.expr, of: Callable[[str], Bounds]) -> Bounds:
    """The least and the greatest value that a part of a formula's tree can have.

    Parameters
    ----------
    formula : Formula
    node : ast.expr
        A part of `formula.tree`, or all of it.
    of : callable
        The ends of a name; infinite where there is none.
    """
    if isinstance(node, ast.Constant) and isinstance(node.value, (int, float)):
        return _as_float(node.value), _as_float(node.value)
    if isinstance(node, ast.Name):
        name = formula.name_of(node)
        return TRUTH if name is None else of(name)
    if isinstance(node, ast.BinOp):
        left, right = (interval_of(formula, side, of) for side in (node.left, node.right))
        return _of_two(node.op, left, right)
    if isinstance(node, ast.UnaryOp) and not isinstance(node.op, ast.Not):
        low, high = interval_of(formula, node.operand, of)
        return (-high, -low) if isinstance(node.op, ast.USub) else (low, high)
    if isinstance(node, ast.Call) and isinstance(node.func, ast.Name):
        ends = [interval_of(formula, part, of) for part in node.args]
        lows, highs = [low for low, _ in ends], [high for _, high in ends]
        if node.func.id == "abs":
            return max(0.0, lows[0], -highs[0]), max(-lows[0], highs[0])
        extreme = min if node.func.id == "min" else max
        return extreme(lows), extreme(highs)
    return TRUTH


def _of_two(operator: ast.operator, left: Bounds, right: Bounds) -> Bounds:
    if isinstance(operator, ast.Add):
        return _ends((left[0] + right[0], left[1] + right[1]))
    if isinstance(operator, ast.Sub):
        return _ends((left[0] - right[1], left[1] - right[0]))
    if isinstance(operator, ast.Mult):
        return _ends(0.0 if 0.0 in (a, b) else a * b for a in left for b in right)
    if right[0] <= 0 <= right[1]:
        return UNBOUNDED
    if isinstance(operator, ast.Mod):
        return (0.0, right[1]) if right[0] > 0 else (right[0], 0.0)
    low, high = _ends(a / b for a in left for b in right)
    return (low, high) if isinstance(operator, ast.Div) else (_floor(low), _floor(high))


def _as_float(number: float) -> float:
    try:
        return float(number)
    except OverflowError:
        return math.inf


def _floor(end: float) -> float:
    return float(math.floor(end)) if math.isfinite(end) else end


def _ends(values: Iterable[float]) -> Bounds:
    """The least and the greatest of values; without limits if one is unknown."""
    known = list(values)
    return UNBOUNDED if any(map(math.isnan, known)) else (min(known), max(known))
