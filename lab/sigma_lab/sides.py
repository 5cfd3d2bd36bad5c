"""The two sides of a formula that is a ratio of totals: what is above and what is below its `/`."""

from __future__ import annotations

import ast
import math
from typing import Any

from .errors import InputError
from .formula import Formula

Sides = tuple[float, ast.expr, ast.expr | None]
"""A factor, as of `W/C*60`, what is above and what is below the `/`; None below where there is none."""


def sides_of(formula: Formula) -> Sides:
    """The sides of a formula.

    Raises
    ------
    InputError
        If a name stands below a `/` of a larger formula.
    """
    found = _quotient(formula, formula.tree)
    if found is not None:
        return found
    divisions = (ast.Div, ast.FloorDiv, ast.Mod)
    for node in ast.walk(formula.tree):
        if isinstance(node, ast.BinOp) and isinstance(node.op, divisions):
            if formula.has_names(node.right):
                raise InputError(
                    f"a ratio of totals is A/B, perhaps with a factor, and no part of a larger formula: {formula.text}"
                )
    return 1.0, formula.tree, None


def _quotient(formula: Formula, node: ast.expr) -> tuple[float, ast.expr, ast.expr] | None:
    if isinstance(node, ast.UnaryOp) and isinstance(node.op, ast.USub):
        inner = _quotient(formula, node.operand)
        return None if inner is None else (-inner[0], *inner[1:])
    if not isinstance(node, ast.BinOp):
        return None
    left, right = formula.has_names(node.left), formula.has_names(node.right)
    if isinstance(node.op, ast.Div) and right:
        for side in (node.left, node.right):
            if any(
                isinstance(part, ast.BinOp)
                and isinstance(part.op, (ast.Div, ast.FloorDiv, ast.Mod))
                and formula.has_names(part.right)
                for part in ast.walk(side)
            ):
                return None
        return 1.0, node.left, node.right
    if isinstance(node.op, (ast.Mult, ast.Div)) and left != right:
        inner = _quotient(formula, node.left if left else node.right)
        if inner is None:
            return None
        constant = float(formula.evaluate(_no_name, node.right if left else node.left))
        if constant == 0 or not math.isfinite(constant):
            raise InputError(f"a factor of a ratio is a number other than 0: {formula.text}")
        by = 1 / constant if isinstance(node.op, ast.Div) else constant
        return inner[0] * by, *inner[1:]
    return None


def _no_name(name: str) -> Any:
    raise InputError(f"{name} is no number")
