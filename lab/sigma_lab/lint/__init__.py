"""What is allowed and often a slip: by reading a text, and with a plan by making runs.

Each finding says where it is, what it may do, and what to write instead.  It is a question to the author, not a fault.
"""

from __future__ import annotations

from collections.abc import Iterable
from typing import TYPE_CHECKING

from . import edges, runs, text
from .finding import NOTE, SLIP, WRONG, Finding

if TYPE_CHECKING:
    import pandas as pd

    from ..model import Model
    from ..plan import Plan

__all__ = ["NOTE", "SLIP", "WRONG", "Finding", "frame", "lint"]

_ORDER = (WRONG, SLIP, NOTE)


def lint(model: Model, plan: Plan | None = None) -> list[Finding]:
    """All findings, the worst first.

    Parameters
    ----------
    model : Model
        The model.  Notes on what its parts write are left out.
    plan : Plan, optional
        With it runs are made, and their faults, clips and ranges are looked at.
    """
    findings = [finding for rule in (*text.RULES, *edges.RULES) for finding in rule(model)]
    if plan is not None:
        filled = model.filled()
        findings += [finding for rule in runs.RULES for finding in rule(filled, plan)]
    own = model.base().names
    written = model.graph.names - own
    findings = [each for each in findings if each.level != NOTE or each.place not in written]
    return sorted(findings, key=lambda each: _ORDER.index(each.level))


def frame(findings: Iterable[Finding]) -> pd.DataFrame:
    """A row for each finding: rule, level, place, text, advice."""
    import pandas as pd

    return pd.DataFrame(list(findings), columns=["rule", "level", "place", "text", "advice"])
