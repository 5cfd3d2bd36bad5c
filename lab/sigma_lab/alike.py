"""Whether two models mean the same: what `sigma compare` answers."""

from __future__ import annotations

from dataclasses import dataclass
from typing import TYPE_CHECKING

from . import place, seeds

if TYPE_CHECKING:
    from .model import Model
    from .plan import Plan

_STATUSES = (0, 12, 13)


@dataclass(frozen=True)
class Comparison:
    """The answer for two models.

    Attributes
    ----------
    verdict : str
        `same` or `differs`, which are sure; or `unknown`, if the program found neither.
    text : str
        The program's whole answer, with the two lines that differ.
    """

    verdict: str
    text: str

    def __str__(self) -> str:
        return self.text.rstrip("\n")


def compare(first: Model, second: Model, plan: Plan) -> Comparison:
    """What the program finds; see `Model.compare`."""
    document = "".join(_ended(model.filled().check().text) for model in (first, second))
    words: list[str | int] = ["compare", f"--until={plan.until}", f"--events={plan.events}"]
    words += [f"--seed={seeds.spawn(plan.seed)}", f"--runs={plan.runs}"]
    if plan.start:
        words.append("--start=" + ",".join(map(str, plan.start)))
    answer = place.ask(words, document, accept=_STATUSES)
    return Comparison(answer.partition("\n")[0], answer)


def _ended(text: str) -> str:
    return text if text.endswith("\n") else text + "\n"
