"""What a lint finds."""

from __future__ import annotations

from dataclasses import dataclass

WRONG, SLIP, NOTE = "wrong", "slip", "note"
"""Surely not what was meant; often a slip; worth knowing."""


@dataclass(frozen=True)
class Finding:
    """A question to the author.

    Attributes
    ----------
    rule : str
        What found it.
    level : str
        `wrong`, `slip` or `note`.
    place : str
        An event, a variable, a stream or a seed.
    text : str
        What is there.
    advice : str
        What to write instead.
    """

    rule: str
    level: str
    place: str
    text: str
    advice: str = ""

    def __str__(self) -> str:
        advice = f"; {self.advice}" if self.advice else ""
        return f"{self.level}: {self.place}: {self.text}{advice} [{self.rule}]"
