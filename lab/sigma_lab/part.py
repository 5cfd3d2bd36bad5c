"""What a part of a model is: a resource with its queue, or the way of entities."""

from __future__ import annotations

from collections.abc import Iterable, Mapping
from typing import Protocol

from .body import Body
from .tree import Variable, Vertex


class Part(Protocol):
    """Something that writes variables and events of a model, as a resource with its queue does.

    A model asks its parts for what they write each time it is put together, so a part may still change.
    """

    @property
    def name(self) -> str:
        ...

    def complete(self) -> None:
        """Raises InputError if something is missing."""

    def variables(self) -> Iterable[Variable]:
        """What it declares."""

    def opening(self, e: Body) -> None:
        """Adds what is done at time 0."""

    def vertices(self) -> Iterable[Vertex]:
        """Its events."""

    def notes(self) -> Mapping[str, str]:
        """A comment for each name that a reader should know."""

    def outline(self) -> list[str]:
        """What it is, in sentences for a planner."""
