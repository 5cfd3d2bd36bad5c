"""What `reduce` answers: the model it reached, why each step is allowed, and the certificate by which that is checked."""

from __future__ import annotations

import html
from dataclasses import dataclass, replace
from typing import TYPE_CHECKING

from . import place
from .tree import ALWAYS, URGENT, names_read
from .writing import write_edge

if TYPE_CHECKING:
    from .model import Model


@dataclass(frozen=True)
class Application:
    """A line of a certificate: a rule, where it was applied, and what that was on."""

    rule: str
    places: tuple[str, ...]
    part: str = ""
    ranges: str = ""

    def why(self) -> str:
        first = self.places[0]
        by = f" by the declared ranges ({self.ranges})" if self.ranges else ""
        if self.rule == "prune":
            return (
                f"{first}: the edge `{self.part}` is removed, since its condition can't hold{by}."
            )
        if self.rule == "settle":
            return f"{first}: the condition of `{self.part}` is removed, since it always holds{by}."
        if self.rule == "drop":
            return f"{first} is removed, since no edge of an event that can occur leads to it."
        if self.rule == "merge":
            return f"{self.places[1]} becomes part of {first}, which always schedules it at once, and nothing can come between."
        names = ", ".join(self.places)
        verb = "is" if len(self.places) == 1 else "are"
        return f"{names} {verb} removed: nothing that is watched depends on {'it' if verb == 'is' else 'them'}, and no store can fault."


@dataclass(frozen=True)
class Reduction:
    """What `reduce` answers: the model it reached, and the certificate, by which it can be checked."""

    original: Model
    model: Model
    certificate: str

    @property
    def applications(self) -> list[Application]:
        """The lines of the certificate, each with the edge that it was applied to."""
        graph = self.original.graph
        edges = {each.name: list(each.edges) for each in graph.vertices}
        ranges = {each.name: f"{each.name} is {each.range}" for each in graph.variables}
        answer = []
        for line in self.certificate.splitlines()[1:-1]:
            rule, *places = line.split(" ")
            part = shown = ""
            if rule in ("prune", "settle"):
                at = int(places[1]) - 1
                edge = edges[places[0]][at]
                part = write_edge(edge).rstrip(";")
                shown = ", ".join(ranges[each] for each in names_read(edge.condition))
                edges[places[0]][at : at + 1] = (
                    [] if rule == "prune" else [replace(edge, condition=ALWAYS)]
                )
            elif rule == "merge":
                kept = [
                    each
                    for each in edges[places[0]]
                    if not (each.kind == URGENT and each.condition == ALWAYS)
                ]
                edges[places[0]] = kept + edges[places[1]]
            answer.append(Application(rule, tuple(places), part, shown))
        return answer

    def why(self) -> list[str]:
        """A sentence for each application."""
        return [each.why() for each in self.applications]

    def verify(self) -> bool:
        """Whether the program's checker finds the certificate sound."""
        return self.verdict() == "sound"

    def verdict(self) -> str:
        """What `certify` answers: `sound`, `rejected LINE` or `differs`."""
        original = self.original.text
        document = (
            original
            + ("" if original.endswith("\n") else "\n")
            + self.model.text
            + self.certificate
        )
        return place.ask(["certify"], document, accept=(0, 8)).strip()

    def _repr_html_(self) -> str:
        rows = "".join(f"<li>{html.escape(each)}</li>" for each in self.why())
        return f"<p>{len(self.applications)} applications, {self.verdict()}</p><ol>{rows}</ol>{self.model._repr_svg_()}"
