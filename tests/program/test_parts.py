"""Runs that are made in parts, each from its first seed on, are those of one call."""

from __future__ import annotations

from dataclasses import dataclass

import pytest

from support.models import faulty_desk, shop_of_another_kind
from support.places import example
from support.program import Answer, Program
from support.reports import joined

# Its values and areas have more digits than 64 bits hold, and some are below 0.
LARGE = b"""model LARGE;
var BIG : -4611686018427387904..4611686018427387904 = 0;
var LOW : -4611686018427387904..4611686018427387904 = 0;
var SIGN : -1..1 = 0;
var PART : 0..4294967295 = 0;
watch BIG, LOW, SIGN, FLIP;
vertex RUN(SIGN) {
  schedule FLIP;
}
vertex FLIP {
  draw PART from 0 in 0..4294967295;
  set BIG := (4611686018427387904 - PART) * SIGN;
  set LOW := PART - 4611686018427387904;
  set SIGN := 0 - SIGN;
  schedule FLIP after 70000000001;
}
end
"""
LAST_SEED = 2**64 - 1


@dataclass(frozen=True)
class Study:
    """The words of a report, but for its seed and its number of runs."""

    words: str
    seed: int
    runs: int

    def call(self, call: Program, text: bytes, first: int, runs: int) -> Answer:
        """Make so many runs, beginning with this one, counted from 0."""
        seed = (self.seed + first) % 2**64
        return call(f"replicate {self.words} --seed {seed} --runs {runs}", text)


def in_parts(study: Study, text: bytes, parts: int, call: Program) -> list[Answer]:
    """Make the parts of a study, as even as can be; one without a run is left out."""
    ends = [study.runs * part // parts for part in range(parts + 1)]
    spans = [(first, end - first) for first, end in zip(ends, ends[1:]) if end > first]
    return [study.call(call, text, *span) for span in spans]


STUDIES: dict[str, tuple[bytes, Study]] = {
    "the bank": (example("bank"), Study("--until 600 --events 100000", 1, 7)),
    "one run": (example("clinic"), Study("--until 480 --events 100000", 5, 1)),
    "few runs": (example("clinic"), Study("--until 480 --events 100000", LAST_SEED - 1, 5)),
    "many runs": (example("clinic"), Study("--until 480 --events 100000", LAST_SEED, 8)),
    "a spent budget": (example("shop"), Study("--until 600 --events 300", LAST_SEED - 2, 6)),
    "a fault": (faulty_desk(), Study("--until 30 --events 1000", 7, 4)),
}
for START in (1, -1, 0):
    STUDIES[f"large values from {START}"] = (
        LARGE,
        Study(f"--until {2**48} --events 1000000 --start={START}", 9, 5),
    )


@pytest.mark.parametrize("parts", [1, 2, 3, 7, 9])
@pytest.mark.parametrize("text, study", STUDIES.values(), ids=STUDIES.keys())
def test_parts_are_one_call(text: bytes, study: Study, parts: int, call: Program) -> None:
    """The parts, joined, are the report of one call, with seeds that go on from 0."""
    whole = study.call(call, text, 0, study.runs)
    answers = in_parts(study, text, parts, call)
    assert {answer.status for answer in answers} == {0}
    whole.gives(joined([answer.output for answer in answers]))


@pytest.mark.parametrize(
    "text, study",
    [
        (LARGE, Study("--until 5 --events 1000 --start 1,2", 9, 5)),
        (shop_of_another_kind(), Study("--until 5 --events 1000", 9, 5)),
    ],
    ids=["starting values too many", "no model"],
)
def test_refused_parts(text: bytes, study: Study, call: Program) -> None:
    """What one call refuses each part refuses by the same line."""
    whole = study.call(call, text, 0, study.runs)
    assert whole.status in (1, 9) and whole.output == b""
    assert all(answer == whole for answer in in_parts(study, text, 3, call))
