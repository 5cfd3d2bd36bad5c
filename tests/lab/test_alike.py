"""What `sigma compare` says of two models, by `Model.compare`."""

from __future__ import annotations

import pytest
from lab import example

from sigma_lab.model import Model, ModelError
from sigma_lab.plan import Plan

PLAN = Plan(480, runs=3)
DESK = Model.from_text(example("desk"))


def changed(old: str, new: str) -> Model:
    """The desk with another text in the place of one."""
    assert old in DESK.text
    return Model.from_text(DESK.text.replace(old, new))


def test_runs_that_differ() -> None:
    found = DESK.compare(changed("after 4", "after 5"), PLAN)
    assert found.verdict == "differs"
    verdict, run, first, second = str(found).splitlines()
    assert run.startswith("run 1 seed ")
    assert first.startswith("first at 4 ") and second.startswith("second at ")
    assert int(second.split()[2]) > 4


def test_models_that_declare_otherwise() -> None:
    found = DESK.compare(changed("watch QUEUE, FREE", "watch QUEUE"), PLAN)
    assert found.verdict == "differs" and str(found).splitlines()[1] == "declared"


def test_models_that_are_the_same() -> None:
    renamed = changed("model DESK", "model COUNTER")
    assert DESK.compare(renamed, PLAN).verdict == "same"
    one = Model.from_text(example("one"))
    found = one.compare(one.reduce().model, PLAN)
    assert found.verdict == "same" and str(found) == "same"


def test_no_run_shows_a_difference() -> None:
    other = changed("when QUEUE > 0", "when QUEUE >= 1")
    assert DESK.compare(other, PLAN).verdict == "unknown"
    with pytest.raises(ModelError):
        DESK.compare(changed("vertex ", "vertx "), PLAN)


def test_tables_are_filled_and_starting_values_given() -> None:
    queue = Model.from_text(example("mm1"))
    faster = Model.from_text(queue.text.replace("exponential 80", "exponential 70"))
    assert queue.compare(faster, Plan(5000, runs=2)).verdict == "differs"
    rooms = Model.from_text(example("emergency"))
    assert rooms.compare(rooms, Plan(300, runs=2, start=(3,))).verdict == "same"
