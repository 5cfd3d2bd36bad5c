"""What patterns refuse when a model is built, and the text that they write."""

import pytest

from sigma_lab.errors import InputError
from sigma_lab.model import Model
from sigma_lab.patterns import (
    Flow,
    Preemptive,
    Resource,
)
from sigma_lab.terms import draw


def model(**how):
    m = Model("M")
    desk = how.get("kind", Resource)(m, "DESK", how.get("staff", 1), how.get("classes", 1))
    way = Flow(m, "P", most=9)
    return m, desk, way


@pytest.mark.parametrize(
    "shifts, period, words",
    [
        ([], None, "one shift"),
        ([(0, 1), (0, 2)], None, "one after the other"),
        ([(480, 1), (0, 2)], 1000, "one after the other"),
        ([(0, 1), (480, 2)], 480, "period"),
        ([(0, 1), (480, 2)], 400, "period"),
        ([(0, -1)], None, "servers"),
        ([(-5, 1)], None, "one after the other"),
    ],
)
def test_rosters(shifts, period, words):
    _, desk, _ = model()
    with pytest.raises(InputError, match=words):
        desk.roster(shifts, period)


@pytest.mark.parametrize(
    "rates, length",
    [([0, 0], 600), ([], 600), ([3, 2], 0), ([-1, 2], 600), ([700], 600)],
)
def test_rates(rates, length):
    _, _, way = model()
    with pytest.raises(InputError):
        way.arrive(rates=rates, length=length)


def test_rates_may_have_fractions():
    m, _, way = model()
    way.arrive(rates=[3.5, 2], length=600)
    way.leave()
    m.check()
    assert "P_RATE[0], P_RATE[1] := 7, 4" in m.text or "P_RATE[0], P_RATE[1] := 35, 20" in m.text


def _no_end(m, desk, way):
    way.arrive(gap=5)
    way.delay(5)
    m.text


def _no_release(m, desk, way):
    way.arrive(gap=5)
    way.seize(desk)
    way.leave()


def _no_seize(m, desk, way):
    way.arrive(gap=5)
    way.release(desk)


def _twice(m, desk, way):
    way.arrive(gap=5)
    way.seize(desk)
    way.seize(desk)


def _nowhere(m, desk, way):
    way.arrive(gap=5)
    way.go("NOWHERE")
    m.text


def _nobody(m, desk, way):
    way.leave()


def _unreached(m, desk, way):
    way.arrive(gap=5)
    way.leave()
    way.at("ALONE")
    way.leave()
    m.text


def _class(m, desk, way):
    way.arrive(gap=5)
    way.seize(desk, order=2)


def _gone(m, desk, way):
    way.arrive(gap=5)
    way.seize(desk, patience=3, gone="AWAY")
    way.release()
    way.leave()
    m.text


def _holds(m, desk, way):
    other = Resource(m, "OTHER")
    way.arrive(gap=5)
    way.seize(other)
    way.seize(desk, patience=3)


def _uncovered(m, desk, way):
    kind = way.attribute("KIND", 0, 2)
    way.arrive(gap=5)
    way.delay({0: 5, 1: 7}, by=kind)


def _negative(m, desk, way):
    way.arrive(gap=5)
    way.delay(draw(0, -5, 5))


def _in_a_batch(m, desk, way):
    way.arrive(gap=5)
    way.batch(3)
    way.leave()


def _name(m, desk, way):
    Resource(m, "P")


@pytest.mark.parametrize(
    "build",
    [
        _no_end,
        _no_release,
        _no_seize,
        _twice,
        _nowhere,
        _nobody,
        _unreached,
        _class,
        _gone,
        _holds,
        _uncovered,
        _negative,
        _in_a_batch,
        _name,
    ],
    ids=lambda each: each.__name__,
)
def test_ways_that_are_wrong(build):
    with pytest.raises(InputError):
        build(*model())


@pytest.mark.parametrize("classes, interrupts", [(1, 1), (2, 2), (2, 3), (2, 0)])
def test_interrupting_classes(classes, interrupts):
    with pytest.raises(InputError, match="can interrupt"):
        Preemptive(Model("M"), "D", 1, classes, interrupts)


def test_seizing_preemptive_servers():
    _, desk, way = model(kind=Preemptive, classes=2)
    way.arrive(gap=5)
    with pytest.raises(InputError, match="use `serve`"):
        way.seize(desk)


def test_classes_and_staff():
    with pytest.raises(InputError, match="1 class or more"):
        Resource(Model("M"), "D", 1, 0)
    with pytest.raises(InputError, match="servers"):
        Resource(Model("M"), "D", -1)
    with pytest.raises(InputError, match="can't break down"):
        Resource(Model("M"), "D", 1).breakdowns(5, 5, units=2)


def test_a_text_has_comments_and_names():
    m, desk, way = model(classes=2)
    way.arrive(gap=5)
    way.serve(desk, 4)
    way.leave()
    m.check()
    vertices = [each.name for each in m.graph.vertices]
    assert vertices == [
        "OPEN",
        "DESK_JOIN",
        "DESK_NEXT",
        "DESK_START",
        "P_COMES",
        "P_ENTERS",
        "P_GETS_DESK",
        "P_ENDS_DESK",
    ]
    lines = m.text.splitlines()
    for at, line in enumerate(lines):
        if line.startswith("vertex") and "OPEN" not in line:
            assert lines[at - 1].startswith("# "), line
    assert m.outline().splitlines()[-1].startswith("P: comes with gaps; waits for DESK")
