"""Random ways through random resources: nobody is lost, levels fit who is where, and reductions are sound."""

from hypothesis import given, settings
from hypothesis import strategies as st
from models import history

from sigma_lab.model import Model
from sigma_lab.patterns import AnyOf, Flow, Preemptive, Resource, Team
from sigma_lab.terms import draw


@st.composite
def clinics(choose):
    """A model with one to three ways, and its resources and ways."""
    m = Model("RANDOM")
    pick = lambda *values: choose(st.sampled_from(values))
    doctor = Resource(m, "DOCTOR", pick(0, 1, 2), classes=2)
    nurse = Resource(m, "NURSE", pick(1, 2))
    urgent = Preemptive(
        m, "URGENT", pick(1, 2), 3, interrupts=pick(1, 2), policy=pick("resume", "repeat")
    )
    if pick(True, False):
        doctor.roster([(pick(0, 5), pick(0, 2)), (40, pick(0, 1, 3))], period=pick(60, 100))
    if pick(True, False):
        urgent.breakdowns(draw(m.stream(), 20, 60), draw(m.stream(), 5, 30))
    places = [doctor, nurse, Team(m, "TEAM", doctor, nurse), AnyOf(m, "ANY", nurse, doctor), urgent]
    ways = []
    for number in range(pick(1, 2, 3)):
        way = Flow(m, f"W{number}", most=400)
        kind = way.attribute(f"KIND_{number}", 0, 2)
        way.arrive(gap=draw(m.stream(), pick(2, 5), pick(6, 15)))
        way.set_drawn(kind, draw(m.stream(), 0, 2))
        for place in choose(st.lists(st.sampled_from(places), min_size=1, max_size=3)):
            classes = place.line.classes
            order = {1: 0, 2: (kind > 0), 3: kind}[classes]
            if classes == 2:
                order = pick(0, 1)
            patience = pick(None, 7, 30)
            way.serve(place, draw(m.stream(), 0, pick(3, 12)), order, by=0, patience=patience)
        way.leave()
        ways.append(way)
    m.watch(*(f"{way.name}_{what}" for way in ways for what in ("COMES", "INSIDE", "DONE")))
    m.watch(doctor.busy, nurse.busy, urgent.busy, doctor.staff, "ENTITY_IDLE", "ENTITY_FRESH")
    used = [place.line for place in places if place.line.is_used]
    m.watch(*(line.queue for line in used), *(line.left for line in used))
    return m, ways, used


@given(clinics(), st.integers(0, 2**32))
@settings(max_examples=25, deadline=None)
def test_nobody_is_lost(made, seed):
    m, ways, lines = made
    notes, last = history(m.check(), 400, seed=seed)
    assert last == "stopped 400"
    came = sum(event is not None for _, event, _ in notes)
    for _, event, cells in notes:
        if event is None:
            inside = sum(cells[f"{way.name}_INSIDE"] for way in ways)
            waiting = sum(
                cells[f"{line.name}_QUEUE[{kind}]"]
                for line in lines
                for kind in range(line.classes)
            )
            assert cells["ENTITY_FRESH"] - cells["ENTITY_IDLE"] == inside
            # A team holds two; nobody holds more than that, and who isn't waiting is served.
            busy = cells["DOCTOR_BUSY"] + cells["NURSE_BUSY"] + cells["URGENT_BUSY"]
            assert waiting <= inside <= waiting + busy <= waiting + 2 * (inside - waiting)
    cells = notes[-1][2]
    done = sum(cells[f"{way.name}_DONE"] for way in ways)
    left = sum(cells[f"{line.name}_LEFT[{kind}]"] for line in lines for kind in range(line.classes))
    assert came == done + left + sum(cells[f"{way.name}_INSIDE"] for way in ways)


@given(clinics())
@settings(max_examples=8, deadline=None)
def test_reductions_are_sound(made):
    m, _, _ = made
    assert m.reduce().verify() and m.narrow().reduce().verify()
