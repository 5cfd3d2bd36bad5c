"""Patterns beside traces by hand: ties, shifts, interruptions, patience."""

import pytest
from models import history

from sigma_lab.errors import InputError
from sigma_lab.model import Model
from sigma_lab.patterns import (
    Flow,
    Preemptive,
    Resource,
)
from sigma_lab.terms import by_number, choose, draw

OUTCOMES = ("ended", "stopped")


def jobs(
    gap,
    classes,
    work,
    *,
    until=None,
    staff=1,
    kind=Resource,
    patience=None,
    roster=None,
    breakdowns=None,
    count=2,
    stop=300,
    **more,
):
    """Who left when: a list of (tick, number of the arrival), and the counts at the end."""
    m = Model("JOBS")
    desk = kind(m, "D", staff, count, **more)
    way = Flow(m, "P", most=50)
    order, job = way.attribute("ORDER", 0, count - 1), way.attribute("JOB", 0, 99)
    number = m.var("NUMBER", 0, 99)
    way.arrive(gap=gap, until=until)
    way.set(job, number)
    way.set(number, number + 1)
    way.set(order, by_number(job, classes))
    left = m.var("LEFT_NOW", 0, 99)
    way.serve(desk, by_number(job, work), order, patience=patience)
    way.set(left, job)
    way.leave()
    if roster:
        desk.roster(*roster)
    if breakdowns:
        desk.breakdowns(*breakdowns)
    end = way.name + "_ENDS_D"
    m.watch(end, left, way.done, desk.busy, desk.queue, desk.left, desk.served)
    if kind is Preemptive:
        m.watch(desk.interrupted)
    notes, last = history(m.check(), stop)
    assert last.split(" ")[0] in OUTCOMES, last
    return [(tick, cells["LEFT_NOW"]) for tick, event, cells in notes if event == end], notes[-1][2]


def test_an_urgent_one_interrupts():
    # The slow one is served 10..20 and 25..40, the urgent one 20..25, the third 40..41.
    left, cells = jobs(draw(0, 10, 10), [1, 0, 1], [25, 5, 1], until=39, kind=Preemptive)
    assert left == [(25, 1), (40, 0), (41, 2)] and cells["D_INTERRUPTED[1]"] == 1


def test_an_interrupted_service_may_begin_again():
    # The slow one is served 10..20, and all its 25 ticks from 25 on.
    left, _ = jobs(
        draw(0, 10, 10), [1, 0, 1], [25, 5, 1], until=39, kind=Preemptive, policy="repeat"
    )
    assert left == [(25, 1), (50, 0), (51, 2)]


def test_a_service_ends_before_one_comes():
    left, cells = jobs(draw(0, 10, 10), [1, 0], [10, 5], until=20, kind=Preemptive)
    assert left == [(20, 0), (25, 1)] and cells["D_INTERRUPTED[1]"] == 0


def test_equals_do_not_interrupt():
    left, cells = jobs(draw(0, 10, 10), [0, 0, 0], [25, 5, 5], until=30, kind=Preemptive)
    assert left == [(35, 0), (40, 1), (45, 2)] and cells["D_INTERRUPTED[0]"] == 0


def test_the_one_who_began_last_is_interrupted():
    # Two servers serve the first two; the urgent one at 30 takes that of the second, which has 90 - 10 ticks left.
    left, _ = jobs(draw(0, 10, 10), [1, 1, 0], [100, 90, 5], until=30, staff=2, kind=Preemptive)
    assert left == [(35, 2), (110, 0), (115, 1)]


def test_work_of_no_time():
    left, _ = jobs(draw(0, 10, 10), [1, 0, 1], [0, 0, 0], until=30, kind=Preemptive)
    assert left == [(10, 0), (20, 1), (30, 2)]


def test_nobody_is_interrupted_for_a_server_who_went_home():
    # Three serve from 10, 20 and 30 on, for 100 ticks each.  From 45 on one is on duty.  The fourth waits; the urgent
    # one comes at 50.  At 110 two still serve, at 120 one does, and it is interrupted: 10 ticks are left.
    left, cells = jobs(
        draw(0, 10, 10),
        [1, 1, 1, 1, 0],
        [100, 100, 100, 1, 5],
        until=50,
        staff=3,
        kind=Preemptive,
        roster=([(0, 3), (45, 1)], 1000),
        stop=600,
    )
    assert cells["D_INTERRUPTED[1]"] == 1
    assert left == [(110, 0), (120, 1), (125, 4), (135, 2), (136, 3)]


def test_nobody_is_interrupted_when_nobody_is_on_duty():
    # The first is served 10..30, although the shift ends at 12.  The urgent one waits for the shift at 40.
    left, cells = jobs(
        draw(0, 10, 10),
        [1, 0],
        [20, 5],
        until=20,
        kind=Preemptive,
        roster=([(0, 1), (12, 0), (40, 1)], 1000),
    )
    assert left == [(30, 0), (45, 1)] and cells["D_INTERRUPTED[1]"] == 0


def test_nobody_is_interrupted_for_a_server_that_broke_down():
    # Two serve from 10 and 20 on, for 100 ticks.  One server breaks at 25, until 500.  The urgent one comes at 30.  At
    # 110 the first ends, and one is left for one: the second is interrupted, with 10 ticks left.
    left, cells = jobs(
        draw(0, 10, 10),
        [1, 1, 0],
        [100, 100, 5],
        until=30,
        staff=2,
        kind=Preemptive,
        breakdowns=(25, 475),
        stop=200,
    )
    assert cells["D_INTERRUPTED[1]"] == 1
    assert left == [(110, 0), (115, 2), (125, 1)]


def test_who_is_served_when_a_shift_ends_is_served_to_the_end():
    left, _ = jobs(
        draw(0, 10, 10), [0, 0], [20, 5], until=20, roster=([(0, 1), (12, 0), (40, 1)], 1000)
    )
    assert left == [(30, 0), (45, 1)]


def test_a_shift_begins_before_one_comes():
    left, _ = jobs(draw(0, 10, 10), [0], [5], until=10, staff=0, roster=([(0, 0), (10, 1)], 1000))
    assert left == [(15, 0)]


def test_a_roster_without_a_period_stays_with_its_last_shift():
    left, _ = jobs(draw(0, 10, 10), [0], [5], until=10, staff=0, roster=([(0, 0), (50, 1)],))
    assert left == [(55, 0)]


def test_staff_before_the_first_shift():
    # Three servers until 100: nobody waits.
    left, _ = jobs(draw(0, 10, 10), [0] * 3, [50] * 3, until=30, staff=3, roster=([(100, 1)], 1000))
    assert left == [(60, 0), (70, 1), (80, 2)]


def test_service_comes_before_giving_up():
    # The first is served 5..15, the second 15..25; the third would give up at 25, and is served then.
    left, cells = jobs(draw(0, 5, 5), [0] * 3, [10] * 3, until=15, patience=10)
    assert left == [(15, 0), (25, 1), (35, 2)] and cells["D_LEFT[0]"] == 0


def test_who_gives_up_takes_no_room():
    # By night nobody serves: 1200 come, one each 100 ticks, and each gives up after 30.
    m = Model("NIGHT")
    desk = Resource(m, "DESK", staff=0)
    way = Flow(m, "P", most=3)
    way.arrive(gap=draw(m.stream(), 100, 100))
    way.serve(desk, 5, patience=30)
    way.leave()
    m.watch(desk.queue, desk.left, way.inside)
    notes, last = history(m.check(), 120_050)
    assert last == "stopped 120050"
    assert notes[-1][2]["DESK_LEFT[0]"] == 1200 and notes[-1][2]["P_INSIDE"] == 0


def test_a_long_stay_keeps_no_others_out():
    # The third stays for ever; of the others one is inside at a time.
    m = Model("LONG")
    way = Flow(m, "P", most=3)
    kind, number = way.attribute("KIND", 0, 1), m.var("NUMBER", 0, 10**6)
    way.arrive(gap=draw(m.stream(), 10, 10))
    way.set(number, number + 1)
    way.set(kind, choose(number == 3, 1, 0))
    way.delay({0: 5, 1: 10**6}, by=kind)
    way.leave()
    m.watch(way.done, way.inside)
    notes, last = history(m.check(), 5007)
    assert last == "stopped 5007"
    assert notes[-1][2] == {**notes[-1][2], "P_DONE": 499, "P_INSIDE": 1}


def test_one_more_than_there_is_room_for_is_a_fault():
    m = Model("FULL")
    way = Flow(m, "P", most=3)
    way.arrive(gap=draw(m.stream(), 10, 10))
    way.delay(1000)
    way.leave()
    m.watch(way.inside)
    assert history(m.check(), 100)[1] == "fault 40 range"


@pytest.mark.parametrize("until, ticks", [(140, [70, 140]), (139, [70]), (69, [])])
def test_nobody_comes_after_the_end(until, ticks):
    m = Model("END")
    way = Flow(m, "P")
    way.arrive(gap=draw(m.stream(), 70, 70), until=until)
    way.leave()
    m.watch(way.comes, way.done)
    notes, _ = history(m.check(), 1000)
    assert [tick for tick, event, _ in notes if event == way.comes] == ticks


def test_nobody_comes_after_the_end_by_rates():
    m = Model("RATES")
    way = Flow(m, "P")
    way.arrive(rates=[60, 0.5], length=600, until=100)
    way.leave()
    m.watch(way.comes, way.done)
    for seed in range(40):
        notes, _ = history(m, 2000, seed=seed)
        ticks = [tick for tick, event, _ in notes if event == way.comes]
        assert ticks and max(ticks) <= 100


def test_attributes_of_one_who_left_are_gone():
    # Each counts its tries from 0, although its number had another one's count.
    m = Model("TRIES")
    way = Flow(m, "P", most=2)
    tries = way.attribute("TRIES", 0, 9)
    way.arrive(gap=draw(m.stream(), 10, 10))
    way.at("TRY")
    way.set(tries, tries + 1)
    way.delay(1)
    way.go("TRY", when=tries < 3)
    way.leave()
    m.watch(way.done, way.stayed)
    notes, last = history(m.check(), 1009)
    assert (
        last.startswith("stopped") and notes[-1][2]["P_STAYED"] == 3 * notes[-1][2]["P_DONE"] == 300
    )


def test_two_ways_share_a_resource():
    # A comes at 10, 20, ..; B at 15, 25, ..; each is served for 4 ticks by one desk, so nobody waits.
    m = Model("TWO")
    desk = Resource(m, "DESK")
    with m.event("A_CLOCK") as e:
        e.urgent("A_COMES").schedule("A_CLOCK", after=10)
    with m.event("B_CLOCK") as e:
        e.urgent("B_COMES").schedule("B_CLOCK", after=10)
    with m.extend("OPEN") as e:
        e.schedule("A_CLOCK", after=10).schedule("B_CLOCK", after=15)
    for name in ("A", "B"):
        way = Flow(m, name, most=5)
        way.arrive()
        way.serve(desk, 4)
        way.leave()
        m.watch(way.done, way.inside)
    m.watch(desk.served, desk.waited)
    notes, last = history(m.check(), 1000)
    assert last == "stopped 1000"
    cells = notes[-1][2]
    assert (cells["A_DONE"], cells["B_DONE"], cells["DESK_WAITED[0]"]) == (99, 99, 0)
    assert cells["A_INSIDE"] + cells["B_INSIDE"] == 1 and cells["DESK_SERVED[0]"] == 199


def test_the_first_event_occurs_once():
    m = Model("AGAIN")
    with m.event("CLOCK") as e:
        e.schedule("CLOCK", after=10)
    _, way = Resource(m, "DESK"), Flow(m, "P")
    way.arrive(gap=5)
    way.leave()
    with pytest.raises(InputError, match="CLOCK is the first event"):
        m.text
