"""Patterns beside traces by hand: teams, amounts, stores, batches, setups, transport, routes and logs."""

import pytest
from models import history

from sigma_lab.errors import InputError
from sigma_lab.model import Model
from sigma_lab.patterns import (
    AnyOf,
    Buffer,
    Flow,
    Resource,
    Setups,
    Store,
    Team,
    Transport,
)
from sigma_lab.terms import choose, draw


def test_who_comes_back_holds_what_the_others_hold():
    m = Model("BACK")
    desk, way = Resource(m, "DESK"), Flow(m, "P")
    way.arrive(gap=5)
    way.at("AGAIN")
    way.delay(1)
    way.seize(desk)
    with pytest.raises(InputError, match="with DESK in hand"):
        way.go("AGAIN")


# Several at once, one of several, stores, buffers, batches, setups, transport.


def test_a_team_waits_for_all():
    # One doctor, one nurse.  A needs both for 10, B the nurse for 3.  A comes at 1 and 2, B at 1.
    m = Model("TEAM")
    doctor, nurse = Resource(m, "DOCTOR"), Resource(m, "NURSE")
    a, b = Flow(m, "A", most=9), Flow(m, "B", most=9)
    a.arrive(gap=1, until=2)
    b.arrive(gap=1, until=1)
    a.seize(doctor, nurse)
    a.delay(10)
    a.release(doctor, nurse)
    a.leave()
    b.serve(nurse, 3)
    b.leave()
    m.watch("A_GOES_ON", "B_ENDS_NURSE", doctor.busy, nurse.busy)
    notes, last = history(m.check(), 100)
    ends = [(tick, event) for tick, event, _ in notes if event]
    # At 1 A takes both; B waits for the nurse, and so does the second A.  B came first.
    assert ends == [(11, "A_GOES_ON"), (14, "B_ENDS_NURSE"), (24, "A_GOES_ON")]


def test_a_team_that_lacks_one_holds_up_nobody():
    # The doctor is busy until 50.  A team waits from 5 on; the nurse serves others meanwhile.
    m = Model("LACKS")
    doctor, nurse = Resource(m, "DOCTOR"), Resource(m, "NURSE")
    busy, team, other = Flow(m, "BUSY", most=2), Flow(m, "BOTH", most=2), Flow(m, "OTHER", most=9)
    busy.arrive(gap=1, until=1)
    busy.serve(doctor, 49)
    busy.leave()
    team.arrive(gap=5, until=5)
    team.seize(Team(m, "VISIT", doctor, nurse))
    team.delay(10)
    team.release()
    team.leave()
    other.arrive(gap=10, until=60)
    other.serve(nurse, 4)
    other.leave()
    m.watch("BOTH_GOES_ON", "OTHER_ENDS_NURSE", nurse.busy)
    notes, _ = history(m.check(), 100)
    ends = [(tick, event[:4]) for tick, event, _ in notes if event]
    # At 50 the team begins before the one who comes then; that one follows at 60, and the next at 64.
    assert ends == [
        (14, "OTHE"),
        (24, "OTHE"),
        (34, "OTHE"),
        (44, "OTHE"),
        (60, "BOTH"),
        (64, "OTHE"),
        (68, "OTHE"),
    ]


def test_one_of_several():
    # Calls for ENGLISH go to the clerk, then to the one who speaks both; calls for SPANISH only to that one.
    m = Model("CALLS")
    clerk, both = Resource(m, "CLERK"), Resource(m, "BOTH")
    english, spanish = Flow(m, "E", most=9), Flow(m, "S", most=9)
    anyone = AnyOf(m, "ENGLISH", clerk, both)
    english.arrive(gap=1, until=3)
    english.serve(anyone, 10)
    english.leave()
    spanish.arrive(gap=4, until=4)
    spanish.serve(both, 5)
    spanish.leave()
    m.watch("E_ENDS_ENGLISH", "S_ENDS_BOTH", clerk.busy, both.busy)
    notes, _ = history(m.check(), 100)
    ends = [
        (tick, event[0], cells["CLERK_BUSY"], cells["BOTH_BUSY"])
        for tick, event, cells in notes
        if event
    ]
    # E at 1 to the clerk, at 2 to the other one, at 3 waits; S at 4 waits.  At 11 E has the clerk; at 12 S has the other.
    assert [each[:2] for each in ends] == [(11, "E"), (12, "E"), (17, "S"), (21, "E")]


def test_amounts():
    # Five beds; groups of 3, 3 and 2: the second waits, and the third behind it too.
    m = Model("BEDS")
    beds = Resource(m, "BED", staff=5)
    way = Flow(m, "GROUP", most=9)
    size, number = way.attribute("SIZE", 1, 3), m.var("NUMBER", 0, 99)
    way.arrive(gap=1, until=3)
    way.set(number, number + 1)
    way.set(size, choose(number == 3, 2, 3))
    way.seize(beds, amount=size)
    way.delay(10)
    way.release(beds)
    way.leave()
    m.watch("GROUP_GOES_ON", beds.busy)
    notes, _ = history(m.check(), 100)
    assert [(tick, cells["BED_BUSY"]) for tick, event, cells in notes if event] == [
        (11, 0),
        (21, 2),
        (21, 0),
    ] or [tick for tick, event, _ in notes if event] == [11, 21, 21]
    assert max(cells["BED_BUSY"] for _, _, cells in notes) == 5


def test_an_assembly_from_stores():
    # A frame comes each 10 ticks, a wheel each 2; a car needs one frame, four wheels and the machine, for 5 ticks.
    m = Model("CARS")
    wheels, frames, machine = Store(m, "WHEELS"), Store(m, "FRAMES"), Resource(m, "MACHINE")
    for name, store, gap in (("W", wheels, 2), ("F", frames, 10)):
        way = Flow(m, name, most=2)
        way.arrive(gap=gap)
        way.put(store)
        way.leave()
    car = Flow(m, "CAR", most=100)
    car.arrive(gap=1, until=50)
    car.seize(Team(m, "ASSEMBLY", machine, (wheels, 4), frames))
    car.delay(5)
    car.release(machine)
    car.leave()
    m.watch("CAR_GOES_ON", wheels.pieces, frames.pieces, car.done)
    notes, _ = history(m.check(), 99)
    assert [tick for tick, event, _ in notes if event] == list(range(15, 99, 10))
    assert notes[-1][2]["FRAMES_PIECES"] == 0 and notes[-1][2]["WHEELS_PIECES"] == 49 - 9 * 4


def test_a_store_with_room_for_two():
    # One piece comes each tick, and one is taken each 5: who puts the fourth waits.
    m = Model("SHELF")
    shelf = Store(m, "SHELF", capacity=2)
    maker, taker = Flow(m, "MAKER", most=50), Flow(m, "TAKER", most=50)
    maker.arrive(gap=1, until=10)
    maker.put(shelf)
    maker.leave()
    taker.arrive(gap=5, until=50)
    taker.get(shelf)
    taker.leave()
    m.watch("TAKER_HAS_SHELF", shelf.pieces, maker.inside, shelf.putting.queue)
    notes, last = history(m.check(), 100)
    taken = [(tick, cells["MAKER_INSIDE"]) for tick, event, cells in notes if event]
    assert [tick for tick, _ in taken] == list(range(5, 55, 5)) and last.startswith("ended")
    assert max(cells["SHELF_PIECES"] for _, _, cells in notes) == 2
    waiting = {tick: cells["MAKER_INSIDE"] for tick, _, cells in notes}
    # Five came until 5 and one was taken: two lie there, two wait.  Until 10 five more, one taken: six wait.
    assert waiting[5] == 2 and waiting[10] == 6 and waiting[50] == 0


def test_blocking_after_service():
    # Machine 1 takes 2, machine 2 takes 10, a place for one between them.  The parts come at 1, 2, 3, 4.
    m = Model("LINE")
    first, second, place = Resource(m, "M1"), Resource(m, "M2"), Buffer(m, "PLACE", 1)
    part = Flow(m, "PART", most=9)
    part.arrive(gap=1, until=4)
    part.seize(first)
    part.delay(2)
    part.seize(place)
    part.release(first)
    part.seize(second)
    part.release(place)
    part.delay(10)
    part.release(second)
    part.leave()
    m.watch("PART_GOES_ON_2", first.busy, place.busy, place.queue, part.done)
    notes, last = history(m.check(), 100)
    # 1..3 at M1, 3..13 at M2.  2nd: 3..5, in the place 5..13, M2 13..23.  3rd: 5..7, blocked until 13, place 13..23,
    # M2 23..33.  4th: M1 13..15, blocked until 23, place 23..33, M2 33..43.
    done = [tick for tick, event, cells in notes if event]
    assert done == [13, 23, 33, 43] and last == "ended 43"
    blocked = {tick: cells["PLACE_QUEUE[0]"] for tick, _, cells in notes}
    assert blocked[7] == 1 and blocked[13] == 0 and blocked[15] == 1 and blocked[23] == 0


def test_a_batch_goes_on_as_one():
    # Three together, in an oven for 10.  They come at 1, 2, .. 7: two batches, and one is left over.
    m = Model("OVEN")
    oven = Resource(m, "OVEN")
    way = Flow(m, "LOAF", most=9)
    way.arrive(gap=1, until=7)
    way.batch(3)
    way.serve(oven, 10)
    way.separate()
    way.leave()
    m.watch("LOAF_ENDS_OVEN", way.done, way.stayed, oven.served)
    notes, _ = history(m.check(), 100)
    assert [
        (tick, cells["LOAF_DONE"])
        for tick, event, cells in notes
        if not event and cells["LOAF_DONE"]
    ] == [(13, 3), (23, 6)]
    assert notes[-1][2]["OVEN_SERVED[0]"] == 2
    assert notes[-1][2]["LOAF_STAYED"] == (12 + 11 + 10) + (19 + 18 + 17)


def test_setups_by_sequence():
    # Kinds 0, 1, 1, 0, 0: setups of 0 (it stands at 0), 5, 1, 7, 0 ticks, and 10 of work each.
    m = Model("SETUPS")
    machine = Resource(m, "MACHINE")
    setups = Setups(m, "SETUP", [[0, 5], [7, 1]])
    way = Flow(m, "PART", most=9)
    kind, number = way.attribute("KIND", 0, 1), m.var("NUMBER", 0, 99)
    way.arrive(gap=1, until=5)
    way.set(kind, choose((number == 1) | (number == 2), 1, 0))
    way.set(number, number + 1)
    way.seize(machine)
    way.set_up(setups, kind)
    way.delay(10)
    way.release(machine)
    way.leave()
    m.watch("PART_GOES_ON", setups.count, setups.spent)
    notes, _ = history(m.check(), 200)
    assert [tick for tick, event, _ in notes if event] == [11, 26, 37, 54, 64]
    assert (notes[-1][2]["SETUP_COUNT"], notes[-1][2]["SETUP_SPENT"]) == (3, 13)


def test_the_nearest_vehicle_comes():
    # Places 0, 1, 2 on a line, 5 ticks apart; two vehicles at 0.  Parts go from 2 to 1 at 10, 11 and 12.
    m = Model("CARTS")
    carts = Transport(m, "CART", 2, [[0, 5, 10], [5, 0, 5], [10, 5, 0]])
    way = Flow(m, "PART", most=9)
    number = m.var("NUMBER", 0, 99)
    way.arrive(gap=10, until=30)
    way.move(carts, start=2, end=1)
    way.leave()
    m.watch("PART_OFF_CART", carts.empty, carts.loaded, carts.place)
    notes, _ = history(m.check(), 200)
    # At 10: the first cart, 10 empty, 5 loaded: 25.  At 20: the second one, from 0: 35.  At 30: the first one stands at
    # 1, 5 empty and 5 loaded: 40.
    assert [tick for tick, event, _ in notes if event] == [25, 35, 40]
    assert (notes[-1][2]["CART_EMPTY"], notes[-1][2]["CART_LOADED"]) == (25, 15)
    assert number is not None


def test_routes_by_chance():
    m = Model("ROUTES")
    way = Flow(m, "P", most=9)
    low, high = m.var("LOW", 0, 10**6), m.var("HIGH", 0, 10**6)
    way.arrive(gap=1)
    way.route({"A": 30, "B": 70, "C": 0})
    for name, counter in (("A", low), ("B", high), ("C", high)):
        way.at(name)
        way.set(counter, counter + 1)
        way.leave()
    m.watch(low, high)
    notes, _ = history(m.check(), 20_000)
    share = notes[-1][2]["LOW"] / 20_000
    assert abs(share - 0.3) < 4 * (0.21 / 20_000) ** 0.5


def test_entities_of_a_log():
    m = Model("LOG")
    desk = Resource(m, "DESK")
    way = Flow(m, "P", most=9)
    kind = way.attribute("KIND", 0, 3)
    way.arrive(gap=10, until=30)
    way.set(kind, 2)
    way.serve(desk, 15, patience=8)
    way.leave()
    way.log(kind)
    notes, _ = history(m.check(), 200)
    rows = [
        (
            cells["P_LOG_NUMBER"],
            cells["P_LOG_CAME"],
            tick,
            cells["P_LOG_WAITED"],
            event,
            cells["P_LOG_KIND"],
        )
        for tick, event, cells in notes
        if event
    ]
    # 10..25 served; 20 waits until 25, served until 40; 30 gives up at 38.
    assert rows == [
        (1, 10, 25, 0, "P_ENDS_DESK", 2),
        (3, 30, 38, 8, "P_LEAVES", 2),
        (2, 20, 40, 5, "P_ENDS_DESK", 2),
    ]


def test_a_log_of_many_is_whole():
    # Each has a row, numbers come again, and what was waited and served is what was stayed.
    m = Model("MANY")
    desk = Resource(m, "DESK", staff=2, classes=2)
    way = Flow(m, "P", most=20)
    kind = way.attribute("KIND", 0, 1)
    way.arrive(gap=draw(m.stream(), 4, 12))
    way.set_drawn(kind, draw(m.stream(), 0, 1))
    way.serve(desk, draw(m.stream(), 8, 22), kind, by=0, patience={0: 500, 1: 20})
    way.leave()
    way.log(kind)
    notes, last = history(m.check(), 20_000)
    assert last == "stopped 20000"
    rows = [(event, tick, cells) for tick, event, cells in notes if event]
    assert {event for event, _, _ in rows} == {"P_ENDS_DESK", "P_LEAVES"}
    numbers = sorted(cells["P_LOG_NUMBER"] for _, _, cells in rows)
    assert len(set(numbers)) == len(numbers) and max(numbers) - len(numbers) < 20
    for event, tick, cells in rows:
        served = tick - cells["P_LOG_CAME"] - cells["P_LOG_WAITED"]
        assert (
            served == 0 and cells["P_LOG_WAITED"] == 20
            if event == "P_LEAVES"
            else 8 <= served <= 22
        )


# What is refused when a model is built.
