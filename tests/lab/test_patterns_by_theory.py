"""Patterns beside queueing theory: means of long runs within four standard errors, and a little for the tables.

SIGMA_LAB_LONG=1 makes 20 runs of each, each five times as long.
"""

import math
import os

import pytest
from models import replicate, values

from sigma_lab.model import Model
from sigma_lab.patterns import AnyOf, Flow, Preemptive, Resource, Team, arrivals, batch, queue
from sigma_lab.terms import draw

IS_LONG = os.environ.get("SIGMA_LAB_LONG") == "1"
RUNS, LENGTH = (20, 1_000_000) if IS_LONG else (8, 200_000)


def averages(
    m: Model, *items: str, length: float = 1, start: tuple[int, ...] = ()
) -> list[tuple[float, float]]:
    """The mean of each item's average, and its standard error."""
    report = replicate(m.check(), int(LENGTH * length), runs=RUNS, start=start)
    answer = []
    for item in items:
        found = values(report, item)
        mean = sum(found) / len(found)
        spread = sum((each - mean) ** 2 for each in found) / (len(found) - 1) / len(found)
        answer.append((mean, math.sqrt(spread)))
    return answer


def near(measured: tuple[float, float], theory: float) -> bool:
    """Within four standard errors; a start with an empty queue and tables of 200 rows cost another 1 %."""
    mean, error = measured
    print(f"measured {mean:.4f} +- {error:.4f}, theory {theory:.4f}")
    return abs(mean - theory) <= 4 * error + 0.01 * theory


def exponential(m: Model, name: str, mean: float):
    return draw(m.stream(), m.table(name, f"exponential {mean}"))


def station(
    m: Model, server, *, gap, service, mix=None, classes=1, patience=None, name="C", most=4000
) -> Flow:
    way = Flow(m, name, most=most)
    order = 0
    if mix:
        order = way.attribute(f"{name}_KIND", 0, classes - 1)
    way.arrive(gap=exponential(m, f"{name}_GAP_TABLE", gap))
    if mix:
        way.set_drawn(order, draw(m.stream(), m.table(f"{name}_MIX", mix)))
    waits = exponential(m, f"{name}_PATIENCE", patience) if patience else None
    way.serve(server, exponential(m, f"{name}_TIME", service), order, by=0, patience=waits)
    way.leave()
    return way


def erlang_c(servers: int, load: float) -> float:
    """The chance to wait in M/M/c (Erlang 1917)."""
    terms = [load**k / math.factorial(k) for k in range(servers)]
    last = load**servers / math.factorial(servers) * servers / (servers - load)
    return last / (sum(terms) + last)


def waiting(servers: int, load: float) -> float:
    """The mean number that wait in M/M/c."""
    return erlang_c(servers, load) * load / (servers - load)


def test_three_servers():
    m = Model("MMC")
    server = Resource(m, "S", 3)
    station(m, server, gap=200, service=480)
    m.watch(server.queue, server.busy)
    queued, busy = averages(m, "S_QUEUE[0]", "S_BUSY")
    assert near(queued, waiting(3, 2.4)) and near(busy, 2.4)


def test_two_ways_are_one_queue():
    # Each brings half of what comes to M/M/1 with load 0.8: the queue is that of one way with all.
    m = Model("TWO_WAYS")
    server = Resource(m, "S")
    ways = [station(m, server, gap=1000, service=400, name=name, most=2000) for name in ("A", "B")]
    m.watch(server.queue, server.busy, *(way.inside for way in ways))
    queued, first, second = averages(m, "S_QUEUE[0]", "A_INSIDE", "B_INSIDE", length=5)
    assert near(queued, waiting(1, 0.8))
    assert near(first, 2.0) and near(second, 2.0)


def test_classes():
    # Cobham 1954: without interruptions, the wait of each class.
    m = Model("COBHAM")
    server = Resource(m, "S", classes=3)
    station(m, server, gap=500, service=400, mix={0: 2, 1: 3, 2: 5}, classes=3)
    m.watch(server.queue)
    measured = averages(m, *(f"S_QUEUE[{kind}]" for kind in range(3)), length=4)
    loads = [0.16, 0.24, 0.40]
    for kind in range(3):
        before, through = sum(loads[:kind]), sum(loads[: kind + 1])
        wait = 0.8 * 400 / ((1 - before) * (1 - through))
        assert near(measured[kind], wait * loads[kind] / 400)


def test_patience():
    # M/M/2+M by its chain (Palm 1937).
    m = Model("PALM")
    server = Resource(m, "S", 2)
    station(m, server, gap=250, service=600, patience=1500)
    m.watch(server.queue)
    weights, weight = [], 1.0
    for k in range(400):
        weights.append(weight)
        weight *= (1 / 250) / (min(k + 1, 2) / 600 + max(k - 1, 0) / 1500)
    theory = sum(max(k - 2, 0) * each for k, each in enumerate(weights)) / sum(weights)
    assert near(averages(m, "S_QUEUE[0]")[0], theory)


def test_interrupting():
    # M/M/2 with three classes, of which the first two interrupt: each class sees only those before it.
    m = Model("PREEMPTIVE")
    server = Preemptive(m, "S", 2, 3, interrupts=2)
    way = station(m, server, gap=300, service=400, mix={0: 2, 1: 3, 2: 5}, classes=3, most=2000)
    m.watch(server.queue, server.interrupted, way.inside)
    first, second, inside = averages(m, "S_QUEUE[0]", "S_QUEUE[1]", "C_INSIDE", length=2)
    expected = [waiting(2, part * 4 / 3) for part in (0.2, 0.5, 1.0)]
    assert near(first, expected[0])
    assert near(second, expected[1] - expected[0])
    assert near(inside, expected[2] + 4 / 3)


def test_interrupted_services_that_begin_again():
    # M/M/1: exponential services that are repeated with the same time take longer than those that go on.
    means = []
    for policy in ("resume", "repeat"):
        m = Model("POLICY")
        server = Preemptive(m, "S", 1, 2, policy=policy)
        way = station(m, server, gap=1000, service=400, mix={0: 1, 1: 1}, classes=2)
        m.watch(way.inside)
        means.append(averages(m, "C_INSIDE", length=2)[0])
    assert near(means[0], 2 / 3) and means[1][0] > means[0][0]


def test_a_team_is_one_server():
    # Two of one kind and two of another, taken together: M/M/2.
    m = Model("TEAMS")
    first, second = Resource(m, "A", 2), Resource(m, "B", 2)
    team = Team(m, "BOTH", first, second)
    station(m, team, gap=300, service=480)
    m.watch(team.queue, first.busy, second.busy)
    queued, one, other = averages(m, "BOTH_QUEUE[0]", "A_BUSY", "B_BUSY", length=2)
    assert near(queued, waiting(2, 1.6)) and near(one, 1.6) and one == other


def test_one_of_several_is_one_queue():
    # One of A, then one of the two of B: together M/M/3, and A is busy as the first of ordered servers is.
    m = Model("SKILLS")
    first, second = Resource(m, "A", 1), Resource(m, "B", 2)
    anyone = AnyOf(m, "ANYONE", first, second)
    station(m, anyone, gap=200, service=480)
    m.watch(anyone.queue, first.busy, second.busy)
    queued, one, two = averages(m, "ANYONE_QUEUE[0]", "A_BUSY", "B_BUSY", length=2)
    assert near(queued, waiting(3, 2.4)) and near((one[0] + two[0], one[1] + two[1]), 2.4)
    assert one[0] > two[0] / 2


def test_skills_beside_the_chain():
    # Calls of kind E by the clerk or the one who speaks both, calls of kind S by the latter alone, who takes the one
    # who waits longest.  Nobody who loses patience: here only loads and who may serve whom are compared.
    m = Model("CALLS")
    clerk, both = Resource(m, "CLERK", 2), Resource(m, "BOTH", 2)
    english = AnyOf(m, "ENGLISH", clerk, both)
    one = station(m, english, gap=250, service=480, name="E")
    two = station(m, both, gap=600, service=480, name="S")
    m.watch(clerk.busy, both.busy, one.inside, two.inside, english.queue, both.queue)
    clerks, boths, waits_e, waits_s = averages(
        m, "CLERK_BUSY", "BOTH_BUSY", "ENGLISH_QUEUE[0]", "BOTH_QUEUE[0]", length=2
    )
    assert near((clerks[0] + boths[0], clerks[1] + boths[1]), 480 / 250 + 480 / 600)
    # Four servers who all serve all would have less waiting, two separate pairs more.
    assert waiting(4, 2.72) - 0.05 < waits_e[0] + waits_s[0] < waiting(2, 1.92) + waiting(2, 0.8)


def test_a_roster():
    m = Model("SHIFTS")
    day, night = m.var("DAY", 0, 9, 2), m.var("NIGHT", 0, 9, 1)
    m.starts_with(day, night)
    server = Resource(m, "S", staff=0)
    server.roster([(0, night), (480, day), (960, 0)], period=1440)
    station(m, server, gap=1000, service=10)
    m.watch(server.staff)
    report = replicate(m.check(), 14400, runs=1, start=(3, 1))
    assert values(report, "S_STAFF") == pytest.approx([(480 * 1 + 480 * 3) / 1440])


def test_breakdowns():
    m = Model("BREAKS")
    server = Resource(m, "S", 3)
    server.breakdowns(exponential(m, "UP", 900), exponential(m, "REPAIR", 100), units=3)
    station(m, server, gap=1000, service=20)
    m.watch(server.down)
    assert near(averages(m, "S_DOWN")[0], 0.3)


def test_rates_that_change():
    # 6, 0, 3.5 and 12 an hour of 3600 ticks: 21.5 in four hours.
    m = Model("RATES")
    way = Flow(m, "C", most=100)
    way.arrive(rates=[6, 0, 3.5, 12], length=3600)
    way.leave()
    m.watch(way.done)
    hours = 200
    report = replicate(m.check(), hours * 3600, runs=RUNS)
    found = values(report, "C_DONE", "last")
    mean, expected = sum(found) / len(found), 21.5 * hours / 4
    assert abs(mean - expected) < 4 * math.sqrt(expected / len(found)) + 0.003 * expected


def test_counted_batches_and_queues():
    m = Model("OVEN")
    baked = m.var("BAKED", 0, 10**6)
    m.starts_with()
    arrivals(m, "COME", draw(0, 3, 3), batch(m, "OVEN", 4, draw(1, 10, 10), then="OUT"))
    with m.event("OUT") as e:
        e.set(baked, baked + 4)
    m.watch(baked, "OUT")
    assert values(replicate(m.check(), 1210, runs=1), "BAKED", "last") == [400]
    m = Model("MM1")
    join = queue(m, "S", 1, exponential(m, "SERVICE", 500))
    arrivals(m, "COME", exponential(m, "GAP", 1000), join)
    m.watch("S_QUEUE")
    assert near(averages(m, "S_QUEUE", length=2)[0], 0.5)


def test_ways_that_branch():
    # A part is made, and one in four again: 1 / (1 - 1/4) times on average.
    m = Model("REWORK")
    made = m.var("MADE", 0, 10**9)
    machine = Resource(m, "MACHINE")
    way = Flow(m, "PART", most=500)
    way.arrive(gap=draw(m.stream(), 20, 40))
    way.at("MAKE")
    way.serve(machine, draw(m.stream(), 10, 20))
    way.set(made, made + 1)
    way.route({"MAKE": 1, "OUT": 3})
    way.at("OUT")
    way.leave()
    m.watch(made, way.done)
    report = replicate(m.check(), 300_000, runs=8)
    ratio = sum(values(report, "MADE", "last")) / sum(values(report, "PART_DONE", "last"))
    assert ratio == pytest.approx(4 / 3, rel=0.02)
