"""Conflicts and meetings: which pairs are due at one moment, beside runs that are saved after each event."""

from collections import Counter

import pytest
from hypothesis import given, settings
from hypothesis import strategies as st
from models import CHECKOUT, random_graph

from sigma_lab import conflicts, probe, seeds
from sigma_lab.meets import Meets, meets
from sigma_lab.model import Model
from sigma_lab.plan import Plan


def example(name: str) -> Model:
    return Model.read(CHECKOUT / "examples" / f"{name}.sigma")


@given(st.integers(0, 2**32))
@settings(max_examples=40, deadline=None)
def test_conflicts_of_random_models(seed):
    model = Model.from_graph(random_graph(seed))
    frame = model.conflicts(through=True)
    own = frame[frame["through"].map(len) == 0]
    assert conflicts.lines(own) == model.ask("conflicts").splitlines()


def met_when_saved(model: Model, plan: Plan) -> Counter:
    """In how many ticks each pair was due at once with one priority: each run is saved after each of its events.

    A pair counts for a tick if both are pending there with the priority of the event that comes next.
    """
    pairs = {(row.first, row.second) for row in model.conflicts(through=True).itertuples()}
    answer: Counter = Counter()
    for number in range(1, plan.runs + 1):
        run = probe.run_of(
            model.graph, plan.until, seeds.spawn(plan.seed, number), tuple(plan.start), plan.events
        )
        met = set()
        total = probe.ending(model.graph, run).events
        for events in range(total + 1):
            snapshot = probe.saved(model.graph, run, events)
            if (
                snapshot is None
                or not snapshot.pending
                or snapshot.clock + snapshot.pending[0].delay > plan.until
            ):
                continue
            one, *others = snapshot.pending
            for other in others:
                if (one.delay, one.priority) == (other.delay, other.priority):
                    for pair in ((one.vertex, other.vertex), (other.vertex, one.vertex)):
                        if pair in pairs:
                            met.add((pair, snapshot.clock + one.delay))
        answer.update(pair for pair, _ in met)
    return answer


@pytest.mark.parametrize(
    "name, start, until, runs",
    [
        ("bank", (), 100, 2),
        ("stock", (), 5, 2),
        ("emergency", (3,), 120, 2),
        ("flow_line", (2,), 60, 1),
        ("clinic", (), 120, 2),
    ],
)
def test_meetings_are_those_of_saved_runs(name, start, until, runs):
    model, plan = example(name).filled(), Plan(until, runs=runs, events=100000, start=start)
    search = Meets(model, plan, exchange=False)
    assert Counter(
        {(each.first, each.second): each.ticks for each in search.each()}
    ) == met_when_saved(model, plan)
    assert search.unknown == 0


def test_conflicts_that_are_left_out():
    model = example("emergency")
    assert len(model.conflicts()) == 10
    few = model.conflicts(urgent=False, left=False)
    assert len(few) < 10 and ("JOIN", "CALL") not in set(zip(few["first"], few["second"]))


def test_whether_the_order_matters():
    frame = meets(example("stock"), Plan(5, runs=2, events=100))
    assert frame["matters"].tolist() == [True] and "SEEN last 8, more 1" in frame["effect"][0]
    frame = meets(example("bank"), Plan(600, runs=4, events=100000)).set_index(["first", "second"])
    assert frame.loc[("ARRIVE", "LEAVE"), "matters"] is False


def test_progress_is_told():
    told = []
    list(
        Meets(
            example("bank"),
            Plan(600, runs=3, events=100000),
            progress=lambda *what: told.append(what),
        ).each()
    )
    assert ("runs", 3, 3) in told and any(each[0] == "pairs" for each in told)
