"""Runs that spend their budget: those that never end name the events that come again and again."""

from models import CHECKOUT

from sigma_lab.faults import Fault, Stuck, whyfault
from sigma_lab.model import Model


def test_a_budget_names_the_cycle():
    text = """model M; var N : 0..4 = 0; vertex RUN { schedule GO(0) after 3; schedule TICK after 1; }
    vertex TICK { schedule TICK after 1 when clk < 20; } vertex GO(N) { urgent BACK when N < 3; }
    vertex BACK { set N := if N < 3 then 2 else 1; urgent GO(N); } end"""
    answer = whyfault(Model.from_text(text), until=100, seed=1, events=100000)
    assert isinstance(answer, Stuck)
    assert set(answer.cycle) == {"GO", "BACK"} and answer.tick == 3 and answer.in_tick == 99997
    assert "without end" in str(answer)


_ENDLESS = """model M; var N : 0..4 = 0; vertex RUN { schedule GO after 3; } vertex GO { urgent BACK; }
vertex BACK { urgent GO; } end"""


def test_an_endless_run_is_noticed_without_a_budget():
    """The default budget of 2^40 events would take days."""
    answer = whyfault(Model.from_text(_ENDLESS), until=100, seed=1)
    assert isinstance(answer, Stuck) and answer.is_endless
    assert set(answer.cycle) == {"GO", "BACK"} and answer.tick == 3 and answer.events == 10**6


def test_a_long_run_at_one_tick_is_not_endless():
    """Two million events of one tick that count up to a fault."""
    text = """model M; var N : 0..2000000 = 0; vertex RUN { urgent GO; }
    vertex GO { set N := N + 1; urgent GO; } end"""
    answer = whyfault(Model.from_text(text), until=100, seed=1)
    assert isinstance(answer, Fault) and (answer.kind, answer.tick) == ("range", 0)


def test_a_budget_that_is_just_small():
    answer = whyfault(Model.read(CHECKOUT / "examples/bank.sigma"), until=480, seed=1, events=50)
    assert answer.cycle == () and "time goes on" in str(answer)
