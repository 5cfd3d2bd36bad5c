"""Pictures: what they show, and what they refuse."""

from __future__ import annotations

import math

import numpy as np
import pandas as pd
import pytest

from sigma_lab import plots, stats
from sigma_lab.errors import InputError, LabError
from sigma_lab.estimates import Estimate
from sigma_lab.history import History

DAY = b"at 0 Q=0\nat 5 Q=2\nat 9 Q=1\nstopped 20\n"


def heights(figure):
    return figure.axes[0].patches[0].get_data().values


def test_bars_begin_at_multiples_of_their_width():
    """Values from 100000 to 100009 had bars at 100000, 100002, 100002, .."""
    assert list(heights(plots.histogram({"a": np.arange(100000, 100010)}, 1))) == [0.1] * 10
    assert list(heights(plots.histogram({"a": [0.1, 0.2, 0.3]}, 0.1))) == pytest.approx([1 / 3] * 3)
    assert list(heights(plots.histogram({"a": [-1, 0, 0, 1]}, 1))) == [0.25, 0.5, 0.25]


def test_a_course_has_its_steps():
    figure = plots.course(History.parse(DAY), ["Q"], 10, "tens")
    made = figure.axes[0].patches[0].get_data()
    assert list(made.values) == [0, 2, 1] and list(made.edges) == [0, 0.5, 0.9, 2]


def test_a_missing_end_is_an_arrow():
    figure = plots.designs({"a": Estimate(2, 1, 3), "b": Estimate(1, 0.5, math.nan)}, "X")
    assert [each.get_text() for each in figure.axes[0].texts] == ["\N{RIGHTWARDS ARROW}"]


def test_a_sweep_has_a_line_for_each_choice():
    frame = pd.DataFrame({"S": [1, 2, 1, 2], "U": [5, 5, 6, 6], "measure": "X", "value": 1.0})
    frame = frame.assign(low=0.5, high=math.nan, unit="h")
    figure = plots.sweep(frame, "S", "X")
    assert len(figure.axes[0].containers) == 2 and figure.axes[0].get_ylabel() == "X (h)"
    with pytest.raises(InputError):
        plots.sweep(frame, "S", "Y")


def test_files(tmp_path):
    def figure():
        steps = np.random.default_rng(1).normal(size=(9, 60))
        return plots.welch(stats.warmup_curve(steps, 10, 2), "N")

    for kind, start in (("svg", b"<?xml"), ("png", b"\x89PNG"), ("pdf", b"%PDF")):
        path = tmp_path / f"a.{kind}"
        plots.save(figure(), path)
        assert path.read_bytes().startswith(start)
    again = tmp_path / "b.svg"
    plots.save(figure(), again)
    assert again.read_bytes() == (tmp_path / "a.svg").read_bytes()
    with pytest.raises(InputError):
        plots.save(figure(), tmp_path / "a.gif")
    with pytest.raises(LabError):
        plots.save(figure(), tmp_path / "no" / "a.png")


def test_what_has_no_picture():
    for bad in (
        lambda: plots.histogram({"a": [1, 2]}, 0),
        lambda: plots.histogram({"a": [0, 1e9]}, 1),
        lambda: plots.course(History.parse(DAY), ["R"]),
        lambda: plots.correlogram([1, 1, 1]),
    ):
        with pytest.raises(InputError):
            bad()


def test_a_correlogram_shows_what_follows():
    noise = np.random.default_rng(1).normal(size=2000)
    figure = plots.correlogram(noise[1:] + noise[:-1], 5)
    lines = figure.axes[0].collections[0].get_segments()
    heights_of = [float(each[1][1]) for each in lines]
    assert heights_of[0] == 1 and heights_of[1] == pytest.approx(0.5, abs=0.1)
    assert abs(heights_of[3]) < 0.1
