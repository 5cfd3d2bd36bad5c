"""The four studies of the examples agree with independent programs in SimPy."""

import sys

import pytest
from models import CHECKOUT

sys.path.append(str(CHECKOUT / "lab" / "examples" / "beside"))

import compare


@pytest.mark.parametrize("name", compare.STUDIES)
def test_means_are_those_of_simpy(name):
    # Seeds are fixed, so this is no matter of chance; 8 runs have 14 degrees of freedom.
    rows = compare.compare(name, 8, 0.25)
    assert len(rows) >= 4
    for label, mean, error, other, other_error, apart in rows:
        assert abs(apart) < 3.5, (label, mean, error, other, other_error)


def test_what_is_apart_is_seen():
    # Buffers for 1 in place of 5: the means are far apart.
    study = compare.STUDIES["production_line"]
    beside = __import__("simpy_production_line")
    mine = [beside.run(seed, study.until, study.start)["parts an hour"] for seed in range(1, 9)]
    other = [beside.run(seed, study.until, (1,))["parts an hour"] for seed in range(1, 9)]
    (mean, error), (more, other_error) = map(compare.mean_and_error, (mine, other))
    assert abs(more - mean) > 3 * (error**2 + other_error**2) ** 0.5
