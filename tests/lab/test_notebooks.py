"""Each notebook runs, and shows what is stored in it."""

import sys

import nbformat
import pytest
from models import CHECKOUT

NOTEBOOKS = CHECKOUT / "lab" / "notebooks"
sys.path.append(str(NOTEBOOKS))

import make


@pytest.mark.parametrize("name", make.NAMES)
def test_it_shows_what_is_stored(name):
    stored = nbformat.read(NOTEBOOKS / f"{name}.ipynb", as_version=4)
    made = make.notebook(name)
    assert [cell.source for cell in made.cells] == [cell.source for cell in stored.cells]
    assert make.shown(made) == make.shown(stored)
    outputs = [output for cell in made.cells for output in cell.get("outputs", ())]
    assert outputs and not any(output["output_type"] == "error" for output in outputs)


def test_there_is_a_notebook_of_each_source():
    assert {path.stem for path in NOTEBOOKS.glob("*.ipynb")} == set(make.NAMES)
