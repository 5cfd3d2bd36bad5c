"""Writes the notebooks and runs them: `python3 make.py [NAME ..]`.

A notebook is made from a text in `sources`, where `# %%` begins a cell of code and `# %% [markdown]` one of words.  It
is run by nbconvert in this folder, with the lab's package and the program of the environment's SIGMA, and written with
what its cells showed.
"""

from __future__ import annotations

import os
import re
import sys
from pathlib import Path
from typing import Any

import nbformat
from nbconvert.preprocessors import ExecutePreprocessor

HERE = Path(__file__).resolve().parent
NAMES = tuple(sorted(path.stem for path in (HERE / "sources").glob("*.py")))
SECONDS = 300  # that a cell may take


def cells_of(text: str) -> list[Any]:
    """The cells of a source."""
    cells = []
    for part in re.split(r"^# %%", text, flags=re.M)[1:]:
        head, _, body = part.partition("\n")
        body = body.strip("\n")
        if head.strip() == "[markdown]":
            words = "\n".join(
                line.removeprefix("#").removeprefix(" ") for line in body.splitlines()
            )
            cells.append(nbformat.v4.new_markdown_cell(words))
        else:
            cells.append(nbformat.v4.new_code_cell(body))
    for number, cell in enumerate(cells):
        cell["id"] = f"cell-{number}"
    return cells


def notebook(name: str) -> Any:
    """The notebook of a source, run."""
    path = os.pathsep.join(filter(None, (str(HERE.parent), os.environ.get("PYTHONPATH"))))
    os.environ["PYTHONPATH"] = path
    made = nbformat.v4.new_notebook(cells=cells_of((HERE / "sources" / f"{name}.py").read_text()))
    made.metadata["kernelspec"] = {
        "name": "python3",
        "display_name": "Python 3",
        "language": "python",
    }
    ExecutePreprocessor(timeout=SECONDS, kernel_name="python3").preprocess(
        made, {"metadata": {"path": str(HERE)}}
    )
    for cell in made.cells:
        cell.metadata.pop("execution", None)  # the time of day
        if cell.cell_type == "code":
            cell.outputs = joined(cell.outputs)
    made.metadata.pop("language_info", None)
    return made


def joined(outputs: list[Any]) -> list[Any]:
    """The outputs with neighbouring pieces of one stream in one: how they are cut depends on the time."""
    answer: list[Any] = []
    for output in outputs:
        last = answer[-1] if answer else {}
        if output.output_type == "stream" and last.get("name") == output.name:
            last.text += output.text
        else:
            answer.append(output)
    return answer


def shown(made: Any) -> list[list[str]]:
    """What each cell showed, as texts: pictures aside, since their bytes depend on the drawing library."""
    answer = []
    for cell in made.cells:
        texts = []
        for output in cell.get("outputs", ()):
            data = output.get("data", {})
            text = output.get("text") or data.get("text/plain", "")
            if not any(kind.startswith("image/") for kind in data):
                texts.append(text)
        answer.append(texts)
    return answer


def main(names: list[str]) -> int:
    """Writes the notebooks that are named, or all."""
    for name in names or NAMES:
        path = HERE / f"{name}.ipynb"
        beside = path.with_suffix(".new")
        nbformat.write(notebook(name), beside)
        beside.replace(path)
        print(path.name)
    return 0


if __name__ == "__main__":
    sys.exit(main(sys.argv[1:]))
