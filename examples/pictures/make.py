"""Draws each example model, and what `reduce` leaves of it if that is less, as SVG into this folder.

    python3 examples/pictures/make.py

It needs Graphviz.
"""

from __future__ import annotations

import sys
from pathlib import Path

HERE = Path(__file__).resolve().parent
sys.path.insert(0, str(HERE.parents[1] / "lab"))

from sigma_lab import graph  # noqa: E402
from sigma_lab.files import write  # noqa: E402
from sigma_lab.model import Model  # noqa: E402


def draw(model: Model, name: str) -> None:
    """A model as NAME.svg."""
    write(HERE / f"{name}.svg", graph.svg(model).encode())


def main() -> None:
    """Draws all of them."""
    for path in sorted(HERE.parent.glob("*.sigma")):
        model = Model.read(path)
        draw(model, path.stem)
        reduction = model.reduce()
        if reduction.applications:
            draw(reduction.model, f"{path.stem}_reduced")


if __name__ == "__main__":
    main()
