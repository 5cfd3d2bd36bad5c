"""Pictures of matplotlib that show themselves in a notebook, and their bytes."""

from __future__ import annotations

import io

from matplotlib import rc_context
from matplotlib.figure import Figure

_METADATA = {"svg": {"Date": None}, "pdf": {"CreationDate": None}, "png": None}
KINDS = tuple(_METADATA)


def data_of(figure: Figure, kind: str) -> bytes:
    """A figure as svg, pdf or png.  The same figure has the same bytes."""
    made = io.BytesIO()
    with rc_context({"svg.hashsalt": "sigma"}):
        figure.savefig(made, format=kind, metadata=_METADATA[kind])
    return made.getvalue()


def svg_of(figure: Figure | str) -> str:
    """An `<svg>` element of a figure, or of a text that has one."""
    text = figure if isinstance(figure, str) else data_of(figure, "svg").decode()
    return text[text.index("<svg") :]


class Picture(Figure):  # type: ignore[misc]
    """A figure that a notebook shows."""

    def _repr_svg_(self) -> str:
        return svg_of(self)
