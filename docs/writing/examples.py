"""Vertices of the example models, as pages show them."""

from __future__ import annotations

import re
from pathlib import Path

from support.places import TOP


def vertices(page: Path, model: str, *names: str) -> str:
    """Write vertices of a model, below a link to its file.

    Raises
    ------
    ValueError
        If the model has no such vertex.
    """
    path = f"examples/{model}.sigma"
    text = (TOP / path).read_text()
    blocks: list[str] = []
    for name in names:
        found = re.search(rf"^vertex {name}\b.*?^}}\n", text, re.M | re.S)
        if found is None:
            raise ValueError(f"{path} has no vertex {name}")
        blocks += [f"    {line}" for line in found[0].splitlines()]
    up = "../" * (len(page.relative_to(TOP).parts) - 1)
    return f"From [`{path}`]({up}{path}):\n\n" + "\n".join(blocks)
