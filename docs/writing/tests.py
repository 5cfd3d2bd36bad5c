"""A list of the tests, from the first sentence of each file."""

from __future__ import annotations

import ast
from pathlib import Path

from support.places import TOP, kept_files
from writing.parts import code, lowered, topic


def about(path: Path) -> str:
    """Read the first sentence of a test's file.

    Raises
    ------
    ValueError
        If the file says nothing.
    """
    said = ast.get_docstring(ast.parse(path.read_text())) or ""
    if not said:
        raise ValueError(f"{path.relative_to(TOP)} doesn't say what it tries")
    return lowered(topic(said)).replace("|", r"\|")


def tests(_page: Path) -> str:
    """List the files of tests that the gate runs, by folder."""
    folders: dict[str, list[str]] = {}
    for path in kept_files("tests/*/test_*.py"):
        name = path.stem.removeprefix("test_")
        folders.setdefault(path.parent.name, []).append(f"- {code(name)}: {about(path)}")
    return "\n\n".join(
        f"{code(f'tests/{folder}')}:\n\n" + "\n".join(files) for folder, files in folders.items()
    )
