"""Where the files of the repository are, and where the program is."""

from __future__ import annotations

import os
import subprocess
from pathlib import Path

TOP = Path(__file__).resolve().parents[2]
EXAMPLES = TOP / "examples"
ANSWERS = EXAMPLES / "answers"


def find_program() -> Path:
    """Find the program: the one that SIGMA names, else the one that was built here.

    Raises
    ------
    FileNotFoundError
        If that isn't a program.
    """
    named = os.environ.get("SIGMA")
    path = Path(named) if named else TOP / "crates/sigma_cli/out/sigma_cli"
    if not os.access(path, os.X_OK) or not path.is_file():
        reason = "SIGMA names no program" if named else "the program isn't built"
        raise FileNotFoundError(f"{reason}: {path}")
    return path.resolve()


def example(name: str) -> bytes:
    """Read an example model."""
    return (EXAMPLES / f"{name}.sigma").read_bytes()


def stored_answer(name: str) -> bytes:
    """Read a stored answer: `one.reduce` is what `reduce` writes for the model `one`."""
    return (ANSWERS / name).read_bytes()


def kept_files(*patterns: str) -> list[Path]:
    """List the files that git knows or would add, sorted by path.

    Parameters
    ----------
    patterns
        What git takes as a path with wildcards. Without one all files are listed.
    """
    words = ["git", "-C", str(TOP), "ls-files", "-z", "-co", "--exclude-standard", "--", *patterns]
    listed = subprocess.run(words, check=True, capture_output=True).stdout.decode().split("\0")
    paths = (TOP / name for name in sorted(set(listed)) if name)
    return [path for path in paths if path.is_file()]
