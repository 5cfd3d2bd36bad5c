"""What SECURITY.md says of memory: texts at their worst, and a run whose events a limit stops."""

from __future__ import annotations

import os
import resource
import subprocess
from pathlib import Path

import pytest

from support.program import Program

LONGEST_TEXT = 4_194_304
MEBIBYTE = 1 << 20

# An event with as many edges to itself as this, each of which is due at the next tick.
EDGES = 900


def peak(program: Path, text: bytes, folder: Path) -> int:
    """Answer how many bytes of memory `check` takes for a text."""
    (folder / "text").write_bytes(text)
    with (folder / "text").open("rb") as given:
        called = subprocess.Popen(
            [program, "check"], stdin=given, stdout=subprocess.DEVNULL, stderr=subprocess.DEVNULL
        )
        _, _, used = os.wait4(called.pid, 0)
    called.returncode = 0
    most: int = used.ru_maxrss
    return most * 1024


def repeated(head: str, line: str, tail: str) -> bytes:
    """Make a text of the greatest length with this line as often as there is room."""
    count = (LONGEST_TEXT - len(head) - len(tail)) // len(line)
    return (head + count * line + tail).encode()


@pytest.mark.parametrize(
    "line", [f"set A := {'-' * 250}A;\n", "set A:=A;", "set A:=1+1+1+1+1+1+1+1;", "schedule V;"]
)
def test_the_memory_of_a_refused_text(line: str, program: Program, tmp_path: Path) -> None:
    """One event has too many changes or edges, and all are read: at most 123 bytes a byte."""
    text = repeated("model M;\nvar A : 0..9 = 0;\nvertex V {\n", line, "}\nend\n")
    assert peak(program.path, text, tmp_path) <= 123 * len(text)


def test_the_memory_of_a_run(program: Program) -> None:
    """A run that needs more than it may have ends with its own status and line."""
    edges = EDGES * "  schedule V after 1;\n"
    model = f"model B;\nvertex V {{\n{edges}}}\nend\n".encode()
    words = "run --until 1000000 --seed 1 --events 10000".split()
    ran = subprocess.run(
        [program.path, *words],
        input=model,
        stdout=subprocess.DEVNULL,
        stderr=subprocess.PIPE,
        preexec_fn=lambda: resource.setrlimit(resource.RLIMIT_AS, (200 * MEBIBYTE, 200 * MEBIBYTE)),
        check=False,
    )
    assert (ran.returncode, ran.stderr) == (5, b"sigma: out of memory\n")
