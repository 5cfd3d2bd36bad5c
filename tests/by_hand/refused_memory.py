"""Refuses the program memory, one request after the other.

    tests/run by_hand/refused_memory.py

First that request alone is refused, and then it and all later ones. Each time the program must end
with the status for being out of memory, its line, and no output; if it writes while it works, with
a front of its output. Or it ends with the status and all of the bytes that it has with enough
memory. This takes some minutes. It needs the C library glibc, and a compiler.
"""

from __future__ import annotations

import os
import subprocess
import tempfile
from collections.abc import Callable
from dataclasses import dataclass
from pathlib import Path

import pytest

from support.models import CLOCK, vertex
from support.places import example
from support.program import LONGEST, Answer, Program

OUT_OF_MEMORY = 5
LINE = b"sigma: out of memory\n"
SOURCE = Path(__file__).with_name("refusing.c")

ONE = (
    "model ONE;\nvar N : 0..9 = 0;\nwatch N;\n"
    + vertex("RUN", "set N := 4;", "schedule RUN after 5 when false;")
    + "end\n"
)
BANK = (
    "model BANK;\nvar QUEUE : 0..1000000 = 0;\nvar IDLE : 0..2 = 0;\nvar GAP : 1..6 = 1;\n"
    "var SEEN : 0..1000000 clip = 0;\nwatch QUEUE, IDLE;\n"
    + vertex("RUN(IDLE)", "urgent ENTER;")
    + vertex(
        "ENTER",
        "set QUEUE, SEEN := QUEUE + 1, SEEN + 1;",
        "draw GAP from 54 in 1..6;",
        "schedule ENTER after GAP;",
        "urgent START when IDLE > 0;",
    )
    + vertex("START", "set QUEUE, IDLE := QUEUE - 1, IDLE - 1;", "schedule LEAVE after 7;")
    + vertex("LEAVE", "set IDLE := IDLE + 1;", "urgent START when QUEUE > 0;")
    + "end\n"
)
CHAIN = (
    "model CHAIN;\nvar N : 0..9 = 0;\nwatch N;\n"
    + vertex("RUN", "urgent A;")
    + vertex("A", "set N := 1;", "urgent B;")
    + vertex("B", "set N := 2;")
    + "end\n"
)
# After a thousand notes more events are pending than before, each tick twice as many, so that
# memory is asked for after something is written.
CROWD = (
    "model CROWD;\nvar N : 0..1000000 = 0;\nwatch N;\n"
    + vertex(
        "RUN", "set N := N + 1;", "schedule RUN after 1;", "schedule RUN after 1 when N > 1000;"
    )
    + "end\n"
)
# A row for each of 150 cells.
WIDE = "model WIDE;\nvar A[150] : 0..9 = 0;\nwatch A;\n" + vertex("RUN") + "end\n"
TRIAL = "trial --seed 42 --vertices 2 --until 20 --events 100"


@dataclass(frozen=True)
class Row:
    """A call: its words, its text, and the command that makes that from a model first.

    `comes` says that memory may be asked for after something is written: if a run needs more room
    than it is given, and between the runs of a report.
    """

    words: str
    text: str
    before: str = ""
    comes: bool = False


ROWS = [
    Row("reduce", ONE),
    Row("check", ONE),
    Row("print", ONE),
    Row("uses", BANK),
    Row("run --until 12 --seed 42 --events 1000", CLOCK),
    Row("run --until 1005 --seed 42 --events 100000 --room 0", CROWD, comes=True),
    Row("reduce", BANK),
    Row("certify", CHAIN, before="reduce"),
    Row("compare --until 12 --seed 42 --events 1000 --runs 2", CLOCK + CLOCK),
    Row("replicate --until 12 --seed 1 --events 100 --runs 2", CLOCK, comes=True),
    Row("replicate --until 1 --seed 1 --events 10 --runs 3", WIDE, comes=True),
    Row(TRIAL, ""),
    Row("describe", ONE),
    Row("conflicts", BANK),
    Row("fuse", example("ferry").decode()),
    Row("narrow", example("ferry").decode()),
    Row("save --until 12 --seed 42 --events 2", CLOCK),
    Row("resume --until 12 --events 100", CLOCK, before="save --until 12 --seed 42 --events 2"),
    Row(
        "resume --until 1005 --events 100000 --room 0",
        CROWD,
        before="save --until 1005 --seed 42 --events 2",
        comes=True,
    ),
]


@pytest.fixture(scope="session")
def refusing(needs: Callable[[str], str], tmp_path_factory: pytest.TempPathFactory) -> Path:
    """Compile what refuses memory."""
    made = tmp_path_factory.mktemp("refusing") / "refusing.so"
    subprocess.run([needs("cc"), "-O2", "-shared", "-fPIC", "-o", made, SOURCE], check=True)
    return made


def text_of(row: Row, call: Program) -> bytes:
    """Make the text of a row."""
    text = row.text.encode()
    if not row.before:
        return text
    made = call(row.before, text).output
    return made if row.before.startswith("save") else text + made


def refused(
    call: Program, refusing: Path, row: Row, text: bytes, number: int, is_all: bool
) -> tuple[Answer, bool]:
    """Call the program, refuse it this request, and answer whether that was asked for."""
    with tempfile.TemporaryFile() as input_file, tempfile.TemporaryFile() as told:
        input_file.write(text)
        input_file.seek(0)
        place = {"LD_PRELOAD": str(refusing), "REFUSE_AT": str(number)}
        place |= {"REFUSE_TELL": str(told.fileno())} | ({"REFUSE_ALL": "yes"} if is_all else {})
        ran = subprocess.run(
            [call.path, *row.words.split()],
            stdin=input_file,
            capture_output=True,
            env={**os.environ, **place},
            pass_fds=[told.fileno()],
            timeout=LONGEST,
            check=False,
        )
        told.seek(0, os.SEEK_END)
        return Answer(ran.returncode, ran.stdout, ran.stderr), told.tell() > 0


def complaint(answer: Answer, whole: Answer, comes: bool) -> str | None:
    """Say what is wrong with a call that was refused memory."""
    if answer.status != OUT_OF_MEMORY:
        return None if answer == whole else answer.difference(whole.status, whole.output, b"")
    if answer.errors != LINE:
        return f"the error output is {answer.errors!r}"
    if answer.output and not comes:
        return f"{len(answer.output)} bytes are written"
    return None if whole.output.startswith(answer.output) else "the output is no front of the whole"


@pytest.mark.parametrize("is_all", [False, True], ids=["alone", "and all later ones"])
@pytest.mark.parametrize("row", ROWS, ids=[f"{row.words} of {row.text[6:11]}" for row in ROWS])
def test_refused_requests(row: Row, is_all: bool, call: Program, refusing: Path) -> None:
    """Each request can be refused."""
    text = text_of(row, call)
    whole = call(row.words, text)
    assert whole.errors == b"" and whole.output
    wrong: list[str] = []
    number = 0
    while True:
        number += 1
        answer, is_refused = refused(call, refusing, row, text, number, is_all)
        if not is_refused:
            break
        if said := complaint(answer, whole, row.comes):
            wrong.append(f"request {number}: {said}")
    assert answer == whole, "nothing was refused"
    assert number > 1, "no memory was asked for"
    assert not wrong, "\n".join(wrong[:20])
