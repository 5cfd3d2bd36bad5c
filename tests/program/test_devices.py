"""Inputs and outputs that fail, that end early or never, and as little stack as a shell gives."""

from __future__ import annotations

import os
import resource
import signal
import subprocess
import threading
import time
from collections.abc import Callable
from pathlib import Path

import pytest

from support.places import ANSWERS, EXAMPLES, example, stored_answer
from support.program import LONGEST, Answer, Program

ONE = EXAMPLES / "one.sigma"
BANK = EXAMPLES / "bank.sigma"
HISTORY = stored_answer("bank.run.words").decode()
FULL = Path("/dev/full")
LITTLE = 256 * 1024


def run(
    call: Program,
    words: str,
    standard_input: int,
    output: int | Path = subprocess.PIPE,
    errors: int | Path = subprocess.PIPE,
    before: Callable[[], None] | None = None,
) -> Answer:
    """Call the program over these devices, and close the one that it reads.

    Of a device that isn't a pipe nothing is answered.
    """
    files = [path.open("wb") for path in (output, errors) if isinstance(path, Path)]
    try:
        taken = iter(files)
        ran = subprocess.run(
            [call.path, *words.split()],
            stdin=standard_input,
            stdout=next(taken) if isinstance(output, Path) else output,
            stderr=next(taken) if isinstance(errors, Path) else errors,
            preexec_fn=before,
            timeout=LONGEST,
            check=False,
        )
    finally:
        for file in files:
            file.close()
        if standard_input >= 0:
            os.close(standard_input)
    return Answer(ran.returncode, ran.stdout or b"", ran.stderr or b"")


def on_file(path: Path) -> int:
    """Open a file for reading."""
    return os.open(path, os.O_RDONLY)


def closing(descriptor: int) -> Callable[[], None]:
    """Answer what closes a descriptor in the program before it begins."""
    return lambda: os.close(descriptor)


def test_a_folder_as_the_input(call: Program) -> None:
    """A folder can't be read."""
    run(call, "reduce", on_file(Path("/"))).refuses(3, "sigma: cannot read")


def allow_512_bytes() -> None:
    """Let the program write 512 bytes of a file, and report the failure beyond them."""
    signal.signal(signal.SIGXFSZ, signal.SIG_IGN)
    resource.setrlimit(resource.RLIMIT_FSIZE, (512, 512))


@pytest.mark.parametrize(
    "words, stored", [("reduce", "bank.reduce"), (HISTORY, "bank.run")], ids=["reduce", "run"]
)
def test_a_short_output(words: str, stored: str, call: Program, tmp_path: Path) -> None:
    """An output that fails midway has a front of the answer."""
    output = tmp_path / "output"
    answer = run(call, words, on_file(BANK), output, before=allow_512_bytes)
    answer.refuses(4, "sigma: cannot write")
    assert output.read_bytes() == stored_answer(stored)[:512]


@pytest.mark.parametrize("words", ["reduce", HISTORY], ids=["reduce", "run"])
def test_a_full_output(words: str, call: Program) -> None:
    """A full output is reported."""
    answer = run(call, words, on_file(BANK), FULL)
    answer.refuses(4, "sigma: cannot write")


def test_a_refusal_and_a_full_error_output(call: Program) -> None:
    """A refusal has its status where its line can't be written."""
    run(call, "check", on_file(Path("/dev/null")), errors=FULL).ends(1)


def test_a_closed_input(call: Program) -> None:
    """A closed input can't be read."""
    answer = run(call, "check", subprocess.DEVNULL, before=closing(0))
    answer.refuses(3, "sigma: cannot read")


def test_a_closed_output(call: Program) -> None:
    """A closed output can't be written."""
    answer = run(call, "check", on_file(ONE), before=closing(1))
    answer.refuses(4, "sigma: cannot write")


def test_a_closed_error_output(call: Program) -> None:
    """An answer needs no error output."""
    run(call, "check", on_file(ONE), before=closing(2)).gives(b"accepted ONE\n")


def test_a_refusal_and_a_closed_error_output(call: Program) -> None:
    """A refusal has its status where its line can't be written."""
    run(call, "check", subprocess.DEVNULL, before=closing(2)).ends(1)


@pytest.mark.parametrize("handling", [signal.SIG_DFL, signal.SIG_IGN], ids=["default", "ignored"])
def test_a_pipe_without_a_reader(handling: signal.Handlers, call: Program) -> None:
    """A pipe whose reader is gone can't be written, whatever is done about its signal."""
    reader, writer = os.pipe()
    os.close(reader)

    def handle() -> None:
        signal.signal(signal.SIGPIPE, handling)

    answer = run(call, HISTORY, on_file(BANK), writer, before=handle)
    os.close(writer)
    answer.refuses(4, "sigma: cannot write")


@pytest.mark.parametrize("command", ["check", "certify"])
def test_an_input_without_an_end(command: str, call: Program) -> None:
    """An input without an end is read to one byte past the limit."""
    run(call, command, on_file(Path("/dev/zero"))).refuses(1, "sigma: text too long")


def test_a_text_in_two_pieces(call: Program) -> None:
    """An input that comes in pieces is read to its end."""
    text = example("one")
    middle = text.index(b"\n") + 1
    with subprocess.Popen(
        [call.path, "reduce"], stdin=subprocess.PIPE, stdout=subprocess.PIPE, stderr=subprocess.PIPE
    ) as running:
        assert running.stdin is not None
        running.stdin.write(text[:middle])
        running.stdin.flush()
        time.sleep(1)
        output, errors = running.communicate(text[middle:], timeout=LONGEST)
    Answer(running.returncode, output, errors).gives(stored_answer("one.reduce"))


def test_a_text_that_grows(call: Program, tmp_path: Path) -> None:
    """An input that grows while it is read is some text of the file, or too long."""
    growing = tmp_path / "growing"
    growing.write_bytes(example("one"))
    stop = threading.Event()

    def grow() -> None:
        with growing.open("ab", buffering=0) as file:
            while not stop.is_set() and file.tell() < 2**28:
                file.write(b" " * 4096)

    grower = threading.Thread(target=grow)
    grower.start()
    try:
        answer = call("check", growing)
    finally:
        stop.set()
        grower.join()
    if answer.status == 0:
        answer.gives(b"accepted ONE\n")
    else:
        answer.refuses(1, "sigma: text too long")


def test_the_deepest_text_with_little_stack(call: Program) -> None:
    """The deepest text is accepted with 256 KiB of stack."""
    deep = b"if " * 256 + b"true" + b" then true else false" * 256
    text = b"model M;\nvar X : bool = false;\nvar A[2] : 0..1 = 0;\n"
    text += b"vertex RUN {\n  set X := " + deep + b";\n}\nend\n"
    call("check", text, stack=LITTLE).gives(b"accepted M\n")


REDUCED = sorted(path.stem for path in ANSWERS.glob("*.reduce"))


@pytest.mark.parametrize("name", REDUCED)
def test_examples_with_little_stack(name: str, call: Program) -> None:
    """Each example is reduced with 256 KiB of stack."""
    call("reduce", EXAMPLES / f"{name}.sigma", stack=LITTLE).gives(stored_answer(f"{name}.reduce"))


def test_there_are_examples() -> None:
    """The list of reduced examples isn't empty."""
    assert len(REDUCED) > 20
