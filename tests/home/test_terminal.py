"""Help at a terminal, and nowhere else; and that the program takes the shell's place."""

from __future__ import annotations

import os
import pty
import subprocess
import time
from pathlib import Path

import pytest

from home.small_checkout import SmallCheckout
from support.places import TOP, example, stored_answer

ASKS_FOR_HELP = {
    "no word": [],
    "--help": ["--help"],
    "-h": ["-h"],
    "a file for an input": ["check", "model.sigma"],
    "a run without its options": ["run"],
    "a trial without its options": ["trial"],
}


def at_terminal(words: list[str | Path], text: Path = Path("/dev/null")) -> tuple[int, str]:
    """Call a command whose outputs are a terminal, and answer its status and what it wrote."""
    leader, follower = pty.openpty()
    with text.open("rb") as given:
        called = subprocess.Popen(words, stdin=given, stdout=follower, stderr=follower)
    os.close(follower)
    written = b""
    while True:
        try:
            part = os.read(leader, 65536)
        except OSError:
            break
        if not part:
            break
        written += part
    os.close(leader)
    return called.wait(timeout=60), written.decode().replace("\r\n", "\n")


@pytest.fixture
def installed(checkout: SmallCheckout) -> Path:
    """Install the program, and answer the command."""
    prefix = checkout.folder / "local"
    environment = {**os.environ, "SIGMA": str(checkout.program), "PAGE": "/nowhere"}
    subprocess.run(
        [TOP / "install", f"PREFIX={prefix}"], check=True, env=environment, capture_output=True
    )
    return prefix / "bin/sigma"


def help_of(pages: str, words: list[str]) -> str:
    """Answer the help for these words, which leads to these pages."""
    ran = subprocess.run([TOP / "share/help", pages, *words], check=True, capture_output=True)
    return ran.stdout.decode()


@pytest.mark.parametrize("words", ASKS_FOR_HELP.values(), ids=ASKS_FOR_HELP)
def test_help_at_a_terminal(installed: Path, words: list[str]) -> None:
    """The program's own line comes first, and then help."""
    wanted = "sigma: bad command line\n" + help_of("man sigma", words)
    assert at_terminal([installed, *words]) == (2, wanted)


def test_the_launcher_helps_too(checkout: SmallCheckout) -> None:
    """It names the page of the repository, and needs no program to tell how it is called."""
    pages = f"{checkout.top}/docs/use/commands.md"
    launcher = checkout.top / "sigma"
    assert at_terminal([launcher]) == (2, help_of(pages, []))
    checkout.give_dist()
    wanted = "sigma: bad command line\n" + help_of(pages, ["run"])
    assert at_terminal([launcher, "run"]) == (2, wanted)


def test_help_for_a_file_as_input() -> None:
    """It shows how the file is given."""
    first = help_of("x", ["check", "model.sigma"]).splitlines()[0]
    assert first == "check reads standard input: sigma check < model.sigma"


def test_answers_at_a_terminal(installed: Path) -> None:
    """A reduction and a refusal are what they are on a pipe."""
    one, reduced = TOP / "examples/one.sigma", TOP / "examples/answers/one.reduce"
    assert at_terminal([installed, "reduce"], one) == (0, stored_answer("one.reduce").decode())
    refusal = subprocess.run([installed, "check"], input=reduced.read_bytes(), capture_output=True)
    assert at_terminal([installed, "check"], reduced) == (
        refusal.returncode,
        refusal.stderr.decode(),
    )


@pytest.mark.parametrize(
    "words",
    [
        "reduce",
        "",
        "--help",
        "-h",
        "check x",
        "trial",
        "trial --seed 42 --vertices 2 --until 20 --events 100",
    ],
)
def test_a_pipe_gets_the_programs_bytes(
    installed: Path, checkout: SmallCheckout, words: str
) -> None:
    """Status, output and error output of the installed command are the program's own."""
    for text in (example("one"), stored_answer("one.reduce")):
        calls = (
            subprocess.run([command, *words.split()], input=text, capture_output=True)
            for command in (checkout.program, installed)
        )
        first, second = ((ran.returncode, ran.stdout, ran.stderr) for ran in calls)
        assert first == second


def test_the_program_takes_the_shells_place(installed: Path, tmp_path: Path) -> None:
    """So its signals and its status are its own."""
    late = tmp_path / "late"
    os.mkfifo(late)
    with subprocess.Popen(["sh", "-c", f'exec "{installed}" check <"{late}"']) as called:
        writer = late.open("wb")
        program = str(installed.parent.parent / "lib/sigma/sigma")
        last = time.monotonic() + 30
        while os.readlink(f"/proc/{called.pid}/exe") != program:
            assert time.monotonic() < last
            time.sleep(0.02)
        writer.write(example("one"))
        writer.close()
        assert called.wait(timeout=30) == 0
