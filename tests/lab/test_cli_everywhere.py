"""Each command where its output is full, and where no temporary file can be made."""

from __future__ import annotations

import io
import sys
import tempfile
from pathlib import Path

import pytest
from lab import EXAMPLES, report

from sigma_lab import cli

PLAN = ["--until", "60", "--runs", "4", "--workers", "1"]
FAULTY = "version 2; model F; var N : 0..3 = 0; watch N; vertex GO { set N := N + 1; schedule GO after 1; } end\n"
TURNS = "".join(f"at {k} A={k * 7919 % 101 % 9}\n" for k in range(2000)) + "stopped 2000\n"
TIMES = "".join(f"{k * 7919 % 101 + 1}\n" for k in range(30))


def short(stop: int, area: int) -> str:
    """A report of two runs up to a tick."""
    rows = [f"{run},{run},stopped,{stop},A,0,9,1,{area}," for run in (1, 2)]
    return report(*rows, f"total,,,,A,0,9,,{2 * area},")


WORDS = {
    "replicate": ["BANK", *PLAN],
    "means": ["A.average", "EARLY"],
    "join": ["EARLY"],
    "since": ["EARLY", "LATE"],
    "observations": ["BANK", "CLOSE:QUEUE", "--until", "600", "--runs", "4"],
    "enough": ["BANK", "QUEUE.average", "9", *PLAN[:2], "--worst", "QUEUE.average=0..20"],
    "sweep": ["EMERGENCY", "FREE=2,3", "BROKEN[1]", *PLAN],
    "search": ["EMERGENCY", "FREE=3", "--cost", "FREE", "--until", "60"]
    + ["--target", "BROKEN[0] <= 90 by 9 worst 99"],
    "welch": ["BANK", "QUEUE", *PLAN],
    "batches": ["TURNS", "A"],
    "histogram": ["1", "TIMES", "--values", "--picture", "PICTURE"],
    "course": ["TURNS", "A", "--picture", "PICTURE"],
    "fit": ["TIMES", "--resamples", "19"],
    "tables": ["T", "exponential", "50"],
    "graph": ["BANK"],
    "trace": ["0", "30", "BANK", "--seed", "1"],
    "whyfault": ["FAULTY", "--until", "30", "--seed", "1"],
    "place": ["BANK"],
    "meets": ["BANK", *PLAN, "--only-count"],
    "conflicts-through": ["BANK", "--all"],
    "lint": ["LINT"],
    "report": ["BANK", "QUEUE.average", *PLAN],
    "new": ["queue"],
}
PICTURES = ("histogram", "course")


@pytest.fixture
def words(tmp_path: Path) -> dict[str, list[str]]:
    """The words of each command, with the files that they name."""
    files = {name: tmp_path / f"{name.lower()}.file" for name in ("EARLY", "LATE", "TURNS")}
    files |= {name: tmp_path / f"{name.lower()}.file" for name in ("TIMES", "FAULTY", "LINT")}
    texts = {"EARLY": short(10, 30), "LATE": short(20, 70), "TURNS": TURNS, "TIMES": TIMES}
    texts |= {"FAULTY": FAULTY, "LINT": FAULTY.replace("0..3", "0..3 clip")}
    for name, text in texts.items():
        files[name].write_text(text)
    files |= {name: EXAMPLES / f"{name.lower()}.sigma" for name in ("BANK", "EMERGENCY")}
    files["PICTURE"] = tmp_path / "p.svg"
    return {
        command: [command, *(str(files.get(word, word)) for word in rest)]
        for command, rest in WORDS.items()
    }


def answer(words: list[str]) -> tuple[int, str]:
    """The status and the output of a command."""
    sys.stdout = io.TextIOWrapper(io.BytesIO(), write_through=True)
    try:
        status = cli.main(words)
        return status, sys.stdout.buffer.getvalue().decode()  # type: ignore[attr-defined]
    finally:
        sys.stdout = sys.__stdout__


def test_no_command_is_left_out() -> None:
    assert set(WORDS) == set(cli.MODULES)


@pytest.mark.parametrize("name", WORDS)
def test_without_room_for_temporary_files(
    name: str, words: dict[str, list[str]], monkeypatch: pytest.MonkeyPatch
) -> None:
    """The answer is the same: full folders once gave other numbers with status 0."""
    first = answer(words[name])
    assert first[0] == 0 and (first[1] or name in PICTURES)
    for variable in ("TMPDIR", "TEMP", "TMP"):
        monkeypatch.setenv(variable, "/proc")
    monkeypatch.setattr(tempfile, "tempdir", "/proc")
    status, text = answer(words[name])
    assert status == 0 and (name == "report" or text == first[1])


@pytest.mark.parametrize("name", [*sorted(set(WORDS) - set(PICTURES)), "--help", "--version"])
@pytest.mark.parametrize("more", [[], ["--help"]])
def test_where_the_output_is_full(
    name: str, more: list[str], words: dict[str, list[str]], capsys: pytest.CaptureFixture[str]
) -> None:
    """Nine of the older tools ended with 0."""
    with open("/dev/full", "w", encoding="utf-8") as full:
        kept, sys.stdout = sys.stdout, full
        try:
            status = cli.main([*words.get(name, [name]), *more])
        finally:
            sys.stdout = kept
    assert status == 1 and "can't write: No space left on device" in capsys.readouterr().err


@pytest.mark.parametrize("name", PICTURES)
def test_where_a_picture_cant_be_written(
    name: str, words: dict[str, list[str]], capsys: pytest.CaptureFixture[str]
) -> None:
    assert cli.main([*words[name][:-1], "/proc/p.svg"]) == 1
    assert "can't be written" in capsys.readouterr().err
