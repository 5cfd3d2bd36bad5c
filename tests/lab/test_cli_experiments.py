"""Commands that estimate: means, observations, enough, sweep, search, welch, batches; and words that are anything."""

from __future__ import annotations

import io
import json
import subprocess
import sys
from collections.abc import Callable
from pathlib import Path
from typing import Any

import numpy as np
import pytest
from hypothesis import HealthCheck, given, settings
from hypothesis import strategies as st
from lab import EXAMPLES, command, environment

from sigma_lab import cli, program
from sigma_lab.errors import Stopped
from sigma_lab.report import Report

BANK, EMERGENCY, WAITING = (
    str(EXAMPLES / f"{name}.sigma") for name in ("bank", "emergency", "waiting")
)
Lab = Callable[..., str]


@pytest.fixture
def lab(capsys: pytest.CaptureFixture[str]) -> Lab:
    """Runs a command here: its output, or its errors where the status isn't 0."""

    def run(*words: object, status: int = 0) -> str:
        made = cli.main(list(map(str, words)))
        shown = capsys.readouterr()
        assert made == status, shown.err
        assert "Traceback" not in shown.err
        return shown.out if status == 0 else shown.err

    return run


@pytest.fixture
def bank(lab: Lab, tmp_path: Path) -> Path:
    path = tmp_path / "bank.csv"
    lab("replicate", BANK, "--until", 600, "--runs", 40, "--keep", path)
    return path


def rows(text: str) -> list[dict[str, Any]]:
    made: list[dict[str, Any]] = json.loads(text)
    return made


def test_means(lab: Lab, bank: Path) -> None:
    averages = Report.read(bank).values("QUEUE", "average")
    made = rows(lab("means", "--json", "QUEUE.average", bank, "--level", "90"))[0]
    assert made["value"] == pytest.approx(averages.mean()) and made["n"] == 40
    assert made["confidence_level"] == 0.9 and made["low"] < made["value"] < made["high"]
    text = lab("means", "--csv", "QUEUE.average", bank)
    assert text.splitlines()[0].startswith("name,measure,value,low,high")
    assert lab("means", "QUEUE.average", bank).startswith("bank.csv: 0.") or "bank" in text
    shown = lab("means", "QUEUE.average", bank, "--quantiles", "0.5,0.9", "--predict")
    assert shown.count("\n") == 4
    hours = rows(lab("means", "--json", "QUEUE.area in 60=hours", bank))[0]
    ticks = rows(lab("means", "--json", "QUEUE.area", bank))[0]
    assert hours["value"] == pytest.approx(ticks["value"] / 60) and hours["unit"] == "hours"
    one, two = (
        rows(lab("means", "--json", words, bank))[0] for words in ("60*QUEUE/IDLE", "QUEUE/IDLE*60")
    )
    assert one["value"] == two["value"] and one["low"] == pytest.approx(two["low"])


def test_means_of_designs(lab: Lab, tmp_path: Path) -> None:
    for free in (2, 3, 4):
        words = [EMERGENCY, "--until", 960, "--runs", 20, "--start", free]
        lab("replicate", *words, "--keep", tmp_path / f"{free}.csv")
    paths = [f"FREE={free}={tmp_path}/{free}.csv".replace("FREE=", "free") for free in (2, 3, 4)]
    for against in ("first", "all", "least", "greatest"):
        made = rows(lab("means", "--json", "BROKEN[0]", *paths, "--against", against))
        assert len(made) == 3 + {"first": 2}.get(against, 3)
    lab("replicate", EMERGENCY, "--until", 900, "--runs", 20, "--start", 5, "--keep", paths[0][6:])
    assert "stopped at other times" in lab("means", "BROKEN[0]", *paths, status=2)


def test_a_mean_of_a_piped_report() -> None:
    line = f"replicate {BANK} --until 600 --runs 20"
    made = command(*line.split())
    piped = command("means", "QUEUE.average", "-", given=made.stdout)
    assert piped.returncode == 0 and piped.stdout.startswith(b"-: 0.")


def test_observations(lab: Lab) -> None:
    words = [WAITING, "--until", 3000, "--runs", 6]
    values = [float(v) for v in lab("observations", *words, "ARRIVE:WAIT", "--values").split()]
    made = rows(
        lab("observations", *words, "ARRIVE:WAIT", "--json", "--quantiles", "0.5", "--at-most", "9")
    )
    assert made[0]["value"] == pytest.approx(np.mean(values))
    assert made[1]["value"] == sorted(values)[-(-len(values) // 2) - 1]
    assert made[2]["value"] == pytest.approx(np.mean(np.array(values) <= 9))
    late = lab("observations", *words, "ARRIVE:WAIT where WAIT > 9", "--values").split()
    assert sorted(map(float, late)) == sorted(value for value in values if value > 9)
    hours = rows(lab("observations", *words, "ARRIVE:WAIT in 60=min", "--json"))[0]
    assert hours["value"] == pytest.approx(np.mean(values) / 60)
    assert lab("observations", *words, "ARRIVE:WAIT", "--each-run").count("\n") == 7


def test_enough(lab: Lab, tmp_path: Path) -> None:
    kept = tmp_path / "kept.csv"
    words = [
        "enough",
        BANK,
        "QUEUE.average",
        "0.2",
        "--until",
        600,
        "--worst",
        "QUEUE.average=0..12",
    ]
    made = rows(lab(*words, "--json", "--keep", kept))[0]
    assert made["half_width"] <= 0.2 and len(Report.read(kept)) == made["n"]
    assert "runs" in lab(*words[:3], "0.001", *words[4:], "--most", 60, status=4)
    assert "can't be written" in lab(*words, "--keep", "/no/such/x", status=1)


def test_sweep(lab: Lab, tmp_path: Path) -> None:
    words = ["sweep", EMERGENCY, "FREE=2,3", "BROKEN[1]", "FREE.average", "--until", 960]
    made = rows(lab(*words, "--runs", 20, "--cost", "4*FREE", "--json", "--keep", tmp_path / "all"))
    assert [row["cost"] for row in made] == [8, 8, 12, 12]
    reports = [Report.read(path) for path in sorted((tmp_path / "all").iterdir())]
    means = [float(report.values("BROKEN[1]", "last").mean()) for report in reports]
    assert [row["value"] for row in made[::2]] == means
    assert made[2]["more"] == pytest.approx(means[1] - means[0])


def test_search(lab: Lab) -> None:
    words = ["search", EMERGENCY, "FREE=1..4", "--until", 960]
    target = "BROKEN[0] <= 1 by 0.5 worst 40"
    made = lab(*words, "--cost", "4*FREE", "--target", target, "--most", 3000)
    assert "FREE=3 costs 12" in made
    assert "needed" in lab(*words, "--cost", "4*FREE", status=2)
    assert "NAME=VALUES" in lab("search", EMERGENCY, "BROKEN[0]", "--until", 960, status=2)


def test_batches_of_a_long_run(lab: Lab, tmp_path: Path) -> None:
    text = "version 2; model Q; var N : 0..99 = 0; watch N, COME; "
    text += "vertex COME { set N := (N + 1) % 5; schedule COME after draw from 0 in 1..5; } end\n"
    history = tmp_path / "history"
    words = ["run", "--until=40000", "--seed=3", "--events=1000000"]
    history.write_bytes(program.call(words, text))
    made = rows(lab("batches", history, "N", "--json", "--warm-up", 1000))[0]
    assert made["low"] < 2 < made["high"]
    rate = rows(lab("batches", history, "COME", "--rate", "--per", 60, "--json"))[0]
    assert rate["low"] < 20 < rate["high"]
    with open(history, "rb") as given:
        piped = command("batches", "-", "N", "--warm-up", 1000, stdin=given)
    assert piped.returncode == 0
    assert "without its outcome" in lab("batches", _cut(history), "N", status=1)


def _cut(path: Path) -> Path:
    made = path.with_name("cut")
    made.write_bytes(b"".join(path.read_bytes().splitlines(keepends=True)[:-1]))
    return made


def test_welch(lab: Lab) -> None:
    words = ["welch", BANK, "QUEUE", "--until", 400, "--runs", 9, "--step", 10, "--window", 2]
    made = lab(*words)
    assert "MSER-5" in made and made.count("\n") == 42


# Anything

NUMBERS = st.sampled_from(
    ["0", "1", "-1", "3", "20", "40", "1e3", "0.5", ".", "", "nan", "inf", "9" * 30, "x", "5%"]
    + ["1,2", "0x10", "\u0663", "1_0", " 2", "-1,2", "3/12", "0/1"]
)
WORDS = st.sampled_from(
    ["QUEUE", "CLOSE.count", "IDLE.average", "average", "QUEUE/CLOSE", "A[0]", "X=1..3", "X="]
    + ["QUEUE average", "()", "QUEUE(", "--", "BANK", "REPORT", "HISTORY", "-", "/no/such", ""]
    + ["a=b", "CLOSE:QUEUE.q0.5", "CLOSE:QUEUE.mean where IDLE = 0", "1/0", "QUEUE/0", "W/C+1"]
    + ["CLOSE:QUEUE", "CLOSE:QUEUE where IDLE", "QUEUE in 60=min", "QUEUE in 0", "QUEUE <= 1 by 1"]
)
OPTIONS = st.sampled_from(
    ["--until", "--seed", "--events", "--runs", "--warm-up", "--start", "--level", "--workers"]
    + ["--most", "--by", "--cost", "--target", "--where", "--quantiles", "--at-most", "--per"]
    + ["--rows", "--minimize", "--all", "--json", "--csv", "--rate", "--first-run", "--predict"]
    + ["--against", "--part", "--nonsense", "--plain", "--worst", "--length", "--step", "--window"]
)
BASE = ("replicate", "sweep", "observations", "welch", "enough", "search")
QUICK = (*BASE, "means", "join", "since", "batches")


@settings(
    max_examples=120,
    deadline=None,
    suppress_health_check=[HealthCheck.function_scoped_fixture, HealthCheck.too_slow],
)
@given(
    name=st.sampled_from(QUICK),
    words=st.lists(WORDS, max_size=4),
    options=st.lists(st.tuples(OPTIONS, st.one_of(NUMBERS, WORDS)), max_size=3),
    is_plain=st.booleans(),
)
def test_no_words_end_in_a_traceback(
    bank: Path,
    tmp_path: Path,
    monkeypatch: pytest.MonkeyPatch,
    name: str,
    words: list[str],
    options: list[tuple[str, str]],
    is_plain: bool,
) -> None:
    """Any words have an answer, or a line that says what is wrong."""
    monkeypatch.chdir(tmp_path)
    monkeypatch.setattr("sys.stdin", io.TextIOWrapper(io.BytesIO(b"")))
    history = tmp_path / "history"
    text = "at 0 QUEUE=0 IDLE=1\non 3 CLOSE QUEUE=0 IDLE=1\nat 5 QUEUE=2 IDLE=0\nstopped 900\n"
    history.write_text(text)
    files = {"BANK": BANK, "REPORT": str(bank), "HISTORY": str(history)}
    given_words = [files.get(word, word) for word in words]
    base: list[str] = []
    if is_plain and name in BASE:
        base = ["--until", "100", "--timeout", "20"]
        base += ["--most", "60"] if name in ("enough", "search") else ["--runs", "4"]
        given_words = [BANK, *given_words]
    elif is_plain:
        lead = {"means": ["QUEUE.average", str(bank)], "batches": [str(history), "QUEUE"]}
        given_words = lead.get(name, [str(bank)]) + given_words
    tail = [files.get(part, part) for option in options for part in option if part]
    try:
        status = cli.main([name, *given_words, *base, *tail])
    except Stopped:  # pragma: no cover
        status = 130
    assert status in range(0, 12)


def test_words_of_bytes_that_are_no_text() -> None:
    """Options and names may have any bytes."""
    line: list[str | bytes] = [sys.executable, "-m", "sigma_lab", "means", b"\xff.average", b"\xfe"]
    made = subprocess.run(line, env=environment(), capture_output=True)
    assert made.returncode == 2 and b"Traceback" not in made.stderr
