"""Commands that estimate, beside numbers that are worked out by hand, and what each of them refuses."""

from __future__ import annotations

import json
import math
from collections.abc import Callable
from pathlib import Path
from typing import Any

import pytest
from lab import EXAMPLES, report
from scipy import stats as ss

from sigma_lab import cli
from sigma_lab.report import Report

BANK = EXAMPLES / "bank.sigma"
Lab = Callable[..., str]

# N counts ticks from 1 on, and its start may be another one; the last of a run is at tick 40. X is drawn once.
COUNTING = """model COUNTING;
var N : 0..1000 = 0;
var X : 0..9 = 0;
var SUM : 0..1000 = 0;
watch N, SUM, TICK;
vertex OPEN(N) {
  draw X from 0 in 0..9;
  set SUM := N + X; # sweep times, more: set SUM := N + X * times + more;
  urgent TICK;
}
vertex TICK {
  set N := N + 1;
  schedule TICK after 1;
}
end
"""
PLAN = ["--until", 40, "--events", 1000]
COUNTED = [*PLAN, "--start", 0]


@pytest.fixture
def lab(capsys: pytest.CaptureFixture[str]) -> Lab:
    """Runs a command here: its output, or its errors where the status isn't 0."""

    def run(*words: object, status: int = 0) -> str:
        made = cli.main(list(map(str, words)))
        shown = capsys.readouterr()
        assert made == status, shown.err
        assert "Traceback" not in shown.err
        return shown.out if status == 0 else shown.err

    return run


@pytest.fixture
def counting(tmp_path: Path) -> Path:
    path = tmp_path / "counting.sigma"
    path.write_text(COUNTING)
    return path


def rows(text: str) -> list[dict[str, Any]]:
    made: list[dict[str, Any]] = json.loads(text)
    return made


def written(*values: int, first: int = 1, events: int = 1, cut: bool = False) -> str:
    """A report of runs of 10 ticks in which A is these values on average, and E occurs so often."""
    lines = []
    for run, value in enumerate(values, 1):
        outcome = {3: "fault", 4: "budget"}.get(run, "stopped") if cut else "stopped"
        head = f"{run},{first + run - 1},{outcome},10"
        lines += [f"{head},A,0,{value},{value},{10 * value},", f"{head},E,,,,,{events}"]
    lines.append(f"total,,,,A,0,{max(values)},,{10 * sum(values)},")
    return report(*lines, f"total,,,,E,,,,,{events * len(values)}")


@pytest.fixture
def given(tmp_path: Path) -> Path:
    """A folder with reports: runs of one seed pair with those of the same seed."""
    texts = {
        "one": written(1, 2, 3, 4),
        "other": written(2, 3, 4, 5),
        "mixed": written(4, 1, 3, 2),
        "later": written(1, 2, 3, 4, first=5),
        "uneven": written(1, 3, 5, 7, first=5),
        "fewer": written(1, 2, 3),
        "lone": written(7, first=9),
        "cut": written(1, 2, 3, 4, cut=True),
        "none": written(1, 2, 3, 4, events=0),
    }
    for name, text in texts.items():
        (tmp_path / name).write_text(text)
    return tmp_path


def t_ends(value: float, error: float, df: float, level: float = 0.95) -> list[float]:
    """The ends of an interval by Student's t."""
    half = error * float(ss.t.ppf(0.5 + level / 2, df))
    return [value - half, value + half]


def ends(row: dict[str, Any], low: str = "low", high: str = "high") -> list[float]:
    return [row[low], row[high]]


# Means


def test_a_mean_by_hand(lab: Lab, given: Path) -> None:
    row = rows(lab("means", "A.average", given / "one", "--method", "t", "--json"))[0]
    assert (row["value"], row["n"]) == (2.5, 4)
    assert row["standard_error"] == pytest.approx(math.sqrt(5 / 3 / 4))
    assert ends(row) == pytest.approx(t_ends(2.5, math.sqrt(5 / 12), 3))
    assert ends(row) == pytest.approx([0.446, 4.554], abs=5e-4)


def test_pairs_by_hand(lab: Lab, given: Path) -> None:
    """Runs of the same seeds, one apart in each: a difference of 1, of whose error nothing is known."""
    words = [
        "means",
        "A.average",
        *(f"{name}={given / name}" for name in ("one", "other", "mixed")),
    ]
    *_, one, two = rows(lab(*words, "--method", "t", "--json"))
    assert (one["more"], two["more"]) == (1, 0) and one["low"] is None
    error = math.sqrt((9 + 1 + 0 + 4) / 3 / 4)
    assert ends(two) == pytest.approx(t_ends(0, error, 3, 1 - 0.05 / 2), abs=0.02)


def test_all_pairs_by_hand(lab: Lab, given: Path) -> None:
    """Three intervals hold together where each holds 98.33 times in a hundred: Student's t is 4.857."""
    words = [
        "means",
        "A.average",
        *(f"{name}={given / name}" for name in ("one", "mixed", "other")),
    ]
    *_, first, second, third = rows(lab(*words, "--against", "all", "--json"))
    error = math.sqrt(14 / 3 / 4)
    assert 4.857 * error == pytest.approx(5.246, abs=1e-3)
    assert ends(first) == pytest.approx([-5.246, 5.246], abs=2e-3)
    assert second["low"] is None and ends(third) == pytest.approx([-4.246, 6.246], abs=2e-3)


def test_designs_with_runs_of_their_own(lab: Lab, given: Path) -> None:
    words = ["means", "A.average", f"one={given / 'one'}", "--unpaired", "--json"]
    same = rows(lab(*words, f"later={given / 'later'}"))[-1]
    assert same["more"] == 0
    assert ends(same) == pytest.approx(t_ends(0, math.sqrt(2 * 5 / 12), 6), abs=1e-3)
    # Welch's degrees of freedom are 4.41 here.
    other = rows(lab(*words, f"uneven={given / 'uneven'}"))[-1]
    error = math.sqrt(5 / 12 + 20 / 12)
    assert other["more"] == 1.5 and ends(other) == pytest.approx(
        t_ends(1.5, error, 75 / 17), abs=2e-3
    )


def test_reports_joined_by_cat(lab: Lab, given: Path) -> None:
    both = given / "both"
    both.write_text((given / "one").read_text() + (given / "later").read_text())
    row = rows(lab("means", "A.average", both, "--method", "t", "--json"))[0]
    assert (row["value"], row["n"]) == (2.5, 8)
    assert ends(row) == pytest.approx(t_ends(2.5, math.sqrt(10 / 7 / 8), 7))


def test_sums_ratios_and_units(lab: Lab, given: Path) -> None:
    """Of the totals 4/10; without each run 3/9, 3/8, 3/7 and 3/6."""
    words = ["means", "--json"]
    assert rows(lab(*words, "A+E", given / "one"))[0]["value"] == 3.5
    ratio = rows(lab(*words, "E/A", given / "one"))[0]
    pseudo = [4 * 0.4 - 3 * part for part in (3 / 9, 3 / 8, 3 / 7, 3 / 6)]
    error = math.sqrt(sum((each - sum(pseudo) / 4) ** 2 for each in pseudo) / 3 / 4)
    assert ratio["value"] == 0.4 and ratio["standard_error"] == pytest.approx(error)
    assert error == pytest.approx(0.108, abs=5e-4)
    share = rows(lab(*words, "E/A in %", given / "one"))[0]
    assert share["value"] == 40 and share["low"] == pytest.approx(100 * ratio["low"])
    minutes = rows(lab(*words, "A.average in 60=minutes", given / "one"))[0]
    assert minutes["value"] == pytest.approx(2.5 / 60) and minutes["unit"] == "minutes"


def test_one_run_has_a_mean_and_no_interval(lab: Lab, given: Path) -> None:
    row = rows(lab("means", "A.average", given / "lone", "--json"))[0]
    assert row["value"] == 7 and row["low"] is row["high"] is None
    assert "no interval" in lab("means", "A.average", given / "lone")


@pytest.mark.parametrize(
    "words, status, message",
    [
        (["E.average", "one"], 2, "E is an event, which has a count, and no average"),
        (["A.count", "one"], 2, "A is a variable, which has no count"),
        (["B.average", "one"], 2, "its items are A E"),
        (["A.mean", "one"], 2, "mean"),
        (["A/E/A", "one"], 2, "A/E/A"),
        (["A/E", "none"], 1, "0"),
        (["A.average", "one", "fewer"], 2, "runs don't pair"),
        (["A.average", "one", "other", "--unpaired"], 2, "seeds in common"),
        (["A.average", "one", "one"], 2, "two reports are called"),
        (["A.average", "one", "--against", "each"], 2, "invalid choice"),
        (["A.average", "cut"], 3, "of 4 runs 1 ended by a fault and 1 spent the budget"),
        (["A.average", "missing"], 2, "can't read"),
    ],
)
def test_what_has_no_mean(
    words: list[str], status: int, message: str, lab: Lab, given: Path
) -> None:
    first, *rest = words
    files = [word if word.startswith("--") or word == "each" else given / word for word in rest]
    assert message in lab("means", first, *files, status=status)


def test_runs_that_were_cut_off_are_taken_if_asked(lab: Lab, given: Path) -> None:
    row = rows(lab("means", "A.average", given / "cut", "--all", "--json"))[0]
    assert row["value"] == 2.5


# Warm-ups


def test_a_warm_up_by_hand(lab: Lab, given: Path) -> None:
    """20 ticks more, in which A is 10, 11, 12 and 13 on average, and E occurs three times."""
    lines = []
    for run in range(1, 5):
        head = f"{run},{run},stopped,30"
        lines += [f"{head},A,0,20,{run},{10 * run + 200 + 20 * (run - 1)},", f"{head},E,,,,,4"]
    lines += ["total,,,,A,0,20,,1020,", "total,,,,E,,,,,16"]
    (given / "long").write_text(report(*lines))
    (given / "steady").write_text(lab("since", given / "one", given / "long"))
    steady = Report.read(given / "steady")
    assert steady.values("A", "average").tolist() == [10, 11, 12, 13]
    assert steady.values("E", "count").tolist() == [3, 3, 3, 3]
    busy = given / "busy"
    busy.write_text(written(30, 30, 30, 30))
    assert "doesn't go on" in lab("since", busy, given / "long", status=2)
    assert "no longer than its warm-up" in lab("since", given / "one", given / "other", status=2)
    assert "was not stopped" in lab("since", given / "cut", given / "long", status=3)
    assert "not of the same runs" in lab("since", given / "fewer", given / "long", status=2)


def test_the_means_of_steps(lab: Lab, counting: Path) -> None:
    """N is 1 to 41, so that steps of ten ticks have 5.5, 15.5 and 25.5 on average."""
    words = ["welch", counting, "N", *COUNTED, "--runs", 3, "--step", 10]
    made = rows(lab(*words, "--window", 1, "--json"))
    assert [row["mean"] for row in made] == [5.5, 15.5, 25.5, 35.5]
    assert [row["smooth"] for row in made][:3] == [5.5, 15.5, 25.5]
    assert "more steps than its window" in lab(*words, "--window", 2, status=1)
    more = [str(word).replace("0", "0,0") if word == 0 else word for word in words]
    assert "starting values needed 1 given 2" in lab(*more, "--window", 1, status=9)


# Observations


def test_observations_by_hand(lab: Lab, counting: Path) -> None:
    """N is 1 to 41 in each run, so that nothing is left to chance."""
    words = ["observations", counting, "TICK:N", *COUNTED]
    asked = ["--quantiles", "0.5,0.9", "--at-most", "10,0"]
    made = rows(lab(*words, "--runs", 2, *asked, "--json"))
    assert [row["value"] for row in made] == [21, 21, 37, pytest.approx(10 / 41), 0]
    each = lab(*words, "--runs", 2, "--each-run", "--quantiles", "0.5", "--at-most", "10", "--csv")
    head, *lines = each.splitlines()
    assert head == "run,seed,values,mean,q0.5,<=10" and len(lines) == 2
    assert lines[0].split(",")[2:4] == ["41", "21.0"]
    late = ["--until", 0, "--events", 1000, "--start", 0, "--runs", 1]
    assert lab("observations", counting, "TICK:N", *late, "--values").split() == ["1"]


def test_an_interval_over_runs_that_are_all_or_nothing(lab: Lab, counting: Path) -> None:
    """SUM is what a run drew at its start, so that 41 values of a run are one."""
    words = ["observations", counting, "TICK:SUM", *COUNTED, "--runs", 20]
    row = rows(lab(*words, "--at-most", 4, "--json"))[1]
    each = lab(*words, "--each-run", "--at-most", 4, "--csv").splitlines()[1:]
    share = sum(float(line.split(",")[-1]) for line in each) / 20
    error = math.sqrt(share * (1 - share) / 19)
    assert row["value"] == pytest.approx(share) and 0 < share < 1
    assert row["high"] - row["low"] > 2 * error


@pytest.mark.parametrize(
    "words, status, message",
    [
        (["OPEN:N"], 1, "watch list"),
        (["NONE:N"], 1, "NONE doesn't occur"),
        (["TICK:X"], 2, "X"),
        (["TICK:N", "--at-most", "5x"], 2, "no number"),
        (["TICK:N", "--events", "9"], 3, "spent the budget"),
        (["TICK:N", "--start", "0,0"], 9, "starting values needed 1 given 2"),
    ],
)
def test_what_has_no_observations(
    words: list[str], status: int, message: str, lab: Lab, counting: Path
) -> None:
    plan = ["--until", 40, "--runs", 2]
    plan += [] if "--events" in words else ["--events", 1000]
    plan += [] if "--start" in words else ["--start", 0]
    assert message in lab("observations", counting, *words, *plan, status=status)


# Sweeps, searches, and enough runs


def test_a_sweep_by_hand(lab: Lab, counting: Path, tmp_path: Path) -> None:
    """One more at the start is one more in each run; a draw three times has twice the draw more than a draw."""
    plain = rows(lab("means", "SUM", _runs(lab, counting, tmp_path), "--json"))[0]["value"]
    for workers in (1, 2):
        kept = tmp_path / f"kept{workers}"
        words = ["N=0..1", "times=1..3/2", "more=0", "SUM", *PLAN, "--runs", 20]
        made = rows(lab("sweep", counting, *words, "--workers", workers, "--keep", kept, "--json"))
        assert [(row["N"], row["times"], row["more"]) for row in made][:1] and len(made) == 4
        assert [row["value"] for row in made] == pytest.approx(
            [plain, 3 * plain, 1 + plain, 1 + 3 * plain]
        )
        first = Report.read(kept / "N=0,times=1,more=0.csv")
        assert first.to_csv() == Report.read(tmp_path / "runs").to_csv()
    assert "X" in lab("sweep", counting, "X=1..2", "SUM", *COUNTED, status=2)


def _runs(lab: Lab, counting: Path, folder: Path) -> Path:
    path = folder / "runs"
    lab("replicate", counting, *COUNTED, "--runs", 20, "--keep", path)
    return path


def test_a_sweep_with_several_measures_and_a_cost(lab: Lab, counting: Path) -> None:
    words = ["N=1..2", "times=3", "more=0", "TICK/N", "N", *PLAN, "--runs", 3]
    made = rows(lab("sweep", counting, *words, "--cost", "2*N+(times-1)/4", "--json"))
    assert [row["cost"] for row in made] == [2.5, 2.5, 4.5, 4.5]
    assert [row["value"] for row in made] == pytest.approx([41 / 42, 42, 41 / 43, 43])


@pytest.mark.parametrize(
    "words, status, message",
    [
        (["N=0", "times=1..2", "SUM"], 2, "more"),
        (["N=2..1", "SUM"], 2, "2..1"),
        (["N=1..1000", "times=1..2", "more=0", "SUM"], 2, "1000"),
        (["N=1000,1001", "SUM"], 9, "1001"),
        (["N=0,990", "SUM"], 3, "3 ended by a fault"),
        (["N=1", "SUM", "--cost", "2*N+"], 2, "2*N+"),
        (["N=1", "SUM", "--cost", "2*M"], 2, "M"),
        (["N=1", "SUM.mean"], 2, "mean"),
    ],
)
def test_what_is_no_sweep(
    words: list[str], status: int, message: str, lab: Lab, counting: Path
) -> None:
    assert message in lab("sweep", counting, *words, *PLAN, "--runs", 3, status=status)


def test_a_search_by_hand(lab: Lab, counting: Path) -> None:
    """A run ends with N and a draw from 0 to 9, so that the mean is N and 4.5: the least N that reaches 8 is 4."""
    words = ["N=4,0,2,6", "times=1", "more=0", *PLAN, "--cost", "2*N+1", "--most", 20000]
    words += ["--fresh", 2000]  # so that chance doesn't decide whether 8.5 is seen to be above 8
    said = lab("search", counting, *words, "--target", "SUM >= 8 by 0.4 worst 0")
    assert "N=4 times=1 more=0 costs 9" in said
    less = ["N=1,3", "times=1", "more=0", *PLAN, "--cost", "0-N", "--most", 20000]
    more = ["--target", "SUM <= 6.5 by 1 worst 20", "--target", "N >= 40 by 1 worst 0"]
    assert "N=1 times=1 more=0 costs -1" in lab("search", counting, *less, *more)


@pytest.mark.parametrize(
    "words, status, message",
    [
        (["--cost", "N", "--target", "SUM >= 99 by 1 worst 0"], 4, "no"),
        (["--cost", "N", "--target", "SUM > 8 by 1"], 2, "SUM > 8 by 1"),
        (["--cost", "N"], 2, "--cost and --target are needed"),
        (["--cost", "N", "--target", "X >= 8 by 1 worst 0"], 2, "X"),
    ],
)
def test_a_search_that_finds_nothing(
    words: list[str], status: int, message: str, lab: Lab, counting: Path
) -> None:
    grid = ["N=1,3", "times=1", "more=0", *PLAN, "--most", 2000]
    assert message in lab("search", counting, *grid, *words, status=status)


def test_enough_runs_are_those_of_one_call(lab: Lab, tmp_path: Path) -> None:
    words = [BANK, "QUEUE.average", "20%", "--until", 600, "--worst", "QUEUE.average=0..60"]
    kept = tmp_path / "kept"
    row = rows(lab("enough", *words, "--runs", 10, "--keep", kept, "--json"))[0]
    assert row["n"] > 10 and row["half_width"] <= 0.2 * row["value"]
    whole = lab("replicate", BANK, "--until", 600, "--runs", row["n"], "--plain")
    assert Report.read(kept).to_csv() == whole
    said = lab("enough", *words[:2], "0.001", *words[3:], "--runs", 10, "--most", 15, status=4)
    assert "15 runs" in said
    short = ["--until", 600, "--events", 9]
    assert "50 spent the budget" in lab("enough", *words[:3], *short, *words[5:], status=3)
    equal = ["QUEUE.least", 1, "--until", 600, "--worst", "QUEUE.least=0..60", "--most", 60]
    assert "60 runs" in lab("enough", BANK, *equal, status=4)
    none = tmp_path / "none.sigma"
    none.write_text("model\n")
    assert ":2:1: unexpected" in lab("enough", none, *words[1:], status=1)
