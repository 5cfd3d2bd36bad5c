"""Commands on input models: tables, what a text asks for, fits; what each answers and refuses."""

from __future__ import annotations

import math
import re
from collections.abc import Callable
from pathlib import Path

import numpy as np
import pytest
from lab import EXAMPLES, example

from sigma_lab import cli, program
from sigma_lab.inputs import Distribution, NoTable, discretize

Lab = Callable[..., str]


@pytest.fixture
def lab(capsys: pytest.CaptureFixture[str]) -> Lab:
    """Runs a command here: its output, or its errors where the status isn't 0; both where both is asked for."""

    def run(*words: object, status: int = 0, both: bool = False) -> str:
        made = cli.main(list(map(str, words)))
        shown = capsys.readouterr()
        assert made == status, shown.err
        assert "Traceback" not in shown.err
        return shown.out + shown.err if both else shown.out if status == 0 else shown.err

    return run


@pytest.fixture
def written(tmp_path: Path) -> Callable[[str], Path]:
    """Writes a text to a file."""

    def write(text: str, name: str = "m.sigma") -> Path:
        path = tmp_path / name
        path.write_text(text, encoding="utf-8")
        return path

    return write


# Tables. Each law has a mean of 5, 50, 500 and 50,000 ticks; its deviation and how much lies below its mean are by formulas
# that can be looked up.

LAWS = {
    "exponential": (lambda m: f"{m}", lambda m: m, 1 - math.exp(-1)),
    "normal": (lambda m: f"{m} {m / 5}", lambda m: m / 5, 0.5),
    "lognormal": (lambda m: f"{m} {m}", lambda m: m, 0.661398),
    "gamma": (lambda m: f"{m} {1.2 * m}", lambda m: 1.2 * m, 0.657174),
    "erlang": (lambda m: f"{m} 3", lambda m: m / math.sqrt(3), 1 - 8.5 * math.exp(-3)),
    "weibull": (
        lambda m: f"{2 * m / math.sqrt(math.pi):.9f} 2",
        lambda m: m * math.sqrt(4 / math.pi - 1),
        1 - math.exp(-math.pi / 4),
    ),
    "weibull, steep": (
        lambda m: f"{m / 2} 0.5",
        lambda m: m * math.sqrt(5),
        1 - math.exp(-math.sqrt(2)),
    ),
    "triangular": (lambda m: f"0 {m} {2 * m}", lambda m: m / math.sqrt(6), 0.5),
    "poisson": (lambda m: f"{m}", math.sqrt, None),
    "geometric": (lambda m: f"{m}", lambda m: math.sqrt(m * (m - 1)), None),
    "uniform": (lambda m: f"0 {2 * m}", lambda m: math.sqrt(m * (m + 1) / 3), 0.5),
}
COARSE = {"normal", "weibull", "triangular", "gamma"}


def is_such(table, mean: float, deviation: float, below: float | None, rows: int) -> bool:  # type: ignore[no-untyped-def]
    """Whether a table has this mean within 0.1 per cent, this deviation within 0.5, and this share below the mean."""
    rows_of_text = re.findall(r"(\d+) : (\d+);", table.text)
    values, weights = np.array(rows_of_text, dtype=float).T
    share = weights / weights.sum()
    average = float(share @ values)
    spread = math.sqrt(float(share @ (values - average) ** 2))
    left = float(share @ ((values < mean) + 0.5 * (values == mean)))
    return (
        len(values) <= rows
        and len(set(values.tolist())) == len(values)
        and bool(np.all(np.diff(weights) <= 0))
        and 1 <= weights.min()
        and weights.sum() <= 2**32
        and abs(average - mean) <= 0.001 * mean
        and abs(spread - deviation) <= 0.005 * deviation
        and (below is None or abs(left - below) <= 0.02)
    )


@pytest.mark.parametrize("mean", [5, 50, 500, 50_000])
@pytest.mark.parametrize("law", LAWS)
def test_tables_have_what_formulas_say(law: str, mean: int) -> None:
    words, deviation, below = LAWS[law]
    asked = Distribution.parse(f"{law.split(',')[0]} {words(mean)}")
    for rows in (200, 1000) if mean == 500 else (200,):
        if mean == 5 and law in COARSE:
            with pytest.raises(NoTable, match="finer tick"):
                discretize(asked, rows)
            continue
        assert is_such(discretize(asked, rows), mean, deviation(mean), below, rows)


@pytest.mark.parametrize(
    "mean, deviation, below, rows",
    [(501, 500, 0.632, 200), (500, 504, 0.632, 200), (500, 500, 0.66, 200), (500, 500, 0.632, 150)],
)
def test_the_comparison_finds_other_tables(
    mean: float, deviation: float, below: float, rows: int
) -> None:
    table = discretize(Distribution.parse("exponential 500"), 200)
    assert is_such(table, 500, 500, 0.632, 200) and not is_such(table, mean, deviation, below, rows)


def test_a_table_of_much_data(tmp_path: Path) -> None:
    """More times than rows: 0 to 9,999."""
    (tmp_path / "times").write_text("".join(f"{k * 7919 % 10000}\n" for k in range(10000)))
    table = discretize(Distribution.parse("data times", tmp_path), 200)
    assert is_such(table, 4999.5, 2886.751, 0.5, 200)


@pytest.mark.parametrize(
    "words, status, message",
    [
        ("T normal 30 12", 1, "lies below 0"),
        ("--rows 1000 T lognormal 500 5000", 1, "rare and long"),
        ("T data /no/such", 2, "can't read"),
        ("T data /", 2, "can't read"),
        ("T exponental 5", 2, "no distribution exponental"),
        ("T exponential 5 5", 2, "exponential"),
        ("T exponential -5", 2, "no number: -5"),
        ("T exponential 0", 2, "exponential"),
        ("T triangular 1 5 3", 2, "triangular"),
        ("1T exponential 5", 2, "no name for a table: 1T"),
        ("--rows 0 T exponential 5", 2, "rows"),
        ("T", 2, "NAME DISTRIBUTION NUMBER .. or --fill MODEL are needed"),
        ("--fill", 2, "--fill: expected one argument"),
    ],
)
def test_what_is_no_table(words: str, status: int, message: str, lab: Lab) -> None:
    said = lab("tables", *words.split(), status=status)
    assert message in said and said.count("\n") == 1


def test_times_that_are_no_table(lab: Lab, written: Callable[..., Path]) -> None:
    assert "has no time" in lab("tables", "T", "data", written("", "none"), status=2)
    assert "finer tick" in lab("tables", "T", "data", written("5.5\n", "half"), status=1)
    said = lab("tables", "T", "data", written("3\nx\n", "word"), status=2)
    assert "word:2: this is no time: x" in said


SHORT = """# table legs are not asked for
version 2; model M; # one
# table GAP geometric 1;
table GAP { 5 : 1; # }
  7 : 2; } # two
# table SERVICE uniform 1 2
vertex RUN { schedule RUN after draw from 0 by GAP; schedule RUN after draw from 1 by SERVICE; }
end
"""


def test_a_text_is_filled_and_filled_again(lab: Lab, written: Callable[..., Path]) -> None:
    """With and without a table in their place, over several lines; what asks for no table stays."""
    filled = lab("tables", "--fill", written(SHORT))
    assert filled.startswith("# table legs are not asked for\nversion 2; model M; # one\n")
    assert "# table GAP geometric 1;\ntable GAP { 1 : " in filled and "} # two\n" in filled
    assert "# table SERVICE uniform 1 2\ntable SERVICE { 1 : " in filled
    program.call(["check"], filled)
    assert lab("tables", "--fill", written(filled, "again.sigma")) == filled
    same = example("one")
    assert lab("tables", "--fill", EXAMPLES / "one.sigma") == same


@pytest.mark.parametrize(
    "old, new, message",
    [
        ("7 : 2; }", "7 : 2;", "GAP"),
        ("SERVICE uniform 1 2", "GAP uniform 1 2;", "GAP"),
        ("geometric", "geometrc", "line 3: no distribution geometrc"),
    ],
)
def test_a_text_that_cant_be_filled(
    old: str, new: str, message: str, lab: Lab, written: Callable[..., Path]
) -> None:
    assert old in SHORT
    said = lab("tables", "--fill", written(SHORT.replace(old, new)), status=2)
    assert message in said


VALUES = """model V;
var RATE[3] : -9..60 = 0;
vertex OPEN {
  # values RATE rates.csv calls;
  schedule OPEN after 5;
}
end
"""


@pytest.fixture
def rates(written: Callable[..., Path]) -> Callable[[str], Path]:
    """A model beside a file with a mark, semicolons, CR LF and an empty line."""
    text = '\ufeff"from";calls;min\r\n8;40;-1\r\n9;60;2\r\n\r\n10;20;-3\r\n'
    written(text, "rates.csv").write_bytes(text.encode())
    return written


def test_an_array_is_filled_and_filled_again(lab: Lab, rates: Callable[..., Path]) -> None:
    asked = "  # values RATE rates.csv calls;\n"
    line = "  set RATE[0], RATE[1], RATE[2] := 40, 60, 20;\n"
    filled = lab("tables", "--fill", rates(VALUES))
    assert filled == VALUES.replace(asked, asked + line)
    other = filled.replace("csv calls", "csv 3")
    again = lab("tables", "--fill", rates(other, "again.sigma"))
    assert again == other.replace("40, 60, 20", "-1, 2, -3")


def test_as_many_targets_as_the_version_allows(lab: Lab, rates: Callable[..., Path]) -> None:
    rates("".join(f"{k}\n" for k in range(1, 19)), "many.csv")
    long = VALUES.replace("RATE[3]", "RATE[18]").replace("rates.csv calls", "many.csv 1")
    assert lab("tables", "--fill", rates(long)).count("set RATE") == 3
    assert lab("tables", "--fill", rates("version 2; " + long)).count("set RATE") == 2


@pytest.mark.parametrize(
    "old, new, message",
    [
        ("csv calls", "csv visits", "has no column visits"),
        ("csv calls", "csv 4", "no whole number in column 4"),
        ("rates.csv", "nothing", "can't read"),
        ("values RATE", "values RATES", "no array RATES of numbers is declared"),
        ("RATE[3]", "RATE[4]", "RATE has 4 cells, and rates.csv has 3 values"),
        ("9..60", "9..59", "60 is outside the range of RATE"),
    ],
)
def test_an_array_that_cant_be_filled(
    old: str, new: str, message: str, lab: Lab, rates: Callable[..., Path]
) -> None:
    assert old in VALUES
    assert message in lab("tables", "--fill", rates(VALUES.replace(old, new)), status=2)


@pytest.mark.parametrize(
    "text",
    [
        VALUES.replace("csv calls", "csv"),
        VALUES.replace("model V;\n", "model V;\n# values RATE rates.csv calls;\n"),
    ],
)
def test_what_looks_like_an_order_and_is_none(
    text: str, lab: Lab, rates: Callable[..., Path]
) -> None:
    """A comment that nearly asks for a table or for values isn't passed over in silence."""
    lab("tables", "--fill", rates(text), status=2)


# Fits


def test_a_fit_by_its_command(lab: Lab, written: Callable[..., Path]) -> None:
    """The quantiles of a Weibull time in minutes, whose parameters a likelihood finds again."""
    times = [5 * (-math.log(1 - (k - 0.5) / 100)) ** (1 / 1.8) for k in range(1, 101)]
    path = written("".join(f"{each:.3f}\n" for each in times), "times")
    words = ["--tick", 60, "--table", "SERVICE", "--resamples", 39]
    last = lab("fit", path, *words).splitlines()[-1].rstrip(";").split()
    assert last[:4] == ["#", "table", "SERVICE", "weibull"]
    assert float(last[4]) == pytest.approx(299.9, rel=0.01)
    assert float(last[5]) == pytest.approx(1.81, rel=0.02)
    few = written("".join(f"{each:.3f}\n" for each in times[:19]), "few")
    said = lab("fit", few, "--tick", 60, "--resamples", 19, both=True)
    assert "fewer than 20 times: take the data themselves" in said
    assert f"# table TIME data {few} 60;" in said
    two = "".join(f"{10 + k % 7 if k % 2 else 90 + k % 7}\n" for k in range(1, 101))
    said = lab("fit", written(two, "two"), "--resamples", 39, both=True)
    assert "no family fits: take the data themselves" in said


@pytest.mark.parametrize(
    "text, status, message",
    [
        ("5\n" * 30, 2, "all times are equal"),
        ("5\nx\n", 2, ":2: this is no time: x"),
        ("5\n6\n", 2, "at least 3 times"),
        ("", 2, "has no time"),
    ],
)
def test_times_that_have_no_fit(
    text: str, status: int, message: str, lab: Lab, written: Callable[..., Path]
) -> None:
    path = written("", "times")
    path.write_bytes(text.encode())
    assert message in lab("fit", path, status=status)
