"""What a command of `sigma-lab` is, and the words that commands share.

A module with commands has `COMMANDS`, a tuple of `Command`.  It loads numpy and the like inside its functions, so that
`sigma-lab --help` and quick commands load nothing.  `cli.MODULES` names the module of each command.
"""

from __future__ import annotations

import argparse
import itertools
import re
import sys
from collections.abc import Callable, Sequence
from dataclasses import dataclass, field
from typing import TYPE_CHECKING, Any, NoReturn

if TYPE_CHECKING:
    from .plan import Plan
    from .report import Report

NAME = "sigma-lab"


@dataclass
class Answer:
    """What a command answers: lines to read, and a table for `--csv` and `--json`.

    Attributes
    ----------
    lines : list of str
        What a person reads.
    rows : list of dict
        The same as a table.
    text : str or None
        What `--csv` writes, if that isn't the table.
    status : int
        The exit status: 0, or that of an answer that misses its goal.
    """

    lines: list[str] = field(default_factory=list)
    rows: list[dict[str, Any]] = field(default_factory=list)
    text: str | None = None
    status: int = 0

    def table(self, frame: Any, *, show: bool = True) -> None:
        """Adds the rows of a DataFrame, and its lines if it is shown."""
        if show:
            shown = frame.to_string(index=False, na_rep="", float_format=number)
            self.lines += shown.splitlines()
        self.rows += frame.to_dict("records")


@dataclass(frozen=True)
class Command:
    """A command of the command line.

    Attributes
    ----------
    name : str
        Its word.
    about : str
        One sentence.
    configure : callable
        Adds its words to a parser.
    run : callable
        Fills the answer from the words that were read.
    replaces : tuple of str
        The older tools that it replaces.
    """

    name: str
    about: str
    configure: Callable[[Parser], None]
    run: Callable[[argparse.Namespace, Answer], None]
    replaces: tuple[str, ...] = ()


class Parser(argparse.ArgumentParser):
    """A parser that takes negative numbers as values of options: `--start -1,2`."""

    def __init__(self, name: str, about: str) -> None:
        self._valued: set[str] = set()
        self._repeated: set[str] = set()
        super().__init__(name, description=about, allow_abbrev=False)

    def add_argument(self, *words: Any, **options: Any) -> argparse.Action:
        """As of `argparse`."""
        action = super().add_argument(*words, **options)
        if action.nargs != 0:
            self._valued.update(action.option_strings)
        if options.get("action") == "append":
            self._repeated.update(action.option_strings)
        return action

    def read(self, words: Sequence[str]) -> argparse.Namespace:
        """The words, in any order."""
        made: list[str] = []
        for word in words:
            if made and made[-1] in self._valued and re.match(r"-[\d.]", word):
                made[-1] += "=" + word
            else:
                made.append(word)
        self._check_once(made)
        return self.parse_intermixed_args(made)

    def _check_once(self, words: Sequence[str]) -> None:
        """Refuses a second value of an option, which would silently win."""
        given = [word.partition("=")[0] for word in itertools.takewhile(lambda w: w != "--", words)]
        for option in self._valued - self._repeated:
            if given.count(option) > 1:
                self.error(f"argument {option}: it is given twice")

    def error(self, message: str) -> NoReturn:
        """One line, without the usage."""
        print(f"{self.prog}: {message} ({self.prog} --help has its words)", file=sys.stderr)
        raise SystemExit(2)


# Values of words


def whole(word: str) -> int:
    """A whole number."""
    if not re.fullmatch(r"-?[0-9]{1,20}", word):
        raise argparse.ArgumentTypeError(f"no whole number: {word!r}")
    return int(word)


def real(word: str) -> float:
    """A number in decimals."""
    if not re.fullmatch(r"-?[0-9]{1,20}(\.[0-9]{1,20})?([eE]-?[0-9]{1,3})?", word):
        raise argparse.ArgumentTypeError(f"no number: {word!r}")
    return float(word)


def reals(word: str) -> list[float]:
    """Numbers with commas between them."""
    return [real(part) for part in word.split(",")]


def wholes(word: str) -> tuple[int, ...]:
    """Whole numbers with commas between them."""
    return tuple(whole(part) for part in word.split(","))


def confidence(word: str) -> float:
    """`95`, `95%` or `0.95`."""
    value = real(word.rstrip("%"))
    value = value / 100 if value > 1 or word.endswith("%") else value
    if not 0 < value < 1:
        raise argparse.ArgumentTypeError("a confidence level is above 0 and below 100")
    return value


def part(word: str) -> tuple[int, int]:
    """`3/12`: the third of twelve parts."""
    found = re.fullmatch(r"([1-9]\d{0,6})/([1-9]\d{0,6})", word)
    if not found or int(found[1]) > int(found[2]):
        raise argparse.ArgumentTypeError(f"a part is as 3/12: {word!r}")
    return int(found[1]), int(found[2])


def number(value: float) -> str:
    """A number as people read it: six digits, and all before the point."""
    return f"{value:.0f}" if 1e5 <= abs(value) < 1e15 else f"{value:.6g}"


_CONTROL = re.compile(r"[\x00-\x08\x0b-\x1f\x7f-\x9f]")


def say(line: str) -> None:
    """A line on the error output; control characters, which a terminal would obey, are written by their numbers."""
    shown = _CONTROL.sub(lambda found: f"\\x{ord(found[0]):02x}", line)
    print(f"{NAME}: {shown}", file=sys.stderr, flush=True)


# Words that commands share


def add_output(parser: Parser) -> None:
    """`--json` and `--csv`."""
    parser.add_argument("--json", action="store_true", help="write the answer as JSON")
    parser.add_argument("--csv", action="store_true", help="write the answer as text with commas")


def add_level(parser: Parser) -> None:
    """`--level`."""
    parser.add_argument(
        "--level",
        type=confidence,
        default=0.95,
        metavar="95",
        help="the intervals' level in %% (95)",
    )


def add_cut(parser: Parser) -> None:
    """`--all`."""
    parser.add_argument(
        "--all", action="store_true", help="take runs that were cut off as they are"
    )


def add_plan(parser: Parser, *, runs: int | None = None, warm_up: bool = True) -> None:
    """MODEL and the words of a plan."""
    add = parser.add_argument
    add(
        "model",
        metavar="MODEL",
        help="a model's text, or - for the standard input; tables are filled",
    )
    add("--until", type=whole, required=True, metavar="TICK", help="the tick at which runs stop")
    add("--seed", type=whole, default=1, help="the seed of the series of runs (1)")
    add("--events", type=whole, default=10**7, help="the most events of a run (10^7)")
    add("--start", type=wholes, default=(), metavar="V,V", help="starting values")
    if runs is not None:
        add("--runs", type=whole, default=runs, help=f"how many runs ({runs})")
    if warm_up:
        text = "count areas, counts and times from this tick on"
        add("--warm-up", type=whole, default=0, metavar="TICK", help=text)
    add(
        "--workers", type=whole, metavar="N", help="how many processes run at once (all processors)"
    )
    add("--dask", metavar="ADDRESS", help="make runs on the machines of this dask scheduler")
    add(
        "--timeout",
        type=real,
        metavar="SECONDS",
        help="the most that one call of the program may take",
    )


def plan_of(args: argparse.Namespace) -> Plan:
    """The plan of the words that `add_plan` added."""
    from .plan import Plan

    client = None
    if args.dask:
        from .clients import client_of

        client = client_of(args.dask)
    return Plan(
        args.until,
        seed=args.seed,
        runs=getattr(args, "runs", 100),
        warm_up=getattr(args, "warm_up", 0),
        events=args.events,
        start=args.start,
        workers=args.workers,
        client=client,
        timeout=args.timeout,
        on_cut="keep" if getattr(args, "all", False) else "raise",
    )


def read_model(path: str) -> str:
    """The text of a model's file, or of the standard input for `-`, with its tables filled; what was filled is said."""
    from .replication import may_ask, ready, source_of

    if path == "-":
        text, folder = sys.stdin.buffer.read().decode("utf-8", "surrogateescape"), "."
    else:
        text, where = source_of(ModelFile(path))
        folder = str(where)
    if not may_ask(text):
        return ready(text + "\n" if "\n" not in text else text)
    from . import inputs

    if not inputs.unfilled(text):
        return text
    filled = inputs.fill(text, folder)
    for note in filled.notes:
        say(f"filled {note}")
    return str(filled.text)


class ModelFile:
    """A file of a model, whose name may have a line feed or a semicolon."""

    def __init__(self, path: str) -> None:
        self.path = path

    @property
    def text(self) -> bytes:
        from .errors import InputError

        try:
            with open(self.path, "rb") as file:
                return file.read()
        except (OSError, ValueError) as error:
            why = error.strerror if isinstance(error, OSError) else str(error)
            raise InputError(f"can't read {self.path}: {why}") from None


def read_report(word: str, *, keep_cut: bool = False) -> Report:
    """The report of `LABEL=FILE`, `FILE` or `-`."""
    from .report import Report

    label, equals, path = word.partition("=")
    if not equals:
        label, path = word, word
    if path == "-":
        made = Report.parse(sys.stdin.buffer.read(), "-", label)
    else:
        made = Report.parse(ModelFile(path).text, path, label)
    made.on_cut = "keep" if keep_cut else "raise"
    return made
