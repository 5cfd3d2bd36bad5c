"""Commands over designs: enough, sweep, search."""

from __future__ import annotations

import argparse
import re
from typing import TYPE_CHECKING, Any

from .command import (
    Answer,
    Command,
    Parser,
    add_cut,
    add_level,
    add_plan,
    number,
    plan_of,
    read_model,
    real,
    say,
    whole,
)
from .command_reports import measure_word
from .command_runs import add_estimate
from .errors import GoalMissed, InputError

if TYPE_CHECKING:
    from collections.abc import Sequence

_GRID = re.compile(r"([A-Za-z]\w*)=(-?\d[-\d.,/]*)", re.A)
MEASURE_HELP = "as QUEUE.average, WAITED/LEAVE or 'DOOR:WAIT.q0.9 where CLASS = 1'"


def add_worst(parser: Parser) -> None:
    """`--worst`."""
    parser.add_argument(
        "--worst",
        action="append",
        default=[],
        metavar="ITEM=X",
        help="the greatest value of a run, or as ITEM=L..H the least and the greatest, which `enough` needs",
    )


def worst_of(words: Sequence[str]) -> dict[str, float | tuple[float, float]]:
    """The ranges that a person states."""
    made: dict[str, float | tuple[float, float]] = {}
    for word in words:
        name, equals, value = word.partition("=")
        low, dots, high = value.partition("..")
        try:
            made[name] = (real(low), real(high)) if dots else real(value)
        except argparse.ArgumentTypeError as error:
            raise InputError(f"--worst is as LOST=40 or LOST=0..40: {error}") from None
        if not (name and equals):
            raise InputError(f"--worst is as LOST=40 or LOST=0..40: {word}")
    return made


def split_words(words: Sequence[str]) -> tuple[dict[str, list[int]], list[str]]:
    """Values of names, as `FREE=1..4`, and measures."""
    from .designs import read_values

    grid: dict[str, list[int]] = {}
    measures = []
    for word in words:
        found = _GRID.fullmatch(word)
        if found is None:
            measures.append(word)
            continue
        if found[1] in grid:
            raise InputError(f"{found[1]} is given twice")
        grid[found[1]] = read_values(found[2])
    return grid, measures


def _enough_words(parser: Parser) -> None:
    add_plan(parser, runs=50)
    add_cut(parser)
    add_level(parser)
    add_worst(parser)
    add = parser.add_argument
    add("measure", metavar="MEASURE", help="as QUEUE.average or 'WAITED/LEAVE in 60=min'")
    add(
        "width", metavar="WIDTH", help="how far the interval may reach, as 0.5, or 10%% of the mean"
    )
    add("--most", type=whole, default=100_000, metavar="N", help="the most runs (100000)")
    add("--keep", metavar="FILE", help="write the report to a file")


def _enough(args: argparse.Namespace, answer: Answer) -> None:
    from contextlib import ExitStack

    from .experiments import run_until_precise
    from .files import Kept

    word, what = args.width, measure_word(args.measure)
    try:
        width = real(word.rstrip("%")) / (100 if word.endswith("%") else 1)
    except argparse.ArgumentTypeError as error:
        raise InputError(str(error)) from None
    goal: dict[str, float] = {"relative" if word.endswith("%") else "half_width": width}
    text, plan = read_model(args.model), plan_of(args)
    worst: Any = worst_of(args.worst) or None
    with ExitStack() as stack:
        kept = stack.enter_context(Kept(args.keep)) if args.keep else None
        made = run_until_precise(
            text,
            what,
            plan,
            worst=worst,
            most=args.most,
            confidence_level=args.level,
            progress="runs",
            **goal,
        )
        add_estimate(answer, what.label, made.estimate, looks=made.looks)
        if kept is not None:
            kept.text = made.report.to_csv(with_provenance=True)


def _sweep_words(parser: Parser) -> None:
    add_plan(parser, runs=100)
    add_cut(parser)
    add_level(parser)
    add = parser.add_argument
    add(
        "words",
        nargs="+",
        metavar="NAME=VALUES|MEASURE",
        help=f"FREE=2..4, and measures {MEASURE_HELP}",
    )
    add("--cost", default="", metavar="FORMULA", help="a cost of each design, as '4*FREE'")
    add(
        "--where",
        default="",
        metavar="CONDITION",
        help="take designs that fulfil it, as 'S < UPTO'",
    )
    add("--own-runs", action="store_true", help="each design has runs of its own, not common ones")
    add(
        "--together",
        choices=("design", "all", "none"),
        default="design",
        help="intervals hold together over designs for each measure, over all, or each by itself",
    )
    add("--keep", metavar="FOLDER", help="write the report of each design to a folder")
    add("--picture", metavar="FILE", help="draw the first measure over the last name")


def _sweep(args: argparse.Namespace, answer: Answer) -> None:
    from .experiments import sweep

    grid, measures = split_words(args.words)
    if args.picture and not grid:
        raise InputError("a picture is over a NAME=VALUES")
    if args.keep:
        _make_folder(args.keep)
    made = sweep(
        read_model(args.model),
        grid,
        measures,
        plan_of(args),
        where=args.where,
        cost=args.cost,
        common=not args.own_runs,
        family=args.together,
        confidence_level=args.level,
        progress="designs",
    )
    answer.table(made.frame)
    if args.keep:
        _keep(args.keep, made.reports)
    if args.picture:
        from . import plots

        plots.save(
            plots.sweep(made.frame, list(grid)[-1], made.frame["measure"].iloc[0]), args.picture
        )


def _make_folder(path: str) -> None:
    from pathlib import Path

    from .errors import LabError

    try:
        Path(path).mkdir(exist_ok=True)
    except OSError as error:
        raise LabError(f"{path} can't be made: {error.strerror}") from None


def _keep(folder: str, reports: dict[str, Any]) -> None:
    from pathlib import Path

    from .files import write

    for name, report in reports.items():
        write(Path(folder) / f"{name.replace(' ', ',')}.csv", report.to_csv(with_provenance=True))


def _search_words(parser: Parser) -> None:
    add_plan(parser, runs=30)
    add_cut(parser)
    add_level(parser)
    add_worst(parser)
    add = parser.add_argument
    add("words", nargs="+", metavar="NAME=VALUES", help="as FREE=1..4")
    add("--cost", default="", metavar="FORMULA", help="what is least, as '4*FREE'")
    add(
        "--target",
        action="append",
        default=[],
        metavar="TARGET",
        help="as 'LOST.last <= 1 by 0.5 worst 40': a design that meets 1 is taken, one that meets 0.5 isn't passed over",
    )
    add("--minimize", metavar="MEASURE", help="the design with the least mean")
    add("--maximize", metavar="MEASURE", help="the design with the greatest mean")
    add("--by", type=real, metavar="X", help="the difference of means that matters")
    add(
        "--where",
        default="",
        metavar="CONDITION",
        help="take designs that fulfil it, as 'S < UPTO'",
    )
    add(
        "--most",
        type=whole,
        default=100_000,
        metavar="N",
        help="the most runs of a design (100000)",
    )
    add("--fresh", type=whole, default=0, metavar="N", help="runs that confirm the chosen design")


def _search(args: argparse.Namespace, answer: Answer) -> None:
    grid, rest = split_words(args.words)
    if rest or not grid:
        raise InputError(f"NAME=VALUES are needed{': ' + rest[0] if rest else ''}")
    if args.minimize and args.maximize:
        raise InputError("a search minimizes or maximizes")
    if args.minimize or args.maximize:
        _select(args, grid, answer)
    else:
        _cheapest(args, grid, answer)


def _select(args: argparse.Namespace, grid: dict[str, list[int]], answer: Answer) -> None:
    from .experiments import select_best

    if args.by is None or args.cost:
        raise InputError("--minimize or --maximize takes --by X, and no --cost")
    made = select_best(
        read_model(args.model),
        grid,
        measure_word(args.minimize or args.maximize),
        indifference=args.by,
        plan=plan_of(args),
        minimize=bool(args.minimize),
        targets=args.target,
        where=args.where,
        worst=worst_of(args.worst) or None,
        most=args.most,
        confidence_level=args.level,
        progress="runs",
        note=say,
    )
    answer.table(made.table)
    sure = "" if made.certain else ", not decided"
    answer.lines.append(f"best: {made.design.name}, after {made.runs} runs{sure}")
    if not made.certain:
        say("designs are left that weren't told apart: take more runs by --most, or a larger --by")
        answer.status = GoalMissed.status


def _cheapest(args: argparse.Namespace, grid: dict[str, list[int]], answer: Answer) -> None:
    from .experiments import search

    if not args.cost or not args.target:
        raise InputError("--cost and --target are needed, or --minimize and --by")
    made = search(
        read_model(args.model),
        grid,
        cost=args.cost,
        targets=args.target,
        plan=plan_of(args),
        where=args.where,
        worst=worst_of(args.worst) or None,
        most=args.most,
        fresh=args.fresh,
        confidence_level=args.level,
        progress="runs",
        note=say,
    )
    answer.table(made.log, show=False)
    answer.lines.append(
        f"after {made.runs} runs, {made.design.name} costs {number(made.cost)}; with runs of its own:"
    )
    for target, here in made.fresh.items():
        add_estimate(answer, target, here)
    if not made.certain:
        say("a cheaper design is undecided: take more runs by --most, or a larger margin")
    if not made.confirmed:
        say(
            "an end of an interval misses its target: take more runs by --fresh, or a larger margin"
        )
    if not (made.certain and made.confirmed):
        answer.status = GoalMissed.status


COMMANDS = (
    Command(
        "enough",
        "So many runs that an interval is as narrow as you ask.",
        _enough_words,
        _enough,
        ("enough",),
    ),
    Command(
        "sweep",
        "A row for each of many designs, with several measures and a cost.",
        _sweep_words,
        _sweep,
        ("sweep",),
    ),
    Command(
        "search",
        "The cheapest design that meets targets, or the design with the best mean.",
        _search_words,
        _search,
        ("search",),
    ),
)
