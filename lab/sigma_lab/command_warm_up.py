"""Commands on the steady state: welch, batches."""

from __future__ import annotations

import argparse
import sys
from collections.abc import Iterator

from .command import (
    Answer,
    Command,
    Parser,
    add_cut,
    add_level,
    add_plan,
    plan_of,
    read_model,
    whole,
)
from .command_runs import add_estimate
from .errors import IncompleteRuns, InputError, LabError

_BLOCK = 2**18


def _welch_words(parser: Parser) -> None:
    add_plan(parser, runs=50, warm_up=False)
    add_level(parser)
    add = parser.add_argument
    add("item", metavar="ITEM", help="a watched value, or a formula of several")
    add("--step", type=whole, metavar="TICKS", help="the length of a step (a 200th of the run)")
    add(
        "--window",
        type=whole,
        default=5,
        metavar="N",
        help="how many steps to either side are smoothed over (5)",
    )
    add("--picture", metavar="FILE", help="draw the curve")


def _welch(args: argparse.Namespace, answer: Answer) -> None:
    from .experiments import find_warm_up

    made = find_warm_up(
        read_model(args.model),
        args.item,
        plan_of(args),
        step=args.step,
        window=args.window,
        confidence_level=args.level,
        progress="runs",
    )
    if args.picture:
        from . import plots

        plots.save(plots.welch(made, args.item), args.picture)
    answer.table(made.frame)
    answer.lines.append(
        f"MSER-5 ends the warm-up at {made.mser}"
        if made.mser is not None
        else "MSER-5 has no answer: the cut would lie in the second half, so take runs twice as long"
    )


def _batches_words(parser: Parser) -> None:
    add_level(parser)
    add_cut(parser)
    add = parser.add_argument
    add("history", metavar="HISTORY", help="a history of `sigma run`, or - for the standard input")
    add("item", metavar="ITEM", help="a watched value, or with --rate a watched event")
    add(
        "--warm-up",
        type=whole,
        default=0,
        metavar="TICK",
        help="leave out what comes before this tick",
    )
    add(
        "--length",
        type=whole,
        metavar="TICKS",
        help="the length of a batch (a fortieth of the run)",
    )
    add("--rate", action="store_true", help="how often an event occurs")
    add("--per", type=whole, default=1, metavar="TICKS", help="in how many ticks the rate is (1)")
    add("--unchecked", action="store_true", help="take batches that are correlated")


def _batches(args: argparse.Namespace, answer: Answer) -> None:
    from .long_run import LongRun

    items, events = ([], [args.item]) if args.rate else ([args.item], [])
    made = LongRun(items, events, args.warm_up).read(_blocks(args.history), args.history)
    if made.outcome in ("fault", "budget") and not args.all:
        raise IncompleteRuns(f"the run was cut off: {made.outcome} at {made.end}")
    if args.warm_up >= made.end:
        raise InputError(f"the run ends at {made.end}, before the warm-up does")
    options = {"length": args.length, "confidence_level": args.level, "check": not args.unchecked}
    if args.rate:
        found = made.rate(args.item, args.per, **options)
    else:
        found = made.mean(args.item, **options)
    add_estimate(answer, args.item, found.estimate)


def _blocks(path: str) -> Iterator[bytes]:
    """The bytes of a file, or of the standard input for `-`, in blocks."""
    if path == "-":
        yield from iter(lambda: sys.stdin.buffer.read(_BLOCK), b"")
        return
    try:
        with open(path, "rb") as file:
            yield from iter(lambda: file.read(_BLOCK), b"")
    except (OSError, ValueError) as error:
        why = error.strerror if isinstance(error, OSError) else str(error)
        raise LabError(f"can't read {path}: {why}") from None


COMMANDS = (
    Command(
        "welch",
        "How long the warm-up is, by Welch's procedure and MSER-5.",
        _welch_words,
        _welch,
        ("welch",),
    ),
    Command(
        "batches",
        "The mean over one long run, from its history, by batches.",
        _batches_words,
        _batches,
        ("batches",),
    ),
)
