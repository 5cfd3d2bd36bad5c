"""Commands that draw: histogram, course."""

from __future__ import annotations

import argparse

from .command import Answer, Command, Parser, add_cut, read_report, real
from .command_reports import measure_word
from .errors import InputError


def _histogram_words(parser: Parser) -> None:
    add_cut(parser)
    add = parser.add_argument
    add("width", type=real, metavar="WIDTH", help="the width of a bar")
    add(
        "report",
        nargs="+",
        metavar="[LABEL=]FILE",
        help="reports, or with --values files of numbers",
    )
    add(
        "--measure",
        metavar="MEASURE",
        help="what is drawn of reports, as 'QUEUE.average in 60=min'",
    )
    add("--values", action="store_true", help="the files have a number on each line")
    add("--picture", required=True, metavar="FILE", help="as runs.svg, runs.png or runs.pdf")


def _histogram(args: argparse.Namespace, answer: Answer) -> None:
    import numpy as np

    from . import inputs, plots

    if bool(args.measure) == args.values:
        raise InputError("--measure MEASURE or --values is needed")
    samples = {}
    what = None if args.values else measure_word(args.measure)
    for word in args.report:
        label, equals, path = word.partition("=")
        if what is None:
            label, values = (label, path) if equals else (word, word)
            samples[label] = np.asarray(inputs.read_times(values), dtype=float)
            continue
        report = read_report(word, keep_cut=args.all)
        sample = report.sample(what)
        below = 1.0 if sample.below is None else np.asarray(sample.below, dtype=float)
        if np.any(below == 0):
            raise InputError(f"{report.label}: what is below the / is 0 in a run")
        samples[report.label] = np.asarray(sample.above, dtype=float) / below * sample.scale
    name = "value" if what is None else what.label
    plots.save(plots.histogram(samples, args.width, name), args.picture)


def _course_words(parser: Parser) -> None:
    add = parser.add_argument
    add("history", metavar="HISTORY", help="a history of `sigma run`, or - for the standard input")
    add("item", nargs="+", metavar="ITEM", help="watched values, or formulas of them")
    add("--unfinished", action="store_true", help="take a history that is still being written")
    add("--unit", default="1=ticks", metavar="60=min", help="the unit of time")
    add("--picture", required=True, metavar="FILE", help="as day.svg, day.png or day.pdf")


def _course(args: argparse.Namespace, answer: Answer) -> None:
    from . import plots
    from .history import History

    size, equals, unit = args.unit.partition("=")
    try:
        ticks = real(size)
    except argparse.ArgumentTypeError as error:
        raise InputError(f"a unit is as 60=min: {error}") from None
    if ticks <= 0:
        raise InputError(f"a unit is above 0: {args.unit}")
    history = History.read(
        "/dev/stdin" if args.history == "-" else args.history, whole=not args.unfinished
    )
    plots.save(plots.course(history, args.item, ticks, unit or f"units of {size}"), args.picture)


COMMANDS = (
    Command(
        "histogram",
        "A picture of how the runs of reports lie, or the values of files.",
        _histogram_words,
        _histogram,
        ("histogram",),
    ),
    Command(
        "course",
        "A picture of the course of watched values, from a history.",
        _course_words,
        _course,
        ("course",),
    ),
)
