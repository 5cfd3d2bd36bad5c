"""Commands that read reports: means, since, join."""

from __future__ import annotations

import argparse
import os
from typing import TYPE_CHECKING

from .command import Answer, Command, Parser, add_cut, add_level, read_report, reals, say
from .command_runs import add_estimate, put_report
from .errors import InputError

if TYPE_CHECKING:
    from .measures import Measure
    from .report import Report


def _means_words(parser: Parser) -> None:
    add_level(parser)
    add_cut(parser)
    add = parser.add_argument
    add(
        "measure",
        metavar="MEASURE",
        help="as QUEUE.average, WAITED/LEAVE or 'WAITED.last in 60=min'",
    )
    add(
        "report",
        nargs="+",
        metavar="[LABEL=]REPORT",
        help="a report's file, or - for the standard input",
    )
    add(
        "--against",
        choices=("first", "all", "least", "greatest"),
        default="first",
        help="compare designs with the first, all pairs, or with the best, which is the least or greatest",
    )
    add("--unpaired", action="store_true", help="runs of designs are independent and don't pair")
    add("--quantiles", type=reals, default=[], metavar="0.5,0.9", help="quantiles over the runs")
    add("--predict", action="store_true", help="between which values one further run lies")
    add(
        "--method",
        choices=("auto", "t", "willink", "exact"),
        default="auto",
        help="of the interval",
    )


def measure_word(word: str) -> Measure:
    """A measure of reports, of one word."""
    from .measures import EventMeasure, measure

    made = measure(word)
    if isinstance(made, EventMeasure):
        raise InputError(f"a report has no values at events: {word}")
    return made


def _reports(words: list[str], *, keep_cut: bool) -> dict[str, Report]:
    from .measures import COLUMNS

    made: dict[str, Report] = {}
    for word in words:
        if word in COLUMNS and not os.path.exists(word):
            raise InputError(f"an item and its column are one word, as QUEUE.{word}")
        report = read_report(word, keep_cut=keep_cut)
        if report.label in made:
            raise InputError(f"two reports are called {report.label}: name them as LABEL=FILE")
        made[report.label] = report
    return made


def _means(args: argparse.Namespace, answer: Answer) -> None:
    what = measure_word(args.measure)
    reports = _reports(args.report, keep_cut=args.all)
    level = args.level
    for name, report in reports.items():
        cut = report.cut_off()
        if args.all and any(cut.values()):
            say(
                f"{name}: {cut['fault']} runs ended by a fault and {cut['budget']} spent the budget"
            )
        here = report.estimate(what, method=args.method, confidence_level=level)
        add_estimate(answer, name, here, measure=what.label)
        for p in args.quantiles:
            here = report.quantile(what, p, confidence_level=level)
            add_estimate(answer, f"{name} quantile {p:g}", here, measure=what.label)
        if args.predict:
            here = report.predict(what, confidence_level=level)
            add_estimate(answer, f"{name} one further run", here, measure=what.label)
    if len(reports) > 1:
        from .comparisons import compare_reports

        table = compare_reports(
            reports,
            what,
            against=args.against,
            paired=not args.unpaired,
            confidence_level=level,
        )
        answer.table(table)


def _since_words(parser: Parser) -> None:
    parser.add_argument("early", metavar="EARLY", help="a report of runs until the warm-up ends")
    parser.add_argument("late", metavar="LATE", help="a report of the same runs until later")
    parser.add_argument("--plain", action="store_true", help="leave out the line of provenance")


def _since(args: argparse.Namespace, answer: Answer) -> None:
    made = read_report(args.late).after(read_report(args.early))
    put_report(made, answer, made.to_csv(with_provenance=not args.plain))


def _join_words(parser: Parser) -> None:
    text = "a report's file, or - for the standard input"
    parser.add_argument("report", nargs="+", metavar="REPORT", help=text)
    parser.add_argument("--plain", action="store_true", help="leave out the line of provenance")


def _join(args: argparse.Namespace, answer: Answer) -> None:
    from .report import concat

    made = concat([read_report(word, keep_cut=True) for word in args.report])
    put_report(made, answer, made.to_csv(with_provenance=not args.plain))


COMMANDS = (
    Command(
        "means",
        "The mean over the runs of reports with its interval, and how designs differ.",
        _means_words,
        _means,
        ("means",),
    ),
    Command(
        "since",
        "The report of the time after a warm-up, from two reports of the same runs.",
        _since_words,
        _since,
        ("since",),
    ),
    Command(
        "join",
        "One report of several of the same design.",
        _join_words,
        _join,
        ("join-reports",),
    ),
)
