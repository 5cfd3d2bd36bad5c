"""Commands that make runs: replicate, observations."""

from __future__ import annotations

import argparse
from typing import TYPE_CHECKING

from .command import (
    Answer,
    Command,
    Parser,
    add_cut,
    add_level,
    add_plan,
    number,
    part,
    plan_of,
    read_model,
    reals,
    say,
    whole,
)
from .errors import InputError, Stopped, status_of

if TYPE_CHECKING:
    from .estimates import Estimate


def _replicate_words(parser: Parser) -> None:
    add_plan(parser, runs=100)
    add = parser.add_argument
    text = "the number of the first run in its series (1)"
    add("--first-run", type=whole, default=1, metavar="N", help=text)
    add("--part", type=part, metavar="K/N", help="make the K-th of N parts of the runs alone")
    add("--plain", action="store_true", help="leave out the line of provenance")
    add("--keep", metavar="FILE", help="write the report to a file")


def _replicate(args: argparse.Namespace, answer: Answer) -> None:
    from .files import Kept
    from .replication import replicate
    from .report import Report

    plan, first = plan_of(args), args.first_run
    if args.part:
        which, parts = args.part
        if parts > plan.runs:
            raise InputError(f"{plan.runs} runs have no {parts} parts")
        begin, end = ((which - 1) * plan.runs // parts, which * plan.runs // parts)
        plan, first = plan.change(runs=end - begin), first + begin
    text = read_model(args.model)

    def make() -> Report | None:
        try:
            return replicate(text, plan, first_run=first, progress="runs")
        except Stopped as stopped:
            made: Report | None = stopped.report
            say(f"{len(made) if made else 0} of {plan.runs} runs were made")
            answer.status = status_of(stopped)
            return made

    if args.keep:
        with Kept(args.keep) as kept:
            report = make()
            kept.text = report.to_csv(with_provenance=not args.plain) if report else ""
    else:
        report = make()
        if report:
            put_report(report, answer, report.to_csv(with_provenance=not args.plain))


def put_report(report: object, answer: Answer, written: str) -> None:
    """A report as an answer: its text, and its rows."""
    from .report import Report

    assert isinstance(report, Report)
    answer.text = written
    answer.lines = written.splitlines()
    frame = report.to_frame().reset_index().astype({"outcome": str})
    answer.rows = frame.to_dict("records")


def _observations_words(parser: Parser) -> None:
    add_plan(parser, runs=100)
    add_cut(parser)
    add_level(parser)
    add = parser.add_argument
    add(
        "measure",
        metavar="EVENT:ITEM",
        help="as DOOR:WAIT, 'DOOR:WAIT where CLASS = 1' or 'DOOR:WAIT in 60=min'",
    )
    add("--quantiles", type=reals, default=[], metavar="0.5,0.9", help="quantiles of all values")
    add("--at-most", type=reals, default=[], metavar="X,X", help="which share is at most X")
    add("--each-run", action="store_true", help="a row for each run")
    add("--values", action="store_true", help="the values themselves, one a line")


def _observations(args: argparse.Namespace, answer: Answer) -> None:
    from dataclasses import replace

    from .measures import values_at
    from .replication import observe

    what = values_at(args.measure)
    text, plan = read_model(args.model), plan_of(args)
    seen = observe(text, what.event, what.value, plan, where=what.where, progress="runs")
    seen = replace(seen, scale=what.scale, unit=what.unit)
    if args.each_run:
        answer.table(seen.by_run(args.quantiles, args.at_most).reset_index())
    elif args.values:
        answer.rows = seen.to_frame().to_dict("records")
        answer.lines = [number(value) if value % 1 else str(int(value)) for value in seen.value]
    else:
        level = args.level
        add_estimate(answer, f"{len(seen)} values, mean", seen.mean(confidence_level=level))
        for p in args.quantiles:
            here = seen.quantile(p, confidence_level=level)
            add_estimate(answer, f"{p:g} of them are at most", here)
        for limit in args.at_most:
            here = seen.share_at_most(limit, confidence_level=level)
            add_estimate(answer, f"share at most {limit:g}", here)


def add_estimate(answer: Answer, name: str, estimate: Estimate, **more: object) -> None:
    """An estimate as an answer."""
    answer.lines.append(f"{name}: {estimate}")
    answer.rows.append({"name": name, **more, **estimate.to_dict()})


COMMANDS = (
    Command(
        "replicate",
        "Makes many runs of a model, and writes their report.",
        _replicate_words,
        _replicate,
        ("replicate-hashed", "replicate-on", "runs-of-part"),
    ),
    Command(
        "observations",
        "The values of an item at each occurrence of a watched event: mean, quantiles, shares.",
        _observations_words,
        _observations,
        ("observations",),
    ),
)
