"""Commands about models: place, new, graph, report; and about runs of one: trace, whyfault, meets, lint."""

from __future__ import annotations

import argparse
import re
import shlex
import sys
from pathlib import Path
from typing import TYPE_CHECKING

from .command import Answer, Command, Parser, add_plan, plan_of, real, say, whole, wholes
from .errors import InputError

if TYPE_CHECKING:
    from .model import Model

_VALUES = r"^[ \t]*# values \w+ (\S+) "

_QUEUE = """# A queue with servers. A tick is a second.
version 2;
model {name};
var QUEUE : 0..10000 = 0;
var FREE : 0..100 = 1;
# table GAP exponential 300;
table GAP {{ 300 : 1; }}
# table SERVICE exponential 240;
table SERVICE {{ 240 : 1; }}
watch QUEUE, FREE;
vertex OPEN(FREE) {{
  schedule COME after draw from 0 by GAP;
}}
vertex COME {{
  set QUEUE := QUEUE + 1;
  schedule COME after draw from 0 by GAP;
  urgent START when FREE > 0;
}}
vertex START {{
  set QUEUE, FREE := QUEUE - 1, FREE - 1;
  schedule LEAVE after draw from 1 by SERVICE;
}}
vertex LEAVE {{
  set FREE := FREE + 1;
  urgent START when QUEUE > 0;
}}
end
"""
_FLOW = '''"""{name}: entities that wait for a server. A tick is a second."""
from sigma_lab.model import Model
from sigma_lab.patterns import Flow, Resource
from sigma_lab.terms import draw

m = Model("{name}")
servers = m.var("SERVERS", 0, 99, 2)
m.starts_with(servers)
server = Resource(m, "SERVER", servers)
way = Flow(m, "CUSTOMER", most=512)
way.arrive(gap=draw(m.stream(), m.table("GAP", "exponential 300")))
service = draw(m.stream(), m.table("SERVICE", "lognormal 500 200"))
way.serve(server, service, patience=draw(m.stream(), m.table("PATIENCE", "exponential 900")))
way.leave()
m.watch(server.queue, server.busy, server.left, server.waited, server.served, way.done)

if __name__ == "__main__":
    print(m.check().text)
'''


def _model(args: argparse.Namespace) -> Model:
    from .model import Model

    return Model.read(args.model)


def _run_words(parser: Parser) -> None:
    """The words of one run, whose seed is that of a report's row."""
    parser.add_argument(
        "model", metavar="MODEL", help="a model's text, or - for the standard input"
    )
    text = "the seed of the run, as the column seed of a report has it"
    parser.add_argument("--seed", type=whole, required=True, help=text)
    parser.add_argument("--start", type=wholes, default=(), metavar="V,V", help="starting values")
    text = "the most events of the run (10^7)"
    parser.add_argument("--events", type=whole, default=10**7, help=text)


def _place_words(parser: Parser) -> None:
    parser.add_argument("models", nargs="+", metavar="MODEL", help="texts of models")


def _place(args: argparse.Namespace, answer: Answer) -> None:
    from .model import Model

    for path in args.models:
        model = Model.read(path)
        problem = model.problem()
        answer.lines += str(problem or f"{path}: accepted {model.name}").splitlines()
        row = {"file": path, "line": None, "column": None, "message": "accepted", "hint": ""}
        if problem is not None:
            answer.status = 1
            row |= {"line": problem.line, "column": problem.column}
            row |= {"message": problem.message, "hint": problem.hint}
        answer.rows.append(row)


def _new_words(parser: Parser) -> None:
    text = "queue: a text; flow: a Python file with a way through a resource"
    parser.add_argument("kind", choices=("queue", "flow"), help=text)
    parser.add_argument("name", nargs="?", default="MODEL", help="its name (MODEL)")


def _new(args: argparse.Namespace, answer: Answer) -> None:
    if not re.fullmatch(r"[A-Za-z][A-Za-z0-9_]{0,31}", args.name):
        raise InputError(f"a name has letters, digits and _, at most 32: {args.name}")
    text = _QUEUE if args.kind == "queue" else _FLOW
    answer.lines += text.format(name=args.name.upper()).splitlines()


def _graph_words(parser: Parser) -> None:
    parser.add_argument(
        "model", metavar="MODEL", help="a model's text, or - for the standard input"
    )
    text = "a file that ends in .svg, .png, .pdf or .dot; without it the SVG is written out"
    parser.add_argument("-o", "--output", metavar="FILE", help=text)


def _graph(args: argparse.Namespace, answer: Answer) -> None:
    from . import graph

    model = _model(args).without_certificate()
    if args.output:
        graph.save(model, args.output)
    else:
        answer.lines += graph.svg(model).splitlines()


def _trace_words(parser: Parser) -> None:
    parser.add_argument("first", type=whole, metavar="FROM", help="the first tick")
    parser.add_argument("last", type=whole, metavar="TO", help="the last tick")
    _run_words(parser)
    text = "the variables to show, with commas between them"
    parser.add_argument("--only", default="", metavar="NAME,NAME", help=text)


def _trace(args: argparse.Namespace, answer: Answer) -> None:
    from .trace import trace

    only = tuple(args.only.split(",")) if args.only else ()
    found = trace(
        _model(args),
        args.first,
        args.last,
        seed=args.seed,
        start=args.start,
        events=args.events,
        only=only,
    )
    answer.lines += str(found).splitlines()
    answer.rows += found.frame.to_dict("records")


def _whyfault_words(parser: Parser) -> None:
    _run_words(parser)
    text = "the tick at which the run stops"
    parser.add_argument("--until", type=whole, required=True, metavar="TICK", help=text)


def _whyfault(args: argparse.Namespace, answer: Answer) -> None:
    from .faults import whyfault

    found = whyfault(
        _model(args), until=args.until, seed=args.seed, start=args.start, events=args.events
    )
    answer.lines += str(found).splitlines()


def _meets_words(parser: Parser) -> None:
    add_plan(parser, runs=20)
    text = "don't make the runs that exchange the two"
    parser.add_argument("--only-count", action="store_true", help=text)


def _meets(args: argparse.Namespace, answer: Answer) -> None:
    from .meets import Meets

    shown = sys.stderr.isatty()

    def progress(what: str, done: int, of: int) -> None:
        if shown:
            print(f"\r{what} {done} of {of} ", end="", file=sys.stderr, flush=True)

    plan = plan_of(args)
    search = Meets(_model(args), plan, exchange=not args.only_count, progress=progress)
    for each in search.each():
        answer.lines.append(each.line(plan.runs))
        answer.rows.append(each.row())
    if shown:
        print(file=sys.stderr)
    answer.lines.append(f"{search.never} of {len(search.pairs)} pairs never met")
    if search.unknown:
        say(
            f"of {search.unknown} pairs of events it wasn't found out whether they were due together"
        )


def _conflicts_words(parser: Parser) -> None:
    parser.add_argument(
        "model", metavar="MODEL", help="a model's text, or - for the standard input"
    )
    text = "with the pairs that the program lists"
    parser.add_argument("--all", action="store_true", help=text)
    text = "only pairs that share more than what each event writes first, or urgent events"
    parser.add_argument("--left", action="store_true", help=text)


def _conflicts(args: argparse.Namespace, answer: Answer) -> None:
    from . import conflicts

    plain = not args.left
    frame = _model(args).conflicts(through=True, urgent=plain, left=plain)
    frame = frame if args.all else frame[frame["through"].map(len) > 0]
    answer.lines += conflicts.lines(frame)
    answer.rows += frame.to_dict("records")


def _lint_words(parser: Parser) -> None:
    parser.add_argument(
        "model", metavar="MODEL", help="a model's text, or - for the standard input"
    )
    text = "make runs up to this tick, and look at their faults, clips and ranges"
    parser.add_argument("--until", type=whole, metavar="TICK", help=text)
    parser.add_argument("--runs", type=whole, default=20, help="how many runs (20)")
    parser.add_argument("--seed", type=whole, default=1, help="the seed of the series of runs (1)")
    parser.add_argument(
        "--events", type=whole, default=10**7, help="the most events of a run (10^7)"
    )
    parser.add_argument("--start", type=wholes, default=(), metavar="V,V", help="starting values")


def _lint(args: argparse.Namespace, answer: Answer) -> None:
    from . import lint
    from .plan import Plan

    plan = None
    if args.until is not None:
        plan = Plan(
            args.until, seed=args.seed, runs=args.runs, events=args.events, start=args.start
        )
    findings = lint.lint(_model(args).check(), plan)
    answer.lines += [str(each) for each in findings] or ["nothing found"]
    answer.rows += lint.frame(findings).to_dict("records")


def _report_words(parser: Parser) -> None:
    add_plan(parser, runs=100)
    add = parser.add_argument
    text = "NAME=VALUES of a grid, and measures, as QUEUE.average or 'waiting: QUEUE.average'"
    add("words", nargs="+", metavar="WORD", help=text)
    add("--where", default="", help="a constraint on names, as 'S < U'")
    add("--unit", default="1=ticks", help="of the time of the run that is shown, as 60=hours")
    for name in ("title", "question", "answer"):
        add(f"--{name}", default="", help=f"the {name} that the page shows")
    add("-o", "--output", metavar="FILE", help="the file to write; else the page is written out")


def _report(args: argparse.Namespace, answer: Answer) -> None:
    from . import page_report
    from .experiments import read_values

    model = _model(args).check().filled()
    grid: dict[str, list[int]] = {}
    measures: dict[str, str] = {}
    for word in args.words:
        name, equals, values = word.partition("=")
        if equals and name.isidentifier():
            grid[name] = read_values(values)
        else:
            label, _, measured = word.rpartition(": ")
            measures[label or measured] = measured
    if not measures:
        raise InputError("nothing is measured: name an item, as QUEUE.average")
    size, _, unit = args.unit.partition("=")
    page = page_report.study(
        model,
        grid,
        measures,
        plan_of(args),
        where=args.where,
        title=args.title,
        question=args.question,
        answer=args.answer,
        command="sigma-lab " + " ".join(map(shlex.quote, sys.argv[1:])),
        unit=(real(size), unit or "ticks"),
    )
    named = dict.fromkeys(re.findall(_VALUES, model.text, re.M))
    page.files = {file: (Path(args.model).parent / file).read_text() for file in named}
    if args.output:
        page.write(args.output)
    else:
        answer.lines += page.html().splitlines()


COMMANDS = (
    Command(
        "place", "Where texts are wrong, by line and column.", _place_words, _place, ("place",)
    ),
    Command("new", "A model to begin with.", _new_words, _new),
    Command("graph", "The event graph of a model, as a picture.", _graph_words, _graph, ("graph",)),
    Command(
        "trace",
        "The events between two ticks, with all that they change.",
        _trace_words,
        _trace,
        ("trace",),
    ),
    Command(
        "whyfault",
        "Which event of a run faults or never ends, where, and with what values.",
        _whyfault_words,
        _whyfault,
        ("whyfault",),
    ),
    Command(
        "meets",
        "How often conflicting events are due at one moment, and whether the order matters.",
        _meets_words,
        _meets,
        ("meets",),
    ),
    Command(
        "conflicts-through",
        "Pairs of events that conflict by the urgent events that they bring about.",
        _conflicts_words,
        _conflicts,
        ("conflicts-through",),
    ),
    Command("lint", "What is allowed in a model and often a slip.", _lint_words, _lint),
    Command("report", "One HTML page of a study.", _report_words, _report, ("report",)),
)
