"""Commands on input models: fit, tables."""

from __future__ import annotations

import argparse
import re
import sys

from .command import Answer, Command, Parser, real, say, whole
from .errors import InputError


def _fit_words(parser: Parser) -> None:
    add = parser.add_argument
    add("file", metavar="FILE", help="measured times, one on each line")
    add(
        "--tick",
        type=real,
        default=1.0,
        metavar="TICKS",
        help="how many ticks a unit of the file is (1)",
    )
    add("--table", default="TIME", metavar="NAME", help="the table's name (TIME)")
    add(
        "--rounding",
        choices=("auto", "none", "nearest", "up", "down"),
        default="auto",
        help="how times were rounded when they were written down (auto: to the nearest unit, if it looks so)",
    )
    add(
        "--resamples",
        type=whole,
        default=199,
        metavar="N",
        help="samples of the bootstrap tests (199)",
    )


def _fit(args: argparse.Namespace, answer: Answer) -> None:
    from . import inputs

    made = inputs.fit(
        inputs.read_times(args.file),
        tick=args.tick,
        rounding=args.rounding,
        n_resamples=args.resamples,
    )
    answer.table(made.table)
    if made.rounding != "none":
        kind, unit = made.rounding.split()
        way = "to the nearest" if kind == "nearest" else f"{kind} to whole"
        say(f"the times are taken as rounded {way} {unit} ticks")
    for name, why in made.refused.items():
        answer.lines.append(f"{name}: not fitted: {why}")
    if made.autocorrelation_p < 0.05:
        p = f"p = {made.autocorrelation_p:.3g}"
        say(
            f"the times depend on their neighbours (Ljung and Box, {p}): a table draws them independently"
        )
    best = made.best
    if best is None:
        why = "fewer than 20 times" if made.n < 20 else "no family fits"
        say(f"{why}: take the data themselves")
    ticks = f" {args.tick:g}" if args.tick != 1 else ""
    words = best.words if best else f"data {args.file}{ticks}"
    answer.lines.append(f"# table {args.table} {words};")


def _tables_words(parser: Parser) -> None:
    add = parser.add_argument
    add("words", nargs="*", metavar="NAME DISTRIBUTION NUMBER", help="as SERVICE lognormal 500 200")
    add("--fill", metavar="MODEL", help="write a model's text with its tables and values filled in")
    add("--rows", type=whole, default=200, metavar="N", help="the rows of a table (200)")


def _tables(args: argparse.Namespace, answer: Answer) -> None:
    from . import inputs
    from .replication import source_of

    if args.fill:
        if args.words:
            raise InputError("--fill MODEL takes no further words")
        if args.fill == "-":
            text, folder = sys.stdin.buffer.read().decode("utf-8", "surrogateescape"), "."
        else:
            from .command import ModelFile

            text, where = source_of(ModelFile(args.fill))
            folder = str(where)
        filled = inputs.fill(text, folder, rows=args.rows)
        for note in filled.notes:
            say(note)
        answer.lines = filled.text.removesuffix("\n").split("\n")
        return
    if len(args.words) < 2:
        raise InputError("NAME DISTRIBUTION NUMBER .. or --fill MODEL are needed")
    name, *words = args.words
    if not re.fullmatch(r"[A-Za-z]\w{0,31}", name, re.A):
        raise InputError(f"no name for a table: {name}")
    table = inputs.discretize(inputs.Distribution.parse(" ".join(words)), rows=args.rows, name=name)
    say(table.summary)
    answer.lines.append(table.text)
    size = {"name": table.name, "rows": len(table.values), "mean": table.mean, "sd": table.sd}
    answer.rows.append({**size, **table.errors()})


COMMANDS = (
    Command(
        "fit",
        "Which distribution fits measured times, and the line that a model takes.",
        _fit_words,
        _fit,
        ("fit",),
    ),
    Command(
        "tables",
        "A table of a distribution, or a model with its tables filled.",
        _tables_words,
        _tables,
        ("tables",),
    ),
)
