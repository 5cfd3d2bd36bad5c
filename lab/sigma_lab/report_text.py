"""The text of a report: reading it with every field and total checked, and writing it.

A report is what `sigma replicate` writes: a header, a row for each run and watched item, and a row of totals for each
item.  Programs of one's own may write reports too: they leave the least and the greatest value empty, and then time,
last value and area may have decimals.

What is read is canonical: `write(read(data)) == data` for every report of whole numbers.
"""

from __future__ import annotations

import re
from collections.abc import Callable, Iterable, Sequence
from fractions import Fraction
from functools import cached_property
from itertools import chain, repeat
from operator import le, methodcaller, mul
from typing import NoReturn

from .errors import BadReport
from .report_columns import COLUMNS, ITEM, OUTCOMES, Columns, Number, columns_of

Fields = Sequence[bytes]

HEADER = b"run,seed,outcome,time,item,least,greatest,last,area,count"
_VARIABLE = ("least", "greatest", "last", "area")
_WITH_DECIMALS = ("last", "area")
_MOST_TIME, _MOST_COUNT, _MOST_SEED = 2**48, 2**40, 2**64 - 1
_DECIMAL = re.compile(rb"-?(?:0|[1-9]\d{0,39})\.\d{1,40}")
_WHOLE = re.compile(rb"0|-?[1-9]\d{0,39}")
_MARKS = (b"\xef\xbb\xbf", b"\xfe\xff", b"\xff\xfe")


def read(data: bytes, source: str = "", line: int = 1) -> list[Columns]:
    """The reports of a text, one after the other.

    Parameters
    ----------
    data : bytes
        One report, or several with their headers.
    source : str
        The name that errors have.
    line : int
        The number of the first line.

    Raises
    ------
    BadReport
        With the line of the first fault of the most basic kind.
    """
    if not data:
        raise BadReport("is empty", None, source)
    if data.startswith(_MARKS):
        raise BadReport("the report begins with a byte order mark", line, source)
    if not data.endswith(b"\n"):
        cut = line + data.count(b"\n")
        raise BadReport("the last line has no line end, so the report is cut off", cut, source)
    if data.startswith(HEADER + b"\r\n"):
        text = "the line ends in CR LF, not in a line feed alone (tr -d '\\r' takes the CR away)"
        raise BadReport(text, line, source)
    if not data.startswith(HEADER + b"\n"):
        raise BadReport("this is no report: its header is another one", line, source)
    starts = [0]
    while found := data.find(b"\n" + HEADER + b"\n", starts[-1]) + 1:
        starts.append(found)
    made = []
    for start, end in zip(starts, [*starts[1:], len(data)]):
        body = data[start + len(HEADER) + 1 : end]
        made.append(_Reader(body, source, line + 1).read())
        line += 1 + body.count(b"\n")
    return made


class _Reader:
    """One report, from the line below its header."""

    def __init__(self, body: bytes, source: str, line: int) -> None:
        self.source, self.line = source, line
        end = 0 if body.startswith(b"total") else body.find(b"\ntotal") + 1 or len(body)
        self.rows, self.totals = body[:end], body[end:].split(b"\n")[:-1]

    @cached_property
    def lines(self) -> list[bytes]:
        """The rows, line by line."""
        return self.rows.split(b"\n")[:-1]

    def refuse(self, row: int, message: str) -> NoReturn:
        raise BadReport(message, self.line + row, self.source)

    def read(self) -> Columns:
        if not self.rows:
            self.refuse(0, "totals of no run" if self.totals else "it has no run")
        made = columns_of(self.rows) or self._row_by_row()
        width = len(made.items)
        self._check_limits(made, width)
        for at in range(width):
            self._check_item(made, at, width)
        self._check_totals(made)
        return made

    def _row_by_row(self) -> Columns:
        flat = b",".join(self.lines).split(b",")
        if set(map(_commas, self.lines)) != {9} or any(map(_has_return, flat[9::10])):
            for number, text in enumerate(self.lines):
                if _commas(text) != 9 or _has_return(text):
                    self.refuse(number, _why_no_row(text))
        run, seed, outcome, time, item, *columns = (flat[at::10] for at in range(10))
        width = next((k for k, number in enumerate(run) if number != b"1"), len(run))
        items = self._items(run, item, width)
        for name, column in (("seeds", seed), ("outcomes", outcome), ("times", time)):
            self._one_of_each_run(name, column, width)
        return Columns(
            items,
            [int(seed) for seed in self._numbers(seed[::width], 0, width)],
            self._outcomes(outcome[::width], width),
            self._numbers(time[::width], 0, width, decimals=True),
            [self._values([c[at::width] for c in columns], at, width) for at in range(width)],
        )

    # The order of rows

    def _items(self, run: Fields, item: Fields, width: int) -> tuple[str, ...]:
        if width == 0:
            self._wrong_run(0, run[0], 1)
        names = list(item[:width])
        for at, name in enumerate(names):
            if ITEM.fullmatch(name) is None:
                self.refuse(at, _why_no_field(self.lines[at]))
            if name in names[:at]:
                self.refuse(at, f"run 1 has {name.decode()} twice")
        count = -(-len(run) // width)
        expected = list(chain.from_iterable(repeat(b"%d" % k, width) for k in range(1, count + 1)))
        if run != expected[: len(run)] or item != (names * count)[: len(item)]:
            for at, wanted in enumerate(expected[: len(run)]):
                self._check_place(at, (run[at], wanted), (item[at], names[at % width]), width)
        if len(run) % width:
            missing = names[len(run) % width].decode()
            self.refuse(len(run), f"run {count} has no row of {missing}")
        return tuple(name.decode() for name in names)

    def _check_place(
        self, at: int, run: tuple[bytes, bytes], item: tuple[bytes, bytes], width: int
    ) -> None:
        """Whether a row is of the run and the item that have to be there: pairs of what is, and what has to be."""
        (here, wanted), (shown, known) = run, item
        if here != wanted:
            if at % width and here == b"%d" % (int(wanted) + 1):
                self.refuse(at, f"run {int(wanted)} has no row of {known.decode()}")
            self._wrong_run(at, here, int(wanted) + (at % width > 0))
        if shown != known:
            place = f"item {at % width + 1} of run {at // width + 1}"
            name = shown.decode("ascii", "backslashreplace")
            self.refuse(at, f"{place} is {name}, and the first run has {known.decode()}")

    def _wrong_run(self, row: int, here: bytes, wanted: int) -> NoReturn:
        if _WHOLE.fullmatch(here) is None:
            self.refuse(row, _why_no_field(self.lines[row]))
        what = f"run {here.decode()} where run {wanted} has to be"
        self.refuse(row, f"{what}: rows are missing or in another order")

    def _one_of_each_run(self, name: str, column: Fields, width: int) -> None:
        first = column[::width]
        for at in range(1, width):
            if column[at::width] != first:
                others = zip(first, column[at::width])
                run = next(k for k, (a, b) in enumerate(others) if a != b)
                self.refuse(run * width + at, f"run {run + 1} has two {name}")

    # Fields

    def _numbers(
        self, column: Fields, at: int, width: int, *, decimals: bool = False
    ) -> list[Number]:
        """The numbers of a column whose k-th field is in row `k * width + at`."""
        try:
            whole = list(map(int, column))
            if list(map(b"%d".__mod__, whole)) == column:
                return list(whole)
        except ValueError:
            pass
        made: list[Number] = []
        for run, field in enumerate(column):
            if len(field) <= 41 and _WHOLE.fullmatch(field):
                made.append(int(field))
            elif decimals and _DECIMAL.fullmatch(field):
                made.append(Fraction(field.decode()))
            else:
                row = run * width + at
                self.refuse(row, _why_no_field(self.lines[row]))
        return made

    def _outcomes(self, column: Fields, width: int) -> list[str]:
        for run, word in enumerate(column):
            if word not in OUTCOMES:
                self.refuse(run * width, _why_no_field(self.lines[run * width]))
        return [word.decode() for word in column]

    def _values(self, columns: list[Fields], at: int, width: int) -> dict[str, list[Number]]:
        made: dict[str, list[Number]] = {}
        for name, column in zip(COLUMNS, columns):
            if not any(column):
                continue
            if not all(column):
                run = next(k for k, field in enumerate(column) if bool(field) != bool(column[0]))
                text = "this item has other columns here than in the first run"
                self.refuse(run * width + at, text)
            made[name] = self._numbers(column, at, width, decimals=name in _WITH_DECIMALS)
        return made

    # What the numbers may be

    def _check_limits(self, made: Columns, width: int) -> None:
        limits: tuple[tuple[Sequence[Number], int], ...] = (
            (made.seeds, _MOST_SEED),
            (made.times, _MOST_TIME),
        )
        for column, most in limits:
            if min(column) < 0 or max(column) > most:
                run = next(k for k, number in enumerate(column) if not 0 <= number <= most)
                self.refuse(run * width, "the seed or the time is outside its limits")

    def _check_item(self, made: Columns, at: int, width: int) -> None:
        values, times = made.values[at], made.times
        names = tuple(values)

        def check(good: Callable[[], Iterable[bool]], message: str) -> None:
            if not all(good()):
                self.refuse(list(good()).index(False) * width + at, message)

        def between(low: int, column: list[Number], high: int, message: str) -> None:
            if min(column) < low or max(column) > high:
                check(lambda: (low <= number <= high for number in column), message)

        if names == ("count",):
            between(0, values["count"], _MOST_COUNT, "the count is outside its limits")
        elif names == _VARIABLE:
            least, greatest, last, area = (values[name] for name in _VARIABLE)
            for column in (last, area, times):
                if Fraction in set(map(type, column)):
                    outside = "decimals are for rows without least and greatest value"
                    check(lambda: (type(number) is int for number in column), outside)
            outside = "the last value isn't from the least to the greatest one"
            check(lambda: map(le, least, last), outside)
            check(lambda: map(le, last, greatest), outside)
            between(-(2**63), least, 2**63 - 1, outside)
            between(-(2**63), greatest, 2**63 - 1, outside)
            outside = "the area isn't from the least to the greatest value times the time"
            check(lambda: map(le, map(mul, least, times), area), outside)
            check(lambda: map(le, area, map(mul, greatest, times)), outside)
        elif not names or not set(names) <= set(_WITH_DECIMALS):
            self.refuse(at, f"{made.items[at]} has no such set of columns")

    def _check_totals(self, made: Columns) -> None:
        first = len(made.seeds) * len(made.items)
        for at, (name, text) in enumerate(zip(made.items, self.totals)):
            fields = text.split(b",")
            if text[-1:] == b"\r" or len(fields) != 10 or fields[:4] != [b"total", b"", b"", b""]:
                row = text[:5] != b"total"
                self.refuse(
                    first + at, "a row after the totals" if row else "this is no row of totals"
                )
            if fields[4] != name.encode():
                shown = fields[4].decode("ascii", "backslashreplace")
                self.refuse(first + at, f"the total of {shown} isn't in its place")
            for column, given, wanted in zip(COLUMNS, fields[5:], _totals(made.values[at])):
                if given != wanted and not self._is_near(given, made.values[at].get(column)):
                    if given and not _WHOLE.fullmatch(given) and not _DECIMAL.fullmatch(given):
                        self.refuse(first + at, "this is no row of totals")
                    shown = given.decode() or "empty"
                    text_of = f"the total {column} of {name} is {shown}"
                    come = wanted.decode() or "none"
                    self.refuse(
                        first + at,
                        f"{text_of}, and its rows come to {come}: rows are missing or changed",
                    )
        if not self.totals:
            self.refuse(first, "the report ends without its totals")
        if len(self.totals) < len(made.items):
            missing = made.items[len(self.totals)]
            self.refuse(first + len(self.totals), f"the total of {missing} is missing")
        if len(self.totals) > len(made.items):
            self.refuse(first + len(made.items), "a row after the totals")

    @staticmethod
    def _is_near(given: bytes, rows: list[Number] | None) -> bool:
        """Whether a total with decimals was summed in floating point."""
        if rows is None or not any(type(value) is Fraction for value in rows):
            return False
        if _DECIMAL.fullmatch(given) is None and _WHOLE.fullmatch(given) is None:
            return False
        near = Fraction(1, 10**9) * sum(abs(Fraction(row)) for row in rows)
        return bool(abs(Fraction(given.decode()) - sum(rows)) <= near)


def _totals(values: dict[str, list[Number]]) -> list[bytes]:
    """The fields of a row of totals."""
    made = []
    for column in COLUMNS:
        rows = values.get(column)
        if rows is None or column == "last":
            made.append(b"")
        elif column in ("least", "greatest"):
            made.append(number_text(min(rows) if column == "least" else max(rows)).encode())
        else:
            made.append(number_text(sum(rows)).encode())
    return made


_commas = methodcaller("count", b",")
_has_return = methodcaller("endswith", b"\r")


def _why_no_row(text: bytes) -> str:
    if text.endswith(b"\r"):
        return "the line ends in CR LF, not in a line feed alone"
    return f"the row has {text.count(b',') + 1} fields, and the header has 10"


def _why_no_field(text: bytes) -> str:
    shown = text.decode("ascii", "backslashreplace")[:120]
    return f"a field hasn't the form of its column: {shown}"


# Writing


def number_text(number: Number) -> str:
    """A number as reports have it.  A Fraction here always has a finite decimal form."""
    if not isinstance(number, Fraction):
        return str(int(number))
    sign, rest, digits = "-" if number < 0 else "", abs(number), 0
    while rest.denominator > 1 and digits < 80:
        rest *= 10
        digits += 1
    whole = str(int(rest)).rjust(digits + 1, "0")
    return sign + (f"{whole[:-digits]}.{whole[-digits:]}" if digits else whole + ".0")


def write(made: Columns) -> str:
    """The text of a report, with its header and totals."""
    runs = len(made.seeds)
    heads = [
        f"{run},{seed},{outcome},{number_text(time)},"
        for run, (seed, outcome, time) in enumerate(zip(made.seeds, made.outcomes, made.times), 1)
    ]
    blocks = []
    for name, values in zip(made.items, made.values):
        texts = [
            list(map(number_text, values[column])) if column in values else [""] * runs
            for column in COLUMNS
        ]
        blocks.append([f"{name}," + ",".join(fields) for fields in zip(*texts)])
    lines = [HEADER.decode()]
    for head, *rows in zip(heads, *blocks):
        lines += [head + row for row in rows]
    for name, values in zip(made.items, made.values):
        lines.append(f"total,,,,{name}," + b",".join(_totals(values)).decode())
    return "\n".join(lines) + "\n"
