"""The text of a history: reading it in blocks, with every line checked."""

from __future__ import annotations

import re
from collections.abc import Iterable, Iterator, Sequence
from dataclasses import dataclass
from itertools import pairwise
from operator import le, lt
from typing import NoReturn

from .errors import BadReport

_TICK = rb"(?:0|[1-9]\d{0,15})"
_LAST = re.compile(rb"(ended|stopped|budget|fault) (" + _TICK + rb")(?: (\w+))?", re.A)
_CELLS = {True: rb"(true|false)", False: rb"(0|-?[1-9]\d{0,18})"}
_SHOWN = 80


@dataclass
class Block:
    """Notes in a row, by column.

    Attributes
    ----------
    times : list of int
    events : sequence of bytes
        An empty text for a line of values alone.
    cells : list of list of int
        The values of each watched cell; truth values are 0 and 1.
    """

    times: list[int]
    events: Sequence[bytes]
    cells: list[list[int]]


class Reader:
    """Reads a history.

    Attributes
    ----------
    items : list of str
        The watched cells, which the first line shows.
    is_truth : list of bool
        Which of them are truth values.
    begin : int
        The tick of the first line: 0, unless the history is a later part of a run.
    last : tuple of (str, int, str), or None
        Outcome, tick and kind of fault, once the last line was read.
    """

    def __init__(self, source: str = "") -> None:
        self.source = source
        self.items: list[str] = []
        self.is_truth: list[bool] = []
        self.begin = 0
        self.last: tuple[str, int, str] | None = None
        self._line, self._clock = 1, 0
        self._noted = -1
        self._rows: re.Pattern[bytes] | None = None

    def refuse(self, message: str, line: int | None) -> NoReturn:
        raise BadReport(message, line, self.source)

    def read(self, blocks: Iterable[bytes], whole: bool = True) -> Iterator[Block]:
        """The notes of a text that comes in blocks, cut anywhere.

        Raises
        ------
        BadReport
            With the line of the first fault; without `whole` a history may end without its outcome.
        """
        held = b""
        for text in blocks:
            held += text
            # The last whole line may be the outcome, so it waits.
            end = held.rfind(b"\n", 0, held.rfind(b"\n")) + 1 if b"\n" in held else 0
            if end:
                yield self._block(held[:end])
                held = held[end:]
        if not held and self._line == 1:
            self.refuse("is empty", None)
        if not held.endswith(b"\n"):
            self.refuse("the last line has no line end, so the history is cut off", self._line)
        found = _LAST.fullmatch(held[:-1])
        if found is None:
            if whole:
                self._check_note(held)
                self.refuse("the history ends without its outcome", self._line)
            yield self._block(held)
        elif (found[1] == b"fault") != (found[3] is not None):
            self.refuse(f"this is no outcome: {_shown(held)}", self._line)
        else:
            outcome, end = found[1].decode(), int(found[2])
            if outcome != "budget" and end < self._clock:
                self.refuse("it ends before its last note", self._line)
            # The number of a budget counts events.
            self.last = (
                outcome,
                self._clock if outcome == "budget" else end,
                (found[3] or b"").decode(),
            )

    def _check_note(self, text: bytes) -> None:
        self._block(text)
        self._line -= 1

    def _layout(self, line: bytes) -> re.Pattern[bytes]:
        """The form of all lines, which the first line shows."""
        forms = []
        for part in line.split(b" ")[2:]:
            name, equals, values = part.partition(b"=")
            if not equals:
                continue
            cells = values.split(b",")
            shown = name.decode("ascii", "backslashreplace")
            single = len(cells) == 1
            self.items += [shown] if single else [f"{shown}[{k}]" for k in range(len(cells))]
            truths = [cell in (b"true", b"false") for cell in cells]
            self.is_truth += truths
            forms.append(b" " + re.escape(name) + b"=" + b",".join(map(_CELLS.__getitem__, truths)))
        note = rb"^(?:at (" + _TICK + rb")|on (" + _TICK + rb") ([A-Za-z]\w*))"
        return re.compile(note + b"".join(forms) + rb"\n", re.M | re.A)

    def _block(self, text: bytes) -> Block:
        if self._rows is None:
            self._rows = self._layout(text[: text.find(b"\n")])
        rows = self._rows.findall(text)
        if len(rows) != text.count(b"\n"):
            self._explain(text)
        at, on, events, *cells = zip(*rows)
        times = [int(one or other) for one, other in zip(at, on)]
        if times[0] < self._clock or not all(map(le, times, times[1:])):
            clocks = (self._clock, *times)
            late = next(k for k, (a, b) in enumerate(pairwise(clocks)) if a > b)
            self.refuse("it goes back in time", self._line + late)
        self._check_once_a_tick(at)
        if self._line == 1:
            self.begin = times[0]
        self._clock = times[-1]
        numbers = [
            [int(value == b"true") for value in column] if truth else list(map(int, column))
            for column, truth in zip(cells, self.is_truth)
        ]
        for column in numbers:
            if not -(2**63) <= min(column) <= max(column) < 2**63:
                late = next(k for k, v in enumerate(column) if not -(2**63) <= v < 2**63)
                self.refuse("a value is outside 64 bits", self._line + late)
        self._line += len(times)
        return Block(times, events, numbers)

    def _check_once_a_tick(self, at: Sequence[bytes]) -> None:
        """A tick has one line of values alone."""
        noted = [int(tick) for tick in at if tick]
        ticks = (self._noted, *noted)
        if not all(map(lt, ticks, ticks[1:])):
            twice = next(k for k, (a, b) in enumerate(pairwise(ticks)) if a == b)
            rows = [row for row, tick in enumerate(at) if tick]
            self.refuse("a second line of values in one tick", self._line + rows[twice])
        self._noted = ticks[-1]

    def _explain(self, text: bytes) -> NoReturn:
        """Names the first line that is no note of this history."""
        assert self._rows is not None
        for number, line in enumerate(text.splitlines(keepends=True), self._line):
            if _LAST.fullmatch(line[:-1]):
                self.refuse("a line after the outcome", number + 1)
            if self._rows.fullmatch(line) is None:
                self.refuse(f"this is no note: {_shown(line)}", number)
        self.refuse("this is no history", self._line)


def _shown(line: bytes) -> str:
    return line.rstrip(b"\n").decode("ascii", "backslashreplace")[:_SHOWN]
