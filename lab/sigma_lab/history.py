"""Histories: the course of one run, by column.

A history is what `sigma run` writes: a line for each note, `at TIME VALUES` or `on TIME EVENT VALUES`, and a last line
with the outcome.  It is read in blocks, so that a long one needs 8 bytes for each value and no text.
"""

from __future__ import annotations

from array import array
from collections.abc import Iterable, Iterator
from pathlib import Path
from typing import TYPE_CHECKING, Any, NamedTuple

import numpy as np
from numpy.typing import NDArray

from .errors import BadReport, InputError
from .formula import Formula
from .history_text import Block, Reader

if TYPE_CHECKING:
    import pandas as pd

NO_EVENT = -1
_BLOCK = 2**18


class Note(NamedTuple):
    """A line of a history.

    Attributes
    ----------
    time : int
        The tick.
    event : str or None
        The watched event; None for a line of values alone.
    values : dict
        The watched values by the names of their cells.
    """

    time: int
    event: str | None
    values: dict[str, int | bool]


class History:
    """One run.

    Attributes
    ----------
    items : list of str
        The watched cells, as `QUEUE` and `WAITING[2]`.
    outcome : str
        `ended`, `stopped`, `fault`, `budget`, or `unfinished` where the history is still being written.
    end : int
        The tick of the outcome.
    fault : str
        The kind of fault, or an empty text.
    """

    def __init__(self, source: str = "") -> None:
        self.source = source
        self.items: list[str] = []
        self.outcome, self.end, self.fault = "unfinished", 0, ""
        self._events: list[str] = []
        self._time, self._code = array("q"), array("i")
        self._cells: list[array[int]] = []
        self._is_truth: list[bool] = []

    @classmethod
    def of_blocks(
        cls,
        blocks: Iterable[bytes],
        source: str = "",
        *,
        whole: bool = True,
        only: frozenset[str] | None = None,
    ) -> History:
        """The history of a text that comes in blocks.

        Parameters
        ----------
        blocks : iterable of bytes
            The text, cut anywhere.
        source : str
            The name that errors have.
        whole : bool
            Whether a history without an outcome is refused.
        only : frozenset of str, optional
            Notes of these events alone are kept; all are checked.

        Raises
        ------
        BadReport
            With the line of the first fault.
        """
        made = cls(source)
        reader = Reader(source)
        for block in reader.read(blocks, whole):
            made._add(block, only)
        made.items = reader.items
        made._is_truth = reader.is_truth
        if reader.last is not None:
            made.outcome, made.end, made.fault = reader.last
        else:
            made.end = made._time[-1] if made._time else 0
        return made

    def _add(self, block: Block, only: frozenset[str] | None) -> None:
        if not self._cells:
            self._cells = [array("q") for _ in block.cells]
        names = {name: code for code, name in enumerate(self._events)}
        for name in dict.fromkeys(block.events):
            if name and name.decode() not in names:
                names[name.decode()] = len(self._events)
                self._events.append(name.decode())
        codes = {name.encode(): code for name, code in names.items()} | {b"": NO_EVENT}
        kept: list[int] | None = None
        if only is not None:
            wanted = {name.encode() for name in only}
            kept = [at for at, name in enumerate(block.events) if name in wanted]
        for column, values in zip((self._time, *self._cells), (block.times, *block.cells)):
            column.extend(values if kept is None else [values[at] for at in kept])
        events = block.events if kept is None else [block.events[at] for at in kept]
        self._code.extend([codes[name] for name in events])

    @classmethod
    def of_lines(cls, lines: Iterable[bytes], source: str = "", *, whole: bool = True) -> History:
        """The history of lines as they come."""
        return cls.of_blocks(lines, source, whole=whole)

    @classmethod
    def parse(cls, data: bytes | str, source: str = "", *, whole: bool = True) -> History:
        """The history of a text.  Raises BadReport."""
        if isinstance(data, str):
            data = data.encode("utf-8", "surrogateescape")
        return cls.of_blocks([data], source, whole=whole)

    @classmethod
    def read(cls, path: str | Path, *, whole: bool = True) -> History:
        """The history of a file.  Raises BadReport, and InputError if it can't be read."""
        try:
            with open(path, "rb") as file:
                blocks = iter(lambda: file.read(_BLOCK), b"")
                return cls.of_blocks(blocks, str(path), whole=whole)
        except OSError as error:
            raise InputError(f"can't read {path}: {error.strerror}") from None

    # Notes

    def __len__(self) -> int:
        return len(self._time)

    def __repr__(self) -> str:
        return f"<History: {len(self)} notes, {self.outcome} at {self.end}>"

    @property
    def events(self) -> list[str]:
        """The watched events that occurred, in the order of their first time."""
        return list(self._events)

    def _column(self, name: str) -> NDArray[Any]:
        at = self.items.index(name)
        values = np.frombuffer(self._cells[at], dtype=np.int64) if len(self) else np.empty(0, int)
        return values.astype(bool) if self._is_truth[at] else values

    def _times(self) -> NDArray[np.int64]:
        return np.frombuffer(self._time, dtype=np.int64) if len(self) else np.empty(0, np.int64)

    def _codes(self) -> NDArray[np.int32]:
        return np.frombuffer(self._code, dtype=np.int32) if len(self) else np.empty(0, np.int32)

    def notes(self) -> Iterator[Note]:
        """The notes one after the other."""
        columns = [self._column(name).tolist() for name in self.items]
        for time, code, *values in zip(self._time, self._code, *columns):
            event = None if code == NO_EVENT else self._events[code]
            yield Note(time, event, dict(zip(self.items, values)))

    def to_frame(self) -> pd.DataFrame:
        """A row for each note: time, event (None for values alone), and a column for each watched cell."""
        import pandas as pd

        names = np.array([*self._events, None], dtype=object)
        columns = {"time": self._times(), "event": names[self._codes()]}
        return pd.DataFrame({**columns, **{name: self._column(name) for name in self.items}})

    # Values

    def check_item(self, item: str) -> None:
        """Raises InputError if a name is no watched value."""
        if item in self.items:
            return
        if item in self._events:
            raise InputError(f"{item} is an event; its variables are {' '.join(self.items)}")
        raise InputError(f"no value {item} in the history; there are {' '.join(self.items)}")

    def times(self, event: str) -> NDArray[np.int64]:
        """The ticks at which a watched event occurred; none where it didn't."""
        if event not in self._events:
            return np.empty(0, dtype=np.int64)
        times: NDArray[np.int64] = self._times()[self._codes() == self._events.index(event)]
        return times

    def at_event(self, event: str, formula: str) -> NDArray[Any]:
        """The value of a formula at each occurrence of a watched event."""
        what = Formula(formula)
        if event not in self._events:
            return np.empty(0, dtype=np.int64)
        for name in what.names:
            self.check_item(name)
        chosen = self._codes() == self._events.index(event)
        made = np.asarray(what(lambda name: self._column(name)[chosen]))
        return np.broadcast_to(made, (int(chosen.sum()),)).copy()

    def course(self, item: str) -> tuple[NDArray[np.int64], NDArray[Any]]:
        """The ticks at which a formula of items is noted, and its value from each of them on, up to `end`."""
        formula = Formula(item)
        for name in formula.names:
            self.check_item(name)
        chosen = self._codes() == NO_EVENT
        values = np.asarray(formula(lambda name: self._column(name)[chosen]))
        values = np.broadcast_to(values, (int(chosen.sum()),))
        return self._times()[chosen], values.astype(np.int64) if values.dtype == bool else values

    def areas(self, item: str, edges: NDArray[np.int64]) -> NDArray[Any]:
        """The area of a formula between neighbouring edges.

        Parameters
        ----------
        item : str
            A formula of watched items.
        edges : array of int64, shape (n + 1,)
            Ticks, rising, up to `end`.

        Returns
        -------
        array, shape (n,)
            Value times ticks; exact for whole numbers.
        """
        times, values = self.course(item)
        if not len(times):
            raise InputError("the history shows no values")
        spans = np.diff(np.append(times, self.end))
        whole = values.dtype == object or np.issubdtype(values.dtype, np.integer)
        greatest = max(abs(int(values.min())), abs(int(values.max()))) if whole else 0
        if greatest * max(1, int(self.end)) >= 2**62:
            values, spans = values.astype(object), spans.astype(object)
        sums = np.concatenate([[0], np.cumsum(values * spans)])
        at = np.searchsorted(times, edges, side="right") - 1
        if (at < 0).any():
            raise InputError("the history begins after the first edge")
        if edges[-1] > self.end:
            raise InputError(f"the history ends at {self.end}, before the last edge")
        return np.diff(sums[at] + values[at] * (np.asarray(edges) - times[at]))


def notes_of(blocks: Iterable[bytes], source: str = "") -> Iterator[Note]:
    """The notes of a history that comes in blocks, for histories that are too long to keep."""
    reader = Reader(source)
    for block in reader.read(blocks):
        columns: list[list[Any]] = [
            [bool(value) for value in cells] if truth else cells
            for cells, truth in zip(block.cells, reader.is_truth)
        ]
        for time, event, *values in zip(block.times, block.events, *columns):
            yield Note(time, event.decode() or None, dict(zip(reader.items, values)))


__all__ = ["BadReport", "History", "Note", "notes_of"]
