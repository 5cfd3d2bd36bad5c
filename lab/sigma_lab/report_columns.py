"""The runs of a report as columns, and reading them by numpy.

Row by row, a report of ten thousand runs takes a tenth of a second.  Column by column it takes a fifth of that.  This
is for rows of whole numbers, as the program writes them; `report_text` reads all others, and says what is wrong.
"""

from __future__ import annotations

import re
from collections.abc import Iterator
from dataclasses import dataclass
from fractions import Fraction
from typing import Any

import numpy as np
from numpy.typing import NDArray

Number = int | Fraction
Words = NDArray[np.uint64]
Places = NDArray[np.int64]

COLUMNS = ("least", "greatest", "last", "area", "count")
OUTCOMES = (b"ended", b"stopped", b"fault", b"budget")
ITEM = re.compile(rb"[A-Za-z][A-Za-z0-9_]{0,31}(?:\[(?:0|[1-9]\d{0,15})\])?")
_RUN, _SEED, _OUTCOME, _TIME, _ITEM, _FIRST_COLUMN = range(6)
_FIELDS = _FIRST_COLUMN + len(COLUMNS)
_MOST_DIGITS = 20
_PADDING = 32  # so that eight letters can be read behind each digit
_MOST = 2**62
_POWERS = 10 ** np.arange(9, dtype=np.uint64)


@dataclass
class Columns:
    """The runs of a report, by column.

    Attributes
    ----------
    items : tuple of str
        The watched items.
    seeds, outcomes, times : list
        A value for each run.
    values : list of dict
        For each item its columns by name, with a value for each run.  A column that an item hasn't isn't there.
    """

    items: tuple[str, ...]
    seeds: list[int]
    outcomes: list[str]
    times: list[Number]
    values: list[dict[str, list[Number]]]


def columns_of(text: bytes) -> Columns | None:
    """The runs of a report's rows, without header and totals; None if a row isn't plain.

    What the numbers may be is for the caller to check.
    """
    try:
        return _columns(_Fields(text))
    except _NotPlain:
        return None


def _columns(fields: _Fields) -> Columns:
    run = fields.unsigned(_RUN)
    width = int(np.argmax(run != 1)) or fields.rows
    runs = fields.rows // width
    _need(runs * width == fields.rows)
    _need(bool((run == np.repeat(np.arange(1, runs + 1, dtype=np.uint64), width)).all()))
    items = [fields.word(at, _ITEM) for at in range(width)]
    _need(len(set(items)) == width and all(map(ITEM.fullmatch, items)))
    for at, item in enumerate(items):
        _need(bool(fields.is_word(_ITEM, item, at, width).all()))
    outcomes = np.zeros(fields.rows, dtype=np.int64)
    for number, word in enumerate(OUTCOMES, 1):
        outcomes[fields.is_word(_OUTCOME, word)] = number
    _need(bool(outcomes.all()))
    words = np.array(["", *(word.decode() for word in OUTCOMES)], dtype=object)
    return Columns(
        tuple(item.decode() for item in items),
        _of_runs(fields.unsigned(_SEED), width).tolist(),
        words[_of_runs(outcomes, width)].tolist(),
        _of_runs(fields.signed(_TIME), width).tolist(),
        [dict(_values(fields, at, width)) for at in range(width)],
    )


def _of_runs(column: NDArray[Any], width: int) -> NDArray[Any]:
    """A column that all rows of a run have in common, run by run."""
    made = column.reshape(-1, width)
    _need(bool((made == made[:, :1]).all()))
    return made[:, 0]


def _values(fields: _Fields, at: int, width: int) -> Iterator[tuple[str, list[Number]]]:
    for field, name in enumerate(COLUMNS, _FIRST_COLUMN):
        if not fields.is_empty(field, at, width):
            yield name, fields.signed(field, at, width).tolist()


class _NotPlain(Exception):
    """A row isn't as the program writes it, or has a number of more than 62 bits."""


class _Fields:
    """The fields of rows that all have ten: where each begins, and how long it is.

    Eight letters are looked at as one word, whose lowest byte is the first of them.

    Attributes
    ----------
    rows : int
        How many rows there are.
    """

    def __init__(self, text: bytes) -> None:
        padded = text + bytes(_PADDING)
        letters = np.frombuffer(padded, dtype=np.uint8)
        is_end = letters == ord("\n")
        ends = np.flatnonzero(is_end | (letters == ord(",")))
        _need(len(ends) % _FIELDS == 0 and bool(is_end[ends[_FIELDS - 1 :: _FIELDS]].all()))
        self.rows = len(ends) // _FIELDS
        _need(int(is_end.sum()) == self.rows > 0)
        starts = np.concatenate([[0], ends[:-1] + 1])
        self._text = text
        self._eights: Words = np.ndarray(len(padded) - 7, "<u8", padded, strides=(1,))
        self._starts = np.ascontiguousarray(starts.reshape(-1, _FIELDS).T)
        self._lengths = np.ascontiguousarray((ends - starts).reshape(-1, _FIELDS).T)

    def word(self, row: int, field: int) -> bytes:
        """A field of one row."""
        start = int(self._starts[field, row])
        return self._text[start : start + int(self._lengths[field, row])]

    def is_word(self, field: int, word: bytes, at: int = 0, width: int = 1) -> NDArray[np.bool_]:
        """Whether a field is this word, in rows `at`, `at + width`, .."""
        starts, lengths = self._starts[field, at::width], self._lengths[field, at::width]
        made: NDArray[np.bool_] = lengths == len(word)
        for place in range(0, len(word), 8):
            part = word[place : place + 8]
            front = np.uint64(256 ** len(part) - 1)
            letters = self._eights[np.where(made, starts + place, 0)]
            made &= letters & front == np.uint64(int.from_bytes(part, "little"))
        return made

    def is_empty(self, field: int, at: int, width: int) -> bool:
        """Whether a field is empty in all of these rows."""
        return not self._lengths[field, at::width].any()

    def unsigned(self, field: int) -> Words:
        """A field of whole numbers from 0 to 2^64 - 1, in all rows."""
        return self._number(self._starts[field], self._lengths[field])

    def signed(self, field: int, at: int = 0, width: int = 1) -> Places:
        """A field of whole numbers from -2^62 to 2^62, in rows `at`, `at + width`, .."""
        starts, lengths = self._starts[field, at::width], self._lengths[field, at::width]
        is_negative = self._eights[starts] & np.uint64(255) == ord("-")
        size = self._number(starts + is_negative, lengths - is_negative)
        _need(int(size.max()) <= _MOST and not (is_negative & (size == 0)).any())
        made = size.astype(np.int64)
        return np.where(is_negative, -made, made)

    def _number(self, starts: Places, lengths: Places) -> Words:
        """The numbers of digits, eight by eight, without zeros before them."""
        longest = int(lengths.max())
        _need(0 < int(lengths.min()) and longest <= _MOST_DIGITS)
        is_zero = self._eights[starts] & np.uint64(255) == ord("0")
        _need(not (is_zero & (lengths > 1)).any())
        made = np.zeros(len(starts), dtype=np.uint64)
        for place in range(0, longest, 8):
            count = np.clip(lengths - place, 0, 8)
            grown = made * _POWERS[count] + _of_digits(self._eights[starts + place], count)
            _need(bool((grown // _POWERS[count] == made).all()))
            made = grown
        return made


def _of_digits(letters: Words, count: Places) -> Words:
    """The numbers of the first `count` letters, all of which have to be digits.

    Neighbouring digits are joined to numbers of two digits, these to numbers of four, and these to one of eight.
    """
    shift = (8 - count).astype(np.uint64) * np.uint64(8)
    made = (letters << shift) - (np.uint64(0x3030303030303030) << shift)
    _need(not ((made | made + np.uint64(0x7676767676767676)) & np.uint64(0x8080808080808080)).any())
    made = made * np.uint64(10) + (made >> np.uint64(8)) & np.uint64(0x00FF00FF00FF00FF)
    made = made * np.uint64(100) + (made >> np.uint64(16)) & np.uint64(0x0000FFFF0000FFFF)
    joined: Words = made * np.uint64(10000) + (made >> np.uint64(32)) & np.uint64(0xFFFFFFFF)
    return joined


def _need(holds: bool) -> None:
    if not holds:
        raise _NotPlain
