"""Spoilt reports and histories: a sample of `spoil/spoil.py`."""

from __future__ import annotations

import sys
from functools import cache
from pathlib import Path

import pytest

sys.path.insert(0, str(Path(__file__).parent / "spoil"))

import spoil  # noqa: E402

texts = cache(spoil.texts)


@pytest.mark.parametrize("name", spoil.NAMES)
def test_spoilt_texts_are_refused_or_say_what_is_read(name: str) -> None:
    whole = texts()[name]
    step = max(1, len(whole) * 258 // 800) | 1
    counts = spoil.spoil(name, whole, step)
    refused = sum(number for (_, found), number in counts.items() if found == "refused")
    assert sum(counts.values()) > 700 and refused > 0.9 * sum(counts.values())


def test_each_kind_of_change_to_a_total_or_its_rows_is_refused() -> None:
    """Areas, counts, items and runs have totals: no change of a digit of theirs is taken."""
    whole = texts()["a report of three items"]
    lines = whole.splitlines(keepends=True)
    offset = 0
    for line in lines:
        fields = line.rstrip(b"\n").split(b",")
        for column in (0, 4, 8, 9):
            begin = offset + len(b",".join(fields[:column])) + (column > 0)
            for at in range(begin, begin + len(fields[column])):
                for byte in b"0123456789Zz-":
                    if byte != whole[at]:
                        text = whole[:at] + bytes([byte]) + whole[at + 1 :]
                        assert spoil.check_report(whole, text) == "refused", text[
                            begin - 20 : at + 9
                        ]
        offset += len(line)
