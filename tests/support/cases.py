"""The cases of the folder `cases`: words, an input, and what the program has to answer.

docs/work/proving.md says how a case is written.
"""

from __future__ import annotations

import re
from collections.abc import Iterator
from dataclasses import dataclass, field
from pathlib import Path

ESCAPE = re.compile(rb"\\(?:x([0-9a-f]{2})|([tr])|(.))", re.DOTALL)


class NotACase(ValueError):
    """A file of cases has a line that belongs to none."""


@dataclass
class Case:
    """One call of the program with its answer.

    `place` is its file and line, and `name` the comment just before it.
    """

    place: str
    name: str
    words: list[bytes]
    text: bytes = b""
    output: bytes = b""
    errors: bytes = b""
    status: int | None = field(default=None)


def written_bytes(line: bytes) -> bytes:
    r"""Read the bytes that a line describes: `\t`, `\r` and `\xHH`, and a last `\` for no end."""
    if open_end := line.endswith(b"\\"):
        line = line[:-1]

    def one(match: re.Match[bytes]) -> bytes:
        digits, letter, other = match.groups()
        if digits:
            return bytes([int(digits, 16)])
        if letter:
            return b"\t" if letter == b"t" else b"\r"
        raise NotACase(f"no byte is written \\{other.decode('ascii', 'replace')}")

    return ESCAPE.sub(one, line) + (b"" if open_end else b"\n")


def written_word(word: bytes) -> bytes:
    """Read one word of a call, of which `''` is the empty one."""
    return b"" if word == b"''" else written_bytes(word + b"\\")


def read_cases(path: Path, shown: str) -> Iterator[Case]:
    """Read the cases of a file, one after the other.

    Parameters
    ----------
    path
        The file.
    shown
        What the file is called in the places of the cases.

    Raises
    ------
    NotACase
        If a line belongs to no case, or the file ends within one.
    """
    case: Case | None = None
    name: list[str] = []
    count = 0
    for number, line in enumerate(path.read_bytes().split(b"\n")[:-1], start=1):
        place = f"{shown}, line {number}"
        if case is not None:
            if take_line(case, line, place):
                count += 1
                yield case
                case, name = None, []
        elif line.startswith(b"#"):
            name.append(line.lstrip(b"#").lstrip(b" ").decode())
        elif not line:
            name = []
        elif re.match(rb"sigma( |$)", line):
            words = [written_word(word) for word in line.split()[1:]]
            case = Case(place, " ".join(part for part in name if part), words)
        else:
            raise NotACase(f"{place} is no line of a case")
    if case is not None or count == 0:
        raise NotACase(f"{shown} ends within a case, or has none")


def take_line(case: Case, line: bytes, place: str) -> bool:
    """Add a line to an open case, and answer whether that ends it."""
    kind, rest = line[:1], line[1:]
    if kind == b"<":
        case.text += written_bytes(rest)
    elif kind == b">":
        case.output += written_bytes(rest)
    elif kind == b"!":
        case.errors += written_bytes(rest)
    elif end := re.fullmatch(rb"= ([0-9]+)", line):
        case.status = int(end[1])
        return True
    else:
        raise NotACase(f"{place} is no line of a case")
    return False
