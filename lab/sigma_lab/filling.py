"""Placeholders of a model's text: tables of distributions, and values of arrays from files.

`# table NAME DISTRIBUTION NUMBERS;` asks for a table, `# values ARRAY FILE COLUMN;` for the cells of an array.
"""

from __future__ import annotations

import csv
import re
from dataclasses import dataclass, field
from pathlib import Path

import numpy as np

from .distributions import FAMILIES, Distribution
from .errors import InputError, LabError
from .model_files import named_file
from .tables import Table, discretize

_TABLE = re.compile(
    r"^[ \t]*#[ \t]*table[ \t]+([A-Za-z]\w*)[ \t]+([^;\n]*[^;\s])[ \t\r]*(;?)[^\n]*$", re.M
)
_VALUES = re.compile(
    r"^([ \t]*)#[ \t]*values[ \t]+([A-Za-z]\w*)[ \t]+([^\s;]+)[ \t]+([^;\n]*[^;\s])[ \t]*;[^\n]*\n",
    re.M,
)
_NO_COLUMN = re.compile(r"^[ \t]*#[ \t]*values[ \t]+[A-Za-z]\w*(?:[ \t]+[^\s;]+)?[ \t]*;", re.M)

_BEHIND = re.compile(
    rf"^[^#\n]*[^#\s][^#\n]*#[ \t]*(?:table[ \t]+[A-Za-z]\w*[ \t]+(?:{'|'.join(FAMILIES)}|data|shifted)\b"
    r"|values[ \t]+[A-Za-z]\w*[ \t]+[^\s;]+[ \t]+[^;\n]*;)",
    re.M,
)


def _asked(text: str) -> list[re.Match[str]]:
    """The placeholders of tables: comments that end in `;`, or name a distribution without it.

    Raises
    ------
    InputError
        If two ask for one table, if values are asked for without their column, or if one stands behind code.
    """
    known = (*FAMILIES, "data", "shifted")
    made = [each for each in _TABLE.finditer(text) if each[3] or each[2].split()[0] in known]
    names = [each[1] for each in made]
    for at, found in enumerate(made):
        if found[1] in names[:at]:
            line = _line_of(text, found)
            raise InputError(f"line {line}: a second placeholder for {found[1]}")
    if wrong := _NO_COLUMN.search(text):
        raise InputError(f"line {_line_of(text, wrong)}: values want ARRAY FILE COLUMN")
    if behind := _BEHIND.search(text):
        raise InputError(f"line {_line_of(text, behind)}: a placeholder has a line of its own")
    return made


def _line_of(text: str, found: re.Match[str]) -> int:
    return text.count("\n", 0, found.start()) + 1


def _without_comments(text: str) -> str:
    return re.sub(r"#[^\n]*", "", text)


def _written(text: str, name: str) -> re.Match[str] | None:
    """The table of this name that begins a line; a brace in a comment isn't its end."""
    found = re.search(
        rf"^[ \t]*table[ \t]+{name}[ \t]*\{{((?:[^}}#]|#[^\n]*)*)(?:\}}|\Z)", text, re.M
    )
    if found is not None and re.search(r"[^-\d:;\s]", _without_comments(found[1])):
        raise InputError(f"line {_line_of(text, found)}: the table {name} has no end")
    return found


def unfilled(text: str) -> list[str]:
    """The placeholders whose tables or values are missing, stand for others (one row), or are of other numbers than the comment's."""
    names = []
    for found in _asked(text):
        name, words, _ = found.groups()
        written = _written(text, name)
        if written is None or not _is_filled(_without_comments(written[1]), words):
            names.append(name)
    for found in _VALUES.finditer(text):
        following = text[found.end() :].lstrip()
        if not re.match(rf"set\s+{found[2]}\[0\]", following):
            names.append(found[2])
    return names


def _is_filled(rows: str, words: str) -> bool:
    pairs = re.findall(r"(-?\d+)\s*:\s*(\d+)", rows)
    if len(pairs) < 2:
        return words.startswith("uniform") and len(set(words.split()[1:])) == 1 and bool(pairs)
    if words.startswith("data"):
        return True
    try:
        asked = Distribution.parse(words)
    except LabError:
        return False
    values, weights = np.array(pairs, dtype=float).T
    table = Table("", asked, values, weights)
    return (
        abs(table.mean - asked.mean) <= 0.001 * abs(asked.mean)
        and abs(table.sd - asked.sd) <= 0.005 * asked.sd
    )


@dataclass(frozen=True)
class Filled:
    text: str
    tables: list[Table] = field(default_factory=list)
    notes: list[str] = field(default_factory=list)


def fill(text: str, folder: Path | str = ".", rows: int = 200) -> Filled:
    """The text with a table for each `# table NAME ..;` and `set` lines for each `# values ARRAY FILE COLUMN;`."""
    folder = Path(folder)
    tables: list[Table] = []
    notes: list[str] = []
    given = text
    for found in _asked(given):
        name, words, _ = found.groups()
        line = _line_of(given, found)
        try:
            table = discretize(Distribution.parse(words, folder), rows, name)
        except LabError as error:
            raise type(error)(f"line {line}: {error}") from None
        tables.append(table)
        notes.append(table.summary)
        written = _written(text, name)
        if written is not None:
            text = text[: written.start()] + table.text + text[written.end() :]
        else:
            text = text.replace(found[0], found[0] + "\n" + table.text, 1)
    while (
        place := next((f for f in _VALUES.finditer(text) if f.start() >= _past(text, notes)), None)
    ) is not None:
        text, note = _fill_values(text, place, folder)
        notes.append(note)
    return Filled(text, tables, notes)


def _past(text: str, notes: list[str]) -> int:
    """Where the next `# values` line is looked for: after those that are done, one note each."""
    done = sum(note.startswith("values ") for note in notes)
    places = [found.end() for found in _VALUES.finditer(text)]
    return places[done - 1] if done else 0


def _fill_values(text: str, place: re.Match[str], folder: Path) -> tuple[str, str]:
    indent, name, file, column = place.groups()
    line = _line_of(text, place)
    code, before = _without_comments(text), _without_comments(text[: place.start()])
    if before.count("{") == before.count("}"):
        raise InputError(f"line {line}: values of {name} are asked for outside of a vertex")
    declared = re.search(rf"var\s+{name}\s*\[\s*(\d+)\s*\]\s*:\s*(-?\d+)\s*\.\.\s*(-?\d+)", code)
    if declared is None:
        raise InputError(f"line {line}: no array {name} of numbers is declared")
    size, least, greatest = map(int, declared.groups())
    try:
        values = read_column(named_file(folder, file), column.strip())
    except InputError as error:
        raise InputError(f"line {line}: {error}") from None
    if len(values) != size:
        raise InputError(
            f"line {line}: {name} has {size} cells, and {file} has {len(values)} values in column {column}"
        )
    for value in values:
        if not least <= value <= greatest:
            raise InputError(f"line {line}: {value} is outside the range of {name}")
    most = 16 if re.search(r"^\s*version\s+2\s*;", code, re.M) else 8
    lines = [
        f"{indent}set {', '.join(f'{name}[{k}]' for k in range(i, min(i + most, size)))} := "
        f"{', '.join(map(str, values[i:i + most]))};\n"
        for i in range(0, size, most)
    ]
    rest = re.sub(rf"\A(?:[ \t]*set[ \t]+{name}\[[^\n]*\n)*", "", text[place.end() :])
    note = (
        f"values {name}: {size} from {min(values)} to {max(values)}, of column {column} of {file}"
    )
    return text[: place.end()] + "".join(lines) + rest, note


def read_column(path: Path, column: str) -> list[int]:
    """The whole numbers of a column, named by a word of the first line or by its number from 1, exactly."""
    try:
        content = Path(path).read_text("utf-8-sig")
    except (OSError, UnicodeDecodeError) as error:
        raise InputError(
            f"can't read {path}: {getattr(error, 'strerror', None) or 'no UTF-8'}"
        ) from None
    if content and not content.endswith("\n"):
        raise InputError(f"{path}: the last line has no line end, so the file is cut off")
    sign = next((s for s in ";\t," if s in content), ",")
    rows = [
        (number, [part.strip() for part in row])
        for number, row in enumerate(csv.reader(content.splitlines(), delimiter=sign), 1)
        if any(row)
    ]
    if not rows:
        raise InputError(f"{path} is empty")
    head = rows[0][1]
    at = (
        int(column) - 1
        if re.fullmatch(r"[1-9]\d*", column)
        else head.index(column)
        if column in head
        else -1
    )
    if at < 0:
        raise InputError(f"{path} has no column {column}")
    if len(head) > at and not re.fullmatch(r"-?\d+", head[at]):
        rows = rows[1:]
    values = []
    for number, row in rows:
        if len(row) <= at or not re.fullmatch(r"-?\d{1,40}", row[at]):
            raise InputError(f"{path}:{number}: no whole number in column {column}")
        values.append(int(row[at]))
    return values
