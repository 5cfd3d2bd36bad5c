"""Tables of the commands, options and statuses, from share/commands and from the code's own list of statuses."""

from __future__ import annotations

import re
from dataclasses import dataclass, field
from pathlib import Path

from support.places import TOP
from writing.parts import code, first_sentence, lowered, table

COMMANDS = TOP / "share/commands"
STATUSES = TOP / "crates/answer_delivery/src/status.rt"


@dataclass
class Record:
    """A command or an option of share/commands, with its fields."""

    kind: str
    name: str
    fields: dict[str, str] = field(default_factory=dict)

    def options(self, are_needed: bool) -> list[str]:
        """List the options that a command needs, or those that may be left out."""
        words = self.fields.get("options", "").split()
        names = [word for word in words if word.lstrip("[").startswith("--")]
        return [name.lstrip("[") for name in names if name.startswith("--") is are_needed]


def records(kind: str) -> list[Record]:
    """List the commands, or the options, in the order of the file."""
    found: list[Record] = []
    for line in COMMANDS.read_text().splitlines():
        first, _, rest = line.partition(" ")
        if first in ("command", "option"):
            found.append(Record(first, rest))
        elif line and first != "#":
            found[-1].fields[first] = rest
    return [record for record in found if record.kind == kind]


def commands(_page: Path) -> str:
    """Write a table of the commands: what each reads and does."""
    rows = [
        (code(each.name), each.fields.get("reads", "nothing").lower(), each.fields["manual"])
        for each in records("command")
    ]
    return table(("command", "reads", "and"), rows)


def listed(names: list[str]) -> str:
    """Write names in code marks, or that there are none."""
    return ", ".join(map(code, names)) or "none"


def options_of_commands(_page: Path) -> str:
    """Write a table of the options of each command; commands with the same ones share a row."""
    rows: dict[tuple[str, str], list[str]] = {}
    for each in records("command"):
        key = (listed(each.options(True)), listed(each.options(False)))
        rows.setdefault(key, []).append(each.name)
    cells = [(listed(names), *key) for key, names in rows.items()]
    return table(("command", "options that are needed", "options besides"), cells)


def short(text: str) -> str:
    """Write a limit as a power of two, or one less, if it is large."""
    number = int(text)
    for power in range(17, 65):
        for less in (0, 1):
            if abs(number) == 2**power - less and number != 4194304:
                sign = "-" if number < 0 else ""
                return f"{sign}2^{power}" + (" - 1" if less else "")
    return f"{number:,}"


def options(_page: Path) -> str:
    """Write a table of the options: their limits, and what each is."""
    rows = []
    for each in records("option"):
        has = each.fields
        limits = f"{short(has['from'])} to {short(has['to'])}"
        rows.append((code(f"--{each.name}"), limits, has["manual"].removesuffix(".")))
    return table(("option", "value", "what it is"), rows)


def statuses(_page: Path) -> str:
    """Write a table of the statuses: their numbers and names, and what each means."""
    text = STATUSES.read_text()
    enum = text[text.index("pub enum Status") : text.index("impl Status")]
    about = dict(re.findall(r"/// (.*)\n    ([A-Z]\w+),", enum))
    meaning = {name: said for said, name in about.items()}
    numbers = re.findall(r"Status::(\w+) => (\d+)", text)
    rows = [(number, name, lowered(first_sentence(meaning[name]))) for name, number in numbers]
    return table(("status", "name", "means"), rows)
