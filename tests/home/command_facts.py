"""What share/commands says of commands and options, in a form to compare others with."""

from __future__ import annotations

import re
from dataclasses import dataclass
from pathlib import Path

from support.places import TOP


@dataclass(frozen=True)
class Command:
    """A command: the options that it needs, and those that it takes besides."""

    name: str
    needed: tuple[str, ...]
    others: tuple[str, ...]

    @property
    def taken(self) -> tuple[str, ...]:
        """All options that it takes."""
        return self.needed + self.others


@dataclass(frozen=True)
class Facts:
    """The commands by their names, and the least and the greatest value of each option."""

    commands: dict[str, Command]
    limits: dict[str, tuple[int, int]]

    def words(self, command: Command, **other: int) -> list[str]:
        """Make the words of a call: each option that is needed, at its least value or another one."""
        names = dict.fromkeys([*command.needed, *other])
        return [f"--{name}={other.get(name, self.limits[name][0])}" for name in names]


def read_facts(path: Path = TOP / "share/commands") -> Facts:
    """Read the records of share/commands: a head, `command` or `option` with a name, and its fields."""
    commands: dict[str, Command] = {}
    limits: dict[str, tuple[int, int]] = {}
    for record in re.split(r"\n(?=command |option )", path.read_text())[1:]:
        lines = [line.partition(" ") for line in record.splitlines() if line and line[0] != "#"]
        fields = {key: value for key, _, value in lines[1:]}
        kind, _, name = lines[0]
        if kind == "command":
            options = fields.get("options", "")
            found = re.findall(r"(\[?)--([a-z]+)", options)
            commands[name] = Command(
                name,
                tuple(option for bracket, option in found if not bracket),
                tuple(option for bracket, option in found if bracket),
            )
        else:
            limits[name] = (int(fields["from"]), int(fields["to"]))
    return Facts(commands, limits)


FACTS = read_facts()
