"""Tables of the commands of `sigma-lab` and of the words that each takes, from the lab's own parsers."""

from __future__ import annotations

from argparse import Action
from collections import Counter
from importlib import import_module
from pathlib import Path
from typing import Any

from writing.parts import code, table

cli: Any = import_module("sigma_lab.cli")
# An option that so many commands take in the same sense is told once.
MANY = 5
SHARED = "Shared options"


def commands() -> list[Any]:
    """List the commands in the order of the command's own help."""
    return [cli.command_of(name) for name in cli.MODULES]


def words_of(command: Any) -> list[Action]:
    """List the words that a command takes and then its options, but for `--help`."""
    found = [each for each in cli.parser_of(command)._actions if each.dest != "help"]
    return sorted(found, key=lambda each: bool(each.option_strings))


def value_of(word: Action) -> str:
    """Write the value of a word or an option as its help does."""
    if word.choices is not None:
        return "{" + ",".join(word.choices) + "}"
    return str(word.metavar or word.dest.upper())


def shown(word: Action) -> str:
    """Write a word or an option with its value."""
    value = value_of(word)
    if word.option_strings:
        return word.option_strings[0] + ("" if word.nargs == 0 else f" {value}")
    many = {"+": f"{value} ..", "*": f"[{value} ..]", "?": f"[{value}]"}
    return many.get(str(word.nargs), value)


def row(word: Action) -> tuple[str, str]:
    """Write the row of a word: how it is written, and what it is."""
    about = (word.help or "").replace("%%", "%")
    return code(shown(word)).replace("|", r"\|"), about.replace("|", r"\|")


def shared() -> list[tuple[str, str]]:
    """List the rows of the options that many commands take."""
    found = Counter(row(word) for each in commands() for word in words_of(each))
    return [key for key, number in found.items() if number >= MANY and key[0].startswith("`-")]


def table_of_commands(_page: Path) -> str:
    """Write a table of the commands, each with its sentence."""
    rows = [(code(each.name), each.about) for each in commands()]
    return table(("command", "for"), rows)


def section(command: Any) -> str:
    """Write the section of a command: its call, its own words, and which shared options it takes."""
    words = words_of(command)
    needed = [word for word in words if not word.option_strings or word.required]
    call = " ".join(["sigma-lab", command.name, *map(shown, needed)])
    common = shared()
    own = [row(word) for word in words if row(word) not in common]
    rest = [word.option_strings[0] for word in words if row(word) in common]
    parts = [f"## {command.name}", f"    {call}", command.about]
    if own:
        parts.append(table(("word", "what it is"), own))
    parts.append(f"[Shared](#{SHARED.lower().replace(' ', '-')}): {', '.join(map(code, rest))}.")
    return "\n\n".join(parts)


def words_of_commands(_page: Path) -> str:
    """Write the options that many commands take, and then a section for each command."""
    head = f"## {SHARED}\n\n{table(('option', 'what it is'), shared())}"
    return "\n\n".join([head, *map(section, commands())])


def older_tools(_page: Path) -> str:
    """Write a table of the older tools whose names have changed."""
    pairs = sorted((tool, each.name) for each in commands() for tool in each.replaces)
    rows = [(code(tool), code(name)) for tool, name in pairs if tool != name]
    return f"{table(('older tool', 'command'), rows)}\n\nThe others have kept their names."
