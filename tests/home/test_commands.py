"""That share/commands, help, manual, completions and pages name what the program takes."""

from __future__ import annotations

import re
import shutil
import subprocess
from collections.abc import Callable
from pathlib import Path

import pytest

from home.command_facts import FACTS, Command
from support.places import TOP
from support.program import Program

MADE = ("help", "sigma.1", "completions/sigma.bash", "completions/_sigma", "completions/sigma.fish")
COMMANDS = list(FACTS.commands.values())
BY_NAME = [command.name for command in COMMANDS]


def test_what_share_make_writes(tmp_path: Path) -> None:
    """The files have what share/make writes into them from share/commands."""
    shutil.copytree(TOP / "share", tmp_path / "share")
    subprocess.run([tmp_path / "share/make"], check=True)
    for name in MADE:
        assert (tmp_path / "share" / name).read_text() == (TOP / "share" / name).read_text(), name


def help_of(*words: str) -> str:
    """Answer the help for a call with these words."""
    ran = subprocess.run([TOP / "share/help", "x", *words], check=True, capture_output=True)
    return ran.stdout.decode()


def test_help_lists_the_commands() -> None:
    """Without words each command has a line."""
    assert re.findall(r"^  ([a-z]+) ", help_of(), re.MULTILINE) == BY_NAME


@pytest.mark.parametrize("command", COMMANDS, ids=BY_NAME)
def test_help_of_a_command(command: Command) -> None:
    """Its usage has its options, those in brackets that may be left out, and a line has each one's limits."""
    text = help_of(command.name, "--help")
    usage = text.splitlines()[0]
    found = re.findall(r"(\[?)--([a-z]+)", usage)
    assert [name for bracket, name in found if not bracket] == list(command.needed)
    assert [name for bracket, name in found if bracket] == list(command.others)
    limits = re.findall(r"^  --([a-z]+) \S+ *(-?\d+) to (-?\d+):", text, re.MULTILINE)
    assert {name: (int(least), int(greatest)) for name, least, greatest in limits} == {
        name: FACTS.limits[name] for name in command.taken
    }


def rows(page: Path, head: str) -> list[list[str]]:
    """Read the rows of the table of a page that has this head."""
    lines = page.read_text().splitlines()
    (start,) = (number for number, line in enumerate(lines) if line.startswith(head))
    found = []
    for line in lines[start + 2 :]:
        if not line.startswith("|"):
            break
        found.append([cell.strip() for cell in line.strip("|").split("|")])
    return found


def test_the_options_in_answers() -> None:
    """The table of docs/use/commands.md has the options of each command."""
    told = {}
    for names, needed, others in rows(
        TOP / "docs/use/commands.md", "| command | options that are needed"
    ):
        for name in re.findall(r"`([a-z]+)`", names):
            told[name] = Command(
                name,
                tuple(re.findall(r"--([a-z]+)", needed)),
                tuple(re.findall(r"--([a-z]+)", others)),
            )
    assert told == FACTS.commands


def number(text: str) -> int:
    """Read a number as pages write it: with commas, or as a power, perhaps less one."""
    sign = -1 if text.startswith("-") else 1
    text, _, less = text.lstrip("-").replace(",", "").partition(" - ")
    base, _, power = text.partition("^")
    value: int = int(base) ** int(power or 1)
    return sign * value - int(less or 0)


def test_the_limits_in_answers() -> None:
    """The table of docs/use/commands.md has the limits of each option."""
    told = {}
    limit = r"(-?\d[\d,^]*\d|\d)( - 1)?"
    for name, value, *_ in rows(TOP / "docs/use/commands.md", "| option | value"):
        found = re.search(f"{limit} to {limit}", value)
        assert found is not None, name
        first, less, second, less_too = (part or "" for part in found.groups())
        told[name.strip("`-")] = (number(first + less), number(second + less_too))
    assert told == FACTS.limits


def asks(call: Program, *words: str) -> bool:
    """Tell whether the words ask for a job. Of those that do, an empty text is refused."""
    return call(list(words)).status != 2


@pytest.mark.parametrize("command", COMMANDS, ids=BY_NAME)
def test_the_options_of_the_program(command: Command, call: Program) -> None:
    """Each option that is needed is, no option is taken twice, and no other one is taken."""
    words = FACTS.words(command)
    assert asks(call, command.name, *words)
    for name, (least, _) in FACTS.limits.items():
        given = f"--{name}={least}"
        if name in command.needed:
            assert not asks(call, command.name, *(word for word in words if word != given))
            assert not asks(call, command.name, *words, given)
        else:
            assert asks(call, command.name, *words, given) == (name in command.others)


@pytest.mark.parametrize("name", FACTS.limits)
def test_the_limits_of_the_program(name: str, call: Program) -> None:
    """Each option is taken at its limits and not beyond, by the first command that takes it."""
    command = next(command for command in COMMANDS if name in command.taken)
    least, greatest = FACTS.limits[name]
    for value, is_taken in (
        (least, True),
        (greatest, True),
        (least - 1, False),
        (greatest + 1, False),
    ):
        assert asks(call, command.name, *FACTS.words(command, **{name: value})) == is_taken, value


def test_the_commands_of_the_code() -> None:
    """No command and no option of the sources is left out."""
    words = (TOP / "crates/command_words/src/command_line.rt").read_text()
    assert set(re.findall(r'word == b"([a-z]+)"', words)) == set(BY_NAME)
    matches = (TOP / "crates/command_words/src/clap_matches.rt").read_text()
    body = re.search(r"fn option_names.*?^}", matches, re.DOTALL | re.MULTILINE)
    assert body is not None
    assert set(re.findall(r'"([a-z]+)"', body.group())) == set(FACTS.limits)


def test_the_statuses_of_the_manual() -> None:
    """It has those of the code, and the two of the launcher."""
    code = (TOP / "crates/answer_delivery/src/status.rt").read_text()
    manual = (TOP / "share/sigma.1").read_text()
    section = re.search(r"^\.Sh EXIT STATUS.*?^\.El", manual, re.DOTALL | re.MULTILINE)
    assert section is not None
    told = re.findall(r"^\.It (\d+)$", section.group(), re.MULTILINE)
    assert told == [*re.findall(r"Status::\w+ => (\d+)", code), "126", "127"]


@pytest.mark.parametrize("page", ["sigma.1", "sigma-page.1", "sigma-lab.1"])
def test_the_layout_of_a_manual_page(page: str, needs: Callable[[str], str]) -> None:
    """Mandoc finds nothing but pages that aren't installed on this machine."""
    ran = subprocess.run(
        [needs("mandoc"), "-Tlint", TOP / "share" / page], capture_output=True, check=False
    )
    lines = ran.stdout.decode().splitlines()
    assert [line for line in lines if "referenced manual not found" not in line] == []
