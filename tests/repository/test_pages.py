"""Each command that a page shows is run, and its output compared with what the page shows.

A page's commands are run in their order, in a folder of its own that has the repository's
examples, documents, lab and program. `cat FILE` of a file that isn't there makes it from what is
shown.
"""

from __future__ import annotations

import difflib
import os
import re
import subprocess
from pathlib import Path

import pytest

from support.lab import make_lab_command
from support.pages import Command, commands, essence, is_shown
from support.places import TOP, kept_files
from support.program import LONGEST, Program

LINKED = ("examples", "docs", "lab", "share", "cases")
PAGES = [path for path in kept_files("*.md") if commands(path.read_text())]
SHOWN = 20

# What a shell and Python say of a program or a package that isn't there.
MISSING = (r"^sh: \d+: (\S+): not found$", r"^ModuleNotFoundError: No module named '(\S+)'$")


def furnish(folder: Path, program: Program) -> dict[str, str]:
    """Fill a folder with what commands may name, and answer their environment."""
    for name in LINKED:
        if (TOP / name).exists():
            (folder / name).symlink_to(TOP / name)
    (folder / "sigma").symlink_to(program.path)
    commands_of_lab = make_lab_command(folder / ".bin", program)
    (folder / "sigma-lab").symlink_to(folder / ".bin/sigma-lab")
    return {**os.environ, "LC_ALL": "C.UTF-8", **commands_of_lab}


def complaint(command: Command, folder: Path, environment: dict[str, str]) -> str | None:
    """Run a command, and say where its output differs from what is shown."""
    named = re.fullmatch(r"cat (\S+)", command.text)
    if named and not (folder / named[1]).exists():
        (folder / named[1]).write_text("".join(f"{line}\n" for line in command.shown))
        return None
    ran = subprocess.run(
        ["sh", "-c", command.text],
        cwd=folder,
        env=environment,
        stdin=subprocess.DEVNULL,
        stdout=subprocess.PIPE,
        stderr=subprocess.STDOUT,
        timeout=LONGEST,
        check=False,
    )
    output = ran.stdout.decode("utf-8", "backslashreplace").splitlines()
    if is_shown(output, command.shown):
        return None
    for form in MISSING:
        if missing := re.search(form, "\n".join(output), re.MULTILINE):
            return f"line {command.line}: {missing[1]} isn't installed, and this needs it"
    lines = difflib.unified_diff(essence(command.shown), essence(output), lineterm="", n=1)
    text = "\n".join(f"    {line}" for line in list(lines)[2 : 2 + SHOWN])
    return f"line {command.line}: {command.text}\n{text}"


@pytest.mark.parametrize("page", PAGES, ids=lambda page: str(page.relative_to(TOP)))
def test_commands_of_pages(page: Path, program: Program, tmp_path: Path) -> None:
    """Each command of the page writes what the page shows."""
    environment = furnish(tmp_path, program)
    shown = commands(page.read_text())
    wrong = [said for command in shown if (said := complaint(command, tmp_path, environment))]
    if wrong:
        text = "\n".join(wrong)
        pytest.fail(f"{len(wrong)} of {len(shown)} commands differ\n{text}", pytrace=False)


def test_what_is_shown() -> None:
    """Other lines, missing ones and more of them are noticed; `...` stands for any lines."""
    output = ["one", "", "two  ", "three"]
    assert is_shown(output, ["one", "two", "three"])
    assert is_shown(output, ["one", "..."]) and is_shown(output, ["...", "three"])
    assert is_shown(output, ["one", "...", "two", "three"])
    for other in (["one", "two"], ["...", "two"], ["two", "..."], ["one", "two", "..", "three"]):
        assert not is_shown(output, other)
    assert not is_shown(["one"], ["one", "...", "one"])


def test_commands_are_found() -> None:
    """A command ends where the indented block ends."""
    page = "text\n\n    $ a b\n    out\n\n      $ c\n      more\n    less\n\n    no command\n"
    assert commands(page) == [Command(3, "a b", ["out"]), Command(6, "c", ["more"])]
    assert len(PAGES) > 10
