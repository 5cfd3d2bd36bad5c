"""What the checkers of shell and Python find in the scripts of the repository."""

from __future__ import annotations

import os
import subprocess
from collections.abc import Callable
from pathlib import Path

import pytest

from support.places import TOP, kept_files
from support.program import LONGEST

LONGEST_MODULE = 400
TESTS = TOP / "tests"
PYTHON = "/usr/bin/python3"


def begins_with(path: Path, *starts: bytes) -> bool:
    """Answer whether a file begins with one of these."""
    with path.open("rb") as file:
        return file.readline().startswith(starts)


SHELL = [path for path in kept_files() if begins_with(path, b"#!/bin/sh", b"# shellcheck shell=")]
MODULES = kept_files("tests/*.py", "lab/*.py", "docs/*.py")


def finds_nothing(*words: str | Path, **environment: str) -> None:
    """Fail with what a checker writes, unless it ends well."""
    ran = subprocess.run(
        words,
        cwd=TOP,
        env={**os.environ, **environment},
        stdout=subprocess.PIPE,
        stderr=subprocess.STDOUT,
        timeout=LONGEST,
        check=False,
    )
    if ran.returncode:
        pytest.fail(ran.stdout.decode(errors="replace"), pytrace=False)


@pytest.mark.parametrize("script", SHELL, ids=lambda path: str(path.relative_to(TOP)))
def test_shell(script: Path, needs: Callable[[str], str]) -> None:
    """Shellcheck finds nothing in a script."""
    finds_nothing(needs("shellcheck"), "-x", "-s", "sh", "-f", "gcc", script)


@pytest.mark.parametrize("folder", ["tests", "lab", "docs"])
def test_python_is_formatted(folder: str) -> None:
    """Black would leave each module as it is."""
    finds_nothing(PYTHON, "-m", "black", "--check", "-q", "-l", "100", TOP / folder)


def test_types_of_the_tests(tmp_path: Path) -> None:
    """Mypy finds nothing in the tests, but for those of the lab, which have settings of their own."""
    packages = sorted(path.parent for path in TESTS.glob("*/__init__.py"))
    config = ("--config-file", TESTS / "pyproject.toml", "--cache-dir", tmp_path)
    finds_nothing(
        PYTHON, "-m", "mypy", *config, TESTS / "conftest.py", *packages, MYPYPATH=str(TESTS)
    )


def test_types_of_the_lab(tmp_path: Path) -> None:
    """Mypy finds nothing in the lab."""
    config = ("--config-file", TOP / "lab/pyproject.toml", "--cache-dir", tmp_path)
    finds_nothing(PYTHON, "-m", "mypy", "--strict", *config, TOP / "lab/sigma_lab")


def test_types_of_the_writer_of_pages(tmp_path: Path) -> None:
    """Mypy finds nothing in what writes parts of pages."""
    config = ("--config-file", TESTS / "pyproject.toml", "--cache-dir", tmp_path)
    finds_nothing(PYTHON, "-m", "mypy", *config, TOP / "docs/writing")


@pytest.mark.parametrize("module", MODULES, ids=lambda path: str(path.relative_to(TOP)))
def test_modules_are_short(module: Path) -> None:
    """A module has at most 400 lines."""
    assert len(module.read_text().splitlines()) <= LONGEST_MODULE


def test_something_is_looked_at() -> None:
    """The lists aren't empty."""
    assert len(SHELL) > 5 and len(MODULES) > 30
