"""No test waits for what may be so before it does anything: on a slow machine it would look at the page too early."""

from __future__ import annotations

import ast
from pathlib import Path

import pytest

TESTS = sorted(Path(__file__).parent.glob("test_*.py"))
RACE = """
def test(page):
    page.click(".primary")
    page.until("accepted")
    time.sleep(0.3)
    with page.becomes("accepted"):
        page.click(".primary")
    page.until("shown")
    told = page.until("told")
"""


def called(statement: ast.stmt) -> str:
    """Return the name of what a statement calls; of a call whose answer is kept, only where it waits."""
    is_alone = isinstance(statement, ast.Expr)
    value = statement.value if isinstance(statement, (ast.Expr, ast.Assign)) else None
    if not isinstance(value, ast.Call):
        return ""
    name = value.func.attr if isinstance(value.func, ast.Attribute) else ast.unparse(value.func)
    return name if is_alone or name == "until" else ""


def races(code: str) -> list[int]:
    """Return the lines that sleep, and those that wait by `until` right after something is done."""
    found = []
    for node in ast.walk(ast.parse(code)):
        body = getattr(node, "body", None)
        names = [called(each) for each in body] if isinstance(body, list) else []
        for k, name in enumerate(names):
            is_early = name == "until" and k and names[k - 1] not in ("", "until")
            if isinstance(body, list) and (is_early or name == "sleep"):
                found.append(body[k].lineno)
    return sorted(found)


def test_a_race_is_found() -> None:
    """A wait right after a click, and a sleep; not a wait for what a step makes so."""
    assert races(RACE) == [4, 5]


@pytest.mark.parametrize("file", TESTS, ids=[each.stem for each in TESTS])
def test_what_is_done_is_waited_for_by_what_it_changes(file: Path) -> None:
    """`becomes` and `edited` wait for a change, so `until` is left for what follows from one."""
    assert races(file.read_text(encoding="utf-8")) == []
