"""The cases of the folder `cases`: each file is one test, which names each case that differs."""

from __future__ import annotations

from pathlib import Path

import pytest

from support.cases import Case, NotACase, read_cases
from support.places import TOP
from support.program import Program

FILES = sorted((TOP / "cases").glob("*/*"))
SHOWN = 20


def complaint(case: Case, call: Program) -> str | None:
    """Say where the program's answer differs from that of a case."""
    answer = call(case.words, case.text)
    if (answer.status, answer.output, answer.errors) == (case.status, case.output, case.errors):
        return None
    assert case.status is not None
    shown = answer.difference(case.status, case.output, case.errors)
    title = f"{case.place}: {case.name}" if case.name else case.place
    return "\n".join([title, *(f"    {line}" for line in shown.splitlines())])


@pytest.mark.parametrize("path", FILES, ids=lambda path: f"{path.parent.name}/{path.name}")
def test_cases(path: Path, call: Program) -> None:
    """Each case of a file has its answer, and each of `asked` has a name."""
    shown = str(path.relative_to(TOP))
    cases = list(read_cases(path, shown))
    wrong = [said for case in cases if (said := complaint(case, call))]
    if path.parent.name == "asked":
        wrong += [f"{case.place}: the case has no name" for case in cases if not case.name]
    if wrong:
        text = "\n".join(wrong[:SHOWN])
        pytest.fail(f"{len(wrong)} of {len(cases)} cases differ\n{text}", pytrace=False)


def test_all_commands_have_cases() -> None:
    """Both folders have a file for each command, and one for words that ask for no job.

    No cases are drawn for `compare` yet: most pairs of models are `unknown` to it.
    """
    commands = "certify check conflicts describe fuse narrow print reduce replicate resume run"
    names = {*commands.split(), "save", "trial", "uses", "words"}
    assert {path.name for path in FILES if path.parent.name == "asked"} == names | {"compare"}
    assert {path.name for path in FILES if path.parent.name == "drawn"} == names


@pytest.mark.parametrize(
    "text", ["", "sigma check\n", ">x\n", "sigma check\nx\n= 1\n", "sigma check\n<\\q\n= 1\n"]
)
def test_broken_files(text: str, tmp_path: Path) -> None:
    """A file without a case, one that ends within a case, and a line of none are refused."""
    file = tmp_path / "broken"
    file.write_text(text)
    with pytest.raises(NotACase):
        list(read_cases(file, "broken"))


def test_other_answers_are_noticed(call: Program) -> None:
    """A wrong output, a wrong line and a wrong status are each noticed."""
    right = Case("here", "right", [b"check"], b"", b"", b"sigma: byte 0: unexpected\n", 1)
    assert complaint(right, call) is None
    for wrong in (
        Case("here", "", [b"check"], b"", b"more\n", right.errors, 1),
        Case("here", "", [b"check"], b"", b"", b"", 1),
        Case("here", "", [b"check"], b"", b"", right.errors, 0),
    ):
        assert complaint(wrong, call) is not None
