"""What the page on model texts says of usual mistakes: each is refused at the part that is named."""

from __future__ import annotations

import re
from collections.abc import Iterator
from dataclasses import dataclass

import pytest

from support.places import TOP
from support.program import Program


@dataclass(frozen=True)
class Mistake:
    """A mistake as the page's table has it: what is written, and where it is refused."""

    written: str
    named: str
    refused_at: str

    def text(self) -> str:
        """Write a model with this mistake."""
        part = self.written
        if part.startswith("when"):
            part = f"schedule V {part};"
        if part.startswith(("var", "table")):
            return f"model M; {part} vertex V {{ }} end"
        end = "" if part.endswith(";") else "\n"
        return f"model M; var N : 0..9 = 0; vertex V {{ {part}{end} }} end"


def mistakes() -> Iterator[Mistake]:
    """Read the table of the page."""
    page = (TOP / "docs/use/model-text.md").read_text()
    section = re.search(r"^## [^\n]* usually is\n(.*?)^## ", page, re.DOTALL | re.MULTILINE)
    assert section, "the page has no such section"
    for row in re.findall(r"^\| `(.*?)` \| (.*?) \|", section[1], re.MULTILINE):
        if named := re.search("`(.*?)`", row[1]):
            yield Mistake(row[0], named[1], row[1])


@pytest.mark.parametrize("mistake", mistakes(), ids=[m.written for m in mistakes()])
def test_usual_mistakes(mistake: Mistake, call: Program) -> None:
    """The text is refused at the named part: the first or the second one of its kind."""
    text = mistake.text()
    message = "bad byte" if "bad byte" in mistake.refused_at else "unexpected"
    answer = call("check", text.encode())
    said = re.fullmatch(rf"sigma: byte (\d+): {message}\n", answer.errors.decode())
    assert answer.status == 1 and said, answer.errors
    place = int(said[1])
    assert text[place:].startswith(mistake.named)
    if "the second" in mistake.refused_at:
        assert mistake.named in text[place - 1 - len(mistake.written) : place]


def test_nothing_after_the_last_brace(call: Program) -> None:
    """A text without its last word is refused at its end."""
    text = b"model M; vertex V { }"
    call("check", text).refuses(1, f"sigma: byte {len(text)}: unexpected")


def test_there_are_twenty() -> None:
    """The table is read whole."""
    assert len(list(mistakes())) == 20


def broken_rules() -> Iterator[tuple[str, str, int]]:
    """Read the table of the static rules: the message, a text that breaks the rule, and the byte."""
    page = (TOP / "docs/use/model-text.md").read_text()
    rows = re.findall(r"^\| `([a-z ]+2?)` \| .* \| (.*) \| (\d+) \|$", page, re.MULTILINE)
    for message, text, byte in rows:
        if text.startswith("`"):
            yield message, text.strip("`"), int(byte)


@pytest.mark.parametrize(("message", "text", "byte"), broken_rules())
def test_broken_rules(message: str, text: str, byte: int, call: Program) -> None:
    """Each text of the table breaks the rule that the page says, at the byte that it says."""
    call("check", text.encode()).refuses(1, f"sigma: byte {byte}: {message}")


def test_there_are_seventeen() -> None:
    """Each rule has a text but the one on the length of a model, whose text is too long to show."""
    assert len(list(broken_rules())) == 17
