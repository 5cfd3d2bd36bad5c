"""What pages show: commands after a `$` with their output, links, headings, and sentences."""

from __future__ import annotations

import re
from collections import Counter
from collections.abc import Iterator
from dataclasses import dataclass, field

COMMAND = re.compile(r"^(    +)\$ (.*)$")
LINK = re.compile(r"!?\[(?:[^\[\]]|\[[^\]]*\])*\]\(([^()\s]+(?:\([^()]*\))?)(?: \"[^\"]*\")?\)")
HEADING = re.compile(r"^#{1,6} (.*?)#*$")
WRITTEN = re.compile(r"<!-- docs/write: (?!end).*?<!-- docs/write: end -->", re.S)
ITEM = re.compile(r"^ *([-*]|\d+\.) +")
END = re.compile(r"(?<=[.!?:;])[*_)\"]* +(?=[*_(\"]*[A-Z`\d\[])")


@dataclass
class Command:
    """A command of a page, where it stands, and the output that the page shows."""

    line: int
    text: str
    shown: list[str] = field(default_factory=list)


def commands(page: str) -> list[Command]:
    """List the commands of a page. What is shown of a command is indented as it is."""
    found: list[Command] = []
    indent = ""
    for number, line in enumerate(page.splitlines(), start=1):
        if match := COMMAND.match(line):
            indent = match[1]
            found.append(Command(number, match[2]))
        elif indent and line.startswith(indent) and line.strip():
            found[-1].shown.append(line[len(indent) :])
        else:
            indent = ""
    return found


def essence(lines: list[str]) -> list[str]:
    """Leave out what a page can't show: blanks at the ends of lines, and blank lines."""
    return [line.rstrip() for line in lines if line.strip()]


def is_shown(output: list[str], shown: list[str]) -> bool:
    """Answer whether an output is what a page shows, where a line `...` means any lines."""
    output, shown = essence(output), essence(shown)
    if "..." not in shown:
        return output == shown
    first, last = shown.index("..."), len(shown) - 1 - shown[::-1].index("...")
    head, tail = shown[:first], shown[last + 1 :]
    if "..." in shown[first:last]:
        raise ValueError("a page shows `...` once for each command")
    enough = len(output) >= len(head) + len(tail)
    return enough and output[: len(head)] == head and output[len(output) - len(tail) :] == tail


def prose(page: str) -> Iterator[tuple[int, str]]:
    """List the lines of a page outside of its blocks of code, with what is in code marks blank."""
    is_fenced = False
    for number, line in enumerate(page.splitlines(), start=1):
        if line.lstrip().startswith("```"):
            is_fenced = not is_fenced
        elif not is_fenced and not line.startswith("    "):
            yield number, re.sub(r"`[^`]*`", lambda code: " " * len(code[0]), line)


def links(page: str) -> Iterator[tuple[int, str]]:
    """List the links of a page, each with its line."""
    for number, line in prose(page):
        for match in LINK.finditer(line):
            yield number, match[1]


def anchors(page: str) -> set[str]:
    """List the anchors of a page's headings, and those that it sets itself."""
    found: set[str] = set(re.findall(r'<a (?:id|name)="([^"]+)"', page))
    counts: Counter[str] = Counter()
    is_fenced = False
    for line in page.splitlines():
        if line.startswith("```"):
            is_fenced = not is_fenced
        match = None if is_fenced else HEADING.match(line)
        if match is None:
            continue
        text = re.sub(r"\[([^\]]*)\]\([^)]*\)", r"\1", match[1].strip())
        name = re.sub(r"[^\w\- ]", "", text.lower()).replace(" ", "-")
        found.add(name if not counts[name] else f"{name}-{counts[name]}")
        counts[name] += 1
    return found


@dataclass(frozen=True)
class Sentence:
    """A sentence of a page, and the line at which its paragraph begins."""

    line: int
    text: str

    @property
    def words(self) -> int:
        """Count its words: what is in code marks is one, and signs alone are none."""
        text = re.sub(
            r"`[^`]*`", "code", LINK.sub(lambda link: link[0][: link[0].index("](")], self.text)
        )
        return sum(any(letter.isalnum() for letter in word) for word in text.split())


def paragraphs(page: str) -> Iterator[tuple[int, str]]:
    """List the paragraphs and items of a page, without headings, tables, code and written parts."""
    blank = WRITTEN.sub(lambda part: "\n" * part[0].count("\n"), page)
    begun, lines = 0, list[str]()
    is_fenced = False
    for number, line in enumerate([*blank.splitlines(), ""], start=1):
        is_fenced ^= line.lstrip().startswith("```")
        is_other = (
            is_fenced or not line.strip() or line.startswith(("    ", "#", "|", "```", "<!--"))
        )
        if lines and (is_other or ITEM.match(line)):
            yield begun, " ".join(lines)
            lines = []
        if not is_other:
            begun = begun if lines else number
            lines.append(ITEM.sub("", line).strip())


def sentences(page: str) -> Iterator[Sentence]:
    """List the sentences of a page."""
    for line, paragraph in paragraphs(page):
        for text in END.split(paragraph):
            yield Sentence(line, text)
