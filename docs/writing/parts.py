"""The marks around a part of a page that is written, and tables."""

from __future__ import annotations

import re
from collections.abc import Callable, Iterable, Mapping
from pathlib import Path

PART = re.compile(r"(<!-- docs/write: (?!end)([^>]+?) -->\n)(.*?)(<!-- docs/write: end -->)", re.S)
# A writer of a part takes the page, and the words that stand after the name of the part.
Writer = Callable[..., str]


class UnknownPart(ValueError):
    """A page asks for a part that nothing writes."""


def rewritten(page: Path, text: str, writers: Mapping[str, Writer]) -> str:
    """Write the parts of a page anew, and leave the rest as it is.

    Raises
    ------
    UnknownPart
        If the page names a part that nothing writes.
    """

    def write(found: re.Match[str]) -> str:
        name, _, words = found[2].partition(": ")
        if name not in writers:
            raise UnknownPart(f"{page}: nothing writes a part {name}")
        return f"{found[1]}\n{writers[name](page, *words.split()).strip(chr(10))}\n\n{found[4]}"

    return PART.sub(write, text)


def table(head: Iterable[str], rows: Iterable[Iterable[str]]) -> str:
    """Write a table."""
    names = list(head)
    lines = [names, ["---"] * len(names), *(list(row) for row in rows)]
    return "\n".join(
        "| " + " | ".join(cells) + " |" if lines[1] is not cells else "|" + "|".join(cells) + "|"
        for cells in lines
    )


def code(text: str) -> str:
    """Write a text in code marks."""
    return f"`{text}`"


def first_sentence(text: str) -> str:
    """Answer the first sentence of a text, without its full stop."""
    flat = " ".join(text.split())
    return re.split(r"(?<=[a-z0-9`)])\.(?= |$)", flat, maxsplit=1)[0].rstrip(".")


def topic(text: str) -> str:
    """Answer what the first sentence of a text is about: what stands before its colon."""
    return first_sentence(text).partition(": ")[0]


def lowered(text: str) -> str:
    """Begin a phrase with a small letter, unless its first word is a name."""
    first = text.split(" ", 1)[0]
    is_name = len(first) > 1 and (first[1:] != first[1:].lower() or not first[0].isalpha())
    return text if is_name else text[:1].lower() + text[1:]
