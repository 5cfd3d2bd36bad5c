"""Tables of the crates, from crates.txt, from the head of each crate's page and from its wrong bodies."""

from __future__ import annotations

import re
from dataclasses import dataclass
from functools import cache
from pathlib import Path

from support.places import TOP
from writing.parts import code, first_sentence, lowered, table

PROVED = "**In one line:** "
# The page of a crate names the crates that use it, unless there are more than these.
USERS_NAMED = 12


@dataclass(frozen=True)
class Crate:
    """A crate: its name, the group of crates.txt that has it, and two lines of its page."""

    name: str
    group: str
    purpose: str
    proved: str

    def link(self, page: Path) -> str:
        """Link a page to the crate's page."""
        up = "../" * (len(page.relative_to(TOP).parts) - 1)
        return f"[`{self.name}`]({up}crates/{self.name}/README.md)"


def read_page(name: str) -> tuple[str, str]:
    """Read what a crate is for, and what is proved of it, from its page.

    Raises
    ------
    ValueError
        If the page lacks one of the two.
    """
    text = (TOP / "crates" / name / "README.md").read_text()
    paragraphs = text.split("\n\n")
    proved = re.search(rf"^{re.escape(PROVED)}(.*?)(?=\n\n|\n[A-Z-]|\Z)", text, re.M | re.S)
    if len(paragraphs) < 2 or proved is None:
        raise ValueError(f"crates/{name}/README.md lacks its first sentence or a line {PROVED}")
    line = " ".join(proved[1].split()).removesuffix(".")
    return first_sentence(paragraphs[1]), line


@cache
def crates() -> list[Crate]:
    """List the crates in the order of crates.txt."""
    found: list[Crate] = []
    group = ""
    for line in (TOP / "crates.txt").read_text().splitlines():
        if line.startswith("# "):
            group = line.removeprefix("# ")
        elif line:
            name = re.split("[: ]", line)[0]
            found.append(Crate(name, group, *read_page(name)))
    return found


def users(page: Path) -> str:
    """Write which crates use the crate whose page this is."""
    name = page.parent.name
    lines = [line.partition(":") for line in (TOP / "crates.txt").read_text().splitlines()]
    found = [head.split(" ")[0] for head, _, below in lines if name in below.split()]
    if len(found) > USERS_NAMED:
        return f"Used by {len(found)} crates: `git grep -w {name} crates.txt`."
    links = [crate.link(page) for crate in crates() if crate.name in found]
    return f"Used by {', '.join(links)}." if links else "No crate uses it."


def groups() -> list[str]:
    """List the groups of crates.txt in their order."""
    return list(dict.fromkeys(crate.group for crate in crates()))


def purposes(page: Path) -> str:
    """Write a table for each group: what each crate is for."""
    parts: list[str] = []
    for group in groups():
        name, _, about = group.partition(": ")
        rows = [
            (crate.link(page), lowered(crate.purpose)) for crate in crates() if crate.group == group
        ]
        parts.append(f"**{name.capitalize()}**: {about}.\n\n{table(('crate', 'is for'), rows)}")
    return "\n\n".join(parts)


def promises(page: Path) -> str:
    """Write a table of what is proved of each crate."""
    rows = [(crate.link(page), crate.proved) for crate in crates()]
    return table(("crate", "what is proved, in a line"), rows)


def effect(edit: Path) -> str:
    """Read what a wrong body does from the comment that its file begins with.

    Raises
    ------
    ValueError
        If the file begins with something else.
    """
    first = edit.read_text().partition("\n")[0]
    if not first.startswith("# "):
        raise ValueError(f"{edit.relative_to(TOP)} has no first line that says what it does")
    return lowered(first.removeprefix("# ").removesuffix("."))


def wrong_bodies_of(name: str) -> list[Path]:
    """List the wrong bodies of a crate."""
    folders = (TOP / "crates" / name / "must-fail", TOP / "tests/wrong_bodies" / name)
    return [edit for folder in folders for edit in sorted(folder.glob("*.edit"))]


def names_of_wrong_bodies(page: Path) -> str:
    """Write the names of the wrong bodies of the crate whose page this is."""
    edits = wrong_bodies_of(page.parent.name)
    if not edits:
        return "None."
    folders = " and ".join(
        code(str(folder.relative_to(TOP))) for folder in sorted({edit.parent for edit in edits})
    )
    return f"In {folders}: {', '.join(code(edit.stem) for edit in edits)}."


def wrong_bodies(_page: Path) -> str:
    """Write a table of all wrong bodies: what each does."""
    rows = [
        (code(crate.name), code(edit.stem), effect(edit))
        for crate in crates()
        for edit in wrong_bodies_of(crate.name)
    ]
    return table(("crate", "wrong body", "what it does"), rows)


def counts(_page: Path) -> str:
    """Write how many wrong bodies there are, and where."""
    in_gate = len(list(TOP.glob("crates/*/must-fail/*.edit")))
    by_hand = len(list(TOP.glob("tests/wrong_bodies/*/*.edit")))
    return (
        f"There are {in_gate + by_hand} wrong bodies: the gate tries {in_gate}, "
        f"and `tests/wrong_bodies/run` the other {by_hand}."
    )
