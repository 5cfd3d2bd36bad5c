"""Follows names from the clauses of the calls to all that has to be believed for them."""

from __future__ import annotations

import re
from collections.abc import Iterator

from repository.believed.sources import Block, Sources

WORD_OF_DEFINITIONS = re.compile(
    r"""[^\]\[ \n(){}.;,@"|:=]+(?:\.[^\]\[ \n(){}.;,@"|:=]+)*""",
)
WORD_OF_CODE = re.compile(r"[A-Za-z_][A-Za-z0-9_]*(?:\.[A-Za-z_][A-Za-z0-9_]*)*")
BINDERS = (
    r"[({][A-Za-z0-9_ ]+ : ",
    r"\n *pub [A-Za-z0-9_]+ :",
    r"λ [^.]*\. ",
    r"[^\n;]*←",
    r"let [^=]*= ",
)


def bound_in(part: str, is_equation: bool) -> set[str]:
    """List the names that are bound in a part of a block.

    These are typed parameters, fields, what follows a λ or `let`, or precedes an arrow, and in an
    equation the words that begin with a small letter on its left side.
    """
    bound: set[str] = set()
    for binder in BINDERS:
        for piece in re.findall(binder, part):
            piece = re.sub(r" : [^)]*\)", " ", piece)
            bound.update(re.findall("[A-Za-z0-9_]+", piece))
    if is_equation and (sign := re.search(r" =[ \n]", part)):
        words = re.findall(r"[A-Za-z0-9_.]+", part[: sign.start() + 1])
        bound.update(word for word in words if re.fullmatch("[a-z_][A-Za-z0-9_]*", word))
    return bound


def words_in(part: str, form: re.Pattern[str]) -> Iterator[str]:
    """List the words of a part that don't follow a point."""
    end = 0
    for match in form.finditer(part):
        if match.start() == end or part[match.start() - 1] != ".":
            yield match[0]
        end = match.end()


class Reach:
    """What is reached from the clauses of the calls."""

    def __init__(self, sources: Sources) -> None:
        self.sources = sources
        self.reached: dict[int, Block] = {}
        self.queue: list[Block] = []
        self.either: list[tuple[Block, Block, str]] = []
        names = {name for _, name in sources.block_of if "◌" in name}
        self.operators = {name: [s for s in name.split("◌") if s] for name in names}
        for block in sources.call_of.values():
            self.visit(block)
        while self.queue:
            self.follow(self.queue.pop(0))

    def has(self, block: Block) -> bool:
        """Answer whether a block was reached."""
        return id(block) in self.reached

    def visit(self, block: Block | None) -> None:
        """Reach a block, if it wasn't reached before."""
        if block is not None and not self.has(block):
            self.reached[id(block)] = block
            self.queue.append(block)

    def follow(self, block: Block) -> None:
        """Reach what a block names. A type with a view is seen as that, and else by its fields."""
        self.visit(block.outer)
        view = self.sources.block_of.get((block.file, f"view of {block.name}"))
        if view is not None:
            self.visit(view)
            return
        for number, unit in enumerate(block.units):
            self.follow_unit(block, unit, number > 0)

    def follow_unit(self, block: Block, part: str, is_equation: bool) -> None:
        """Reach what a text of a block names."""
        part = re.sub(r'"([^"\\]|\\[\s\S])*"', " ", part)
        part = re.sub(r"'[\x00-\x7f]'", " ", part)
        part = re.sub(r"--[^\n]*", "", part)
        bound: set[str] = set()
        outer = block.outer
        while outer is not None:
            bound |= bound_in(outer.units[0], False)
            outer = outer.outer
        if block.kind == "type":
            part = re.sub(r"\n +[A-Z][A-Za-z0-9]*", " ", part)
        else:
            bound |= bound_in(part, is_equation)
        if "←" in part:
            self.visit(self.sources.meaning(block.file, "◌>>=◌"))
        self.visit_operators(block, part)
        part = re.sub(r"[{;][ \n]*[A-Za-z0-9_]+ = ", " ", part)
        if block.kind != "type":
            self.visit_words(block, part, WORD_OF_DEFINITIONS, bound)
        if block.file.endswith(".rt"):
            self.visit_words(block, part, WORD_OF_CODE, bound)

    def visit_words(self, block: Block, part: str, form: re.Pattern[str], bound: set[str]) -> None:
        """Reach what words mean. If one is bound there and a definition too, it may be either."""
        for word in words_in(part, form):
            if block.kind == "type" and not re.match("[A-Z]", word):
                continue
            first, _, rest = word.partition(".")
            if first in ("Rattle", "package"):
                self.sources.unsure.append(
                    f"{block.file}: {block.name} names {word} by its whole path"
                )
            meant = self.sources.meaning(block.file, first, rest.split(".")[0])
            if meant is None or meant is block:
                continue
            if first in bound:
                self.either.append((block, meant, first))
            else:
                self.visit(meant)

    def visit_operators(self, block: Block, part: str) -> None:
        """Reach the operators whose signs are in a text, between blanks or in a section."""
        there = set(re.sub(r"[\]\[(){},;\n]|◌", " ", part).split())
        for name, signs in self.operators.items():
            if all(sign in there for sign in signs):
                self.visit(self.sources.meaning(block.file, name))

    def doubts(self) -> list[str]:
        """List what may be reached, and what is imported and wasn't found."""
        found = []
        for block, meant, name in self.either:
            if not self.has(meant):
                found.append(
                    f"{block.file}: {block.name} binds {name}, "
                    "which is a definition that nothing else reaches"
                )
        files = {block.file for block in self.reached.values()}
        for scope, name, path in self.sources.imports:
            is_ours = path.split(".")[0] in self.sources.owners and scope in files
            if is_ours and self.sources.meaning(scope, name) is None:
                found.append(f"{scope} imports {name} of {path}, which isn't found")
        return list(dict.fromkeys(found))
