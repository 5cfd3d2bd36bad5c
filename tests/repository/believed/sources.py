"""Reads modules of definitions and source files: what each defines, and what its names mean."""

from __future__ import annotations

import re
from collections import Counter
from dataclasses import dataclass, field


@dataclass
class Block:
    """A definition with its comment, or a type, a constant or a function's clauses of the code.

    `units` are its texts: the signature with what is indented below it, and then each equation.
    """

    name: str
    kind: str
    file: str
    outer: Block | None
    lines: int
    units: list[str] = field(default_factory=list)

    def add_unit(self, line: str) -> None:
        """Begin another text."""
        self.units.append(line)
        self.lines += 1

    def add_line(self, line: str) -> None:
        """Add a line to the last text."""
        self.units[-1] += "\n" + line
        self.lines += 1


def owner_of(path: str) -> str:
    """Answer the crate of a file."""
    return path.split("/")[1]


@dataclass
class Sources:
    """All that the files define, and what names mean in them.

    Parameters
    ----------
    calls
        A pattern of the functions whose clauses are read.
    """

    calls: str
    blocks: list[Block] = field(default_factory=list)
    block_of: dict[tuple[str, str], Block] = field(default_factory=dict)
    type_of: dict[tuple[str, str], Block] = field(default_factory=dict)
    call_of: dict[str, Block] = field(default_factory=dict)
    alias: dict[tuple[str, str], str] = field(default_factory=dict)
    target: dict[tuple[str, str], tuple[str, str]] = field(default_factory=dict)
    code_target: dict[tuple[str, str], tuple[str, str]] = field(default_factory=dict)
    imports: list[tuple[str, str, str]] = field(default_factory=list)
    heads: Counter[str] = field(default_factory=Counter)
    owners: set[str] = field(default_factory=set)
    unsure: list[str] = field(default_factory=list)
    complaints: list[str] = field(default_factory=list)

    def meaning(self, scope: str, name: str, member: str = "") -> Block | None:
        """Find the block that a name means in a file."""
        key = (scope, name)
        if key in self.alias:
            return self.block_of.get((self.alias[key], member))
        if key in self.block_of:
            return self.block_of[key]
        if key in self.target:
            return self.block_of.get(self.target[key])
        if key in self.code_target:
            return self.type_of.get(self.code_target[key])
        return None

    def read(self, path: str, text: str) -> None:
        """Read a file."""
        self.owners.add(owner_of(path))
        reader = Definitions(self, path) if path.endswith(".antt") else Code(self, path)
        for number, line in enumerate(text.removesuffix("\n").split("\n"), start=1):
            reader.take(number, line)

    def point(self, scope: str, name: str, path: str, meant: str) -> None:
        """Note that in a file a name means what has the name `meant` at this path, or all (`*`)."""
        if re.match(r"(std|lib)\.", path) or ".specs.contracts." in path:
            return
        if meant != "*":
            self.imports.append((scope, name, path))
        crate, declared, rest = path.partition(".specs.declared.")
        if declared:
            if rest.endswith(".TheConstants"):
                rest, kind = rest.removesuffix(".TheConstants"), meant
            else:
                rest = rest.removesuffix(".TheVariants")
                kind = rest.rpartition(".")[2]
                rest = re.sub(r"\.[A-Za-z]+$", "", rest)
            self.target[scope, name] = (f"crates/{crate}/src/{rest.replace('.', '/')}.rt", kind)
            return
        file = f"crates/{path.replace('.', '/')}.antt"
        if meant == "*":
            self.alias[scope, name] = file
        else:
            self.target[scope, name] = (file, meant)


class Reader:
    """Reads one file, line by line."""

    import_end = ""

    def __init__(self, sources: Sources, path: str) -> None:
        self.sources = sources
        self.path = path
        self.block: Block | None = None
        self.modules: list[tuple[Block, int]] = []
        self.comments = 0

    def take(self, number: int, line: str) -> None:
        """Read a line."""
        raise NotImplementedError

    def unknown_form(self, number: int, line: str, what: str) -> None:
        """Note what can't be read: else a definition could be missing without a word."""
        place = f"line {number} of {self.path}"
        self.sources.unsure.append(f"{place}: {what} in a form that isn't known: {line}")

    def end_comments(self) -> None:
        """Count the comments before a blank line with the module."""
        self.sources.heads[self.path] += self.comments
        self.comments = 0

    def begin_block(self, name: str, kind: str, line: str) -> Block:
        """Begin a block, with the comments before it."""
        outer = self.modules[-1][0] if self.modules else None
        block = Block(name, kind, self.path, outer, self.comments)
        self.comments = 0
        self.sources.blocks.append(block)
        self.sources.block_of[self.path, name] = block
        if kind == "clauses" and re.fullmatch(self.sources.calls, name):
            self.sources.call_of[name] = block
        block.add_unit(line)
        self.block = block
        return block

    def add_import(self, number: int, line: str) -> None:
        """Read `use Rattle.PATH.{A, B as C}` or `use Rattle.PATH as C`.

        A path through `declared` leads to a source file, and one through `contracts` to what the
        kit builds from a source file.
        """
        form = r" *(ghost )?use [A-Za-z_]+(\.[A-Za-z_]+)*(\.\{[^{}]*\}| as [a-z_]+)"
        if not re.fullmatch(form + self.import_end, line):
            self.unknown_form(number, line, "an import")
            return
        path = re.sub(r"^ *(ghost )?use (Rattle\.)?", "", line).removesuffix(";")
        if names := re.search(r"\.\{(.*)\}$", path):
            for name in re.split(", *", names[1]):
                here = re.sub(".* as ", "", name)
                meant = re.sub(" as .*", "", name)
                self.sources.point(self.path, here, path[: names.start()], meant)
        else:
            path, _, name = path.rpartition(" as ")
            self.sources.point(self.path, name, path, "*")


def is_equation_of(line: str, name: str) -> bool:
    """Answer whether an equation is one of this name: it begins with it, or has its signs."""
    if "◌" not in name:
        return f"{line} ".startswith(f"{name} ")
    return all(sign in line for sign in name.split("◌") if sign)


MUTUAL = ("mutual", "unfoldable mutual")


class Definitions(Reader):
    """Reads a module of definitions."""

    base = 0

    def take(self, number: int, line: str) -> None:
        if not line.strip(" "):
            self.end_comments()
        elif line.startswith("use "):
            self.end_comments()
            self.add_import(number, line)
        elif not line.startswith("pub mod "):
            self.take_indented(number, line)

    def take_indented(self, number: int, whole: str) -> None:
        """Read a line of a definition, or what precedes one."""
        line = whole.lstrip(" ")
        indent = len(whole) - len(line)
        while self.modules and indent <= self.modules[-1][1]:
            self.modules.pop()
            self.block = None
        if line.startswith("--"):
            if self.block and indent > self.base:
                self.block.lines += 1
            else:
                self.comments += 1
        elif line.startswith("module _") or line in MUTUAL:
            kind = "mutual" if line in MUTUAL else "module"
            self.modules.append((self.begin_block(f"{kind} at {number}", "module", whole), indent))
            self.block = None
        elif re.match("(infix[lr]?|unfolding) ", line):
            named = self.sources.block_of.get((self.path, line.split()[-1]))
            if line.startswith("infix") and named:
                named.lines += 1
            else:
                self.comments += 1
        elif self.begins(line, indent):
            kind = "data" if re.match("(pub )?data ", line) else "definition"
            name = re.sub("^(abbrev|unfoldable) ", "", line)
            name = re.sub("^(data|record) ", "", re.sub("^pub ", "", name)).split(" ")[0]
            self.begin_block(name, kind, whole)
            self.base = indent
        else:
            self.take_more(number, whole, line, indent)

    def begins(self, line: str, indent: int) -> bool:
        """Answer whether a line begins a definition."""
        if re.match(r"(abbrev|unfoldable) |(pub )?(data|record) [A-Z]", line):
            return True
        outer, outer_indent = self.modules[-1] if self.modules else (None, -2)
        if outer and not outer.name.startswith("mutual"):
            return False
        return indent == outer_indent + 2 and re.match("(pub )?[^ ]+ : ", line) is not None

    def take_more(self, number: int, whole: str, line: str, indent: int) -> None:
        """Read a further line of a definition."""
        if self.block is None:
            self.sources.heads[self.path] += 1
            self.sources.complaints.append(f"line {number} of {self.path} belongs to no definition")
        elif indent > self.base:
            if self.block.kind == "data" and (variant := re.match("[^ ]+ :", line)):
                self.sources.block_of[self.path, variant[0][:-2]] = self.block
            self.block.add_line(whole)
        elif line in ("}", "]"):
            self.block.add_line(whole)
        elif is_equation_of(line, self.block.name):
            self.block.add_unit(whole)
        else:
            self.unknown_form(number, whole, "a line")


class Code(Reader):
    """Reads a source file: its types and constants, and the clauses of the calls."""

    import_end = ";"
    pending = ""
    is_inside = False

    def take(self, number: int, line: str) -> None:
        code = re.sub("//.*", "", line)
        if not code.strip(" "):
            return
        if re.match(" *ghost use ", code):
            self.add_import(number, code)
        elif self.pending or re.match(" *(pub )?use ", code):
            self.pending += code
            if ";" in code:
                self.add_code_import(self.pending)
                self.pending = ""
        elif self.begins(code):
            self.begin_code(code, line)
        elif self.is_inside:
            if re.match("[{}]", line):
                self.is_inside = False
            elif self.block:
                self.block.add_line(code)

    def begins(self, line: str) -> bool:
        """Answer whether a line begins a type, a constant, clauses or a view."""
        forms = (
            r"(pub(\([a-z]+\))? )?(enum|struct|trait|const|type) [A-Za-z_]+",
            rf"pub fn ({self.sources.calls})<",
            r"impl.*[ :]Model for ",
        )
        return any(re.match(form, line) for form in forms)

    def begin_code(self, line: str, whole: str) -> None:
        """Begin a type, a constant, clauses or a view."""
        if line.startswith("impl"):
            name = re.sub("^impl.*[ :]Model for ", "view of ", line)
        else:
            name = re.sub(r"^(pub(\([a-z]+\))? )?(enum|struct|trait|const|type|fn) ", "", line)
        named = re.match("(view of )?[A-Za-z_0-9]+", name)
        assert named, line
        kind = "type"
        if re.match("pub fn|impl", line):
            kind = "clauses"
        elif re.match("(pub )?trait", line):
            kind = "trait"
        block = self.begin_block(named[0], kind, whole)
        if kind != "clauses":
            self.sources.type_of[owner_of(self.path), named[0]] = block
        self.is_inside = ";" not in line

    def add_code_import(self, line: str) -> None:
        """Read `use CRATE::{A, path::B}`, of which the last word of each path counts."""
        line = re.sub("^ *(pub )?use ", "", line)
        crate = line.split("::")[0]
        if crate == "crate":
            crate = owner_of(self.path)
        words = re.split(r"[{},; ]+|::", line) + ["", ""]
        at = 1
        while at < len(words) - 2:
            if re.match("[A-Z]", words[at]):
                is_renamed = words[at + 1] == "as"
                here = words[at + 2] if is_renamed else words[at]
                self.sources.code_target[self.path, here] = (crate, words[at])
                at += 2 if is_renamed else 0
            at += 1
