"""Compares what has to be believed with the lists of a page."""

from __future__ import annotations

import re
from collections import Counter
from collections.abc import Collection, Mapping
from dataclasses import dataclass, field

from repository.believed.reach import Reach
from repository.believed.sources import Sources
from support.places import TOP, kept_files

PROMISES = "crates/sigma_top/specs/Promises.antt"

# Modules that no page has to list if nothing of them is reached.
UNLISTED = re.compile(
    r"^worked_|_tests/|^text_laws|^static_laws/specs/(?!FitsVersion)|/specs/Inner"
)


@dataclass
class Lists:
    """What a page lists: modules with their lines, and names of the code.

    `modules` has the list and the module as its key: `believed` are those that the clauses reach,
    and `besides` those that single crates need.
    """

    modules: dict[tuple[str, str], str] = field(default_factory=dict)
    code: set[str] = field(default_factory=set)
    together: str = ""
    of_code: str = ""


@dataclass(frozen=True)
class Question:
    """Which clauses are meant: of which calls, and of `sigma` those for one promise alone."""

    heading: str = "the theorem"
    calls: str = "sigma|program"
    promise: str = ""

    @property
    def is_all(self) -> bool:
        """Answer whether all clauses of the program are meant."""
        return "program" in self.calls


def read_page(text: str, heading: str) -> Lists:
    """Read the lists of a page, from the section whose heading has these words."""
    lists = Lists()
    current = folder = ""
    for line in text.splitlines():
        if line.startswith("## "):
            current = "besides" if "single crates" in line else ""
            current = "believed" if heading in line else current
        elif line.startswith("What these definitions name"):
            current = "code"
        elif line.startswith("What these name"):
            current = ""
        elif current == "believed" and (total := re.match("Together ([0-9,]+) lines", line)):
            lists.together = total[1]
        if code_total := re.match("Of the code ([0-9,]+) lines", line):
            lists.of_code = code_total[1]
        if current and line.startswith("| `"):
            folder = read_row(lists, current, line, folder)
    return lists


def read_row(lists: Lists, current: str, line: str, folder: str) -> str:
    """Read a row of a table, and answer the folder in which its last name is."""
    cells = line.split("|")
    if current == "code":
        for name in (cells[1] + cells[2]).split("`")[1::2]:
            is_file = name.endswith(".rt")
            lists.code.add(f"crates/{'' if '/' in name else folder}{name}" if is_file else name)
            if "/" in name:
                folder = name[: name.rindex("/") + 1]
        return folder
    numbers = re.split(", *", cells[2])
    for place, name in enumerate(cells[1].split("`")[1::2]):
        if match := re.match("[a-z_]+/specs/([A-Z][A-Za-z]*/)?", name):
            folder = match[0]
        else:
            name = folder + name
        number = numbers[place].strip(" ") if place < len(numbers) else ""
        lists.modules[current, name] = number
    return folder


def narrow_to_promise(sources: Sources, promise: str) -> None:
    """Leave of the clauses of `sigma` the one for promises, and of that this promise alone."""
    sigma = sources.call_of["sigma"]
    text = sigma.units[0]
    signature = text[: text.index("ensures ") + 1]
    clause = text[text.index("ensures promises {") + 8 :]
    after = re.search(r"\n *ensures ", clause)
    sigma.units[0] = signature + (clause[: after.start() + 1] if after else clause)
    kept = sources.block_of[PROMISES, "KeepsPromises"]
    text = kept.units[0]
    text = text[text.index(f"\n    pub {promise} :") + 1 :]
    after = re.search(r"\n    pub ", text)
    kept.units[0] = text[: after.start() + 1] if after else text


def repository_sources() -> dict[str, str]:
    """Read the definitions and the sources of all crates."""
    paths = kept_files("crates/*.antt", "crates/*.rt")
    names = {path: str(path.relative_to(TOP)) for path in paths}
    wanted = re.compile(r".*/specs/.*\.antt|.*/src/.*\.rt")
    return {name: path.read_text() for path, name in names.items() if wanted.fullmatch(name)}


def module_of(path: str) -> str:
    """Answer the module that a file of definitions has."""
    return path.removeprefix("crates/").removesuffix(".antt")


def shown(believed: int, whole: int) -> str:
    """Write how many lines of a module are meant."""
    if believed == 0:
        return ""
    return str(whole) if believed == whole else f"{believed} of {whole}"


@dataclass
class Right:
    """What the clauses reach: modules with their lines, and names of the code by their files.

    Of a module of which only a part is reached, `reached` and `left` have the names of its definitions.
    """

    modules: dict[tuple[str, str], str] = field(default_factory=dict)
    reached: dict[str, list[str]] = field(default_factory=dict)
    left: dict[str, list[str]] = field(default_factory=dict)
    code: dict[str, set[str]] = field(default_factory=dict)
    together: int = 0
    of_code: int = 0
    complaints: list[str] = field(default_factory=list)


def right_lists(
    files: Mapping[str, str], question: Question, listed: Collection[tuple[str, str]] = ()
) -> Right:
    """Find what the clauses reach. Of what they don't reach, `listed` names modules to count too."""
    sources = Sources(question.calls)
    for path in sorted(files):
        sources.read(path, files[path])
    if question.promise:
        narrow_to_promise(sources, question.promise)
    reach = Reach(sources)
    right = Right()
    right.complaints = list(sources.complaints)
    if not question.promise:
        right.complaints += sources.unsure + reach.doubts()

    lines: Counter[str] = Counter()
    reached: Counter[str] = Counter()
    for block in sources.blocks:
        is_reached = reach.has(block)
        if block.file.endswith(".antt"):
            lines[block.file] += block.lines
            reached[block.file] += block.lines if is_reached else 0
            if block.kind != "module":
                parts = right.reached if is_reached else right.left
                parts.setdefault(module_of(block.file), []).append(block.name)
        elif is_reached:
            right.of_code += block.lines
            if block.kind in ("type", "trait"):
                right.code.setdefault(block.file, set()).add(block.name)

    for path in lines:
        name = module_of(path)
        whole = lines[path] + sources.heads[path]
        believed = reached[path] + sources.heads[path] if reached[path] else 0
        right.together += believed
        right.modules["believed", name] = shown(believed, whole)
        if question.is_all and (
            believed or not UNLISTED.search(name) or ("besides", name) in listed
        ):
            right.modules["besides", name] = shown(whole - believed, whole)
    return right


def differences(
    page_name: str, page: str, files: Mapping[str, str], question: Question
) -> tuple[list[str], int]:
    """Find where a page lists other modules or lines than the clauses reach.

    Returns
    -------
    tuple of list of str and int
        What differs or can't be read, and how many lines are reached together.
    """
    lists = read_page(page, question.heading)
    right = right_lists(files, question, lists.modules)
    found = list(right.complaints)
    ends = {"believed": "to believe", "besides": "for single crates"}
    for key in sorted({*right.modules, *lists.modules}):
        has, wants = lists.modules.get(key, ""), right.modules.get(key, "")
        if has != wants:
            found.append(f'{page_name} has "{has}" for "{wants}" lines of {key[1]} {ends[key[0]]}')
    code = {name for path, names in right.code.items() for name in (path, *names)}
    if question.is_all:
        found += [f"{page_name} doesn't list {n} of the code" for n in sorted(code - lists.code)]
    no_clause = "of the code, which no clause reaches"
    found += [f"{page_name} lists {name} {no_clause}" for name in sorted(lists.code - code)]
    if lists.together != f"{right.together:,}":
        found.append(f"{page_name} has {lists.together} lines together for {right.together:,}")
    if question.is_all and lists.of_code != f"{right.of_code}":
        found.append(f"{page_name} has {lists.of_code} lines of the code for {right.of_code}")
    return found, right.together
