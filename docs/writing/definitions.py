"""The list of what has to be believed: the definitions, module by module, and the types of the code that they name."""

from __future__ import annotations

import re
from functools import cache
from pathlib import Path

from repository.believed.lists import Question, Right, repository_sources, right_lists
from support.places import TOP
from writing.crates import crates
from writing.parts import code, lowered, table, topic

MODULE = re.compile(r"^pub mod (\w+)", re.M)


WHOLE_PROMISE = Question("whole promise", "sigma", "reduced")
TWO_CALLS = Question("two calls", "print_and_reduce")


@cache
def right(question: Question = Question()) -> Right:
    """Find once what the clauses reach."""
    return right_lists(repository_sources(), question)


def modules_of(folder: str, name: str) -> list[str]:
    """List the modules that a file of modules names, with those below them, in its order."""
    path = TOP / "crates" / folder / f"{name}.antt"
    if not path.exists():
        return []
    below = folder if name == "Lib" else f"{folder}/{name}"
    found: list[str] = []
    for each in MODULE.findall(path.read_text()):
        found += [f"{below}/{each}", *modules_of(below, each)]
    return found


@cache
def reading_order() -> dict[str, int]:
    """Number the modules: the crates in their order, and in each the modules in the order of `Lib`."""
    names = [name for crate in crates() for name in modules_of(f"{crate.name}/specs", "Lib")]
    return {name: place for place, name in enumerate(names)}


def about(module: str) -> str:
    """Read the first sentence of the comment that a module begins with."""
    lines: list[str] = []
    for line in (TOP / "crates" / f"{module}.antt").read_text().splitlines():
        if not line.startswith("--"):
            break
        lines.append(line.removeprefix("--").strip())
    return lowered(topic(" ".join(lines))).replace("|", r"\|")


def modules(which: str, question: Question = Question()) -> list[str]:
    """List the modules of one of the two lists, in reading order."""
    order = reading_order()
    found = right(question).modules
    names = [name for (kind, name), lines in found.items() if kind == which and lines]
    return sorted(names, key=lambda name: (order.get(name, len(order)), name))


def believed(_page: Path) -> str:
    """Write the modules that the clauses of the program reach, with the subject of each."""
    lines = right().modules
    rows = [(code(name), lines["believed", name], about(name)) for name in modules("believed")]
    together = f"Together {right().together:,} lines."
    return f"{table(('module', 'lines', 'subject'), rows)}\n\n{together}"


def by_folder(which: str, question: Question = Question()) -> str:
    """Write a row for each folder: its modules, and their lines."""
    rows: dict[str, list[str]] = {}
    for name in modules(which, question):
        rows.setdefault(name.rpartition("/")[0], []).append(name)
    lines = right(question).modules
    cells = [
        (
            ", ".join(
                code(name if name == names[0] else name.rpartition("/")[2]) for name in names
            ),
            ", ".join(lines[which, name] for name in names),
        )
        for names in rows.values()
    ]
    return table(("modules", "lines"), cells)


def part_of(name: str, question: Question) -> str:
    """Write which definitions of a module are reached, or which aren't, whichever are fewer; nothing if all are."""
    found = right(question)
    reached, left = found.reached[name], found.left.get(name, [])
    if not left:
        return ""
    word, names = ("without", left) if len(left) <= len(reached) else ("only", reached)
    return f" ({word} {', '.join(map(code, names))})"


def of_two_calls(_page: Path) -> str:
    """Write the modules that the law over two calls reaches, in reading order."""
    found = right(TWO_CALLS)
    rows = [
        (code(name), found.modules["believed", name], f"{about(name)}{part_of(name, TWO_CALLS)}")
        for name in modules("believed", TWO_CALLS)
    ]
    return f"{table(('module', 'lines', 'subject'), rows)}\n\nTogether {found.together:,} lines."


def of_program(_page: Path) -> str:
    """Write the modules that the clauses of the program reach, a row for each folder."""
    return f"{by_folder('believed')}\n\nTogether {right().together:,} lines."


def besides(_page: Path) -> str:
    """Write the further modules that single crates name, a row for each folder."""
    return by_folder("besides")


def of_whole_promise(_page: Path) -> str:
    """Write the modules that the promise of `reduce` reaches, a row for each folder."""
    together = f"Together {right(WHOLE_PROMISE).together:,} lines."
    return f"{by_folder('believed', WHOLE_PROMISE)}\n\n{together}"


def of_code(_page: Path) -> str:
    """Write the types, traits and constants of the code that the definitions name."""
    rows = [
        (code(path.removeprefix("crates/")), ", ".join(map(code, sorted(names))))
        for path, names in sorted(right().code.items())
    ]
    total = f"Of the code {right().of_code} lines are reached"
    return f"{table(('source file', 'constants and types'), rows)}\n\n{total}."
