"""Writes the parts of all pages, or says which are stale."""

from __future__ import annotations

import difflib
import sys
from collections.abc import Iterator
from pathlib import Path

from support.places import TOP, kept_files
from writing import calls, crates, definitions, examples, lab, tests
from writing.parts import Writer, rewritten

WRITERS: dict[str, Writer] = {
    "crates": crates.purposes,
    "crates' promises": crates.promises,
    "users": crates.users,
    "wrong bodies": crates.names_of_wrong_bodies,
    "effects of wrong bodies": crates.wrong_bodies,
    "number of wrong bodies": crates.counts,
    "commands": calls.commands,
    "options of commands": calls.options_of_commands,
    "options": calls.options,
    "statuses": calls.statuses,
    "commands of the lab": lab.table_of_commands,
    "words of the lab": lab.words_of_commands,
    "older tools of the lab": lab.older_tools,
    "vertices": examples.vertices,
    "tests": tests.tests,
    "definitions": definitions.of_program,
    "subjects of definitions": definitions.believed,
    "definitions of single crates": definitions.besides,
    "definitions of the whole promise": definitions.of_whole_promise,
    "definitions of two calls": definitions.of_two_calls,
    "types of the code": definitions.of_code,
}


def stale(pages: list[Path]) -> Iterator[tuple[Path, str, str]]:
    """List the pages whose parts are stale, with the old text and the new one."""
    for page in pages:
        old = page.read_text()
        new = rewritten(page, old, WRITERS)
        if new != old:
            yield page, old, new


def pages_with_parts() -> list[Path]:
    """List the pages that have a part to write."""
    return [page for page in kept_files("*.md") if "<!-- docs/write: " in page.read_text()]


def difference(page: Path, old: str, new: str) -> str:
    """Show where a page is stale."""
    name = str(page.relative_to(TOP))
    lines = difflib.unified_diff(
        old.splitlines(), new.splitlines(), name, "docs/write", lineterm="", n=0
    )
    return "\n".join(list(lines)[:20])


def main(words: list[str]) -> int:
    """Write the pages, or with `--check` say which are stale, or with `--show` write one part."""
    if words[:1] == ["--show"] and len(words) == 2 and words[1] in WRITERS:
        print(WRITERS[words[1]](TOP / "README.md"))
        return 0
    if words not in ([], ["--check"]):
        print("docs/write: it takes --check, or --show and the name of a part", file=sys.stderr)
        return 2
    found = list(stale(pages_with_parts()))
    for page, old, new in found:
        if words:
            print(difference(page, old, new))
        else:
            page.write_text(new)
            print(f"docs/write: {page.relative_to(TOP)}")
    return 1 if words and found else 0
