"""Builds the site: copies the pages and what they link to, adds the navigation, and calls Sphinx."""

from __future__ import annotations

import re
import shutil
import subprocess
import sys
import tempfile
from pathlib import Path
from urllib.parse import unquote

from support.pages import LINK
from support.places import TOP, kept_files
from writing.pages import WRITERS

SITE = TOP / "docs/site"
PICTURES = (".png", ".svg")
ELSEWHERE = ("http://", "https://", "mailto:", "#")
# The navigation: a caption, and the pages below it. A `*` takes the rest of a folder, sorted by name. What is left comes last.
NAVIGATION = {
    "Use": (
        "docs/README",
        "docs/use/tutorial",
        "docs/use/install",
        "docs/use/model-text",
        "docs/use/patterns",
        "docs/use/distributions",
        "docs/use/experiments",
        "docs/use/*",
    ),
    "Trust": ("docs/trust/README", "docs/trust/for-sceptics", "docs/trust/*", "SECURITY"),
    "Work": ("CONTRIBUTING", "docs/work/map", "docs/work/*", "CHANGES"),
    "Crates": ("crates/*/*",),
    "Lists": ("docs/lists/*",),
}
REST = "Examples and more"
# Pages of the site alone: a title, a sentence, and the part that `docs/write --show` writes too.
LISTS = {
    "docs/lists/options-of-sigma-lab": (
        "The options of sigma-lab",
        "What each command takes, as its help says.",
        "words of the lab",
    ),
    "docs/lists/definitions": (
        "The definitions, by subject",
        "What the clauses of the program rest on, in the order of reading.",
        "subjects of definitions",
    ),
    "docs/lists/crates": (
        "What is proved of each crate",
        "A line of the page of each crate.",
        "crates' promises",
    ),
    "docs/lists/wrong-bodies": (
        "The wrong bodies",
        "What each does that the prover refuses.",
        "effects of wrong bodies",
    ),
    "docs/lists/tests": ("The tests", "The files of tests, by folder.", "tests"),
}


def pages() -> list[Path]:
    """List the pages, by their paths in the repository."""
    return [path.relative_to(TOP) for path in kept_files("*.md")]


def is_of(name: str, pattern: str) -> bool:
    """Answer whether a page is meant by a pattern of the navigation; a `*` stands for no `/`."""
    return Path(name).match(pattern) and name.count("/") == pattern.count("/")


def listed(names: list[str]) -> dict[str, list[str]]:
    """Share the pages out to the captions, each once."""
    left = [name for name in names if name != "README"]
    found: dict[str, list[str]] = {}
    for caption, patterns in NAVIGATION.items():
        for pattern in patterns:
            taken = [name for name in left if is_of(name, pattern)]
            left = [name for name in left if name not in taken]
            found.setdefault(caption, []).extend(taken)
    return {**found, REST: left}


def navigation(names: list[str]) -> str:
    """Write the trees of pages that the first page ends with."""
    trees = [
        "```{toctree}\n:hidden:\n:caption: " + caption + "\n\n" + "\n".join(below) + "\n```\n"
        for caption, below in listed(names).items()
    ]
    return "\n" + "\n".join(trees)


def linked(page: Path, text: str, room: Path) -> str:
    """Copy the files that a page links to, and let its links download them; a link to a folder is left as its text."""

    def follow(found: re.Match[str]) -> str:
        name = unquote(found[1]).partition("#")[0]
        if found[1].startswith(ELSEWHERE) or name.endswith(".md"):
            return found[0]
        target = (TOP / page.parent / name).resolve()
        shown = found[0][found[0].index("[") + 1 : found[0].rindex("](")]
        if target.is_dir():
            return shown
        goal = room / target.relative_to(TOP)
        goal.parent.mkdir(parents=True, exist_ok=True)
        shutil.copyfile(target, goal)
        if found[0].startswith("!") and target.suffix in PICTURES:
            return found[0]
        return "{download}`" + shown.replace("`", "") + f" <{name}>`"

    lines = text.split("\n")
    is_fenced = False
    for at, line in enumerate(lines):
        is_fenced ^= line.lstrip().startswith("```")
        if not is_fenced and not line.startswith("    "):
            lines[at] = LINK.sub(follow, line)
    return "\n".join(lines)


def list_page(name: str) -> str:
    """Write a page of the site alone."""
    title, about, part = LISTS[name]
    return f"# {title}\n\n{about}\n\n{WRITERS[part](TOP / f'{name}.md')}\n"


def furnish(room: Path) -> None:
    """Fill a folder with what Sphinx reads."""
    texts = {page: (TOP / page).read_text() for page in pages()}
    texts.update({Path(f"{name}.md"): list_page(name) for name in LISTS})
    for page, old in texts.items():
        text = linked(page, old, room)
        if page == Path("README.md"):
            text += navigation([str(each.with_suffix("")) for each in texts])
        (room / page).parent.mkdir(parents=True, exist_ok=True)
        (room / page).write_text(text)
    (room / "_static").mkdir()
    shutil.copyfile(SITE / "site.css", room / "_static/site.css")
    shutil.copyfile(SITE / "conf.py", room / "conf.py")


def build(goal: Path) -> int:
    """Build the site into a folder, and answer the status of Sphinx."""
    with tempfile.TemporaryDirectory(prefix="sigma-site-") as name:
        room = Path(name)
        (room / "pages").mkdir()
        furnish(room / "pages")
        made = room / "site"
        options = ["-q", "-b", "html", "-W", "--keep-going", "-d", str(room / "trees")]
        words = [sys.executable, "-m", "sphinx", *options, str(room / "pages"), str(made)]
        status = subprocess.run(words, check=False).returncode
        if status == 0:
            (made / ".buildinfo").unlink(missing_ok=True)
            first = '<meta http-equiv="refresh" content="0; url=README.html"><title>SIGMA</title>\n'
            (made / "index.html").write_text(f"<!DOCTYPE html>\n{first}")
            shutil.rmtree(goal, ignore_errors=True)
            goal.parent.mkdir(parents=True, exist_ok=True)
            shutil.move(made, goal)
    return status


def main(words: list[str]) -> int:
    """Build the site into the folder that a word names."""
    if len(words) > 1 or any(word.startswith("-") for word in words):
        print("docs/site/build: it takes one folder", file=sys.stderr)
        return 2
    goal = Path(words[0]).resolve() if words else TOP / "out/site"
    return build(goal)
