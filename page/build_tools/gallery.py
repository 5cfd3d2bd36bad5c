"""Gathers the examples of the gallery: their texts, titles, questions and the words to run them."""

from __future__ import annotations

import hashlib
import json
import re
import subprocess
from pathlib import Path

from bundle import PAGE, BuildError

ROOT = PAGE.parent
ASKS_FOR_TABLES = re.compile(r"^# table |^ *# values ", re.MULTILINE)


def _filled(file: Path) -> str:
    """Return an example; tables that its comments ask for are filled in, as the page can't read files."""
    text = file.read_text(encoding="utf-8")
    if not ASKS_FOR_TABLES.search(text):
        return text
    words: list[str | Path] = [ROOT / "lab" / "sigma-lab", "tables", "--fill", file]
    done = subprocess.run(words, capture_output=True, text=True, check=False)
    if done.returncode:
        raise BuildError(f"the tables of {file.name} can't be filled in: {done.stderr.strip()}")
    return done.stdout


def examples(out: Path) -> dict[str, str]:
    """Return the texts of the examples by name.

    Parameters
    ----------
    out
        A folder that keeps the texts, and what they were made of, for the next time.
    """
    folder = ROOT / "examples"
    sources = sorted(
        file
        for pattern in ("examples/*.sigma", "examples/*.csv", "lab/sigma_lab/*.py")
        for file in ROOT.glob(pattern)
        if file.is_file()
    )
    digest = hashlib.sha256()
    for file in sources:
        digest.update(f"{file.relative_to(ROOT)} {file.stat().st_size}\n".encode())
        digest.update(file.read_bytes())
    kept = out / "examples.json"
    if kept.is_file():
        before = json.loads(kept.read_text(encoding="utf-8"))
        if before["of"] == digest.hexdigest():
            return dict(before["texts"])
    texts = {file.stem: _filled(file) for file in sorted(folder.glob("*.sigma"))}
    kept.write_text(json.dumps({"of": digest.hexdigest(), "texts": texts}), encoding="utf-8")
    return texts


def questions() -> dict[str, dict[str, str]]:
    """Return the title of each example, and the question that the documents ask it."""
    sources = [ROOT / "examples" / "README.md", ROOT / "docs" / "use" / "studies.md"]
    words: list[str | Path] = ["awk", "-f", PAGE / "questions.awk", *sources]
    done = subprocess.run(words, capture_output=True, text=True, check=True)
    return dict(json.loads(done.stdout))


def run_words() -> dict[str, str]:
    """Return the words of a run of each example: those of `example_words`, or else of its stored answer."""
    words = {}
    for file in sorted((ROOT / "examples" / "answers").glob("*.run.words")):
        words[file.name.removesuffix(".run.words")] = file.read_text(encoding="utf-8").strip()
    for line in (PAGE / "example_words").read_text(encoding="utf-8").splitlines():
        if line and not line.startswith("#"):
            name, _, rest = line.partition(" ")
            words[name] = rest
    return words
