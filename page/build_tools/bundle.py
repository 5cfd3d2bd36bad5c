"""Bundles the sources of the page by esbuild, and names the packages whose code is in it."""

from __future__ import annotations

import json
import os
import subprocess
import tempfile
from dataclasses import dataclass
from pathlib import Path

PAGE = Path(__file__).resolve().parent.parent
NODE_MODULES = Path("/usr/share/nodejs")
STYLES = (
    "codemirror/lib/codemirror.css",
    "codemirror/addon/hint/show-hint.css",
    "codemirror/addon/dialog/dialog.css",
)
TARGET = "--target=es2022"


class BuildError(Exception):
    """A reason why there is no page, as one sentence."""


@dataclass(frozen=True)
class Bundle:
    """The scripts and the style of the page, and the files of packages that they were made of."""

    opening: str
    page: str
    worker: str
    layout: str
    style: str
    foreign: tuple[Path, ...]


def _esbuild(words: list[str], text: str | None = None) -> str:
    environment = {**os.environ, "NODE_PATH": str(NODE_MODULES)}
    try:
        done = subprocess.run(
            ["esbuild", *words, "--log-level=warning"],
            input=text,
            env=environment,
            cwd=PAGE,
            capture_output=True,
            text=True,
            check=False,
        )
    except FileNotFoundError:
        raise BuildError("esbuild is missing: install the package esbuild") from None
    if done.returncode or done.stderr:
        raise BuildError(f"esbuild refuses the sources:\n{done.stderr}")
    return done.stdout


def _script(source: str) -> tuple[str, list[Path]]:
    """Return a script with all that it imports, and the files of packages among that."""
    with tempfile.TemporaryDirectory() as room:
        notes, made = Path(room, "notes.json"), Path(room, "made.js")
        words = ["--bundle", "--minify", "--format=iife", TARGET]
        _esbuild([source, *words, f"--outfile={made}", f"--metafile={notes}"])
        text = made.read_text(encoding="utf-8")
        inputs = json.loads(notes.read_text(encoding="utf-8"))["inputs"]
    files = [Path(os.path.normpath(PAGE / name)) for name in inputs]
    return text, [file for file in files if not file.is_relative_to(PAGE)]


def _style() -> str:
    missing = [name for name in STYLES if not (NODE_MODULES / name).is_file()]
    if missing:
        raise BuildError("CodeMirror is missing: install the package libjs-codemirror")
    files = [NODE_MODULES / name for name in STYLES]
    files += sorted((PAGE / "src" / "ui").glob("*.css"))
    text = "".join(file.read_text(encoding="utf-8") for file in files)
    return _esbuild(["--loader=css", "--minify"], text)


def bundle() -> Bundle:
    """Return the scripts and the style as they stand in the page."""
    opening, _ = _script("src/opening.ts")
    page, in_page = _script("src/main.ts")
    worker, in_worker = _script("src/engine/worker.ts")
    layout, in_layout = _script("src/graph/layout_worker.ts")
    styles = [NODE_MODULES / name for name in STYLES]
    foreign = sorted({*in_page, *in_worker, *in_layout, *styles})
    return Bundle(opening, page, worker, layout, _style(), tuple(foreign))
