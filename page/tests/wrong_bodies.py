"""Wrong bodies of the page: single lines that are turned, each of which must make a test of plain functions fail.

    page/test wrong            tries all of them
    page/test wrong NAME..     tries some

A body that no test refuses is named, and the status is 1.
"""

from __future__ import annotations

import os
import shutil
import subprocess
import sys
import tempfile
from concurrent.futures import ThreadPoolExecutor
from pathlib import Path

from wrong_lines import WRONG, Wrong

PAGE = Path(__file__).resolve().parent.parent
LONGEST = 300  # seconds of a test


def refused(wrong: Wrong, room: Path) -> bool:
    """Return whether the test fails over the page with this body."""
    source = room / "src" / wrong.file
    text = source.read_text(encoding="utf-8")
    if text.count(wrong.old) != 1:
        raise SystemExit(
            f"{wrong.name}: its line stands {text.count(wrong.old)} times in {wrong.file}"
        )
    source.write_text(text.replace(wrong.old, wrong.new), encoding="utf-8")
    made = room / "made.mjs"
    words = [
        "--bundle",
        "--platform=node",
        "--format=esm",
        f"--outfile={made}",
        "--log-level=error",
    ]
    places = {**os.environ, "NODE_PATH": "/usr/share/nodejs"}
    built = subprocess.run(
        ["esbuild", f"tests/{wrong.test}.test.ts", *words], cwd=room, env=places, check=False
    )
    if built.returncode:
        raise SystemExit(f"{wrong.name}: esbuild refuses it, which shows nothing")
    node: list[str | Path] = ["/usr/bin/node", "--test", made]
    try:
        ran = subprocess.run(
            node, cwd=room, env=places, capture_output=True, timeout=LONGEST, check=False
        )
    except subprocess.TimeoutExpired:
        return True
    return ran.returncode != 0


def tried(wrong: Wrong) -> bool:
    """Return whether a test refuses this body; it is written into a copy of the sources."""
    with tempfile.TemporaryDirectory() as folder:
        room = Path(folder)
        for part in ("src", "types"):
            shutil.copytree(PAGE / part, room / part)
        shutil.copytree(
            PAGE / "tests", room / "tests", ignore=shutil.ignore_patterns("*.py", "drive")
        )
        shutil.copy(PAGE / "tsconfig.json", room)
        return refused(wrong, room)


def main(names: list[str]) -> int:
    """Try the bodies with these names, or all."""
    unknown = set(names) - {each.name for each in WRONG}
    if unknown:
        print(f"no wrong body is called {', '.join(sorted(unknown))}", file=sys.stderr)
        return 2
    chosen = [each for each in WRONG if not names or each.name in names]
    with ThreadPoolExecutor(2) as workers:
        answers = list(workers.map(tried, chosen))
    missed = [each.name for each, answer in zip(chosen, answers, strict=True) if not answer]
    for name in missed:
        print(f"no test refuses {name}")
    print(f"wrong bodies: {len(chosen) - len(missed)} refused, {len(missed)} not")
    return 1 if missed else 0


if __name__ == "__main__":
    sys.exit(main(sys.argv[1:]))
