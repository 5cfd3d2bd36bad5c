"""Pages show what the files have: each block that a page takes from an example of the lab, and what that example shows."""

import os
import re
import subprocess
import sys

import pytest
from models import CHECKOUT

PAGES = [
    CHECKOUT / "docs" / "use" / f"{name}.md"
    for name in ("patterns", "from-simpy", "from-simmer-and-arena")
]


def blocks(page):
    """Each example that a page names before a colon, with the block after it."""
    found = re.findall(r"`(lab/examples/\w+\.py)`:\n\n((?:    .*\n|\n)+)", page.read_text())
    return [
        (name, "\n".join(line[4:] for line in block.rstrip("\n").split("\n")))
        for name, block in found
    ]


@pytest.mark.parametrize("page", PAGES, ids=lambda page: page.stem)
def test_blocks_are_parts_of_their_files(page):
    assert blocks(page)
    for name, block in blocks(page):
        assert block in (CHECKOUT / name).read_text(), name


@pytest.mark.parametrize("name", ["outpatients", "bank", "patterns_of_a_desk"])
def test_examples_run(name):
    path = CHECKOUT / "lab" / "examples" / f"{name}.py"
    done = subprocess.run(
        [sys.executable, str(path)],
        capture_output=True,
        text=True,
        env={**os.environ, "PYTHONPATH": str(CHECKOUT / "lab")},
    )
    assert done.returncode == 0, done.stderr
    if name == "outpatients":
        page = (CHECKOUT / "docs" / "use" / "from-simmer-and-arena.md").read_text()
        shown = [line[4:] for line in page.splitlines() if re.match(r"     +(number|\d+) ", line)]
        assert shown == done.stdout.splitlines()[:3]
    if name == "bank":
        # The model of examples/bank.sigma: 0.72 wait on average, from 0.66 to 0.80 in 200 runs of it.
        assert re.match(r"0\.[67]\d+, from", done.stdout), done.stdout
