"""The quick build by the real kit, of a program so small that it takes half a minute."""

from __future__ import annotations

import os
import subprocess
from collections.abc import Callable
from pathlib import Path

from support.places import TOP

MAIN = """//! A program that does nothing.
#![tactic(auto)]

fn main() {}
"""


def test_the_quick_build(needs: Callable[[str], str], tmp_path: Path) -> None:
    """It makes a program of a crate that isn't proved, also in a folder whose name has a blank."""
    room = tmp_path / "a room"
    source = room / "all/crates/sigma_cli/src/main.rt"
    source.parent.mkdir(parents=True)
    source.write_text(MAIN)
    (room / "all/.git").mkdir()
    (room / "all/crates.txt").write_text("sigma_cli:\n")
    (room / "all/HANDLES").write_bytes((TOP / "HANDLES").read_bytes())
    kit = Path(needs("rt")).parent
    ran = subprocess.run(
        [TOP / "share/quick", room],
        env={**os.environ, "PATH": f"{kit}:{os.environ['PATH']}", "SIGMA_JOBS": "2"},
        stdout=subprocess.PIPE,
        stderr=subprocess.STDOUT,
        timeout=900,
        check=False,
    )
    assert ran.returncode == 0, ran.stdout.decode()
    assert subprocess.run([room / "program"], check=False).returncode == 0
    assert len(list(room.glob("part*.ll"))) == 2
