"""The lab's package and the program for its tests."""

from __future__ import annotations

import os
import sys
from pathlib import Path

sys.path.insert(0, str(Path(__file__).resolve().parents[2] / "lab"))

if "SIGMA" not in os.environ:
    from support.places import find_program

    try:
        os.environ["SIGMA"] = str(find_program())
    except FileNotFoundError as missing:
        # Each test that needs the program fails, and says this.
        os.environ["SIGMA"] = f"no program: {missing}"
