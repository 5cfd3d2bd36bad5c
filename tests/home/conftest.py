"""What the tests at home ask for: a small checkout."""

from __future__ import annotations

from pathlib import Path

import pytest

from home.small_checkout import SmallCheckout
from support.program import Program


@pytest.fixture
def checkout(tmp_path: Path, program: Program) -> SmallCheckout:
    """Make a small checkout, in a folder whose name has a blank."""
    folder = tmp_path / "a home"
    folder.mkdir()
    return SmallCheckout(folder, program.path)
