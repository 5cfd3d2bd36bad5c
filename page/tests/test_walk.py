"""Whatever one does, the page throws nothing, and nothing is against its policy."""

from __future__ import annotations

import pytest
from drive.browser import Browser
from walk import Walk


def test_a_random_walk(page: Browser, pytestconfig: pytest.Config) -> None:
    """So many actions by mouse and keys: `page/test browsers -k walk --actions 10000 --seed 1`."""
    seed, actions = pytestconfig.getoption("seed"), pytestconfig.getoption("actions")
    try:
        Walk(page, seed).go(actions)
    finally:
        page.size(1400, 900)
