"""The file is small, and what it opens is what its policy names."""

from __future__ import annotations

import base64
import gzip
import re
import time
from pathlib import Path

import pytest
from conftest import wait_for_model
from drive.browser import PATIENCE, Browser

MOST = 1_100_000  # bytes of the file


def test_the_file_is_small(page: Browser, address: str) -> None:
    """One file of at most 1,100 KB holds the program, the page and the examples."""
    assert Path(address.removeprefix("file://")).stat().st_size < MOST


@pytest.mark.parametrize("theme", ["light", "dark"])
def test_what_was_chosen_is_there_at_once(page: Browser, address: str, theme: str) -> None:
    """The first script sets the theme, before the others are unpacked."""
    page.js("localStorage.setItem('sigma2.theme', values[0])", theme)
    page.open(address)
    assert page.js("return document.documentElement.dataset.theme") == theme
    wait_for_model(page)
    assert page.js("return document.documentElement.dataset.theme") == theme
    assert page.js("return document.querySelector('.opening')") is None
    page.js("localStorage.clear()")


def test_another_script_in_its_place_is_not_run(
    page: Browser, address: str, tmp_path: Path
) -> None:
    """The policy names the text of the script that is unpacked: with one letter more it isn't run."""
    text = Path(address.removeprefix("file://")).read_text(encoding="utf-8")
    found = re.search(r'<script id="page" type="text/plain">(.*?)</script>', text)
    assert found
    other = gzip.compress(gzip.decompress(base64.b64decode(found[1])) + b";")
    file = tmp_path / "other.html"
    changed = text[: found.start(1)] + base64.b64encode(other).decode() + text[found.end(1) :]
    file.write_text(changed, encoding="utf-8")
    with page.becomes("document.querySelector('script:not([id]):last-child')"):
        page.open(file.as_uri())
    assert page.js("return document.querySelector('.opening') !== null && !globalThis.sigma")
    # A browser tells of it a moment later.
    end = time.monotonic() + PATIENCE
    while not page.complaints():
        assert time.monotonic() < end, "nothing is said against the script"
        page.still()
