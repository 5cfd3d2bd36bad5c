"""Waiting for what an edit or a save does, however long the page takes to begin with it."""

from __future__ import annotations

import time
from collections.abc import Iterator
from contextlib import contextmanager
from pathlib import Path

from drive.browser import PATIENCE, Browser

ACCEPTED = "sigma.store.verdict.state === 'accepted'"


@contextmanager
def edited(page: Browser, label: str = "") -> Iterator[None]:
    """Wait until what is done inside has changed the text and the program accepts it; `label` begins what Undo calls it."""
    revision = page.js("return sigma.store.revision")
    yield
    page.until(
        f"sigma.store.revision > values[0] && {ACCEPTED}"
        " && (sigma.store.undo_label ?? '').startsWith(values[1])",
        revision,
        label,
    )


def saved(file: Path, wanted: bytes) -> None:
    """Wait until the browser has saved these bytes as a file that wasn't there before."""
    end = time.monotonic() + PATIENCE
    while not (file.is_file() and file.read_bytes() == wanted):
        assert time.monotonic() < end, f"{file} isn't as it was to be saved"
        time.sleep(0.1)
