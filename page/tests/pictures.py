"""Writes the pictures of docs/use/page.md: `python3 page/tests/pictures.py PAGE FOLDER`."""

from __future__ import annotations

import sys
import time
from pathlib import Path

from conftest import wait_for_model
from drive.browser import Browser
from drive.chromium import Chromium
from waits import ACCEPTED, edited


def _fresh(page: Browser, address: str) -> None:
    page.open("about:blank")
    page.open(address)
    page.js("localStorage.clear(); Storage.prototype.setItem = () => {}")
    page.open("about:blank")
    page.open(address)
    wait_for_model(page)
    time.sleep(0.8)


def take(page: Browser, address: str, folder: Path) -> None:
    """Take each picture."""

    def shot(name: str) -> None:
        time.sleep(1)
        page.shot(str(folder / f"{name}.png"))

    _fresh(page, address)
    with page.becomes("sigma.run.result"):
        page.js("sigma.command('text-pane'); sigma.command('run')")
    page.js("sigma.run.step(40)")
    page.js("sigma.app.pick({ kind: 'event', name: 'SERVE' })")
    shot("page")
    page.js(
        "sigma.command('text-pane'); sigma.app.pick({ kind: 'edge', from: 'ARRIVE', place: 0 })"
    )
    shot("page_edge")
    with page.becomes("sigma.store.verdict.state === 'refused'"):
        page.js("sigma.store.edit(sigma.store.doc.text.replace('QUEUE + 1', 'QEUE + 1'), 'Typing')")
    page.js("sigma.app.show_fault()")
    shot("page_refused")
    _fresh(page, address)
    with edited(page):
        page.js("sigma.store.edit(sigma.store.doc.text.replace('0..500', '0..2'), 'Typing')")
    with page.becomes("document.querySelector('.fault-box button')"):
        page.js("sigma.command('run')")
    page.click(".fault-box button")
    shot("page_fault")
    _fresh(page, address)
    page.click("#tab-experiments")
    with page.becomes("sigma.store.doc.designs.length === 2"):
        page.click(".card.add")
    with edited(page):
        page.js("sigma.store.edit(sigma.store.doc.text.replace('0..2 = 2', '0..3 = 3'), 'Typing')")
    with page.becomes("sigma.experiments.outcomes.length === 2 && !sigma.experiments.busy()"):
        page.js("sigma.command('experiment')")
    page.js("document.getElementById('notes').replaceChildren()")
    shot("page_experiments")
    with page.becomes(f"{ACCEPTED} && sigma.store.shown.name === 'POLLING'"):
        page.js("sigma.open_example('polling')")
    with page.becomes("document.querySelector('.checks .good')"):
        page.js("sigma.command('reduce')")
    shot("page_reduce")
    page.js("sigma.command('examples')")
    time.sleep(6)
    shot("page_gallery")


def main() -> None:
    """Take the pictures of the page that is named."""
    page, folder = Path(sys.argv[1]).resolve(), Path(sys.argv[2])
    browser = Chromium(str(folder))
    try:
        take(browser, page.as_uri(), folder)
    finally:
        browser.quit()


if __name__ == "__main__":
    main()
