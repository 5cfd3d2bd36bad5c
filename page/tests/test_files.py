"""Nothing takes the place of work that isn't saved without asking, and a reload loses nothing."""

from __future__ import annotations

import base64
import gzip
from pathlib import Path

from conftest import wait_for_model
from drive.browser import Browser
from waits import edited, saved

SHOP = "model LINKED;\nvertex A {\n  schedule A after 1;\n}\nend\n"


def linked(address: str, text: str, name: str = "") -> str:
    """Return the address of the page with a model in it."""
    packed = base64.urlsafe_b64encode(gzip.compress(text.encode())).decode().rstrip("=")
    return f"{address}#model={packed}{f'&name={name}' if name else ''}"


def edit(page: Browser) -> None:
    """Change the text, and wait until the browser keeps it."""
    with edited(page):
        page.js("sigma.store.edit(sigma.store.doc.text + '# mine\\n', 'Typing')")
    page.until("(localStorage.getItem('sigma2.doc') || '').includes('# mine')")


def reload(page: Browser, address: str) -> None:
    """Open the page again, as after closing its tab."""
    page.open("about:blank")
    page.open(address)
    wait_for_model(page)


def test_a_link_asks_before_it_replaces_kept_work(page: Browser, address: str) -> None:
    """The work of an earlier visit stays until the person says otherwise."""
    edit(page)
    with page.becomes("document.querySelector('dialog .choices')"):
        reload(page, linked(address, SHOP, "linked.sigma"))
    assert page.js("return sigma.store.doc.text").endswith("# mine\n")
    with page.becomes("!document.querySelector('dialog')"):
        page.click("dialog .choices button:nth-child(3)")
    page.still()
    assert page.js("return sigma.store.doc.text").endswith("# mine\n")
    assert page.js("return location.hash") == ""


def test_a_link_opens_where_nothing_is_lost(page: Browser, address: str) -> None:
    """Its file is named so that Save writes a model, and its address leaves the page."""
    with page.becomes("sigma.store.doc.text.startsWith('model LINKED')"):
        reload(page, linked(address, SHOP, "invoice.bat"))
    assert page.js("return sigma.store.doc.file") == "invoice.sigma"


def test_a_link_that_unpacks_to_too_much_is_refused(page: Browser, address: str) -> None:
    """64 MiB of blanks pack to less than 100 KB."""
    with page.becomes(
        "(document.querySelector('.note.bad')?.textContent ?? '').includes('4,194,304')"
    ):
        reload(page, linked(address, " " * 2**26))


def test_an_example_asks_before_it_replaces_changes(page: Browser) -> None:
    """Stay here leaves the text; Open without saving opens, and Undo brings it back."""
    edit(page)
    with page.becomes("document.querySelector('[data-example=clinic]')"):
        page.js("sigma.command('examples')")
    with page.becomes("document.querySelector('dialog .choices')"):
        page.js("document.querySelector('[data-example=clinic]').click()")
    with page.becomes("sigma.store.doc.file === 'clinic.sigma'"):
        page.click("dialog .choices button:nth-child(2)")
    page.js("sigma.store.undo()")
    assert page.js("return sigma.store.doc.text").endswith("# mine\n")


def test_what_the_browser_kept_is_checked(page: Browser, address: str) -> None:
    """A design that another page spoilt doesn't break the experiments."""
    page.js(
        "const doc = JSON.stringify({ ...sigma.store.doc, designs: [{ id: 1, name: 'Base', text: {} }] });"
        "clearTimeout(0); window.onbeforeunload = null; values[0] = doc;"
        "addEventListener('pagehide', () => localStorage.setItem('sigma2.doc', doc));"
    )
    reload(page, address)
    with page.becomes("document.querySelector('.design')?.offsetParent"):
        page.click("#tab-experiments")
    assert page.js("return document.querySelectorAll('.design').length") == 1


def test_a_reload_keeps_changes_settings_and_refused_drafts(page: Browser, address: str) -> None:
    """What is typed in a field and refused is there again, with its reason."""
    page.click(".run-tab .settings-fold summary")
    page.write('.run-tab [data-setting="until"]', "600", "Tab")
    page.js("sigma.app.pick({ kind: 'event', name: 'LEAVE' })")
    with page.becomes("document.querySelector('.field.bad')"):
        page.write('[data-field="event:LEAVE/changes"]', "IDLE = 1", "Tab")
    assert page.js("return document.querySelector('.doc-state').textContent") != "Saved"
    edit(page)
    reload(page, address)
    assert page.js("return document.querySelector('[data-setting=until]').value") == "600"
    assert page.js("return document.querySelector('.doc-state').classList.contains('changed')")
    page.until("sigma.drafts.refused.length === 1")


def test_save_writes_the_text(page: Browser, downloads: Path) -> None:
    """The saved file is the text, and the head says so."""
    file = downloads / "saved_here.sigma"
    file.unlink(missing_ok=True)
    page.js("sigma.store.set({ file: 'saved_here.sigma' })")
    edit(page)
    with page.becomes("document.querySelector('.doc-state').textContent === 'Saved'"):
        page.chord("Control", "s")
    saved(file, page.js("return sigma.store.doc.text").encode())
