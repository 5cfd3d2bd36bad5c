"""Versions that one goes back to, clock times, and what items are called: all of it belongs to the document."""

from __future__ import annotations

from conftest import wait_for_model
from drive.browser import Browser
from test_truth import edit, text
from waits import ACCEPTED, edited

RUN = ".head-tools .primary"


def test_a_version_is_kept_and_one_goes_back_to_it(page: Browser, address: str) -> None:
    """By its name, over a reload; Undo takes the way back too."""
    page.js("sigma.command('versions')")
    with page.becomes(
        "document.querySelector('dialog .versions b')?.textContent === 'two tellers'"
    ):
        page.write("[aria-label='Name of this version']", "two tellers", "Enter")
    page.keys("Escape")
    with edited(page):
        edit(page, "0..2 = 2", "0..3 = 3")
    page.until("(localStorage.getItem('sigma2.doc') || '').includes('0..3 = 3')")
    page.open("about:blank")
    page.open(address)
    wait_for_model(page)
    with page.becomes("document.querySelector('dialog .versions small')"):
        page.js("sigma.command('versions')")
    told = page.js("return document.querySelector('dialog .versions small').textContent")
    assert "2 lines other than now" in told
    with page.becomes("sigma.store.doc.text.includes('0..2 = 2')"):
        page.click("dialog .versions button")
    page.until(ACCEPTED)
    page.js("sigma.store.undo()")
    assert "0..3 = 3" in text(page)


def test_what_is_saved_stays_so_over_undo(page: Browser) -> None:
    """After Save and Undo the file has another text than the page, and the head says so."""
    edit(page, "\nend\n", "\n# more\nend\n")
    with page.becomes("document.querySelector('.doc-state').textContent === 'Saved'"):
        page.chord("Control", "s")
    with page.becomes("document.querySelector('.doc-state').textContent === 'Edited'"):
        page.click('[aria-label^="Undo"]')
    page.until(ACCEPTED)


def test_times_are_those_of_a_clock(page: Browser) -> None:
    """A tick is a minute from 9:00 on: the bank closes at 17:00. The run stays fresh, and the file has it."""
    with page.becomes("sigma.run.result"):
        page.click(RUN)
    page.click(".run-tab .settings-fold summary")
    page.js("document.querySelector('[data-setting=unit]').focus()")
    with page.becomes("sigma.store.doc.text.includes('# tick minute')"):
        page.keys("Down", "Down")
    with page.becomes("document.activeElement.value === '9:'"):
        page.keys("Tab", "9:")
    # The unit's text is accepted while one types, and the form is drawn again.
    page.until(ACCEPTED)
    with page.becomes("sigma.store.doc.text.includes('# tick minute from 9:00')"):
        page.keys("00", "Tab")
    page.until("document.querySelector('.run-status').textContent.includes('17:')")
    page.until("document.querySelector('.axis-title')?.textContent === 'clock'")
    page.until(ACCEPTED)
    assert not page.js("return document.querySelector('.run-tab .stale')")


def test_items_are_called_as_the_planner_calls_them(page: Browser) -> None:
    """A title and a unit, beside the charts and over the results; they stand in the text."""
    page.js("sigma.app.pick(null)")
    page.write('[data-shown="QUEUE/title"]', "customers waiting")
    with page.becomes(
        "sigma.store.doc.text.includes('# shown QUEUE: customers waiting [customers]')"
    ):
        page.write('[data-shown="QUEUE/unit"]', "customers")
    with page.becomes(
        "document.querySelector('.course-name')?.textContent.includes('waiting (QUEUE)')"
    ):
        page.click(RUN)
    page.click("#tab-experiments")
    page.js("sigma.store.set({ settings: { ...sigma.store.doc.settings, runs: '50' } })")
    with page.becomes("sigma.experiments.outcomes.length && !sigma.experiments.busy()"):
        page.click(RUN)
    head = page.until("document.querySelector('.results .panel h3')?.textContent")
    assert "customers waiting (QUEUE), time average, in customers" in str(head)
