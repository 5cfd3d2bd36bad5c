"""A run of a million events grows while one looks on, and Stop keeps what is done."""

from __future__ import annotations

from drive.browser import Browser
from waits import ACCEPTED

RUN = ".head-tools .primary"
STOP = ".head-tools .stop"
GROWS = "document.querySelector('.run-status').textContent.includes('events so far')"
LONG = """version 2;
model LONG;
var QUEUE : 0..1000000 = 0;
watch QUEUE;
vertex ARRIVE {
  set QUEUE := QUEUE + 1;
  schedule ARRIVE after draw from 0 in 1..8;
  schedule LEAVE after draw from 1 in 3..9;
}
vertex LEAVE {
  set QUEUE := QUEUE - 1;
}
end
"""


def open_long(page: Browser, events: str) -> None:
    """Open the model, with so many events at most."""
    with page.becomes(f"{ACCEPTED} && sigma.store.shown.name === 'LONG'"):
        page.js("sigma.store.edit(values[0], 'Typing')", LONG)
    page.js(
        "const settings = { ...sigma.store.doc.settings, until: '1e12', events: values[0] };"
        "sigma.store.set({ settings })",
        events,
    )


def test_a_million_events_by_pieces(page: Browser) -> None:
    """The course grows; at the end it has all events, and later ones can be played."""
    open_long(page, "1M")
    page.js(
        f"const see = () => {{ if ({GROWS}) window.has_grown = true }};"
        "new MutationObserver(see).observe(document.querySelector('.run-tab'),"
        " { childList: true, characterData: true, subtree: true })"
    )
    with page.becomes("sigma.run.result && !sigma.run.running"):
        page.click(RUN)
    assert page.js("return window.has_grown")
    told = page.js("return document.querySelector('.run-status').textContent")
    assert "Broke off after 1,000,000 events" in told
    course = page.js("const { course } = sigma.run.result.value; return [course.last, course.end]")
    assert course[0] == "budget 1000000" and course[1] > 2_000_000
    right = "document.querySelector(values[0]).getBoundingClientRect().right"
    assert page.js(f"return {right}", ".speed select") <= page.js(f"return {right}", ".dock")
    with page.becomes("sigma.run.result.value.first === 20000"):
        page.click(".transport-row .small")


def test_stop_keeps_what_is_done(page: Browser) -> None:
    """What is shown is whole up to where the run was stopped, and says so."""
    open_long(page, "1e9")
    with page.becomes(GROWS):
        page.click(RUN)
    with page.becomes("sigma.run.result && !sigma.run.running"):
        page.click(STOP)
    told = page.js("return document.querySelector('.run-status').textContent")
    events = page.js("return sigma.run.result.value.stopped")
    assert events >= 100_000 and f"after {events:,} events" in told
    assert page.js("return document.querySelectorAll('.course-row .plot').length") > 0


def test_a_result_stays_with_its_document(page: Browser) -> None:
    """A run that ends after another model was opened isn't shown beside that one."""
    open_long(page, "1M")
    with page.becomes(f"{ACCEPTED} && sigma.store.shown.name === 'CLINIC'"):
        # In one go, so that the run can't end before.
        goes_on = page.js(
            "document.querySelector(values[0]).click();"
            f"while (!({GROWS}) && !sigma.run.result) await new Promise(done => setTimeout(done));"
            "sigma.open_example('clinic'); return sigma.run.running",
            RUN,
        )
    assert goes_on
    page.until("!sigma.run.running")
    assert page.js("return sigma.run.result") is None
    with page.becomes("sigma.run.result"):
        page.js("sigma.store.undo()")
