"""A run is stopped by a condition: the step with which it begins to hold is shown."""

from __future__ import annotations

from drive.browser import Browser
from test_long_runs import open_long
from test_truth import RUN

TOLD = "document.querySelector('.stop-fold [data-key=told]').textContent"
VALUES = "Object.fromEntries([...document.querySelectorAll('.values:not(.pending) tr')].map(row => [...row.children].map(each => each.textContent)))"
STEP = "sigma.run.result.value.first + Number(document.querySelector('.transport input[type=range]').value)"


def ask(page: Browser, what: str, how: str = "", than: str = "") -> None:
    """Fill in the form of the condition."""
    page.click(".stop-fold summary")
    choose = (
        "const select = document.querySelector(values[0]); select.value = values[1];"
        "select.dispatchEvent(new Event('change'))"
    )
    page.js(choose, "[data-stop=what]", what)
    if how:
        page.js(choose, "[data-stop=how]", how)
        page.write("[data-stop=than]", than)


def test_the_first_and_the_next_time_of_a_value(page: Browser) -> None:
    """The table shows the value, and the step before doesn't have it yet."""
    with page.becomes("sigma.run.result && document.querySelector('.stop-fold')"):
        page.click(RUN)
    ask(page, "cell:QUEUE", ">=", "3")
    with page.becomes(f"{TOLD}.includes('first with event')"):
        page.click("[data-stop=first]")
    told = page.js(f"return {TOLD}")
    first = int(page.js(f"return {STEP}"))
    assert f"QUEUE >= 3 first with event {first}," in told
    assert page.js(f"return {VALUES}")["QUEUE"] == "3"
    page.js("sigma.run.step(-1)")
    assert page.js(f"return {VALUES}")["QUEUE"] == "2"
    page.js("sigma.run.step(1)")
    with page.becomes(f"{TOLD}.includes('again with event')"):
        page.click("[data-stop=next]")
    assert int(page.js(f"return {STEP}")) > first
    assert page.js(f"return {VALUES}")["QUEUE"] == "3"


def test_an_event_and_what_never_comes(page: Browser) -> None:
    """CLOSE occurs at 480; a queue of 400 is never seen. What isn't a number is said at its field."""
    with page.becomes("sigma.run.result && document.querySelector('.stop-fold')"):
        page.click(RUN)
    ask(page, "event:CLOSE")
    with page.becomes(f"{TOLD}.includes('CLOSE occurs first with event')"):
        page.click("[data-stop=first]")
    shown = page.js("return document.querySelector('.event-now h3').textContent")
    assert shown == "CLOSE at 480"
    page.click(".stop-fold summary")
    ask(page, "cell:QUEUE", ">", "400")
    with page.becomes(f"{TOLD} === 'QUEUE > 400: never, up to the end of the run.'"):
        page.keys("Enter")
    with page.becomes(
        "document.querySelector('.stop-fold .problem')?.textContent.includes('whole number')"
    ):
        page.write("[data-stop=than]", "many", "Enter")
    assert page.js("return document.activeElement.dataset.stop") == "than"


def test_play_pauses_there(page: Browser) -> None:
    """Play at a thousand events a second stops at the first step with a queue of 3."""
    with page.becomes("sigma.run.result && document.querySelector('.stop-fold')"):
        page.click(RUN)
    ask(page, "cell:QUEUE", "=", "3")
    page.click("[data-stop=pauses]")
    page.js(
        "const speed = document.querySelector('[aria-label=Speed]'); speed.value = '1000';"
        "speed.dispatchEvent(new Event('change'))"
    )
    with page.becomes(f"({VALUES}).QUEUE === '3'"):
        page.chord("F9")
    page.until("document.querySelector('.play').getAttribute('aria-label') === 'Play'")
    step = page.js(f"return {STEP}")
    with page.becomes(f"{TOLD}.includes('first with event ' + values[0] + ',')", step):
        page.click("[data-stop=first]")


def test_a_step_beyond_those_that_are_played(page: Browser) -> None:
    """Of a long run the events around the one that is found are played."""
    open_long(page, "200,000")
    with page.becomes("sigma.run.result && !sigma.run.running"):
        page.click(RUN)
    # A late time, which the program names.
    page.until("document.querySelector('.stop-fold')")
    most = page.js(
        "const { cells } = sigma.run.result.value.course;"
        "return cells.find(each => each.name === 'QUEUE').max"
    )
    ask(page, "cell:QUEUE", "=", str(most))
    with page.becomes(f"{TOLD}.includes('first with event')"):
        page.click("[data-stop=first]")
    assert page.js(f"return {VALUES}")["QUEUE"] == str(most)
    number = page.js(f"return Number({TOLD}.match(/event ([\\d,]+)/)[1].replace(/,/g, ''))")
    assert number == page.js(f"return {STEP}")
