"""Names are offered while one types, and what is likely a slip is listed and leads to its place."""

from __future__ import annotations

from drive.browser import Browser
from test_truth import edit, event, field, text
from waits import ACCEPTED, edited

CHANGES = field("event:LEAVE/changes")
OFFERS = "[...document.querySelectorAll('.offers:not([hidden]) b')].map(each => each.textContent)"


def open_example(page: Browser, name: str) -> None:
    """Open an example, and wait until it is accepted."""
    with page.becomes(f"{ACCEPTED} && sigma.store.shown.name === '{name.upper()}'"):
        page.js("sigma.open_example(values[0])", name)


def test_names_are_offered_in_a_form(page: Browser) -> None:
    """Enter takes the name, and the next Enter is a new line; Esc leaves what was typed."""
    page.click(event("LEAVE"))
    page.click(CHANGES)
    page.chord("Control", "End")
    with page.becomes(f"{OFFERS}.join() === 'QUEUE'"):
        page.keys("\nQU")
    with page.becomes(f"{OFFERS}.join() === 'IDLE'"):
        page.keys("Enter", " := ID")
    with page.becomes(f"!{OFFERS}.length"):
        page.keys("Escape", "LE")
    wanted = "IDLE := IDLE + 1\nQUEUE := IDLE"
    page.until(f"document.querySelector('{CHANGES}').value === values[0]", wanted)
    with page.becomes("sigma.store.doc.text.includes('set QUEUE := IDLE;')"):
        page.keys("Tab")


def test_names_are_offered_in_the_text(page: Browser) -> None:
    """After `schedule` events are offered, and Enter takes one."""
    page.js("sigma.app.editor.go(sigma.store.doc.text.indexOf('  cancel all ARRIVE'))")
    with page.becomes(
        "document.querySelector('.CodeMirror-hint-active b')?.textContent === 'LEAVE'"
    ):
        page.keys("  schedule LE")
    with page.becomes("sigma.store.doc.text.includes('  schedule LEAVE;')"):
        page.keys("Enter", ";\n")
    page.until(ACCEPTED)


def test_what_is_likely_a_slip_leads_to_its_place(page: Browser) -> None:
    """An event to which nothing leads, and an edge that is never taken."""
    with page.becomes("document.querySelector('#tab-problems .badge')?.textContent === '3'"):
        open_example(page, "polling")
    page.click("#tab-problems")
    page.click(".findings li:nth-child(1) .finding")
    assert page.js("return sigma.app.picked.name") == "ALARM"
    page.click(".findings li:nth-child(2) .finding")
    assert page.js("return sigma.app.picked") == {"kind": "edge", "from": "SEND", "place": 1}


def test_findings_are_of_the_text_as_it_is(page: Browser) -> None:
    """None of another text is shown: not while it is looked at, and not after another one is opened."""
    with page.becomes("document.querySelector('#tab-problems .badge')"):
        open_example(page, "polling")
    page.click("#tab-problems")
    with page.becomes("!document.querySelector('#tab-problems .badge')"):
        edit(page, "schedule SEND after 10", "schedule SEND after 11")
    page.until("document.querySelectorAll('.finding').length === 3")
    with page.becomes(
        "document.querySelector('.problems-tab .blank h3')?.textContent === 'Nothing found'"
    ):
        page.js("sigma.open_example('bank')")


def test_a_refusal_is_a_problem_with_a_button_that_mends_it(page: Browser) -> None:
    """The place, the sentence, and one click; Run says the same sentence."""
    page.click("#tab-problems")
    with page.becomes(
        "document.querySelector('.finding')?.textContent.includes('is QUEUE meant?')"
    ):
        edit(page, "QUEUE := QUEUE + 1", "QEUE := QUEUE + 1")
    with page.becomes(
        "document.querySelector('.note.bad')?.textContent.includes('is QUEUE meant?')"
    ):
        page.js("sigma.command('run')")
    page.click("#tab-problems")
    with edited(page):
        page.click(".findings .small")
    assert "QEUE" not in text(page)


def test_a_button_mends_the_text_that_it_was_offered_for(page: Browser) -> None:
    """Pressed while another text is looked at already, it spoils nothing."""
    with page.becomes("document.querySelector('.text-state .small')"):
        edit(page, "QUEUE := QUEUE + 1", "QEUE := QUEUE + 1")
    before = text(page)
    # In one go, before the program answers.
    page.js(
        "sigma.store.edit('# more\\n' + sigma.store.doc.text, 'Typing');"
        "document.querySelector('.text-state .small').click()"
    )
    assert text(page) == "# more\n" + before
    page.until("sigma.store.verdict.state === 'refused'")
    with edited(page):
        page.click(".text-state .small")
    assert "QEUE" not in text(page) and text(page).startswith("# more\n")


def test_a_refused_change_is_a_problem_that_leads_to_its_field(page: Browser) -> None:
    """From another form, the cursor is put into the field."""
    page.click(event("LEAVE"))
    with page.becomes("document.querySelector('.field.bad')"):
        page.write(CHANGES, "IDLE = 1", "Tab")
    page.click(event("OPEN"))
    page.click("#tab-problems")
    with page.becomes("document.activeElement.dataset.field === 'event:LEAVE/changes'"):
        page.click(".finding")
