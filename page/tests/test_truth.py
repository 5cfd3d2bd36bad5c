"""No result belongs to another text than the one it stands beside, and nothing that one did is lost."""

from __future__ import annotations

import pytest

from conftest import wait_for_model
from drive.browser import Browser
from waits import ACCEPTED, edited

RUN = ".head-tools .primary"
ARRIVE = "QUEUE := QUEUE + 1\ndraw GAP from 0 in 1.."
# The program as it answers on a machine that does much else.
SLOW = """
const { engine } = sigma, call = engine.call.bind(engine);
engine.call = async asked => { await new Promise(done => setTimeout(done, 500)); return call(asked) }"""
WHILE_ASKED = """
const [button, before, after] = values, { store } = sigma;
document.querySelector(button).click();
await new Promise(done => setTimeout(done, 50));
store.edit(store.doc.text.replace(before, after), 'Typing')"""


def field(name: str) -> str:
    """Return how a field of a form is found."""
    return f'[data-field="{name}"]'


def event(name: str) -> str:
    """Return how an event of the graph is found."""
    return f'.stage-pane [data-part="event:{name}"] .body'


def text(page: Browser) -> str:
    """Return the text of the model."""
    return str(page.js("return sigma.store.doc.text"))


def edit(page: Browser, before: str, after: str) -> None:
    """Edit the text as typing would."""
    page.js(
        "sigma.store.edit(sigma.store.doc.text.replace(values[0], values[1]), 'Typing')",
        before,
        after,
    )


def test_run_from_a_field_runs_the_new_model(page: Browser) -> None:
    """Run right after typing in a field, by mouse and by keys."""
    page.click(event("ARRIVE"))
    page.write(field("event:ARRIVE/changes"), ARRIVE + "4")
    with page.becomes(
        "sigma.run.result && sigma.run.result.made.snapshot.text.includes('in 1..4')"
    ):
        page.click(RUN)
    assert not page.js("return document.querySelector('.run-tab .stale')")
    page.write(field("event:ARRIVE/changes"), ARRIVE + "3")
    with page.becomes("sigma.run.result.made.snapshot.text.includes('in 1..3')"):
        page.chord("Control", "Enter")


def test_run_right_after_typing_in_the_text(page: Browser) -> None:
    """Ctrl+Enter while the text is still being checked runs what was typed."""
    page.js("sigma.app.editor.go(sigma.store.doc.text.indexOf('1..6;'))")
    page.chord("Shift", "End")
    page.keys("1..5;")
    with page.becomes("sigma.run.result && sigma.run.result.made.snapshot.text.includes('1..5;')"):
        page.chord("Control", "Enter")


def test_an_experiment_from_a_field_runs_the_new_model(page: Browser) -> None:
    """The mean is that of the new model: with gaps of 1 to 4 the queue grows without end."""
    page.click("#tab-experiments")
    page.js("sigma.app.pick({ kind: 'event', name: 'ARRIVE' })")
    page.write(field("event:ARRIVE/changes"), ARRIVE + "4")
    with page.becomes("sigma.experiments.outcomes.length && !sigma.experiments.busy()"):
        page.js("sigma.command('experiment')")
    mean = page.js(
        "const { items, times } = sigma.experiments.outcomes[0].replicated.report;"
        "return items.QUEUE.area.reduce((sum, area, k) => sum + area / times[k], 0) / times.length"
    )
    assert mean > 10


def test_results_are_stale_after_an_edit(page: Browser) -> None:
    """A run of another model than the text is marked, and is fresh again after Undo."""
    with page.becomes("sigma.run.result"):
        page.click(RUN)
    with page.becomes("document.querySelector('.run-tab .stale')"):
        edit(page, "3..9;", "3..8;")
    with page.becomes("!document.querySelector('.run-tab .stale')"):
        page.js("sigma.store.undo()")


def test_experiments_are_stale_after_an_edit_and_not_after_a_comment(page: Browser) -> None:
    """Comments change no model; another document has no results."""
    page.click("#tab-experiments")
    with page.becomes("sigma.experiments.outcomes.length && !sigma.experiments.busy()"):
        page.js("sigma.command('experiment')")
    with edited(page):
        edit(page, "\nend\n", "\n# a comment\nend\n")
    assert not page.js("return document.querySelector('.experiments-tab .stale')")
    with page.becomes("document.querySelector('.experiments-tab .stale')"):
        edit(page, "3..9;", "3..8;")
    with page.becomes("document.querySelector('.experiments-tab .blank')"):
        page.js("sigma.open_example('clinic')")


def test_a_second_run_leaves_no_chart_and_takes_no_table_of_the_first(page: Browser) -> None:
    """Each figure has one chart, and that of the means a table with a line for each design."""
    page.click("#tab-experiments")
    page.js("sigma.store.set({ settings: { ...sigma.store.doc.settings, runs: '50' } })")
    for designs in (1, 2, 3):
        with page.becomes(
            "sigma.experiments.outcomes.length === values[0] && !sigma.experiments.busy()"
            " && document.querySelector('.interval-chart svg')",
            designs,
        ):
            page.click(RUN)
        # Charts are drawn again when their room changes.
        for width in (1300, 1400):
            with page.becomes("innerWidth === values[0]", width):
                page.size(width, 900)
            page.still()
        figures = page.js(
            "return [...document.querySelectorAll('.results .panel')].map(each =>"
            " [each.querySelector('h3').firstChild.textContent, each.querySelectorAll('.interval-chart').length,"
            " each.querySelectorAll('.interval-chart svg').length, each.querySelectorAll('.table-box tbody tr').length])"
        )
        assert figures[0] == ["QUEUE, time average", 1, 1, designs]
        if designs > 1:
            assert figures[1] == ["Differences", 1, 1, designs - 1]
        with page.becomes("sigma.store.doc.designs.length === values[0]", designs + 1):
            page.click(".card.add")


def test_a_form_shows_a_draft_or_the_model(page: Browser) -> None:
    """What is refused stays in its field with the reason; mended, it is as the model says."""
    page.click(event("LEAVE"))
    with page.becomes("document.querySelector('.field.bad')"):
        page.write(field("event:LEAVE/changes"), "IDLE = IDLE + 1", "Tab")
    with page.becomes("!document.querySelector('.field.bad') && !sigma.drafts.all.length"):
        page.write(field("event:LEAVE/changes"), "IDLE := IDLE + 1", "Tab")
    shown = page.js(f"return document.querySelector('{field('event:LEAVE/changes')}').value")
    assert shown == "IDLE := IDLE + 1"


def test_a_refused_value_is_tried_again_with_its_partner(page: Browser) -> None:
    """A first value outside the range is right once the range is wider."""
    page.js("sigma.app.pick(null)")
    with page.becomes("document.querySelector('.field.bad')"):
        page.write(field("var:SERVICE/initial"), "30", "Tab")
    with page.becomes("sigma.store.doc.text.includes('SERVICE : 3..60 = 30')"):
        page.write(field("var:SERVICE/high"), "60", "Tab")
    page.until("!document.querySelector('.field.bad')")


def test_the_focus_stays(page: Browser) -> None:
    """A rename takes no click and no key from the field that one goes to."""
    page.click(event("ARRIVE"))
    page.write(field("event:ARRIVE/name"), "COME")
    with page.becomes("sigma.store.doc.text.includes('vertex COME')"):
        page.click(field("event:ARRIVE/changes"))
    page.until("document.activeElement.dataset.field === 'event:COME/changes'")
    page.chord("Control", "End")
    page.keys("\nIDLE := IDLE")
    with page.becomes("sigma.store.doc.text.includes('set IDLE := IDLE;')"):
        page.click(field("event:COME/name"))
    with page.becomes("sigma.store.doc.text.includes('vertex ARRIVE')"):
        page.write(field("event:COME/name"), "ARRIVE", "Enter")
    page.until("document.activeElement.dataset.field === 'event:ARRIVE/name'")


def test_a_field_keeps_what_is_typed_while_all_is_drawn_again(page: Browser) -> None:
    """A name that is half typed, a limit beside the charts, and a field whose neighbour goes."""
    page.click("#tab-experiments")
    page.write("[aria-label='Name of the design']", "Two")
    page.js("sigma.store.tell('designs')")
    with page.becomes("sigma.store.doc.designs[0].name === 'Two tellers'"):
        page.keys(" tellers", "Enter")
    page.js("sigma.store.set({ settings: { ...sigma.store.doc.settings, runs: '50' } })")
    with page.becomes("sigma.experiments.outcomes.length && !sigma.experiments.busy()"):
        page.click(RUN)
    with page.becomes(
        "[...document.querySelectorAll('.results th')].some(each => each.textContent === 'at most 2')"
    ):
        page.write("[aria-label=Limit]", "2", "Tab")
    assert page.js("return document.querySelector('[aria-label=Limit]').value") == "2"
    assert page.js("return document.activeElement !== document.body")
    bank = text(page)
    with page.becomes("document.querySelector('.experiments-tab [data-setting=start]')"):
        page.js("sigma.open_example('emergency')")
    page.click(".experiments-tab [data-setting=warmup]")
    with page.becomes("!document.querySelector('.experiments-tab [data-setting=start]')"):
        page.js("sigma.store.edit(values[0], 'Typing')", bank)
    assert page.js("return document.activeElement.dataset.setting") == "warmup"


def test_a_title_keeps_its_blanks_while_it_is_typed(page: Browser) -> None:
    """The text has no blank at the end of a title; the field keeps the one after which more is typed."""
    page.js("sigma.app.pick(null)")
    with page.becomes("sigma.store.doc.text.includes('# shown QUEUE: customers')"):
        page.write('[data-shown="QUEUE/title"]', "customers ")
    # The text is accepted while one types, and the form is drawn again.
    page.until(ACCEPTED)
    with page.becomes("sigma.store.doc.text.includes('# shown QUEUE: customers waiting')"):
        page.keys("waiting")


def test_a_view_keeps_the_run(page: Browser) -> None:
    """How the graph is turned is no part of the model."""
    with page.becomes("sigma.run.result"):
        page.click(RUN)
    page.js("sigma.run.step(5)")
    lie = "!sigma.app.canvas.busy && JSON.stringify(sigma.app.canvas.places)"
    before = page.until(lie)
    with page.becomes(f"![values[0], '{{}}', false].includes({lie})", before):
        page.js("sigma.command('sideways')")
    assert not page.js("return document.querySelector('.run-tab .stale')")
    page.until("document.querySelector('.node.lit')")


@pytest.mark.chromium  # Firefox without a window tells no field that it is left.
def test_settings_are_read_as_people_write_them(page: Browser) -> None:
    """1e6 is a million, and is written so once the field is left."""
    page.click(".run-tab .settings-fold summary")
    page.write('.run-tab [data-setting="events"]', "1e6", "Tab")
    shown = page.js("return document.querySelector('.run-tab [data-setting=events]').value")
    assert shown == "1,000,000"


def test_bad_settings_are_marked(page: Browser) -> None:
    """What is no number is marked, and nothing runs."""
    page.click(".run-tab .settings-fold summary")
    page.write('.run-tab [data-setting="seed"]', "x")
    with page.becomes("document.querySelector('.run-tab [data-setting=seed][aria-invalid]')"):
        page.click(RUN)
    assert not page.js("return sigma.run.result")


def test_undo_past_open_brings_the_file_back(page: Browser) -> None:
    """The name, the settings and what is saved belong to the document."""
    edit(page, "\nend\n", "\n# more\nend\n")
    with page.becomes(f"{ACCEPTED} && sigma.store.doc.file === 'clinic.sigma'"):
        page.js("sigma.open_example('clinic')")
    with page.becomes(f"{ACCEPTED} && sigma.store.doc.file === 'bank.sigma'"):
        page.click('[aria-label^="Undo"]')
    assert page.js("return document.querySelector('.doc-state').textContent") == "Edited"
    wait_for_model(page)


def test_nothing_of_another_model_is_left_over(page: Browser) -> None:
    """New takes the graph, the form, the designs, the settings, the results and what was refused along."""
    with page.becomes("sigma.run.result"):
        page.click(RUN)
    page.click("#tab-experiments")
    with page.becomes("sigma.store.doc.designs.length === 2"):
        page.click(".card.add")
    page.js("sigma.store.set({ settings: { ...sigma.store.doc.settings, until: '77' } })")
    with page.becomes("document.querySelector('.text-state.refused')"):
        edit(page, "QUEUE + 1", "QEUE + 1")
    page.js("sigma.command('new')")
    with page.becomes("sigma.store.doc.text === ''"):
        page.click("dialog .choices button:nth-child(2)")
    page.until("!document.querySelector('.stage-pane [data-part^=\"event:\"]')")
    left = page.js(
        "const seen = css => document.querySelectorAll(css).length;"
        "return [sigma.store.doc.file, sigma.store.doc.designs.length, sigma.store.doc.settings.until,"
        " seen('.design'), seen('.results .panel'), seen('.inspector [data-field]'),"
        " seen('.text-state.refused'), document.querySelector('.doc-title').textContent,"
        " sigma.run.result]"
    )
    assert left == ["", 1, "480", 1, 0, 0, 0, "Untitled", None]
    page.chord("Control", "k")
    assert page.js("return document.querySelector('dialog input').value") == ""


def test_a_refused_file_shows_no_graph_and_no_form_of_the_one_before(page: Browser) -> None:
    """Beside a text that is no model stands no other one."""
    with page.becomes("document.querySelector('.text-state.refused')"):
        page.js(
            "sigma.files.open({ ...sigma.store.doc, text: 'modle X;', saved: 'modle X;' }, 'Open')"
        )
    page.until("!document.querySelector('.stage-pane [data-part^=\"event:\"]')")
    assert not page.js("return document.querySelectorAll('.inspector [data-field]').length")


def test_conflicts_and_the_description_are_of_the_text_or_marked(page: Browser) -> None:
    """From the first key on what is shown is dimmed, until it is that of the new text."""
    for tab in ("conflicts", "describe"):
        with page.becomes(f"document.querySelector('.{tab}-tab :is(.panel, section)')"):
            page.click(f"#tab-{tab}")
        page.until(f"!document.querySelector('.{tab}-tab.is-stale')")
        # In one go, since the answer to the new text comes within a moment.
        is_marked = page.js(
            "sigma.store.edit(sigma.store.doc.text.replace('GAP : 1..6', 'GAP : 1..7'), 'Typing');"
            "return document.querySelector(values[0]).classList.contains('is-stale')",
            f".{tab}-tab",
        )
        assert is_marked
        page.until(f"!document.querySelector('.{tab}-tab.is-stale')")
        with edited(page):
            page.js("sigma.store.undo()")


def test_the_report_marks_what_is_out_of_date(page: Browser) -> None:
    """A run of an older text is printed with the mark that it has on the screen."""
    page.js("window.print = () => { window.printed = true }")
    with page.becomes("sigma.run.result"):
        page.click(RUN)
    with page.becomes("window.printed"):
        page.js("sigma.command('print')")
    assert not page.js("return document.querySelectorAll('#report .stale').length")
    with page.becomes("document.querySelector('.run-tab .stale')"):
        edit(page, "3..9;", "3..8;")
    page.js("window.printed = false")
    with page.becomes("window.printed"):
        page.js("sigma.command('print')")
    assert "Out of date" in page.js("return document.querySelector('#report .stale').textContent")


def test_what_is_typed_while_the_program_is_asked_stays(page: Browser) -> None:
    """What a button writes is made again of the text as it is by then."""
    page.js("sigma.app.pick(null)")
    page.js(SLOW)
    with page.becomes("/^var \\w+ : 0..100 = 0;$/m.test(sigma.store.doc.text)"):
        page.js(WHILE_ASKED, "[data-key=add-var] button", "480", "479")
    assert "479" in text(page) and "480" not in text(page)


def test_a_result_is_taken_into_its_own_model_alone(page: Browser) -> None:
    """A model that is changed while the program is asked stays, and the page says what to do."""
    with page.becomes(f"{ACCEPTED} && sigma.store.shown.name === 'POLLING'"):
        page.js("sigma.open_example('polling')")
    with page.becomes("document.querySelector('.reduce-result .primary')"):
        page.js("sigma.command('reduce')")
    page.js(SLOW)
    with page.becomes(
        "document.querySelector('.note.bad')?.textContent.includes('reduce it again')"
    ):
        page.js(WHILE_ASKED, ".reduce-result .primary", "SEND after 10", "SEND after 11")
    assert "SEND after 11" in text(page) and "vertex ALARM" in text(page)
