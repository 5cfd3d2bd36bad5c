"""What a planner does in the page: forms, undo, faults, experiments, tables, parts that come again."""

from __future__ import annotations

import subprocess
from pathlib import Path

from drive.browser import Browser
from test_truth import event, field
from waits import ACCEPTED, edited, saved

RUN = ".head-tools .primary"


def test_undo_in_a_field_takes_back_what_was_typed(page: Browser) -> None:
    """Ctrl+Z takes the typed letters first, and no step of the document."""
    page.click(event("SERVE"))
    before = page.js("return sigma.store.doc.text")
    page.click(field("event:SERVE/changes"))
    page.chord("Control", "End")
    page.keys(" + 7")
    with page.becomes(
        "!document.querySelector('[data-field=\"event:SERVE/changes\"]').value.endsWith('+ 7')"
    ):
        page.chord("Control", "z")
    assert page.js("return sigma.store.doc.text") == before
    assert page.js("return sigma.store.redo_label") is None


def test_values_and_charts_tell_of_one_moment(page: Browser) -> None:
    """After the first ARRIVE one waits and two are idle, in the table and beside the charts."""
    with page.becomes("sigma.run.result"):
        page.click(RUN)
    with page.becomes("document.querySelector('.event-now h3')?.textContent.startsWith('ARRIVE')"):
        page.js("sigma.run.step(2)")
    table, chart = page.js(
        "const first = (css, of) => [...document.querySelectorAll(css)].slice(0, 2).map(each => of(each).textContent);"
        "return [first('.moment .values:not(.pending) tr', row => row.querySelector('td')),"
        " first('.course-row .now', each => each)]"
    )
    assert table == chart == ["1", "2"]


def test_a_fault_names_event_change_values_and_seed(page: Browser) -> None:
    """A queue of at most 2 faults at ARRIVE, which stores 3."""
    with edited(page):
        page.js("sigma.store.edit(sigma.store.doc.text.replace('0..500', '0..2'), 'Typing')")
    with page.becomes("document.querySelector('.fault-box button')"):
        page.click(RUN)
    told = page.js("return document.querySelector('.fault-box').textContent")
    for word in ("ARRIVE", "QUEUE := QUEUE + 1", "QUEUE = 2 (0..2)", "seed 7"):
        assert word in told
    page.click(".fault-box button")
    assert page.js("return sigma.app.picked.name") == "ARRIVE"


def test_a_run_that_breaks_off_says_why(page: Browser) -> None:
    """Two events that schedule each other without a delay: no time passes, and the tab says so."""
    with page.becomes(f"{ACCEPTED} && sigma.store.shown.name === 'LOOP'"):
        page.js(
            "sigma.store.edit('model LOOP;\\nvertex A {\\n  schedule B;\\n}\\n"
            "vertex B {\\n  schedule A;\\n}\\nend\\n', 'Typing')"
        )
    with page.becomes("document.querySelector('.broke-off')"):
        page.click(RUN)
    told, height = page.js(
        "const its = document.querySelector('.broke-off');"
        "return [its.textContent, its.getBoundingClientRect().height]"
    )
    assert "No time passed: events schedule each other without a delay." in told and height > 10
    with edited(page):
        page.js("sigma.store.undo()")
    with page.becomes("sigma.run.result?.value.course.end === 480"):
        page.click(RUN)
    assert page.js("return document.querySelector('.broke-off')") is None


def test_a_model_with_a_starting_value_runs_at_once(page: Browser) -> None:
    """The first value of the parameter is taken where none is typed."""
    with page.becomes(f"{ACCEPTED} && sigma.store.shown.name === 'EMERGENCY'"):
        page.js(
            "sigma.open_example('emergency'); sigma.store.set({ settings: { ...sigma.store.doc.settings, start: '' } })"
        )
    placeholder = page.until("document.querySelector('.run-tab [data-setting=start]')?.placeholder")
    assert placeholder == "3"
    with page.becomes("sigma.run.result"):
        page.click(RUN)


def test_the_history_is_saved_as_the_program_writes_it(
    page: Browser, downloads: Path, root: Path, program: str
) -> None:
    """The file has the bytes that the native program writes for the line beside it."""
    file = downloads / "bank_run.txt"
    file.unlink(missing_ok=True)
    with page.becomes("sigma.run.result"):
        page.click(RUN)
    page.click(".run-tab .settings-fold summary")
    page.click(".run-tab [data-key=history]")
    words = ["run", "--until", "480", "--seed", "7", "--events", "100000"]
    model = (root / "examples" / "bank.sigma").read_bytes()
    done = subprocess.run([program, *words], input=model, capture_output=True, check=True)
    saved(file, done.stdout)


def test_play_from_a_later_event(page: Browser) -> None:
    """Event 101 has the values of the same event of the whole run."""
    with page.becomes("sigma.run.result"):
        page.click(RUN)
    whole = page.js("return sigma.run.result.value.frames.values[100]")
    page.js("sigma.store.set({ settings: { ...sigma.store.doc.settings, from: '100' } })")
    with page.becomes("sigma.run.result.value.first === 100"):
        page.click(RUN)
    assert page.js("return sigma.run.result.value.frames.values[0]") == whole


def test_a_name_that_is_nearly_right_is_mended_by_a_click(page: Browser) -> None:
    """The form says which name is meant, and writes it."""
    page.click(event("LEAVE"))
    with page.becomes("document.querySelector('.problem')?.textContent.includes('is IDLE meant?')"):
        page.write(field("event:LEAVE/changes"), "IDEL := IDEL + 1", "Tab")
    with page.becomes("!document.querySelector('.field.bad')"):
        page.click(".problem .link")
    assert "IDEL" not in page.js("return sigma.store.doc.text")


def test_a_name_is_declared_from_the_form(page: Browser) -> None:
    """The variable and the change come in one step."""
    page.click(event("LEAVE"))
    with page.becomes("document.querySelector('.problem .link')"):
        page.write(
            field("event:LEAVE/changes"),
            "IDLE := IDLE + 1\nSERVED_TODAY := SERVED_TODAY + 1",
            "Tab",
        )
    with page.becomes("sigma.store.doc.text.includes('var SERVED_TODAY')"):
        page.click(".problem .link")
    page.js("sigma.store.undo()")
    assert "SERVED_TODAY" not in page.js("return sigma.store.doc.text")


def test_a_table_of_a_distribution_becomes_a_delay(page: Browser) -> None:
    """An exponential delay by the form of an edge."""
    with page.becomes("document.querySelector('[aria-label=\"A drawn delay\"]')"):
        page.js("sigma.app.pick({ kind: 'edge', from: 'ARRIVE', place: 0 })")
    page.js(
        "const select = document.querySelector('[aria-label=\"A drawn delay\"]');"
        "select.value = 'new'; select.onchange({ target: select });"
    )
    page.write("[data-number=mean]", "4")
    with page.becomes("/schedule ARRIVE after draw from 2 by TIMES;/.test(sigma.store.doc.text)"):
        page.click("dialog .choices .primary")
    page.until(ACCEPTED)


def test_variables_are_searched(page: Browser) -> None:
    """Of many variables those are shown whose names have the letters; a jump to another one finds it all the same."""
    names = "[...document.querySelectorAll('.var-row[role=group]')].map(each => each.getAttribute('aria-label'))"
    assert page.js("return document.querySelector('.search-vars') === null")
    declared = "\n".join(f"var EXTRA{k} : 0..9 = 0;" for k in range(20))
    with edited(page):
        page.js(
            "sigma.store.edit(sigma.store.doc.text.replace('watch ', values[0] + '\\nwatch '), 'Typing')",
            declared,
        )
    page.click(".search-vars")
    page.keys("extra1")
    assert page.until(f"{names}.length === 11 && {names}") == [
        f"EXTRA{k}" for k in (1, *range(10, 20))
    ]
    with page.becomes(f"{names}.length === 0 && document.activeElement.matches('.search-vars')"):
        page.keys("x")
    with page.becomes(f"{names}.length === 24"):
        page.js("sigma.app.go_to_field('var:QUEUE', 'high')")
    assert page.js("return document.activeElement.dataset.field") == "var:QUEUE/high"


def test_templates_are_put_in(page: Browser) -> None:
    """A breakdown beside the bank, in one step of Undo."""
    page.js("sigma.app.pick(null)")
    with page.becomes("sigma.store.doc.text.includes('vertex FAIL')"):
        page.click("[data-template=breakdown]")
    page.until(ACCEPTED)
    page.js("sigma.store.undo()")
    assert "vertex FAIL" not in page.js("return sigma.store.doc.text")


def test_a_queue_with_servers_is_a_first_model_that_runs(page: Browser) -> None:
    """An empty page offers it; what it counts is watched, so that its run shows something."""
    with page.becomes("document.querySelector('.welcome')?.offsetParent"):
        page.js("sigma.command('new')")
    with page.becomes("sigma.store.doc.text.includes('vertex SERVE')"):
        page.click(".welcome .choices button:nth-child(2)")
    page.until(ACCEPTED)
    with page.becomes(
        "sigma.run.result && document.querySelectorAll('.course-row .now').length === 2"
    ):
        page.click(RUN)
    assert page.js("return sigma.store.shown.watch") == ["QUEUE", "IDLE"]


def test_the_run_of_the_head_does_what_reduce_is_for(page: Browser) -> None:
    """It says so, and stays in the tab, which tells what it does before there is a result."""
    with page.becomes(f"{ACCEPTED} && sigma.store.shown.name === 'POLLING'"):
        page.js("sigma.open_example('polling')")
    with page.becomes("document.querySelector('.reduce-tab .blank').offsetParent"):
        page.click("#tab-reduce")
    assert page.js(f"return document.querySelector('{RUN}').textContent") == "Reduce"
    with page.becomes("document.querySelector('.checks .good')?.textContent.includes('sound')"):
        page.click(RUN)
    assert page.js("return [sigma.app.tab, sigma.run.result]") == ["reduce", None]
    assert not page.js("return document.querySelector('.reduce-tab .blank').offsetParent")
    page.until(f"document.querySelector('{RUN}').textContent === 'Reduce again'")


def test_designs_are_compared_on_the_same_seeds(page: Browser) -> None:
    """Three tellers in place of two: the difference and its sentence are shown."""
    page.click("#tab-experiments")
    with page.becomes("sigma.store.doc.designs.length === 2"):
        page.click(".card.add")
    page.js("sigma.store.set({ settings: { ...sigma.store.doc.settings, runs: '200' } })")
    with edited(page):
        page.js("sigma.store.edit(sigma.store.doc.text.replace('0..2 = 2', '0..3 = 3'), 'Typing')")
    with page.becomes("document.querySelector('.verdict')"):
        page.click(RUN)
    assert "QUEUE is lower in “Design 2” than in “Base”" in page.js(
        "return document.querySelector('.verdict').textContent"
    )
    seeds = page.js(
        "return sigma.experiments.outcomes.map(each => each.replicated.report.seeds.join())"
    )
    assert seeds[0] == seeds[1]


def test_reduce_explains_and_takes(page: Browser) -> None:
    """The certificate is sound, the smaller model is in place, and Undo brings the other back."""
    with page.becomes(f"{ACCEPTED} && sigma.store.shown.name === 'POLLING'"):
        page.js("sigma.open_example('polling')")
    with page.becomes("document.querySelector('.checks .good')?.textContent.includes('sound')"):
        page.js("sigma.command('reduce')")
    with edited(page, "Take the result"):
        page.click(".reduce-result .primary")
    # Comments of what stays stay, and what is in place isn't called out of date.
    text = page.js("return sigma.store.doc.text")
    assert text.startswith("# ") and "vertex ALARM" not in text
    page.until("document.querySelector('.reduce-result .primary').textContent.includes('in place')")
    assert not page.js("return document.querySelector('.reduce-tab .stale')")


def test_conflicts_say_how_often_they_met(page: Browser) -> None:
    """Each pair has a number of ticks."""
    with page.becomes("document.querySelector('.conflicts-tab td:last-child')"):
        page.click("#tab-conflicts")
    told = page.js(
        "return [...document.querySelectorAll('.conflicts-tab .panel:first-child tbody td:last-child')].map(each => each.textContent)"
    )
    assert told and all(each == "never" or each.endswith(("tick", "ticks")) for each in told)


def test_each_control_has_a_name(page: Browser) -> None:
    """For screen readers, in each tab."""
    nameless = """return [...document.querySelectorAll('button, input, select, textarea')]
      .filter(each => each.offsetParent && !each.closest('.CodeMirror') && !(each.getAttribute('aria-label')
        || each.textContent.trim() || each.closest('label')?.textContent.trim() || each.title))
      .map(each => each.outerHTML.slice(0, 90))"""
    for tab in ("run", "experiments", "reduce", "conflicts", "describe", "console"):
        page.click(f"#tab-{tab}")
        page.still()
        assert page.js(nameless) == []
