"""Two models side by side: the program's word, where the histories part, and what it is about."""

from __future__ import annotations

from pathlib import Path

from drive.browser import Browser
from test_truth import edit
from waits import ACCEPTED, edited

RUN = ".head-tools .primary"
OTHER = "[aria-label='The other model']"
RESULT = "sigma.compare.result?.value"
ROWS = "[...document.querySelectorAll('.parting tbody tr')]"


def keep_and_narrow(page: Browser) -> None:
    """Keep the bank as a version, and let the queue have five places: it faults in run 5."""
    page.js("sigma.store.keep_version('as it was')")
    with edited(page):
        edit(page, "QUEUE : 0..500", "QUEUE : 0..5")
    page.click("#tab-compare")
    page.js("document.querySelector(values[0]).focus()", OTHER)
    with page.becomes(f"document.querySelector(values[0]).value.startsWith('version:')", OTHER):
        page.keys("“as")


def test_a_run_shows_where_two_models_part(page: Browser) -> None:
    """Both histories stand side by side, and the first line that differs is marked."""
    keep_and_narrow(page)
    with page.becomes(f"{RESULT}?.verdict.how === 'run'"):
        page.click(RUN)
    verdict = page.js(f"return {RESULT}.verdict")
    told = page.js("return document.querySelector('.word').textContent")
    assert f"run {verdict['run']} shows it" in told and f"seed {verdict['seed']}" in told
    rows = page.js(
        f"return {ROWS}.map(row => [row.className, ...[...row.children].map(each => each.textContent)])"
    )
    [place] = [k for k, row in enumerate(rows) if row[0] == "they-part"]
    assert rows[place][1] == f"{verdict['line']} they part"
    assert rows[place][2:] == [verdict["lines"]["first"], verdict["lines"]["second"]]
    assert place == 8 and all(row[2] == row[3] for row in rows[:place])
    assert (
        page.js("return document.querySelector('.they-part').getBoundingClientRect().height") > 10
    )
    with page.becomes("sigma.run.result && sigma.app.tab === 'run'"):
        page.click(".word button")
    assert page.js("return sigma.run.result.made.settings.seed") == verdict["seed"]
    assert page.js("return sigma.run.result.value.course.last") == verdict["lines"]["first"]


def test_a_comparison_is_of_both_texts(page: Browser) -> None:
    """It is out of date after an edit, another choice or other settings, and fresh again after Undo."""
    keep_and_narrow(page)
    with page.becomes(RESULT):
        page.click(RUN)
    stale = "document.querySelector('.compare-tab .stale')"
    assert page.js(f"return {stale}") is None
    with page.becomes(f"{stale}?.textContent.includes('the model has changed')"):
        edit(page, "3..9;", "3..8;")
    with page.becomes(f"{ACCEPTED} && !{stale}"):
        page.js("sigma.store.undo()")
    with page.becomes(f"{stale}?.textContent.includes('the other model has changed')"):
        page.js("sigma.compare.choose('example:clinic')")
    with page.becomes(f"{RESULT}.verdict.how === 'declared' && !{stale}"):
        page.click(RUN)
    assert "watch QUEUE, IDLE, CLOSE;" in page.js(
        "return document.querySelector('.parting').textContent"
    )
    with page.becomes(f"{stale}?.textContent.includes('the settings have changed')"):
        page.write(".compare-tab [data-setting=compared]", "30")
    with page.becomes("document.querySelector('.compare-tab .blank')"):
        page.js("sigma.open_example('clinic')")


def test_of_equal_texts_no_more_is_said_than_the_program_says(page: Browser) -> None:
    """The words are those of its answer, whichever it gives; more runs are asked for by a button."""
    page.click("#tab-compare")
    page.js("sigma.compare.choose('example:bank')")
    with page.becomes(RESULT):
        page.click(RUN)
    word = page.js(f"return {RESULT}.verdict.word")
    title = page.js("return document.querySelector('.word h3').textContent")
    assert (word, title) in (("same", "They mean the same"), ("unknown", "No difference was found"))
    assert page.js("return document.querySelector('.exact pre').textContent") == f"{word}\n"
    if word == "unknown":
        with page.becomes("sigma.compare.result.made.settings.runs === 200"):
            page.click(".word button")


def test_the_model_before_a_reduction_is_at_hand(page: Browser) -> None:
    """After the result was taken, the model from before is one choice away; no run differs."""
    with page.becomes(f"{ACCEPTED} && sigma.store.shown.name === 'POLLING'"):
        page.js("sigma.open_example('polling')")
    with page.becomes("document.querySelector('.checks .good')"):
        page.js("sigma.command('reduce')")
    with page.becomes("sigma.store.verdict.state === 'accepted' && sigma.store.changed"):
        page.click(".steps .primary")
    page.click("#tab-compare")
    page.js("sigma.compare.choose('before')")
    with page.becomes(RESULT):
        page.click(RUN)
    assert page.js(f"return {RESULT}.verdict.word") in ("same", "unknown")
    assert page.js(f"return {RESULT}.second.vertices.length > {RESULT}.first.vertices.length")


def test_another_model_that_is_refused_is_said(page: Browser, root: Path) -> None:
    """A file is read without being opened; what is wrong in it is said, and no result is shown."""
    page.click("#tab-compare")
    bank = (
        (root / "examples" / "bank.sigma")
        .read_text(encoding="utf-8")
        .replace("QUEUE + 1", "QEUE + 1")
    )
    page.js(
        "const click = HTMLInputElement.prototype.click;"
        "HTMLInputElement.prototype.click = function () {"
        " const data = new DataTransfer(); data.items.add(new File([values[0]], 'theirs.sigma'));"
        " this.files = data.files; this.dispatchEvent(new Event('change'));"
        " HTMLInputElement.prototype.click = click; };",
        bank,
    )
    with page.becomes("document.querySelector(values[0]).value === 'file:0'", OTHER):
        page.click(".compare-tab .card button")
    with page.becomes("document.querySelector('.note.bad')"):
        page.click(RUN)
    told = page.js("return document.querySelector('.note.bad').textContent")
    assert "theirs.sigma" in told and "QEUE" in told
    assert page.js("return sigma.compare.result") is None
    assert page.js("return sigma.store.doc.file") == "bank.sigma"
