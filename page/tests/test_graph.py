"""The paper stands still, one undo is one step, and the graph is used by keys and by the thumb."""

from __future__ import annotations

from typing import Any

from conftest import wait_for_model
from drive.browser import Browser
from test_truth import RUN, event, field, text
from waits import ACCEPTED

PATHS = "Object.fromEntries(sigma.app.canvas.scene.lines.map(line => [line.key, line.route.path]))"
AT = "(({ x, y, k }) => [x, y, k])(sigma.app.canvas.view.at)"
FOCUSED = "document.activeElement?.getAttribute('data-part')"


def view(page: Browser) -> Any:
    """Return where the paper is, and how large it is shown."""
    return page.js(f"return {AT}")


def paper(page: Browser, right: float, down: float) -> tuple[float, float]:
    """Return a place on the paper, in parts of its width and height."""
    box = page.js(
        "const { x, y, width, height } = document.querySelector('.canvas').getBoundingClientRect();"
        "return [x, y, width, height]"
    )
    return box[0] + box[2] * right, box[1] + box[3] * down


def test_a_drag_spoils_no_other_line_and_is_one_step(page: Browser) -> None:
    """Routes stay while both of their ends stay; Undo brings all of them back."""
    before, whole = page.js(f"return [{PATHS}, JSON.stringify({PATHS})]")
    x, y = page.middle(event("LEAVE"))
    with page.becomes("sigma.store.doc.text.includes('# places')"):
        page.drag([(x, y), (x + 20, y + 8), (x + 48, y + 16)])
    page.until(ACCEPTED)
    after = page.js(f"return {PATHS}")
    assert {key for key in before if before[key] != after[key]} == {
        key for key in before if "LEAVE" in key.split(" ")
    }
    with page.becomes("!sigma.store.doc.text.includes('# places')"):
        page.click('[aria-label^="Undo"]')
    page.until(f"JSON.stringify({PATHS}) === values[0]", whole)


def test_a_double_click_draws_there_and_the_paper_stands_still(page: Browser) -> None:
    """The new event lies where one pointed; nothing else moves."""
    place, before = paper(page, 0.15, 0.4), view(page)
    boxes = page.js("return sigma.app.canvas.places")
    with page.becomes("document.querySelector('[data-part=\"event:EVENT1\"] .body')"):
        page.click_at(place, 2)
    page.until(ACCEPTED)
    x, y = page.middle(event("EVENT1"))
    assert abs(x - place[0]) < 3 and abs(y - place[1]) < 3
    assert view(page) == before
    after = page.js("return sigma.app.canvas.places")
    assert {name: after[name] for name in boxes} == boxes


def test_the_menu_of_several_events_is_for_all_of_them(page: Browser) -> None:
    """It lines them up, if it is asked for on one of them; on another event it is for that one alone."""
    page.click(event("ARRIVE"))
    with page.becomes("sigma.app.more.length === 2"):
        page.click(event("LEAVE"), held="Shift")
    ask = (
        "document.querySelector(values[0]).dispatchEvent("
        "new MouseEvent('contextmenu', { bubbles: true, cancelable: true, clientX: 300, clientY: 300 }));"
        "return [...document.querySelectorAll('[role=menuitem]')].map(each => each.textContent)"
    )
    words = page.js(ask, event("LEAVE"))
    assert any("Side by side" in word for word in words), words
    assert page.js("return sigma.app.more.length") == 2
    page.keys("Escape")
    words = page.js(ask, event("OPEN"))
    assert not any("Side by side" in word for word in words), words
    assert page.js("return sigma.app.more.length") < 2


def test_the_first_event_lies_where_one_pointed(page: Browser) -> None:
    """On an empty paper too; a model that is opened then is shown whole."""
    with page.becomes("!sigma.store.doc.text && !sigma.app.canvas.scene.nodes.size"):
        page.js("sigma.command('new')")
    with page.becomes("innerWidth === 1200"):
        page.size(1200, 800)
    with page.becomes("innerWidth === 1400"):
        page.size(1400, 900)
    page.until("document.querySelector('.minimap.none')")
    page.still()
    place = paper(page, 0.2, 0.2)
    with page.becomes("document.querySelector('[data-part=\"event:EVENT1\"] .body')"):
        page.click_at(place, 2)
    page.until(ACCEPTED)
    x, y = page.middle(event("EVENT1"))
    assert abs(x - place[0]) < 3 and abs(y - place[1]) < 3
    with page.becomes(
        f"{ACCEPTED} && sigma.store.shown.name !== 'MODEL' && !sigma.app.canvas.busy"
    ):
        page.js("sigma.open_example('clinic')")
    page.until("sigma.app.canvas.scene.nodes.size > 4")
    at, box, room = page.js(
        f"return [{AT}, sigma.app.canvas.scene.bounds(), sigma.app.canvas.view.room]"
    )
    assert abs(box["x"] * at[2] + at[0] - room["width"] / 2) < 1
    assert abs(box["y"] * at[2] + at[1] - room["height"] / 2) < 1


def test_stepping_moves_no_graph_that_is_seen_whole(page: Browser) -> None:
    """Only what can't be seen is brought into view."""
    with page.becomes("sigma.run.result"):
        page.click(RUN)
    page.until("document.querySelector('.transport-row')")
    page.js("sigma.app.canvas.fit()")
    before = view(page)
    shown = "Number(document.querySelector('.transport input[type=range]').value) === values[0]"
    for step in range(1, 13):
        with page.becomes(f"{shown} && document.querySelector('.node.lit')", step):
            page.js("sigma.run.step(1)")
        assert view(page) == before


def test_numbers_of_one_moment_agree(page: Browser) -> None:
    """The big number beside a course is that of the table, at each step."""
    with page.becomes(
        "sigma.run.result && document.querySelector('.course-name .now')?.textContent"
    ):
        page.click(RUN)
    for _ in range(15):
        page.js("sigma.run.step(1)")
        shown = page.js(
            "return [...document.querySelectorAll('.course-row:not(.of-event) .course-name')]"
            ".filter(row => row.querySelector('.now'))"
            ".map(row => [row.title, row.querySelector('.now').textContent])"
        )
        table = dict(
            page.js(
                "return [...document.querySelectorAll('.values:not(.pending) tr')]"
                ".map(row => [row.children[0].textContent, row.children[1].textContent])"
            )
        )
        assert shown and all(table[name] == number for name, number in shown)


def test_the_graph_is_one_tab_stop_and_arrows_lead_along_its_edges(page: Browser) -> None:
    """Right and left follow an edge, up and down go on, letters and Home find an event."""
    stops = "return document.querySelectorAll('.stage-pane .graph [tabindex=\"0\"]').length"
    assert page.js(stops) == 1
    page.js("sigma.app.canvas.keyboard.enter()")
    assert page.js(f"return {FOCUSED}") == "event:OPEN"
    for key, to in (
        ("Right", "edge:OPEN:0"),
        ("Down", "edge:OPEN:1"),
        ("Right", "event:CLOSE"),
        ("Left", "edge:OPEN:1"),
        ("Left", "event:OPEN"),
        ("Down", "event:ARRIVE"),
    ):
        page.chord(key)
        assert page.js(f"return {FOCUSED}") == to
    page.keys("se")
    assert page.js(f"return {FOCUSED}") == "event:SERVE"
    assert page.js(stops) == 1
    with page.becomes("document.activeElement.dataset.field === 'event:SERVE/name'"):
        page.chord("Enter")


def test_single_letters_are_keys_on_the_paper_alone(page: Browser) -> None:
    """N on a tab makes no event; on the paper it makes one where none lies."""
    before = text(page)
    page.js("document.getElementById('tab-run').focus()")
    page.keys("n")
    assert text(page) == before
    page.js("sigma.app.canvas.keyboard.enter()")
    with page.becomes("sigma.store.doc.text.includes('vertex EVENT1')"):
        page.keys("n")
    page.until("document.querySelector('[data-part=\"event:EVENT1\"]')")
    over = page.js(
        "const all = [...sigma.app.canvas.scene.nodes.values()].map(node => node.box);"
        "return all.some((a, i) => all.some((b, k) => k > i"
        " && Math.abs(a.x - b.x) * 2 < a.width + b.width"
        " && Math.abs(a.y - b.y) * 2 < a.height + b.height))"
    )
    assert not over


def test_a_name_and_a_label_are_written_on_the_paper(page: Browser) -> None:
    """A double click edits the word that it hits."""
    with page.becomes("document.querySelector('.on-paper')"):
        page.click('.stage-pane [data-part="event:SERVE"] .name', 2)
    page.chord("Control", "a")
    with page.becomes("sigma.store.doc.text.includes('vertex HELP')"):
        page.keys("HELP", "Enter")
    page.until(ACCEPTED)
    with page.becomes("document.querySelector('.on-paper')"):
        page.click('.stage-pane .label[data-of="edge:HELP:0"] text', 2)
    page.chord("Control", "a")
    with page.becomes("sigma.store.doc.text.includes('schedule LEAVE after 7;')"):
        page.keys("7", "Enter")


def test_the_wheel_pans_and_with_control_it_zooms(page: Browser) -> None:
    """As in other drawing programs."""
    wheel = (
        "document.querySelector('.stage-pane .graph').dispatchEvent(new WheelEvent('wheel',"
        " { deltaY: 40, ctrlKey: values[0], bubbles: true, cancelable: true,"
        " clientX: 500, clientY: 300 }))"
    )
    x, y, k = view(page)
    page.js(wheel, False)
    assert view(page) == [x, y - 40, k]
    page.js(wheel, True)
    assert view(page)[2] < k


def test_the_guide_stands_alone_on_an_empty_page(page: Browser) -> None:
    """What the empty page offers is away while the guide is open."""
    with page.becomes("sigma.store.verdict.state === 'empty'"):
        page.js("sigma.store.open({ ...sigma.store.doc, text: '', saved: '', file: '' }, 'New')")
    page.until("document.querySelector('.welcome').offsetParent !== null")
    with page.becomes("!document.querySelector('.guide').hidden"):
        page.js("[...document.querySelectorAll('.welcome button')][0].click()")
    assert page.js("return getComputedStyle(document.querySelector('.welcome')).display") == "none"


def test_the_guide_marks_what_it_speaks_of_and_ends_with_the_bank(page: Browser) -> None:
    """The button that the second step names has a ring; after the last step the bank is one press away."""
    with page.becomes("!document.querySelector('.guide').hidden && sigma.store.doc.text === ''"):
        page.js("sigma.command('guide')")
    ringed = (
        "[...document.querySelectorAll('button')].filter(each => each.offsetParent"
        " && getComputedStyle(each).outlineStyle === 'solid').map(each => each.textContent)"
    )
    for step in range(1, 6):
        page.until(
            "document.querySelector('.guide h3').textContent.startsWith(values[0])", f"{step}."
        )
        if step == 2:
            page.js("sigma.app.pick(null); document.activeElement.blur()")
            assert page.js(f"return {ringed}") == ["Number"]
        page.click(".guide .row button")
    page.until("document.querySelector('.guide h3').textContent === 'That is a model'")
    page.click(".guide .row button")
    with page.becomes(f"{ACCEPTED} && sigma.store.shown.name === 'BANK'"):
        page.click("dialog .choices button:nth-child(2)")
    assert page.js("return document.querySelector('.guide').hidden && !document.body.dataset.guide")


def test_the_legend_has_the_words_of_the_graph(page: Browser) -> None:
    """What it explains is written as the graph writes it."""
    words = page.js(
        "return [...document.querySelectorAll('.key-sheet code')].map(each => each.textContent)"
    )
    shown = page.js("return document.querySelector('.stage-pane .graph').textContent")
    assert words and [word for word in words if word not in shown] == []


def test_the_thumb_has_44_pixels(page: Browser, address: str) -> None:
    """Each button and field that a telephone shows is large enough, and nothing is cut off."""
    page.size(390, 844)
    page.open(address)
    wait_for_model(page)
    with page.becomes("sigma.run.result"):
        page.js("sigma.command('run')")
    page.js(
        "for (const each of document.querySelectorAll('.run-tab details')) each.open = true;"
        "sigma.app.pick({ kind: 'event', name: 'SERVE' })"
    )
    small = (
        "const seen = [];"
        "for (const part of ['text', 'graph', 'form', 'dock']) {"
        "  document.getElementById('part-' + part).click();"
        "  for (const each of document.querySelectorAll('button, select, input, summary')) {"
        "    const box = each.getBoundingClientRect();"
        "    if (!box.width || each.closest('.CodeMirror')) continue;"
        "    if (['range', 'checkbox'].includes(each.type)) continue;"
        "    if (each.classList.contains('doc-title')) continue;"
        "    const place = each.closest('.field-box') ?? each;"
        "    if (Math.round(place.getBoundingClientRect().height) < 44)"
        "      seen.push([part, each.className || each.tagName, each.textContent, box.height]);"
        "  }"
        "  if (document.documentElement.scrollWidth > 390) seen.push([part, 'is too wide']);"
        "}"
        "return seen"
    )
    assert page.js(small) == []
    page.size(1400, 900)
