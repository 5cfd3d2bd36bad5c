"""A large graph is moved as one painted picture, and is drawn again where it rests."""

from __future__ import annotations

import pytest
from conftest import PAGE
from drive.browser import Browser
from large import tangle

WHEEL = (
    "document.querySelector('.stage-pane .graph').dispatchEvent(new WheelEvent('wheel',"
    " { deltaY: values[0], ctrlKey: values[1], bubbles: true, cancelable: true,"
    " clientX: 500, clientY: 300 }))"
)
MOVING = "!document.querySelector('.stage-pane .moving-picture').hidden"
# How many colours the painted picture has, of points in a grid.
COLOURS = (
    "(() => { const its = document.querySelector('.stage-pane .moving-picture'),"
    " { data } = its.getContext('2d').getImageData(0, 0, its.width, its.height),"
    " seen = new Set(); for (let i = 0; i < data.length; i += 52)"
    " seen.add(data[i] + ' ' + data[i + 1] + ' ' + data[i + 2]); return seen.size })()"
)
PLACED = (
    "(({ x, y, k }) => document.querySelector('.stage-pane .stage').getAttribute('transform')"
    " === `translate(${x} ${y}) scale(${k})`)(sigma.app.canvas.view.at)"
)


def open_plant(page: Browser) -> None:
    """Open the model of 201 events."""
    text = (PAGE / "models" / "plant.sigma").read_text(encoding="utf-8")
    with page.becomes("!sigma.app.canvas.busy && sigma.app.canvas.scene.nodes.size === 201"):
        page.js("sigma.store.open({ ...sigma.store.doc, text: values[0] }, 'Open')", text)


@pytest.mark.parametrize("zooms", [False, True], ids=["pan", "zoom"])
def test_it_is_painted_while_it_moves_and_drawn_where_it_rests(page: Browser, zooms: bool) -> None:
    """The picture has more than the paper's colour; then the drawn graph lies where it came to."""
    open_plant(page)
    for _ in range(3):
        shown = page.js(f"{WHEEL}; return [{MOVING}, {COLOURS}]", -60, zooms)
        assert shown[0] and shown[1] > 3
    page.until(f"!{MOVING} && {PLACED}")
    assert (
        page.js("return document.querySelectorAll('.stage-pane :is(.node, .group-box)').length") > 5
    )


def test_a_press_meets_what_is_seen(page: Browser) -> None:
    """A press right after a movement ends it: what lies under the pointer is picked."""
    open_plant(page)
    drawn = "document.querySelector('.stage-pane [data-part=\"event:START20\"] .body')"
    with page.becomes(f"{drawn} && !{MOVING} && {PLACED}"):
        page.js("sigma.app.canvas.seek('START20', true)")
    place = page.middle('.stage-pane [data-part="event:START20"] .body')
    page.js(WHEEL, 40, False)
    page.click_at((place[0], place[1] - 40))
    assert page.js("return sigma.app.picked?.name") == "START20"
    assert page.js(f"return !{MOVING} && {PLACED}")


def test_a_long_layout_tells_how_far_it_is_and_can_be_stopped(page: Browser) -> None:
    """After Stop the events stand in rows, and the page can be used."""
    with page.becomes("!document.querySelector('.stage-pane .laying-out').hidden"):
        page.js(
            "sigma.store.open({ ...sigma.store.doc, text: values[0] }, 'Open')", tangle(1900, 3800)
        )
    assert "1,900 events" in page.js("return document.querySelector('.laying-out').textContent")
    with page.becomes("!sigma.app.canvas.busy && sigma.app.canvas.scene.nodes.size === 1900"):
        page.js("document.querySelector('.stage-pane .laying-out button').click()")
    assert page.js(
        "return sigma.app.canvas.scene.groups.length === 0"
        " && document.querySelector('.stage-pane .laying-out').hidden"
    )
    page.js("sigma.app.canvas.seek('E1000', true)")
    page.click('.stage-pane [data-part="event:E1000"] .body')
    assert page.js("return sigma.app.picked?.name") == "E1000"
