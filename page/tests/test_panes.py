"""However the panes are pulled, and however small the window, the graph keeps room; and the text takes the focus from anywhere."""

from __future__ import annotations

import pytest
from drive.browser import Browser

from test_truth import RUN

ROOM = "document.querySelector('.middle').offsetWidth"
# Firefox can give a selection that lies in the parts of a field: to look at such a node throws.
HIDDEN = """
const real = document.getSelection.bind(document);
let emptied = false;
const hidden = { get nodeType() { throw new Error('Permission denied to access property "nodeType"') } };
document.getSelection = () => emptied ? real() : {
  get anchorNode() { return emptied ? null : hidden }, get focusNode() { return emptied ? null : hidden },
  get rangeCount() { return emptied ? 0 : 1 }, anchorOffset: 0, focusOffset: 0,
  removeAllRanges() { emptied = true; real().removeAllRanges() } };
"""


def pull(page: Browser, bar: str, to: float) -> None:
    """Drag the bar beside a pane to this place across."""
    x, y = page.middle(f".split.{bar}")
    page.drag([(x, y), ((x + to) / 2, y), (to, y)])


@pytest.mark.parametrize("width", [1400, 1000, 800])
def test_the_graph_keeps_room(page: Browser, width: int) -> None:
    """Both panes are pulled as far as they go; then the window gets smaller. Charts are drawn in what is left."""
    with page.becomes("sigma.run.result && document.querySelector('.course-row')"):
        page.click(RUN)
    pull(page, "left", 1390)
    pull(page, "right", 10)
    try:
        room = f"innerWidth === values[0] && innerHeight === 700 && {ROOM} >= 556"
        with page.becomes(room, width):
            page.size(width, 700)
        assert page.js("return document.documentElement.scrollWidth <= innerWidth")
        assert page.js("return document.querySelector('.canvas').offsetHeight >= 120")
        page.until("document.querySelectorAll('.course-row .plot rect').length > 3")
        assert page.js(
            "return [...document.querySelectorAll('rect')]"
            ".every(each => !(Number(each.getAttribute('width')) < 0))"
        )
    finally:
        page.size(1400, 900)


def test_a_bar_tells_how_far_it_can_be_pulled(page: Browser) -> None:
    """What a screen reader says of it is what is seen."""
    pull(page, "left", 1390)
    told = page.js(
        "const bar = document.querySelector('.split.left'), of = name => Number(bar.getAttribute('aria-value' + name));"
        "return [of('now'), of('max'), document.querySelector('.text-pane').offsetWidth]"
    )
    assert told[0] == told[1] and abs(told[0] - told[2]) <= 1


def test_the_text_takes_the_focus_from_a_selection_that_cannot_be_read(page: Browser) -> None:
    """A selection in the parts of a field counts as none, and what is typed arrives."""
    with page.becomes("sigma.app.editor.has_focus()"):
        page.js(f"{HIDDEN}; sigma.app.editor.focus()")
    page.chord("Control", "Home")
    with page.becomes("sigma.store.doc.text.startsWith('# typed ')"):
        page.keys("# typed ")
