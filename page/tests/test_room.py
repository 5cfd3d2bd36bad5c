"""What is shown has room: names and numbers are whole, and nothing leaves its box, on the desk and on the telephone."""

from __future__ import annotations

from collections.abc import Iterator

import pytest
from drive.browser import Browser
from waits import ACCEPTED

SIZES = ((1400, 900), (1000, 800), (390, 844))
TABS = ("run", "experiments", "reduce", "compare", "conflicts", "problems", "describe", "console")
# What is wider within than without, though it is seen.
CUT = """return [...document.querySelectorAll(values[0])]
  .filter(each => each.offsetParent && each.scrollWidth > each.clientWidth + 1)
  .map(each => `${each.getAttribute('aria-label') ?? each.className}: ${each.value ?? each.textContent}`)"""
BOXES = ".tab-body :is(button, .number, .field-box, .segments, .field-box input)"


@pytest.fixture(params=SIZES, ids=lambda size: str(size[0]))
def sized(page: Browser, request: pytest.FixtureRequest) -> Iterator[Browser]:
    """Return a page of this size that shows the clinic, whose names are long."""
    with page.becomes(f"{ACCEPTED} && sigma.store.shown.name === 'CLINIC'"):
        page.js("sigma.open_example('clinic')")
    page.size(*request.param)
    page.still()
    assert page.js("return innerWidth") == request.param[0]
    yield page
    page.size(1400, 900)


def test_names_and_values_of_variables_are_whole(sized: Browser) -> None:
    """Two names that begin alike can be told apart, and `false` is read."""
    sized.js("sigma.app.pick(null); sigma.app.show_part('form')")
    sized.middle(".var-row input")
    assert sized.js(CUT, ".var-row input") == []
    assert sized.js(CUT, ".inspector") == []


def test_no_word_of_a_tab_leaves_its_box(sized: Browser) -> None:
    """Buttons, fields and numbers hold what they say; the tab that is open is seen."""
    sized.js("sigma.app.show_part('dock')")
    for tab in TABS:
        sized.js("sigma.app.open_tab(values[0])", tab)
        assert sized.js(CUT, BOXES) == [], tab
        left, right = sized.js(
            "const { left, right } = document.getElementById(values[0]).getBoundingClientRect();"
            "return [left, right]",
            f"tab-{tab}",
        )
        assert left >= 0 and right <= sized.js("return innerWidth"), tab


def test_what_is_said_of_an_event_stands_together(sized: Browser) -> None:
    """In Describe no empty room lies between the sentences of one event, however tall its neighbour is."""
    with sized.becomes("document.querySelectorAll('.described section').length > 5"):
        sized.js("sigma.app.show_part('dock'); sigma.app.open_tab('describe')")
    gaps = sized.js(
        "return [...document.querySelectorAll('.described section')].flatMap(section =>"
        " [...section.children].slice(1).map((each, k) =>"
        " each.getBoundingClientRect().top - section.children[k].getBoundingClientRect().bottom))"
    )
    assert max(gaps) < 8.5
