"""A random walk through the page, by mouse and keys: the same for the same seed."""

from __future__ import annotations

import random
from collections import deque
from collections.abc import Callable

from drive.browser import Browser, Place

# What can be pressed: parts that are seen, of the topmost dialog if there is one.
TARGETS = """
const kinds = 'button:not(:disabled), [role=tab], input, textarea, summary, a[href], [data-part], .label, .CodeMirror-lines,'
  + ' [role=option], [role=separator], .group-box', box = [...document.querySelectorAll('dialog[open]')].pop() ?? document;
const seen = [...box.querySelectorAll(kinds)].map(each => {
  const { x, y, width, height } = each.getBoundingClientRect(), place = [x + width / 2, y + height / 2];
  if (!width || !height || place[0] < 0 || place[1] < 0 || place[0] >= innerWidth || place[1] >= innerHeight) return null;
  const top = document.elementFromPoint(...place);
  return top && (each === top || each.contains(top)) ? place : null;
}).filter(each => each);
return seen.length ? seen[Math.floor(values[0] * seen.length)] : null"""
# Printing and choosing a file leave the page, so they aren't followed.
AT_HOME = (
    "window.print = () => {}; HTMLInputElement.prototype.click = () => {}; onbeforeunload = null"
)
EXAMPLES = ("bank", "polling", "emergency", "clinic")
WORDS = (
    "QUEUE",
    "IDLE - 1",
    "QUEUE > 0 and IDLE > 0",
    "3..9",
    "0",
    "12",
    "true",
    "QEUE",
    "(",
    ";",
    "a b",
    "if",
    "schedule LEAVE after 2;",
    "é✓",
    "\n",
)
KEYS = ("Enter", "Tab", "Escape", "Delete", "Left", "Right", "Up", "Down", "Home", "End", "F2")
COMMANDS = ("F6", "F8", "F9", "F10", "PageUp", "PageDown")
CHORDS = ("z", "z", "z", "y", "k", "m", "d", "c", "v", "a", "Enter", "f")
LETTERS = "ne0/?s"
SIZES = ((1400, 900), (1400, 900), (1000, 700), (390, 844))
CHECKED_EVERY = 20
MOST_FOUND = 12


class Walk:
    """A walk of one seed; `lately` is what was done last, `found` what the browser complained of."""

    def __init__(self, page: Browser, seed: int) -> None:
        self.page = page
        self.chance = random.Random(seed)
        self.lately: deque[str] = deque(maxlen=CHECKED_EVERY)
        self.found: list[str] = []
        page.js(AT_HOME)
        self.kinds: tuple[tuple[int, Callable[[], str]], ...] = (
            (34, self._press),
            (6, self._press_twice),
            (8, self._drag),
            (14, self._type),
            (14, self._key),
            (10, self._chord),
            (6, self._wheel),
            (2, self._example),
            (1, self._resize),
        )

    def _target(self) -> Place | None:
        found = self.page.js(TARGETS, self.chance.random())
        return (float(found[0]), float(found[1])) if found else None

    def _anywhere(self) -> Place:
        width, height = self.page.js("return [innerWidth, innerHeight]")
        return self.chance.uniform(1, width - 2), self.chance.uniform(1, height - 2)

    def _place(self) -> Place:
        target = self._target() if self.chance.random() < 0.85 else None
        return target or self._anywhere()

    def _press(self) -> str:
        place, held = self._place(), "Shift" if self.chance.random() < 0.08 else ""
        self.page.click_at(place, 1, held)
        return f"press {place} {held}"

    def _press_twice(self) -> str:
        place = self._anywhere() if self.chance.random() < 0.5 else self._place()
        self.page.click_at(place, 2)
        return f"press twice {place}"

    def _drag(self) -> str:
        places = [self._place(), self._anywhere(), self._place()]
        held = "Shift" if self.chance.random() < 0.3 else ""
        self.page.drag(places, held)
        return f"drag {places} {held}"

    def _type(self) -> str:
        word = self.chance.choice(WORDS)
        self.page.keys(word)
        return f"type {word!r}"

    def _key(self) -> str:
        key = self.chance.choice([*KEYS, *COMMANDS, *LETTERS])
        if key in LETTERS:
            self.page.keys(key)
        else:
            self.page.chord(key)
        return f"key {key}"

    def _chord(self) -> str:
        key = self.chance.choice(CHORDS)
        self.page.chord("Control", key)
        return f"Control {key}"

    def _wheel(self) -> str:
        x, y = self._anywhere()
        by, zooms = self.chance.randint(-300, 300), self.chance.random() < 0.5
        self.page.js(
            "document.elementFromPoint(values[0], values[1])?.dispatchEvent(new WheelEvent('wheel',"
            " { deltaY: values[2], ctrlKey: values[3], bubbles: true, cancelable: true,"
            " clientX: values[0], clientY: values[1] }))",
            *(x, y, by, zooms),
        )
        return f"wheel {by} {zooms} at {x} {y}"

    def _example(self) -> str:
        name = self.chance.choice(EXAMPLES)
        self.page.js("if (sigma.app.data.examples[values[0]]) sigma.open_example(values[0])", name)
        return f"example {name}"

    def _resize(self) -> str:
        size = self.chance.choice(SIZES)
        self.page.size(*size)
        return f"size {size}"

    def go(self, actions: int) -> None:
        """Do so many things; fail at the end if the browser complained, or at once if it did often."""
        weights, kinds = zip(*self.kinds)
        for number in range(1, actions + 1):
            [act] = self.chance.choices(kinds, weights)
            self.lately.append(act())
            if number % CHECKED_EVERY == 0 or number == actions:
                self._check(number)
            if len(self.found) >= MOST_FOUND:
                break
        assert self.found == [], "\n\n".join(self.found)

    def _check(self, number: int) -> None:
        complaints = self.page.complaints()
        done = "\n".join(self.lately)
        if complaints:
            self.found.append(f"by action {number}: {complaints}, after\n{done}")
        alive = self.page.js("return typeof sigma.store.doc.text")
        assert alive == "string", f"by action {number} the page is gone, after\n{done}"
