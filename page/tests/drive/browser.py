"""What a browser is to a test: a page, a mouse, a keyboard, and what the page says of itself.

Mouse and keys are actions as W3C's WebDriver defines them, so they are the same in each browser.
"""

from __future__ import annotations

import json
import time
from abc import ABC, abstractmethod
from collections.abc import Iterator, Sequence
from contextlib import contextmanager
from typing import Any

KEYS = {
    "Enter": "\ue007",
    "Tab": "\ue004",
    "Shift": "\ue008",
    "Control": "\ue009",
    "Escape": "\ue00c",
    "PageUp": "\ue00e",
    "PageDown": "\ue00f",
    "End": "\ue010",
    "Home": "\ue011",
    "Left": "\ue012",
    "Up": "\ue013",
    "Right": "\ue014",
    "Down": "\ue015",
    "Delete": "\ue017",
    **{f"F{k}": chr(0xE030 + k) for k in range(1, 13)},
}
Place = tuple[float, float]
# A wait ends as soon as what it waits for is so; on a busy machine that takes minutes.
PATIENCE = 300  # seconds
STANDS_STILL = """
const [css, seconds] = values, begun = performance.now();
const middle = () => {
  const found = document.querySelector(css);
  found?.scrollIntoView({ block: 'nearest', inline: 'nearest' });
  const box = found?.getBoundingClientRect();
  return box ? [box.x + box.width / 2, box.y + box.height / 2] : null;
};
for (let last = null; performance.now() - begun < seconds * 1000;) {
  await new Promise(done => requestAnimationFrame(done));
  const now = middle();
  if (now && last && now[0] === last[0] && now[1] === last[1]) return now;
  last = now;
}
return null"""


class Browser(ABC):
    """A window of a browser."""

    name = ""

    @abstractmethod
    def open(self, address: str) -> None:
        """Go to a page, and wait until it is loaded."""

    @abstractmethod
    def evaluate(self, code: str) -> Any:
        """Return what the body of an asynchronous function returns in the page."""

    @abstractmethod
    def perform(self, actions: list[dict[str, Any]]) -> None:
        """Carry out actions of mouse and keys."""

    @abstractmethod
    def size(self, width: int, height: int) -> None:
        """Give the window another size; below 500 wide it is a telephone."""

    @abstractmethod
    def complaints(self) -> list[str]:
        """Return the errors and violations of the policy that came since the last call."""

    @abstractmethod
    def shot(self, file: str) -> None:
        """Write a picture of what is to be seen."""

    @abstractmethod
    def quit(self) -> None:
        """End the browser."""

    def js(self, code: str, *values: object) -> Any:
        """Return what this code returns in the page; `values` is what it is given."""
        return self.evaluate(f"const values = {json.dumps(values)};\n{code}")

    def until(self, expression: str, *values: object) -> Any:
        """Wait until an expression of the page is true, and return it: what one does makes it so by `becomes`."""
        end = time.monotonic() + PATIENCE
        while time.monotonic() < end:
            code = f"const found = ({expression}); return found instanceof Node || found"
            if found := self.js(code, *values):
                return found
            time.sleep(0.05)
        raise AssertionError(f"never: {expression}")

    @contextmanager
    def becomes(self, expression: str, *values: object) -> Iterator[None]:
        """Wait until what is done inside makes an expression true, which isn't so before: else the wait would be none."""
        code = f"try {{ return Boolean({expression}) }} catch {{ return false }}"
        assert not self.js(code, *values), f"before anything is done: {expression}"
        yield
        self.until(expression, *values)

    def still(self) -> None:
        """Wait until three more pictures are drawn: what answers to another size of an element has done so by then."""
        self.js(
            "for (let k = 0; k < 3; k++) await new Promise(done => requestAnimationFrame(done))"
        )

    def middle(self, css: str) -> Place:
        """Return the middle of an element that stands still; it is waited for, and brought into view."""
        found = self.js(STANDS_STILL, css, PATIENCE)
        assert found, f"the page has no {css} that stands still"
        return float(found[0]), float(found[1])

    def _mouse(self, steps: list[dict[str, Any]], held: str = "") -> None:
        mouse: dict[str, Any] = {
            "type": "pointer",
            "id": "mouse",
            "parameters": {"pointerType": "mouse"},
        }
        actions = [{**mouse, "actions": steps}]
        if not held:
            self.perform(actions)
            return
        waits: list[dict[str, Any]] = [{"type": "pause", "duration": 0} for _ in steps]
        down, up = {"type": "keyDown", "value": KEYS[held]}, {"type": "keyUp", "value": KEYS[held]}
        pause = {"type": "pause", "duration": 0}
        keys: dict[str, Any] = {"type": "key", "id": "keys", "actions": [down, *waits, up]}
        self.perform([keys, {**mouse, "actions": [pause, *steps, pause]}])

    def click_at(self, place: Place, count: int = 1, held: str = "") -> None:
        """Click there, so many times in a row."""
        press = [{"type": "pointerDown", "button": 0}, {"type": "pointerUp", "button": 0}]
        self._mouse([_moved(place), *press * count], held)

    def click(self, css: str, count: int = 1, held: str = "") -> None:
        """Click the middle of an element."""
        self.click_at(self.middle(css), count, held)

    def hover(self, css: str) -> None:
        """Point at the middle of an element."""
        self._mouse([_moved(self.middle(css))])

    def drag(self, places: Sequence[Place], held: str = "") -> None:
        """Press at the first of these places, pass the others, and let go at the last."""
        way = [_moved(place, 60) for place in places[1:]]
        down, up = {"type": "pointerDown", "button": 0}, {"type": "pointerUp", "button": 0}
        self._mouse([_moved(places[0]), down, *way, up], held)

    def keys(self, *keys: str) -> None:
        """Press keys one after the other: names as `Enter`, or texts that are typed."""
        letters = [letter for key in keys for letter in ([KEYS[key]] if key in KEYS else key)]
        letters = [KEYS["Enter"] if letter == "\n" else letter for letter in letters]
        steps = [{"type": kind, "value": key} for key in letters for kind in ("keyDown", "keyUp")]
        self.perform([{"type": "key", "id": "keys", "actions": steps}])

    def chord(self, *keys: str) -> None:
        """Press keys together, as Control and s."""
        named = [KEYS.get(key, key) for key in keys]
        steps = [{"type": "keyDown", "value": key} for key in named]
        steps += [{"type": "keyUp", "value": key} for key in reversed(named)]
        self.perform([{"type": "key", "id": "keys", "actions": steps}])

    def write(self, css: str, text: str, *after: str) -> None:
        """Click a field, put this text in place of its own, and press these keys."""
        self.click(css)
        self.chord("Control", "a")
        self.keys(text, *after)


def _moved(place: Place, duration: int = 0) -> dict[str, Any]:
    x, y = round(place[0]), round(place[1])
    return {"type": "pointerMove", "x": x, "y": y, "duration": duration, "origin": "viewport"}
