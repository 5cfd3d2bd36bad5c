#!/usr/bin/python3
"""How fast the page is in a browser, each figure beside what is asked of it.

    page/measured/speed.py                       page/out/sigma.html, in Chromium
    page/measured/speed.py PAGE --browser firefox

Times are the least of three, frames those of three seconds. Run it on a machine that does nothing else: the first line
says how many processes waited for a processor.
"""

from __future__ import annotations

import argparse
import os
import sys
import tempfile
from collections.abc import Callable
from pathlib import Path

PAGE = Path(__file__).resolve().parents[1]
sys.path.insert(0, str(PAGE / "tests"))

from drive.browser import Browser  # noqa: E402
from drive.chromium import Chromium  # noqa: E402
from drive.firefox import Firefox  # noqa: E402
from large import plant, tangle  # noqa: E402

KINDS = {"chromium": Chromium, "firefox": Firefox}
WORKERS, RUNS, TRIES = 4, 20_000, 3
ACCEPTED = "sigma.store.verdict.state === 'accepted'"
FRAMES = """
const svg = document.querySelector('.stage-pane .graph'), [zooms] = values, times = [];
const { x, y, width, height } = svg.getBoundingClientRect(), begun = performance.now();
const next = () => new Promise(done => requestAnimationFrame(done));
for (let last = await next(); performance.now() - begun < 3000;) {
  const back = Math.floor((performance.now() - begun) / 500) % 2 ? -1 : 1;
  svg.dispatchEvent(new WheelEvent('wheel', { deltaY: (zooms ? 8 : 24) * back, deltaX: zooms ? 0 : 16 * back,
    ctrlKey: zooms, bubbles: true, cancelable: true, clientX: x + width / 2, clientY: y + height / 2 }));
  const now = await next();
  times.push(now - last);
  last = now;
}
times.sort((a, b) => a - b);
return [1000 * times.length / times.reduce((sum, each) => sum + each, 0), times[Math.floor(times.length * 0.95)]]"""
DRAWN = """
const begun = performance.now(), next = () => new Promise(done => requestAnimationFrame(done));
sigma.store.open({ ...sigma.store.doc, text: values[0] }, 'Open');
while (sigma.app.canvas.busy || sigma.app.canvas.scene.nodes.size !== values[1]) await next();
await next();
return performance.now() - begun"""


def fresh(page: Browser, address: str) -> None:
    """Open the page as one that nobody has used before."""
    page.open("about:blank")
    with page.becomes(f"globalThis.sigma && {ACCEPTED} && document.querySelector('.node')"):
        page.open(address)


def told(what: str, found: str, asked: str) -> None:
    """Print a line."""
    print(f"{what:54} {found:>12}   {asked}", flush=True)


def least(work: Callable[[], float]) -> float:
    """Return the least of a few times."""
    return min(work() for _ in range(TRIES))


def starts(page: Browser, address: str) -> None:
    """Measure how soon something is painted, and how soon the first graph is shown."""
    paints, shown = [], []
    for _ in range(TRIES):
        fresh(page, address)
        paint, ready = page.js(
            "return [performance.getEntriesByName('first-contentful-paint')[0]?.startTime ?? NaN,"
            " performance.getEntriesByName('first graph')[0].startTime]"
        )
        paints.append(float(paint))
        shown.append(float(ready))
    told("first paint", f"{min(paints):.0f} ms", "under 500 ms")
    told("first graph, with the program's verdict", f"{min(shown):.0f} ms", "under 1,500 ms")


def runs(page: Browser, address: str) -> None:
    """Measure many runs of the bank by one worker and by several."""

    def by(workers: int) -> float:
        page.open("about:blank")
        with page.becomes(f"globalThis.sigma && {ACCEPTED}"):
            page.open(f"{address}#cores={workers}")
        with page.becomes("sigma.experiments.outcomes.length && !sigma.experiments.busy()"):
            page.js(
                "const settings = { ...sigma.store.doc.settings, runs: values[0] };"
                "sigma.store.set({ settings }); sigma.command('experiment')",
                str(RUNS),
            )
        return float(page.js("return sigma.experiments.outcomes[0].replicated.ms"))

    alone, together = least(lambda: by(1)), least(lambda: by(WORKERS))
    told(f"{RUNS:,} runs of the bank, one worker", f"{alone:.0f} ms", "")
    share = f"{together / alone:.2f} of one"
    told(f"the same by {WORKERS} workers", f"{together:.0f} ms", f"{share}; at most 0.33")


def graphs(page: Browser, address: str) -> None:
    """Measure how soon large graphs are drawn, and how they move."""
    plants = (PAGE / "models" / "plant.sigma").read_text(encoding="utf-8")

    def drawn(text: str, events: int) -> float:
        fresh(page, address)
        return float(page.js(DRAWN, text, events))

    told("201 events drawn", f"{least(lambda: drawn(plants, 201)):.0f} ms", "under 500 ms")
    for name, text in (("of a plant", plant(400)), ("in a tangle", tangle(2001, 4000))):
        told(f"2,001 events {name} drawn", f"{drawn(text, 2001):.0f} ms", "")
        for how, scale in (("whole", 0), ("near", 0.6), ("close", 1.0)):
            page.js(
                "const { canvas } = sigma.app; canvas.fit();"
                "if (values[0]) canvas.view.centre(canvas.scene.bounds(), values[0])",
                scale,
            )
            for zooms in (False, True):
                rate, slow = page.js(FRAMES, zooms)
                what = f"2,001 events {name}, {how}, {'zoom' if zooms else 'pan'}"
                told(what, f"{rate:.0f} a second", f"30 or more; 95 % within {slow:.0f} ms")


def main() -> None:
    """Measure the page that is named."""
    parser = argparse.ArgumentParser(
        description=(__doc__ or "").strip(), formatter_class=argparse.RawTextHelpFormatter
    )
    parser.add_argument("page", nargs="?", type=Path, default=PAGE / "out" / "sigma.html")
    parser.add_argument("--browser", choices=sorted(KINDS), default="chromium")
    asked = parser.parse_args()
    file = asked.page.resolve()
    print(f"{asked.browser}, {os.cpu_count()} processors, load {os.getloadavg()[0]:.1f}")
    told("size of the page", f"{file.stat().st_size / 1000:.0f} KB", "under 1,100 KB")
    with tempfile.TemporaryDirectory() as folder:
        browser = KINDS[asked.browser](folder)
        try:
            for measure in (starts, runs, graphs):
                measure(browser, file.as_uri())
        finally:
            browser.quit()


if __name__ == "__main__":
    main()
