"""Joins the page: one file whose policy names each script and style by its hash.

No connection is allowed, so the page can send nothing. Only the page for development, which asks
the native program over HTTP, may connect, and only to that program.
"""

from __future__ import annotations

import argparse
import base64
import gzip
import hashlib
import json
import subprocess
import sys
from pathlib import Path

from bundle import PAGE, BuildError, Bundle, bundle
from gallery import ROOT, examples, questions, run_words
from licences import licences

FIRST = "bank"  # the example that a page shows that nobody has used before
GIVEN = "none: this page was made with a module that was given by hand"
NATIVE = "none: this page asks the native program, for development"


def _digest(text: str) -> str:
    return f"'sha256-{base64.b64encode(hashlib.sha256(text.encode()).digest()).decode()}'"


def _safe(text: str) -> str:
    """Return a script that doesn't hold its own end."""
    return text.replace("</script", "<\\/script")


def _packed(content: bytes) -> str:
    return base64.b64encode(gzip.compress(content, 9, mtime=0)).decode()


def _as_json(value: object) -> str:
    return json.dumps(value, separators=(",", ":"), sort_keys=True).replace("<", "\\u003c")


def page_of(parts: Bundle, module: bytes, data: dict[str, object], texts: str, native: str) -> str:
    """Return the page.

    Parameters
    ----------
    parts
        Its scripts and its style.
    module
        The program as WebAssembly; empty if the page asks the native program.
    data
        What the page knows beside it: the verdict, the words and questions of the examples.
    texts
        The texts of the examples, as JSON.
    native
        Where the native program answers, or nothing.
    """
    opening = _safe(parts.opening)
    scripts = f"{_digest(opening)} {_digest(parts.page)}"
    connect = f" connect-src {native};" if native else ""
    policy = (
        f"default-src 'none'; script-src {scripts} 'wasm-unsafe-eval'; worker-src blob:;"
        f"{connect} style-src {_digest(parts.style)}; img-src data: blob:; base-uri 'none';"
        " form-action 'none'"
    )
    return f"""<!doctype html>
<html lang="en"><head><meta charset="utf-8"><title>SIGMA</title>
<meta name="viewport" content="width=device-width,initial-scale=1">
<meta http-equiv="Content-Security-Policy" content="{policy}">
<style>{parts.style}</style></head><body>
<div class="opening"><b>SIGMA</b><p>Opening …</p></div>
<noscript>SIGMA is a program, so it needs JavaScript.</noscript>
<script>{opening}</script>
<script id="page" type="text/plain">{_packed(parts.page.encode())}</script>
<script id="licences" type="text/plain">{_packed(licences(parts.foreign).encode())}</script>
<script id="wasm" type="text/plain">{_packed(module) if module else ""}</script>
<script id="worker" type="text/plain">{_packed(parts.worker.encode())}</script>
<script id="layout" type="text/plain">{_packed(parts.layout.encode())}</script>
<script id="examples" type="text/plain">{_packed(texts.encode())}</script>
<script id="data" type="application/json">{_as_json(data)}</script>
</body></html>
"""


def _version() -> str:
    done = subprocess.run([ROOT / "share" / "version"], capture_output=True, text=True, check=False)
    return done.stdout.strip() or "unknown"


def make(module: Path | None, native: str) -> Path:
    """Write the page, and return its place.

    Parameters
    ----------
    module
        A module that was given by hand, or nothing for the one in page/out.
    native
        Where the native program answers, or nothing.
    """
    out = PAGE / "out"
    out.mkdir(exist_ok=True)
    file = module or out / "sigma.wasm"
    if not native and not file.is_file():
        raise BuildError(f"no module is {file}")
    kept = out / "verdict"
    verdict = NATIVE if native else GIVEN if module else kept.read_text(encoding="utf-8").strip()
    texts = examples(out)
    data: dict[str, object] = {
        "examples": {FIRST: texts[FIRST]},
        "native": native,
        "questions": questions(),
        "verdict": verdict,
        "version": _version(),
        "words": run_words(),
    }
    module_bytes = b"" if native else file.read_bytes()
    page = page_of(bundle(), module_bytes, data, json.dumps(texts, sort_keys=True), native)
    to = out / ("sigma-native.html" if native else "sigma.html")
    beside = to.with_suffix(".new")
    beside.write_text(page, encoding="utf-8")
    beside.replace(to)
    return to


def main() -> int:
    """Make the page as the command line asks, and say what was made."""
    parser = argparse.ArgumentParser(prog="page/make")
    parser.add_argument("--module", type=Path)
    parser.add_argument("--native", default="")
    asked = parser.parse_args()
    try:
        to = make(asked.module, asked.native)
    except BuildError as problem:
        print(f"page/make: {problem}", file=sys.stderr)
        return 1
    print(f"page/make: {to}, {to.stat().st_size // 1000} KB", file=sys.stderr)
    return 0


if __name__ == "__main__":
    sys.exit(main())
