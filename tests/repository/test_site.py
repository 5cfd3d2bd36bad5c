"""The site: all pages as HTML, built without a warning, whose links and search work from files."""

from __future__ import annotations

import json
import re
import subprocess
from html.parser import HTMLParser
from pathlib import Path
from urllib.parse import unquote

import pytest

from support.places import TOP
from support.program import LONGEST
from writing.site import LISTS, NAVIGATION, REST, listed, pages


class Links(HTMLParser):
    """The links of a page, its anchors and what it loads."""

    def __init__(self, text: str) -> None:
        """Read a page."""
        super().__init__()
        self.links: list[str] = []
        self.loads: list[str] = []
        self.anchors: set[str] = set()
        self.feed(text)

    def handle_starttag(self, tag: str, attrs: list[tuple[str, str | None]]) -> None:
        """Collect what a tag names."""
        has = {name: value or "" for name, value in attrs}
        self.anchors.update(has[name] for name in ("id", "name") if name in has)
        if tag == "a" and "href" in has:
            self.links.append(has["href"])
        self.loads += [has[name] for name in ("src", "data-src") if name in has]
        if tag == "link" and has.get("rel") == "stylesheet":
            self.loads.append(has["href"])


@pytest.fixture(scope="module")
def site(tmp_path_factory: pytest.TempPathFactory) -> Path:
    """Build the site once."""
    goal = tmp_path_factory.mktemp("site") / "site"
    built = subprocess.run(
        [TOP / "docs/site/build", goal],
        capture_output=True,
        text=True,
        timeout=LONGEST,
        check=False,
    )
    if built.returncode:
        pytest.fail(built.stdout + built.stderr, pytrace=False)
    return goal


def read(site: Path) -> dict[Path, Links]:
    """Read all pages of the site."""
    return {path: Links(path.read_text()) for path in site.rglob("*.html")}


def test_each_page_is_there(site: Path) -> None:
    """Each page of the repository and each list is a page of the site, and the first one leads to it."""
    first = Links((site / "README.html").read_text())
    names = [str(page.with_suffix(".html")) for page in pages()]
    for name in [*names, *(f"{each}.html" for each in LISTS)]:
        assert (site / name).is_file(), name
        assert name == "README.html" or name in first.links, name
    assert 'url=README.html"' in (site / "index.html").read_text()


def test_links_of_the_site(site: Path) -> None:
    """Each link leads to a file of the site and to an anchor in it; nothing is loaded from elsewhere."""
    found = read(site)
    for page, has in found.items():
        for link in [*has.links, *has.loads]:
            if re.match(r"(https?|mailto|data):", link):
                assert link not in has.loads, f"{page.name} loads {link}"
                continue
            name, _, anchor = unquote(link).partition("#")
            target = (page.parent / name).resolve() if name else page
            assert target.is_file(), f"{page.relative_to(site)} links to {link}"
            if anchor and target.suffix == ".html":
                assert anchor in found[target].anchors, f"{page.relative_to(site)}: {link}"
    assert len(found) > 80


def test_the_search_knows_the_pages(site: Path) -> None:
    """The index is a script, so a page that is opened as a file can load it, and it has the words."""
    text = (site / "searchindex.js").read_text()
    assert text.startswith("Search.setIndex({") and text.endswith("})")
    assert re.search(r'\bcertif\w*"?:', text) and '"docs/use/tutorial"' in text
    assert json.dumps("Tutorial")[:-1] in text


def test_the_navigation() -> None:
    """It has each page once, and those that it doesn't name come last."""
    names = [*(str(page.with_suffix("")) for page in pages()), *LISTS]
    found = listed(names)
    assert sorted(name for below in found.values() for name in below) == sorted(
        set(names) - {"README"}
    )
    assert list(found) == [*NAVIGATION, REST] and all(found.values())
    assert found["Crates"][0].startswith("crates/") and found["Trust"][0] == "docs/trust/README"
    assert listed(["README", "page/src/NOTES"])[REST] == ["page/src/NOTES"]
