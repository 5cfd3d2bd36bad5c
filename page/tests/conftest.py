"""What the tests in browsers share: one browser of each kind, and a page that nobody has used before."""

from __future__ import annotations

import os
from collections.abc import Iterator
from pathlib import Path

import pytest

from drive.browser import Browser
from drive.chromium import Chromium
from drive.firefox import Firefox

PAGE = Path(__file__).resolve().parent.parent
KINDS = {"chromium": Chromium, "firefox": Firefox}
# A note goes after some seconds; a busy machine may take longer to look at it.
NOTES_STAY = """
const begin = window.setTimeout;
window.setTimeout = (act, after, ...more) => begin(act, after >= 4000 ? 100 * after : after, ...more)"""


def pytest_addoption(parser: pytest.Parser) -> None:
    """Take the words that page/test gives on."""
    parser.addoption("--page", default=str(PAGE / "out" / "sigma.html"))
    parser.addoption("--browser", action="append", choices=sorted(KINDS))
    parser.addoption("--actions", type=int, default=300, help="of the random walk")
    parser.addoption("--seed", type=int, default=1, help="of the random walk")


def pytest_generate_tests(metafunc: pytest.Metafunc) -> None:
    """Run each test of a page in each browser; one that is marked `chromium` only there."""
    if "page" in metafunc.fixturenames:
        kinds = metafunc.config.getoption("browser") or sorted(KINDS)
        if metafunc.definition.get_closest_marker("chromium"):
            kinds = [each for each in kinds if each == "chromium"]
        metafunc.parametrize("kind", kinds, scope="session")


@pytest.fixture(scope="session")
def downloads(tmp_path_factory: pytest.TempPathFactory) -> Path:
    """Return the folder that saved files go to."""
    return tmp_path_factory.mktemp("downloads")


@pytest.fixture(scope="session")
def window(kind: str, downloads: Path) -> Iterator[Browser]:
    """Return a browser of this kind."""
    browser = KINDS[kind](str(downloads))
    yield browser
    browser.quit()


@pytest.fixture(scope="session")
def address(pytestconfig: pytest.Config) -> str:
    """Return the address of the page under test."""
    file = Path(pytestconfig.getoption("page")).resolve()
    assert file.is_file(), f"{file} is missing: page/make makes it"
    return file.as_uri()


def wait_for_model(browser: Browser) -> None:
    """Wait until the program has accepted the text and its graph stands."""
    browser.until(
        "globalThis.sigma && sigma.store.verdict.state === 'accepted'"
        " && !sigma.app.canvas.busy && document.querySelector('.node')",
    )


@pytest.fixture
def page(window: Browser, address: str) -> Iterator[Browser]:
    """Return a browser at a page that nobody has used before; no error may come while it is used."""
    window.size(1400, 900)
    window.open(address)
    window.js(
        "localStorage.clear(); sessionStorage.clear();"
        "Storage.prototype.setItem = () => {}; onbeforeunload = null"
    )
    window.open("about:blank")
    window.complaints()
    window.open(address)
    wait_for_model(window)
    # In a window of this width the text is folded away at first.
    window.js("sigma.app.show_text()")
    window.still()
    window.js(NOTES_STAY)
    yield window
    assert window.complaints() == []


@pytest.fixture
def root() -> Path:
    """Return the repository."""
    return PAGE.parent


@pytest.fixture
def program() -> str:
    """Return the native program."""
    built = PAGE.parent / "crates" / "sigma_cli" / "out" / "sigma_cli"
    found = os.environ.get("SIGMA") or (str(built) if built.is_file() else "")
    assert found, "no program: SIGMA names one, or the repository is built"
    return found
