"""What every test can ask for, and the rule that nothing is skipped unless that was asked for."""

from __future__ import annotations

import shutil
from collections.abc import Callable, Generator

import pytest
from _pytest.terminal import TerminalReporter

from support.places import find_program
from support.program import Program

# What may be left out by `--without NAME`: the marker `browsers`, or a program by its name.
GROUPS = ("browsers",)
ASKED_FOR = "left out by --without "


def pytest_addoption(parser: pytest.Parser) -> None:
    """Add the one option that may leave tests out."""
    parser.addoption(
        "--without",
        action="append",
        default=[],
        metavar="NAME",
        help="leave out what needs NAME, which is `browsers` or a program; this can be repeated",
    )


def left_out(config: pytest.Config) -> list[str]:
    """List what `--without` names."""
    names: list[str] = config.getoption("--without")
    return names


@pytest.fixture(scope="session")
def program() -> Program:
    """Answer the program that SIGMA names, or the one that was built here."""
    try:
        return Program(find_program())
    except FileNotFoundError as missing:
        pytest.fail(str(missing), pytrace=False)


@pytest.fixture(scope="session")
def call(program: Program) -> Program:
    """Call the program: `call(words, text)`."""
    return program


@pytest.fixture(scope="session")
def needs(request: pytest.FixtureRequest) -> Callable[[str], str]:
    """Find another program, and fail if it isn't installed: `needs("dot")` is its path."""

    def find(name: str) -> str:
        if name in left_out(request.config):
            pytest.skip(ASKED_FOR + name)
        path = shutil.which(name)
        if path is None:
            pytest.fail(f"{name} isn't installed, and this test needs it", pytrace=False)
        return path

    return find


def pytest_runtest_setup(item: pytest.Item) -> None:
    """Leave out the tests of a group that `--without` names."""
    for group in GROUPS:
        if item.get_closest_marker(group) and group in left_out(item.config):
            pytest.skip(ASKED_FOR + group)


def refuse_skip(report: pytest.TestReport | pytest.CollectReport) -> None:
    """Turn a skip that nobody asked for into a failure, and an expected failure too."""
    if report.skipped and ASKED_FOR not in str(report.longrepr):
        reason = report.longrepr[2] if isinstance(report.longrepr, tuple) else report.longrepr
        report.outcome = "failed"
        report.longrepr = f"{report.nodeid}: a skip that nobody asked for: {reason}"
        if hasattr(report, "wasxfail"):
            del report.wasxfail


@pytest.hookimpl(hookwrapper=True)  # type: ignore[misc]
def pytest_runtest_makereport(
    item: pytest.Item,
) -> Generator[None, pytest.CallInfo[None], None]:
    """Refuse skips in tests."""
    outcome = yield
    refuse_skip(outcome.get_result())  # type: ignore[attr-defined]


@pytest.hookimpl(hookwrapper=True)  # type: ignore[misc]
def pytest_make_collect_report(
    collector: pytest.Collector,
) -> Generator[None, pytest.CallInfo[None], None]:
    """Refuse skips of whole files."""
    outcome = yield
    refuse_skip(outcome.get_result())  # type: ignore[attr-defined]


def pytest_terminal_summary(terminalreporter: TerminalReporter) -> None:
    """Write what tests have to show though they passed: their property `shown`."""
    for reports in terminalreporter.stats.values():
        for report in reports:
            for name, text in getattr(report, "user_properties", ()):
                if name == "shown" and getattr(report, "when", "call") == "call":
                    terminalreporter.write_line(str(text))


def pytest_unconfigure(config: pytest.Config) -> None:
    """Write the last line: how many tests passed, failed and were skipped."""
    reporter = config.pluginmanager.get_plugin("terminalreporter")
    if reporter is None or hasattr(config, "workerinput") or config.option.collectonly:
        return
    counts = {name: len(reports) for name, reports in reporter.stats.items()}
    failed = counts.get("failed", 0) + counts.get("error", 0)
    print(
        f"tests: {counts.get('passed', 0)} passed, {failed} failed, "
        f"{counts.get('skipped', 0)} skipped"
    )
