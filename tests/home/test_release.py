"""The release, the gate's steps around it, and what they count, by a kit that stands in."""

from __future__ import annotations

import shutil
from pathlib import Path

import pytest

from home.small_checkout import CRATE, KEPT, KIT, VERDICT, SmallCheckout, sha256
from support.places import TOP
from support.program import Answer

TESTS = "tests: 5 passed, 0 failed, 0 skipped"


def write_script(path: Path, *lines: str) -> None:
    """Write a script of sh, in the place of a link to one of the machine's commands too."""
    path.parent.mkdir(parents=True, exist_ok=True)
    path.unlink(missing_ok=True)
    path.write_text("\n".join(["#!/bin/sh", *lines]) + "\n")
    path.chmod(0o755)


@pytest.fixture
def gate(checkout: SmallCheckout) -> SmallCheckout:
    """Make a checkout with a gate, whose packages are all installed and whose tests pass."""
    for name in ("release", ".ci/run"):
        (checkout.top / name).parent.mkdir(exist_ok=True)
        shutil.copy(TOP / name, checkout.top / name)
    checkout.give_kit()
    # The kit's clang, called as `llvm-strip --strip-all -o TO FROM`.
    write_script(checkout.kit / "toolchain/bin/clang", 'head -c -1 "$4" >"$3"')
    write_script(checkout.bin / "dpkg-query", f'cat "{checkout.folder}/installed"')
    write_script(checkout.bin / "id", "echo 1000")
    tell_tests(checkout, TESTS)
    packages = [
        line.split()[0]
        for line in (TOP / "share/packages").read_text().splitlines()
        if line[0] != "#"
    ]
    (checkout.folder / "installed").write_text("".join(f"{name} installed\n" for name in packages))
    return checkout


def tell_tests(gate: SmallCheckout, line: str) -> None:
    """Give tests that say this, and log their words."""
    write_script(gate.top / "tests/run", f'echo "$*" >"{gate.folder}/words"', f'echo "{line}"')


def run_gate(gate: SmallCheckout, *words: str) -> tuple[int, str]:
    """Run the gate, and answer its status and its last line."""
    answer = gate.call(*words, command=gate.top / ".ci/run")
    lines = (answer.output + answer.errors).decode().splitlines()
    return answer.status, next(line for line in reversed(lines) if line.startswith("gate: "))


def release(gate: SmallCheckout, *words: str) -> Answer:
    """Call the release."""
    return gate.call(*words, command=gate.top / "release")


def told(gate: SmallCheckout) -> dict[str, str]:
    """Read dist/BUILT."""
    lines = (gate.top / "dist/BUILT").read_text().splitlines()
    return dict((line.split(" ", 1)[0], line.split(" ", 1)[1]) for line in lines)


def test_nothing_to_compare_with(gate: SmallCheckout) -> None:
    """Without dist/ the gate passes, and counts that nothing was compared."""
    assert run_gate(gate) == (0, "gate: 6 passed, 0 failed, 0 skipped, 1 not compared")
    status, lines = gate.which()
    assert status == 0 and "on this machine" in lines["proved"]


def test_the_release_has_what_the_gate_proved(gate: SmallCheckout) -> None:
    """dist/ names the sources, the kit, the verdict and the stripped program, and the gate agrees."""
    assert run_gate(gate)[0] == 0
    assert release(gate, "--program-only").status == 0
    program = gate.top / "dist/sigma"
    assert told(gate) == {
        "version": (TOP / "VERSION").read_text().strip(),
        "sources": gate.sum_of_sources(),
        "kit": KIT,
        "verdict": VERDICT,
        "program": sha256(program),
    }
    (built,) = (gate.top / "out").glob("proved.*/sigma")
    assert program.read_bytes() == built.read_bytes()[:-1]
    assert run_gate(gate) == (0, "gate: 7 passed, 0 failed, 0 skipped, 0 not compared")


def test_a_release_with_a_page(gate: SmallCheckout) -> None:
    """The page and its verdict are there too, and a change of the page's sources changes their sum."""
    assert run_gate(gate)[0] == 0
    page = f'<script>{{"verdict": "{VERDICT}\\n"}}</script>'
    write_script(gate.top / "page/make", "mkdir -p page/out", f"echo '{page}' >page/out/sigma.html")
    assert release(gate).status == 0
    first = told(gate)
    assert first["page_verdict"] == VERDICT
    assert first["page"] == sha256(gate.top / "dist/sigma.html")
    (gate.top / "page/more.ts").write_text("more\n")
    assert release(gate).status == 0
    assert told(gate)["page_sources"] != first["page_sources"]
    write_script(gate.top / "page/make", "mkdir -p page/out", "echo none >page/out/sigma.html")
    assert release(gate).errors.endswith(b"the page has no verdict in it\n")


def test_nothing_is_released_that_is_not_proved(gate: SmallCheckout) -> None:
    """Without a gate there is nothing, and after an edit nothing any more."""
    assert release(gate, "--program-only").status == 1
    assert run_gate(gate)[0] == 0
    gate.write_source("fn main() {} // second\n")
    assert release(gate, "--program-only").status == 1
    assert not (gate.top / "dist").exists()


@pytest.mark.parametrize("has_libraries", [True, False])
def test_a_program_that_the_kit_kept(gate: SmallCheckout, has_libraries: bool) -> None:
    """The prover looks at it again, and without its verdict nothing is released."""
    (gate.top / "crates/low/src").mkdir(parents=True)
    (gate.top / "crates/low/src/lib.rt").write_text("")
    (gate.top / "crates.txt").write_text(f"low:\n{CRATE}: low\n")
    gate.give_kit(KEPT)
    assert run_gate(gate)[0] == 0
    if has_libraries:
        library = gate.top / "crates/low/out/rlib/low.rlib"
        library.parent.mkdir(parents=True)
        library.write_text("")
    rattle = gate.kit / "bin/rattle"
    write_script(rattle, f'test "$1" = check && echo "{VERDICT}"')
    before = gate.builds()
    assert release(gate, "--program-only").status == 0
    assert told(gate)["verdict"] == VERDICT
    # Without the libraries of the gate, those that the kit keeps are asked for.
    assert gate.builds() == before + (0 if has_libraries else 1)
    write_script(rattle, f'echo "{VERDICT}"', "exit 1")
    assert release(gate, "--program-only").status == 1
    write_script(rattle, 'echo "logic=not-proved functions=1 sum=12ab"')
    assert release(gate, "--program-only").status == 1


def test_a_release_by_another_kit(gate: SmallCheckout) -> None:
    """The kit that strips is the one that proved."""
    assert run_gate(gate)[0] == 0
    gate.give_kit(name="another-kit logic 34cd")
    assert release(gate, "--program-only").status == 1


def test_a_release_of_a_log(gate: SmallCheckout) -> None:
    """What a plain `rt ci` left is taken by its log, if no source is newer."""
    log = gate.folder / "log"
    answer = gate.call(
        "-c", f'cd "$1" && rt ci >"{log}"', "sh", str(gate.top), command=Path("/bin/sh")
    )
    assert answer.status == 0
    words = ("--program-only", "--log", str(log))
    assert release(gate, *words).status == 0
    assert told(gate)["verdict"] == VERDICT
    gate.write_source("fn main() {} // second\n")
    assert release(gate, *words).errors.decode().startswith("release: the sources have changed")


@pytest.mark.parametrize("key", ["sources", "kit"])
def test_what_cannot_be_compared(gate: SmallCheckout, key: str) -> None:
    """dist/ of other sources or another kit is counted, and doesn't fail the gate."""
    assert run_gate(gate)[0] == 0
    assert release(gate, "--program-only").status == 0
    built = gate.top / "dist/BUILT"
    built.write_text(built.read_text().replace(told(gate)[key], "other"))
    assert run_gate(gate) == (0, "gate: 6 passed, 0 failed, 0 skipped, 1 not compared")


@pytest.mark.parametrize("is_told", [False, True], ids=["unknown to BUILT", "named by BUILT"])
def test_another_program_in_dist_fails(gate: SmallCheckout, is_told: bool) -> None:
    """One byte more, and the gate fails, also where BUILT names that very program."""
    assert run_gate(gate)[0] == 0
    assert release(gate, "--program-only").status == 0
    program, built = gate.top / "dist/sigma", gate.top / "dist/BUILT"
    with program.open("ab") as file:
        file.write(b"\n")
    if is_told:
        built.write_text(built.read_text().replace(told(gate)["program"], sha256(program)))
    assert run_gate(gate) == (1, "gate: 6 passed, 1 failed, 0 skipped, 0 not compared")


def test_a_gate_that_fails_notes_nothing(gate: SmallCheckout) -> None:
    """No program counts as proved by a gate that didn't pass."""
    (gate.kit / "fail").touch()
    status, line = run_gate(gate)
    assert status == 1 and " 0 passed" in line
    assert gate.which()[0] == 3


@pytest.mark.parametrize(
    "line, wanted",
    [
        (
            "tests: 4 passed, 1 failed, 0 skipped",
            "gate: 5 passed, 1 failed, 0 skipped, 1 not compared",
        ),
        (
            "tests: 4 passed, 0 failed, 1 skipped",
            "gate: 5 passed, 0 failed, 1 skipped, 1 not compared",
        ),
        ("they ended early", "gate: 1 passed, 1 failed, 0 skipped, 1 not compared"),
    ],
)
def test_what_fails_the_gate(gate: SmallCheckout, line: str, wanted: str) -> None:
    """A failure, a skip that nobody asked for, and tests that don't come to their end."""
    tell_tests(gate, line)
    assert run_gate(gate) == (1, wanted)


def test_a_skip_that_is_asked_for(gate: SmallCheckout) -> None:
    """`--without` reaches the tests, and what they skip is counted."""
    tell_tests(gate, "tests: 4 passed, 0 failed, 1 skipped")
    words = ("--without", "browsers")
    assert run_gate(gate, *words) == (0, "gate: 5 passed, 0 failed, 1 skipped, 1 not compared")
    assert (gate.folder / "words").read_text() == "--without browsers\n"


def test_packages_that_are_missing(gate: SmallCheckout) -> None:
    """Without root one line names them all, and nothing is proved."""
    (gate.folder / "installed").write_text("")
    status, line = run_gate(gate)
    assert status == 1
    names = line.removeprefix(
        "gate: these packages are missing, and root installs them: apt-get install "
    )
    listed = gate.call(
        "--all",
        *"build lab page tests browsers pack".split(),
        command=gate.top / "share/missing_packages",
    )
    assert names.split() == listed.output.decode().split()
    assert gate.builds() == 0
    without = run_gate(gate, "--without", "browsers")[1].split()
    assert "chromium" in line.split() and "chromium" not in without


def test_root_installs_packages(gate: SmallCheckout) -> None:
    """As root they are installed first, and the gate goes on."""
    installed = gate.folder / "installed"
    text = installed.read_text()
    installed.write_text(text.replace("shellcheck installed\n", ""))
    write_script(gate.bin / "id", "echo 0")
    write_script(gate.bin / "apt-get", f'echo "$*" >>"{gate.folder}/apt"')
    assert run_gate(gate)[0] == 0
    assert (gate.folder / "apt").read_text() == "install -y --no-install-recommends shellcheck\n"


def test_no_kit(gate: SmallCheckout) -> None:
    """The gate ends with one line."""
    (gate.bin / "rt").unlink()
    assert run_gate(gate) == (1, "gate: the command rt of the Rattle kit is missing")
