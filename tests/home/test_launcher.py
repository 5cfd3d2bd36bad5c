"""The launcher: which program answers, when it is built, and that it is of the sources as they are."""

from __future__ import annotations

import os
import shutil
import time
from pathlib import Path

import pytest

from home.small_checkout import CRATE, KEPT, KIT, SOURCE, VERDICT, SmallCheckout, sha256
from support.places import TOP, stored_answer

REDUCED = stored_answer("one.reduce")


def answers(checkout: SmallCheckout) -> None:
    """Fail unless the launcher gives the answer and says nothing else."""
    checkout.call("reduce").gives(REDUCED)


def wait_for_clock() -> None:
    """Wait until a change of the files is old enough to be noted."""
    time.sleep(3.2)


def looks_closely(checkout: SmallCheckout) -> bool:
    """Tell whether the next call computes the checksums of the sources."""
    counted = checkout.bin / "sha256sum"
    real = shutil.which("sha256sum")
    log = checkout.folder / "sums"
    log.unlink(missing_ok=True)
    counted.unlink()
    counted.write_text(f'#!/bin/sh\necho >>"{log}"\nexec {real} "$@"\n')
    counted.chmod(0o755)
    answers(checkout)
    return log.exists()


def test_nothing_is_there_and_no_kit(checkout: SmallCheckout) -> None:
    """One line says what is missing."""
    line = "sigma: it must be built first, and the command rt of the Rattle kit is missing"
    checkout.call("reduce").refuses(127, line)
    assert checkout.which()[0] == 3


def test_dist_answers_without_a_kit(checkout: SmallCheckout) -> None:
    """The program of dist/ answers at once, and counts as proved."""
    checkout.give_dist()
    answers(checkout)
    status, told = checkout.which()
    assert (status, told["kit"], told["verdict"]) == (0, KIT, VERDICT)
    assert told["program"] == str(checkout.top / "dist/sigma")


@pytest.mark.parametrize(
    "other", [{"sources": "0" * 64}, {"program": "0" * 64}], ids=["sources", "program"]
)
def test_dist_that_is_not_of_these_sources_is_not_used(
    checkout: SmallCheckout, other: dict[str, str]
) -> None:
    """BUILT names other sources or another program, so nothing of dist/ answers."""
    checkout.give_dist(**other)
    assert checkout.call("reduce").status == 127
    assert checkout.which()[0] == 3


def test_what_is_proved_here_comes_before_dist(checkout: SmallCheckout) -> None:
    """`--prove` builds once, though dist/ has a program, and that one answers from then on."""
    checkout.give_dist()
    answers(checkout)
    checkout.give_kit()
    assert checkout.call("--prove").status == 0
    assert checkout.call("--prove").status == 0
    assert checkout.builds() == 1
    status, told = checkout.which()
    assert status == 0
    assert told["program"].startswith(str(checkout.top / "out/proved."))
    answers(checkout)


def test_the_slow_way_after_the_quick_one(checkout: SmallCheckout) -> None:
    """A kit that lowers no program still proves and builds it, and the second call builds nothing."""
    checkout.give_kit()
    answer = checkout.call("reduce")
    assert (answer.status, answer.output) == (0, REDUCED)
    lines = answer.errors.decode().splitlines()
    assert [line.split(":")[0] for line in lines] == ["sigma"] * 4
    assert "isn't proved" not in lines[0] and "not proved here" in lines[0]
    answers(checkout)
    assert checkout.builds() == 1
    assert checkout.which()[1]["verdict"] == VERDICT


def test_a_build_that_fails(checkout: SmallCheckout) -> None:
    """The last line names the log, and nothing is kept."""
    checkout.give_kit()
    (checkout.kit / "fail").touch()
    answer = checkout.call("reduce")
    assert answer.status == 126 and answer.output == b""
    assert answer.errors.decode().splitlines()[-1].endswith(f"see {checkout.top}/out/build.log")
    assert not [name for name in checkout.kept() if "." in name and not name.endswith(".log")]


def test_a_build_without_a_verdict_is_not_kept(checkout: SmallCheckout) -> None:
    """No program counts as proved without the prover's line."""
    checkout.give_kit(f"== {CRATE}\nlogic=not-proved functions=1\nrt: {CRATE} NOT PROVED")
    assert checkout.call("reduce").status == 126
    assert checkout.which()[0] == 3


def test_what_the_kit_kept_counts_as_proved(checkout: SmallCheckout) -> None:
    """A kit that proved the same files before gives no new verdict."""
    checkout.give_kit(KEPT)
    assert checkout.call("reduce").output == REDUCED
    status, told = checkout.which()
    assert (status, told["verdict"]) == (0, KEPT.removeprefix("rt: "))


def test_a_program_that_answers_wrongly_is_not_kept(checkout: SmallCheckout) -> None:
    """The example decides whether a program counts, and no version of a kit does."""
    wrong = checkout.folder / "wrong"
    wrong.write_text("#!/bin/sh\necho wrong\nexit\n")
    checkout.program = wrong
    checkout.give_kit()
    assert checkout.call("reduce").status == 126


def test_help_on_a_pipe_is_the_programs_own_line(checkout: SmallCheckout) -> None:
    """Only a terminal gets help."""
    checkout.give_dist()
    checkout.call("--help").refuses(2, "sigma: bad command line")


def test_the_version_needs_no_program(checkout: SmallCheckout) -> None:
    """`--version` writes what the file VERSION has."""
    checkout.call("--version").gives(b"sigma " + (TOP / "VERSION").read_bytes())


def test_a_changed_program_is_named(checkout: SmallCheckout) -> None:
    """A program in `out` that isn't the one that was built doesn't answer."""
    checkout.give_kit()
    assert checkout.call("reduce").status == 0
    (program,) = (checkout.top / "out").glob("proved.*/sigma")
    with program.open("ab") as file:
        file.write(b"more")
    (checkout.bin / "rt").unlink()
    assert checkout.call("reduce").status == 127


def give_old_find(checkout: SmallCheckout) -> None:
    """Put a `find` into PATH that takes no names from a file, as older ones."""
    real = shutil.which("find")
    old = checkout.bin / "find"
    old.unlink()
    old.write_text(f'#!/bin/sh\n[ "$1" != -files0-from ] || exit 1\nexec {real} "$@"\n')
    old.chmod(0o755)


@pytest.mark.parametrize("old_find", [False, True], ids=["this find", "older find"])
def test_a_later_call_sums_nothing(checkout: SmallCheckout, old_find: bool) -> None:
    """While no file changes, the last choice holds."""
    if old_find:
        give_old_find(checkout)
    checkout.give_dist()
    wait_for_clock()
    answers(checkout)
    assert not looks_closely(checkout)


def test_a_choice_without_its_files_is_made_again(checkout: SmallCheckout) -> None:
    """So is one that an older launcher left, and nothing is said of it."""
    checkout.give_dist()
    wait_for_clock()
    answers(checkout)
    (checkout.top / "out" / "choice.files").unlink()
    assert looks_closely(checkout)
    answers(checkout)


def change_in_place(checkout: SmallCheckout) -> None:
    """Change one byte, and give the file its old time of writing."""
    path = checkout.top / SOURCE
    before = path.stat()
    path.write_text(path.read_text().replace("first", "forst"))
    os.utime(path, ns=(before.st_atime_ns, before.st_mtime_ns))


def add_file(checkout: SmallCheckout) -> None:
    """Add a definition, which no other file needs to name."""
    specs = checkout.top / "crates/sigma_cli/src/inner"
    specs.mkdir()
    (specs / "more.rt").write_text("")


def put_other_file(checkout: SmallCheckout) -> None:
    """Put an older file of the same length in the place of the source."""
    path = checkout.top / SOURCE
    other = checkout.folder / "other.rt"
    other.write_text(path.read_text().replace("first", "forst"))
    os.utime(other, (1, 1))
    other.rename(path)


def change_dist(checkout: SmallCheckout) -> None:
    """Change the program of dist/."""
    with (checkout.top / "dist/sigma").open("ab") as file:
        file.write(b"more")


@pytest.mark.parametrize("old_find", [False, True], ids=["this find", "older find"])
@pytest.mark.parametrize("change", [change_in_place, add_file, put_other_file, change_dist])
def test_each_change_is_seen(checkout: SmallCheckout, change: object, old_find: bool) -> None:
    """After a change of the sources or of dist/, the program of before answers no more."""
    if old_find:
        give_old_find(checkout)
    checkout.give_dist()
    wait_for_clock()
    answers(checkout)
    assert not looks_closely(checkout)
    assert callable(change)
    change(checkout)
    assert checkout.call("reduce").status == 127


def test_a_change_that_is_undone(checkout: SmallCheckout) -> None:
    """The sums decide: the same text again has its program again."""
    checkout.give_dist()
    text = (checkout.top / SOURCE).read_text()
    checkout.write_source("fn main() {} // other\n")
    assert checkout.call("reduce").status == 127
    checkout.write_source(text)
    answers(checkout)


def test_a_checkout_that_cannot_be_written(checkout: SmallCheckout) -> None:
    """The user's cache has the program then, and nothing is written into the checkout."""
    checkout.give_kit()
    # A file in the place of the folder keeps root out too.
    (checkout.top / "out").write_text("")
    assert checkout.call("reduce").status == 0
    answers(checkout)
    assert checkout.builds() == 1
    assert list((checkout.folder / "home/.cache/sigma").glob("*/proved.*/sigma"))


def test_no_place_to_build(checkout: SmallCheckout) -> None:
    """One line names the place that can't be written."""
    checkout.give_kit()
    (checkout.top / "out").write_text("")
    environment = checkout.environment(XDG_CACHE_HOME="/dev/null/cache")
    answer = checkout.call("reduce", environment=environment)
    assert answer.status == 126 and b"can't be written" in answer.errors


@pytest.mark.parametrize("folder", ["plain", "line\nfeed\n", "-dash", "star*[a]"])
def test_odd_folders(checkout: SmallCheckout, folder: str) -> None:
    """The launcher finds its checkout by any name, also through links, and from anywhere."""
    checkout.give_dist()
    moved = checkout.folder / folder
    checkout.top.rename(moved)
    checkout.top = moved
    first, second = checkout.folder / "first", checkout.bin / "second"
    first.symlink_to(moved / "sigma")
    second.symlink_to(os.path.relpath(first, checkout.bin))
    for command in (moved / "sigma", first, second):
        checkout.call("reduce", command=command).gives(REDUCED)


def test_the_note_describes_the_bytes(checkout: SmallCheckout) -> None:
    """BUILT beside a built program has its checksum and the sum of its sources."""
    checkout.give_kit()
    assert checkout.call("reduce").status == 0
    (program,) = (checkout.top / "out").glob("proved.*/sigma")
    told = dict(line.split(" ", 1) for line in (program.parent / "BUILT").read_text().splitlines())
    assert told["program"] == sha256(program)
    assert (
        told["sources"] == checkout.sum_of_sources() == Path(program.parent).name[len("proved.") :]
    )
    assert (told["kit"], told["verdict"]) == (KIT, VERDICT)


def test_the_lab_builds_nothing(checkout: SmallCheckout) -> None:
    """The lab beside the sources takes the program of dist/, or says that none is there."""
    shutil.copytree(TOP / "lab", checkout.top / "lab", ignore=shutil.ignore_patterns("__pycache__"))
    lab = checkout.top / "lab/sigma-lab"
    words = ("place", str(TOP / "examples/desk.sigma"))
    checkout.give_kit()
    line = "sigma-lab: sigma: there is no program sigma: set SIGMA to its path"
    checkout.call(*words, command=lab).refuses(1, line)
    assert checkout.builds() == 0
    checkout.give_dist()
    assert line.encode() not in checkout.call(*words, command=lab).errors
