"""What is packed: the same bytes from any folder, with a proved program, and at home without a kit."""

from __future__ import annotations

import hashlib
import re
import shutil
import subprocess
import tarfile
from collections.abc import Callable
from pathlib import Path

import pytest

from home.small_checkout import KIT, VERDICT, SmallCheckout, sha256
from support.places import TOP, stored_answer
from support.program import Answer

REDUCED = stored_answer("one.reduce")
PARTS = (
    "README.md",
    "CHANGES.md",
    "CONTRIBUTING.md",
    "SECURITY.md",
    "docs",
    "examples",
    "lab",
    "install",
    "uninstall",
    "pack",
)
VERSION = (TOP / "VERSION").read_text().strip()
ARCHIVE = f"sigma-{VERSION}-x86_64-linux.tar.gz"
PACKAGE = f"sigma_{VERSION}_amd64.deb"


def pack(checkout: SmallCheckout, folder: str, *words: str) -> Answer:
    """Pack a checkout into a folder beside it. A small site stands in, since `test_site` builds the whole one."""
    return checkout.call(
        *words,
        str(checkout.folder / folder),
        command=checkout.top / "pack",
        environment=checkout.environment(SITE=str(small_site(checkout))),
    )


def small_site(checkout: SmallCheckout) -> Path:
    """Make a site of one page beside a checkout."""
    site = checkout.folder / "site"
    site.mkdir(exist_ok=True)
    (site / "index.html").write_text("<!doctype html><title>SIGMA</title>\n")
    return site


@pytest.fixture
def packable(checkout: SmallCheckout) -> SmallCheckout:
    """Make a checkout with all that is packed, and with dist/, committed."""
    for name in PARTS:
        source, goal = TOP / name, checkout.top / name
        if source.is_dir():
            shutil.copytree(
                source,
                goal,
                dirs_exist_ok=True,
                ignore=shutil.ignore_patterns("__pycache__", "out"),
            )
        elif source.exists():
            shutil.copy(source, goal)
    (checkout.top / ".gitignore").write_text("out/\n__pycache__/\n")
    page = "<!doctype html>\n"
    checkout.give_dist(page=hashlib.sha256(page.encode()).hexdigest(), page_verdict=VERDICT)
    (checkout.top / "dist/sigma.html").write_text(page)
    checkout.commit()
    return checkout


def test_two_packs_are_the_same_bytes(packable: SmallCheckout) -> None:
    """From two folders, into two folders, and with another umask."""
    assert pack(packable, "first").status == 0
    other = packable.folder / "another folder"
    shutil.copytree(packable.top, other, symlinks=True)
    again: list[str | Path] = [
        "sh",
        "-c",
        'umask 077; "$1/pack" "$2"',
        "sh",
        other,
        packable.folder / "second",
    ]
    environment = packable.environment(SITE=str(small_site(packable)))
    subprocess.run(again, check=True, env=environment, capture_output=True)
    for name in (ARCHIVE, PACKAGE, "SHA256SUMS"):
        first, second = packable.folder / "first" / name, packable.folder / "second" / name
        assert first.read_bytes() == second.read_bytes(), name


def test_the_checksums_beside_the_archive(packable: SmallCheckout) -> None:
    """SHA256SUMS has both files as they are."""
    assert pack(packable, "first").status == 0
    folder = packable.folder / "first"
    wanted = "".join(f"{sha256(folder / name)}  {name}\n" for name in (ARCHIVE, PACKAGE))
    assert (folder / "SHA256SUMS").read_text() == wanted


def test_an_archive_at_home(packable: SmallCheckout) -> None:
    """It says what it was built from, installs without a kit, answers, and removes itself."""
    assert pack(packable, "first").status == 0
    with tarfile.open(packable.folder / "first" / ARCHIVE) as archive:
        members = archive.getmembers()
        assert {(member.uname, member.uid, member.gid) for member in members} == {("", 0, 0)}
        archive.extractall(packable.folder)
    top = packable.folder / f"sigma-{VERSION}"
    subprocess.run(["sha256sum", "--quiet", "-c", "SHA256SUMS"], cwd=top, check=True)
    assert (top / "html/index.html").read_text() == "<!doctype html><title>SIGMA</title>\n"
    built = dict(line.split(" ", 1) for line in (top / "BUILT").read_text().splitlines())
    assert (built["version"], built["kit"], built["verdict"]) == (VERSION, KIT, VERDICT)
    assert built["program"] == sha256(top / "sigma") and built["page"] == sha256(top / "sigma.html")
    assert re.fullmatch(r"[0-9a-f]{40} of 2001-02-03T04:05:06Z", built["commit"])
    home = packable.folder / "home"
    assert packable.call(command=top / "install").status == 0
    packable.call("reduce", command=home / ".local/bin/sigma").gives(REDUCED)
    which = packable.call("--which", command=home / ".local/bin/sigma")
    assert which.status == 0 and VERDICT in which.output.decode()
    assert (home / ".local/lib/sigma/sigma.html").read_text() == "<!doctype html>\n"
    assert packable.call(command=home / ".local/lib/sigma/uninstall").status == 0
    assert not (home / ".local").exists()


def test_the_debian_package(packable: SmallCheckout, needs: Callable[[str], str]) -> None:
    """What dpkg unpacks answers, its version orders, and lintian finds no error in it."""
    assert pack(packable, "first").status == 0
    deb = packable.folder / "first" / PACKAGE
    subprocess.run([needs("dpkg-deb"), "-x", deb, packable.folder / "unpacked"], check=True)
    usr = packable.folder / "unpacked/usr"
    packable.call("reduce", command=usr / "bin/sigma").gives(REDUCED)
    assert not (usr / "lib/sigma/installed").exists()
    shown = subprocess.run(
        [needs("dpkg-deb"), "-f", deb], check=True, capture_output=True
    ).stdout.decode()
    fields = dict(re.findall(r"^(\w[\w-]*): (.*)$", shown, re.MULTILINE))
    assert fields["Version"] == VERSION
    assert {"libc6 (>= 2.34)", "python3", "python3-numpy"} <= set(fields["Depends"].split(", "))
    older = [needs("dpkg"), "--compare-versions", "0~20261201.24f4169fb3", "lt", VERSION]
    subprocess.run(older, check=True)
    found = subprocess.run(
        [needs("lintian"), "--fail-on", "error", deb], capture_output=True, check=False
    )
    lines = [line for line in found.stdout.decode().splitlines() if line.startswith("E:")]
    # The author of this commit is made up, and the stand-in for the program isn't stripped, as the release strips it.
    of_this_test = ("bogus-mail-host", "unstripped-binary-or-object")
    assert [line for line in lines if not any(tag in line for tag in of_this_test)] == []


def test_what_is_not_packed(packable: SmallCheckout) -> None:
    """Files that differ from the commit, a program of other sources, and one that was changed."""
    readme = packable.top / "README.md"
    text = readme.read_text()
    readme.write_text(text + "more\n")
    pack(packable, "first").refuses(1, "pack: the files differ from the commit")
    readme.write_text(text)
    old = "pack: dist/ isn't of the sources as they are: ./release writes it, after the gate"
    packable.write_source("fn main() {} // second\n")
    packable.commit()
    pack(packable, "first").refuses(1, old)
    packable.give_dist(program="0" * 64)
    packable.commit()
    pack(packable, "first").refuses(1, old)
    assert not (packable.folder / "first").exists()


def test_a_page_that_was_changed(packable: SmallCheckout) -> None:
    """BUILT names another page, so nothing is packed."""
    (packable.top / "dist/sigma.html").write_text("changed\n")
    packable.commit()
    assert pack(packable, "first").status == 1
    assert list((packable.folder / "first").iterdir()) == []


def test_a_program_that_is_not_proved(packable: SmallCheckout) -> None:
    """`--unproved` packs what the launcher built, and the version and BUILT say so."""
    packable.write_source("fn main() {} // second\n")
    packable.commit()
    packable.give_kit()
    # The stand-in proves what it builds; without the verdict it is as a quick build is.
    assert packable.call("reduce").status == 0
    (proved,) = (packable.top / "out").glob("proved.*")
    built = proved / "BUILT"
    built.write_text(re.sub(r"verdict .*\n", "", built.read_text()))
    proved.rename(proved.with_name(proved.name.replace("proved", "quick")))
    assert pack(packable, "first", "--unproved").status == 0
    with tarfile.open(
        packable.folder / "first" / f"sigma-{VERSION}~unproved-x86_64-linux.tar.gz"
    ) as archive:
        told = archive.extractfile(f"sigma-{VERSION}~unproved/BUILT")
        assert told is not None and b"verdict none: the program isn't proved\n" in told.read()


@pytest.mark.parametrize("words", [["a", "b"], ["--all"]])
def test_wrong_words(packable: SmallCheckout, words: list[str]) -> None:
    """They are refused."""
    answer = packable.call(*words, command=packable.top / "pack")
    answer.refuses(1, "pack: the words are --unproved and one folder")


def test_the_version_is_semantic() -> None:
    """VERSION has three numbers, and CHANGES.md has a section for it, at its beginning."""
    assert re.fullmatch(r"[1-9]\d*\.\d+\.\d+", VERSION)
    first = re.search(r"^## (\S+)", (TOP / "CHANGES.md").read_text(), re.MULTILINE)
    assert first is not None and first.group(1).rstrip(",") == VERSION


def test_the_container_has_no_list_of_its_own() -> None:
    """Containerfile takes its packages from the one list, whose lines are a package and groups."""
    text = (TOP / "Containerfile").read_text()
    assert "/sigma/share/missing_packages --all build lab page tests browsers pack" in text
    groups = {"build", "lab", "page", "tests", "browsers", "pack"}
    lines = [
        line.split()
        for line in Path(TOP / "share/packages").read_text().splitlines()
        if line[0] != "#"
    ]
    names = [words[0] for words in lines]
    assert len(names) == len(set(names)) and all(
        set(words[1:]) <= groups and words[1:] for words in lines
    )
