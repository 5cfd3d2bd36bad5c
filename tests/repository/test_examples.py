"""The example models: their stored answers, and that what they are reduced to is a model again."""

from __future__ import annotations

import re
from pathlib import Path

import pytest

from support.models import replaced, shop_of_another_kind
from support.places import ANSWERS, EXAMPLES, example, stored_answer
from support.program import Program

MODELS = sorted(EXAMPLES.glob("*.sigma"))
STORED = sorted(path for path in ANSWERS.iterdir() if path.suffix != ".words")
REDUCED = [path for path in STORED if path.suffix == ".reduce"]


def name_of(path: Path) -> str:
    """Name a test by its file."""
    return path.name


@pytest.mark.parametrize("path", MODELS, ids=name_of)
def test_models(path: Path, call: Program) -> None:
    """Each example is a model."""
    named = re.search(rb"^model (\w+);", path.read_bytes(), re.MULTILINE)
    assert named, "it names no model"
    call("check", path).gives(b"accepted " + named[1] + b"\n")


@pytest.mark.parametrize("path", STORED, ids=name_of)
def test_stored_answers(path: Path, call: Program) -> None:
    """A stored answer is what the program writes.

    It is named by its example and its command; the words are in a file beside it if they are more
    than the command.
    """
    name, command = path.name.split(".", 1)
    words = path.with_name(path.name + ".words")
    call(words.read_text() if words.exists() else command, example(name)).gives(path.read_bytes())


def reduced_model(path: Path) -> bytes:
    """Read a reduced model without its certificate."""
    return path.read_bytes().split(b"\ncertificate\n")[0] + b"\n"


@pytest.mark.parametrize("path", REDUCED, ids=name_of)
def test_nothing_is_left_to_reduce(path: Path, call: Program) -> None:
    """A reduced model is reduced to itself."""
    smaller = reduced_model(path)
    call("reduce", smaller).gives(smaller + b"certificate\nend\n")


@pytest.mark.parametrize("path", REDUCED, ids=name_of)
def test_reduced_models_are_canonical(path: Path, call: Program) -> None:
    """A reduced model is printed as itself."""
    smaller = reduced_model(path)
    call("print", smaller).gives(smaller)


@pytest.mark.parametrize("path", REDUCED, ids=name_of)
def test_certificates(path: Path, call: Program) -> None:
    """An example with what it is reduced to is a document whose certificate holds."""
    call("certify", example(path.stem) + path.read_bytes()).gives(b"sound\n")


def test_a_certificate_of_another_edge(call: Program) -> None:
    """A certificate doesn't hold with another edge."""
    document = example("one") + stored_answer("one.reduce")
    other = replaced(document, (b"\nprune RUN 1\n", b"\nprune RUN 2\n"))
    call("certify", other).ends(8, b"rejected 1\n")


def test_a_certificate_without_its_last_word(call: Program) -> None:
    """A certificate without its last word is none."""
    document = example("one") + stored_answer("one.reduce").removesuffix(b"end\n")
    call("certify", document).refuses(1, f"sigma: byte {len(document)}: unexpected")


def test_the_shop_is_canonical(call: Program) -> None:
    """The shop is written in its canonical text, and printed so from one line."""
    shop = example("shop")
    call("check", shop).gives(b"accepted SHOP\n")
    call("print", shop).gives(shop)
    call("print", shop.replace(b"\n", b" ")).gives(shop)


def test_a_truth_value_for_a_number(call: Program) -> None:
    """A variable of another kind is refused where it is used."""
    call("check", shop_of_another_kind()).refuses(1, "sigma: byte 59: kind mismatch")


@pytest.mark.parametrize("command", ["fuse", "narrow"])
def test_the_ferry_once_more(command: str, call: Program) -> None:
    """What is fused or narrowed stays as it is when that is done again."""
    ferry = stored_answer(f"ferry.{command}")
    call(command, ferry).gives(ferry)


@pytest.mark.parametrize("command", ["conflicts", "uses"])
def test_a_model_of_one_event(command: str, call: Program) -> None:
    """For a model of no variable and one event nothing is written."""
    call(command, b"model NONE; vertex RUN { } end").gives(b"")


def test_there_are_examples() -> None:
    """None of the lists is empty, and each stored answer has its example."""
    assert len(MODELS) > 25 and len(STORED) > 50 and len(REDUCED) > 25
    names = {path.stem for path in MODELS}
    assert {path.name.split(".")[0] for path in ANSWERS.iterdir()} <= names
