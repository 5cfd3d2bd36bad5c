"""What has to be believed is what the pages list, and the list fails where it is wrong.

Definitions are planted in forms that could slip past it, each in a copy of the sources.
"""

from __future__ import annotations

from collections.abc import Callable
from functools import cache

import pytest

from repository.believed.lists import Question, differences, repository_sources
from support.places import TOP

DEFINITIONS = "docs/trust/definitions.md"
SCEPTICS = "docs/trust/for-sceptics.md"
PROMISES = "docs/trust/promises.md"


@cache
def files() -> dict[str, str]:
    """Read the sources once."""
    return repository_sources()


def list_of(page: str, question: Question = Question()) -> tuple[list[str], int]:
    """Compare a page of the repository with its sources."""
    return differences(page, (TOP / page).read_text(), files(), question)


@pytest.mark.parametrize(
    "page, question",
    [
        (SCEPTICS, Question("two calls", "print_and_reduce")),
        (PROMISES, Question("whole promise", "sigma", "reduced")),
        (DEFINITIONS, Question()),
    ],
    ids=["print_and_reduce", "reduced", "sigma and program"],
)
def test_pages_list_what_has_to_be_believed(page: str, question: Question) -> None:
    """A page lists the modules that the clauses reach, with their lines."""
    assert list_of(page, question)[0] == []


@pytest.mark.parametrize("page", ["README.md", PROMISES])
def test_pages_name_how_many_lines_they_are(page: str) -> None:
    """A page names how many lines have to be believed for all clauses."""
    lines = f"{list_of(DEFINITIONS)[1]:,}"
    text = (TOP / page).read_text()
    assert any(not text[at - 1].isdigit() and text[at - 1] != "," for at in places(text, lines))


def places(text: str, part: str) -> list[int]:
    """List where a text has a part."""
    return [at for at in range(len(text)) if text.startswith(part, at)]


SAME = "crates/model_core/specs/Run/Same.antt"
OPTIONS = "crates/command_words/src/run_options.rt"
TOP_CALL = "crates/sigma_top/src/top_call.rt"
MARK = "-- the parameters of the first"
NOTICED = '"38" lines of model_core/specs/Run/Same to believe'
Edit = Callable[[str], str]


def before_line_2(text: str) -> Edit:
    """Put a line before the second one."""

    def edit(source: str) -> str:
        first, rest = source.split("\n", 1)
        return f"{first}\n{text}\n{rest}"

    return edit


def substitute(old: str, new: str) -> Edit:
    """Replace a part of each line that has it."""
    return lambda source: source.replace(old, new)


def at_end(text: str) -> Edit:
    """Add lines at the end."""
    return lambda source: f"{source}{text}\n"


def before_parameters(*lines: str) -> Edit:
    """Put lines in front of the parameters."""
    return lambda source: source.replace(f"\n{MARK}", "\n" + "\n".join([*lines, MARK]))


def define(head: str, equation: str, use: str) -> list[Edit]:
    """Put a definition in front of the parameters, and use it there."""
    return [
        before_parameters(head, equation),
        substitute("(vertex_at g 0)", f"(vertex_at g ({use}))"),
    ]


PLUS = "◌+++◌ : ℕ → ℕ → ℕ"
VIEW = "impl std::marker::Model for RunOptions {\n    ghost view = { λ o. in_range o };\n}"
PLANTED: dict[str, tuple[str, list[Edit], str]] = {
    "a definition among proofs": (
        SAME,
        [before_line_2("use Rattle.model_core.proofs.Planted.{planted}")],
        "imports planted of model_core.proofs.Planted",
    ),
    "a missing definition": (
        SAME,
        [before_line_2("use Rattle.model_core.specs.Run.Planted.{planted}")],
        "imports planted of",
    ),
    "a type by another name": (
        OPTIONS,
        [substitute("pub until: u64", "pub until: Planted"), at_end("pub type Planted = u64;")],
        "doesn't list Planted of the code",
    ),
    "a view by its whole name": (
        OPTIONS,
        [before_line_2("ghost use Rattle.model_core.specs.Run.State.{in_range};"), at_end(VIEW)],
        '"42" lines of model_core/specs/Run/State to believe',
    ),
    "a name with a hyphen": (
        SAME,
        define("planted-one : ℕ", "planted-one = 0", "planted-one"),
        NOTICED,
    ),
    "a name with a prime": (SAME, define("planted' : ℕ", "planted' = 0", "planted'"), NOTICED),
    "an operator as a section": (SAME, define(PLUS, "◌+++◌ a b = a", "(0 +++◌) 0"), NOTICED),
    "an operator by its name": (SAME, define(PLUS, "◌+++◌ a b = a", "◌+++◌ 0 0"), NOTICED),
    "an operator of words": (
        SAME,
        define("pick◌from◌ : ℕ → ℕ → ℕ", "pick◌from◌ a b = a", "pick 0 from 0"),
        NOTICED,
    ),
    "an import of a whole module": (
        SAME,
        [before_line_2("use Rattle.model_core.specs.Run.Planted")],
        "an import in a form",
    ),
    "an import of all that a module has": (
        SAME,
        [before_line_2("use Planted.*")],
        "an import in a form",
    ),
    "a whole path": (
        SAME,
        [
            substitute(
                "(vertex_at g 0)", "(vertex_at g Rattle.model_core.specs.Run.Planted.planted)"
            )
        ],
        "by its whole path",
    ),
    "an import over two lines": (
        TOP_CALL,
        [
            substitute(
                "ghost use Rattle.sig_base.specs.Faults.{HasRisen};",
                "ghost use Rattle.sig_base.specs.Faults.{\n    HasRisen};",
            )
        ],
        "an import in a form",
    ),
    "a name that is bound elsewhere in its equation": (
        SAME,
        [
            *define("planted : ℕ", "planted = 0", "planted"),
            substitute(
                "(λ v. parameter (variable_at g v))",
                "(λ planted. parameter (variable_at g planted))",
            ),
        ],
        "binds planted",
    ),
    "an axiom": (SAME, [before_parameters("axiom planted : ℕ")], "a line in a form"),
}


@pytest.mark.parametrize("path, edits, wanted", PLANTED.values(), ids=PLANTED.keys())
def test_planted_definitions_are_noticed(path: str, edits: list[Edit], wanted: str) -> None:
    """A definition that is planted is noticed."""
    source = files()[path]
    for edit in edits:
        planted = edit(source)
        assert planted != source, "the edit changes nothing"
        source = planted
    page = (TOP / DEFINITIONS).read_text()
    found, _ = differences(DEFINITIONS, page, {**files(), path: source}, Question())
    assert any(wanted in line for line in found), "\n".join(found)
