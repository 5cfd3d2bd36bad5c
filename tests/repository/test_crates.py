"""A crate takes of the crates below it what they promise, and no more.

Lemmas are cited only from the base, from the definitions' crate, from the crate of round trips and
from crates that hold nothing but laws; nothing is cited that restates another crate's code.
"""

from __future__ import annotations

import re
from collections.abc import Iterator
from pathlib import Path

from support.places import TOP, kept_files

CITED = re.compile(r"(?:Rattle\.)?\b([a-z_]+)(?:\.|::)(proofs|specs(?:\.|::)Inner)(?:\.|::)")
LENDING = {"sig_base", "model_core", "round_trip"}


def is_lent(owner: str, what: str) -> bool:
    """Answer whether what a crate has may be cited by another one."""
    return what == "proofs" and (owner.endswith("_laws") or owner in LENDING)


def citations(crate: str, text: str, crates: set[str]) -> Iterator[str]:
    """List what the text of a crate cites that is another crate's own."""
    for owner, what in CITED.findall(text):
        if owner in crates and owner not in (crate, "crate", "std") and not is_lent(owner, what):
            yield f"{owner}.{what}"


def sources() -> list[Path]:
    """List the sources of the crates."""
    return kept_files("crates/*.rt", "crates/*.antt")


def test_what_is_another_crates_own_is_cited_nowhere() -> None:
    """No source cites what is another crate's own."""
    crates = {path.name for path in (TOP / "crates").iterdir() if path.is_dir()}
    wrong = []
    for path in sources():
        crate = path.relative_to(TOP / "crates").parts[0]
        wrong += [
            f"{path.relative_to(TOP)}: {c}" for c in citations(crate, path.read_text(), crates)
        ]
    assert not wrong
    assert len(sources()) > 1000


def test_citations_are_found() -> None:
    """Each form of a citation is found, and what is lent isn't reported."""
    crates = {"reducer", "model_core", "bound_laws", "sig_expr"}
    text = "use Rattle.reducer.proofs.A.{b}\nreducer::specs::Inner::x(\nmodel_core.specs.Inner.C\n"
    wanted = ["reducer.proofs", "reducer.specs::Inner", "model_core.specs.Inner"]
    assert list(citations("sig_expr", text, crates)) == wanted
    lent = "bound_laws.proofs.A model_core::proofs::b crate::proofs::c std.proofs.d other.proofs.e"
    assert not list(citations("sig_expr", lent, crates))
