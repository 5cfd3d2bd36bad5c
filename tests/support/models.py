"""Model texts that several tests need."""

from __future__ import annotations

from support.places import example

CLOCK = (
    "model CLOCK;\nvar N : 0..3 clip = 0;\nwatch N;\n"
    "vertex RUN {\n  set N := N + 1;\n  schedule RUN after 5;\n}\nend\n"
)


def faulty_desk() -> bytes:
    """Make the desk with room for one customer, and a service of 14 ticks: it faults."""
    return replaced(example("desk"), (b"0..20", b"0..1"), (b"after 4", b"after 14"))


def shop_of_another_kind() -> bytes:
    """Make the shop with a number where a truth value is needed: it is no model."""
    return replaced(example("shop"), (b"FREE : bool", b"FREE : 0..1"))


def replaced(text: bytes, *pairs: tuple[bytes, bytes]) -> bytes:
    """Replace the first of each pair by the second, each of which has to be there."""
    for old, new in pairs:
        assert old in text, f"the text has no {old!r}"
        text = text.replace(old, new)
    return text


def filled(text: bytes, length: int) -> bytes:
    """Add so many blanks to a text that it has this length."""
    return text.ljust(length)


def vertex(name: str, *lines: str) -> str:
    """Write a vertex with these lines."""
    return f"vertex {name} {{\n" + "".join(f"  {line}\n" for line in lines) + "}\n"
