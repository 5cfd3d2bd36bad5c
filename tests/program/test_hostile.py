"""Hostile texts: too deep, too large, or no text at all. `test_devices` has those that fail."""

from __future__ import annotations

import os
import re

import pytest

from support.models import replaced
from support.places import example, stored_answer
from support.program import Program

# How long a text may be, and how many openings a part may have.
MOST = 4_194_304
OPENINGS = 256

NUMBER, TRUTH = "0..9 = 0", "bool = false"

# The kind of a variable, then a value: so many fronts, a middle and as many backs. Then how many
# openings a front has, and which of its bytes is the first one.
FORMS = [
    (NUMBER, "(", "1", ")", 1, 0),
    (NUMBER, "-", "1", "", 1, 0),
    (NUMBER, "1 + ", "1", "", 1, 2),
    (NUMBER, "1 - ", "1", "", 1, 2),
    (NUMBER, "1 * ", "1", "", 1, 2),
    (NUMBER, "1 / ", "1", "", 1, 2),
    (NUMBER, "1 % ", "1", "", 1, 2),
    (NUMBER, "if true then 1 else ", "2", "", 1, 0),
    (NUMBER, "min(", "1", ", 2)", 2, 0),
    (NUMBER, "max(1, ", "2", ")", 2, 0),
    (NUMBER, "A[", "1", "]", 1, 1),
    (TRUTH, "not ", "true", "", 1, 0),
    (TRUTH, "true and ", "true", "", 1, 5),
    (TRUTH, "true or ", "true", "", 1, 5),
    (TRUTH, "true = (", "true", ")", 2, 5),
    (TRUTH, "true <> (", "true", ")", 2, 5),
    (TRUTH, "if ", "true", " then true else false", 1, 0),
]


def one_value(kind: str, value: str) -> bytes:
    """Write a model with one change to this value."""
    text = (
        f"model M;\nvar X : {kind};\nvar A[2] : 0..1 = 0;\nvertex RUN {{\n  set X := {value};\n}}\n"
    )
    return (text + "end\n").encode()


@pytest.mark.parametrize("form", FORMS, ids=[form[1] for form in FORMS])
def test_as_many_openings_as_a_part_may_have(
    form: tuple[str, str, str, str, int, int], call: Program
) -> None:
    """A part may have 256 openings."""
    kind, front, middle, back, openings, _ = form
    times = OPENINGS // openings
    call("check", one_value(kind, front * times + middle + back * times)).gives(b"accepted M\n")


@pytest.mark.parametrize("form", FORMS, ids=[form[1] for form in FORMS])
def test_an_opening_more(form: tuple[str, str, str, str, int, int], call: Program) -> None:
    """The next opening is reported at its byte."""
    kind, front, middle, back, openings, first = form
    times = OPENINGS // openings
    value = front * (times + 1) + middle + back * (times + 1)
    text = one_value(kind, value)
    place = text.index(b"set X := ") + len("set X := ") + times * len(front) + first
    call("check", text).refuses(1, f"sigma: byte {place}: too deep")


# The same in a text whose variable isn't declared, with values that have no kind too. A line has
# how often front and back are written, and the byte of the opening that is one too many.
UNDECLARED = [
    (256, 285, "(", "1", ")"),
    (256, 1053, "not ", "true", ""),
    (256, 285, "-", "1", ""),
    (256, 5149, "if true then 1 else ", "2", ""),
    (256, 797, "if ", "true", " then true else true"),
    (128, 541, "min(", "1", ", 2)"),
    (128, 925, "max(1, ", "2", ")"),
    (256, 542, "X[", "1", "]"),
    (256, 1055, "1 + ", "1", ""),
    (128, 671, "1 - (", "1", ")"),
    (256, 1055, "1 * ", "1", ""),
    (256, 2338, "true and ", "true", ""),
    (128, 1570, "true or not ", "true", ""),
    (256, 1055, "1 - ", "1", ""),
    (256, 1055, "1 / ", "1", ""),
    (256, 1055, "1 % ", "1", ""),
    (128, 671, "1 = (", "1", ")"),
    (128, 799, "1 <> (", "1", ")"),
    (128, 671, "1 < (", "1", ")"),
    (128, 799, "1 <= (", "1", ")"),
    (128, 671, "1 > (", "1", ")"),
    (128, 799, "1 >= (", "1", ")"),
]


def undeclared_value(value: str) -> bytes:
    """Write a model with a change of a variable that isn't declared."""
    return f"model M; vertex A {{ set X := {value}; }} end".encode()


@pytest.mark.parametrize("form", UNDECLARED, ids=[form[2] for form in UNDECLARED])
def test_an_undeclared_variable_in_a_deep_text(
    form: tuple[int, int, str, str, str], call: Program
) -> None:
    """The text is read to its end if nothing is too deep."""
    times, _, front, middle, back = form
    text = undeclared_value(front * times + middle + back * times)
    call("check", text).refuses(1, "sigma: byte 24: unknown name")


@pytest.mark.parametrize("form", UNDECLARED, ids=[form[2] for form in UNDECLARED])
def test_an_undeclared_variable_in_too_deep_a_text(
    form: tuple[int, int, str, str, str], call: Program
) -> None:
    """An opening that is one too many is reported before the name."""
    times, place, front, middle, back = form
    text = undeclared_value(front * (times + 1) + middle + back * (times + 1))
    call("check", text).refuses(1, f"sigma: byte {place}: too deep")


@pytest.mark.parametrize(
    "head, times, line",
    [
        ("model M; vertex A { set X := ", 256, "285: unexpected"),
        ("model M; vertex A { set X := ", 257, "285: too deep"),
        ("model ; ", 256, "6: unexpected"),
        ("model ; ", 257, "264: too deep"),
    ],
)
def test_openings_are_counted_first(head: str, times: int, line: str, call: Program) -> None:
    """Openings are counted before the grammar is tried."""
    call("check", (head + "(" * times).encode()).refuses(1, f"sigma: byte {line}")


def test_each_part_has_its_own_openings(call: Program) -> None:
    """Three parts of 256 openings each aren't too deep."""
    text = "model M; vertex A { " + ("set X := " + "-" * 256 + "1; ") * 3 + "} end"
    call("check", text.encode()).refuses(1, "sigma: byte 24: unknown name")


# Texts of one part alone, as long as a text may be. What begins no model is reported at its first
# word, and what is missing at the text's end. Two points are a symbol, and one begins no token.
@pytest.mark.parametrize(
    "part, line",
    [
        ("(", "byte 256: too deep"),
        ("-", "byte 256: too deep"),
        ("not ", "byte 1024: too deep"),
        ("A", "byte 0: unexpected"),
        ("7", "byte 0: unexpected"),
        (";", "byte 0: unexpected"),
        ("#", f"byte {MOST}: unexpected"),
        (".", "byte 0: unexpected"),
        ("\n", f"byte {MOST}: unexpected"),
        ("\0", "byte 0: bad byte"),
    ],
    ids=["(", "-", "not", "A", "7", ";", "#", ".", "line feed", "zero"],
)
def test_one_part_again_and_again(part: str, line: str, call: Program) -> None:
    """A text of nothing but one part is refused."""
    text = (part * (MOST // len(part))).encode()
    call("check", text).refuses(1, f"sigma: {line}")


def test_a_point(call: Program) -> None:
    """A point alone begins no token."""
    call("check", b".").refuses(1, "sigma: byte 0: bad byte")


def test_a_name_of_four_million_letters(call: Program) -> None:
    """A name that long is refused where it begins."""
    text = b"model " + b"A" * 4_000_000 + b"; vertex RUN { } end"
    call("check", text).refuses(1, "sigma: byte 6: name too long")


def test_a_number_of_four_million_digits(call: Program) -> None:
    """A number that long is refused where it begins."""
    text = b"model M; var X : 0.." + b"9" * 4_000_000 + b" = 0; vertex RUN { } end"
    call("check", text).refuses(1, "sigma: byte 20: literal too large")


@pytest.mark.parametrize("command", ["check", "certify", "resume --until 1 --events 1"])
@pytest.mark.parametrize("attempt", range(8))
def test_random_bytes(command: str, attempt: int, call: Program) -> None:
    """Random bytes are refused by one line with a byte of theirs, and nothing is written."""
    answer = call(command, os.urandom(65_536))
    form = rb"sigma: byte ([0-9]+): (?:bad byte|unexpected|too deep)\n"
    said = re.fullmatch(form, answer.errors)
    assert answer.status == 1 and answer.output == b""
    assert said and int(said[1]) <= 65_536, answer.errors


def test_a_byte_order_mark(call: Program) -> None:
    """A mark of the encoding begins no token."""
    text = b"\xef\xbb\xbf" + example("one")
    call("check", text).refuses(1, "sigma: byte 0: bad byte")


@pytest.mark.parametrize("mark, place", [("\ufeff", 0), ("", 1)], ids=["mark", "none"])
def test_two_bytes_a_letter(mark: str, place: int, call: Program) -> None:
    """A text of two bytes a letter is refused."""
    text = (mark + "model M;").encode("utf-16-le")
    call("check", text).refuses(1, f"sigma: byte {place}: bad byte")


def test_a_name_with_accents(call: Program) -> None:
    """A letter outside ASCII begins no token."""
    text = replaced(example("one"), (b"ONE", "ÉTÉ".encode()))
    call("check", text).refuses(1, "sigma: byte 6: bad byte")


def test_a_comment_of_any_bytes(call: Program) -> None:
    """A comment may have any bytes."""
    text = b"# \xc3\xa9t\xc3\xa9 \xff\xfe\0\n" + example("one")
    call("reduce", text).gives(stored_answer("one.reduce"))


def test_lines_that_end_by_two_bytes(call: Program) -> None:
    """Lines may end by a carriage return and a line feed."""
    text = replaced(example("one"), (b"\n", b"\r\n"))
    call("reduce", text).gives(stored_answer("one.reduce"))


def test_a_comment_without_a_line_feed(call: Program) -> None:
    """A comment ends at a line feed: with other line ends all the rest is a comment."""
    text = b"# one\r" + replaced(example("one"), (b"\n", b"\r"))
    call("check", text).refuses(1, f"sigma: byte {len(text)}: unexpected")
