"""Models and texts at the ends of their limits. What is wanted is worked out here."""

from __future__ import annotations

from functools import cache

import pytest

from program.wide_models import FULL_WORDS, full_answers, padding, wide_answers
from support import limits
from support.models import filled, vertex
from support.places import example, stored_answer
from support.program import Program

WRITERS = ["check", "print", "uses", "conflicts", "fuse", "narrow", "reduce", "describe"]


def test_no_text(call: Program) -> None:
    """A text of no byte is refused."""
    call("check").refuses(1, "sigma: byte 0: unexpected")


def test_a_text_over_the_limit(call: Program) -> None:
    """A text has at most 4,194,304 bytes."""
    call("reduce", b" " * (limits.TEXT + 1)).refuses(1, "sigma: text too long")


def test_a_document_over_the_limit(call: Program) -> None:
    """A document has at most 25,165,824 bytes."""
    blanks = b" " * limits.DOCUMENT
    call("certify", blanks).refuses(1, f"sigma: byte {limits.DOCUMENT}: unexpected")
    call("certify", blanks + b" ").refuses(1, "sigma: text too long")


def dense(vertices: int, line: str, first: str = "V0") -> str:
    """Write vertices with 1,000 lines each, without blanks or line feeds."""
    names = [first, *(f"V{number}" for number in range(1, vertices))]
    return "".join(f"vertex {name}{{{line * 1000}}}" for name in names)


def test_changes_that_make_a_model_too_long(call: Program) -> None:
    """The canonical text has at most 4,194,304 bytes; the last word is named."""
    text = "model M;var A:0..9=0;" + dense(400, "set A:=1;") + "end"
    call("check", text.encode()).refuses(1, f"sigma: byte {len(text) - 3}: model too long")


def test_edges_that_make_a_model_too_long(call: Program) -> None:
    """The same by edges: the text is within its limit, and its canonical text isn't."""
    text = "model M;" + dense(400, "cancel A;", "A") + "end"
    assert len(text) < limits.TEXT
    call("check", text.encode()).refuses(1, f"sigma: byte {len(text) - 3}: model too long")


def test_six_vertices_with_1_000_edges_each(call: Program) -> None:
    """A canonical text of more than 64 KiB is printed."""
    text = "model M;\n"
    text += "".join(vertex(f"V{number}", *["cancel V0;"] * 1000) for number in range(6))
    call("print", (text + "end\n").encode()).gives((text + "end\n").encode())


@cache
def wide() -> dict[str, bytes]:
    """Make the answers for 2,000 vertices and variables."""
    return {command: text.encode() for command, text in wide_answers().items()}


@pytest.mark.parametrize("command", WRITERS)
def test_2_000_vertices_and_variables(command: str, call: Program) -> None:
    """A model has at most 2,000 vertices and 2,000 variables."""
    call(command, wide()["print"]).gives(wide()[command])


@pytest.mark.parametrize(
    "words, status",
    [
        ("run --until 3 --seed 42 --events 3", 7),
        ("replicate --until 2 --seed 42 --events 10 --runs 2", 0),
        ("save --until 3 --seed 42 --events 3", 0),
    ],
    ids=["run", "replicate", "save"],
)
def test_runs_of_2_000_vertices_and_variables(words: str, status: int, call: Program) -> None:
    """The same for what runs a model."""
    call(words, wide()["print"]).ends(status, wide()[words.split()[0]])


def test_2_000_vertices_and_variables_for_certify(call: Program) -> None:
    """The same for a document with its certificate."""
    call("certify", wide()["print"] + wide()["reduce"]).gives(wide()["certify"])


def test_2_000_vertices_and_variables_for_resume(call: Program) -> None:
    """The same for a saved run."""
    call("resume --until 3 --events 10", wide()["save"]).gives(wide()["resume"])


@cache
def full() -> dict[str, bytes]:
    """Make the answers for the longest lists."""
    return {command: text.encode() for command, text in full_answers(1).items()}


@pytest.mark.parametrize("command", WRITERS)
def test_the_longest_lists(command: str, call: Program) -> None:
    """Arrays, parameters, targets, carried and starting values are as many as there may be."""
    call(command, full()["print"]).gives(full()[command])


@pytest.mark.parametrize(
    "command, words",
    [
        ("replicate", f"--events {limits.EVENTS} --runs 1"),
        ("run", f"--events {limits.EVENTS} --room {limits.ROOM}"),
        ("save", "--events 1"),
    ],
)
def test_runs_of_the_longest_lists(command: str, words: str, call: Program) -> None:
    """The same for a run as long as it may be."""
    call(f"{command} {FULL_WORDS} {words}", full()["print"]).gives(full()[command])


def test_the_longest_lists_for_certify(call: Program) -> None:
    """The same for a document with its certificate."""
    call("certify", full()["print"] + full()["reduce"]).gives(full()["certify"])


def test_the_longest_lists_for_compare(call: Program) -> None:
    """The same for two texts of one model."""
    text = full()["print"]
    call(f"compare {FULL_WORDS} --events 1 --runs 1", text + text).gives(b"same\n")


def test_the_longest_lists_for_resume(call: Program) -> None:
    """The same for a saved run."""
    words = f"resume --until {limits.UNTIL} --events {limits.EVENTS - 1} --room {limits.ROOM}"
    call(words, full()["save"]).gives(full()["run"])


def test_16_777_216_cells(call: Program) -> None:
    """All arrays together have at most 16,777,216 cells, and a saved run would be too long."""
    answers = {command: text.encode() for command, text in full_answers(256).items()}
    text = answers["print"]
    call("check", text).gives(answers["check"])
    call(f"run {FULL_WORDS} --events {limits.EVENTS} --room 0", text).gives(answers["run"])
    call(f"save {FULL_WORDS} --events 1", text).refuses(11, "sigma: snapshot too long")


@pytest.mark.parametrize("more", [0, 1, 2])
def test_cells_of_256_arrays_and_more(more: int, call: Program) -> None:
    """The first cell that is one too many is named."""
    text = "version 2; model W;"
    text += "".join(f" var A{number}[{limits.CELLS}] : 0..9 = 0;" for number in range(256))
    place = len(text) + 1
    text += "".join(f" var B{number}[1] : 0..9 = 0;" for number in range(more))
    answer = call("check", (text + " vertex RUN { } end").encode())
    if more:
        answer.refuses(1, f"sigma: byte {place}: too many")
    else:
        answer.gives(b"accepted W\n")


def tables() -> bytes:
    """Write a model with as many rows, weights and values to draw from as there may be."""
    rows = "".join(f"{number} : 1; " for number in range(limits.ROWS - 1))
    rows += f"1000 : {2**32 - 999 - 1};"
    text = "model TABLES;\nvar ROW : 0..1000 = 0;\nvar WORD : 0..4294967295 = 0;\n"
    text += "".join(f"table T{number} {{ {rows} }}\n" for number in range(limits.TABLES))
    draws = ["draw WORD from 54 in 0..4294967295;", "draw ROW from 63 by T99;"]
    return (text + "watch ROW, WORD;\n" + vertex("RUN", *draws) + "end\n").encode()


def test_100_tables_of_1_000_rows(call: Program) -> None:
    """Nearly all of the weight is that of the last row, which is drawn by nearly every word.

    The first word of stream 54 with the seed 42 is 2707161783.
    """
    text = tables()
    call("print", text).gives(text)
    wanted = b"at 0 ROW=1000 WORD=2707161783\nended 0\n"
    call("run --until 0 --seed 42 --events 1", text).gives(wanted)


@cache
def longest() -> bytes:
    """Write a canonical text as long as it may be."""
    head = "model LONG;\nvar N : 0..9 = 0;\nwatch N;\n"
    text = head + padding(limits.TEXT - len(head) - len("end\n")) + "end\n"
    assert len(text) == limits.TEXT
    return text.encode()


def test_the_longest_text(call: Program) -> None:
    """A text as long as it may be is accepted, and runs."""
    call("check", longest()).gives(b"accepted LONG\n")
    call("run --until 0 --seed 1 --events 1", longest()).gives(b"at 0 N=1\nended 0\n")


def test_the_longest_canonical_text(call: Program) -> None:
    """A canonical text as long as it may be is printed; with a byte more it is refused."""
    short = longest().replace(b"\n  ", b"\n")
    call("print", short).gives(longest())
    long = short.replace(b"model ", b"model A")
    call("check", long).refuses(1, f"sigma: byte {len(long) - 4}: model too long")


def test_the_longest_text_for_describe(call: Program) -> None:
    """A text as long as it may be is described."""
    lines = ["This is the model LONG."]
    lines += ["The variable N is a whole number from 0 to 9 and starts at 0."]
    lines += ["Watched are N.", "The first event is F0."]
    name = ""
    for line in longest().decode().splitlines():
        if line.startswith("vertex "):
            name = line.split()[1]
            lines.append(f"Event {name} takes no values.")
        elif line.startswith("  set "):
            lines.append(f"When {name} occurs, N becomes 1.")
    call("describe", longest()).gives(("\n".join(lines) + "\n").encode())


def test_a_model_and_blanks(call: Program) -> None:
    """Blanks up to the limit change nothing."""
    text = filled(example("one"), limits.TEXT)
    call("reduce", text).gives(stored_answer("one.reduce"))


def test_a_document_and_blanks(call: Program) -> None:
    """Blanks up to a document's limit change nothing."""
    text = filled(example("one") + stored_answer("one.reduce"), limits.DOCUMENT)
    call("certify", text).gives(b"sound\n")


def test_a_name_of_5_000_letters(call: Program) -> None:
    """A name that is too long is refused where it begins."""
    text = b"model " + b"A" * 5000 + b"; vertex V { } end"
    call("check", text).refuses(1, "sigma: byte 6: name too long")


def test_vertices_that_no_edge_leads_to(call: Program) -> None:
    """Of as many vertices as may be all but the first are dropped."""
    others = [f"V{number}" for number in range(1, limits.VERTICES)]
    text = "model M; vertex V0 { }" + "".join(f" vertex {name} {{ }}" for name in others) + " end"
    wanted = f"model M;\nvertex V0 {{\n}}\nend\ncertificate\ndrop {' '.join(others)}\nend\n"
    call("reduce", text.encode()).gives(wanted.encode())


def test_a_late_line_of_a_certificate(call: Program) -> None:
    """A certificate that prunes one edge more than the 1,000 is rejected there."""
    text = "model M; vertex V {" + "urgent V when false;" * 1000
    text += "} end model M; vertex V { } end certificate " + "prune V 1 " * 1001 + "end"
    call("certify", text.encode()).ends(8, b"rejected 1001\n")


def test_a_thousand_events_with_a_hundred_variables(call: Program) -> None:
    """A thousand events that all store into a hundred variables, with uses and conflicts."""
    events, variables = [f"V{v}" for v in range(1000)], [f"X{x}" for x in range(100)]
    stores = [f"set {name} := 1;" for name in variables]
    text = "model CROWD;\n" + "".join(f"var {name} : 0..9 = 0;\n" for name in variables)
    text += "".join(vertex(name, *stores, f"schedule {name};") for name in events) + "end\n"
    uses = f"readers - writers {','.join(events)} watched no\n"
    pairs = [f"{a} {b} variables\n" for i, a in enumerate(events) for b in events[i:]]
    call("print", text.encode()).gives(text.encode())
    call("uses", text.encode()).gives("".join(f"{name} {uses}" for name in variables).encode())
    call("conflicts", text.encode()).gives("".join(pairs).encode())
