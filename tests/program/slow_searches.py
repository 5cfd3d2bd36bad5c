"""Texts near the limits that slow commands would take minutes for, with what is written for them."""

from __future__ import annotations

import string
from collections.abc import Callable

from support.models import vertex


def long_text() -> bytes:
    """Write a text of some 3.5 MB without a fault, whose last line schedules the last event."""
    text = ["model LONG;\nvar A : 0..1000 clip = 1;\nvar B : 0..1000 clip = 2;\n"]
    text.append("var C[16] : -50..50 clip = 0;\nwatch A, B, C;\n")
    change = "set A, B := A + 2 * B - C[A % 16], max(A, B) / 3;"
    for v in range(1000):
        edge = f"schedule V{(v + 1) % 1000} after A % 7 when A + B < 900;"
        text.append(vertex(f"V{v}", *[change] * 60, *[edge] * 10))
    return ("".join(text) + vertex("LAST", "schedule LAST;") + "end\n").encode()


def dense_text() -> bytes:
    """Write a text without blanks whose canonical text is too long."""
    text = ["model DENSE;var N:0..9=0;watch N;"]
    for v in range(440):
        text.append(f"vertex V{v}{{{'set N:=N;' * 990}schedule V{(v + 1) % 440};}}")
    return ("".join(text) + "end").encode()


def twins() -> tuple[bytes, bytes]:
    """Write 930 pairs of twins, each of which are twins only once the pair before is fused.

    130,000 edges lead to them. With it is what `fuse` writes.
    """

    def written(second: str) -> bytes:
        def leads(name: int, time: int) -> list[str]:
            return [f"schedule {kind}{name} after {time};" for kind in second]

        starts = ["schedule T929;", *leads(929, 1), *(f"schedule H{h};" for h in range(130))]
        text = ["model CHAINS;\nvar N : 0..199 = 0;\n", vertex("START", *starts)]
        for p in range(929, -1, -1):
            for kind in "TU" if second == "U" else "T":
                edge = [f"schedule {kind}{p - 1} after 1;"] if p else []
                text.append(vertex(f"{kind}{p}", "set N := 1;", *edge))
        for h in range(130):
            edges = [line for e in range(1000) for line in leads((h * 1000 + e) % 930, 2)]
            text.append(vertex(f"H{h}", f"set N := {h};", *edges))
        return ("".join(text) + "end\n").encode()

    return written("U"), written("T")


def alike() -> bytes:
    """Write 1,900 events that are alike but for their last edge: no two are twins."""
    text = ["model ALIKE;\nvar N : 0..1999 = 0;\n", vertex("START", "schedule V0;")]
    changes = ["set N := N % 7 + 1;"] * 40
    edges = ["schedule START after 1;"] * 40
    for v in range(1900):
        text.append(vertex(f"V{v}", *changes, *edges, f"schedule V{(v + 1) % 1900} after 1;"))
    return ("".join(text) + "end\n").encode()


def far_twins() -> tuple[bytes, bytes]:
    """Write 1,000 events of 3.6 MB, each with its twin at the other end of the text.

    They differ at their very end. With it is what `fuse` writes.
    """

    def written(count: int, target: Callable[[int], int]) -> bytes:
        starts = [f"schedule V{target(e)};" for e in range(1000)]
        text = ["model FAR;\nvar N : 0..999 = 0;\n", vertex("START", *starts)]
        for v in range(count):
            last = f"set N := {v if v < 500 else 999 - v};"
            text.append(vertex(f"V{v}", *["set N := N % 7 + 1;"] * 180, last))
        return ("".join(text) + "end\n").encode()

    return written(1000, lambda e: e), written(500, lambda e: e if e < 500 else 999 - e)


def variable_name(number: int) -> str:
    """Write a name of two letters or digits that is no reserved word."""
    upper, lower = string.ascii_uppercase, string.ascii_lowercase
    digits = string.digits + "_"
    if number < 1638:
        return upper[number % 26] + (upper + lower + digits)[number // 26]
    return lower[number % 26] + (upper + digits)[(number - 1638) // 26]


# How many variables a value of each form reads.
OPERANDS = {"sum": 255, "tested": 254, "and": 127, "if": 64}


def rounds(form: str, variables: int = 500, values: int = 500) -> bytes:
    """Write a model whose ranges move one at a time, and become the declared ones.

    The first variable takes 3, and each other one the value of the one before it, so that one upper
    end moves in each round; then the first one takes 4 without the last, and the lower ends move in
    the same way. Values as long as they may be read these variables, so each round looks at many of
    them again; what takes them keeps 0 alone.
    """
    names = [variable_name(number) for number in range(variables)]
    operands = OPERANDS[form]

    def value(first: int) -> str:
        read = [names[(first + number) % variables] for number in range(operands)]
        if form == "sum":
            return " + ".join(read)
        if form == "tested":
            return " + ".join([f"(if {read[0]} < 2 then {read[0]} else 1)", *read[1:]])
        if form == "and":
            return f"if {' and '.join(f'{name} < 3' for name in read)} then 1 else 0"
        return "".join(f"if {name} < 2 then {name} else " for name in read) + "0"

    changes = [f"{names[0]} := 3", f"{names[0]} := 4 - {names[-1]}"]
    changes += [f"{name} := {before}" for before, name in zip(names, names[1:])]
    changes += [f"S := {value(number * operands)}" for number in range(values)]
    text = ["model ROUNDS;\n", *(f"var {name} : 1..3 = 2;\n" for name in names)]
    text.append("var S : 0..0 clip = 0;\n")
    for begin in range(0, len(changes), 1000):
        part = (f"set {change};" for change in changes[begin : begin + 1000])
        text.append(vertex(f"ROUND{begin // 1000}", *part))
    return ("".join(text) + "end\n").encode()


def all_in_conflict() -> tuple[bytes, bytes]:
    """Write 1,990 events that store into one variable, draw from one stream and cancel each other.

    With it are the nearly two million pairs in conflict.
    """
    names = [f"V{v}" for v in range(1990)]
    text = ["model ALL;\nvar N : 0..9 = 0;\nwatch N;\n"]
    for name, after in zip(names, [*names[1:], names[0]]):
        text.append(vertex(name, "draw N from 1 in 0..9;", f"schedule {after};"))
    found = [f"{a} {b} variables,streams\n" for i, a in enumerate(names) for b in names[i:]]
    return ("".join(text) + "end\n").encode(), "".join(found).encode()


def apart() -> bytes:
    """Write 160,000 edges of 255 priorities: no two events meet that have anything in common."""
    starts = [f"schedule V{v} after {v + 1} priority {v % 250 + 1};" for v in range(160)]
    text = ["model APART;\nvar N : 0..9 = 0;\n", vertex("START", *starts)]
    edges = [f"schedule W{e} after 1;" for e in range(1000)]
    text += [vertex(f"V{v}", *edges) for v in range(160)]
    text += [vertex(f"W{w}") for w in range(1000)]
    return ("".join(text) + "end\n").encode()


def readers() -> tuple[bytes, bytes]:
    """Write 950 events that each read 500 variables, and store what the next one reads.

    With it are the pairs in conflict.
    """
    text = ["model READERS;\n", *(f"var X{x} : 0..9 = 1;\n" for x in range(500))]
    text += [f"var W{v} : 0..9 clip = 0;\n" for v in range(950)]
    text.append(vertex("START", *(f"schedule V{v};" for v in range(950))))
    low, high = (" + ".join(f"X{x}" for x in range(first, first + 250)) for first in (0, 250))
    for v in range(950):
        other = f"set W{v} := {high} - W{(v + 949) % 950};"
        text.append(vertex(f"V{v}", f"set W{v} := {low};", other))
    found = ["V0 V0 variables\nV0 V1 variables\nV0 V949 variables\n"]
    found += [f"V{v} V{v} variables\nV{v} V{v + 1} variables\n" for v in range(1, 949)]
    found.append("V949 V949 variables\n")
    return ("".join(text) + "end\n").encode(), "".join(found).encode()


def saved_cells() -> bytes:
    """Write a saved run of 12 million values of arrays."""
    zeros = ",".join(["0"] * 65_536)
    text = ["version 2;\nmodel CELLS;\nvar N : 0..9 = 1;\n"]
    text += [f"var A{a}[65536] : 0..9 = 0;\n" for a in range(190)]
    text.append("watch N;\n" + vertex("RUN", "set N := N + 1;", "schedule RUN after 1 when N < 4;"))
    text.append("end\nsnapshot\nseed 0 1\nclk 0\nevents 1\nvalue N 2\n")
    text += [f"value A{a} {zeros}\n" for a in range(190)]
    return ("".join(text) + "pending 1 5 RUN\nend\n").encode()


def saved_lists() -> bytes:
    """Write a saved run of half a million pending events with sixteen values each."""
    names = [f"P{p}" for p in range(16)]
    values = ",".join(str(p % 10) for p in range(16))
    text = ["version 2;\nmodel CARRIED;\n", *(f"var {name} : 0..9 = 0;\n" for name in names)]
    text.append("watch P15;\n" + vertex("RUN") + vertex(f"TAKE({', '.join(names)})"))
    text.append("end\nsnapshot\nseed 0 1\nclk 0\nevents 1\n")
    text += [f"value {name} 0\n" for name in names]
    text.append(f"pending 1 5 TAKE({values})\n" * 500_000)
    return ("".join(text) + "end\n").encode()


def saved_cancels() -> tuple[bytes, bytes]:
    """Write a saved run of a million pending events, of which 2,000 others cancel the next one.

    With it is the rest of the history.
    """
    text = ["model CANCELS;\nvar N : 0..2000 = 0;\nwatch N;\n"]
    edge = "schedule RUN after 1 when N < 2000;"
    text.append(vertex("RUN", "set N := N + 1;", "cancel LATE;", edge))
    text.append(vertex("LATE", "set N := 0;") + "end\n")
    text.append("snapshot\nseed 0 1\nclk 0\nevents 1\nvalue N 1\n")
    text.append("pending 9999 5 LATE\n" * 1_000_000 + "pending 1 5 RUN\nend\n")
    history = "".join(f"at {t} N={t + 1}\n" for t in range(2000)) + "stopped 5000\n"
    return "".join(text).encode(), history.encode()
