"""Models near the limits that a slow reducer would take minutes for, with their reductions.

Each function answers the model and what `reduce` writes for it: the reduced model, followed by its
certificate.
"""

from __future__ import annotations

from dataclasses import dataclass, field

from support.models import vertex

Pair = tuple[bytes, bytes]


@dataclass
class Both:
    """A model and its reduction, which are written side by side."""

    original: list[str] = field(default_factory=list)
    reduced: list[str] = field(default_factory=list)
    certificate: list[str] = field(default_factory=list)

    def both(self, text: str) -> None:
        """Add a part that stays as it is."""
        self.original.append(text)
        self.reduced.append(text)

    def texts(self) -> Pair:
        """Answer the model and what it is reduced to."""
        lines = "".join(f"{line}\n" for line in self.certificate)
        reduced = "".join(self.reduced) + f"certificate\n{lines}end\n"
        return "".join(self.original).encode(), reduced.encode()


def chain(vertices: int) -> Pair:
    """Write a chain of events that each schedule the next at once.

    All of them become one, unless that had more than a thousand changes: then the first one stays
    by itself.
    """
    head = "model CHAIN;\nvar N : 0..9 = 0;\nwatch N;\n"
    change = "set N := 0;"
    text = Both([head], [head])
    for number in range(vertices):
        edge = [f"urgent V{number + 1};"] if number + 1 < vertices else []
        text.original.append(vertex(f"V{number}", change, *edge))
    first = vertices - 1000
    if first:
        text.reduced.append(vertex("V0", change, f"urgent V{first};"))
    text.reduced.append(vertex(f"V{first}", *[change] * 1000))
    for number in range(vertices - 2, first - 1, -1):
        text.certificate += [f"merge V{number} V{number + 1}", f"drop V{number + 1}"]
    text.both("end\n")
    return text.texts()


def prunes() -> Pair:
    """Write 80,000 edges that never do anything, beside 4,000 with a long condition that stay."""
    text = Both()
    condition = "0 < " + " + ".join(["X"] * 100)
    text.both("model HEAVY;\nvar X : 0..9 = 0;\n")
    targets = [f"H{h}" for h in range(4)] + [f"P{p}" for p in range(80)]
    text.both(vertex("RUN", *(f"schedule {name};" for name in targets)) + vertex("A"))
    for h in range(4):
        text.both(vertex(f"H{h}", *[f"cancel A when {condition};"] * 1000))
    for p in range(80):
        text.original.append(vertex(f"P{p}", *["cancel A when false;"] * 1000))
        text.reduced.append(vertex(f"P{p}"))
        text.certificate += [f"prune P{p} 1"] * 1000
    text.both("end\n")
    return text.texts()


def star(is_watched: bool) -> Pair:
    """Write 1,900 events that each lead at once to one of 3.8 MB.

    None can take that over, since the text would be too long; if they are watched, since it sets a
    watched variable.
    """
    name = "A_NAME_OF_TWENTY_BYTE"
    total = " + ".join([name] * 250)
    watched = [name] + ([f"V{v}" for v in range(1900)] if is_watched else [])
    text = f"model STAR;\nvar {name} : 0..9 clip = 1;\nwatch {', '.join(watched)};\n"
    text += vertex("START", *(f"schedule G{g} after 1;" for g in range(19)))
    for g in range(19):
        text += vertex(f"G{g}", *(f"schedule V{100 * g + v} after 1;" for v in range(100)))
    text += "".join(
        vertex(f"V{v}", f"set {name} := {v % 10};", "urgent LARGE;") for v in range(1900)
    )
    text += vertex("LARGE", *[f"set {name} := {total};"] * 630) + "end\n"
    return Both([text], [text]).texts()


def chain_with_a_large_end() -> Pair:
    """Write a chain of 1,000 events, the last of which makes 900 changes of 250 terms.

    From its end on each two become one, so those changes move a thousand times.
    """
    change = f"set COUNT := {' + '.join(['COUNT'] * 250)};"
    text = Both()
    text.both("model CHAIN;\nvar COUNT : 0..9 clip = 0;\nwatch COUNT;\n")
    text.both(vertex("V0", "schedule V1;"))
    text.original += [vertex(f"V{v}", f"urgent V{v + 1};") for v in range(1, 999)]
    text.original.append(vertex("V999", *[change] * 900))
    text.reduced.append(vertex("V1", *[change] * 900))
    for v in range(998, 0, -1):
        text.certificate += [f"merge V{v} V{v + 1}", f"drop V{v + 1}"]
    text.both("end\n")
    return text.texts()


def pairs(version: int) -> Pair:
    """Write 870 pairs of events that become one each, beside 126,000 edges.

    The edges get a new place at each of these merges. In version 2 the first event draws a delay,
    so that the text needs the line of that version.
    """
    text = Both()
    edges = [f"schedule A{p};" for p in range(870)] + [f"schedule H{h};" for h in range(126)]
    if version == 2:
        text.both("version 2;\n")
        edges.append("schedule LAST after draw from 1 in 1..2;")
    text.both("model PAIRS;\nvar N : 0..9 = 0;\nwatch N;\n" + vertex("START", *edges))
    for p in range(870):
        one, two = "set N := 1;", "set N := 2;"
        text.original.append(vertex(f"A{p}", one, f"urgent B{p};") + vertex(f"B{p}", two))
        text.reduced.append(vertex(f"A{p}", one, two))
        text.certificate += [f"merge A{p} B{p}", f"drop B{p}"]
    for h in range(126):
        text.both(vertex(f"H{h}", *["schedule LAST after 1;"] * 1000))
    text.both(vertex("LAST") + "end\n")
    return text.texts()


def urgent(form: str) -> Pair:
    """Write events of 1,000 urgent edges each, of which no two are taken at once.

    All compare one sum of 250 terms with numbers (`equal`), or none is ever taken (`never`): these
    are 4 events. Or 120 events compare a variable with numbers (`small`). Beside them two events
    become one.
    """
    total = "N" if form == "small" else " + ".join(["N"] * 250)
    events = 120 if form == "small" else 4
    text = Both()
    text.both("model URGENT;\nvar N : 0..2000 = 0;\nwatch N;\n")
    text.both(vertex("START", *(f"schedule V{v};" for v in range(events)), "schedule P;"))
    tests = [" < 0" if form == "never" else f" = {e}" for e in range(1000)]
    for v in range(events):
        text.both(vertex(f"V{v}", *(f"urgent B when {total}{test};" for test in tests)))
    text.both(vertex("B", "set N := 1;"))
    text.original.append(vertex("P", "urgent Q;") + vertex("Q", "set N := 2;"))
    text.reduced.append(vertex("P", "set N := 2;"))
    text.certificate += ["merge P Q", "drop Q"]
    text.both("end\n")
    return text.texts()


def settles() -> Pair:
    """Write a certificate that settles and prunes an edge of an event, merges and drops.

    It does so 870 times in turn, beside 126,000 edges and the line of version 2.
    """
    text = Both()
    text.both("version 2;\nmodel SETTLED;\nvar N : 0..9 = 0;\nwatch N;\n")
    edges = [f"schedule A{p};" for p in range(870)] + [f"schedule H{h};" for h in range(126)]
    text.both(vertex("START", *edges))
    for p in range(870):
        one, two = "set N := 1;", "set N := 2;"
        more = [f"urgent B{p} when N < 10;", "schedule LAST when N > 9;"]
        text.original.append(vertex(f"A{p}", one, *more) + vertex(f"B{p}", two))
        text.reduced.append(vertex(f"A{p}", one, two))
        text.certificate += [f"settle A{p} 1", f"prune A{p} 2", f"merge A{p} B{p}", f"drop B{p}"]
    for h in range(126):
        text.both(vertex(f"H{h}", *["schedule LAST after 1;"] * 1000))
    text.both(vertex("LAST", "schedule LAST after draw from 1 in 1..2;") + "end\n")
    return text.texts()


def turns() -> Pair:
    """Write a certificate that prunes an edge and drops the event to which it led, 1,800 times.

    Beside these there are 60,000 edges.
    """
    text = Both()
    targets = ["G0", "G1"] + [f"H{h}" for h in range(60)]
    text.both("model TURNS;\nvar N : 0..9 = 0;\nwatch N;\n")
    text.both(vertex("START", *(f"schedule {name};" for name in targets)))
    for g in range(2):
        edges = [f"schedule U{900 * g + u} when false;" for u in range(900)]
        text.original.append(vertex(f"G{g}", *edges))
        text.reduced.append(vertex(f"G{g}"))
    text.original += [vertex(f"U{u}", "set N := 1;") for u in range(1800)]
    for h in range(60):
        text.both(vertex(f"H{h}", *["schedule START after 1;"] * 1000))
    for u in range(1800):
        text.certificate += [f"prune G{int(u >= 900)} 1", f"drop U{u}"]
    text.both("end\n")
    return text.texts()


def slices() -> Pair:
    """Write a certificate that prunes an edge and slices the variable of its condition.

    It does so 200 times, beside 90,000 changes.
    """
    text = Both()
    text.both("model SLICES;\n")
    text.original += [f"var V{v} : 0..1 = 0;\n" for v in range(200)]
    text.both("var N : 0..9 clip = 0;\nvar M : 0..9 clip = 0;\nwatch N, M;\n")
    edges = [f"schedule H{h};" for h in range(90)]
    sliced = [f"schedule RUN after 1 when V{v} > 5;" for v in range(200)]
    text.original.append(vertex("RUN", *sliced, *edges))
    text.reduced.append(vertex("RUN", *edges))
    for h in range(90):
        text.both(vertex(f"H{h}", *["set N, M := M + 1, N * 2;"] * 1000))
    for v in range(200):
        text.certificate += ["prune RUN 1", f"slice V{v}"]
    text.both("end\n")
    return text.texts()
