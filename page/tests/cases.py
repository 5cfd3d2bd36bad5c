"""The repository's cases, and more calls, each with what the native program answers."""

from __future__ import annotations

import random
import re
import subprocess
from dataclasses import dataclass
from pathlib import Path

ROOT = Path(__file__).resolve().parents[2]
MOST = 4_194_304  # bytes of a text, at most
COMMANDS = ("conflicts", "describe", "fuse", "narrow", "reduce", "uses")
FEW_RUNS = "replicate --until 480 --seed 1 --events 20000 --runs 3"
RUN = "run --until 480 --seed 7 --events 100000"


@dataclass(frozen=True)
class Call:
    """A call of the program, and what it must answer: output, line and status."""

    name: str
    words: tuple[bytes, ...]
    given: bytes
    output: bytes = b""
    line: bytes = b""
    status: int = 0


def native(program: str, words: tuple[bytes, ...], given: bytes) -> tuple[bytes, bytes, int]:
    """Return what the native program answers: its output, its line and its status."""
    ran = subprocess.run([program.encode(), *words], input=given, capture_output=True, check=False)
    return ran.stdout, ran.stderr, ran.returncode


def answered(program: str, calls: list[Call]) -> list[Call]:
    """Return these calls with the native program's answers."""
    return [
        Call(each.name, each.words, each.given, *native(program, each.words, each.given))
        for each in calls
    ]


def _unescaped(text: str) -> tuple[bytes, bytes]:
    r"""Return the bytes that a line of a case means, and what ends it.

    \t, \r and \xHH are bytes, and a \ at the end of the line means that it has no line feed.
    """
    out, place, line = bytearray(), 0, text.encode("utf-8", "surrogateescape")
    while place < len(line):
        if line[place : place + 1] != b"\\":
            out += line[place : place + 1]
            place += 1
            continue
        kind = line[place + 1 : place + 2]
        if kind == b"":
            return bytes(out), b""
        if kind == b"x":
            out.append(int(line[place + 2 : place + 4], 16))
            place += 4
        else:
            out += {b"t": b"\t", b"r": b"\r"}[kind]
            place += 2
    return bytes(out), b"\n"


def _cases_of(file: Path) -> list[Call]:
    found: list[Call] = []
    words: tuple[bytes, ...] | None = None
    name, parts = "", {"<": b"", ">": b"", "!": b""}
    text = file.read_bytes().decode("utf-8", "surrogateescape")
    for number, line in enumerate(text.split("\n"), 1):
        if words is None:
            if re.match(r"sigma( |$)", line):
                listed = [b"" if it == "''" else _unescaped(it)[0] for it in line.split()[1:]]
                words, name = tuple(listed), f"{file.parent.name}/{file.name}:{number}"
                parts = {"<": b"", ">": b"", "!": b""}
        elif line[:1] in parts:
            parts[line[0]] += b"".join(_unescaped(line[1:]))
        elif line.startswith("= "):
            found.append(Call(name, words, parts["<"], parts[">"], parts["!"], int(line[2:])))
            words = None
    return found


def stored_cases() -> list[Call]:
    """Return each case of the folder `cases`."""
    files = [it for kind in ("asked", "drawn") for it in sorted((ROOT / "cases" / kind).iterdir())]
    return [case for file in files for case in _cases_of(file)]


def _words(line: str) -> tuple[bytes, ...]:
    return tuple(word.encode() for word in line.split())


def _stored_words(name: str, command: str, other: str) -> str:
    file = ROOT / "examples" / "answers" / f"{name}.{command}.words"
    return file.read_text(encoding="utf-8").strip() if file.is_file() else other


def example_calls(program: str) -> list[Call]:
    """Return each example with each command."""
    found = []
    for file in sorted((ROOT / "examples").glob("*.sigma")):
        name, given = file.stem, file.read_bytes()
        run = _stored_words(name, "run", RUN)
        save = re.sub(r"--events \d+", "--events 20", "save" + run.removeprefix("run"))
        lines = ["check", "print", *COMMANDS, run, save, _stored_words(name, "replicate", FEW_RUNS)]
        found += [Call(f"{name}: {line}", _words(line), given) for line in lines]
        reduced = native(program, (b"reduce",), given)[0]
        found.append(Call(f"{name}: certify", (b"certify",), given + reduced))
        saved = native(program, _words(save), given)
        if saved[2] == 0:
            resume = "resume --until 480 --events 100000"
            found.append(Call(f"{name}: {resume}", _words(resume), saved[0]))
    for seed in (1, 7, 99):
        line = f"trial --seed {seed} --vertices 50 --until 1000 --events 20000"
        found.append(Call(line, _words(line), b""))
    return found


def hostile_calls() -> list[Call]:
    """Return hostile texts, up to the longest that is read, and longer ones."""
    chance = random.Random(3)
    parts = ("(", "not ", "A", "#", "\n", "\0", "7")
    found = [
        Call(f"nothing but {part!r}", (b"check",), (part * (MOST // len(part) + 1))[:MOST].encode())
        for part in parts
    ]
    long_name = b"model " + b"A" * 4_000_000 + b"; vertex RUN { } end"
    found.append(Call("a name of four million letters", (b"check",), long_name))
    found.append(Call("a text too long", (b"check",), b" " * (MOST + 1)))
    found.append(Call("random bytes", (b"reduce",), chance.randbytes(MOST)))
    found.append(Call("a document too long", (b"certify",), b"#" * (6 * MOST + 1)))
    change = "  set A := (((A + 1) - 1) * 2) / 2;\n" * 100
    vertices = "".join(
        f"vertex V{k} {{\n{change}  schedule V{(k + 1) % 900} after 1;\n}}\n" for k in range(900)
    )
    text = f"model LONG;\nvar A : 0..9 = 0;\nwatch A;\n{vertices}end\n".encode()
    for word in ("check", "print", "reduce", "describe", "conflicts", "narrow"):
        found.append(Call(f"{word} of {len(text)} bytes", (word.encode(),), text))
    return found
