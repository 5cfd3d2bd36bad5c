"""Spoils reports and histories at every byte, and counts what the lab takes.

    SIGMA=.. /usr/bin/python3 tests/lab/spoil/spoil.py          everything: some minutes
    pytest tests/lab/test_spoil.py                              a sample

Each byte is changed into all 255 others, taken out, and written twice; the text is cut off everywhere; lines are taken
out, written twice and swapped.  What is taken nevertheless must say in the text what the lab reads from it, and may
differ only where the format has no total: in a time, seed, outcome, least, greatest or last value that fits.
"""

from __future__ import annotations

import sys
from collections import Counter
from collections.abc import Iterator
from pathlib import Path

TOP = Path(__file__).resolve().parents[3]
sys.path.insert(0, str(TOP / "lab"))

from sigma_lab import program  # noqa: E402
from sigma_lab.errors import LabError  # noqa: E402
from sigma_lab.history import History  # noqa: E402
from sigma_lab.plan import Plan  # noqa: E402
from sigma_lab.replication import replicate  # noqa: E402
from sigma_lab.report import Report  # noqa: E402

BANK = (TOP / "examples" / "bank.sigma").read_text()
NAMES = ("a report of three items", "a report of one item", "a report of the lab", "a history")
NO_TOTAL = {"seed", "outcome", "time", "least", "greatest", "last"}


def spoilt(text: bytes, step: int = 1) -> Iterator[tuple[str, bytes]]:
    """What is done to a text, and the text after it; every `step`-th of all."""
    number = 0

    def wanted() -> bool:
        nonlocal number
        number += 1
        return number % step == 0

    for at in range(len(text)):
        for byte in range(256):
            if byte != text[at] and wanted():
                yield "a byte changed", text[:at] + bytes([byte]) + text[at + 1 :]
        if wanted():
            yield "a byte taken out", text[:at] + text[at + 1 :]
        if wanted():
            yield "a byte twice", text[: at + 1] + text[at:]
        if wanted():
            yield "cut off", text[:at]
    lines = text.splitlines(keepends=True)
    for i, line in enumerate(lines):
        if wanted():
            yield "a line taken out", b"".join(lines[:i] + lines[i + 1 :])
        if wanted():
            yield "a line twice", b"".join(lines[: i + 1] + lines[i:])
        for j in range(i):
            if wanted():
                swapped = lines[:j] + [line] + lines[j + 1 : i] + [lines[j]] + lines[i + 1 :]
                yield "two lines swapped", b"".join(swapped)


def check_report(whole: bytes, text: bytes) -> str:
    """Whether a spoilt report is refused, the same, or shows another number that no total covers."""
    try:
        made = Report.parse(text)
    except LabError:
        return "refused"
    first = Report.parse(whole)
    if made.to_csv() == first.to_csv():
        return "same answer"
    assert made.to_csv().encode() == text, "it is read as another text"
    assert made.items == first.items and len(made) == len(first), "runs or items differ"
    before, after = first.to_frame(), made.to_frame()
    changed = {
        name
        for name in before.columns
        if name != "average"
        and before[name].astype(str).tolist() != after[name].astype(str).tolist()
    }
    assert changed and changed <= NO_TOTAL, f"{changed} differ"
    return "no total covers " + ", ".join(sorted(changed))


def says(text: bytes) -> list[tuple[int, str | None, dict[str, int]]]:
    """What a history of whole numbers says, by its plain words."""
    made = []
    for line in text.decode().splitlines()[:-1]:
        kind, time, *rest = line.split(" ")
        event = rest.pop(0) if kind == "on" else None
        values = {}
        for word in rest:
            name, _, cells = word.partition("=")
            split = cells.split(",")
            for k, cell in enumerate(split):
                values[name if len(split) == 1 else f"{name}[{k}]"] = int(cell)
        made.append((int(time), event, values))
    return made


def check_history(whole: bytes, text: bytes) -> str:
    """Whether a spoilt history is refused, or is another history that is read as what it says."""
    try:
        made = History.parse(text)
    except LabError:
        return "refused"
    if text == whole:
        return "same answer"
    assert [tuple(note) for note in made.notes()] == says(text), "it is read as another text"
    times = [note.time for note in made.notes()]
    assert times == sorted(times) and (not times or times[-1] <= made.end)
    last = text.decode().splitlines()[-1].split(" ")
    assert made.outcome == last[0] and text.endswith(b"\n")
    return "another history that is whole"


def texts() -> dict[str, bytes]:
    """The texts that are spoilt."""
    one = BANK.replace("watch QUEUE, IDLE, CLOSE", "watch QUEUE")
    words = ["replicate", "--until=600", "--seed=1", "--events=100000", "--runs=8"]
    history = ["run", "--until=200", "--seed=1", "--events=100000"]
    seen = BANK.replace("watch QUEUE, IDLE, CLOSE", "watch QUEUE, IDLE, ARRIVE")
    lab = replicate(BANK, Plan(600, runs=3, workers=1)).to_csv(with_provenance=True)
    made = (
        program.call(words, BANK),
        program.call(words, one),
        lab.encode(),
        program.call(history, seen),
    )
    return dict(zip(NAMES, made))


def spoil(name: str, whole: bytes, step: int = 1) -> Counter[tuple[str, str]]:
    """Counts what comes of spoilt texts.  Raises AssertionError if one is read wrongly."""
    counts: Counter[tuple[str, str]] = Counter()
    for kind, text in spoilt(whole, step):
        if name == "a history":
            found = check_history(whole, text)
        else:
            found = check_report(whole, text)
        assert name != "a report of the lab" or found in ("refused", "same answer"), found
        counts[kind, found] += 1
    return counts


def main() -> None:
    """Spoils everything, and prints a table."""
    step = int(sys.argv[1]) if len(sys.argv) > 1 else 1
    for name, whole in texts().items():
        counts = spoil(name, whole, step)
        print(f"{name}, {len(whole)} bytes: {sum(counts.values())} spoilt texts")
        for (kind, found), number in sorted(counts.items()):
            print(f"    {kind}: {found}: {number}")


if __name__ == "__main__":
    main()
