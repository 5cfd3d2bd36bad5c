"""Runs each pattern of docs/use/patterns.md as it is, and with the trap that the page warns of.

    python3 examples/patterns/traps.py

It writes the means of 20 runs of both, or how many of the runs fault.
"""

from __future__ import annotations

import re
import sys
from dataclasses import dataclass
from pathlib import Path

HERE = Path(__file__).resolve().parent
sys.path.insert(0, str(HERE.parents[1] / "lab"))

from sigma_lab.model import Model  # noqa: E402
from sigma_lab.plan import Plan  # noqa: E402
from sigma_lab.replication import replicate  # noqa: E402

PLAN = Plan(240_000, runs=20, on_cut="keep")


@dataclass(frozen=True)
class Trap:
    """A trap of a pattern.

    Attributes
    ----------
    pattern, measure : str
        The pattern, and what is measured of it.
    words : str
        What goes wrong.
    changes : tuple of (str, str)
        Regular expressions, and what stands in their place.
    vertex : str
        The vertex in which they stand; they may stand anywhere without it.
    """

    pattern: str
    measure: str
    words: str
    changes: tuple[tuple[str, str], ...]
    vertex: str = ""

    def text(self, right: str) -> str:
        """The text of the pattern with the trap in it."""
        place = rf"^vertex {self.vertex}\b.*?^}}" if self.vertex else r"\A.*\Z"
        found = re.search(place, right, re.M | re.S)
        assert found is not None, f"no vertex {self.vertex} in {self.pattern}"
        part = found[0]
        for old, new in self.changes:
            part, count = re.subn(old, new, part, flags=re.M)
            assert count, f"no {old} in {self.pattern}"
        return right[: found.start()] + part + right[found.end() :]


BOTH = r"  urgent START when QUEUE[0] > 0;\n  urgent START when QUEUE[1] > 0;"
TRAPS = (
    Trap("fifo", "WAIT.average", "a ring of 4 that overflows unseen", ((r"% 64", "% 4"),)),
    Trap(
        "fifo",
        "WAIT.average",
        "a ring of 4, and QUEUE up to 4",
        ((r"0\.\.64", "0..4"), (r"% 64", "% 4")),
    ),
    Trap(
        "leaving",
        "QUEUE.average",
        "whoever is at HEAD is served",
        (
            (r"SERVE\(C\) when WAITS\[C\]", "SERVE(C)"),
            (r"^.*urgent NEXT when not.*\n", ""),
            (r"HEAD <> TAIL", "QUEUE > 0"),
        ),
    ),
    Trap(
        "jockeying",
        "N[0].average+N[1].average",
        "MOVE starts a second service",
        ((r"= 1", "> 0"),),
        "MOVE",
    ),
    Trap(
        "shortest",
        "QUEUE.average",
        "LOOK is scheduled and not urgent",
        ((r"urgent LOOK\(I", "schedule LOOK(I"),),
    ),
    Trap(
        "priorities",
        "QUEUE[1].average",
        "LEAVE has an edge for each kind",
        ((r"^.*urgent START.*$", BOTH),),
        "LEAVE",
    ),
    Trap(
        "preemption",
        "N[1].average",
        "interrupted work begins anew",
        ((r"LEFT := DUE - clk", "LEFT := 100"),),
    ),
    Trap(
        "breakdowns",
        "QUEUE.average",
        "work begins anew",
        ((r"LEFT := LEFT - LIFE", "LEFT := 50"),),
    ),
    Trap(
        "skills",
        "QUEUE[0].average",
        "both edges of COME can be taken",
        ((r"FREE\[K\] = 0 and ", ""),),
    ),
    Trap(
        "shifts",
        "QUEUE.average",
        "CHANGE takes a clerk who serves",
        ((r"\A(.*)$", r"\1\n  set BUSY := min(BUSY, STAFF);"),),
        "CHANGE",
    ),
    Trap("batches", "QUEUE.average", "DONE asks whether QUEUE = 4", ((r">= 4", "= 4"),), "DONE"),
    Trap(
        "joining",
        "ORDERS.average",
        "READY[W] isn't put back to 0",
        ((r"ORDERS, READY\[W\] := ORDERS - 1, 0", "ORDERS := ORDERS - 1"),),
    ),
    Trap(
        "choosing",
        "SERVED.last",
        "PICK is urgent, so all choose the same",
        ((r"schedule PICK\((.)\) priority .", r"urgent PICK(\1)"),),
    ),
    Trap(
        "routing",
        "N[0].average",
        "P is what the last event left",
        ((r"set P, ", "set "), (r"RING\[64 \* S \+ HEAD\[S\]\], ", "")),
        "FINISH",
    ),
    Trap(
        "blocking",
        "DONE.count",
        "TAKE passes nothing on",
        ((r"^.*urgent PASS.*\n", ""),),
        "TAKE",
    ),
    Trap(
        "transport",
        "QUEUE.average",
        "the empty drive takes no time",
        ((r"if AT = S then 0 else 40", "0"),),
    ),
    Trap(
        "together",
        "QUEUE.average",
        "START doesn't try again",
        ((r"^.*urgent.*\n", ""),),
        "START",
    ),
)


def measured(text: str, measure: str) -> str:
    """The mean of the runs, or how many fault."""
    report = replicate(Model.from_text(text), PLAN)
    faults = report.cut_off()["fault"]
    return f"{faults} of {len(report)} fault" if faults else f"{report.estimate(measure).value:.3f}"


def main() -> None:
    """Prints a row for each trap."""
    print(f"{'pattern':<12} {'measure':<25} {'right':>9}  {'trapped':<14} trap")
    for trap in TRAPS:
        right = Model.read(HERE / f"{trap.pattern}.sigma").filled().text
        numbers = (measured(text, trap.measure) for text in (right, trap.text(right)))
        shown = "{:>9}  {:<14}".format(*numbers)
        print(f"{trap.pattern:<12} {trap.measure:<25} {shown} {trap.words}", flush=True)


if __name__ == "__main__":
    main()
