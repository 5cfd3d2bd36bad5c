"""Models of any size, for tests and measurements: a line of machines that break down, and a tangle."""

from __future__ import annotations

import random


def plant(machines: int) -> str:
    """Return a line of machines, each with a buffer before it and five events: one more begins all."""
    numbers = range(1, machines + 1)
    lines = ["model PLANT;"]
    for k in numbers:
        lines += [f"var Q{k} : 0..1000 = 0;"]
        lines += [f"var {name}{k} : bool = true;" for name in ("FREE", "UP")]
    lines += ["var GAP : 0..9 = 0;", f"watch {', '.join(f'Q{k}' for k in numbers)};"]
    lines += ["vertex BEGIN {", "  schedule ARRIVE1;"]
    lines += [f"  schedule FAIL{k} after {50 + 13 * k};" for k in numbers] + ["}"]
    for k in numbers:
        lines += [f"vertex ARRIVE{k} {{", f"  set Q{k} := Q{k} + 1;"]
        if k == 1:
            lines += ["  draw GAP from 0 in 3..9;", "  schedule ARRIVE1 after GAP;"]
        lines += [f"  urgent START{k} when FREE{k} and UP{k};", "}"]
        lines += [f"vertex START{k} {{", f"  set Q{k}, FREE{k} := Q{k} - 1, false;"]
        lines += [f"  schedule END{k} after {4 + k % 3};", "}"]
        lines += [f"vertex END{k} {{", f"  set FREE{k} := true;"]
        lines += [f"  urgent START{k} when Q{k} > 0 and UP{k};"]
        lines += [f"  schedule ARRIVE{k + 1} after 2;"] if k < machines else []
        lines += ["}", f"vertex FAIL{k} {{", f"  set UP{k} := false;"]
        lines += [f"  schedule FIX{k} after 20;", "}"]
        lines += [f"vertex FIX{k} {{", f"  set UP{k} := true;", f"  schedule FAIL{k} after 100;"]
        lines += [f"  urgent START{k} when Q{k} > 0 and FREE{k};", "}"]
    return "\n".join([*lines, "end", ""])


def tangle(events: int, edges: int, seed: int = 1) -> str:
    """Return a model whose edges lead from anywhere to anywhere."""
    chance = random.Random(seed)
    out: list[list[str]] = [[] for _ in range(events)]
    for k in range(1, events):
        # Each event is reached from an earlier one.
        out[chance.randrange(k)].append(f"  schedule E{k} after {chance.randint(1, 9)};")
    for _ in range(edges - events + 1):
        to, delay = chance.randrange(events), chance.randint(1, 9)
        out[chance.randrange(events)].append(f"  schedule E{to} after {delay} when N > {delay};")
    lines = ["model TANGLE;", "var N : 0..1000000 = 0;", "watch N;"]
    for k, own in enumerate(out):
        lines += [f"vertex E{k} {{", "  set N := N + 1;", *own, "}"]
    return "\n".join([*lines, "end", ""])
