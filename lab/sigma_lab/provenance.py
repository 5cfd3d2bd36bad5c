"""How the runs of a report were made, and the line that says so in a file.

A report that the lab writes begins with one line, `# sigma-lab report {..}`.  It names the model, the program and the
plan, and has a checksum of the whole file.  The rest of the file is what the program writes.
"""

from __future__ import annotations

import hashlib
import json
import re
from dataclasses import asdict, dataclass, fields, replace

from .errors import BadReport, InputError
from .plan import whole

LEAD = b"# sigma-lab report "
_LIMITS = {
    "until": 2**48,
    "events": 2**40,
    "warm_up": 2**48,
    "seed": 2**64 - 1,
    "first_run": 2**64,
}


@dataclass(frozen=True)
class Provenance:
    """How the runs of a report were made.  A part is None where a file doesn't say.

    Attributes
    ----------
    model : str or None
        The SHA-256 of the model's text with its tables filled.
    program : str or None
        The SHA-256 of the program.
    until, events, seed, first_run : int or None
        Those of the plan; `first_run` is the number of the first run in the series of `seed`.
    start : tuple of int or None
        The starting values.
    warm_up : int
        The tick that areas, counts and times are counted from.
    """

    model: str | None = None
    program: str | None = None
    until: int | None = None
    events: int | None = None
    start: tuple[int, ...] | None = None
    warm_up: int = 0
    seed: int | None = None
    first_run: int | None = None

    def differences(self, other: Provenance) -> list[str]:
        """What differs between two designs, of what both know: model, program, until, events, start, warm_up."""
        named = ("model", "program", "until", "events", "start", "warm_up")
        pairs = [(name, getattr(self, name), getattr(other, name)) for name in named]
        return [name for name, a, b in pairs if a is not None and b is not None and a != b]

    def common(self, other: Provenance) -> Provenance:
        """What is known of runs of both; of the runs' numbers nothing."""
        parts = {
            part.name: mine if mine == getattr(other, part.name) else None
            for part in fields(self)
            for mine in (getattr(self, part.name),)
            if part.name not in ("seed", "first_run", "warm_up")
        }
        return replace(self, **parts, seed=None, first_run=None)


def heading(made: Provenance, body: str) -> str:
    """The line before `body`, with its line feed."""
    parts = asdict(made)
    return f"{LEAD.decode()}{_json({**parts, 'sum': _sum(parts, body.encode())})}\n"


def split(data: bytes, source: str = "") -> list[tuple[Provenance, bytes, int]]:
    """The reports of a text that may be several files after one another.

    Returns
    -------
    list of (Provenance, bytes, int)
        What each says of itself, its rows, and the number of their first line.

    Raises
    ------
    BadReport
        If a line of provenance is spoilt, or doesn't fit what follows it.
    """
    starts = {found.start() for found in re.finditer(rb"^" + re.escape(LEAD), data, re.M)}
    cuts = [*sorted({0, *starts}), len(data)]
    made, line = [], 1
    for begin, end in zip(cuts, cuts[1:]):
        part = data[begin:end]
        if part.startswith(LEAD):
            head, feed, body = part.partition(b"\n")
            if not feed:
                raise BadReport("the last line has no line end", line, source)
            made.append((_read(head[len(LEAD) :], body, line, source), body, line + 1))
        else:
            made.append((Provenance(), part, line))
        line += part.count(b"\n")
    return made


def _json(parts: dict[str, object]) -> str:
    return json.dumps(parts, sort_keys=True, separators=(",", ":"))


def _sum(parts: dict[str, object], body: bytes) -> str:
    return hashlib.sha256(_json(parts).encode() + b"\n" + body).hexdigest()


def _read(text: bytes, body: bytes, line: int, source: str) -> Provenance:
    spoilt = BadReport("the line of provenance is spoilt", line, source)
    try:
        parts = json.loads(text)
        if not isinstance(parts, dict) or _json(parts).encode() != text:
            raise spoilt
        given = parts.pop("sum")
        made = Provenance(**parts)
        for name, most in _LIMITS.items():
            if getattr(made, name) is not None:
                whole(name, getattr(made, name), 0, most)
        if made.start is not None:
            made = replace(made, start=tuple(made.start))
    except (ValueError, TypeError, KeyError, InputError, RecursionError):
        raise spoilt from None
    if given != _sum(parts, body):
        raise BadReport("the file was changed or cut off: its checksum differs", line, source)
    return made
