"""Where two texts differ, in a few lines, however long they are."""

from __future__ import annotations

SHOWN_LINES = 6
SHOWN_BYTES = 200


def first_difference(what: str, wanted: bytes, given: bytes) -> list[str]:
    """Describe the first lines in which two texts differ: `-` is wanted, and `+` is given.

    Returns
    -------
    list of str
        The lines of the description; none if the texts are the same.
    """
    if wanted == given:
        return []
    left, right = wanted.splitlines(keepends=True), given.splitlines(keepends=True)
    same = 0
    for one, other in zip(left, right):
        if one != other:
            break
        same += 1
    lines = [f"{what} differs from line {same + 1} on ({len(wanted)} and {len(given)} bytes):"]
    lines += [f"  - {_shown(line)}" for line in left[same : same + SHOWN_LINES]]
    lines += [f"  + {_shown(line)}" for line in right[same : same + SHOWN_LINES]]
    return lines


def _shown(line: bytes) -> str:
    text = line.removesuffix(b"\n").decode("ascii", "backslashreplace")
    if not line.endswith(b"\n"):
        text += " (no line feed)"
    return text if len(text) <= SHOWN_BYTES else text[:SHOWN_BYTES] + ".."
