"""Files that a model's comments name: a text from elsewhere can't make the lab read whatever there is."""

from __future__ import annotations

import stat
from pathlib import Path

from .errors import InputError

MOST_BYTES = 2**26
"""The largest file that a comment may name."""


def named_file(folder: Path, name: str) -> Path:
    """The file of a name in a comment: in the model's folder or below it.

    Raises
    ------
    InputError
        If it lies elsewhere, if it can't be read, if it is a device or a pipe, or if it is larger than 64 MiB.
    """
    if Path(name).is_absolute() or ".." in Path(name).parts:
        raise InputError(
            f"{name} isn't in the model's folder: a comment names files there or below"
        )
    path = folder / name
    try:
        found = path.stat()
    except OSError as error:
        raise InputError(f"can't read {path}: {error.strerror}") from None
    if not stat.S_ISREG(found.st_mode):
        raise InputError(f"{path} is no regular file")
    if found.st_size > MOST_BYTES:
        raise InputError(f"{path} has more than {MOST_BYTES} bytes")
    return path
