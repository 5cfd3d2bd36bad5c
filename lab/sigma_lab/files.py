"""Files that are written whole or not at all."""

from __future__ import annotations

import os
from contextlib import suppress
from pathlib import Path
from types import TracebackType

from .errors import LabError


class Kept:
    """A file that is begun beside its place, and takes its place once it is whole.

        with Kept(path) as kept:      # refused here if the folder can't be written
            kept.text = make()        # long work

    Parameters
    ----------
    path : str or Path
        Its place.  What is there stays until the new file is whole.

    Raises
    ------
    LabError
        If it can't be written.
    """

    def __init__(self, path: str | Path) -> None:
        self.path = Path(path)
        self.text: str | bytes = b""
        self._new = self.path.parent / f".{self.path.name[:100]}.{os.getpid()}.new"

    def __enter__(self) -> Kept:
        if self.path.is_dir():
            raise LabError(f"{self.path} can't be written: it is a folder")
        with self._named():
            self._new.write_bytes(b"")
        return self

    def __exit__(
        self,
        kind: type[BaseException] | None,
        error: BaseException | None,
        trace: TracebackType | None,
    ) -> None:
        try:
            if kind is None:
                text = self.text
                data = text.encode("utf-8", "surrogateescape") if isinstance(text, str) else text
                with self._named():
                    if self.path.exists() and not self.path.is_file():
                        self.path.write_bytes(data)
                    else:
                        self._new.write_bytes(data)
                        os.replace(self._new, self.path)
        finally:
            with suppress(OSError):
                self._new.unlink()

    def _named(self) -> _Named:
        return _Named(self.path)


class _Named:
    """Names the file in the error that writing it may raise."""

    def __init__(self, path: Path) -> None:
        self._path = path

    def __enter__(self) -> None:
        return None

    def __exit__(
        self,
        kind: type[BaseException] | None,
        error: BaseException | None,
        trace: TracebackType | None,
    ) -> None:
        if isinstance(error, OSError):
            raise LabError(f"{self._path} can't be written: {error.strerror}") from None


def write(path: str | Path, text: str | bytes) -> None:
    """Writes a file beside its place, and then puts it there.  Raises LabError if it can't."""
    with Kept(path) as kept:
        kept.text = text
