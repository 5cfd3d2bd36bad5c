"""Calls of the program, and what they answer."""

from __future__ import annotations

import resource
import subprocess
import tempfile
from collections.abc import Callable, Sequence
from dataclasses import dataclass
from pathlib import Path

from support.differences import first_difference

Words = str | Sequence[str | bytes]

# A call that takes longer hangs.
LONGEST = 1200


@dataclass(frozen=True)
class Answer:
    """What a call of the program left: its exit status, its output and its error output."""

    status: int
    output: bytes
    errors: bytes

    def ends(self, status: int, output: bytes = b"", line: str = "") -> None:
        """Fail unless the call ended with this status, this output, and this line of errors."""
        __tracebackhide__ = True
        said = (line + "\n").encode() if line else b""
        if (self.status, self.output, self.errors) == (status, output, said):
            return
        raise AssertionError(self.difference(status, output, said))

    def gives(self, output: bytes) -> None:
        """Fail unless the call ended well, and wrote this and nothing else."""
        __tracebackhide__ = True
        self.ends(0, output)

    def refuses(self, status: int, line: str) -> None:
        """Fail unless the call ended with this status, and wrote this line and nothing else."""
        __tracebackhide__ = True
        self.ends(status, b"", line)

    def difference(self, status: int, output: bytes, errors: bytes) -> str:
        """Say where this answer differs from the one that is wanted."""
        parts = [] if self.status == status else [f"status {self.status} for {status}"]
        parts += first_difference("the error output", errors, self.errors)
        parts += first_difference("the output", output, self.output)
        return "\n".join(parts)


@dataclass(frozen=True)
class Program:
    """The program, which is called like a function: `call("check", text)`."""

    path: Path

    def __call__(
        self,
        words: Words,
        text: bytes | Path = b"",
        *,
        seconds: int | None = None,
        stack: int | None = None,
    ) -> Answer:
        """Call the program on a text, which it reads from a file.

        Parameters
        ----------
        words
            The words of the call: a list, or a text that is split at its blanks.
        text
            What it reads, or the file with that.
        seconds
            How much processor time it may take.
        stack
            How many bytes of stack it has.
        """
        listed: list[str | bytes] = [*(words.split() if isinstance(words, str) else words)]

        def limit() -> None:
            if seconds is not None:
                resource.setrlimit(resource.RLIMIT_CPU, (seconds, seconds))
            if stack is not None:
                resource.setrlimit(resource.RLIMIT_STACK, (stack, stack))

        limits = limit if seconds is not None or stack is not None else None
        if isinstance(text, Path):
            with text.open("rb") as named:
                return self._run(listed, named.fileno(), limits)
        with tempfile.TemporaryFile() as file:
            file.write(text)
            file.seek(0)
            return self._run(listed, file.fileno(), limits)

    def _run(
        self, words: Sequence[str | bytes], standard_input: int, limits: Callable[[], None] | None
    ) -> Answer:
        ran = subprocess.run(
            [self.path, *words],
            stdin=standard_input,
            capture_output=True,
            preexec_fn=limits,
            timeout=LONGEST,
            check=False,
        )
        return Answer(ran.returncode, ran.stdout, ran.stderr)
