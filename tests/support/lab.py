"""The command `sigma-lab` of this checkout, for tests that call it by its name."""

from __future__ import annotations

import os
from pathlib import Path

from support.places import TOP
from support.program import Program

START = "from sigma_lab.cli import main; raise SystemExit(main())"


def make_lab_command(folder: Path, program: Program) -> dict[str, str]:
    """Make a folder with the commands `sigma` and `sigma-lab`.

    Returns
    -------
    dict of str to str
        The environment in which they are found, before Debian's commands.
    """
    folder.mkdir()
    (folder / "sigma").symlink_to(program.path)
    lab = folder / "sigma-lab"
    lab.write_text(f"#!/bin/sh\nexec /usr/bin/python3 -c '{START}' \"$@\"\n")
    lab.chmod(0o755)
    return {
        "PATH": f"{folder}:/usr/bin:/bin:{os.environ.get('PATH', '')}",
        "PYTHONPATH": str(TOP / "lab"),
        "PYTHONDONTWRITEBYTECODE": "1",
        "SIGMA": str(program.path),
    }
