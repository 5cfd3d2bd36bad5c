"""Begins the command `sigma-lab` if this Python has its packages, and else starts the next Python with the same words.

The wrapper `sigma-lab` runs it by its path; its first word names the other Pythons, with colons between them. An older
Python reads this file too.
"""

import os
import sys
from importlib.machinery import PathFinder

_PACKAGES = ("numpy", "scipy", "pandas")


def main() -> None:
    """Ends this process with the status of the command."""
    later, words = sys.argv[1], sys.argv[2:]
    if sys.version_info < (3, 11) or None in map(PathFinder.find_spec, _PACKAGES):
        for number, python in enumerate(filter(None, later.split(":")), 1):
            rest = ":".join(later.split(":")[number:])
            try:
                os.execvp(python, [python, "-I", __file__, rest, *words])
            except OSError:
                pass  # there is none of this name
        text = "no Python from 3.11 on with numpy, scipy and pandas: SIGMA_LAB_PYTHON names one"
        sys.exit(f"sigma-lab: {text}")
    sys.argv[1:] = words
    sys.path.insert(0, os.path.dirname(os.path.dirname(os.path.abspath(__file__))))
    from sigma_lab.cli import main as command

    sys.exit(command())


if __name__ == "__main__":
    main()
