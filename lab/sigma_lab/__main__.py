"""`python3 -m sigma_lab` is the command `sigma-lab`."""

import sys

from .cli import main

sys.exit(main())
