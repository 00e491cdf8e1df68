"""The installed program `schedule`: one file, with the packages `scheduling` and `model` in it. The Makefile fills in its version."""

import signal
import sys

# Whoever interrupts the program before it has begun is not shown where it stood.
signal.signal(signal.SIGINT, signal.SIG_DFL)

from scheduling.main import main

sys.exit(main("@VERSION@"))
