"""The commands `python3 -m pfs search` and `python3 -m pfs plan`."""
import os
import sys

# `python3 -m` looks for modules in the current folder first. Files there, such as csv.py, must not replace modules.
try:
    sys.path.remove(os.getcwd())
except (OSError, ValueError):
    """The folder was deleted, or `python3 -P` leaves it out."""

from pfs.commands.main import main  # noqa: E402

if __name__ == "__main__":
    sys.exit(main(sys.argv[1:]))
