"""Runs of the commands of `python3 -m pfs`, in this process."""
import pathlib
import re

from pfs.commands import main as _commands
from support.tools import run_main


def ended(words: list[str], folder: pathlib.Path) -> tuple[int, str, str]:
    """The status, the output and the errors of a command."""
    done = run_main(lambda: _commands.main(words), ["pfs"], folder)
    return done.status, done.stdout, without_summary(done.stderr)


def without_summary(got: str) -> str:
    """What a plan prints on standard error after the line that says what it read."""
    return re.sub(r"\A\d+ jobs?, \d+ machines? \(.*\), times .*\n", "", got)
