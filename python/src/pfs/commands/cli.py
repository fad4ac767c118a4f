"""What the programs have in common: command lines, and the messages and exit statuses of errors."""
from __future__ import annotations

import argparse
import os
import re
import signal
import sys
from collections.abc import Callable
from typing import Any, NoReturn, TextIO

from pfs.base.faults import Fault, Refused, TableFault
from pfs.base.names import shown
from pfs.base.units import whole

# Exit statuses, the same as those of the program pfs.
REFUSED, USAGE, SYSTEM = 2, 3, 4


class Misused(Exception):
    """A command line is invalid."""


class CommandLine(argparse.ArgumentParser):
    """A parser of command lines, which raises `Misused`."""

    def error(self, message: str) -> NoReturn:
        raise Misused(f"{message} ({self.prog} --help lists what there is)")


class ShowVersion(argparse.Action):
    """An option that prints the version, and ends."""

    def __init__(self, option_strings: list[str], dest: str) -> None:
        super().__init__(option_strings, argparse.SUPPRESS, nargs=0, help="show the version and exit")

    def __call__(self, parser: argparse.ArgumentParser, *_: Any) -> None:
        # What it needs takes longer to import than many a program runs.
        from pfs.base.checkout import version
        print(f"pfs {version()}")
        parser.exit()


def typed(read: Callable[[str], Any]) -> Callable[[str], Any]:
    """Return a parser of an option, whose errors are those of `read`."""
    def read_text(text: str) -> Any:
        try:
            return read(text)
        except ValueError as fault:
            raise argparse.ArgumentTypeError(str(fault)) from None
    return read_text


def number(least: int, most: int) -> Callable[[str], Any]:
    """Return a parser of integers from `least` to `most`."""
    return typed(whole(least, most))


def inches(text: str) -> float:
    """Parse the width of a picture."""
    if not re.fullmatch(r"[0-9]{1,2}(?:\.[0-9]{1,4})?", text) or not 2 <= float(text) <= 50:
        raise argparse.ArgumentTypeError(f"{text!r} is not a number of inches from 2 to 50")
    return float(text)


def run(name: str, command: Callable[[], int], wording: Callable[[str], str] = str) -> int:
    """Run a program of this name, and return its exit status. An error is reported as by `report`."""
    try:
        return command()
    except KeyboardInterrupt:
        return 128 + signal.SIGINT
    except (Fault, Refused, Misused, OSError, MemoryError, ImportError) as error:
        return report(name, error, wording)


def report(name: str, error: Exception, wording: Callable[[str], str] = str) -> int:
    """Report an error on standard error, in words that `wording` returns, and return the exit status for it, also if
    the report can't be written. Each fault of a table has a line; other errors have one."""
    texts = error.messages() if isinstance(error, TableFault) else [" ".join(message_of(error).splitlines())]
    written(sys.stderr, "".join(f"{name}: {wording(shown(text))}\n" for text in texts))
    if isinstance(error, (Fault, Refused)):
        return REFUSED
    if isinstance(error, Misused):
        return USAGE
    written(sys.stdout, "")
    return SYSTEM


def message_of(error: Exception) -> str:
    """Return what an error says; of an invalid file what the program pfs says."""
    if isinstance(error, MemoryError):
        return "no memory"
    if isinstance(error, OSError) and error.strerror:
        file = error.filename2 or error.filename
        return f"{os.fsdecode(file)}: {error.strerror}" if isinstance(file, (str, bytes)) and file else error.strerror
    return error.text.removeprefix("pfs: ") if isinstance(error, Fault) else str(error)


def written(stream: TextIO | None, text: str) -> bool:
    """Write a text, and return whether that worked. A stream that fails is redirected to /dev/null, so that flushing it
    when the interpreter ends doesn't fail again."""
    if stream is None:
        return False
    try:
        stream.write(text)
        stream.flush()
    except OSError:
        null = os.open(os.devnull, os.O_WRONLY)
        os.dup2(null, stream.fileno())
        os.close(null)
        return False
    return True
