"""Runs of a built program."""
import dataclasses
import os
import pathlib
import subprocess
from collections.abc import Sequence
from typing import IO, Any, NamedTuple

# The arguments of a program; a line is split at each blank.
Words = str | Sequence[str | bytes]
# A descriptor, or a file that has one.
Stream = int | IO[bytes]

# A program that takes longer hangs.
MOST_SECONDS = 60.0


class Ran(NamedTuple):
    """What a run has written into pipes, and its exit status; -N if signal N killed the program."""
    stdout: bytes
    stderr: bytes
    status: int


@dataclasses.dataclass(frozen=True)
class Program:
    """A built program. A relative path is relative to the folder of the run."""
    path: pathlib.Path

    def words(self, words: Words) -> list[str | bytes]:
        """The program and these arguments."""
        return [os.path.join(".", self.path), *(words.split(" ") if isinstance(words, str) else words)]

    def start(self, words: Words, cwd: pathlib.Path, **how: Any) -> subprocess.Popen[bytes]:
        """Start the program in a folder. By default standard input is empty and the outputs are pipes; `how` has other
        arguments of Popen."""
        how = {"stdin": subprocess.DEVNULL, "stdout": subprocess.PIPE, "stderr": subprocess.PIPE} | how
        return subprocess.Popen(self.words(words), cwd=cwd, **how)

    def run(self, words: Words, cwd: pathlib.Path, stdin: bytes | Stream = b"",
            seconds: float = MOST_SECONDS, **how: Any) -> Ran:
        """Run the program in a folder. Its standard input has these bytes, or is this descriptor."""
        given = stdin if isinstance(stdin, bytes) else None
        child = self.start(words, cwd, stdin=subprocess.PIPE if given is not None else stdin, **how)
        return ended(child, given, seconds)


def ended(child: subprocess.Popen[bytes], stdin: bytes | None = None, seconds: float = MOST_SECONDS) -> Ran:
    """Wait until a program ends. If that takes too long, kill it and let the test fail."""
    try:
        stdout, stderr = child.communicate(stdin, timeout=seconds)
    except subprocess.TimeoutExpired:
        child.kill()
        stdout, stderr = child.communicate()
        raise AssertionError(f"no end after {seconds:g} s: {child.args!r}, {stdout!r}, {stderr!r}") from None
    finally:
        for stream in (child.stdin, child.stdout, child.stderr):
            if stream is not None:
                stream.close()
    return Ran(stdout or b"", stderr or b"", child.returncode)
