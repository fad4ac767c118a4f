"""Programs at a terminal."""
import errno
import os
import pathlib
import pty
import select
import subprocess
import time
from collections.abc import Callable, Sequence
from typing import Any

MOST_SECONDS = 60.0


class Terminal:
    """A terminal with a program, which is killed at the end of the block."""

    def __init__(self, words: Sequence[str], cwd: pathlib.Path, **how: Any) -> None:
        self.end, other = pty.openpty()
        self.seen = b""
        how = {"stdin": other, "stdout": other, "stderr": other} | how
        self.process = subprocess.Popen(words, cwd=cwd, start_new_session=True, **how)
        os.close(other)

    def __enter__(self) -> "Terminal":
        return self

    def __exit__(self, *_: object) -> None:
        self.process.kill()
        self.process.wait()
        os.close(self.end)

    def write(self, text: str) -> None:
        os.write(self.end, text.encode())

    def read(self) -> bool:
        """Read the available output; return whether there may be more."""
        try:
            text = os.read(self.end, 4096)
        except OSError as error:
            if error.errno != errno.EIO:
                raise
            text = b""
        self.seen += text
        return text != b""

    def read_until(self, has_come: Callable[[], bool], what: str) -> None:
        """Reads until something has come."""
        end = time.monotonic() + MOST_SECONDS
        while not has_come():
            assert time.monotonic() < end, f"not yet: {what}, after {self.seen[-200:]!r}"
            if select.select([self.end], [], [], 0.01)[0]:
                assert self.read(), f"the end came before: {what}, after {self.seen[-200:]!r}"

    def read_all(self) -> int:
        """Read until the program ends, and return its status."""
        while self.read():
            pass
        return self.process.wait(MOST_SECONDS)
