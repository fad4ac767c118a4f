"""Makes memory allocations of a program fail, or counts them, by a preloaded library (refuse.c)."""
import os
import pathlib
import subprocess

import pytest
from support.needs import tool
from support.program import Program, Ran, Words

SOURCE = pathlib.Path(__file__).with_name("refuse.c")


class Shim:
    """The preloaded library."""

    def __init__(self, folder: pathlib.Path) -> None:
        self.path = folder / "refuse.so"
        subprocess.run([tool("cc"), "-O1", "-Wall", "-Werror", "-shared", "-fPIC", "-o", self.path, SOURCE], check=True)

    def run_refused(self, program: Program, words: Words, folder: pathlib.Path, stdin: bytes,
                    growth: int) -> tuple[Ran, bool]:
        """Run the program with this allocation failing; also return whether the program got that far."""
        ran, got = self.run(program, words, folder, stdin, "REFUSE_TELL", {"REFUSE_GROWTH": str(growth)})
        return ran, got == b"x"

    def run_counted(self, program: Program, words: Words, folder: pathlib.Path) -> tuple[Ran, list[int]]:
        """Run the program; also return the number of allocations before each of its writes to standard output."""
        ran, got = self.run(program, words, folder, b"", "COUNT_TELL", {})
        return ran, [int(line) for line in got.splitlines()]

    def run(self, program: Program, words: Words, folder: pathlib.Path, stdin: bytes, tell: str,
            variables: dict[str, str]) -> tuple[Ran, bytes]:
        """Run the program; also return what the library wrote to the descriptor that this variable names."""
        read_end, write_end = os.pipe()
        env = os.environ | {"LD_PRELOAD": str(self.path), tell: str(write_end)} | variables
        ran = program.run(words, folder, stdin, env=env, pass_fds=(write_end,))
        os.close(write_end)
        with open(read_end, "rb") as file:
            return ran, file.read()


@pytest.fixture(scope="session")
def shim(tmp_path_factory: pytest.TempPathFactory) -> Shim:
    return Shim(tmp_path_factory.mktemp("shim"))
