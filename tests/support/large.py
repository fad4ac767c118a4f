"""Large files, and runs of a program on them with little memory."""
import pathlib
import subprocess
import sys
from typing import NamedTuple

from support.needs import tool
from support.program import Program, Ran

# Runs a program, and writes into a file its exit status, its processor seconds and its greatest resident memory in
# bytes. The kernel's figure includes the memory of the process that starts the program, so that one is small.
MEASURED = """import os, sys
_, ended, usage = os.wait4(os.posix_spawnp(sys.argv[2], sys.argv[2:], os.environ), 0)
with open(sys.argv[1], "w") as file:
    print(os.waitstatus_to_exitcode(ended), usage.ru_utime + usage.ru_stime, usage.ru_maxrss * 1024, file=file)
"""
# A program that takes more processor time does too much.
MOST_SECONDS = 60


def one_line(size: int) -> bytes:
    """The three jobs with all times on one line, which fill a file of this size by their leading zeros."""
    each, rest = divmod(size - len(b"3 2 0 0 0\n3 2 4 2 5 1"), 6)
    return b"3 2 0 0 0\n" + b"0" * rest + b" ".join(b"0" * each + time for time in (b"3", b"2", b"4", b"2", b"5", b"1"))


def many_lines(jobs: int, machines: int, lines: int) -> bytes:
    """Jobs that all take 1 on each machine, one time a line, and plain lines before and between, each of 67 bytes."""
    time, plain = b"0" * 65 + b"1\n", b" \t\r+-x" * 11 + b"\n"
    each, rest = divmod(lines - jobs * machines - 1, jobs * machines)
    return plain * rest + b"%d %d 0 0 0\n" % (jobs, machines) + (plain * each + time) * (jobs * machines)


class LargeRun(NamedTuple):
    """The result of a run, with its processor seconds and its greatest resident memory."""
    ran: Ran
    seconds: float
    resident: int


def run_limited(program: Program, words: list[str], folder: pathlib.Path, memory: int,
               stdin: pathlib.Path = pathlib.Path("/dev/null")) -> LargeRun:
    """Run a program with this many bytes of address space, and kill it if it takes too much processor time."""
    output, errors, got = folder / "output", folder / "errors", folder / "usage"
    limits = ["timeout", "--signal=KILL", f"{10 * MOST_SECONDS}", tool("prlimit"), f"--as={memory}",
              f"--cpu={MOST_SECONDS}"]
    measuring = [sys.executable, "-I", "-S", "-c", MEASURED, str(got), *limits, str(program.path), *words]
    with open(stdin, "rb") as given, open(output, "wb") as stdout, open(errors, "wb") as stderr:
        subprocess.run(measuring, cwd=folder, stdin=given, stdout=stdout, stderr=stderr, check=True)
    status, seconds, resident = got.read_text().split()
    return LargeRun(Ran(output.read_bytes(), errors.read_bytes(), int(status)), float(seconds), int(resident))
