"""The usage text, and files to run the program on."""
import pathlib
import re
from typing import NamedTuple

from support import second_program

TITLE = b"number of jobs, number of machines, initial seed, upper bound and lower bound :\n"

USAGE = second_program.USAGE
LAYOUTS = {"taillard", "orlib"}
LINES = USAGE.decode().splitlines()[1:]


def taillard(size_line: bytes, *rows: bytes) -> bytes:
    """The canonical text of an instance in Taillard's layout."""
    return TITLE + size_line + b"\nprocessing times :\n" + b"".join(row + b"\n" for row in rows)


def generated(jobs: int, machines: int, seed: int) -> bytes:
    """What Taillard's generator draws, by the remainders that define it."""
    return second_program.canonical(second_program.generated(jobs, machines, seed), b"taillard")


THREE_JOBS = taillard(b"3 2 0 0 0", b"3 2 4", b"2 5 1")
THREE_JOBS_BY_JOB = b"flow shop instance\n3 2\n0 3 1 2\n0 2 1 5\n0 4 1 1\n"
WITH_NOTES = taillard(b"1 1 7 9 8", b"5")

TWO_BLOCKS = b"+++\ninstance one 1\n+++\nfirst\n1 1\n0 7\n+++\nsecond\n3 2\n0 3 1 2\n0 2 1 5\n0 4 1 1\n+++\n"
# The best order, in each version of order files.
BEST, BEST2 = b"order 3\n2 1 3\nmakespan 10\n", b"order2 3 2\n2 1 3\nmakespan 10\n"

FILES = {
    "three": THREE_JOBS,
    "three.or": THREE_JOBS_BY_JOB,
    "two_blocks.or": TWO_BLOCKS,
    "notes": WITH_NOTES,
    "scattered": b"jobs 5x :\r\n03 2 7 11\t10\r\n 3 2\r\n4\r\nmachine :\r\n2 5 1",
    "ones": taillard(b"3 2 0 0 0", b"1 1 1", b"1 1 1"),
    "one": taillard(b"1 1 0 0 0", b"0"),
    "three_machines": taillard(b"3 3 0 0 0", b"3 3 0", b"1 0 6", b"0 1 0"),
    "eight": generated(8, 3, 873654221),
    "sixteen": taillard(b"16 1 0 0 0", b" ".join([b"4096"] * 16)),
    "empty": b"",
    "mixed": taillard(b"3 2 0 0 0", b"3 2 4", b"2 5x 1"),
    "extra": taillard(b"3 2 0 0 0", b"3 2 4", b"2 5 1 7"),
    "too_long_time": taillard(b"3 2 0 0 0", b"3 2 4", b"2 5 1000000001"),
    "cut": THREE_JOBS[:118],
    "count": b"3 2\n",
    "sizes": b"5001 1 0 0 0\n",
    "greatest_sizes": b"5000 200 4294967295 0 0\n",
    "machine.or": b"d\n1 2\n0 3 2 4\n",
    "best": BEST,
    "best2": BEST2,
    "ones_order": b"order 3\n1 2 3\nmakespan 4\n",
    "numbered": b"order 3\n1 2 3\nmakespan 11\n",
    "wrong": b"order 3\n2 1 3\nmakespan 9\n",
    "two": b"order 2\n1 2\nmakespan 11\n",
    "for_three": b"order2 3 3\n2 1 3\nmakespan 9\n",
    "two_for_three": b"order2 2 3\n1 2\nmakespan 9\n",
    "repeated": b"order 3\n2 2 3\nmakespan 1\n",
    "range": b"order 3\n2 1 4\nmakespan 10\n",
    "long": b"o" * 65537,
}


def make_files(folder: pathlib.Path) -> None:
    """Write the worked files and an empty folder into a folder."""
    for name, text in FILES.items():
        (folder / name).write_bytes(text)
    (folder / "folder").mkdir()


class Command(NamedTuple):
    """The options of a command, each with the letter of its value or nothing, and its paths."""
    options: dict[str, str]
    paths: list[str]


def commands() -> dict[str, Command]:
    """The commands of the usage text."""
    found = {}
    for line in LINES:
        _, name, rest = line.split(" ", 2)
        options = dict(re.findall(r"(--\w+)(?: ([A-Z])\b)?", rest))
        found[name] = Command(options, re.findall(r"\b(?:FILE|ORDER)\b", rest))
    return found
