"""Files of 64 MiB through the commands that read: the exact output, in time linear in the file, with at most 16 MiB of
memory plus the instance. The files consist of one repeated byte, of digits and blanks, of one line, or of a million
lines. Then the greatest instance, with the longest times, through each command: the exact output, with that memory and
the tables of a search or of a time table. The program gets no more address space than that, and its resident memory is
checked too."""
import pathlib
from collections.abc import Callable, Iterator
from typing import NamedTuple

import pytest
from support import second_program
from support.files import FILES
from support.large import LargeRun, many_lines, one_line, run_limited
from support.lines import ANSWERS, EACH, ELEVEN, WITH_INSTANCE
from support.program import Program, Ran
from support.second_program import LONGEST_TIME, MOST_JOBS, MOST_MACHINES, MOST_NOTE, Instance

MIB = 1 << 20
SIZE = 64 * MIB
MOST_RESIDENT = 16 * MIB

# The lengths of the longest texts within the limits.
LONGEST_TEXT = 14_450_028
LONGEST_ORDER_TEXT = 50_044

COUNT = b"pfs: size line 1 has a wrong count\n"
NONE = b"pfs: no block, found 0\n"
TOO_LONG = b"pfs: input too long\n"

# The commands over an instance.
COMMANDS = [command for command, line in EACH.items() if line in WITH_INSTANCE]


def words_of(command: str, file: pathlib.Path, order: pathlib.Path | None = None) -> list[str]:
    """The arguments of a command on an instance file, and perhaps on an order file."""
    paths = {"three": str(file), "best": str(order)}
    return [paths.get(word, word) for word in EACH[command].split(" ")]


def run_large(pfs: Program, words: list[str], folder: pathlib.Path, printed: bytes, got: bytes = b"", kept: int = 0,
              stdin: pathlib.Path = pathlib.Path("/dev/null")) -> LargeRun:
    """Run the program and check its output, or what it reports, and its memory; `kept` is the bytes of its tables."""
    large = run_limited(pfs, words, folder, kept + MOST_RESIDENT, stdin)
    is_right = large.ran == Ran(printed, got, 2 if got else 0)
    assert is_right, (large.ran.stdout[:200], large.ran.stderr[:200], large.ran.status)
    assert large.resident <= kept + MOST_RESIDENT, "it had more memory"
    return large


# Files of 64 MiB

MANY_JOBS, MANY_MACHINES = 2_000, 200


class Great(NamedTuple):
    """Such a file, or a smaller one like it, by its size, and what `value` prints or reports of it."""
    text: Callable[[int], bytes]
    printed: Callable[[int], bytes] = lambda size: b""
    got: bytes = b""
    times: int = 0


def fill(part: bytes, got: bytes) -> Great:
    """A file of equal parts, which holds no instance."""
    return Great(lambda size: (part * size)[:size], got=got)


GREAT = {
    **{f"nothing but {part!r}": fill(part, NONE) for part in (b" ", b"\n", b"x", b"\0", b"\xff")},
    **{f"nothing but {part!r}": fill(part, COUNT) for part in (b"7", b"7 ")},
    "one line": Great(one_line, lambda size: ELEVEN),
    "a million lines": Great(
        lambda size: many_lines(MANY_JOBS * size // SIZE, MANY_MACHINES, 1_000_000 * size // SIZE),
        lambda size: b"makespan %d\n" % (MANY_JOBS * size // SIZE + MANY_MACHINES - 1),
        times=MANY_JOBS * MANY_MACHINES),
}


@pytest.mark.seconds(5)
@pytest.mark.parametrize("kind", GREAT)
def test_a_great_file_in_linear_time(pfs: Program, folder: pathlib.Path, kind: str) -> None:
    """Its eighth takes at least a 27th of the time, so that twice the file takes at most three times as long. In
    quadratic time the file would take 64 times as long as its eighth. A byte more than 64 MiB is too long."""
    great, path, words = GREAT[kind], folder / "great", words_of("value", folder / "great")
    seconds = []
    for size in (SIZE // 8, SIZE):
        path.write_bytes(great.text(size))
        seconds.append(run_large(pfs, words, folder, great.printed(size), great.got, 4 * great.times).seconds)
    assert seconds[1] <= 27 * seconds[0] + 0.1, f"{seconds[1]} s, and {seconds[0]} s for an eighth of the file"
    if path.stat().st_size == SIZE:
        with open(path, "ab") as file:
            file.write(b"\n")
        run_large(pfs, words, folder, b"", TOO_LONG)
    path.unlink()


@pytest.fixture(scope="module")
def line(tmp_path_factory: pytest.TempPathFactory) -> Iterator[pathlib.Path]:
    """The three jobs on one line of 64 MiB."""
    path = tmp_path_factory.mktemp("line") / "great"
    path.write_bytes(one_line(SIZE))
    yield path
    path.unlink()


ONE_LINE = pytest.mark.xdist_group("one line")


@ONE_LINE
@pytest.mark.seconds(3)
@pytest.mark.parametrize("command", ["without arguments", *(command for command in COMMANDS if command != "value")])
def test_a_line(pfs: Program, folder: pathlib.Path, line: pathlib.Path, command: str) -> None:
    (folder / "best").write_bytes(FILES["best"])
    words = words_of(command, line, folder / "best") if command in EACH else []
    run_large(pfs, words, folder, ANSWERS[EACH[command]].stdout if words else ELEVEN, stdin=line)


# The greatest instance

TIMES = MOST_JOBS * MOST_MACHINES
# A search keeps two lengths for each time and a row more, a time table a start and an end for each.
KEPT = {"solve": 8 * (2 * TIMES + MOST_MACHINES), "table": 16 * TIMES}
GREATEST_GROUP = pytest.mark.xdist_group("the greatest instance")
GREATEST = Instance(MOST_JOBS, MOST_MACHINES, [MOST_NOTE] * 3)
GREATEST.times = [[LONGEST_TIME] * MOST_JOBS] * MOST_MACHINES
LONGEST = LONGEST_TIME * (MOST_JOBS + MOST_MACHINES - 1)


# All places of a job are equal, so NEH inserts each at the first one, the lowest numbers first.
ORDER = second_program.order_text(range(MOST_JOBS)[::-1], MOST_MACHINES, LONGEST)
# What each command prints.
PRINTED: dict[str, Callable[[], bytes]] = {
    "value": lambda: b"makespan %d\n" % LONGEST, "solve": lambda: ORDER,
    "check": lambda: b"valid\nmakespan %d\nbound %d\noptimal\n" % (LONGEST, LONGEST),
    "table": lambda: second_program.tabled(GREATEST, [*range(MOST_JOBS, 0, -1)], None)[0],
    "convert": lambda: second_program.canonical(GREATEST, b"orlib"),
}


@pytest.fixture(scope="module")
def greatest(tmp_path_factory: pytest.TempPathFactory) -> pathlib.Path:
    """A folder with the greatest instance and its order file."""
    made = tmp_path_factory.mktemp("greatest")
    (made / "great").write_bytes(second_program.canonical(GREATEST, b"taillard"))
    (made / "order").write_bytes(ORDER)
    return made


@GREATEST_GROUP
@pytest.mark.seconds(12)
@pytest.mark.parametrize("command", COMMANDS)
def test_the_greatest_instance(pfs: Program, folder: pathlib.Path, greatest: pathlib.Path, command: str) -> None:
    run_large(pfs, words_of(command, greatest / "great", greatest / "order"), folder, PRINTED[command](),
              kept=4 * TIMES + KEPT.get(command, 0))


@GREATEST_GROUP
@pytest.mark.seconds(3)
def test_the_longest_text(pfs: Program, folder: pathlib.Path) -> None:
    (folder / "longest").write_bytes(second_program.canonical(GREATEST, b"orlib"))
    assert (folder / "longest").stat().st_size == LONGEST_TEXT
    run_large(pfs, ["value", "--layout", "orlib", str(folder / "longest")], folder, PRINTED["value"](), kept=4 * TIMES)


@GREATEST_GROUP
@pytest.mark.seconds(3)
def test_the_longest_order_text(pfs: Program, folder: pathlib.Path, greatest: pathlib.Path) -> None:
    jobs = b" ".join([b"9" * 9] * MOST_JOBS)
    text = b"order2 %d %d\n%s\nmakespan %s\n" % (MOST_JOBS, MOST_MACHINES, jobs, b"9" * 18)
    assert len(text) == LONGEST_ORDER_TEXT
    (folder / "longest").write_bytes(text)
    run_large(pfs, words_of("check", greatest / "great", folder / "longest"), folder, b"",
              b"pfs: order file job out of range at place 1\n", 4 * TIMES)
