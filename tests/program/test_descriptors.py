"""Unusual descriptors and files: closed descriptors, pipes whose other end is closed or waits, folders, devices,
signals, and the longest command lines that Linux allows. Each run is checked for its exact output, errors and
status."""
import fcntl
import os
import pathlib
import resource
import signal
import socket
from collections.abc import Iterator

import pytest
from fuzz import unread
from support.files import FILES, THREE_JOBS, USAGE
from support.lines import ANSWERS, CHECK, EACH, SHORT, SOLVE, VALUE, WITH_INSTANCE, WITH_ORDER, refused, unwritten
from support.program import Program, Ran, Words, ended
from support.tools import wait_until

ELEVEN = ANSWERS[VALUE]
# The longest word that Linux passes on, without its end, and how many words are many.
LONGEST_WORD = 131_071
# The least size of a pipe.
PAGE = 4_096
MANY = 100_000

# The signals that kill a program by default.
ENDING = [signal.SIGHUP, signal.SIGINT, signal.SIGTERM, signal.SIGQUIT]


# Standard streams that are closed

STREAMS = ["stdin", "stdout", "stderr"]
CLOSED = [["stdin"], ["stdout"], ["stderr"], ["stdin", "stdout"], ["stdout", "stderr"], STREAMS]
# Those that are quick.
LINES = [line for line in SHORT if "/dev/zero" not in line]


def run_without(streams: list[str], pfs: Program, words: Words, folder: pathlib.Path) -> Ran:
    """A run for which the shell has closed these streams."""
    line = " ".join(['exec "$0" "$@"', *(f"{STREAMS.index(stream)}>&-" for stream in streams)])
    return Program(pathlib.Path("/bin/sh")).run(["-c", line, *pfs.words(words)], folder)


@pytest.mark.parametrize("streams", CLOSED, ids=" ".join)
@pytest.mark.parametrize("line", LINES)
def test_files_are_not_confused_with_closed_streams(pfs: Program, worked_once: pathlib.Path, line: str,
                                                    streams: list[str]) -> None:
    """The files that are opened then take the numbers of the streams, and aren't written to."""
    answer = ANSWERS[line]
    if "stdout" in streams and answer.stdout:
        answer = unwritten(0)
    if "stderr" in streams:
        answer = answer._replace(stderr=b"")
    assert run_without(streams, pfs, line, worked_once) == answer
    assert {name: (worked_once / name).read_bytes() for name in FILES} == FILES


def test_without_arguments_a_closed_input_is_a_failed_read(pfs: Program, folder: pathlib.Path) -> None:
    assert run_without(["stdin"], pfs, [], folder) == refused("read failed")


# Standard input that isn't a regular file

@pytest.mark.parametrize("path, flags, answer", [
    ("written", os.O_WRONLY | os.O_CREAT, refused("read failed")), (".", os.O_RDONLY, refused("read failed")),
    ("/dev/null", os.O_RDONLY, refused("no block, found 0", 2)),
    ("/dev/zero", os.O_RDONLY, refused("input too long", 2)),
])
def test_an_odd_input(pfs: Program, folder: pathlib.Path, path: str, flags: int, answer: Ran) -> None:
    """A file that is open for writing, a folder, and devices."""
    descriptor = os.open(folder / path, flags)
    assert pfs.run([], folder, descriptor) == answer
    os.close(descriptor)


# Files that are named by the descriptors that the program was started with

@pytest.mark.parametrize("path", ["/dev/stdin", "/dev/fd/0", "/proc/self/fd/0"])
@pytest.mark.parametrize("line, name", [(VALUE, "three"), (CHECK, "best")])
def test_a_path_of_the_input(pfs: Program, worked: pathlib.Path, line: str, name: str, path: str) -> None:
    with open(worked / name, "rb") as file:
        assert pfs.run(line.replace(name, path), worked, file) == ANSWERS[line]


# Paths of files that aren't regular

@pytest.fixture
def odd(worked: pathlib.Path) -> Iterator[pathlib.Path]:
    """The worked files, a socket, a sparse file of more than 8 GiB, and a link that leads to itself."""
    with socket.socket(socket.AF_UNIX) as listening:
        # The path of a socket is short.
        before = os.getcwd()
        os.chdir(worked)
        listening.bind("socket")
        os.chdir(before)
        (worked / "sparse").touch()
        os.truncate(worked / "sparse", 2**33 + 5)
        (worked / "circle").symlink_to("circle")
        yield worked


ODD_INSTANCES = {
    "folder": refused("read failed"),
    "/dev/null": refused("no block, found 0", 2),
    "/dev/full": refused("input too long", 2),
    "sparse": refused("input too long", 2),
    "/proc/self/mem": refused("read failed"),
    "socket": refused("cannot open"),
    "circle": refused("cannot open"),
    "three/": refused("cannot open"),
    "three/x": refused("cannot open"),
}
ODD_ORDER_FILES = {
    "folder": refused("order file read failed"),
    "/dev/null": refused("order file syntax at 0", 2),
    "/dev/zero": refused("order file too long", 2),
    "/dev/full": refused("order file too long", 2),
    "sparse": refused("order file too long", 2),
    "/proc/self/mem": refused("order file read failed"),
    "socket": refused("cannot open"),
}


# Each line over an instance or an order file, with these in its place.
ODD = [(line.replace(usual, name), answer) for usual, lines, odd in (
    ("three", WITH_INSTANCE, ODD_INSTANCES), ("best", WITH_ORDER, ODD_ORDER_FILES)) for line in lines
    for name, answer in odd.items()]


@pytest.mark.parametrize(("line", "answer"), ODD, ids=[line for line, _ in ODD])
def test_an_odd_file(pfs: Program, odd: pathlib.Path, line: str, answer: Ran) -> None:
    assert pfs.run(line, odd) == answer


# Outputs that nobody reads, or that would have to wait

BOTH_WAYS = pytest.mark.parametrize("restores", [True, False], ids=["signal as usual", "signal ignored"])


@BOTH_WAYS
@pytest.mark.parametrize("line", EACH.values())
def test_a_pipe_without_a_reader_is_a_failed_write(pfs: Program, worked: pathlib.Path, line: str,
                                                   restores: bool) -> None:
    """The write fails without SIGPIPE, whether or not the parent process ignores that signal."""
    read_end, write_end = os.pipe()
    os.close(read_end)
    assert pfs.run(line, worked, stdout=write_end, restore_signals=restores) == unwritten(0)
    os.close(write_end)


@BOTH_WAYS
def test_a_reader_that_leaves(pfs: Program, folder: pathlib.Path, restores: bool) -> None:
    """The reader leaves once the pipe is full: what the pipe holds went out."""
    read_end, write_end = os.pipe()
    assert fcntl.fcntl(write_end, fcntl.F_SETPIPE_SZ, PAGE) == PAGE
    child = pfs.start("generate 500 20 1", folder, stdout=write_end, restore_signals=restores)
    os.close(write_end)
    wait_until(lambda: unread(read_end) == PAGE, "the pipe is full")
    os.close(read_end)
    assert ended(child) == unwritten(PAGE)


# Named pipes

@pytest.fixture
def piped(worked: pathlib.Path) -> Iterator[int]:
    """The end of a named pipe among the worked files, which stays open."""
    os.mkfifo(worked / "pipe")
    end = os.open(worked / "pipe", os.O_RDWR)
    yield end
    os.close(end)


def test_a_named_pipe_that_stays_open(pfs: Program, worked: pathlib.Path, piped: int) -> None:
    """The program ends after the block, and doesn't wait for the end of the file."""
    os.write(piped, THREE_JOBS + b"what follows isn't looked at")
    assert pfs.run("value --layout taillard pipe", worked) == ELEVEN


# Signals

def as_usual() -> None:
    """The signals kill the program even if the parent process ignores them, and it leaves no core file."""
    no_core()
    for number in ENDING:
        signal.signal(number, signal.SIG_DFL)


def no_core() -> None:
    resource.setrlimit(resource.RLIMIT_CORE, (0, 0))


@pytest.mark.parametrize("number", [*ENDING, signal.SIGKILL], ids=lambda number: str(number.name))
def test_a_signal_kills_the_program(pfs: Program, worked: pathlib.Path, piped: int, number: signal.Signals) -> None:
    """A program that waits is killed and prints nothing."""
    child = pfs.start("value --layout taillard pipe", worked, preexec_fn=as_usual)
    os.write(piped, THREE_JOBS[:100])
    wait_until(lambda: unread(piped) == 0, "the pipe is read")
    child.send_signal(number)
    assert ended(child) == Ran(b"", b"", -number)


@pytest.mark.parametrize("restores, answer", [(False, unwritten(5)), (True, Ran(b"", b"", -signal.SIGXFSZ))],
                         ids=["signal ignored", "signal as usual"])
def test_a_file_of_five_bytes(pfs: Program, worked: pathlib.Path, restores: bool, answer: Ran) -> None:
    """Where an output passes the limit on a file's size, the signal for that ends the program, unless its starter
    ignores the signal."""

    def limit() -> None:
        no_core()
        resource.setrlimit(resource.RLIMIT_FSIZE, (5, 5))

    with open(worked / "limited", "wb") as output:
        assert pfs.run(VALUE, worked, stdout=output, preexec_fn=limit, restore_signals=restores) == answer
    assert (worked / "limited").read_bytes() == b"makes"


# As many arguments as Linux allows, and as long ones

LONG = "x" * LONGEST_WORD
NO_COMMAND = Ran(b"", USAGE, 3)
LONG_LINES: dict[str, tuple[Words, Ran]] = {
    "many words": (["x"] * MANY, NO_COMMAND),
    "many options": (VALUE.split(" ") + ["--block=1"] * MANY, NO_COMMAND),
    "a long command": ([LONG], NO_COMMAND),
    "a long path": (["value", "--layout", "taillard", LONG], refused("cannot open")),
    "a long option": (["value", "--" + LONG[2:], "three"], NO_COMMAND),
    "long paths": (["value"] + [LONG] * 12, NO_COMMAND),
    "a long number": (VALUE.split(" ") + ["--block", "0" * (LONGEST_WORD - 1) + "1"], ELEVEN),
    "a long number that is too great": (VALUE.split(" ") + ["--block", "9" * LONGEST_WORD], NO_COMMAND),
    "a long seed": (SOLVE.split(" ") + ["--seed=" + "0" * (LONGEST_WORD - 7)], ANSWERS[SOLVE]),
    "the longest path": (["value", "--layout", "taillard", "./" * ((4_095 - 5) // 2) + "three"], ELEVEN),
}


@pytest.mark.parametrize("name", LONG_LINES)
def test_a_long_line(pfs: Program, worked: pathlib.Path, name: str) -> None:
    words, answer = LONG_LINES[name]
    assert pfs.run(words, worked) == answer
