"""The output, the errors and the exit status of each command line, of each text of a file, and of runs whose standard
output or standard error is full."""
import pathlib
import subprocess

import fuzz
import pytest
from support.files import THREE_JOBS, USAGE, commands
from support.lines import ANSWERS, EACH, ELEVEN, PRINTING, SHORT, TEXTS, first_line, unwritten
from support.program import Program, Ran


@pytest.mark.quick
@pytest.mark.parametrize("line", ANSWERS)
def test_a_line_has_its_output_errors_and_status(pfs: Program, worked_once: pathlib.Path, line: str) -> None:
    assert pfs.run(line, worked_once) == ANSWERS[line]


@pytest.mark.parametrize(("line", "text", "answer"), TEXTS, ids=[
    f"{answer}: {line.split(' ')[0]}, {len(text)} bytes that end with {text[-30:]!r}" for line, text, answer in TEXTS])
def test_a_text_has_its_answer_wherever_it_is_cut(pfs: Program, line: str, text: bytes, answer: str) -> None:
    """Whole, and byte by byte through a pipe."""
    status = {"wrong": 1, "valid": 0, "makespan": 0}.get(answer.split()[0], 2)
    words = [word.encode() for word in line.split(" ")]
    ones = [1] * len(text[:1_000])
    for lengths in (ones[:0], ones):
        pieces = {b"file": lengths} if lengths else {}
        stdout, stderr, got = fuzz.run(pfs, fuzz.Case(words, {b"three": THREE_JOBS, b"file": text}, pieces=pieces))
        assert (first_line(stdout, stderr), got) == (answer, status), f"in {len(lengths) or 1} pieces"
        assert stdout == b"" or stderr == b""


def test_each_command_has_a_line_over_its_files() -> None:
    """Its first line in `lines.py` stands for the command in other tests."""
    files = {name: [word for word in line.split(" ") if word in ("three", "best")] for name, line in EACH.items()}
    assert files == {name: ["three", "best"][:len(command.paths)] for name, command in commands().items()}


def test_an_argument_that_is_not_utf_8_is_rejected(pfs: Program, worked_once: pathlib.Path) -> None:
    assert pfs.run(["value", "--layout", "taillard", b"three\xff"], worked_once) == Ran(b"", USAGE, 3)


def test_without_arguments_standard_input_is_evaluated(pfs: Program, folder: pathlib.Path) -> None:
    assert pfs.run([], folder, THREE_JOBS) == Ran(ELEVEN, b"", 0)


@pytest.mark.parametrize("line", PRINTING)
def test_a_full_output_is_a_failed_write(pfs: Program, worked_once: pathlib.Path, line: str) -> None:
    """Also where standard error is full."""
    with open("/dev/full", "wb") as full:
        assert pfs.run(line, worked_once, stdout=full) == unwritten(0)
        assert pfs.run(line, worked_once, stdout=full, stderr=full).status == 4


@pytest.mark.parametrize("line", [line for line in SHORT if line not in PRINTING])
def test_the_status_is_the_same_if_standard_error_is_full(pfs: Program, worked_once: pathlib.Path, line: str) -> None:
    with open("/dev/full", "wb") as full:
        ran = pfs.run(line, worked_once, stdout=subprocess.DEVNULL, stderr=full)
    assert ran.status == ANSWERS[line].status
