"""Random files and command lines, on which the program and the second program must agree (fuzz.py), for half a minute
in all, in parallel shares. The fuzzer also has to find a program that differs."""
import itertools
import pathlib
import re
import subprocess
import sys

import fuzz
import pytest
from support.program import Program, Ran
from support.tools import write_script

SHARES = 6
SECONDS = 4.5
FUZZ = pathlib.Path(fuzz.__file__)


@pytest.mark.seconds(SECONDS)
@pytest.mark.parametrize("share", range(SHARES), ids=lambda share: f"share {share}")
def test_the_programs_agree_on_random_cases(pfs: Program, share: int, capsys: pytest.CaptureFixture[str]) -> None:
    numbers = itertools.count(1 + share, SHARES)
    assert fuzz.search(pfs, 1, SECONDS, numbers), capsys.readouterr().out


def run_fuzzer(folder: pathlib.Path, *words: str) -> Ran:
    done = subprocess.run([sys.executable, FUZZ, *words], cwd=folder, capture_output=True, timeout=300)
    return Ran(done.stdout, done.stderr, done.returncode)


@pytest.mark.parametrize(("seconds", "status", "count"), [(1, 0, "[1-9][0-9]*"), (0, 1, "0")])
def test_a_run_without_cases_fails(pfs: Program, folder: pathlib.Path, seconds: int, status: int, count: str) -> None:
    ran = run_fuzzer(folder, "--program", str(pfs.path), "--seconds", str(seconds), "--seed", "2")
    printed = f"seed 2: {count} cases in {seconds} s, on which both programs agree\n"
    assert (ran.stderr, ran.status) == (b"", status) and re.fullmatch(printed.encode(), ran.stdout), ran


def test_a_program_that_differs_is_found(pfs: Program, folder: pathlib.Path, monkeypatch: pytest.MonkeyPatch) -> None:
    """With its files, and a command that repeats it. It does what pfs does, but ends with status 2 instead of 3."""
    other = write_script(folder / "other", f'#!/bin/sh\n{pfs.path} "$@"\nstatus=$?\n[ $status != 3 ] || exit 2\n'
                                           "exit $status\n")
    monkeypatch.setenv("TMPDIR", str(folder))
    ran = run_fuzzer(folder, "--program", str(other), "--seed", "1")
    assert ran.status == 1 and b"the programs differ" in ran.stdout, ran
    [made] = folder.glob("pfs-differs-*")
    assert b"in a shell: cd %s && " % bytes(made) in ran.stdout
    [repeating] = re.findall(rb"to repeat it: \S+ (.*)", ran.stdout)
    again = run_fuzzer(folder, *repeating.decode().split())
    assert again.status == 1 and re.search(rb"wanted .*, 3\ngot    .*, 2\n", again.stdout), again
