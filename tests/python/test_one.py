"""The functions of `one`, which makes the runs of an experiment in a folder of copies, in this process: what it prints
of the searches of the program and of the library, and of commands in whose place a test says what they print."""
import ast
import json
import os
import pathlib
import re
import signal
import subprocess
import sys
from typing import Any
from unittest import mock

import pytest
from pfs.experiments import folders, one
from pfs.experiments.one import Failed, Found, Point
from support import plainly
from support.files import FILES, TWO_BLOCKS
from support.library import Library
from support.program import Program
from support.tools import wait_until, write_script

# The second of two blocks has three jobs. 10 is the makespan of 2 1 3 and a bound, and 11 is the makespan of 1 2 3.
RUN = one.Run("7", "1", "orlib", "2", "5", "-", "2", "1", "7", "1", "-", "3", "2", "shops/two.or", "m", "-")
EIGHT = RUN._replace(file="2", layout="taillard", block="1")
BEST, OTHER = "order 3\n2 1 3\nmakespan 10\n", "order 3\n1 2 3\nmakespan 11\n"


@pytest.fixture
def copies(folder: pathlib.Path, pfs: Program, libpfs: Library, monkeypatch: pytest.MonkeyPatch) -> pathlib.Path:
    """The folder of copies."""
    folders.begin(folder, str(pfs.path))
    made = folder / folders.stage_of(folder)
    folders.copy(str(libpfs.path), made / one.LIBRARY)
    (made / "1").write_bytes(TWO_BLOCKS)
    (made / "2").write_bytes(FILES["eight"])
    monkeypatch.setattr(one, "HERE", str(made))
    return made


def test_a_search_by_rounds_has_the_options_of_its_run(copies: pathlib.Path, monkeypatch: pytest.MonkeyPatch) -> None:
    """And the processor time that the program took."""
    monkeypatch.setattr(one, "child_seconds", iter([2.0, 2.5, 3.0, 4.0]).__next__)
    found = "order2 8 3\n3 5 8 1 4 2 7 6\nmakespan 564\n"
    assert one.by_rounds(EIGHT) == Found(found, "4824", 0.5, "", 0, ())
    assert one.by_rounds(RUN._replace(rounds="0", take="-")) == Found("order2 3 2\n2 1 3\nmakespan 10\n", "36", 1)


SOUND = "printf 'valid\\nmakespan 10\\nbound 9\\n'"
# What a program prints in the place of pfs, and why the run fails.
OTHER_PROGRAMS = [
    ("kill -KILL $$", "solve: signal 9"), ("printf 'a\\377\\nb\\n'; exit 1", "solve: exit 1, a\ufffd"),
    ("echo a;echo b>&2;exit 4", "solve: exit 4, b"), ("exit 2", "solve: exit 2, "), ("printf '\\377'", "check: \ufffd"),
    ("echo o; echo cells 1; echo more", "solve: no cells printed"), ("exit 0", "check: no verdict"),
    ("printf '\\377\\ncells 123456789012345678901\\n'", "solve: no cells printed"),
    ("kill -KILL $$", "check: signal 9"),
    (f"{SOUND}; exit 1", "check: exit 1, valid, makespan 10, bound 9"), (f"{SOUND}; echo a >&2", "check: a"),
    ("printf 'valid\\nmakespan 1\\nbound 9x'", "check: valid, makespan 1, bound 9x")]


def test_a_program_that_prints_something_else_fails_its_run(copies: pathlib.Path) -> None:
    assert one.audit(RUN, BEST) == ("10", "10") and one.audit(RUN, OTHER) == ("11", "10"), "as it is"
    for line, wanted in OTHER_PROGRAMS:
        write_script(copies / "pfs", f"#!/bin/sh\n{line}\n")
        with pytest.raises(Failed) as failed:
            one.by_rounds(RUN) if wanted.startswith("solve") else one.audit(RUN, BEST)
        assert str(failed.value) == wanted, line


# Searches with the library

def test_a_library_that_fails_fails_its_run(copies: pathlib.Path) -> None:
    """One that has no memory, lacks a function or is missing."""
    for library, said in ((mock.Mock(pfs_prepare=lambda *_: 1), "solve: exit 4, pfs: no memory"),
                          (mock.Mock(pfs_prepare=lambda *_: 22), "libpfs: pfs_prepare returns 22"),
                          (mock.Mock(spec=[]), "libpfs: .*pfs_prepare.*")):
        with mock.patch("ctypes.CDLL", return_value=library), pytest.raises(Failed, match=f"^{said}$"):
            one.by_library(RUN, {})
    (copies / one.LIBRARY).unlink()
    with pytest.raises(Failed, match=f"^libpfs: .*/{one.LIBRARY}: cannot open shared object file: No such file"):
        one.by_library(RUN, {})


# Commands

# What a command prints at the end and with makespans on the way, and its order, or why its run fails.
COMMANDS: list[tuple[str, list[tuple[int, str]], str]] = [
    ("2 1 3\n", [], BEST), (BEST[:-1], [], BEST), (f"order2 3 2{OTHER[7:]}", [], f"order2 3 2{OTHER[7:]}"),
    (" \n", [(11, "1 2 3"), (11, "1 3 2"), (12, "x"), (10, "2, 1, 3"), (10, "")], BEST),
    ("J2-J1-J3", [(11, "1 2 3")], BEST), ("1 2 3", [(10, "2 1 3")], OTHER),
    ("1 1 1", [], "order 3\n1 1 1\nmakespan 0\n"), ("", [], "command: nothing printed"),
    ("2 1 3\n1 2 3", [], "command: no order printed: '2 1 3'"), ("2 0 1", [], "command: job 0: jobs count from 1"),
    ("", [(9, f"{'x' * 39}yz")], f"command: no order printed: '{'x' * 39}y'"),
    ("2 1 3", [(10, "1 2 3")], "check: exit 1, wrong makespan, stated 10, computed 11")]


@pytest.mark.parametrize(("text", "printed", "wanted"), COMMANDS)
def test_the_order_of_a_command(text: str, printed: list[tuple[int, str]], wanted: str, copies: pathlib.Path,
                                monkeypatch: pytest.MonkeyPatch) -> None:
    """It is the last one, or the best on the way. There those below all before are audited."""
    points = [Point(at, *each) for at, each in enumerate(printed)]
    monkeypatch.setattr(one, "run_command", lambda *_: (text, 4.5, 2, points))
    try:
        found = one.by_command(["m"], RUN)
    except Failed as failure:
        assert str(failure) == wanted
    else:
        spans = [span for span, _ in printed]
        kept = [(at, span, (BEST, OTHER)[span - 10]) for at, span in enumerate(spans) if span < min(spans[:at] + [99])]
        assert found == Found(wanted, "", 4.5, "", 2, kept)


def test_a_command_gets_the_values_of_its_run(copies: pathlib.Path, monkeypatch: pytest.MonkeyPatch) -> None:
    """And a copy of its instance, which nobody can write and which is gone later. Without a limit it has no time."""
    def run_command(words: list[str], folder: str, seconds: float | None) -> tuple[str, float, int, list[Point]]:
        copy = pathlib.Path(words[1])
        assert (copy.read_bytes(), copy.stat().st_mode & 0o777) == (TWO_BLOCKS, 0o444)
        assert (words[2:], folder, seconds) == (["two.or", "x3x2", "7", limit, "2", "{"], f"{copies}/files", due)
        seen.append(copy)
        return "2 1 3", 0.5, 0, []

    seen = list[pathlib.Path]()
    monkeypatch.setattr(one, "run_command", run_command)
    for limit, due in (("-", None), ("0.25", 0.25)):
        one.by_command(["m", "{instance}", "{name}", "x{jobs}x{machines}", "{seed}", "{seconds}", "{block}", "{"],
                       RUN._replace(limit=limit))
    assert [copy.exists() for copy in seen] == [False, False]


@pytest.mark.parametrize(("printed", "left_out"), [
    ("print('start', flush=True)", 0.2), ("print('start')", 0), ("print('start\\n1 2 3', flush=True)", 0),
    ("print('begin', flush=True)", 0), ("burn(0.6); print('start', flush=True)", 0.5)])
def test_the_time_before_the_line_start_does_not_count(printed: str, left_out: float) -> None:
    """At most half a second of it, and not if the line comes with a later one, as from a buffer."""
    program = ("import time\ndef burn(seconds):\n    end = time.process_time() + seconds\n"
               f"    while time.process_time() < end: pass\nburn(0.2)\n{printed}\nburn(0.3)\n"
               "print('makespan 10 2 1 3'); import os; print('all', time.process_time())")
    code = ("import sys; from pfs.experiments import one\n"
            f"*found, points = one.run_command([sys.executable, '-I', '-S', '-c', {program!r}], '.', None)\n"
            "print((*found, [(*point,) for point in points]))")
    done = subprocess.run([sys.executable, "-c", code], env=plainly.environment(), capture_output=True, text=True,
                          check=True)
    text, spent, left, [(at, span, order)] = ast.literal_eval(done.stdout)
    whole = float(text.split()[-1])
    assert (span, order, left) == (10, "2 1 3", 0) and "start" not in text
    assert whole - left_out - 0.15 < spent < whole - left_out + 0.15 and 0.2 < at <= spent


# What is printed of the runs

def test_a_run_has_what_shorter_ones_had_found_by_their_times(monkeypatch: pytest.MonkeyPatch) -> None:
    """If it fails they do too. A run that fails at its audit has its order."""
    points = [Point(0.5, 12, "a"), Point(0.7, 12, "b"), Point(1.0, 11, "b"), Point(1.0000001, 10, "d")]
    found = Found("c", "", 2.0, left=1, points=points)
    monkeypatch.setattr(one, "by_command", mock.Mock(side_effect=[found, found, Failed("no"), OSError(28, "full")]))
    monkeypatch.setattr(one, "audit", mock.Mock(side_effect=[("9", "8"), Failed("wrong")]))
    others = [RUN._replace(number=limit, limit=limit) for limit in ("3", "1.5", "0.5", "0.4")]
    assert [*one.results(RUN, others, ["m"])] == [
        ("c", ["7", "9", "8", "", "2.000000", "ok", "", "1", "0.500000:12 1.000000:10 2.000000:9"]),
        ("c", ["3", "9", "8", "", "2.000000", "ok"]), ("d", ["1.5", "10", "8", "", "1.500000", "ok"]),
        ("a", ["0.5", "12", "8", "", "0.500000", "ok"]),
        ("", ["0.4", "", "", "", "", "command: no order with its makespan printed in 0.4 s"])]
    for order, status in (("c", "wrong"), ("", "no"), ("", "lost: full")):
        assert [*one.results(RUN, others[:1], ["m"])] == [(order, ["7", "", "", "", "", status]),
                                                         ("", ["3", "", "", "", "", status])]


@pytest.mark.parametrize("options", [None, {}])
def test_each_search_is_made_by_what_can_make_it(options: dict[str, Any] | None, copies: pathlib.Path) -> None:
    """By rounds by the program, which counts cells, and else by the library; only a search by time has a trajectory."""
    cells = r"\d+" if options is None else ""
    for limit, rounds, way in (("-", "", ""), ("0.01", r"\d+", r"[\d.: ]+")):
        (_, row), = one.results(EIGHT._replace(limit=limit), [], options)
        assert re.fullmatch(rf"7,\d+,\d+,{cells},\d\.\d{{6}},ok,{rounds},0,{way}", ",".join(row)), row


def test_runs_are_printed_until_the_starter_is_gone(copies: pathlib.Path, monkeypatch: pytest.MonkeyPatch,
                                                    capfdbinary: pytest.CaptureFixture[bytes]) -> None:
    """Each with its length in bytes, an order file and a row."""
    runs = [RUN._replace(number=str(number), instance=f"\u00e4{number}", method=method)
            for number, method in enumerate("mnmm", 1)]
    (copies / "runs.tsv").write_text("".join("\t".join(run) + "\n" for run in runs))
    (copies / "commands.json").write_text(json.dumps({"m": ["c"]}))
    monkeypatch.setattr(sys, "argv", ["one", "3,1,2", "2", "4"])
    monkeypatch.setattr(one, "starters", iter([1, 1, 1, 2]).__next__)
    monkeypatch.setattr(one, "results", lambda run, others, command: [
        (f"{run.instance}\n", [run.anytime, *(each.number for each in others), command]), ("", ["\udcff"])])
    one.main()
    assert capfdbinary.readouterr().out == ("16\n\u00e43\n-,1,2,['c']\n2\n?\n7\n\u00e42\n-,\n2\n?\n").encode()


def test_the_starter_is_the_parent_and_its_parent(monkeypatch: pytest.MonkeyPatch) -> None:
    parents = re.findall(r"(?m)^PPid:\t(\d+)$", pathlib.Path(f"/proc/{os.getppid()}/status").read_text())
    assert one.starters() == (os.getppid(), parents[0].encode())
    monkeypatch.setattr(os, "getppid", lambda: 0)
    assert one.starters() == (0, b"")


@pytest.mark.parametrize("number", [signal.SIGTERM, signal.SIGKILL])
def test_a_command_ends_with_the_process_that_runs_it(number: signal.Signals, folder: pathlib.Path) -> None:
    line = "echo $$ > part; mv part started; exec sleep 60"
    code = f"from pfs.experiments import one; one.run_command(['sh', '-c', {line!r}], '.', None)"
    with subprocess.Popen([sys.executable, "-c", code], cwd=folder, env=plainly.environment()) as process:
        wait_until((folder / "started").exists, "the command has started")
        process.send_signal(number)
    assert process.returncode == (143 if number == signal.SIGTERM else -9)
    command = f"/proc/{(folder / 'started').read_text().strip()}/cwd"
    wait_until(lambda: not os.path.exists(command), "the command has ended")
