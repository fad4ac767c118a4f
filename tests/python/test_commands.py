"""`python3 -m pfs search` and `python3 -m pfs plan`."""
import datetime
import fcntl
import hashlib
import itertools
import json
import os
import pathlib
import pty
import re
import shlex
import signal
import subprocess
import sys
import time
import types
from collections.abc import Callable, Iterator
from typing import Any

import pfs
import pytest
from pfs.base import wording as _wording
from pfs.base.checkout import version
from pfs.binding import library as _library, rounds as _rounds
from pfs.commands import main as _commands
from pfs.commands.cli import Misused
from pfs.base import locks as _locks
from pfs.files import state as _state
from pfs.plan import plan
from pfs.plan.plan import Limits
from pfs.shops import search as _search
from support import plainly
from support.commands import ended, without_summary
from support.plainly import environment
from support.terminals import Terminal
from support.tools import TOP, wait_until

# A search that would take minutes.
LONG = ["search", "shop", "--layout", "taillard"]


@pytest.fixture
def folder(tmp_path: pathlib.Path) -> Iterator[pathlib.Path]:
    """A folder with the instance `shop`."""
    pfs.generate(60, 10, 4).write(tmp_path / "shop")
    yield tmp_path


def shop_in(folder: pathlib.Path) -> pfs.Instance:
    return pfs.read(folder / "shop", "taillard")


def start(words: list[str], folder: pathlib.Path, env: dict[str, str] | None = None,
          stderr: int = subprocess.PIPE) -> "subprocess.Popen[bytes]":
    return subprocess.Popen([sys.executable, "-m", "pfs", *words], cwd=folder, env=env or environment(),
                            stdin=subprocess.DEVNULL, stdout=subprocess.PIPE, stderr=stderr)


def run(words: list[str], folder: pathlib.Path, status: int = 0, error: str = "") -> str:
    found, printed, got = ended(words, folder)
    assert (found, got) == (status, error)
    return printed


def rounds_in(folder: pathlib.Path) -> int:
    """How far the state is, which is whole whenever one looks."""
    path = folder / "state"
    if not path.exists():
        return -1
    text = path.read_text()
    found = re.fullmatch(r'\{"state": "pfs search 2", .*"rounds": (\d+), .*\}\n', text)
    assert found, f"a state that isn't whole: {text[:200]!r}"
    return int(found[1])


@pytest.mark.quick
@pytest.mark.parametrize("words", [
    "--rounds 0", "--rounds 300", "--rounds 100 --take 7 --passes 1 --seed 18446744073709551615"])
def test_search_prints_what_the_program_does(folder: pathlib.Path, program: str, words: str) -> None:
    """As a process, and as a call of `main`."""
    child = start([*LONG, *words.split()], folder)
    printed = run([*LONG, *words.split()], folder)
    assert child.communicate(timeout=60) == (printed.encode(), b"") and child.returncode == 0
    assert printed == plainly.run([program, "solve", "--layout", "taillard", *words.split(), str(folder / "shop")])


@pytest.mark.parametrize("number", [signal.SIGINT, signal.SIGTERM])
def test_a_signal_ends_it_with_the_best_order(folder: pathlib.Path, program: str, number: signal.Signals) -> None:
    """Also one that is ignored at first, as in the background of a shell."""
    words = ["sh", "-c", 'trap "" INT TERM; exec "$@"', "sh", sys.executable, "-m", "pfs", *LONG, "--state", "state"]
    child = subprocess.Popen(words, cwd=folder, env=environment(), stdin=subprocess.DEVNULL, stdout=subprocess.PIPE,
                             stderr=subprocess.PIPE)
    wait_until(lambda: rounds_in(folder) > 20, "rounds are made")
    child.send_signal(number)
    printed, got = child.communicate(timeout=30)
    assert (child.returncode, got) == (128 + number, b"")
    (folder / "order").write_bytes(printed)
    assert plainly.run([program, "check", "--layout", "taillard", str(folder / "shop"),
                        str(folder / "order")]).startswith("valid\n")
    done = rounds_in(folder)
    assert printed.decode() == shop_in(folder).solve(done).to_text()
    # It continues to the same end as a search that never stopped.
    rounds = str(done + 100)
    words = ["solve", "--layout", "taillard", "--rounds", rounds, "--cells", str(folder / "shop")]
    expected = plainly.run([program, *words])
    printed_on = run([*LONG, "--rounds", rounds, "--state", "state"], folder)
    assert printed_on + f"cells {json.loads((folder / 'state').read_text())['cells']}\n" == expected
    assert run([*LONG, "--rounds", rounds, "--state", "state"], folder) == printed_on


@pytest.mark.parametrize("numbers", [(signal.SIGINT, signal.SIGTERM), (signal.SIGTERM, signal.SIGINT),
                                     (signal.SIGINT, signal.SIGTERM, signal.SIGTERM)])
def test_the_status_is_that_of_the_first_signal(numbers: tuple[signal.Signals, ...]) -> None:
    with _commands.signals() as caught:
        assert _commands.status_of(caught) == 0
        for number in numbers:
            signal.raise_signal(number)
        assert _commands.status_of(caught) == 128 + numbers[0], "the status isn't that of the first signal"
    assert signal.getsignal(signal.SIGINT) is signal.default_int_handler
    assert signal.getsignal(signal.SIGTERM) == signal.SIG_DFL


def summed(state: dict[str, Any]) -> str:
    """The text of a state with the checksum of its other fields."""
    fields = {name: value for name, value in state.items() if name != "sum"}
    return json.dumps(fields | {"sum": hashlib.sha256(json.dumps(fields, sort_keys=True).encode()).hexdigest()})


NOT_THE_INSTANCES = "the state of a search, but its order doesn't fit the instance"
DAMAGED = "the state of a search, but damaged: its checksum is wrong"
# What is made of the fields of a state, or its text, and why it is rejected then.
OTHER_STATES: dict[str, tuple[Callable[[dict[str, Any]], str], str]] = {
    "nothing": (lambda state: "", "not the state of a search"),
    "a list": (lambda state: "[1]", "not the state of a search"),
    "another object": (lambda state: '{"state": 2}', "not the state of a search"),
    "half a state": (lambda state: summed(state)[:90], "not the state of a search"),
    "deep nesting": (lambda state: "[" * 100_000, "not the state of a search"),
    "bytes": (lambda state: "\udcff\udcfe", "not the state of a search"),
    "an earlier version": (lambda state: summed(state | {"state": "pfs search 1"}),
                           "the state of a search by another version of pfs"),
    "other rounds": (lambda state: json.dumps(state | {"rounds": 3}), DAMAGED),
    "no checksum": (lambda state: json.dumps({name: state[name] for name in state if name != "sum"}), DAMAGED),
    "another order's makespan": (lambda state: summed(state | {"order": state["order"][::-1]}), NOT_THE_INSTANCES),
    "another makespan": (lambda state: summed(state | {"makespan": state["makespan"] - 1}), NOT_THE_INSTANCES),
    "a job twice": (lambda state: summed(state | {"order": [state["order"][1], *state["order"][1:]]}),
                    NOT_THE_INSTANCES),
    "a job less": (lambda state: summed(state | {"order": state["order"][1:]}), NOT_THE_INSTANCES),
    "no order": (lambda state: summed(state | {"order": None}), NOT_THE_INSTANCES),
    "no rounds": (lambda state: summed({name: state[name] for name in state if name != "rounds"}), NOT_THE_INSTANCES),
    "rounds below 0": (lambda state: summed(state | {"rounds": -1}), NOT_THE_INSTANCES),
    "a fraction": (lambda state: summed(state | {"rounds": 2.5}), NOT_THE_INSTANCES),
    "more rounds than there are": (lambda state: summed(state | {"rounds": 1_000_001}), NOT_THE_INSTANCES),
}


@pytest.mark.parametrize("case", OTHER_STATES)
def test_other_states_are_rejected(folder: pathlib.Path, case: str) -> None:
    run([*LONG, "--rounds", "5", "--state", "state"], folder)
    change, why = OTHER_STATES[case]
    fields = json.loads((folder / "state").read_text())
    assert summed(fields) == (folder / "state").read_text().strip()
    times = shop_in(folder).times
    assert fields["instance"] == hashlib.sha256(b"(60, 10)" + times.astype("u4").tobytes()).hexdigest()
    (folder / "state").write_text(change(fields), "utf-8", "surrogateescape")
    kept = (folder / "state").read_bytes()
    run([*LONG, "--rounds", "9", "--state", "state"], folder, 2, f"pfs: state: {why}\n")
    assert (folder / "state").read_bytes() == kept
    assert {path.name for path in folder.iterdir()} == {"shop", "state"}


OTHER = "the state of a search with "


@pytest.mark.parametrize(("before", "after", "why"), [
    ("", "--seed 7", OTHER + "seed 0, not 7"), ("--seed 7", "", OTHER + "seed 7, not 0"),
    ("", "--take 5", OTHER + "take 4, not 5"), ("--take 5", "", OTHER + "take 5, not 4"),
    ("", "--passes 1", OTHER + "passes 0, not 1"), ("--passes 1", "", OTHER + "passes 1, not 0"),
    ("--start order", "", OTHER + "another start"), ("", "--start order", OTHER + "another start"),
    ("", "--block 2", OTHER + "another instance"),
    ("--rounds 30", "--rounds 29", "the search has already made 30 rounds, more than 29")])
def test_a_state_is_for_the_options_of_its_search(folder: pathlib.Path, before: str, after: str, why: str) -> None:
    """A default is the option's value, and a search whose rounds are made prints its order again."""
    (folder / "order").write_text(plainly.order_file(range(60), 10, 1))
    (folder / "shop").write_text(shop_in(folder).to_text() + pfs.generate(60, 10, 5).to_text())
    words = [*LONG, "--state", "state", "--rounds", "5", *before.split()]
    printed, kept = run(words, folder), (folder / "state").read_bytes()
    assert "--start" not in before or printed == shop_in(folder).solve(5, start=range(60)).to_text()
    run([*LONG, "--state", "state", "--rounds", "9", *after.split()], folder, 2, f"pfs: state: {why}\n")
    assert (folder / "state").read_bytes() == kept
    assert run([*words, *([] if "--take" in before else ["--take", "4"])], folder) == printed


@pytest.mark.parametrize(("words", "error"), [
    (["plan", "/dev/zero"], "pfs: /dev/zero: line 1, the table has more than 67,108,864 bytes\n"),
    (["plan", "long"], "pfs: long: line 1, the table has more than 67,108,864 bytes\n"),
    (["search", "/dev/zero", "--layout", "taillard"], "pfs: input too long\n"),
    ([*LONG, "--start", "/dev/zero"], "pfs: order file too long\n"),
    *(([*LONG, "--state", path], f"pfs: {path}: not the state of a search: longer than 67,108,864 bytes\n")
      for path in ("/dev/full", "/dev/zero", "long")),
    *((["pfs.commands.gantt", path, "picture.svg"], "pfs-gantt: not a time table: longer than 67,108,864 bytes\n")
      for path in ("/dev/zero", "long"))])
def test_files_without_end(folder: pathlib.Path, words: list[str], error: str) -> None:
    """Less memory is taken than the file would need."""
    with open(folder / "long", "wb") as file:
        file.truncate(67_108_865)
    words = words if words[0] == "pfs.commands.gantt" else ["pfs", *words]
    child = subprocess.run(["prlimit", "--as=4000000000", sys.executable, "-m", *words], cwd=folder, env=environment(),
                           capture_output=True, text=True, timeout=60)
    assert (child.returncode, child.stdout, child.stderr) == (2, "", error)
    assert os.path.getsize(folder / "long") == 67_108_865


def test_two_searches_with_one_state(folder: pathlib.Path) -> None:
    first = start([*LONG, "--state", "state"], folder)
    wait_until(lambda: rounds_in(folder) > 0, "rounds are made")
    run([*LONG, "--state", "state"], folder, 4, "pfs: state: another search is using this state\n")
    run([*LONG, "--state", "other", "--rounds", "2"], folder)
    assert first.poll() is None, "the second search has ended the first"
    first.kill()
    first.communicate(timeout=60)
    assert (folder / "state.lock").exists()
    run([*LONG, "--state", "state", "--rounds", str(rounds_in(folder) + 1)], folder)
    assert {path.name for path in folder.iterdir()} == {"shop", "state", "other"}


def test_a_state_has_one_lock_whatever_link_leads_to_it(tmp_path: pathlib.Path) -> None:
    shop, before = pfs.generate(5, 2, 1), os.listdir("/proc/self/fd")
    (tmp_path / "link").symlink_to("state")
    search = _search.Search(shop, None, 0, None, 0, 0)
    with _state.State(str(tmp_path / "state"), shop, search):
        with pytest.raises(_locks.StateInUse, match="link: another search is using this state"), \
                _state.State(str(tmp_path / "link"), shop, search):
            raise AssertionError
    assert sorted(os.listdir(tmp_path)) == ["link"] and os.listdir("/proc/self/fd") == before


def test_a_lock_whose_file_another_search_removes_is_taken_again(folder: pathlib.Path,
                                                                 monkeypatch: pytest.MonkeyPatch) -> None:
    """It has the old file, and would be alone with it."""
    path, lock, calls = folder / "state.lock", fcntl.flock, list[int]()

    def flock(descriptor: int, how: int) -> None:
        lock(descriptor, how)
        calls.append(how)
        if len(calls) == 1:
            path.unlink()

    monkeypatch.setattr("fcntl.flock", flock)
    got = _locks.lock_of(str(folder / "state"))
    assert os.path.samestat(os.fstat(got), os.stat(path))
    os.close(got)


def test_a_search_that_begins_while_another_ends_has_the_state_alone(tmp_path: pathlib.Path,
                                                                     monkeypatch: pytest.MonkeyPatch) -> None:
    """The second one begins as soon as the lock of the first is closed."""
    path, shop, close = str(tmp_path / "state"), pfs.generate(5, 2, 1), os.close
    first, second = (_state.State(path, shop, _search.Search(shop, None, 0, None, 0, 0)) for _ in range(2))

    def closed(descriptor: int) -> None:
        close(descriptor)
        monkeypatch.undo()
        second.__enter__()

    with first:
        monkeypatch.setattr("os.close", closed)
    with pytest.raises(_locks.StateInUse):
        _locks.lock_of(path)
    second.__exit__()


def test_a_link_in_the_place_of_the_lock_is_not_followed(folder: pathlib.Path) -> None:
    (folder / "precious").write_text("kept")
    (folder / "state.lock").symlink_to("precious")
    status, printed, got = ended([*LONG, "--rounds", "3", "--state", "state"], folder)
    assert (folder / "precious").read_text() == "kept", "written through a link"
    assert status == 4 and got.startswith("pfs: state: Too many levels of symbolic links")
    assert printed == shop_in(folder).neh().to_text()


def test_a_state_is_on_the_disk_before_it_replaces_the_old_one(folder: pathlib.Path,
                                                               monkeypatch: pytest.MonkeyPatch) -> None:
    """The bytes before the renaming, and the name after it."""
    calls, replace = list[str](), os.replace

    def fsync(descriptor: int) -> None:
        path = pathlib.Path(f"/proc/self/fd/{descriptor}").resolve()
        calls.append(f"{path.name} {path.is_dir() or path.read_text()[-2:]}")

    def renamed(*paths: str) -> None:
        calls.append("renamed")
        replace(*paths)

    monkeypatch.setattr("os.fsync", fsync)
    monkeypatch.setattr("os.replace", renamed)
    run([*LONG, "--rounds", "1", "--state", "state"], folder)
    assert calls == ["state.new }\n", "renamed", f"{folder.name} True"] * (len(calls) // 3) and calls


def test_progress_is_reported_on_a_terminal_only(folder: pathlib.Path) -> None:
    words = [sys.executable, "-m", "pfs", *LONG, "--rounds", "400"]
    with open(folder / "printed", "wb") as out, Terminal(words, folder, env=environment(), stdout=out) as terminal:
        assert terminal.read_all() == 0
    got = terminal.seen.decode()
    assert (folder / "printed").read_text() == run([*LONG, "--rounds", "400"], folder)
    lines = [line for line in got.replace("\x1b[K", "").split("\r") if line]
    shop = shop_in(folder)
    assert lines[0] == f"round 0 of 400, makespan {shop.neh().makespan}, bound {shop.bound()}"
    assert lines[-1].startswith(f"round 400 of 400, makespan {shop.solve(400).makespan}, bound {shop.bound()}, 0:00:0")
    assert lines[-1].endswith(" left") and got.endswith("\r\x1b[K") and "\n" not in got


# The time limit and the rounds that are due; how far the search was when it began, how far it is after some seconds,
# and how long it still takes: by its own rounds, and not beyond the limit.
LEFT: list[tuple[float | None, int | None, int, int, float, str]] = [
    (None, 400, 100, 200, 10.0, "0:00:20"), (5.0, None, 0, 7, 2.0, "0:00:03"), (3.0, 1_000_000, 0, 1, 1.0, "0:00:02"),
    (3.0, 1_000_000, 0, 1, 2.5, "0:00:01"), (3.0, 1_000_000, 0, 1, 4.0, "0:00:00"),
    (10_000_002.0, None, 0, 1_007, 3.0, "2777:46:39"), (10_000_003.0, None, 0, 7, 3.0, "")]


@pytest.mark.parametrize(("limit", "rounds", "begun", "done", "spent", "left"), LEFT)
def test_the_time_that_is_left(monkeypatch: pytest.MonkeyPatch, limit: float | None, rounds: int | None, begun: int,
                               done: int, spent: float, left: str) -> None:
    now, lines = [7.0], list[str]()
    monkeypatch.setattr(_commands, "time", types.SimpleNamespace(monotonic=lambda: now[0]))
    search = _search.Search(pfs.Instance(pfs.taillard(1).times, unit="h:mm"), None, begun, None, 0, 0)
    progress = _commands.ProgressLine(search, rounds, limit)
    monkeypatch.setattr(progress, "shown", True)
    monkeypatch.setattr(progress, "show", lines.append)
    progress.update(begun, 1278)
    now[0] += spent
    progress.update(done, 1278)
    assert limit or not lines[0].endswith("left"), "nothing is known of the time of a round yet"
    of = "" if rounds is None else f" of {rounds:,}"
    assert lines[1] == f"round {done:,}{of}, makespan 21:18, bound 0:00{left and f', {left} left'}"


def test_the_progress_of_a_proof(monkeypatch: pytest.MonkeyPatch) -> None:
    lines, search = list[str](), _search.Search(pfs.taillard(1), None, 0, None, 0, 0)

    def run(_: Any, limits: Limits, *, stop: Any, watch: Callable[[float], bool]) -> Any:
        return watch(limits.prove), stop.is_set(), search.last

    monkeypatch.setattr(_commands.ProgressLine, "show", lambda _, line: lines.append(line))
    for caught in (list[int](), [2]):
        got: Any = _commands.searched(run, search, Limits(None, None, 2.5), caught)
        assert got == ((bool(caught), bool(caught), None), None), "the search begins before it is asked for"
        assert lines == ["proving that no order is shorter, 0:00:03 left", ""]
        lines.clear()


@pytest.mark.parametrize(("ending", "takes"), [
    *((each, 2) for each in ("", ".csv", ".tsv", ".TXT", ".xlsx")), (".ics", 1),
    *((each, 0) for each in (".cs", ".ts", ".tx", ".xls", ".ic"))])
def test_the_endings_of_schedules_and_tables(tmp_path: pathlib.Path, ending: str, takes: int) -> None:
    path = str(tmp_path / f"a{ending}")
    for at, what in enumerate(("schedule ends with .csv, .ics or .xlsx", "table ends with .csv or .xlsx")):
        outputs = [path][:1 - at], [path][:at]
        if at < takes:
            _commands.check_outputs([], outputs[0], [], outputs[1])
            continue
        with pytest.raises(ValueError, match=f"a{ending}: the name of a {what}$"):
            _commands.check_outputs([], outputs[0], [], outputs[1])


def asked(folder: pathlib.Path, monkeypatch: pytest.MonkeyPatch, words: list[str]) -> dict[str, Any]:
    """What a command line asks for, which is not searched."""
    found: dict[str, Any] = {}

    def searched(search: Any, rounds: int | None, _: Any, seconds: float | None, **more: Any) -> pfs.Solution:
        found.update(take=search.take, passes=search.passes, seed=search.seed, rounds=rounds, seconds=seconds,
                     block=search.shop.to_text(), prove=more.get("prove"), first=search.first, early=more.get("early"),
                     method="iterated-greedy" if search.more and search.more.partial else "solve")
        best: pfs.Solution = search.solution()
        return best

    for module in (_commands, plan):
        monkeypatch.setattr(module, "solve_and_prove", searched)
    monkeypatch.chdir(folder)
    assert _commands.main(words) == 0
    return found


def test_a_plan_is_searched_for_its_seconds(folder: pathlib.Path, monkeypatch: pytest.MonkeyPatch) -> None:
    """No longer than until it is optimal or proved, also from an order, and with another seed after the last round of
    one."""
    begun = time.monotonic()
    for table in (TABLE, ABOVE_BOUND):
        (folder / "times.csv").write_text(table)
        assert "\noptimal\n" in run(["plan", "times.csv", "--seconds", "50"], folder)
    (folder / "order").write_text("d\nc\nb\na\n")
    assert "\noptimal\n" in run(["plan", "times.csv", "--order", "order", "--seconds", "50"], folder)
    assert time.monotonic() - begun < 30
    seeds, run_part = set[int](), _search.Search.run_part

    def noted(search: _search.Search, part: _rounds.Part, count: int) -> None:
        seeds.add(part.seed)
        run_part(search, part, count)

    monkeypatch.setattr(_search.Search, "run_part", noted)
    monkeypatch.setattr(_rounds, "MOST_ROUNDS", 7)
    begun = time.monotonic()
    assert "optimal" not in run(["plan", "times.csv", "--seconds", "0.5", "--prove", "0"], folder)
    assert time.monotonic() - begun >= 0.5 and len(seeds) > 1


NOT_TRIED = ("--prove: not tried: jobs are held, the order is only evaluated, or there are more than 256 jobs or 64 "
             "machines\n")


def test_a_plan_is_proved_optimal(folder: pathlib.Path) -> None:
    """What is printed and drawn is the bound that is proved, of all orders alone."""
    (folder / "times.csv").write_text(ABOVE_BOUND)
    times = [[1, 4, 0], [2, 0, 3], [3, 3, 5], [3, 1, 0]]
    least, bound = plainly.shortest(times), plainly.bound(times)
    words = ["plan", "times.csv", "--seconds", "0.1"]
    proved = run([*words, "--chart", "out.svg"], folder).splitlines()
    assert proved[:3] == [f"makespan {least}", f"bound {least}", "optimal"] and least > bound
    assert f"makespan {least}, bound {least} (dashed)" in (folder / "out.svg").read_text()
    alone = [f"makespan {least}", f"bound {bound}"]
    (folder / "order").write_text("\n".join(line[2:] for line in proved[3:]))
    for others in (["--prove", "0"], ["--rounds", "100"], ["--order", "order", "--rounds", "100"],
                   ["--order", "order", "--prove", "5"], ["--first", proved[3][2:], "--prove", "5"],
                   ["--order", "order", "--hold", "1", "--prove", "5"], ["--order", "order", "--keep", "--prove", "5"]):
        told = NOT_TRIED if others[-1] == "5" else ""
        assert run([*(words if others == ["--prove", "0"] else words[:2]), *others], folder,
                   error=told).splitlines()[:3] == [*alone, proved[3]], others
    for others in (["--rounds", "0", "--prove", "5"], ["--order", "order", "--seconds", "0", "--prove", "5"]):
        assert run([*words[:2], *others], folder).splitlines()[:3] == proved[:3], others


def test_the_methods_of_a_plan(folder: pathlib.Path, monkeypatch: pytest.MonkeyPatch) -> None:
    (folder / "times.csv").write_text(TABLE)
    (folder / "order").write_text("table\nchair\n")
    cases: dict[str, tuple[Any, ...]] = {
        "": ("iterated-greedy", 2, 100, 1, 1), "--rounds 9": ("iterated-greedy", 2, 100, None, 0),
        "--method solve": ("solve", 4, 1, 1, 1), "--method solve --rounds 9": ("solve", 4, 0, None, 0),
        "--method iterated-greedy --passes 3 --take 1": ("iterated-greedy", 1, 3, 1, 1),
        "--order order": ("iterated-greedy", 2, 100, 0, 0),
        "--order order --prove 9": ("iterated-greedy", 2, 100, 0, 0),
        "--order order --keep": ("iterated-greedy", 2, 100, 1, 0),
        "--order order --keep --method solve": ("solve", 2, 1, 1, 0),
        "--order order --hold 2": ("iterated-greedy", 2, 100, 1, 0), "--seconds 0": ("iterated-greedy", 2, 100, 0, 0),
        "--rounds 9 --prove 3": ("iterated-greedy", 2, 100, None, 3)}
    for words, due in cases.items():
        found = asked(folder, monkeypatch, ["plan", "times.csv", *words.split()])
        assert tuple(found[name] for name in ("method", "take", "passes", "seconds", "prove")) == due, words
        assert (found["first"], found["early"]) == (0, 0.1 if found["prove"] == 1 else 0), words


@pytest.mark.parametrize("seconds", ["0.1", "100"])
def test_a_plan_or_proof_that_is_interrupted_or_fails_loses_no_order(folder: pathlib.Path, seconds: str,
                                                                     monkeypatch: pytest.MonkeyPatch) -> None:
    shop = pfs.taillard(51)
    names = "".join(f",m{machine}" for machine in range(shop.machines))
    rows = (f"j{job}," + ",".join(map(str, row)) for job, row in enumerate(shop.times.tolist()))
    (folder / "hard.csv").write_text("\n".join([f"job{names}", *rows]))
    process = start(["plan", "hard.csv", "--seconds", seconds, "--prove", "60", "--schedule", "out.csv"], folder)
    assert process.stderr and process.stderr.readline()
    time.sleep(1)
    process.send_signal(signal.SIGINT)
    begun = time.monotonic()
    out, _ = process.communicate(timeout=30)
    assert process.returncode == 130 and time.monotonic() - begun < 10
    assert out.startswith(b"makespan ") and b"optimal" not in out and len(out.splitlines()) == 52
    assert len((folder / "out.csv").read_text().splitlines()) == 1001, "the schedule is lost"
    monkeypatch.setattr(_library.library, "pfs_prove_parts", lambda *_: _library.MEMORY)
    monkeypatch.chdir(folder)
    assert _commands.main(["plan", "hard.csv", "--seconds", "0.1"]) == 4


# Another value of each option that has a default.
OTHERS = {"rounds": "7", "seconds": "9", "take": "5", "passes": "2", "seed": "3", "block": "2",
          "method": "solve", "prove": "9"}


@pytest.mark.parametrize("command", ["search", "plan"])
def test_the_defaults_that_the_help_states(folder: pathlib.Path, monkeypatch: pytest.MonkeyPatch, command: str) -> None:
    """Each is what the option's absence means, and another value means something else."""
    (folder / "shop").write_text(pfs.generate(9, 3, 1).to_text() + pfs.generate(9, 3, 2).to_text())
    (folder / "times.csv").write_text(TABLE.replace("box", "box;1;1;6\nbin"))
    line = {"search": ["search", "shop", "--layout", "taillard"], "plan": ["plan", "times.csv"]}[command]
    text = re.sub(r"\s+", " ", run([command, "--help"], folder))
    got = dict(re.findall(r"--(rounds|take|passes|seed) \w (?:(?! --).)*?\belse ([\d,]+)", text))
    if command == "search":
        assert "--block K counted from 1" in text
        got["block"] = "1"
    if command == "plan":
        assert "without one of rounds a second" in text and "does it; else iterated-greedy" in text
        got |= {"seconds": "1", "method": "iterated-greedy"}
        got["prove"] = re.findall(r"else (\d), and 0 with --rounds", text)[0]
    others = {"block", "rounds"} if command == "plan" else {"seconds", "method", "prove"}
    assert got.keys() == OTHERS.keys() - others, f"defaults in the help: {got}"
    usual = asked(folder, monkeypatch, line)
    for name, value in got.items():
        given = asked(folder, monkeypatch, [*line, f"--{name}", value.replace(",", "")])
        assert given == usual, f"the help of {command} tells {value} as the default of --{name}"
        assert asked(folder, monkeypatch, [*line, f"--{name}", OTHERS[name]])[name] != usual[name]
    limited, in_rounds = (asked(folder, monkeypatch, [*line, option, "5"]) for option in ("--seconds", "--rounds"))
    assert limited["seconds"] == 5 and in_rounds["seconds"] is None
    assert limited["rounds"] == (1_000_000 if command == "search" else None)


def test_the_help_states_the_ranges(folder: pathlib.Path) -> None:
    """The ends are taken, and what is beyond them isn't."""
    text = re.sub(r"\s+", " ", run(["search", "--help"], folder))
    found = {name: (int(least), int(most)) for name, least, most in
             re.findall(r"--(\w+) \w (?:(?! --).)*?(\d+) to (\d+)", text)}
    assert found == {"passes": (0, 100)}
    for name, ends in {"passes": (0, 100), "seed": (0, 2**64 - 1), "rounds": (0, 1_000_000), "take": (1, 5_000),
                       "block": (1, 1_000)}.items():
        taken = [is_taken([*LONG, f"--{name}", str(value)]) for value in (ends[0] - 1, *ends, ends[1] + 1)]
        assert taken == [False, True, True, False], f"the ends of --{name}"


def is_taken(words: list[str]) -> bool:
    try:
        _commands.words().parse_args(words)
    except Misused:
        return False
    return True


def test_memory_that_runs_out_is_reported_on_one_line(folder: pathlib.Path, monkeypatch: pytest.MonkeyPatch,
                                                    capsys: pytest.CaptureFixture[str]) -> None:
    monkeypatch.chdir(folder)
    monkeypatch.setattr(_library.library, "pfs_neh", lambda *_: _library.MEMORY)
    assert _commands.main([*LONG, "--rounds", "3"]) == 4
    assert capsys.readouterr() == ("", "pfs: no memory\n")
    monkeypatch.undo()
    monkeypatch.chdir(folder)
    for name in ("pfs_rounds", "pfs_iterate"):
        monkeypatch.setattr(_library.library, name, lambda *_: _library.MEMORY)
    assert _commands.main([*LONG, "--rounds", "3"]) == 4
    assert capsys.readouterr() == (shop_in(folder).neh().to_text(), "pfs: no memory\n"), "the order is lost"
    (folder / "times.csv").write_text(ABOVE_BOUND)
    assert _commands.main(["plan", "times.csv"]) == 4
    out, got = capsys.readouterr()
    assert out.startswith("makespan ") and without_summary(got) == "pfs: no memory\n", "the plan is lost"


@pytest.mark.parametrize("words", [
    [], ["solve"], ["search"], LONG[:2], [*LONG, "--rounds", "1.5"], [*LONG, "--seconds", "-1"],
    [*LONG, "--seconds", "nan"], [*LONG, "--seconds", "x"], [*LONG, "--seconds", "1_0"],
    [*LONG, "--seconds", "\u0661"], ["search", "shop", "--layout", "csv"], ["plan"]])
def test_words_that_no_command_takes(folder: pathlib.Path, words: list[str]) -> None:
    status, printed, got = ended(words, folder)
    assert (status, printed) == (3, "")
    assert re.fullmatch(r"pfs: .+ \(python3 -m pfs.* --help lists what there is\)\n", got)


def in_shell(line: str, folder: pathlib.Path) -> tuple[int, str, str]:
    """The status, the output and the errors of the commands, with the shell's redirections."""
    done = subprocess.run(["sh", "-c", f"exec {shlex.quote(sys.executable)} -m pfs {line}"], cwd=folder,
                          env=environment(), capture_output=True, text=True, timeout=60, stdin=subprocess.DEVNULL)
    return done.returncode, done.stdout, without_summary(done.stderr)


@pytest.mark.parametrize("words", ["search shop --layout taillard --rounds 9", "plan times.csv --rounds 9"])
def test_closed_streams(folder: pathlib.Path, words: str) -> None:
    (folder / "times.csv").write_text(TABLE)
    printed = run(words.split(), folder)
    assert in_shell(f"{words} 2>&-", folder) == (0, printed, "")
    assert in_shell(f"{words} <&-", folder) == (0, printed, "")
    assert in_shell(f"{words} >&-", folder) == (4, "", "pfs: standard output is closed\n")
    assert in_shell(f"{words} <&- >&- 2>&-", folder) == (4, "", "")
    assert in_shell(f"{words} >&- 2>/dev/full", folder) == (4, "", "")
    assert in_shell(f"{words} --rounds x 2>&-", folder) == (3, "", "")
    assert in_shell(f"{words} --rounds x 2>/dev/full", folder) == (3, "", "")
    wrong = words.replace("shop", "none").replace("times.csv", "none")
    assert in_shell(f"{wrong} 2>&-", folder) == in_shell(f"{wrong} 2>/dev/full", folder) == (4, "", "")


def test_a_terminal_that_goes_away(folder: pathlib.Path) -> None:
    """Progress isn't shown any more; the search continues."""
    ours, theirs = pty.openpty()
    child = start([*LONG, "--seconds", "1", "--state", "state"], folder, stderr=theirs)
    os.close(theirs)
    os.read(ours, 10)
    os.close(ours)
    printed = child.communicate(timeout=60)[0].decode()
    assert child.returncode == 0
    assert printed == shop_in(folder).solve(rounds_in(folder)).to_text()


TABLE = "job [h];saw;drill;paint\ntable;3;2,5;4\nchair;2;5;1,5\n\"shelf; oak\";4;1;2\nbox;1;1;6\n"
# A table whose best order is longer than the bound.
ABOVE_BOUND = "job,saw,drill,paint\na,1,4,0\nb,2,0,3\nc,3,3,5\nd,3,1,0\n"
# The times of TABLE in tenths, and the names of its jobs.
TIMES = [[30, 25, 40], [20, 50, 15], [40, 10, 20], [10, 10, 60]]
NAMES = ["table", "chair", "shelf; oak", "box"]


def test_a_plan(folder: pathlib.Path) -> None:
    (folder / "times.csv").write_text(TABLE)
    printed = run(["plan", "times.csv", "--schedule", "out.csv", "--chart", "out.svg", "--chart", "out.html"], folder)
    best = plainly.shortest(TIMES)
    lines = printed.splitlines()
    assert lines[0] == f"makespan {best / 10} h" and lines[1] == f"bound {plainly.bound(TIMES) / 10} h"
    optimal = ["optimal"] if best == plainly.bound(TIMES) else []
    assert lines[2:-4] == optimal
    order = [NAMES.index(line.split(" ", 1)[1]) for line in lines[-4:]]
    assert [line.split(" ", 1)[0] for line in lines[-4:]] == ["1", "2", "3", "4"]
    assert plainly.makespan(TIMES, order) == best
    rows = [f"{NAMES[job]};{machine};{start / 10};{end / 10}".replace(".", ",").replace("shelf; oak", '"shelf; oak"')
            for job, row in zip(order, plainly.schedule(TIMES, order))
            for machine, (start, end) in zip(["saw", "drill", "paint"], row)]
    assert (folder / "out.csv").read_text().splitlines() == ["\ufeffjob;machine;start;end", *rows]
    drawn = f"bound {plainly.bound(TIMES) / 10} (dashed), critical path outlined"
    assert f"makespan {best / 10}, {drawn}" in (folder / "out.svg").read_text()
    assert f"makespan {best / 10} h, {drawn}" in (folder / "out.html").read_text()
    assert run(["plan", "times.csv", "--unit", "Stunden", "--rounds", "0"], folder).startswith("makespan ")
    run(["plan", "times.csv", "--chart", "out.html", "--title", "Week 48"], folder)
    assert "<title>Week 48</title>" in (folder / "out.html").read_text()


def test_an_order_that_was_changed_by_hand(folder: pathlib.Path) -> None:
    """It is read from what `plan` prints, from its schedule, or as NAMES."""
    (folder / "times.csv").write_text(TABLE)
    head: list[str] = []
    lines: list[str] = []
    for line in run(["plan", "times.csv", "--rounds", "0"], folder).splitlines():
        (lines if line[0].isdigit() else head).append(line)
    changed = [NAMES.index(line.split(" ", 1)[1]) for line in [lines[3], *lines[:3]]]
    span = plainly.makespan(TIMES, changed)
    listed = [NAMES[job] for job in changed]
    texts = {"a plan": "\n".join([*head, *[lines[3], *lines[:3]]]), "names": "\n".join(listed),
             "a list": "\n\n".join(f"{place}. {name}" for place, name in enumerate(listed, 1)),
             "numbered rows of a spreadsheet": "".join(f"{place};{name}\n" for place, name in enumerate(listed, 1))}
    for what, text in texts.items():
        (folder / "order").write_text(text, "utf-8")
        printed = run(["plan", "times.csv", "--order", "order", "--schedule", "out.csv"], folder)
        assert printed.startswith(f"makespan {span / 10} h\n"), what
        assert printed.splitlines()[-4:] == [f"{place} {name}" for place, name in enumerate(listed, 1)], what
        again = run(["plan", "times.csv", "--order", "out.csv"], folder)
        assert again == printed, what
    best = run(["plan", "times.csv", "--order", "order", "--rounds", "100"], folder)
    assert best.startswith(f"makespan {plainly.shortest(TIMES) / 10} h\n"), "rounds begin with the order"
    (folder / "times.csv").write_text("job,saw\nmakespan 3,3\n1 bound 3,2\noptimal,1\n2,4\n")
    names = ["optimal", "1 bound 3", "2", "makespan 3"]
    for text in ("\n".join(names), "\n".join(f"{place} {name}" for place, name in enumerate(names, 1))):
        (folder / "order").write_text(text)
        lines = run(["plan", "times.csv", "--order", "order"], folder).splitlines()
        assert lines[-4:] == [f"{place} {name}" for place, name in enumerate(names, 1)]


# Held jobs, and the order of the day before

def planned(folder: pathlib.Path, words: str) -> tuple[list[str], int, str]:
    """The names of the jobs of a plan in their order, its makespan in tenths, and what it says on standard error."""
    (folder / "times.csv").write_text(TABLE)
    status, out, got = ended(["plan", "times.csv", *words.split()], folder)
    assert status == 0, got
    names = [line.split(" ", 1)[1] for line in out.splitlines() if line[0].isdigit()]
    return names, round(10 * float(out.split()[1])), got


def test_jobs_that_are_held(folder: pathlib.Path) -> None:
    """The search finds the best of the orders that begin with them."""
    def shortest(*first: str) -> int:
        return min(plainly.makespan(TIMES, order) for order in itertools.permutations(range(4))
                   if [NAMES[job] for job in order][:len(first)] == list(first))

    assert shortest("chair") > shortest() and shortest("table", "chair") > shortest("table")
    for first in (["chair"], ["table", "chair"]):
        names, makespan, got = planned(folder, " ".join(f"--first {name}" for name in first))
        assert (names[:len(first)], makespan, got) == (first, shortest(*first), "")
    (folder / "order").write_text("table\nbox\nchair\nshelf; oak\n")
    assert planned(folder, "--order order --hold 1")[:2][1] == shortest("table")
    names, makespan, _ = planned(folder, "--order order --hold 1 --first chair")
    assert (names[:2], makespan) == (["table", "chair"], shortest("table", "chair")), "what has begun comes first"
    assert planned(folder, "--order order --hold 9")[0] == ["table", "box", "chair", "shelf; oak"]


@pytest.mark.parametrize(("first", "last", "new"), [(1, 3, (0, 2)), (0, 1, (3, 2))])
def test_the_order_of_the_day_before(first: int, last: int, new: tuple[int, int], folder: pathlib.Path) -> None:
    """Jobs that are done are left out, and new ones are inserted at their best places, the longest first; with --keep,
    and in a search with it, nothing else moves."""
    (folder / "order").write_text(f"done before\n{NAMES[first]}\n{NAMES[last]}\n")
    note = ("order: left out, as the table has no such jobs: done before\n"
            f"order: new, and inserted at their best places: {', '.join(NAMES[job] for job in new)}\n")
    best = [first, last]
    for job in new:
        place = min(range(len(best) + 1), key=lambda at: plainly.makespan(TIMES, [*best[:at], job, *best[at:]]))
        best.insert(place, job)
    assert planned(folder, "--order order") == ([NAMES[job] for job in best], plainly.makespan(TIMES, best), note)
    kept, makespan, got = planned(folder, "--order order --keep")
    orders = [order for order in itertools.permutations(range(4)) if order.index(first) < order.index(last)]
    assert makespan == min(plainly.makespan(TIMES, order) for order in orders) and got == note
    assert kept.index(NAMES[first]) < kept.index(NAMES[last])
    (folder / "order").write_text("\n".join(NAMES))
    assert planned(folder, "--order order --keep --rounds 100")[0] == NAMES, "there is no new job to move"
    assert planned(folder, "--order times.csv")[0] == NAMES, "the table itself is an order"


def test_another_order_is_compared(folder: pathlib.Path) -> None:
    (folder / "order").write_text("table\nchair\nshelf; oak\nbox\n")
    (folder / "other").write_text("box\ntable\nchair\nshelf; oak\n")
    begin = datetime.datetime(2026, 11, 30, 6)
    spans = [plainly.makespan(TIMES, order) / 10 for order in ([3, 0, 1, 2], [0, 1, 2, 3])]
    ends = [f"makespan {hours} h, end {begin + datetime.timedelta(hours=hours):%Y-%m-%d %H:%M}" for hours in spans]
    got = planned(folder, "--order order --compare other --begin 2026-11-30T06:00")[2]
    assert got == f"other: {ends[0]}; the plan: {ends[1]}\nother: moved: box (place 1 to 4)\n"
    (folder / "other").write_text("done\nbox\ntable\nchair\n")
    assert planned(folder, "--order order --compare other")[2] == (
        "other: not in the plan: done\nother: new in the plan: shelf; oak\nother: moved: box (place 1 to 4)\n")


def test_a_plan_on_a_calendar(folder: pathlib.Path) -> None:
    """The order is printed also where no calendar has the schedule."""
    (folder / "times.csv").write_text("job [min];saw;drill\ntable;300;200\nchair;250;400\n")
    words = ["plan", "times.csv", "--begin", "2026-11-30T06:00", "--shift", "06:00-09:00,09:30-11:30", "--shift",
             "12:00-15:00", "--days", "mon", "--days", "wed,fri"]
    printed = run([*words, "--schedule", "out.csv", "--schedule", "out.ICS"], folder)
    # 8 hours a day: chair up to minute 250 and 650, table from 250 to 550 and from 650 to 850.
    assert printed == "makespan 850 min\nbound 850 min\noptimal\nend 2026-12-02 13:10\n1 chair\n2 table\n"
    assert (folder / "out.csv").read_text("utf-8-sig").splitlines() == [
        "job;machine;start;end", "chair;saw;2026-11-30 06:00;2026-11-30 10:40",
        "chair;drill;2026-11-30 10:40;2026-12-02 08:50", "table;saw;2026-11-30 10:40;2026-12-02 07:10",
        "table;drill;2026-12-02 08:50;2026-12-02 13:10"]
    assert (folder / "out-drill.ICS").read_text().count("BEGIN:VEVENT") == 6, "each part of a shift"
    (folder / "printed").write_text(printed)
    for order in ("out.csv", "printed"):
        assert run([*words, "--order", order], folder) == printed, f"the order of {order} is read back"
    words = ["plan", "times.csv", "--begin", "9999-12-30T06:00", "--shift", "06:00-07:00", "--schedule", "out.csv"]
    assert run(words, folder, 4, "pfs: the schedule ends after the year 9999\n") == printed.replace(
        "end 2026-12-02 13:10\n", "")


def test_no_output_is_where_the_plan_is_printed(folder: pathlib.Path) -> None:
    """Also by a link. A link into a folder that is missing is rejected before the search too, and one to a file that
    isn't there yet is followed."""
    (folder / "times.csv").write_text(TABLE)
    for name, target in (("out.csv", "/dev/stdout"), ("bad.csv", "none/x.csv"), ("new.csv", "x.csv")):
        (folder / name).symlink_to(target)
    replaced = "is printed to, and writing would replace it: name another file"
    words = [sys.executable, "-m", "pfs", "plan", "times.csv", "--rounds", "1", "--schedule"]
    for path, status, said in (("plan.csv", 3, replaced), ("out.csv", 3, replaced),
                               ("bad.csv", 4, "bad.csv: No such file or directory"), ("new.csv", 0, "")):
        with open(folder / "plan.csv", "w") as file:
            got = subprocess.run([*words, path], cwd=folder, env=environment(), stdin=subprocess.DEVNULL,
                                 stdout=file, stderr=subprocess.PIPE, text=True)
        assert (got.returncode, said in got.stderr) == (status, True), got
        assert (folder / "plan.csv").read_text().startswith("makespan ") == (status == 0)
    assert (folder / "x.csv").exists() and (folder / "new.csv").is_symlink()


# What is rejected before the search, and why

SEARCH, PLAN, BEGIN = " ".join(LONG), "plan times.csv", "--begin 2026-11-30T06:00"
NOT_THERE = ": No such file or directory"
READ = "is read, and writing would replace it: name another file"
HELP = "(python3 -m pfs plan --help lists what there is)"
NO_JOB = "order: line 1, no job of the table is named: write the names of the jobs, one in a line"
JOBS = "job,saw\na,3\nb,2\n2 c,1\n"
# What is rejected, with which status and message. Messages name options, where the package for Python has arguments.
REJECTED = [
    (f"{PLAN} --hold 1", 3, "--hold needs --order, which says where the jobs are"),
    (f"{PLAN} --keep", 3, "--keep needs --order, which says where the jobs are"),
    (f"{PLAN} --first lamp", 3, "--first: 'lamp' isn't the name of a job of the table"),
    (f"{PLAN} --schedule times.csv", 3, f"times.csv {READ}"),
    (f"{PLAN} --schedule ./link.csv", 3, f"./link.csv {READ}"),
    (f"{PLAN} --language plain.csv --rest plain.csv", 3, f"plain.csv {READ}"),
    (f"{PLAN} --schedule new.csv --rest ./new.csv", 3,
     "./new.csv is another output, and writing would replace it: name another file"),
    (f"{PLAN} --schedule=", 4, "Is a directory"),
    (f"{PLAN} --order order.html --chart order.html", 3, f"order.html {READ}"),
    (f"{PLAN} --compare order.html --chart order.html", 3, f"order.html {READ}"),
    (f"{PLAN} --schedule out.xlsx", 4,
     "writing a workbook needs openpyxl (Debian: python3-openpyxl; pip install 'pfs[workbooks]')"),
    (f"{PLAN} --schedule none/out.csv", 4, "none/out.csv" + NOT_THERE),
    (f"{PLAN} --chart none/out.svg", 4, "none/out.svg" + NOT_THERE),
    (f"{PLAN} --chart ok.html --chart none/out.html", 4, "none/out.html" + NOT_THERE),
    (f"{PLAN} --chart ok.html --chart x.jpg", 3, "x.jpg: the name of a chart ends with .svg, .png, .pdf or .html"),
    (f"{PLAN} --chart x.svg", 4, "plot needs matplotlib (Debian: python3-matplotlib; pip install 'pfs[charts]')"),
    (f"{SEARCH} --state state --start none", 4, "none" + NOT_THERE),
    ("search none --layout taillard", 4, "none" + NOT_THERE),
    ("search shop --layout orlib", 2, "size line 2 has a wrong count"),
    (f"{SEARCH} --block 2", 2, "no block, found 1"), (f"{SEARCH} --start shop", 2, "order file syntax at 0"),
    (f"{SEARCH} --start nine", 3, "nine: an order for 9 machines, and the instance has 10"),
    (f"{SEARCH} --start two", 3, "--start has 2 jobs, but the instance has 60"),
    (f"{SEARCH} --state order.html", 2, "order.html: not the state of a search"),
    (f"{SEARCH} --take 61", 3, "--take must be from 1 to 60, not 61"),
    *((f"{PLAN} {BEGIN} --{option} {text}", 3, f"argument --{option}: {text!r} is not a {what} {HELP}")
      for option, text, what in (
          ("begin", "tomorrow", "local date and time such as 2026-11-30T06:00"),
          ("down", "drill", "machine and a time such as drill=2026-12-01T13:00"),
          ("shift", "6-14", "shift such as 06:00-14:00"),
          ("days", "mo-fr", "day of the week such as mon, or days such as mon-fri"),
          ("closed", "24.12.", "date such as 2026-12-24, or dates such as 2026-12-24..2027-01-01"))),
    *((f"{PLAN} {words}", 3, f"{what} needs --begin, which says when the work begins") for words, what in (
        ("--shift 06:00-14:00", "--shift"), ("--days mon-fri", "--days"), ("--closed 2026-12-24", "--closed"),
        ("--schedule out.ICS", "a schedule with the ending .ics"))),
    (f"plan plain.csv {BEGIN}", 3, "the times have no unit, which dates need: write min, h, s or d in brackets "
     "into the first cell of the table, as in 'job [min]', or set --unit"),
    (f"plan plain.csv {BEGIN} --days mon-fri --unit days", 3,
     "a day of work may be 24 hours or the shifts of a day: write the times in hours"),
]
# The same of a table, and of an order for a table.
BAD_TABLES = [
    ("job,saw,drill\n\ntable,x,-1\n", "", "cell B3, column 'saw': 'x' isn't a time: leave the column out if it is no "
     "machine, or say which columns are machines (--machines)\n"
     "pfs: times.csv: cell C3, column 'drill': '-1' isn't a time"),
    ("job;saw\na;1.000\n", "", "cell B2, column 'saw': '1.000' may be 1000, or have decimals: leave out thousands "
     "separators, or say which decimal sign the table has (--decimal point or --decimal comma)"),
    ("job [min];saw\na;1\n", "--unit h", "cell A1: the times are in min, and --unit is h: use one unit"),
    ("job;saw;drill;all\na;1;2;3\nb;3;4;7\n", "", "cell D1: the column 'all' has the sums of the columns "
     "before: leave it out, or allow totals (--allow-totals)"),
]
BAD_ORDERS = [("1 b\n2 b\n3 a\n", "order: line 2, the job 'b' is in line 1 too"), ("", NO_JOB), ("\u00e4\nc\n", NO_JOB),
              ("d\nb\nd\n", "order: line 3, the job 'd' is in line 1 too")]
CASES = [*((words, status, error, TABLE, "") for words, status, error in REJECTED),
         *((f"{PLAN} {words}", 2, f"times.csv: {error}", table, "") for table, words, error in BAD_TABLES),
         *((f"{PLAN} --order order", 2, error, JOBS, order) for order, error in BAD_ORDERS)]


@pytest.mark.parametrize(("words", "status", "error", "table", "order"), CASES)
def test_what_is_rejected_before_the_search(folder: pathlib.Path, monkeypatch: pytest.MonkeyPatch, words: str,
                                            status: int, error: str, table: str, order: str) -> None:
    """No file changes. There is no matplotlib here, and no openpyxl."""
    modules: dict[str, Any] = sys.modules
    for name in ("matplotlib", "openpyxl"):
        monkeypatch.setitem(modules, name, None)
    monkeypatch.setattr(_commands, "searched", None)
    (folder / "link.csv").symlink_to("times.csv")
    files = {"times.csv": table, "plain.csv": TABLE.replace(" [h]", ""), "order": order, "order.html": "table\n",
             "nine": plainly.order_file(range(60), 9, 1), "two": "order 2\n1 2\nmakespan 1\n"}
    for name, text in files.items():
        (folder / name).write_text(text, "utf-8")
    before = {path: path.read_bytes() for path in folder.iterdir()}
    assert run(words.split(), folder, status, f"pfs: {error}\n") == ""
    assert {path: path.read_bytes() for path in folder.iterdir()} == before


def test_messages_name_options_and_controls_that_there_are() -> None:
    options, controls = zip(*_wording.WORDS.values())
    assert {option.split()[0] for option in options} <= _commands.plan_words()._option_string_actions.keys()
    page = "".join((TOP / "python/src/pfs/web/static" / name).read_text() for name in ("page.html", "result.js"))
    for name in (control.removesuffix(", above the table").strip('"') for control in controls):
        assert re.search(rf'[>"]{name}[ <,"]', page) or name in ("the tick for sums", "the ticks above the columns")


def test_what_the_messages_propose_is_taken(folder: pathlib.Path) -> None:
    for table, words in (("job;saw\na;1.000\n", "--decimal comma"), ("job [min];saw\na;1\n", "--unit minutes"),
                         ("job;saw;drill\na;1;2\nb;3;4\nc;4;6\n", "--allow-totals"), ("job [h:mm];saw\na;1:30\n", ""),
                         ("job;1;2\nb;20;5\n", ""), ("job;saw;eta\na;1;soon\n", "--machines saw")):
        (folder / "times.csv").write_text(table)
        left_out = "times.csv: columns that are left out: eta\n" if "eta" in table else ""
        run(["plan", "times.csv", "--rounds", "0", *words.split()], folder, error=left_out)


def test_pages_and_searches_need_no_other_package(folder: pathlib.Path) -> None:
    (folder / "times.csv").write_text(TABLE)
    for name in ("matplotlib", "pandas", "tqdm"):
        (folder / "without" / name).mkdir(parents=True)
        (folder / "without" / name / "__init__.py").write_text(f"raise ImportError('no {name}')\n")
    words = ["plan", "times.csv", "--rounds", "1", "--schedule", "out.csv", "--chart", "page.html"]
    env = environment()
    child = start(words, folder, env | {"PYTHONPATH": f"{folder / 'without'}:{env['PYTHONPATH']}"})
    printed, got = child.communicate(timeout=60)
    assert child.returncode == 0, f"a plan with a page needs an optional package: {got.decode()}"
    assert printed.startswith(b"makespan ") and (folder / "page.html").stat().st_size > 0
    assert (folder / "out.csv").stat().st_size > 0


@pytest.mark.parametrize("kind", [OSError, MemoryError, ImportError, ValueError])
@pytest.mark.parametrize("failing", ["to_csv", "plot"])
def test_an_output_that_fails_keeps_no_other_one_back(folder: pathlib.Path, monkeypatch: pytest.MonkeyPatch,
                                                      capsys: pytest.CaptureFixture[str], kind: type[Exception],
                                                      failing: str) -> None:
    (folder / "times.csv").write_text(TABLE)
    printed = run(["plan", "times.csv"], folder)
    monkeypatch.chdir(folder)

    def fail(*_: object, **__: object) -> None:
        signal.raise_signal(signal.SIGTERM)
        raise kind("it fails")

    monkeypatch.setattr(pfs.Schedule, failing, fail)
    status = _commands.main(["plan", "times.csv", "--schedule", "out.csv", "--chart", "out.html"])
    assert status == 4, "the status isn't that of the error, but of the signal"
    line = "pfs: no memory\n" if kind is MemoryError else "pfs: it fails\n"
    out, got = capsys.readouterr()
    assert (out, without_summary(got)) == (printed, line)
    other = {"to_csv": "out.html", "plot": "out.csv"}[failing]
    assert (folder / other).exists(), f"{other} isn't written where {failing} raises {kind.__name__}"


def test_a_state_that_cant_be_written_loses_no_order(folder: pathlib.Path) -> None:
    """The search ends there with what it has."""
    child = start([*LONG, "--state", "none/state"], folder)
    printed, got = child.communicate(timeout=60)
    assert (child.returncode, printed.decode()) == (4, shop_in(folder).neh().to_text())
    assert got.decode().startswith("pfs: none/state")
    assert got.count(b"\n") == 1
    # Later, when some rounds are done.
    (folder / "kept").mkdir()
    child = start([*LONG, "--state", "kept/state"], folder)
    wait_until(lambda: rounds_in(folder / "kept") > 20, "rounds are made")
    (folder / "kept").rename(folder / "moved")
    printed, got = child.communicate(timeout=60)
    assert child.returncode == 4 and got.count(b"\n") == 1, got
    (folder / "order").write_bytes(printed)
    best = pfs.read_order(folder / "order")
    assert shop_in(folder).solve(rounds_in(folder / "moved")).makespan >= best.makespan
    assert best.makespan == shop_in(folder).makespan(best.order)
    said = in_shell(f"{' '.join(LONG)} --rounds 1 --state state > /dev/full", folder)
    assert said == (4, "", "pfs: No space left on device\n") and rounds_in(folder) == 1


def test_names_that_a_terminal_would_take_for_commands(folder: pathlib.Path) -> None:
    table = 'job,saw\nchair\x1b[2J,3\n"two\nlines",1\n\x9b5m,1\n\u202eab,1\nM\xfcller,1\n'
    (folder / "times.csv").write_text(table, "utf-8")
    lines = run(["plan", "times.csv", "--rounds", "0", "--unit", "\x1b[1mh"], folder).splitlines()
    assert lines[:3] == ["makespan 7 \\x1b[1mh", "bound 7 \\x1b[1mh", "optimal"]
    assert {line[2:] for line in lines[3:]} == {"chair\\x1b[2J", "two\\nlines", "\\x9b5m", "\\u202eab", "M\xfcller"}
    words = ["plan", "\x1b[2J.csv", "--rounds", "0"]
    run(words, folder, 4, "pfs: \\x1b[2J.csv: No such file or directory\n")
    (folder / "\x1b[2J.csv").write_text("job,saw\na,-1\n")
    run(words, folder, 2, "pfs: \\x1b[2J.csv: cell B2, column 'saw': '-1' isn't a time\n")
    (folder / "a\nb.csv").write_text("job,saw\na,-1\n")
    run(["plan", "a\nb.csv"], folder, 2, "pfs: a\\nb.csv: cell B2, column 'saw': '-1' isn't a time\n")
    (folder / "times.csv").write_text("job,saw\nM\xfcller,3\n", "utf-8")
    child = start(["plan", "times.csv"], folder, environment() | {"PYTHONIOENCODING": "ascii"})
    printed, got = child.communicate(timeout=60)
    assert (child.returncode, got) == (0, b"1 job, 1 machine (saw), times without a unit\n")
    assert printed.splitlines()[-1] == b"1 M\\xfcller"


@pytest.mark.parametrize("words", [["plan", "x.csv", "--\x1b[2J"], ["plan", "x.csv", "\x1b[2J"], ["\x1b[2J"],
                                   ["plan", "x.csv", "--chart", "\x1b[2J"], ["plan", "x.csv", "--take", "\x9b2J"],
                                   ["plan", "x.csv", "--schedule", "none/\x1b[2J"], [*LONG, "--state", "\x1b[2J/x"],
                                   ["search", "shop", "--layout", "\x1b[2J"], [*LONG, "--start", "\x1b[2J"]])
def test_words_that_a_terminal_would_take_for_commands(folder: pathlib.Path, words: list[str]) -> None:
    (folder / "x.csv").write_text("job,saw\na,1\n")
    status, _, got = ended(words, folder)
    assert status in (3, 4) and all(line.isprintable() for line in got.splitlines()), repr(got)


# The console program pfs-plan

# As the wheel's and the package's scripts call it.
CALL = "import sys; sys.argv[0] = 'pfs-plan'; from pfs.commands.main import plan_program; sys.exit(plan_program())"
CHAIRS = "job [min],saw,drill\nchair,3,2\ntable,2,5\n"


def pfs_plan(folder: pathlib.Path, *words: str) -> subprocess.CompletedProcess[str]:
    (folder / "times.csv").write_text(CHAIRS)
    return plainly.python("-c", CALL, *words, cwd=folder, COLUMNS="200")


@pytest.mark.parametrize("words", [["-m", "pfs", "plan"], ["-c", CALL]], ids=["python3 -m pfs plan", "pfs-plan"])
def test_no_module_is_imported_from_the_current_folder(words: list[str], tmp_path: pathlib.Path) -> None:
    """`python3 -m pfs` takes the package itself from there, if it is there; pfs-plan doesn't."""
    for name in ("csv", "numpy", "argparse", *(["pfs"] if "-m" not in words else [])):
        (tmp_path / f"{name}.py").write_text("raise SystemExit('another module')\n")
    (tmp_path / "times.csv").write_text(CHAIRS)
    own = [] if "-m" in words else ["-P"]
    done = plainly.python(*own, *words, "times.csv", cwd=tmp_path)
    assert (done.returncode, done.stdout.splitlines()[:1]) == (0, ["makespan 9 min"]), done.stderr


@pytest.mark.parametrize(("words", "status", "out", "got"), [
    (["times.csv"], 0, "makespan 9 min\nbound 9 min\noptimal\n1 table\n2 chair\n",
     "2 jobs, 2 machines (saw, drill), times in min\n"),
    (["--nothing", "times.csv"], 3, "",
     "pfs: unrecognized arguments: --nothing (pfs-plan --help lists what there is)\n"),
    (["--version"], 0, "pfs VERSION\n", ""), (["times.csv", "--version"], 0, "pfs VERSION\n", "")])
def test_what_the_program_prints(folder: pathlib.Path, words: list[str], status: int, out: str, got: str) -> None:
    done = pfs_plan(folder, *words)
    assert (done.returncode, done.stdout, done.stderr) == (status, out.replace("VERSION", version()), got)


@pytest.mark.parametrize("module", ["pfs", "pfs.experiments", "pfs.web"])
def test_each_command_line_is_a_module(module: str, tmp_path: pathlib.Path) -> None:
    assert plainly.python("-m", module, "--version", cwd=tmp_path).stdout == f"pfs {version()}\n"


def test_an_experiment_needs_a_command(tmp_path: pathlib.Path) -> None:
    done = plainly.python("-m", "pfs.experiments", cwd=tmp_path)
    said = "pfs-experiments: the following arguments are required: COMMAND (pfs-experiments --help lists what there is)"
    assert (done.returncode, done.stdout, done.stderr) == (3, "", f"{said}\n")


@pytest.mark.parametrize("words", [["-m", "pfs", "plan", "times.csv", "--chart", "made.png"],
                                   ["-m", "pfs.commands.gantt", "table", "made.png"]])
def test_settings_of_matplotlib_in_the_current_folder_change_no_picture(tmp_path: pathlib.Path,
                                                                        words: list[str]) -> None:
    pytest.importorskip("matplotlib")
    (tmp_path / "times.csv").write_text(CHAIRS)
    (tmp_path / "table").write_text("table 1 1\n1 0 5\nmakespan 5\n")
    made = set()
    for text in ("", "figure.facecolor: red\n"):
        (tmp_path / "matplotlibrc").write_text(text)
        assert plainly.python(*words, cwd=tmp_path).returncode == 0
        made.add((tmp_path / "made.png").read_bytes())
    assert len(made) == 1
