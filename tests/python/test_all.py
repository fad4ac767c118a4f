"""Searches of many instances and seeds in threads: the same solutions as one by one, however they are interrupted."""
import contextlib
import os
import pathlib
import pickle
import signal
import subprocess
import sys
import threading
import time
import unittest.mock
from collections.abc import Iterator
from typing import Any

import numpy as np
import pfs
import pytest
from pfs.shops import search as _search
from support import plainly

SHOPS = [pfs.generate(8, 3, 1), pfs.generate(9, 2, 2), pfs.generate(8, 3, 1)]


LONGER: dict[str, Any] = {"method": "iterated-greedy", "partial": 2, "ties": "first", "temperature": 40}


@pytest.mark.parametrize(("workers", "words"), [(1, {"take": 2, "passes": 1}), (3, LONGER)])
def test_the_solutions_are_those_of_each_search(workers: int, words: dict[str, Any]) -> None:
    got: list[tuple[int, ...]] = []
    found = pfs.solve_all(iter(SHOPS), (seed for seed in (5, 2**64 - 1)), 40, workers=workers,
                          progress=lambda *line: got.append(line), **words)
    assert list(found) == [(place, seed) for place in range(3) for seed in (5, 2**64 - 1)]
    for (place, seed), best in found.items():
        assert best == SHOPS[place].solve(40, seed=seed, **words)
    assert got == [(number, 6) for number in range(1, 7)]


def test_searches_by_time_and_with_a_target() -> None:
    begun = time.monotonic()
    found = pfs.solve_all([pfs.generate(60, 10, 9)], [1, 2], time_limit=0.3, workers=2)
    assert 0.2 < time.monotonic() - begun < 30 and all(best.rounds > 0 for best in found.values())
    shop = pfs.taillard(1)
    assert pfs.solve_all([shop], [0], 1000, target=1278) == {(0, 0): shop.solve(1000, target=1278)}
    assert pfs.solve_all(SHOPS[:1]) == {(0, 0): SHOPS[0].solve()}


def test_what_was_found_is_not_searched_again() -> None:
    """Finished searches are taken as they are, and unfinished ones continue."""
    half = SHOPS[0].solve(15, seed=1)
    whole = SHOPS[1].solve(40, seed=1)
    got: list[tuple[int, ...]] = []
    found = pfs.solve_all(SHOPS[:2], [1], 40, workers=1, found={(0, 1): half, (1, 1): whole},
                          progress=lambda *line: got.append(line))
    assert found == {(0, 1): SHOPS[0].solve(40, seed=1), (1, 1): whole}
    assert got == [(2, 2)], "a finished search is made again"
    large, longer = pfs.generate(30, 8, 9), "iterated-greedy"
    assert pfs.solve_all([large], [0], 60, method=longer, found={(0, 0): large.solve(20, method=longer)}) == {
        (0, 0): large.solve(60, method=longer)}
    shop = pfs.taillard(1)
    near = shop.solve(124)
    assert pfs.solve_all([shop], [0], 1000, target=1278, found={(0, 0): near}) == {(0, 0): near}
    assert pfs.solve_all([shop], [0], time_limit=600, found={(0, 0): near}) == {(0, 0): near}


def test_progress_that_returns_true_or_raises_ends_the_searches() -> None:
    shops = [pfs.generate(60, 10, seed) for seed in range(1, 9)]
    found = pfs.solve_all(shops, [1], 2000, workers=1, progress=lambda done, total: np.bool_(done == 2))
    assert 2 <= len(found) < 8 and found[0, 1] == shops[0].solve(2000, seed=1)
    assert len(pfs.solve_all(SHOPS, [1], 5, workers=1, progress=lambda done, total: 1)) == 3
    refuse = unittest.mock.Mock(side_effect=[None, KeyError("enough")])
    with pytest.raises(KeyError, match="enough") as stop:
        pfs.solve_all(SHOPS, [1], 5, workers=1, progress=refuse)
    found = getattr(stop.value, "found", {})
    assert len(found) >= 2 and found[0, 1] == SHOPS[0].solve(5, seed=1)


# It gets signals once it is in the call.
SCRIPT = """
import os, pickle, signal, sys, pfs
shops = [pfs.generate(60, 10, seed) for seed in (1, 2, 3)]
found = pickle.load(open("found", "rb")) if os.path.exists("found") else {}
words = {"rounds": 150_000} if sys.argv[1] == "rounds" else {"time_limit": 60.0, "target": 0}
def ready():
    print("ready", flush=True)
    yield from shops
try:
    found = pfs.solve_all(ready(), [1, 2], workers=2, found=found, progress=lambda done, total: None, **words)
    print("done", flush=True)
except KeyboardInterrupt as stop:
    signal.pthread_sigmask(signal.SIG_BLOCK, [signal.SIGINT])
    assert isinstance(stop, pfs.InterruptedAll), stop
    found = stop.found
    print("interrupted", len(found), flush=True)
with open("found", "wb") as file:
    pickle.dump(found, file)
"""


def interrupted(folder: pathlib.Path, words: str, *seconds: float) -> str:
    """What a script prints that gets SIGINT, with all that it has started, each time after some seconds."""
    (folder / "script.py").write_text(SCRIPT)
    child = subprocess.Popen([sys.executable, "script.py", words], cwd=folder, env=plainly.environment(),
                             stdout=subprocess.PIPE, stderr=subprocess.PIPE, text=True, start_new_session=True)
    assert child.stdout and child.stdout.readline() == "ready\n"
    for wait in seconds:
        time.sleep(wait)
        with contextlib.suppress(ProcessLookupError):
            os.killpg(child.pid, signal.SIGINT)
    try:
        printed, errors = child.communicate(timeout=60)
    except subprocess.TimeoutExpired:
        os.killpg(child.pid, signal.SIGKILL)
        pytest.fail("the script doesn't end after Ctrl-C")
    assert (child.returncode, errors) == (0, ""), "the script doesn't end as it should after Ctrl-C"
    with pytest.raises(ProcessLookupError):
        os.killpg(child.pid, 0)
    return printed


def found_in(folder: pathlib.Path) -> dict[tuple[int, int], pfs.Solution]:
    """What a script has found."""
    found: dict[tuple[int, int], pfs.Solution] = pickle.loads((folder / "found").read_bytes())
    return found


@pytest.mark.seconds(20)
def test_after_ctrl_c_the_searches_continue(tmp_path: pathlib.Path) -> None:
    """No round is lost. At the end each solution is the one of a search that was never interrupted."""
    made: dict[tuple[int, int], int] = {}
    for seconds in ([0.15], [0.15, 0.01], [0.15]):
        assert "interrupted" in interrupted(tmp_path, "rounds", *seconds)
        now = {key: best.rounds for key, best in found_in(tmp_path).items()}
        assert sum(now.values()) > sum(made.values()) and all(now.get(key, 0) >= made[key] for key in made), (
            f"rounds are lost by Ctrl-C: {made} before, {now} after it")
        made = now
    assert interrupted(tmp_path, "rounds") == "done\n"
    assert found_in(tmp_path) == {(place, seed): pfs.generate(60, 10, place + 1).solve(150_000, seed=seed)
                                  for place in range(3) for seed in (1, 2)}


def test_a_search_by_time_that_is_interrupted_is_not_kept(tmp_path: pathlib.Path) -> None:
    """Nobody could tell it from one that has had its time."""
    begun = time.monotonic()
    assert interrupted(tmp_path, "time", 1.0) == "interrupted 0\n"
    assert time.monotonic() - begun < 40


def test_ctrl_c_while_threads_start_and_before_them(monkeypatch: pytest.MonkeyPatch) -> None:
    """It comes once all have started."""
    start, started = threading.Thread.start, list[threading.Thread]()

    def interrupted(thread: threading.Thread) -> None:
        started.append(thread)
        signal.raise_signal(signal.SIGINT)
        start(thread)

    monkeypatch.setattr(threading.Thread, "start", interrupted)
    with pytest.raises(pfs.InterruptedAll):
        pfs.solve_all(SHOPS, [1], 1_000_000, workers=2)
    assert len(started) == 2 and not any(thread.is_alive() for thread in started)
    def shops() -> Iterator[pfs.Instance]:
        yield SHOPS[0]
        raise KeyboardInterrupt

    found = {(0, 1): SHOPS[0].solve(5, seed=1)}
    with pytest.raises(pfs.InterruptedAll) as stop:
        pfs.solve_all(shops(), [1], 9, found=found)
    assert stop.value.found == found


def test_a_thread_that_cant_be_started_and_memory_that_runs_out(monkeypatch: pytest.MonkeyPatch) -> None:
    start, started = threading.Thread.start, list[threading.Thread]()

    def refuse(thread: threading.Thread) -> None:
        if started:
            raise RuntimeError("can't start new thread")
        started.append(thread)
        start(thread)

    monkeypatch.setattr(threading.Thread, "start", refuse)
    found = {(0, 1): SHOPS[0].solve(5, seed=1)}
    monkeypatch.setattr(_search.Search, "run_rounds", lambda *_: time.sleep(0.3))
    with pytest.raises(RuntimeError, match="can't start") as stop:
        pfs.solve_all(SHOPS, [1], 9, workers=2, found=found)
    assert getattr(stop.value, "found")[0, 1].rounds >= 5, "what was found before is lost"
    assert not started[0].is_alive(), "a search goes on after the error"
    monkeypatch.undo()
    monkeypatch.setattr(_search.Search, "run_rounds", unittest.mock.Mock(side_effect=MemoryError))
    with pytest.raises(MemoryError):
        pfs.solve_all(SHOPS, [1], 9, workers=2)


@pytest.mark.parametrize(("words", "kind", "why"), [
    ({"instances": []}, ValueError, "0 instances and 1 seeds"), ({"seeds": []}, ValueError, "3 instances and 0 seeds"),
    ({"instances": [[[1]]]}, TypeError, r"instances: \[\[1\]\] at place 0 isn't an Instance"),
    ({"seeds": [1, 2, 1]}, ValueError, "seeds: 1 occurs twice"),
    ({"seeds": [-1]}, ValueError, "seed must be from 0 to [0-9,]+, not -1"),
    ({"take": 9}, ValueError, "take must be from 1 to 8, not 9"),
    ({"time_limit": -1}, ValueError, "time_limit must be 0 or more seconds, not -1.0"),
    ({"workers": 0}, ValueError, "workers must be from 1 to 1,000, not 0"),
    ({"progress": 3}, TypeError, "progress must be callable, not 3$"),
    ({"found": {(0, 1): 7}}, TypeError, "found must contain solutions, not 7"),
    ({"found": {(0, 1): pfs.generate(8, 2, 1).neh()}}, ValueError,
     "found is an order for 2 machines, but the instance has 3"),
    ({"found": {(0, 1): pfs.generate(7, 3, 1).neh()}}, ValueError, "found has 7 jobs, but the instance has 8"),
    ({"found": {(0, 1): pfs.generate(8, 3, 9).neh()}}, ValueError, "found: a solution for .* has the wrong makespan"),
    ({"found": {(0, 7): SHOPS[0].solve(3, seed=7)}}, ValueError,
     r"found: \(0, 7\) isn't the index of an instance and a seed of this call"),
    ({"found": {(0, 1): SHOPS[0].solve(5, seed=2)}}, ValueError, "has 5 rounds of seed 2, and the search 5 of seed 1"),
    ({"found": {(0, 1): SHOPS[0].solve(6, seed=1)}}, ValueError, "has 6 rounds of seed 1, and the search 5 of seed 1"),
])
def test_calls_that_are_rejected(words: dict[str, Any], kind: type[Exception], why: str) -> None:
    given: dict[str, Any] = {"instances": SHOPS, "seeds": [1], "rounds": 5} | words
    with pytest.raises(kind, match=why):
        pfs.solve_all(**given)
