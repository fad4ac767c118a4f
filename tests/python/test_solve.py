"""Searches: the same end however they are cut into parts, progress, limits, interruptions, threads."""
import io
import itertools
import math
import pathlib
import pickle
import random
import sys
import threading
import time
import types
from collections.abc import Callable
from typing import Any
from unittest import mock

import numpy as np
import pfs
import pytest
from hypothesis import example, given
from hypothesis import strategies as st
from pfs.commands import main as _commands
from pfs.binding import library as _library, rounds as _rounds
from pfs.shops import search as _search
from pfs.plan.plan import Limits
from support import plainly


class Clock:
    """In the place of the module `time`. Only rounds move it, so that the lengths of parts are known: each takes this
    number of seconds."""

    def __init__(self, seconds: float) -> None:
        self.now, self.seconds = 1024.0, seconds
        # The rounds of each part so far.
        self.parts: list[int] = []

    def monotonic(self) -> float:
        return self.now

    def perf_counter(self) -> float:
        return self.now

    def patch(self, monkeypatch: pytest.MonkeyPatch) -> None:
        """Makes it the clock of searches."""
        made = _search.Search.run_rounds

        def run_rounds(search: _search.Search, count: int) -> None:
            made(search, count)
            self.now += count * self.seconds
            self.parts.append(count)

        monkeypatch.setattr(_search.Search, "run_rounds", run_rounds)
        for module in (_rounds, _search, _commands):
            monkeypatch.setattr(module, "time", self)


class Cut:
    """In the place of the pace of a search: parts of given lengths, again and again."""

    def __init__(self, counts: list[int]) -> None:
        self.counts = list(counts)
        self.at = -1

    def __call__(self, time_limit: float | None) -> "Cut":
        return self

    def next(self, most: int) -> int:
        self.at += 1
        return min(most, self.counts[self.at % len(self.counts)])

    def took(self, count: int, seconds: float) -> None:
        """No part is longer for it."""


@pytest.fixture
def cut(monkeypatch: pytest.MonkeyPatch) -> Callable[[list[int]], None]:
    """Cuts searches into parts of these lengths."""
    return lambda counts: monkeypatch.setattr(_search, "Pace", Cut(counts))


@given(times=plainly.shops(), counts=st.lists(st.integers(1, 9), min_size=1, max_size=5), rounds=st.integers(0, 30),
       seed=st.integers(0, 2**64 - 1), passes=st.integers(0, 2), chance=st.randoms(use_true_random=False))
def test_any_cutting_ends_where_one_part_does(cut: Callable[[list[int]], None], times: plainly.Table, counts: list[int],
                                              rounds: int, seed: int, passes: int, chance: Any) -> None:
    shop = pfs.Instance(times)
    take = chance.randint(1, shop.jobs)
    cut([1_000_000])
    whole = shop.solve(rounds, take=take, passes=passes, seed=seed)
    cut(counts)
    got: list[tuple[int, int]] = []
    parts = shop.solve(rounds, take=take, passes=passes, seed=seed, progress=lambda *line: got.append(line))
    assert parts == whole
    assert whole.makespan == plainly.makespan(times, whole.order.tolist()) <= shop.neh().makespan
    assert whole.rounds == rounds and sorted(whole.order) == list(range(shop.jobs))
    assert [made for made, _ in got] == sorted({made for made, _ in got}) and (not got or got[-1][0] == rounds)
    spans = [span for _, span in got]
    assert spans == sorted(spans, reverse=True) and (not got or spans[-1] == whole.makespan)
    # In several calls.
    half = shop.solve(chance.randint(0, rounds), take=take, passes=passes, seed=seed)
    rest = shop.solve(rounds - half.rounds, take=take, passes=passes, seed=seed, start=half.order, first=half.rounds)
    assert rest.to_text() == whole.to_text() and rest.rounds == rounds
    assert half.cells + rest.cells == whole.cells


def test_the_defaults() -> None:
    shop = pfs.taillard(4)
    assert shop.solve() == shop.solve(1000, take=4, passes=0, seed=0, first=0)
    assert shop.solve(3, time_limit=60) == shop.solve(3, time_limit=float("inf")) == shop.solve(3)
    assert shop.solve(time_limit=10**400, rounds=2) == shop.solve(2), "a limit longer than any float"
    assert shop.solve(10, first=999_990, start=range(20)).rounds == 1_000_000
    assert pfs.Instance([[1], [2]]).solve(3) == pfs.Instance([[1], [2]]).solve(3, take=2)


@given(plainly.shops_and_orders())
def test_a_start_of_ones_own(case: tuple[plainly.Table, list[int]]) -> None:
    times, order = case
    shop = pfs.Instance(times)
    kept = shop.solve(0, start=order)
    assert (kept.order.tolist(), kept.makespan, kept.cells) == (order, plainly.makespan(times, order), 0)
    assert shop.solve(5, start=order) == shop.solve(5, start=kept) == shop.solve(5, start=np.array(order, dtype=">i2"))
    assert shop.solve(5, start=order).makespan <= kept.makespan


class Closing:
    """A progress bar that counts how often it is closed."""
    total = made = closed = makespan = 0

    def __init__(self, total: int) -> None:
        kind = type(self)
        kind.total, kind.made, kind.closed, kind.makespan = total, 0, 0, 0

    def update(self, n: int = 1) -> None:
        type(self).made += n

    def set_postfix(self, makespan: int, refresh: bool) -> None:
        type(self).makespan = makespan

    def close(self) -> None:
        for _ in range(3):
            pass
        type(self).closed += 1


def test_a_bar_is_moved() -> None:
    """One that the search has made of a class is also closed."""
    found = pfs.taillard(1).solve(300, progress=Closing)
    assert (Closing.total, Closing.made, Closing.makespan, Closing.closed) == (300, 300, found.makespan, 1)
    got = io.StringIO()
    with pytest.importorskip("tqdm").tqdm(total=300, file=got) as bar:
        assert pfs.taillard(1).solve(300, progress=bar) == found
        assert bar.n == 300 and not bar.disable, "one of the caller's is closed"
    assert f"makespan={found.makespan}" in got.getvalue() and "300/300" in got.getvalue()


@pytest.mark.parametrize("kind", [KeyError, OSError, SystemExit, MemoryError])
def test_what_progress_raises_has_the_solution(cut: Callable[[list[int]], None], kind: type[BaseException]) -> None:
    """By a function, or by `close` of a bar."""
    cut([10])
    shop, raised = pfs.taillard(1), kind("enough")

    class Bar(Closing):
        def close(self) -> None:
            raise raised

    cases: list[tuple[Any, int]] = [(mock.Mock(spec=[], side_effect=[None, raised]), 20), (Bar, 50)]
    for progress, rounds in cases:
        with pytest.raises(kind, match="enough") as stop:
            shop.solve(50, progress=progress)
        best = getattr(stop.value, "solution", None)
        assert stop.value is raised and best == shop.solve(rounds), "the exception has no solution"
        assert shop.solve(50 - rounds, start=best, first=best.rounds).to_text() == shop.solve(50).to_text()
        del raised.solution  # type: ignore[attr-defined]


def test_memory_that_runs_out_loses_nothing(cut: Callable[[list[int]], None],
                                              monkeypatch: pytest.MonkeyPatch) -> None:
    """The rounds before are kept, and nothing is allocated to hand them out."""
    cut([10])
    shop = pfs.taillard(1)
    whole = shop.solve(30)
    calls, real = 0, _library.library.pfs_rounds

    def refusing(*given: Any) -> int:
        nonlocal calls
        calls += 1
        if calls == 4:
            monkeypatch.setattr(_search, "Solution", lambda *_: pytest.fail("a solution is made where memory is short"))
            return 1
        return int(real(*given))

    monkeypatch.setattr(_library.library, "pfs_rounds", refusing)
    with pytest.raises(MemoryError) as stop:
        shop.solve(50)
    assert getattr(stop.value, "solution", None) == whole


# The seconds of a round, the limit as a number of rounds, or None for 300 rounds without one, and the rounds of the
# parts. They take a tenth of a second, and each has a round at least and four times those of the one before it at most.
PARTS_OF: list[tuple[float, float | None, list[int]]] = [
    (1 / 1024, 0, []), (1 / 1024, 0.5, [1]), (1 / 1024, 20, [1, 4, 15]), (1 / 1024, 100, [1, 4, 16, 64, 15]),
    (1 / 1024, 354, [1, 4, 16, 64, 102, 102, 65]), (1 / 1024, 392, [1, 4, 16, 64, 102, 102, 102, 1]),
    (1 / 1024, None, [1, 4, 16, 64, 102, 102, 11]), (2, None, [1] * 300), (1 / 32, None, [1, *[3] * 99, 2]),
    (0, None, [1, 4, 16, 64, 215])]


@pytest.mark.parametrize(("seconds", "limit", "parts"), PARTS_OF)
def test_parts_take_a_tenth_of_a_second_and_the_last_one_ends_by_the_limit(
        monkeypatch: pytest.MonkeyPatch, seconds: float, limit: float | None, parts: list[int]) -> None:
    """From the command line too."""
    clock = Clock(seconds)
    clock.patch(monkeypatch)
    got: list[int] = []
    ends: list[int] = []
    shop, end, rounds = pfs.generate(6, 3, 1), limit and limit / 1024, 300 if limit is None else None
    found = shop.solve(rounds, time_limit=end, progress=lambda made, makespan: got.append(made))
    assert clock.parts == parts and found.rounds == sum(parts) and got == list(itertools.accumulate(parts))
    clock.parts.clear()
    search = _search.Search(shop, None, 0, None, 0, 0)
    best, fault = _commands.searched(_commands.solve_within, search, Limits(rounds or 1_000_000, end, 0.0), [],
                                     lambda kept: ends.append(kept.rounds))
    assert clock.parts == parts and ends == [0, *got] and (best.rounds, fault) == (found.rounds, None)


TRACED = {str(pathlib.Path(pfs.__file__).parent / f"{name}.py")
          for name in ("binding/rounds", "shops/search", "shops/solution", "base/faults")}


class Interrupting:
    """Traces the bytecodes of the package's searches and of the progress bar, and raises KeyboardInterrupt at one."""

    def __init__(self, at: int, begins_at_once: bool = True) -> None:
        self.left = at
        self.begins_at_once = begins_at_once
        self.runs = False
        self.has_come = False

    def __call__(self, frame: types.FrameType, event: str, _: Any) -> Callable[..., Any] | None:
        """Called for each frame."""
        code = frame.f_code
        if code.co_filename not in TRACED and code.co_name != "close":
            return None
        frame.f_trace_opcodes = True
        self.runs |= self.begins_at_once and code is _search.solve.__code__
        return self.step

    def step(self, frame: types.FrameType, event: str, _: Any) -> Callable[..., Any]:
        """Called for each bytecode."""
        if event == "opcode" and self.runs:
            self.left -= 1
            if self.left < 0:
                self.has_come = True
                raise KeyboardInterrupt
        return self.step


ROUNDS, PARTS = 15, 3
# More than such a search has.
MOST_BYTECODES = 50_000


@pytest.mark.seconds(5)
@pytest.mark.parametrize("first", range(PARTS + 1))
def test_an_interruption_at_each_bytecode_loses_nothing(cut: Callable[[list[int]], None],
                                                        monkeypatch: pytest.MonkeyPatch, first: int) -> None:
    """Each part counts that the library has made, also before its result is used. After some parts, a first
    interruption comes from `progress`, and a second one at any bytecode after that."""
    cut([ROUNDS // PARTS])
    shop, real, before = pfs.generate(6, 2, 1), _library.library.pfs_rounds, sys.gettrace()
    # The solution after each part.
    ends = {rounds: shop.solve(rounds) for rounds in range(0, ROUNDS + 1, ROUNDS // PARTS)}
    due, made = first * ROUNDS // PARTS or ROUNDS, list[int]()

    def noting(*given: Any) -> int:
        made.append(real(*given))
        return made[-1]

    class Bar(Closing):
        def update(self, n: int = 1) -> None:
            super().update(n)
            if first and self.made == due:
                tracer.runs = True
                raise KeyboardInterrupt

    monkeypatch.setattr(_library.library, "pfs_rounds", noting)
    for at in range(MOST_BYTECODES):
        made.clear()
        tracer = Interrupting(at, begins_at_once=not first)
        sys.settrace(tracer)
        try:
            best = shop.solve(ROUNDS, progress=Bar)
        except KeyboardInterrupt as stop:
            assert isinstance(stop, pfs.Interrupted), f"interrupted at a bytecode, it is no pfs.Interrupted: {stop!r}"
            best = stop.solution
        finally:
            sys.settrace(before)
        assert best == ends[best.rounds], f"interrupted at bytecode {at}: not where so many rounds end"
        assert best.rounds == len(made) * ROUNDS // PARTS, f"interrupted at bytecode {at}: a part that was made is lost"
        if not tracer.has_come:
            break
    assert best == ends[due] and (10 if first else 1000) < at < MOST_BYTECODES - 1, f"{at} bytecodes"
    assert Bar.closed == 1


def test_a_second_interruption_of_a_search_keeps_its_best_order(monkeypatch: pytest.MonkeyPatch) -> None:
    monkeypatch.setattr("pfs.shops.proof.solve", mock.Mock(side_effect=KeyboardInterrupt))
    with pytest.raises(pfs.Interrupted) as stop:
        pfs.generate(5, 2, 1).solve(9)
    assert stop.value.solution == pfs.generate(5, 2, 1).neh()


@pytest.mark.parametrize(("words", "kind", "why"), [
    ({"rounds": -1}, ValueError, "rounds must be from 0 to 1,000,000, not -1"),
    ({"rounds": 1_000_001}, ValueError, "rounds must be from .*, not 1000001"),
    ({"rounds": 2, "first": 999_999}, ValueError, "rounds must be from 0 to 1, not 2$"),
    ({"first": 1_000_001}, ValueError, "first must be from .*, not 1000001"),
    ({"rounds": 1.5}, TypeError, "rounds must be an integer, not 1.5"),
    ({"take": 0}, ValueError, "take must be from 1 to 20, not 0"),
    ({"take": 21}, ValueError, "take must be from 1 to 20, not 21"),
    ({"passes": 101}, ValueError, "passes must be from 0 to 100, not 101"),
    ({"seed": -1}, ValueError, "seed must be from .*, not -1"),
    ({"seed": 2**64}, ValueError, "seed must be from .*, not 18446744073709551616"),
    ({"start": [0, 1]}, ValueError, "start has 2 jobs, but the instance has 20"),
    ({"start": [0] * 20}, ValueError, "start: job 0 occurs twice, at places 0 and 1"),
    ({"start": pfs.taillard(11).neh()}, ValueError, "start is an order for 10 machines, but the instance has 5$"),
    ({"time_limit": -1}, ValueError, "time_limit must be 0 or more seconds, not -1.0"),
    ({"time_limit": float("nan")}, ValueError, "time_limit must be 0 or more seconds, not nan"),
    ({"time_limit": -10**400}, ValueError, "time_limit must be 0 or more seconds, not -inf"),
    ({"time_limit": "1"}, TypeError, "time_limit must be a number of seconds, not '1'"),
    ({"progress": 3}, TypeError, "progress must be callable, or a progress bar with `update`, not 3$"),
    ({"target": -1}, ValueError, "target must be from 0 to [0-9,]+, not -1"),
    ({"stop": True}, TypeError, "stop must be an event with `is_set`, such as threading.Event, not True"),
    ({"history": 1}, TypeError, "history must be True or False, not 1"),
    ({"hold": [1, 1]}, ValueError, "hold: job 1 occurs twice, at places 0 and 1"),
    ({"hold": [20]}, ValueError, "hold: 20 at place 0 isn't a job: jobs are 0 to 19"),
    ({"move": [20]}, ValueError, "move: 20 at place 0 isn't a job: jobs are 0 to 19"),
    ({"hold": ["d"]}, ValueError, "hold: 'd' at place 0 isn't the name of a job"),
    ({"hold": 1}, ValueError, r"hold must be a list of jobs, not of the shape \(\)"),
    ({"move": [0.5]}, ValueError, "move: 0.5 at place 0 isn't a whole number"),
    ({"method": "iterated"}, ValueError, "method must be 'solve' or 'iterated-greedy', not 'iterated'$"),
    ({"method": None}, TypeError, "method must be 'solve' or 'iterated-greedy', not None$"),
    ({"ties": "idle"}, ValueError, "ties needs method='iterated-greedy'$"),
    ({"partial": 0}, ValueError, "partial needs method='iterated-greedy'$"),
    ({"temperature": 0}, ValueError, "temperature needs method='iterated-greedy'$"),
    ({"method": "iterated-greedy", "ties": "none"}, ValueError, "ties must be 'first' or .*, not 'none'$"),
    ({"method": "iterated-greedy", "ties": 1}, TypeError, "ties must be 'first' or .*, not 1$"),
    ({"method": "iterated-greedy", "partial": 101}, ValueError, "partial must be from 0 to 100, not 101$"),
    ({"method": "iterated-greedy", "temperature": -0.1}, ValueError, "temperature must be from 0 to 1,000, not -0.1$"),
    ({"method": "iterated-greedy", "temperature": 1000.1}, ValueError, "temperature must be from 0 to 1,000, not "),
    ({"method": "iterated-greedy", "temperature": float("nan")}, ValueError, "temperature must be .*, not nan$"),
    ({"method": "iterated-greedy", "temperature": "1"}, TypeError, "temperature must be a number, not '1'$"),
])
def test_options_that_are_rejected(words: dict[str, Any], kind: type[Exception], why: str) -> None:
    shop = pfs.Instance(pfs.taillard(1).times, job_names=map(str, range(20)))
    with pytest.raises(kind, match=f"^{why}"):
        shop.solve(**words)


# Ends before the rounds are made, improvements, and seeds that follow each other

@given(times=plainly.shops(), counts=st.lists(st.integers(1, 40), min_size=1, max_size=3), seed=st.integers(0, 9),
       chance=st.randoms(use_true_random=False))
def test_a_search_ends_with_the_first_round_that_comes_to_the_target(
        cut: Callable[[list[int]], None], times: plainly.Table, counts: list[int], seed: int, chance: Any) -> None:
    """For any parts, and with the order after that number of rounds."""
    shop = pfs.Instance(times)
    start = chance.sample(range(shop.jobs), shop.jobs)
    cut([1])
    spans = [shop.solve(count, take=1, seed=seed, start=start).makespan for count in range(31)]
    cut(counts)
    for target in {*spans, spans[-1] - 1, spans[0] + 1} - {-1}:
        due = next((count for count, span in enumerate(spans) if span <= target), 30)
        for history in (False, True):
            found = shop.solve(30, take=1, seed=seed, start=start, target=target, history=history)
            assert found == shop.solve(due, take=1, seed=seed, start=start), f"target {target} of {spans}"
    lines = shop.solve(30, take=1, seed=seed, start=start, history=True).history
    due_lines = [(count, span) for count, span in enumerate(spans) if count == 0 or span < spans[count - 1]]
    assert [(line.round, line.makespan) for line in lines] == due_lines
    seconds = [line.seconds for line in lines]
    assert seconds == sorted(seconds) and seconds[0] >= 0


def test_the_history_counts_rounds_from_the_first_and_is_kept(cut: Callable[[list[int]], None]) -> None:
    cut([7])
    shop = pfs.taillard(11)
    whole = shop.solve(100, start=range(20), history=True).history
    assert len(whole) > 5
    half = shop.solve(50, start=range(20), history=True)
    assert type(half.history) is tuple
    rest = shop.solve(50, start=half, first=50, history=True).history
    assert rest[0][::2] == (50, half.makespan)
    assert [line[::2] for line in half.history + rest[1:]] == [line[::2] for line in whole]
    assert shop.solve(100, start=range(20)).history == ()
    interrupt = mock.Mock(spec=[], side_effect=[None] * 6 + [KeyboardInterrupt])
    with pytest.raises(pfs.Interrupted) as stop:
        shop.solve(100, start=range(20), history=True, progress=interrupt)
    assert [line[::2] for line in stop.value.solution.history] == [line[::2] for line in whole if line.round <= 49]


def test_an_improvement_has_the_time_of_its_round(monkeypatch: pytest.MonkeyPatch) -> None:
    """Also one in the middle of a part."""
    clock = Clock(0.001)
    clock.patch(monkeypatch)
    history = pfs.taillard(11).solve(100, start=range(20), history=True).history
    assert [line.seconds for line in history] == pytest.approx([line.round / 1000 for line in history])
    assert {line.round for line in history} - {0, *itertools.accumulate(clock.parts)}


def test_a_search_by_time_ends_at_the_bound() -> None:
    """And one by rounds doesn't: its order is the one after that number of rounds."""
    shop = pfs.generate(40, 2, 3)
    assert shop.solve(300).makespan == shop.bound()
    begun = time.monotonic()
    found = shop.solve(time_limit=60)
    assert time.monotonic() - begun < 30 and found.makespan == shop.bound() and found.rounds < 300
    assert shop.solve(300).rounds == 300 and shop.solve(300, time_limit=60).rounds == 300
    assert shop.solve(time_limit=0.2, target=0).rounds > found.rounds, "a target of 0 ends no search early"


def test_progress_that_returns_true_and_an_event_end_the_search(cut: Callable[[list[int]], None]) -> None:
    cut([10])
    shop = pfs.taillard(1)
    enough: list[Any] = [True, np.True_]
    for value in enough:
        assert shop.solve(50, progress=lambda made, makespan: made == 20 and value) == shop.solve(20)
    others: list[Any] = [1, "yes", False, np.False_, None, [0]]
    for value in others:
        assert shop.solve(50, progress=lambda made, makespan: value).rounds == 50, f"{value!r} ends the search"

    class Shown(Closing):
        def update(self, n: int = 1) -> Any:
            super().update(n)
            return True

    assert shop.solve(50, progress=Shown).rounds == 50, "a bar that says that it was shown ends the search"
    stop = threading.Event()

    def set_at(made: int, makespan: int) -> None:
        if made == 30:
            stop.set()

    assert shop.solve(50, progress=set_at, stop=stop) == shop.solve(30)
    assert shop.solve(50, stop=stop) == shop.neh()
    assert shop.solve(50, stop=threading.Event()) == shop.solve(50)


def test_a_search_by_time_continues_with_another_seed(monkeypatch: pytest.MonkeyPatch) -> None:
    """After round 1,000,000 with round 0 of the seed that the plans of experiments continue with."""
    shop = pfs.generate(6, 3, 1)
    Clock(1 / 1024).patch(monkeypatch)
    got: list[int] = []
    words: dict[str, Any] = {"start": range(6), "take": 2, "target": 0, "history": True}
    found = shop.solve(time_limit=300 / 1024, first=999_900, seed=2**64 - 1, progress=lambda made, _: got.append(made),
                       **words)
    next_seed = 11400714819323198485 - 1
    assert (found.seed, found.rounds) == (next_seed, got[-1] - 100) and got == sorted(set(got)) and got[-1] > 250
    before = shop.solve(100, first=999_900, seed=2**64 - 1, start=range(6), take=2)
    assert (before.seed, before.rounds) == (2**64 - 1, 1_000_000)
    after = shop.solve(got[-1] - 100, start=before, seed=next_seed, take=2)
    assert (found.order.tolist(), found.cells) == (after.order.tolist(), before.cells + after.cells)
    assert found.history[0].round == 999_900
    # A number of rounds doesn't go beyond the last one of its seed.
    with pytest.raises(ValueError, match="rounds must be from 0 to 100, not 101"):
        shop.solve(101, first=999_900, start=range(6), time_limit=1)


# Searches that accept longer orders, and those that hold jobs

LONGER: dict[str, Any] = {"method": "iterated-greedy"}
# Its rounds lead to other orders by each rule for ties.
TIED = ([[3, 3, 0], [2, 4, 3], [3, 2, 3], [2, 4, 1], [4, 1, 2]], [0, 1, 2, 3, 4])


@given(case=plainly.shops_and_orders(5), counts=st.lists(st.integers(1, 5), min_size=1, max_size=3),
       rounds=st.integers(0, 8), seed=st.integers(0, 2**64 - 1), held=st.integers(0, 5), partial=st.integers(0, 2),
       passes=st.integers(0, 2), ties=st.sampled_from([*_rounds.TIES]), temperature=st.sampled_from([0, 0.5, 3, 40]),
       moves=st.one_of(st.none(), st.sets(st.integers(0, 4))), is_longer=st.booleans(),
       chance=st.randoms(use_true_random=False))
@example(case=TIED, counts=[7], rounds=8, seed=1, held=0, partial=0, passes=1, ties="idle", temperature=0, moves=None,
         is_longer=True, chance=random.Random(1))
@example(case=TIED, counts=[7], rounds=8, seed=1, held=1, partial=0, passes=0, ties="first", temperature=0, moves=None,
         is_longer=False, chance=random.Random(4))
def test_rounds_that_accept_longer_orders_or_hold_jobs(
        cut: Callable[[list[int]], None], case: tuple[plainly.Table, list[int]], counts: list[int], rounds: int,
        seed: int, held: int, partial: int, passes: int, ties: str, temperature: float, moves: set[int] | None,
        is_longer: bool, chance: Any) -> None:
    """Both orders are those of the definition, however the rounds are cut into parts and calls. The held jobs keep the
    first places, and those that don't move their order. With either, `solve` is the search without its options."""
    times, order = case
    jobs = len(times)
    held, shop = min(held, jobs), pfs.Instance(times)
    hold, start = order[:held], chance.sample(order, jobs)
    begun = hold + [job for job in start if job not in hold]
    move = None if moves is None else [job for job in moves if job < jobs]
    free = [job for job in begun[held:] if move is None or job in move]
    more: dict[str, Any] = {"partial": 0, "ties": "first", "temperature": 0}
    words: dict[str, Any] = {"passes": passes, "take": chance.randint(1, jobs), "seed": seed}
    options: dict[str, Any] = words | {"hold": hold, "move": move}
    if is_longer or jobs == 1 or not hold and move is None:
        more = {"partial": partial, "ties": ties, "temperature": temperature}
        options |= LONGER | more
    due = (begun, begun) if not free else plainly.iterated(
        times, (begun, begun), range(rounds), held=held, staying=set(order) - set(free),
        **more | words | {"take": min(words["take"], len(free))})
    cut(counts)
    whole = shop.solve(rounds, start=start, **options)
    assert whole.current is not None and (whole.current.tolist(), whole.order.tolist()) == due
    assert whole.makespan == plainly.makespan(times, due[1]) and whole.rounds == rounds
    half = shop.solve(chance.randint(0, rounds), start=start, **options)
    half = pickle.loads(pickle.dumps(half))
    rest = shop.solve(rounds - half.rounds, start=half, first=half.rounds, **options)
    assert rest.current is not None and (rest.current.tolist(), rest.order.tolist()) == due
    target = whole.makespan
    first = next(count for count in range(rounds + 1)
                 if shop.solve(count, start=start, **options).makespan <= target)
    assert shop.solve(rounds, start=start, target=target, history=True, **options).rounds == first
    own = pfs.Solution(order, shop.makespan(order))
    own.current = np.array(order[::-1])
    later: Any = shop.solve(3, **LONGER, start=own, move=move)
    stay = [job for job in order if move is not None and job not in move]
    assert [[job for job in each if job in stay] for each in (later.order, later.current)] == [stay] * 2


def test_the_defaults_of_the_method() -> None:
    shop = pfs.taillard(11)
    usual = shop.solve(30, **LONGER)
    others = {"take": 2, "passes": 100, "partial": 100, "ties": "idle", "temperature": 0.5, "hold": (), "first": 0}
    assert shop.solve(30, **LONGER, **others) == usual  # type: ignore[arg-type]
    assert usual.current is not None and shop.makespan(usual.current) >= usual.makespan < shop.neh().makespan
    assert shop.solve(30).current is None and shop.solve(30, method="solve") == shop.solve(30)
    different: list[dict[str, Any]] = [{"take": 3}, {"passes": 0}, {"partial": 0}, {"temperature": 5}, {"seed": 1}]
    for other in different:
        found = shop.solve(30, **LONGER, **other)
        assert found.current is not None and found.current.tolist() != usual.current.tolist(), f"{other} is ignored"
    one = pfs.Instance([[1, 2]])
    assert one.solve(3, **LONGER).order.tolist() == one.solve(3, **LONGER, hold=[0], take=1).order.tolist() == [0]
    assert pfs.Instance([[0], [0]]).solve(3, **LONGER).makespan == 0, "no time, and so no temperature"
    assert pfs.Instance([[10**9] * 2] * 3).solve(3, **LONGER).makespan == 4 * 10**9


@given(st.floats(0, 1000), st.integers(0, 10**7), st.integers(1, 10**4))
def test_the_chances_of_longer_orders(temperature: float, total: int, operations: int) -> None:
    chances = list(_rounds.accept_of(temperature, total, operations))
    heat = temperature * total / (10 * operations)
    assert len(chances) <= _rounds.MOST_ACCEPTED and 0 not in chances and chances == sorted(chances, reverse=True)
    for longer in {1, 2, 999, 1000, 1001, len(chances) - 1, len(chances)} & {*range(1, _rounds.MOST_ACCEPTED)}:
        due = 2**32 * math.exp(-longer / heat) if heat > 1e-300 else 0
        chance = chances[longer] if longer < len(chances) else 0
        assert abs(chance - math.floor(due)) <= 1e-6 * due + (abs(due - round(due)) < 1e-3), longer


@given(plainly.shops())
def test_without_a_start_the_others_are_inserted_as_neh_does(times: plainly.Table) -> None:
    shop = pfs.Instance(times)
    order = [0]
    for job in sorted(range(1, shop.jobs), key=lambda job: -sum(times[job])):
        spans = [plainly.makespan(times, [*order[:at], job, *order[at:]]) for at in range(1, len(order) + 1)]
        order.insert(1 + spans.index(min(spans)), job)
    assert shop.solve(0, hold=[0]).order.tolist() == order
