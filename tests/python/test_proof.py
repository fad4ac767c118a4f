"""Proofs that an order is optimal: against all orders of small instances, however the search is cut, at the limits of
size, time and nodes, in threads, and when they are interrupted or fail."""
import copy
import itertools
import math
import os
import pickle
import signal
import threading
import time
import types
from collections.abc import Iterator
from typing import Any
from unittest import mock

import numpy as np
import pfs
import pytest
from hypothesis import given
from hypothesis import strategies as st
from pfs.binding import library as _library
from pfs.shops import proof as _proof, search as _search
from support import plainly

# No proof of it ends within minutes.
HARD = 51
# The makespan of its shortest orders, and the nodes of a search below it, by another program.
SPAN, NODES = 1582, 147_590


@pytest.fixture(autouse=True)
def no_thread_is_left() -> Iterator[None]:
    before = threading.active_count()
    yield
    assert threading.active_count() == before


def cut(patch: pytest.MonkeyPatch, first: int, most: int, grain: int) -> None:
    """Let calls begin with few nodes, have few parts, and steps end after few nodes."""
    for name, value in (("FIRST", first), ("MOST_PARTS", most), ("GRAIN", grain), ("CALL", 1e-9)):
        patch.setattr(_proof, name, value)


@given(plainly.shops_and_orders(), st.integers(1, 5), st.integers(1, 3), st.integers(1, 9), st.sampled_from([1, 2, 5]))
def test_no_order_is_shorter(case: tuple[plainly.Table, list[int]], first: int, most: int, grain: int,
                             threads: int) -> None:
    """From NEH's order and from any other one, in one call and in many. However one thread is cut, it has the nodes,
    the order and the bound of one call."""
    times, order = case
    shop, least = pfs.Instance(times), plainly.shortest(times)
    whole = shop.optimum(nodes=10**6, start=order)
    with pytest.MonkeyPatch.context() as patch:
        cut(patch, first, most, grain)
        found = shop.optimum(60, start=order, threads=threads)
        for best in (whole, shop.optimum(60), found, shop.solve(0, start=order, prove=60),
                     pfs.solve_all([shop], [1], 0, prove=60)[0, 1]):
            assert (best.makespan, best.bound, best.optimal) == (least, least, True)
            assert plainly.makespan(times, best.order.tolist()) == least and best.rounds <= 100
    if threads == 1:
        assert (found.order.tolist(), found.proof and found.proof.nodes) == (
            whole.order.tolist(), whole.proof and whole.proof.nodes)


@given(plainly.shops_and_orders(), st.integers(-2, 3), st.integers(0, 40))
def test_below_a_limit(case: tuple[plainly.Table, list[int]], more: int, nodes: int) -> None:
    """What is left when the nodes are used up has all orders below the makespan found and the limit, and a search below
    a makespan proves it without its order."""
    times, order = case
    shop, least = pfs.Instance(times), plainly.shortest(times)
    limit = max(0, least + more)
    some, best = (shop.optimum(nodes=count, limit=limit, start=order) for count in (nodes, 10**6))
    goal, sizes = min(some.makespan, limit), [math.factorial(len(times) - placed) for placed in range(len(times) + 1)]
    assert some.bound <= max(least, shop.bound()) and some.proof is not None and some.proof.nodes <= nodes
    assert some.proof.open or some.bound >= goal
    assert 0 <= round(some.proof.share * sizes[0]) <= sizes[0] and (some.proof.share > 0) == (some.proof.open > 0)
    assert min(least, limit) <= best.bound <= least and best.proof is not None
    assert best.makespan == least if limit > least else best.makespan >= least
    assert (best.proof.open, best.proof.share) == (0, 0)


def test_nodes_are_those_of_another_program() -> None:
    """Below the least makespan, from any order, in one thread and in several, and in calls of which none has the whole
    tree. A budget is used up to the last node, and repeats."""
    shop = pfs.taillard(11)
    for threads in (1, 2, 3):
        best = shop.optimum(600, limit=SPAN, start=range(20), threads=threads)
        assert (best.bound, best.proof and best.proof[0], best.optimal) == (SPAN, NODES, False)
    for nodes in (0, 1, 5_000, NODES - 1, NODES, NODES + 1):
        one, other = (shop.optimum(nodes=nodes, limit=SPAN, start=range(20)) for _ in range(2))
        assert one.proof and other.proof and one.proof.nodes == min(nodes, NODES)
        assert one.proof._replace(seconds=0) == other.proof._replace(seconds=0) and one.bound == other.bound
        assert (one.proof.open > 0) == (one.bound < SPAN) == (nodes < NODES)
    assert shop.optimum(nodes=5_000, threads=3, limit=SPAN, start=range(20)).proof[0] == 5_000  # type: ignore[index]


def test_pairs_of_machines_raise_the_bound() -> None:
    """Before the first node, to their bound."""
    chance = np.random.default_rng(1)
    is_raised = 0
    for _ in range(60):
        sizes = chance.uniform(0.3, 3, (int(chance.integers(2, 12)), 1))
        shop = pfs.Instance((sizes * chance.uniform(10, 40, (len(sizes), int(chance.integers(2, 6))))).astype(int))
        bound = shop.optimum(nodes=0, start=shop.neh()).bound
        assert shop.bound() <= bound == shop.bound("pairs") <= shop.optimum(60).makespan
        is_raised += shop.bound() < bound
    assert is_raised > 30


def test_without_a_proof_nothing_is_optimal_but_at_the_bound() -> None:
    shop = pfs.Instance([[1, 4, 0], [2, 0, 3], [3, 3, 5], [3, 1, 0]])
    least = shop.optimum().makespan
    assert shop.optimum().optimal and not shop.optimum(0).optimal
    found = shop.solve(100, target=least)
    assert found.makespan == least > shop.bound() == found.bound and not found.optimal
    at_bound = pfs.Instance([[3, 2], [2, 5], [4, 1]]).solve(10)
    assert (at_bound.optimal, at_bound.bound) == (True, at_bound.makespan)
    assert pfs.Instance([[3, 2], [2, 5], [4, 1]]).optimum().rounds == 0, "NEH's order has the bound"
    unchecked = pfs.Solution([0, 1], 0)
    assert not unchecked.optimal and not copy.copy(unchecked).optimal and unchecked.bound == 0, "no bound is known"
    assert pfs.Instance([[0], [0]]).neh().bound == 0 and pfs.Instance([[0], [0]]).solve(1).optimal, "the bound is 0"
    for name in ("makespan", "cells", "machines", "rounds", "seed"):
        with pytest.raises(ValueError, match=f"^{name} must be from 0 to"):
            pfs.Solution([0, 1], **{"makespan": 7, name: -1})


def test_a_search_is_between_two_proofs(monkeypatch: pytest.MonkeyPatch) -> None:
    """The first one is short, and may be all; the last one is told how many seconds are left."""
    shop, stop = pfs.taillard(1), threading.Event()
    optimum = mock.Mock(return_value=types.SimpleNamespace(optimal=False))
    monkeypatch.setattr(pfs.Instance, "optimum", optimum)
    monkeypatch.setattr(_proof, "proved", lambda proof, seconds, is_stopped: (proof.best.rounds, seconds, is_stopped()))
    monkeypatch.setattr(_proof, "time", types.SimpleNamespace(monotonic=itertools.count(7, 2.5).__next__))

    def found(start: Any, **more: Any) -> Any:
        search = _search.Search(shop, start, 0, None, 0, 0)
        return _proof.solve_and_prove(search, 3, None, None, stop=stop, prove=4, **more)

    assert found(None, watch=lambda left: left) == (3, 4, 1.5) and not optimum.called
    stop.set()
    assert found(None) == (0, 4, True)
    assert found(range(20), early=0.5) == (0, 4, True)
    optimum.assert_called_once_with(0.5, start=mock.ANY, stop=stop)
    assert [*optimum.call_args.kwargs["start"]] == [*range(20)]
    optimum.side_effect = MemoryError
    assert found(None, early=0.5) == (0, 4, True) and optimum.call_args.kwargs["start"] is None
    optimum.side_effect = None
    optimum.return_value.optimal = True
    assert found(None, early=0.5) is optimum.return_value


def test_what_is_proved_stays_with_the_solution() -> None:
    """It is no part of comparisons, as time decides how far a proof comes."""
    shop = pfs.taillard(1)
    best, other = shop.solve(200, prove=60), shop.solve(200)
    assert best.optimal and not other.optimal and best == other
    for same in (pickle.loads(pickle.dumps(best)), copy.copy(best)):
        assert (same, same.bound, same.optimal, same.proof) == (best, best.bound, True, best.proof)
    assert best.proof is not None and best.proof.open == 0 and other.proof is None
    with pytest.raises(ValueError, match="read-only"):
        shop.solve(0, start=range(20), prove=60).order[0] = 1


def nodes_asked(monkeypatch: pytest.MonkeyPatch, refused: int | None = None) -> list[int]:
    """The nodes of each call of the library from now on. The one of a number has no memory."""
    asked, real = list[int](), _library.library.pfs_prove_parts

    def noting(*given: Any) -> int:
        asked.append(given[-1]._obj.nodes)
        return _library.MEMORY if len(asked) == refused else int(real(*given))

    monkeypatch.setattr(_library.library, "pfs_prove_parts", noting)
    return asked


@pytest.mark.parametrize(("jobs", "machines", "is_tried"), [
    (256, 2, True), (257, 2, False), (2, 64, True), (2, 65, False)])
def test_the_limits_of_size(monkeypatch: pytest.MonkeyPatch, jobs: int, machines: int, is_tried: bool) -> None:
    """Beyond them the bound stays that of the instance."""
    asked = nodes_asked(monkeypatch)
    shop = pfs.generate(jobs, machines, 1)
    worst = max((shop.solve(0, start=order) for order in (range(jobs), range(jobs)[::-1])), key=lambda at: at.makespan)
    assert worst.makespan > shop.bound()
    best = shop.optimum(5, start=worst)
    assert (len(asked) > 0) == is_tried
    assert best.bound >= shop.bound() and (is_tried or (best.bound, best.makespan) == (shop.bound(), worst.makespan))


def test_it_ends_by_its_limit(monkeypatch: pytest.MonkeyPatch) -> None:
    """After calls that are about as long as each other."""
    asked = nodes_asked(monkeypatch)
    shop = pfs.taillard(HARD)
    begun = time.monotonic()
    best = shop.optimum(1, start=shop.neh())
    assert time.monotonic() - begun < 4 and not best.optimal
    assert shop.bound() <= best.bound < best.makespan == shop.makespan(best)
    assert len(asked) > 5 and asked[0] == _proof.FIRST and max(asked) < sum(asked) / 3
    assert best.proof and best.proof.open > 1 and 0 < best.proof.share < 1 and 0 < best.proof.seconds < 4
    asked.clear()
    assert shop.solve(5, prove=0).bound == shop.solve(5, prove=None).bound == shop.bound() and not asked
    assert shop.optimum(0).bound == shop.bound() and not asked


def test_without_a_limit_it_ends_when_it_is_proved() -> None:
    for words in ({"seconds": math.inf}, {"seconds": math.inf, "nodes": 10**9}, {"nodes": 2**64 - 1}):
        assert pfs.taillard(1).optimum(**words).optimal, words  # type: ignore[arg-type]
    assert pfs.taillard(1).optimum(0, nodes=10**6).proof == (0, 0, 1, 1)


def test_an_event_ends_it_and_one_that_is_set_before_it_begins() -> None:
    shop, stop = pfs.taillard(HARD), threading.Event()
    timer = threading.Timer(0.5, stop.set)
    timer.start()
    begun = time.monotonic()
    best = shop.optimum(120, stop=stop)
    assert 0.4 < time.monotonic() - begun < 10 and best.bound >= shop.bound() and not best.optimal
    assert shop.optimum(120, stop=stop).makespan == shop.neh().makespan
    timer.join()


def test_an_interruption_has_the_best_order_so_far() -> None:
    shop = pfs.taillard(HARD)
    timer = threading.Timer(1, os.kill, (os.getpid(), signal.SIGINT))
    timer.start()
    begun = time.monotonic()
    with pytest.raises(pfs.Interrupted) as stop:
        shop.solve(5, prove=120)
    assert time.monotonic() - begun < 10
    best = stop.value.solution
    assert best.makespan == shop.makespan(best) <= shop.solve(5).makespan and best.rounds == 5
    timer.join()


@pytest.mark.parametrize(("call", "threads"), [(1, 1), (3, 1), (5, 3)])
def test_memory_that_runs_out_loses_nothing(monkeypatch: pytest.MonkeyPatch, call: int, threads: int) -> None:
    """Also if it is refused to one thread of several."""
    nodes_asked(monkeypatch, refused=call)
    shop = pfs.taillard(HARD)
    with pytest.raises(MemoryError, match="memory allocation failed") as stop:
        shop.optimum(60, start=shop.neh(), threads=threads)
    best = getattr(stop.value, "solution", None)
    assert best is not None and best.makespan == shop.makespan(best) <= shop.neh().makespan
    assert best.proof.open > 0 and best.bound <= best.makespan
    monkeypatch.setattr(_proof, "Caller", mock.Mock(side_effect=MemoryError("no room")))
    with pytest.raises(MemoryError, match="no room"):
        shop.solve(1, prove=60)


def test_an_error_in_one_thread_ends_all(monkeypatch: pytest.MonkeyPatch) -> None:
    real, turns = _proof.Proof.keep, itertools.count()

    def keep(*given: Any) -> None:
        if next(turns) == 7:
            raise RuntimeError("of a thread")
        real(*given)

    monkeypatch.setattr(_proof.Proof, "keep", keep)
    with pytest.raises(RuntimeError, match="of a thread") as stop:
        pfs.taillard(HARD).optimum(60, threads=4)
    assert stop.value.solution.proof.open > 0  # type: ignore[attr-defined]


def test_threads_that_the_system_refuses(monkeypatch: pytest.MonkeyPatch) -> None:
    """With some the proof is made, with none nothing is proved."""
    shop, real, turns = pfs.taillard(2), threading.Thread.start, itertools.count()

    def start(thread: threading.Thread) -> None:
        if next(turns) >= allowed:
            raise RuntimeError("can't start new thread")
        real(thread)

    monkeypatch.setattr(threading.Thread, "start", start)
    allowed = 0
    best = shop.solve(1000, prove=60)
    assert (best, best.bound, best.optimal) == (shop.solve(1000), shop.bound("pairs"), False)
    allowed, turns = 2, itertools.count()
    assert shop.optimum(60, threads=5).optimal


@pytest.mark.parametrize("threads", [64, 1000])
def test_more_threads_than_parts(threads: int) -> None:
    assert pfs.Instance([[3, 2], [2, 5], [4, 1]]).optimum(60, start=[2, 1, 0], threads=threads).optimal
    assert pfs.taillard(1).optimum(60, threads=threads).optimal


def test_the_same_instance_in_proofs_at_once() -> None:
    shop, found = pfs.taillard(11), list[int]()

    def prove() -> None:
        best = shop.optimum(600, limit=SPAN, start=range(20), threads=2)
        found.append(best.proof.nodes if best.proof else 0)

    threads = [threading.Thread(target=prove) for _ in range(3)]
    for thread in threads:
        thread.start()
    for thread in threads:
        thread.join()
    assert found == [NODES] * 3


@given(plainly.shops_and_orders(), st.integers(0, 60), st.integers(2, 4))
def test_threads_use_their_nodes_up(case: tuple[plainly.Table, list[int]], nodes: int, threads: int) -> None:
    """Unless nothing is left: nodes that one thread had asked for and doesn't need are another one's."""
    shop = pfs.Instance(case[0])
    with pytest.MonkeyPatch.context() as patch:
        cut(patch, 7, 2, 20)
        proof = shop.optimum(nodes=nodes, start=case[1], threads=threads).proof
    assert proof is not None and (proof.nodes == nodes or proof.nodes < nodes and proof.open == 0)


def test_a_step_between_two_threads_is_not_lost(monkeypatch: pytest.MonkeyPatch) -> None:
    """The main thread looks while a thread takes a step."""
    class Slow(set[_proof.Step]):
        def add(self, step: _proof.Step) -> None:
            time.sleep(0.05)
            super().add(step)

    cut(monkeypatch, 5, 4, 100)
    monkeypatch.setattr(_proof, "LOOK", 0.001)
    shop = pfs.taillard(2)
    proof = _proof.Proof(shop, shop.neh())
    proof.running = Slow()
    assert _proof.proved(proof, 60, bool, threads=2).optimal
