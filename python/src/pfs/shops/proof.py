"""Proofs that an order is optimal, by the library's branch and bound. What a call leaves is a list of parts, so a proof
is made in many short calls and in threads, ends at once, and can be continued later."""
from __future__ import annotations

import contextlib
import copy
import itertools
import math
import operator
import threading
import time
from collections.abc import Callable, Iterable, Iterator
from ctypes import byref
from typing import TYPE_CHECKING, Any, NamedTuple

import numpy as np

from pfs.binding import library as c
from pfs.shops.search import Progress, Search, solve, stop_of
from pfs.shops.solution import Interrupted, Proved, Solution

if TYPE_CHECKING:
    from pfs.shops.instance import Instance

# The greatest instances for which the library tries it.
MOST_JOBS, MOST_MACHINES = 256, 64
# For how many seconds a proof is tried before the search of a plan.
EARLY = 0.1
# How long a call takes and how often it is looked at, in seconds. The nodes of the first call, and how many times as
# many the next one may have.
CALL, LOOK, FIRST, MORE = 0.05, 0.02, 256, 4
# The most parts of a call.
MOST_PARTS = 256
# The nodes after which a step ends.
GRAIN = 1_000_000
MOST = 2**64 - 1
# What a row has for each job between the first and the last ones.
OPEN = b"\xff\xff\xff\xff"


def is_small(shop: Instance) -> bool:
    """Whether a proof can be tried."""
    return shop.jobs <= MOST_JOBS and shop.machines <= MOST_MACHINES


class Part(NamedTuple):
    """The orders that begin with some jobs and end with some, as a row of the library, and a bound of them."""

    row: bytes
    bound: int

    def gap(self) -> tuple[int, int]:
        """Where the jobs between the first and the last ones begin and end in the row. An order of all jobs has only
        first ones."""
        first, last = self.row.find(OPEN), self.row.rfind(OPEN)
        return (len(self.row), len(self.row)) if first < 0 else (first, (last + 4) // 4 * 4)

    def ends(self) -> tuple[list[int], list[int]]:
        """The first jobs and the last ones."""
        jobs: list[int] = np.frombuffer(self.row, dtype=np.uint32).tolist()
        first, last = self.gap()
        return jobs[:first // 4], jobs[last // 4:]

    def placed(self) -> int:
        """How many jobs have a place."""
        first, last = self.gap()
        return (len(self.row) - last + first) // 4

    def has(self, other: Part) -> bool:
        """Whether the orders of another part are orders of this one."""
        first, last = self.gap()
        return self.row[:first] == other.row[:first] and self.row[last:] == other.row[last:]


def part_of(jobs: int, first: Iterable[int] = (), last: Iterable[int] = (), bound: int = 0) -> Part:
    """Return the part of the orders that begin and end with some jobs."""
    front, back = np.array([*first], dtype=np.uint32).tobytes(), np.array([*last], dtype=np.uint32).tobytes()
    return Part(front + OPEN * (jobs - (len(front) + len(back)) // 4) + back, bound)


class Step:
    """A search of parts, one after the other, with a number of nodes: those that it has begun with (`done`) and has not
    (`rest`), and what is left of the former, which is to be searched first (`left`). What it has left when it ends is
    searched by the steps `more`."""

    def __init__(self, parent: Step | None, rest: list[Part]) -> None:
        self.parent, self.rest, self.nodes = parent, rest, 0
        self.done: list[Part] = []
        self.left: list[Part] = []
        self.more: list[Step] = []
        self.goal = MOST

    def is_closed(self) -> bool:
        return not (self.left or self.rest or self.more)

    def all(self) -> Iterator[Step]:
        """This step, and those that search what it has left, each before those of what it has left itself."""
        steps = [self]
        while steps:
            yield (step := steps.pop())
            steps += reversed(step.more)

    def drop(self, goal: int) -> None:
        """Leave out the parts that can't have an order below a number, unless that was done."""
        if goal < self.goal:
            self.left = [part for part in self.left if part.bound < goal]
            self.rest = [part for part in self.rest if part.bound < goal]
            self.goal = goal

    def advance(self, reached: int, left: list[Part], nodes: int) -> None:
        """Replace the parts that a call has reached by what it has left of them."""
        old = max(0, reached - len(self.left))
        self.left = left + self.left[reached:]
        self.done, self.rest, self.nodes = self.done + self.rest[:old], self.rest[old:], self.nodes + nodes

    def end(self, count: int) -> list[Step]:
        """End it, and return the steps that search what is left: up to `count` of each list, the next one last."""
        assert self.parent is not None
        made: list[Step] = []
        for parent, parts in ((self.parent, self.rest), (self, self.left)):
            new = [Step(parent, parts[at::count]) for at in range(min(count, len(parts)))]
            parent.more += new
            made += reversed(new)
        self.left, self.rest = [], []
        if not self.done:
            self.parent.more.remove(self)
        return made

    def fold(self, most: int) -> None:
        """Make one step of closed ones that search what this one has left, and one of this one and all of these, as
        long as it has at most `most` nodes."""
        last: Step | None = None
        for step in [*self.more]:
            if step.is_closed() and self.parent:
                if last is not None and last.nodes + step.nodes <= most:
                    last.done, last.nodes = last.done + step.done, last.nodes + step.nodes
                    self.more.remove(step)
                else:
                    last = step
        nodes = self.nodes + sum(step.nodes for step in self.more)
        if self.parent and nodes <= most and all(step.is_closed() for step in self.more):
            self.nodes, self.more = nodes, []
            self.parent.fold(most)


class Found(NamedTuple):
    """What a call has found: the best order with its makespan, the nodes that it took, how many parts it has reached,
    and what it has left of these."""

    order: bytes
    makespan: int
    nodes: int
    reached: int
    left: list[Part]


class Caller:
    """Calls of the library with up to `most` parts, with the room for what they leave, and the nodes of the next."""

    def __init__(self, shop: Instance, most: int = 0) -> None:
        self.shop, self.nodes = shop, FIRST
        count = max(most, MOST_PARTS) + shop.jobs * (shop.jobs + 1) // 2
        self.rows, self.bounds = np.empty((count, shop.jobs), dtype=np.uint32), np.empty(count, dtype=np.uint64)

    def call(self, parts: list[Part], order: bytes, limit: int, nodes: int) -> Found:
        """Search parts from an order on."""
        rows, best = self.rows, np.frombuffer(bytearray(order), dtype=np.uint32)
        rows[:len(parts)] = np.frombuffer(b"".join(part.row for part in parts), dtype=np.uint32).reshape(len(parts), -1)
        proof = c.Proof(limit, nodes, len(parts))
        c.done(self.shop._call("pfs_prove_parts", best.ctypes.data, best.size, rows.ctypes.data, rows.size,
                               self.bounds.ctypes.data, self.bounds.size, byref(proof)))
        data, width = rows[:proof.count].tobytes(), len(order)
        left = [Part(data[at * width:(at + 1) * width], bound)
                for at, bound in enumerate(self.bounds[:proof.count].tolist())]
        # The parts that it hasn't reached are the last ones.
        reached = len(parts)
        while reached and left and left[-1].row == parts[reached - 1].row:
            reached -= 1
            left.pop()
        return Found(best.tobytes(), proof.makespan, nodes - proof.left, reached, left)

    def search(self, parts: list[Part], order: bytes, limit: int, nodes: int) -> Found:
        """Search parts whose bounds are below the makespan of the order and the limit. What is searched doesn't depend
        on where calls end: if the order that is found closes a part that the library has searched, as it doesn't know
        its bound, the call is made again without it."""
        begun, used = time.monotonic(), time.thread_time()
        found = self.call(parts, order, limit, nodes)
        # On a busy machine a call is longer, as its start takes a part of it.
        took = min(time.monotonic() - begun, 4 * (time.thread_time() - used))
        if found.nodes == nodes:
            fitting = int(nodes * CALL / max(took, 1e-9))
            self.nodes = max(1, fitting) if took > CALL else max(self.nodes, min(MORE * nodes, fitting))
        closed = [at for at, part in enumerate(parts[:found.reached]) if at and part.bound >= found.makespan]
        return self.call(parts[:closed[0]], order, limit, nodes) if closed else found


class Proof:
    """A search for the shortest order and a proof of it, from an order on, or, with a `limit`, for orders below it.
    `best` is the best order so far. `root` has the steps, some of which threads search while others wait."""

    def __init__(self, shop: Instance, best: Solution, limit: int | None = None) -> None:
        self.shop, self.start, self.best, self.limit = shop, best, best, MOST if limit is None else limit
        self.floor, self.nodes, self.seconds = best.bound, 0, 0.0
        self.root, self.grain = Step(None, []), GRAIN
        self.root.more = [Step(self.root, [part_of(shop.jobs)])]
        self.lock, self.budget, self.is_stopped = threading.Condition(), MOST, False
        self.waiting, self.running, self.idle = list[Step](), set[Step](), 0
        self.error: BaseException | None = None

    @property
    def goal(self) -> int:
        """Only orders below it are searched for."""
        return min(self.best.makespan, self.limit)

    def open(self) -> list[Part]:
        """What is left to be searched."""
        parts = (part for step in self.root.all() for part in (*step.left, *step.rest))
        return [part for part in parts if part.bound < self.goal] if self.floor < self.goal else []

    def found(self) -> Solution:
        """Return the best order, with what is proved."""
        with self.lock:
            best, parts = copy.copy(self.best), self.open()
            best.bound = max(self.floor, min([self.goal, *(part.bound for part in parts)]))
            best.proof = Proved(self.nodes, self.seconds, len(parts), share_of(parts, self.shop.jobs))
        return best

    def run(self, seconds: float, is_stopped: Callable[[], bool], nodes: int | None = None, threads: int = 1,
            save: Callable[[bool], object] | None = None) -> None:
        """Search until it is proved, for at most some seconds and nodes. `save` is called now and then."""
        end = time.monotonic() + seconds
        if not is_small(self.shop) or seconds <= 0 or self.floor >= self.goal or is_stopped():
            return
        self.floor = max(self.floor, self.shop.bound("pairs"))
        self.budget, self.is_stopped, self.error = MOST if nodes is None else nodes, nodes == 0, None
        self.waiting = [step for step in self.root.all() if step.left or step.rest][::-1]
        begun = list[threading.Thread]()
        try:
            with contextlib.suppress(RuntimeError):  # the system has no more threads
                for _ in range(threads if self.is_busy() else 0):
                    worker = threading.Thread(target=self.work)
                    worker.start()
                    begun.append(worker)
            while begun and self.is_busy() and not is_stopped() and time.monotonic() < end:
                if save is not None:
                    save(False)
                with self.lock:
                    if self.is_busy():
                        self.lock.wait(LOOK)
        finally:
            self.stop()
            for worker in begun:
                worker.join()
            self.running.clear()
            for step in [*self.root.all()]:
                if step.left or step.done and step.rest:
                    step.end(1)
        if self.error is not None:
            raise self.error

    def is_busy(self) -> bool:
        with self.lock:
            is_open = not self.is_stopped and self.floor < self.goal
            return is_open and bool(self.running or self.waiting and self.budget)

    def stop(self, error: BaseException | None = None) -> None:
        """Let each thread end after its call."""
        with self.lock:
            self.is_stopped, self.error = True, self.error or error
            self.lock.notify_all()

    def work(self) -> None:
        """Search steps until none is left. An error ends all threads; what they search then stays open."""
        try:
            caller = Caller(self.shop)
            while (step := self.take()) is not None:
                while self.goes_on(step, caller):
                    pass
        except BaseException as error:
            self.stop(error)

    def take(self) -> Step | None:
        """Wait for a step, and return it; None if there is none left or the search has to end."""
        with self.lock:
            self.idle += 1
            while self.is_busy() and not (self.waiting and self.budget):
                self.lock.wait()
            self.idle -= 1
            if not self.is_busy():
                self.lock.notify_all()
                return None
            self.running.add(step := self.waiting.pop())
            return step

    def goes_on(self, step: Step, caller: Caller) -> bool:
        """Make a call for a step, and return whether the step continues."""
        with self.lock:
            best = self.best
            step.drop(self.goal)
            nodes = min(max(1, caller.nodes // (8 if self.is_short() else 1)), self.budget, GRAIN - step.nodes)
            parts = (step.left + step.rest)[:MOST_PARTS]
            if not parts or not nodes:
                return self.is_kept(step)
            self.budget -= nodes
        begun = time.thread_time()
        found = caller.search(parts, best.order.astype(np.uint32).tobytes(), self.limit, nodes)
        with self.lock:
            self.seconds += time.thread_time() - begun
            self.budget += nodes - found.nodes
            self.keep(step, found)
            return self.is_kept(step)

    def is_kept(self, step: Step) -> bool:
        """Whether a thread continues a step. Else the step waits for nodes that other threads don't need, or it ends,
        and what is left of it waits."""
        count, is_shared = len(step.left) + len(step.rest), self.is_short()
        is_begun = count > 0 and step.nodes < GRAIN and not (is_shared and count > 1)
        if is_begun and self.budget and not self.is_stopped:
            return True
        self.running.remove(step)
        if is_begun or self.is_stopped:
            self.waiting.append(step)
        else:
            self.waiting += step.end(1 + self.idle if is_shared else 1)
            if step.parent:
                step.parent.fold(self.grain)
        self.lock.notify_all()
        return False

    def deal(self, count: int) -> list[Proof]:
        """Return proofs of what is open: up to a number of shares."""
        shares, turn = [Proof(self.shop, self.best, self.limit) for _ in range(count)], itertools.cycle(range(count))
        for share in shares:
            share.root.more = []
        for step in self.root.all():
            dealt: dict[int, list[Part]] = {}
            for part in step.rest:
                if part.bound < self.goal:
                    dealt.setdefault(next(turn), []).append(part)
            for at, parts in dealt.items():
                shares[at].root.more.append(Step(shares[at].root, parts))
        return [share for share in shares if share.root.more]

    def merge(self, share: Proof) -> None:
        """Take over what has become of a share of what is open. What isn't open any more is left out."""
        if share.best.makespan < self.best.makespan:
            self.best = share.best
        self.seconds += share.seconds
        for step in [*share.root.more]:
            rows = {part.row for part in (*step.done, *step.rest)}
            own = next((own for own in self.root.all() if rows <= {part.row for part in own.rest}), None)
            if own is None or own.parent is None:
                continue
            own.rest = [part for part in own.rest if part.row not in rows]
            step.parent, parent = own.parent, own.parent
            parent.more.append(step)
            if not own.rest:
                parent.more.remove(own)
            self.nodes += sum(each.nodes for each in step.all())
        for step in reversed([*self.root.all()]):
            step.fold(self.grain)

    def coarsen(self) -> None:
        """Let steps that are closed have more nodes, so that there are fewer."""
        with self.lock:
            self.grain *= 16
            for step in reversed([*self.root.all()]):
                step.fold(self.grain)

    def is_short(self) -> bool:
        """Whether a thread has nothing to search."""
        return self.idle > len(self.waiting)

    def keep(self, step: Step, found: Found) -> None:
        """Keep what a call has found, its order first."""
        if found.makespan < self.best.makespan:
            best = copy.copy(self.best)
            best.order = np.frombuffer(found.order, dtype=np.uint32).astype(np.int64)
            best.order.setflags(write=False)
            best.makespan, self.best = found.makespan, best
        self.nodes += found.nodes
        step.advance(found.reached, found.left, found.nodes)
        step.drop(self.goal)


def share_of(parts: Iterable[Part], jobs: int) -> float:
    """Return the share of all orders that are in parts.

    >>> share_of([part_of(4, [0, 2], [3]), part_of(4, [1])], 4)
    0.2916666666666667
    """
    shares = [1.0, *itertools.accumulate((1 / (jobs - placed) for placed in range(jobs)), operator.mul)]
    return math.fsum(shares[part.placed()] for part in parts)


def solve_and_prove(search: Search, rounds: int | None, progress: Progress | None, time_limit: Any,
                    target: int | None = None, stop: Any = None, history: bool = False, *, early: float = 0.0,
                    prove: float = 0.0, watch: Callable[[float], bool] | None = None) -> Solution:
    """Run a search, and then try for `prove` seconds to prove that its order is optimal. Before, try for `early`
    seconds to find and prove an optimal order, as is possible at once for many small instances. `watch`, by default
    `stop`, says whether the proof has to end, from the seconds that are left."""
    if early:
        with contextlib.suppress(MemoryError):
            start = None if search.start is None else memoryview(search.start).cast("I")
            best = search.shop.optimum(early, start=start, stop=stop)
            if best.optimal:
                return best
    best = solve(search, rounds, progress, time_limit, target, stop, history)
    if not prove:
        return best
    end, is_stopped = time.monotonic() + prove, stop_of(stop)
    return proved(Proof(search.shop, best), prove, lambda: watch(end - time.monotonic()) if watch else is_stopped())


def proved(proof: Proof, seconds: float, is_stopped: Callable[[], bool], nodes: int | None = None, threads: int = 1,
           save: Callable[[bool], object] | None = None) -> Solution:
    """Return the best order, with the bound that could be proved. Every exception has it in its attribute
    `solution`."""
    try:
        try:
            proof.run(seconds, is_stopped, nodes, threads, save)
        finally:
            if save is not None:
                save(True)
    except KeyboardInterrupt:
        raise Interrupted(proof.found()) from None
    except BaseException as error:
        error.solution = proof.found()  # type: ignore[attr-defined]
        raise
    return proof.found()
