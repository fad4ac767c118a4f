"""Searches of many instances with many seeds, in threads."""
from __future__ import annotations

import copy
import os
import signal
import threading
from collections.abc import Callable, Collection, Iterable, Mapping
from concurrent.futures import Future, ThreadPoolExecutor, as_completed
from typing import Any, TypeAlias

from pfs.binding import library as c
from pfs.binding.validate import checked_int, checked_order
from pfs.shops.instance import Instance
from pfs.shops.proof import solve_and_prove
from pfs.shops.search import Limits, Search, is_true, limit_of
from pfs.shops.solution import InterruptedAll, Solution, as_order

MOST_WORKERS = 1_000

# The index of an instance, and a seed.
Key: TypeAlias = tuple[int, int]
Found: TypeAlias = dict[Key, Solution]


class Task:
    """A search, or the rest of it after a solution in `found`, where it also puts its best solution."""

    def __init__(self, shop: Instance, key: Key, rounds: int | None, options: dict[str, Any], found: Found) -> None:
        self.key, self.rounds, self.options, self.found = key, rounds, options, found
        self.before = found.get(key)
        first = self.before.rounds if self.before else 0
        self.search = search_of(shop, self.before, first, key[1], options)

    def is_done(self) -> bool:
        """Whether no rounds are left. A search by time isn't continued, so it is done as soon as it has a solution."""
        if self.before is None:
            return False
        target = self.options["target"]
        is_good = target is not None and self.before.makespan <= target
        return is_good or self.rounds is None or self.rounds <= self.before.rounds

    def run(self, stop: threading.Event) -> None:
        """Run the search. One that would begin after the stop, or one by time that is stopped, has no solution."""
        if stop.is_set():
            return
        left = None if self.rounds is None else self.rounds - self.search.first
        try:
            best = solve_and_prove(self.search, left, None if left is None else self.keep_so_far,
                                   self.options["time_limit"], self.options["target"], stop,
                                   prove=self.options["prove"] or 0.0)
        except Exception as error:
            if (found := getattr(error, "solution", None)) is not None and left is not None:
                self.keep(found)
            raise
        if left is not None or not stop.is_set():
            self.keep(best)

    def keep_so_far(self, *_: int) -> None:
        self.keep(self.search.solution())

    def keep(self, best: Solution) -> None:
        """Keep the best solution so far, with the cells of all calls."""
        best = copy.copy(best)
        best.cells += self.before.cells if self.before else 0
        self.found[self.key] = best


def search_of(shop: Instance, before: Solution | None, first: int, seed: int, options: dict[str, Any]) -> Search:
    """Return a search with these options."""
    more = {name: options[name] for name in ("method", "partial", "ties", "temperature")}
    return Search(shop, before, first, options["take"], options["passes"], seed, **more)


def solve_all(instances: Iterable[Instance], seeds: Iterable[int] = (0,), rounds: int | None = None, *,
              method: str = "solve", take: int | None = None, passes: int | None = None, partial: int | None = None,
              ties: str | None = None, temperature: float | None = None, time_limit: float | None = None,
              target: int | None = None, prove: float | None = None, workers: int | None = None,
              found: Mapping[Key, Solution] | None = None, progress: Callable[[int, int], Any] | None = None) -> Found:
    """Run a search for each instance and seed, in parallel threads.

    Parameters
    ----------
    instances : iterable of Instance
        The instances, at least one.
    seeds : iterable of int
        The seeds, at least one. They are distinct and have 64 bits.
    rounds, method, take, passes, partial, ties, temperature, time_limit, target, prove : optional
        The options of each search, as for :meth:`pfs.Instance.solve`. A proof that was interrupted isn't continued.
    workers : int, optional
        The number of threads, 1 to 1,000 (default: one for each processor).
    found : dict, optional
        The result of an earlier call. Finished searches aren't repeated, and unfinished ones continue.
    progress : callable, optional
        A function that is called after each search with the number of finished searches and the number of all searches.
        If it returns True, no more searches are started, and the results so far are returned.

    Returns
    -------
    dict
        The solution for each key ``(i, seed)``, where ``i`` is the index of an instance. It is the solution that
        ``solve`` with these options returns.

    Raises
    ------
    TypeError, ValueError
        If an argument is of the wrong type or out of range, or ``found`` has a solution of another search. All
        arguments are checked before the first search.
    InterruptedAll
        After Ctrl-C. It is a ``KeyboardInterrupt``, and its ``found`` contains the finished searches, and the
        unfinished ones with a number of rounds. The same call with ``found=stop.found`` continues them and returns the
        same result as without the interruption.
    Exception
        If a search or ``progress`` raises it, such as MemoryError. It has the attribute ``found`` too.

    Examples
    --------
    >>> found = pfs.solve_all([pfs.taillard(1), pfs.taillard(2)], seeds=[1, 2], rounds=100, workers=2)
    >>> {key: best.makespan for key, best in found.items()}
    {(0, 1): 1278, (0, 2): 1286, (1, 1): 1365, (1, 2): 1365}
    """
    options = {"method": method, "take": take, "passes": passes, "partial": partial, "ties": ties,
               "temperature": temperature, "time_limit": time_limit, "target": target,
               "prove": limit_of(prove, "prove")}
    best = dict(found or {})
    stop = threading.Event()
    try:
        try:
            tasks = tasks_of(instances, seeds, rounds, options, best)
            available = min(MOST_WORKERS, len(os.sched_getaffinity(0)))
            count = available if workers is None else checked_int(workers, "workers", 1, MOST_WORKERS)
            if progress is not None and not callable(progress):
                raise TypeError(f"progress must be callable, not {progress!r}")
            run(tasks, count, progress, stop)
        finally:
            # A second Ctrl-C may come before `run` sets it.
            stop.set()
        return {task.key: best[task.key] for task in tasks if task.key in best}
    except KeyboardInterrupt:
        raise InterruptedAll(dict(best)) from None
    except BaseException as error:
        error.found = dict(best)  # type: ignore[attr-defined]
        raise


def tasks_of(instances: Iterable[Instance], seeds: Iterable[int], rounds: int | None, options: dict[str, Any],
             found: Found) -> list[Task]:
    """Return all searches. Their options are validated here, before any search starts."""
    shops = list(instances)
    for place, shop in enumerate(shops):
        if not isinstance(shop, Instance):
            raise TypeError(f"instances: {shop!r} at place {place} isn't an Instance")
    own = [checked_int(seed, "seed", 0, c.MOST_SEED) for seed in seeds]
    if not shops or not own:
        raise ValueError(f"{len(shops)} instances and {len(own)} seeds: at least one of each is needed")
    if len(set(own)) < len(own):
        raise ValueError(f"seeds: {next(seed for seed in own if own.count(seed) > 1)} occurs twice")
    tasks: list[Task] = []
    for place, shop in enumerate(shops):
        limits = Limits(search_of(shop, None, 0, 0, options), rounds, options["time_limit"], options["target"], None)
        for seed in own:
            check_solution(shop, found.get((place, seed)), limits.rounds, seed)
            tasks.append(Task(shop, (place, seed), limits.rounds, options, found))
    other = next(iter(found.keys() - {task.key for task in tasks}), None)
    if other is not None:
        raise ValueError(f"found: {other!r} isn't the index of an instance and a seed of this call")
    return tasks


def check_solution(shop: Instance, before: Solution | None, rounds: int | None, seed: int) -> None:
    """Raise an error unless a solution of an earlier call belongs to this search."""
    if before is None:
        return
    if not isinstance(before, Solution):
        raise TypeError(f"found must contain solutions, not {before!r}")
    checked_order(as_order(before, shop, "found"), shop.jobs, "found")
    if shop.makespan(before.order) != before.makespan:
        raise ValueError(f"found: a solution for {shop!r} has the wrong makespan: it belongs to another instance")
    # A search by time goes on with other seeds.
    if rounds is not None and (before.seed != seed or before.rounds > rounds):
        raise ValueError(f"found: a solution for {shop!r} has {before.rounds:,} rounds of seed {before.seed}, and the "
                         f"search {rounds:,} of seed {seed}")


def run(tasks: Collection[Task], workers: int, progress: Callable[[int, int], Any] | None,
        stop: threading.Event) -> None:
    """Run the searches that are left. Threads are enough, since the library runs without the GIL. Ctrl-C reaches the
    main thread alone. A second one ends the wait for the last searches."""
    left = [task for task in tasks if not task.is_done()]
    pool = ThreadPoolExecutor(workers)
    try:
        searches = as_completed(submitted(pool, left, stop))
        for number, search in enumerate(searches, len(tasks) - len(left) + 1):
            search.result()
            if progress is not None and is_true(progress(number, len(tasks))):
                break
    finally:
        stop.set()
        pool.shutdown()


def submitted(pool: ThreadPoolExecutor, tasks: Iterable[Task], stop: threading.Event) -> list[Future[None]]:
    """Start searches. Ctrl-C waits until all threads have started, so that each can be joined."""
    mask = signal.pthread_sigmask(signal.SIG_BLOCK, [])
    try:
        signal.pthread_sigmask(signal.SIG_BLOCK, [signal.SIGINT])
        return [pool.submit(task.run, stop) for task in tasks]
    finally:
        signal.pthread_sigmask(signal.SIG_SETMASK, mask)
