"""Searches in parts. Between two parts they report their progress and can be interrupted."""
from __future__ import annotations

import time
from collections.abc import Callable, Collection, Sequence
from ctypes import byref, c_uint64
from typing import TYPE_CHECKING, Any, Protocol, TypeAlias

import numpy as np

from pfs.binding import library as c
from pfs.binding.rounds import MOST_TEMPERATURE, TIES, USUAL, Iterating, Pace, Part, Rounds, iterating
from pfs.binding.validate import BOOLS, as_uint32_bytes, checked_int, checked_order, jobs_error
from pfs.shops.solution import Improvement, Interrupted, Jobs, Solution, as_order

if TYPE_CHECKING:
    from pfs.shops.instance import Instance

ROUNDS = 1_000


class Bar(Protocol):
    """A progress bar like `tqdm`."""

    def update(self, n: int = 1) -> Any: ...


class Event(Protocol):
    """An event that ends a search, such as `threading.Event`."""

    def is_set(self) -> bool: ...


# A function of the rounds and the makespan, a progress bar, or the class of one.
Progress: TypeAlias = "Callable[[int, int], Any] | Bar | type[Any]"


def one_of(value: Any, names: Collection[str], what: str) -> str:
    """Return a text that is one of some names."""
    if not isinstance(value, str) or value not in names:
        kind = ValueError if isinstance(value, str) else TypeError
        raise kind(f"{what} must be {' or '.join(map(repr, names))}, not {value!r}")
    return value


def rule_of(ties: str) -> int:
    """Return the number of a rule for equally good places."""
    return TIES[one_of(ties, TIES, "ties")]


def iterating_of(shop: Instance, held: int, stay: bytes, method: str = "solve", ties: str | None = None,
                 temperature: float | None = None, partial: int | None = None) -> Iterating | None:
    """Return the options of rounds that may accept longer orders, or None for rounds of `pfs solve`. While jobs are
    held or stay, these are made with the same options, and accept no longer orders."""
    options = {"ties": ties, "temperature": temperature, "partial": partial}
    given: dict[str, Any] = {name: value for name, value in options.items() if value is not None}
    if method == "solve":
        if given:
            raise ValueError(f"{next(iter(given))} needs method='iterated-greedy'")
        return iterating(0, 1, 0, "first", 0, held, stay) if held or stay else None
    if ties is not None:
        one_of(ties, TIES, "ties")
    if partial is not None:
        given["partial"] = checked_int(partial, "partial", 0, c.MOST_PASSES)
    if temperature is not None:
        given["temperature"] = number_of(temperature, "temperature", 0, MOST_TEMPERATURE)
    return iterating(int(shop.times.sum()), shop.times.size, held=held, stay=stay, **given)


class Search(Rounds):
    """Iterated greedy on an instance, by a method and its options `more`. The jobs `hold` keep the first places, and
    all but the jobs `move` their order. `solution` returns the best order so far, also after an interruption."""

    def __init__(self, shop: Instance, start: Jobs | None, first: int, take: int | None, passes: int | None, seed: int,
                 hold: Jobs = (), move: Jobs | None = None, **more: Any) -> None:
        self.shop = shop
        self.held = [] if isinstance(hold, tuple) and not hold else numbers_of(hold, shop, "hold")
        self.moved = set(range(shop.jobs) if move is None else numbers_of(move, shop, "move")) - set(self.held)
        held, stay = len(self.held), b"" if move is None else bytes(job not in self.moved for job in range(shop.jobs))
        if not self.moved:
            # Behind all others, the last job has only one place.
            held, stay = shop.jobs - 1, b""
        usual = USUAL[one_of(more.get("method", "solve"), USUAL, "method")]
        taken = checked_int(min(usual.take, shop.jobs) if take is None else take, "take", 1, shop.jobs)
        super().__init__(
            lambda *call: c.done(shop._call(*call)), shop.jobs, min(taken, len(self.moved) or 1),
            checked_int(usual.passes if passes is None else passes, "passes", 0, c.MOST_PASSES),
            checked_int(seed, "seed", 0, c.MOST_SEED), checked_int(first, "first", 0, c.MOST_ROUNDS),
            iterating_of(shop, held, stay, **more))
        self.start = None if start is None else checked_order(as_order(start, shop, "start"), shop.jobs, "start",
                                                              shop.job_names)
        current = getattr(start, "current", None) if self.more else None
        self.current = None if current is None else current.astype(np.uint32).tobytes()
        # The improvements so far, if they are recorded.
        self.history: list[Improvement] = []

    def begin(self) -> None:
        """Compute the start order by NEH, or the makespan of the given one. The held jobs come first."""
        if self.held:
            self.start, self.current = self.after_held(self.start), self.current and self.after_held(self.current)
        if self.start and self.current and self.staying(self.current) != self.staying(self.start):
            self.current = None
        self.bound = self.shop.bound()
        if self.start is None:
            super().begin()
            return
        part = self.running = Part(self.start, self.first, 0, self.seed, self.first, self.current)
        if number := self.shop._call("pfs_makespan", self.start, self.jobs, byref(part.makespan)):
            raise jobs_error(number, self.jobs, self.start, "start")
        self.keep(part)

    def after_held(self, order: bytes | None) -> bytes:
        """Return an order with the held jobs at its front. Without one, the others are inserted as NEH does."""
        jobs = list(self.held)
        if order is None:
            others = set(range(self.jobs)) - set(jobs)
            insert_after(self.shop, jobs, len(jobs), by_total(self.shop, sorted(others)))
        else:
            jobs = list(dict.fromkeys([*jobs, *np.frombuffer(order, dtype=np.uint32).tolist()]))
        return np.array(jobs, dtype=np.uint32).tobytes()

    def staying(self, order: bytes) -> list[int]:
        """Return the jobs that don't move, in their order."""
        return [job for job in np.frombuffer(order, dtype=np.uint32).tolist() if job not in self.moved]

    def first_within(self, before: Part, after: Part, makespan: int) -> Part:
        """Return the part up to the first round with at most this makespan.

        `after`, which follows `before`, has such a makespan. Makespans never increase from round to round, so a binary
        search finds the round. It takes about as long as the part did."""
        while after.total - before.total > 1:
            count = (after.total - before.total) // 2
            half = self.part_after(before, count)
            self.run_part(half, count)
            before, after = (before, half) if half.makespan.value <= makespan else (half, after)
        return after

    def keep(self, part: Part) -> None:
        """Make this part the last one."""
        super().keep(part)
        self.solution()

    def solution(self) -> Solution:
        """Return the best order after the last part that was run."""
        part = self.finished()
        found: Solution = part.solution
        if found is None:
            found = Solution(np.frombuffer(part.order, dtype=np.uint32), part.makespan.value, part.all_cells(),
                             self.shop.machines, part.rounds, part.seed)
            found.bound = self.bound
            if self.more is not None:
                found.current = np.array(part.current or part.order, dtype=np.int64)
                found.current.setflags(write=False)
            part.solution = found
        if len(found.history) < len(self.history):
            found.history = tuple(self.history)
        return found


def reporter(progress: Progress | None, rounds: int | None) -> tuple[Callable[..., Any], Callable[..., Any]]:
    """Return two functions. The first is called after each part with the rounds of the part, all rounds so far and the
    makespan, and returns True to end the search. The second is called at the end."""
    bar: Any = progress(total=rounds) if isinstance(progress, type) else do_nothing if progress is None else progress
    close: Any = getattr(bar, "close", do_nothing) if isinstance(progress, type) else do_nothing
    update: Any = getattr(bar, "update", None)
    if callable(update):
        def report(part: int, made: int, makespan: int) -> None:
            getattr(bar, "set_postfix", do_nothing)(makespan=makespan, refresh=False)
            update(part)

        return report, close
    if not callable(bar):
        raise TypeError(f"progress must be callable, or a progress bar with `update`, not {bar!r}")
    return (lambda part, made, makespan: is_true(bar(made, makespan))), close


def is_true(value: Any) -> bool:
    """Whether a value is True, of Python or NumPy."""
    return type(value) in BOOLS and bool(value)


def do_nothing(*_: Any, **__: Any) -> None:
    """Report nothing."""


def number_of(value: Any, name: str, least: float, most: float, unit: str = "") -> float:
    """Return the value as a float, from `least` to `most`."""
    try:
        if isinstance(value, (str, bytes)) or type(value) in BOOLS:
            raise TypeError
        number = float(value)
    except (TypeError, ValueError):
        raise TypeError(f"{name} must be a number{' of' * bool(unit)}{unit}, not {value!r}") from None
    except OverflowError:
        number = float("inf") if value > 0 else float("-inf")
    if not least <= number <= most:
        limits = f"{least:g} or more{unit}" if most == float("inf") else f"from {least:g} to {most:,}"
        raise ValueError(f"{name} must be {limits}, not {number}")
    return number


def limit_of(time_limit: Any, name: str = "time_limit") -> float | None:
    """Return a time limit in seconds."""
    return None if time_limit is None else number_of(time_limit, name, 0, float("inf"), " seconds")


def stop_of(stop: Any) -> Callable[[], bool]:
    """Return a function that says whether the search should end."""
    if stop is None:
        return bool
    is_set: Any = getattr(stop, "is_set", None)
    if not callable(is_set):
        raise TypeError(f"stop must be an event with `is_set`, such as threading.Event, not {stop!r}")
    return lambda: bool(is_set())


class Limits:
    """When a search ends.

    `rounds` is the number of rounds, None for no limit. `target` is a makespan, -1 for none."""

    def __init__(self, search: Search, rounds: int | None, time_limit: Any, target: int | None, stop: Any) -> None:
        self.seconds = limit_of(time_limit)
        left = c.MOST_ROUNDS - search.first
        self.rounds: int | None = checked_int(rounds, "rounds", 0, left) if rounds is not None else None
        if rounds is None and self.seconds is None:
            self.rounds = min(ROUNDS, left)
        self.target = -1 if target is None else checked_int(target, "target", 0, c.MOST_SEED)
        if target is None and self.rounds is None:
            self.target = search.shop.bound()
        self.is_stopped = stop_of(stop)

    def left(self, search: Search, made: int) -> int:
        """Return the greatest number of rounds for the next part, 0 if the search has finished."""
        if search.solution().makespan <= self.target or self.is_stopped():
            return 0
        return search.left_of_seed() if self.rounds is None else self.rounds - made


def solve(search: Search, rounds: int | None, progress: Progress | None, time_limit: Any, target: int | None = None,
          stop: Any = None, history: bool = False) -> Solution:
    """Run a search in parts. Every exception has the best order so far in its attribute `solution`, once there is one.
    An interruption is raised as `Interrupted`."""
    try:
        limits = Limits(search, rounds, time_limit, target, stop)
        report, close = reporter(progress, limits.rounds)
        try:
            run_parts(search, limits, report, history)
        finally:
            close()
        return search.solution()
    except KeyboardInterrupt:
        raise Interrupted(search.solution()) from None
    except BaseException as error:
        if search.last is not None:
            error.solution = search.solution()  # type: ignore[attr-defined]
        raise


def run_parts(search: Search, limits: Limits, report: Callable[..., Any], history: bool) -> None:
    """Run the search up to its limits."""
    pace, begun = Pace(limits.seconds), time.perf_counter()
    search.begin()
    if history:
        search.history.append(Improvement(search.first, time.perf_counter() - begun, search.solution().makespan))
    made, is_ended = 0, False
    while not is_ended and (left := limits.left(search, made)) and (count := pace.next(left)):
        before, at = search.finished(), time.perf_counter()
        search.run_rounds(count)
        seconds = time.perf_counter() - at
        pace.took(count, seconds)
        if history:
            record_improvements(search, before, limits.target, at - begun, seconds)
        elif search.solution().makespan <= limits.target:
            search.keep(search.first_within(before, search.finished(), limits.target))
        count = search.finished().total - before.total
        made += count
        is_ended = report(count, made, search.solution().makespan) is True


def record_improvements(search: Search, before: Part, target: int, begun: float, seconds: float) -> None:
    """Record the improvements of the last part, and cut it after the one that reaches the target. The part began after
    `begun` seconds and took `seconds`; the time of an improvement is interpolated by its round."""
    first, after = before, search.finished()
    while before.makespan.value > max(after.makespan.value, target):
        before = search.first_within(before, after, before.makespan.value - 1)
        share = (before.total - first.total) / (after.total - first.total)
        search.history.append(Improvement(before.total, begun + share * seconds, before.makespan.value))
    if before.makespan.value <= target:
        search.keep(before)
    search.solution()


# The jobs that are held, and orders behind them

def numbers_of(given: Jobs, shop: Instance, what: str) -> list[int]:
    """Return the numbers of distinct jobs, given by number or by name."""
    own, count = as_uint32_bytes(given, what, shop.job_names)
    number = shop._call("pfs_makespan", own, count, byref(c_uint64()))
    if number != c.OK:
        raise jobs_error(number, shop.jobs, own, what)
    jobs: list[int] = np.frombuffer(own, dtype=np.uint32).tolist()
    return jobs


def insert_after(shop: Instance, order: list[int], held: int, jobs: Sequence[int]) -> None:
    """Insert jobs into an order one after the other, each at its best place after the held ones."""
    for job in jobs:
        order.insert(held + int(shop.places(order, job)[held:].argmin()), job)


def by_total(shop: Instance, jobs: Sequence[int]) -> list[int]:
    """Return jobs by decreasing total time, as NEH inserts them."""
    totals = shop.times.sum(axis=1)
    return sorted(jobs, key=lambda job: -int(totals[job]))
