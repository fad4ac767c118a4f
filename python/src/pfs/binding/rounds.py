"""Searches in parts of rounds, each a call of the library for C. The package and the runs of experiments, to whose
machines it is copied, search with it alone. It needs nothing but Python."""
from __future__ import annotations

import ctypes
import time
from collections.abc import Callable
from ctypes import byref, c_size_t, c_uint32, c_uint64
from typing import Any, Final, NamedTuple

MOST_ROUNDS: Final = 1_000_000
# A search that has made all rounds of a seed continues with a seed that is greater by this number, modulo 2^64, so that
# searches with the seeds 1, 2, 3 share no random numbers.
SEED_STEP: Final = 0x9E3779B97F4A7C15
# About how long a part takes, in seconds.
PART = 0.1
# A part has at most this many times the rounds of the part before it.
MOST_INCREASE = 4
# The makespan of a part that hasn't been run. No order has this makespan.
UNWRITTEN = 2**64 - 1
# The most chances of `accept_of`.
MOST_ACCEPTED = 200_000
TIES: Final = {"first": 0, "idle": 1}
MOST_PASSES: Final = 100
MOST_TEMPERATURE: Final = 1_000


class Usual(NamedTuple):
    """The defaults of a method."""

    take: int
    passes: int


# The methods: the profile of `pfs solve`, and the search that also accepts longer orders.
USUAL: Final = {"solve": Usual(4, 0), "iterated-greedy": Usual(2, MOST_PASSES)}


class RoundsOptions(ctypes.Structure):
    """Which rounds `pfs_rounds` makes."""
    _fields_ = [("seed", c_uint64), ("take", c_size_t), ("first", c_uint32), ("count", c_uint32), ("passes", c_uint32)]


class IterateOptions(ctypes.Structure):
    """Which rounds `pfs_iterate` makes."""
    _fields_ = [("seed", c_uint64), ("take", c_size_t), ("held", c_size_t), ("first", c_uint32), ("count", c_uint32),
                ("partial", c_uint32), ("passes", c_uint32), ("ties", c_uint32), ("accept", ctypes.POINTER(c_uint32)),
                ("accept_length", c_size_t), ("stay", ctypes.c_char_p), ("stay_length", c_size_t)]


class Iterating(NamedTuple):
    """The options of `pfs_iterate` that `pfs_rounds` doesn't have."""

    partial: int
    ties: int
    accept: ctypes.Array[c_uint32]
    held: int
    stay: bytes


def accept_of(temperature: float, total: int, operations: int) -> ctypes.Array[c_uint32]:
    """Return the chances of longer orders, in units of 2^-32, up to the last one above 0: exp(-d / t), rounded down, of
    an order that is longer by d, where t is this number of tenths of the mean time.

    They are products of whole numbers of 96 bits, so they are the same on every machine.

    >>> accept_of(10, 2, 2)[:3]
    [4294967295, 1580030168, 581260615]
    """
    # Only these searches need it, and short runs of experiments are shorter than its import.
    from decimal import Decimal, localcontext
    with localcontext() as context:
        context.prec = 60
        heat = Decimal(temperature) * total / (10 * operations)
        factor = int((-1 / heat).exp() * 2**96) if heat else 0
    lows = [2**96]
    while len(lows) < 1000:
        lows.append(lows[-1] * factor >> 96)
    found, high = list[int](), 2**96
    while factor and high >> 64 and len(found) < MOST_ACCEPTED:
        found += [high * low >> 160 for low in lows]
        high = high * (lows[-1] * factor >> 96) >> 96
    while found and not found[-1]:
        found.pop()
    return (c_uint32 * len(found))(*[2**32 - 1][:len(found)], *found[1:])


def iterating(total: int, operations: int, partial: int = MOST_PASSES, ties: str = "idle", temperature: float = 0.5,
              held: int = 0, stay: bytes = b"") -> Iterating:
    """Return the options for an instance by the sum and the number of its times. `stay` has a byte for each job."""
    return Iterating(partial, TIES[ties], accept_of(temperature, total, operations), held, stay)


class Part:
    """The results of one call of the library. The code around the call may be interrupted at any point; `is_done` then
    says whether the call was made."""

    def __init__(self, order: bytes, rounds: int, cells_before: int, seed: int, total: int,
                 current: bytes | None = None) -> None:
        # The best order, and the one from which the search continues, where that may be longer.
        self.order = (c_uint32 * (len(order) // 4)).from_buffer_copy(order)
        self.current = None if current is None else (c_uint32 * (len(order) // 4)).from_buffer_copy(current)
        self.makespan, self.cells = c_uint64(UNWRITTEN), c_uint64()
        # The number of the next round with this seed, and the number of rounds so far with all seeds.
        self.rounds, self.total = rounds, total
        self.seed, self.cells_before = seed, cells_before
        # What the package makes of it right after the part, so that it isn't lost if memory runs out later.
        self.solution: Any = None

    def is_done(self) -> bool:
        return self.makespan.value != UNWRITTEN

    def all_cells(self) -> int:
        """Return the cells of this part and of those before it."""
        return self.cells_before + self.cells.value


class Rounds:
    """Iterated greedy from NEH's order, by `pfs_iterate` if it has the options `more`. `call` calls a function of the
    library on the instance, or raises an error."""

    def __init__(self, call: Callable[..., object], jobs: int, take: int, passes: int, seed: int, first: int = 0,
                 more: Iterating | None = None) -> None:
        self.call, self.jobs, self.more = call, jobs, more
        self.take, self.passes, self.seed, self.first = take, passes, seed, first
        self.last: Part | None = None
        self.running: Part | None = None

    def begin(self) -> None:
        """Compute the order to begin with."""
        part = self.running = Part(bytes(4 * self.jobs), self.first, 0, self.seed, self.first)
        self.call("pfs_neh", part.order, c_size_t(self.jobs), byref(part.makespan), byref(part.cells))
        self.keep(part)

    def run_rounds(self, count: int) -> None:
        """Run the next `count` rounds. After the last round of a seed, those of another one follow."""
        part = self.running = self.part_after(self.finished(), count)
        self.run_part(part, count)
        self.keep(part)

    def part_after(self, before: Part, count: int) -> Part:
        """Return a part for the next `count` rounds, which aren't run yet."""
        rounds, seed = before.rounds, before.seed
        if rounds == MOST_ROUNDS and count:
            rounds, seed = 0, (seed + SEED_STEP) % 2**64
        current = None if self.more is None else bytes(before.current or before.order)
        return Part(bytes(before.order), rounds + count, before.all_cells(), seed, before.total + count, current)

    def run_part(self, part: Part, count: int) -> None:
        """Run the `count` rounds of a part."""
        first, length = part.rounds - count, c_size_t(self.jobs)
        if self.more is None:
            options = RoundsOptions(part.seed, self.take, first, count, self.passes)
            self.call("pfs_rounds", byref(options), part.order, length, byref(part.makespan), byref(part.cells))
            return
        partial, ties, accept, held, stay = self.more
        longer = IterateOptions(part.seed, self.take, held, first, count, partial, self.passes, ties, accept,
                                len(accept), stay, len(stay))
        self.call("pfs_iterate", byref(longer), part.current, length, byref(c_uint64()), part.order, length,
                  byref(part.makespan))

    def keep(self, part: Part) -> None:
        """Make this part the last one."""
        self.running = self.last = part

    def finished(self) -> Part:
        """Return the last part that was run."""
        if self.running is not None and self.running.is_done():
            return self.running
        if self.last is None:
            self.begin()
        assert self.last is not None
        return self.last

    def left_of_seed(self) -> int:
        """Return how many rounds the seed has left, or the one after it if it has none."""
        return MOST_ROUNDS - self.finished().rounds or MOST_ROUNDS


class Pace:
    """Chooses the rounds of each part, so that it takes about a tenth of a second and ends by the time limit, in
    seconds of this clock. A part has at least `least` rounds before the limit."""

    def __init__(self, seconds: float | None, clock: Callable[[], float] | None = None, least: int = 1) -> None:
        self.clock, self.least = clock or time.monotonic, least
        self.end = None if seconds is None else self.clock() + seconds
        # The first part has one round.
        self.count, self.seconds = 1 / MOST_INCREASE, 0.0

    def next(self, most: int) -> int:
        """Return the number of rounds of the next part, at most `most`, and 0 after the time limit."""
        left = float("inf") if self.end is None else self.end - self.clock()
        if left <= 0:
            return 0
        fitting = self.count * min(PART, left) / max(self.seconds, 1e-9)
        return max(self.least, min(most, int(MOST_INCREASE * self.count), int(fitting)))

    def took(self, count: int, seconds: float) -> None:
        """Record how long the last part took."""
        self.count, self.seconds = count, seconds
