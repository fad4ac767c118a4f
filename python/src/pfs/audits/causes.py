"""Causes of wrong makespans in published tables: what else has the makespan that is stated."""
from __future__ import annotations

from collections import defaultdict
from collections.abc import Iterable, Iterator
from itertools import islice
from typing import NamedTuple, TypeAlias

import numpy as np

from pfs.shops.instance import Instance

# The most hints at the cause of a wrong makespan.
MOST_HINTS = 3
# The most other instances on which an order is tried, and the most other orders on an instance.
MOST_OTHERS = 50
# How far a column may be shifted, and the most operations of an order that other models compute.
MOST_SHIFT, MOST_OPERATIONS = 3, 100_000
# The most pairs of jobs of an order that are exchanged, and of all orders together. Beyond them only neighbours are.
MOST_PAIRS, MOST_ORDERS = 5_000, 500_000

# What identifies the times of an instance, whatever its names.
Key: TypeAlias = tuple[bytes, tuple[int, ...]]


class Stated(NamedTuple):
    """What a row of a table states, and where it is."""

    place: str
    instance: str
    method: str
    makespan: int
    shop: Instance
    jobs: list[int]
    sheet: str = ""


class Causes:
    """The rows of a table, and what they may have been mistaken for. A row takes a time that doesn't grow with their
    number."""

    def __init__(self, rows: Iterable[Stated]) -> None:
        # The first name of each instance, by its number of jobs, and the rows of a makespan.
        self.by_jobs: dict[int, dict[Key, tuple[str, Instance]]] = defaultdict(dict)
        self.by_makespan: dict[int, list[Stated]] = defaultdict(list)
        self.turned: dict[Key, list[Instance]] = {}
        self.orders = MOST_ORDERS
        # The rows of a method on a sheet, and which of them each is.
        self.groups: dict[tuple[str, str], list[Stated]] = defaultdict(list)
        self.index: dict[tuple[str, str, str], int] = {}
        # What the orders of a group take, where they are orders.
        self.spans: dict[tuple[str, str], list[int | None]] = {}
        for row in rows:
            group = self.groups[row.sheet, row.method]
            self.index[row.sheet, row.method, row.place] = len(group)
            group.append(row)
            same = self.by_jobs[row.shop.jobs]
            if len(same) <= MOST_OTHERS:
                same.setdefault(row.shop._key(), (row.instance, row.shop))
            if len(self.by_makespan[row.makespan]) <= MOST_OTHERS:
                self.by_makespan[row.makespan].append(row)

    def of(self, row: Stated, jobs: list[int], makespan: int) -> list[str]:
        """Return hints at the cause of a wrong makespan. What may be a coincidence is only told where nothing else is
        found, marked, and not for a makespan that is off by one."""
        bound = row.shop.bound()
        found = [f"no order takes less than {bound}"] if row.makespan < bound else []
        causes = list(islice(self.certain(row, jobs, makespan), MOST_HINTS - len(found)))
        if not causes and abs(row.makespan - makespan) > 1:
            possible = islice(self.possible(row, jobs), MOST_HINTS - len(found))
            causes = [f"perhaps by chance, {text}" for text in possible]
        return found + causes

    def certain(self, row: Stated, jobs: list[int], makespan: int) -> Iterator[str]:
        """Yield what is wrong with a row by itself."""
        shop, stated = row.shop, row.makespan
        yield from self.moved(row)
        yield from self.on_others(row, jobs)
        if shop.makespan(jobs[::-1]) == stated:
            yield f"the reversed order takes {stated}"
        if shop.makespan(np.argsort(jobs)) == stated:
            yield f"as the places of the jobs it takes {stated}"
        if any(other.makespan(jobs) == stated for other in self.exchanged(shop)):
            yield f"with jobs and machines exchanged it takes {stated}"
        if stated > makespan and shop.schedule(jobs).ends[:, -1].sum() == stated:
            yield "that is the sum of the completion times"
        if stated == shop.upper:
            yield "that is the best known makespan"
        elif stated == shop.bound():
            yield "that is the lower bound"
        yield from written(stated, makespan)
        if abs(stated - makespan) > 1:
            yield from self.of_other_models(shop, stated, jobs)

    def of_other_models(self, shop: Instance, stated: int, jobs: list[int]) -> Iterator[str]:
        """Yield what else an order may have been computed as."""
        if shop.schedule(jobs).starts[-1, -1] == stated:
            yield "that is when the last operation starts"
        if shop.machines > 1 and Instance(shop.times[:, :-1]).makespan(jobs) == stated:
            yield f"without the last machine it takes {stated}"
        for place, which in ((0, "first"), (len(jobs) - 1, "last")) if len(jobs) > 1 else ():
            if shop.makespan(jobs[:place] + jobs[place + 1:]) == stated:
                yield f"without its {which} job it takes {stated}"
        if shop.jobs * shop.machines <= MOST_OPERATIONS:
            if no_wait(shop, jobs) == stated:
                yield f"without waiting between machines it takes {stated}"
            if blocking(shop, jobs) == stated:
                yield f"without room between machines (blocking) it takes {stated}"

    def spans_of(self, key: tuple[str, str]) -> list[int | None]:
        """Return the makespans of a group's orders."""
        if key not in self.spans:
            self.spans[key] = [row.shop.makespan(row.jobs) if len(row.jobs) == row.shop.jobs and is_order(row.jobs)
                               else None for row in self.groups[key]]
        return self.spans[key]

    def moved(self, row: Stated) -> Iterator[str]:
        """Yield how the makespans or the orders of the rows of a method have changed their rows."""
        key = row.sheet, row.method
        group, spans, own = self.groups[key], self.spans_of(key), self.index[*key, row.place]

        def makespan_fits(at: int, other: int) -> bool:
            """Whether a row states what the order of the other one takes."""
            return spans[other] == group[at].makespan

        def order_fits(at: int, other: int) -> bool:
            """Whether a row states what the order of the other one takes on its instance."""
            one, jobs = group[at], group[other].jobs
            return len(jobs) == one.shop.jobs and is_order(jobs) and one.shop.makespan(jobs) == one.makespan

        wrong = [at for at, each in enumerate(group) if spans[at] != each.makespan]
        near = sorted(wrong, key=lambda at: abs(at - own))[1:MOST_OTHERS + 1]
        for what, fits in (("makespans", makespan_fits), ("orders", order_fits)):
            for step in sorted({*range(-MOST_SHIFT, MOST_SHIFT + 1)} - {0}, key=lambda step: (abs(step), step)):
                others = [at for at in {own, *near} if 0 <= at - step < len(group) and fits(at, at - step)]
                if own in others and len(others) > 2:
                    yield (f"{group[own - step].place} has the {what[:-1]} that fits: the {what} of {len(others)} rows "
                           f"are shifted by {abs(step)} row{'s' * (abs(step) > 1)}")
                    return
            for other in near:
                if fits(own, other) and fits(other, own):
                    yield f"the {what} of this row and {group[other].place} are exchanged"
                    return
            fitting = [other for other in near if fits(own, other)]
            if fitting and sum(any(fits(at, other) for other in near) for at in near) >= max(2, 2 * len(near) // 3):
                yield (f"{group[fitting[0]].place} has the {what[:-1]} that fits: the {what} of {len(wrong)} rows are "
                       "in another order")
                return

    def on_others(self, row: Stated, jobs: list[int]) -> Iterator[str]:
        """Yield the other instances of the table on which an order has the makespan."""
        own, order = row.shop._key(), np.array(jobs if is_order(jobs) else [], dtype=np.uint32)
        for key, (name, shop) in self.by_jobs[len(order)].items():
            if key != own and shop.makespan(order) == row.makespan:
                yield f"the order takes {row.makespan} on {name}"

    def exchanged(self, shop: Instance) -> list[Instance]:
        """Return the instances that someone has who reads job by job what is written machine by machine, or the other
        way round."""
        key = shop._key()
        if key not in self.turned:
            turned = shop.times.T.reshape(shop.times.shape), shop.times.reshape(shop.times.T.shape).T
            self.turned[key] = [Instance(times) for times in turned if (times != shop.times).any()]
        return self.turned[key]

    def possible(self, row: Stated, jobs: list[int]) -> Iterator[str]:
        """Yield other rows that state the makespan, and pairs of jobs whose exchange gives it."""
        own = row.shop._key()
        same = [other for other in self.by_makespan[row.makespan] if other.place != row.place]
        rows = [other for other in same if other.shop._key() == own]
        if rows:
            yield f"{rows[0].place} states it for this instance" + also(len(rows) - 1, "row")
        shape = row.shop.times.shape
        rows = [other for other in same if other.method == row.method and other.shop.times.shape == shape]
        if rows:
            yield f"{rows[0].place} states it for {rows[0].instance}" + also(len(rows) - 1, "row")
        if len(jobs) * (len(jobs) - 1) <= MOST_PAIRS:
            lists = np.array([jobs[:at] + jobs[at + 1:] for at in range(1, len(jobs) - 1)], dtype=np.uint32)
            left = [at for at, span in enumerate(row.shop.makespans(lists).tolist(), 1) if span == row.makespan
                    ] if len(lists) else []
            if left:
                yield (f"without the job at place {left[0] + 1} it takes {row.makespan}" + also(len(left) - 1, "job"))
        pairs = self.pairs(row, jobs)
        if pairs:
            one, other = min(pairs, key=lambda pair: pair[1] - pair[0])
            yield (f"with the jobs at places {one + 1} and {other + 1} exchanged it takes {row.makespan}"
                   + also(len(pairs) - 1, "pair"))

    def pairs(self, row: Stated, jobs: list[int]) -> list[tuple[int, int]]:
        """Return the places of two jobs whose exchange gives the makespan: of any two, or of neighbours where those are
        too many."""
        count = len(jobs)
        many = count * (count - 1) // 2
        is_few = many <= min(MOST_PAIRS, self.orders)
        self.orders -= many if is_few else 0
        ones, others = np.triu_indices(count, 1) if is_few else (np.arange(count - 1), np.arange(1, count))
        orders = np.tile(np.array(jobs, dtype=np.uint32), (len(ones), 1))
        each = np.arange(len(ones))
        orders[each, ones], orders[each, others] = orders[each, others], orders[each, ones]
        fitting = row.shop.makespans(orders) == row.makespan if len(ones) else np.zeros(0, dtype=bool)
        return list(zip(ones[fitting].tolist(), others[fitting].tolist()))


def written(stated: int, makespan: int) -> Iterator[str]:
    """Yield how a makespan was written to be the stated one."""
    digits, others = str(makespan), str(stated)
    swapped = {digits[:at] + digits[at + 1] + digits[at] + digits[at + 2:] for at in range(len(digits) - 1)}
    if others in swapped:
        yield f"two digits of {makespan} are exchanged"
    for power, name in ((10, "tens"), (100, "hundreds"), (1000, "thousands")):
        if stated and stated % power == 0 and abs(stated - makespan) * 2 <= power:
            yield f"that is {makespan} rounded to {name}"
            return


def no_wait(shop: Instance, jobs: list[int]) -> int:
    """Return the makespan where no job waits between two machines (Wismer 1972)."""
    times = shop.times[jobs].astype(np.int64)
    ends = times.cumsum(axis=1)
    delays = (ends[:-1] - (ends[1:] - times[1:])).max(axis=1)
    return int(delays.sum() + ends[-1, -1])


def blocking(shop: Instance, jobs: list[int]) -> int:
    """Return the makespan where a job stays on its machine until the next one is free (Hall and Sriskandarajah
    1996)."""
    left = [0] * (shop.machines + 1)
    for times in shop.times[jobs].tolist():
        end = left[0]
        for machine, time in enumerate(times):
            end = max(end + time, left[machine + 1] if machine + 1 < shop.machines else 0)
            left[machine] = end
    return left[shop.machines - 1]


def is_order(jobs: list[int]) -> bool:
    """Whether these are all jobs from 0 on, each once."""
    return sorted(jobs) == list(range(len(jobs)))


def also(count: int, what: str) -> str:
    """Return how many others have it too, which may be a coincidence then."""
    return f" (as with {count} other {what}{'s' if count > 1 else ''})" if count else ""
