"""What really happened: when operations have started and ended, by a schedule and by what people wrote into it."""
from __future__ import annotations

from collections.abc import Collection, Mapping, Sequence
from datetime import datetime

import numpy as np

from pfs.base.faults import TableFault, raise_all
from pfs.plan.dates import Mark, Marks, exact
from pfs.schedules.calendar import Clock
from pfs.schedules.rest import spans_of
from pfs.shops.instance import Instance


class Floor:
    """When each operation of an order started and ended, or will. What isn't marked is as planned, or follows what
    comes before it on its machine and of its job if that is later."""

    def __init__(self, shop: Instance, order: Sequence[int], marks: Marks, clock: Clock, now: datetime,
                 columns: Mapping[str, int], path: str) -> None:
        self.shop, self.order, self.marks, self.clock, self.now, self.columns, self.path = (
            shop, order, marks, clock, now, columns, path)
        self.starts, self.ends = spans_of(shop, order)
        self.at = clock.time_at(now)
        self.faults: list[TableFault] = []
        if marks:
            self.follow()
            raise_all(self.faults)

    def report(self, mark: Mark, what: str, text: str) -> None:
        """Report a cell of one of the columns."""
        self.faults.append(TableFault(self.path, mark.line, self.columns.get(what, 0), text))

    def ended(self, names: Collection[str]) -> dict[str, datetime]:
        """When these jobs ended."""
        found = dict[str, datetime]()
        for place, job in enumerate(self.order):
            if (name := self.shop.job_name(job)) in names:
                machine = int(np.argmax(self.ends[place]))
                mark = self.marks.get((name, machine))
                found[name] = mark.ended if mark and isinstance(mark.ended, datetime) else self.clock.span(
                    0, int(self.ends[place, machine]))[1]
        return found

    def follow(self) -> None:
        """Go through all operations that take time or are marked, with the last one on each machine before."""
        on_machine: dict[int, int] = {}
        for place, job in enumerate(self.order):
            machine_before: int | None = None
            for machine in range(self.shop.machines):
                mark = self.marks.get((self.shop.job_name(job), machine))
                before = [(place, machine_before)] if machine_before is not None else []
                if self.shop.times[job, machine] == 0 and mark is None:
                    self.starts[place, machine] = self.ends[place, machine] = max(
                        (int(self.ends[each]) for each in before), default=0)
                    continue
                before += [(on_machine[machine], machine)] if machine in on_machine else []
                self.place(place, machine, mark or Mark(None, None, 0), before)
                on_machine[machine], machine_before = place, machine

    def place(self, place: int, machine: int, mark: Mark, before: list[tuple[int, int]]) -> None:
        """Find out when an operation starts and ends, after those before it."""
        is_over = mark.ended is True or isinstance(mark.ended, datetime) and mark.ended <= self.now
        start = self.start_of(mark, max(int(self.starts[place, machine]),
                                        *(int(self.ends[each]) for each in before), 0))
        end = self.end_of(mark, start + int(self.shop.times[self.order[place], machine]))
        if self.check(mark, is_over, start, end):
            return
        if is_over or mark.begun:
            start = min(start, end - 1, self.at - 1)
            limit = end if mark.begun is None else start
            for each in before:
                self.end_before(mark, place, machine, each, limit)
        self.starts[place, machine], self.ends[place, machine] = start, end

    def start_of(self, mark: Mark, planned: int) -> int:
        """When an operation starts. One that has begun before it was to, at an unknown time, has all its time left."""
        if isinstance(mark.begun, datetime):
            return self.time_of(mark.begun)
        return planned if mark.begun is None else min(planned, self.at) if mark.begun else max(planned, self.at)

    def end_of(self, mark: Mark, planned: int) -> int:
        """When an operation ends; if that is later than now, with time left."""
        if isinstance(mark.ended, datetime):
            return self.time_of(mark.ended) if mark.ended <= self.now else max(self.time_of(mark.ended), self.at + 1)
        return min(planned, self.at) if mark.ended else planned

    def time_of(self, moment: datetime) -> int:
        """The time of the schedule at a moment; until now at most the time now."""
        time = self.clock.between(self.clock.calendar.begin, moment)
        return min(time, self.at) if moment <= self.now else time

    def check(self, mark: Mark, is_over: bool, start: int, end: int) -> bool:
        """Report what can't be, and return whether there is such."""
        count = len(self.faults)
        for what, moment in (("begun", mark.begun), ("ended", mark.ended)):
            if isinstance(moment, datetime) and moment < self.clock.calendar.begin:
                self.report(mark, what, f"{exact(moment)} is before `begin`")
        if isinstance(mark.begun, datetime) and mark.begun > self.now:
            self.report(mark, "begun", f"{exact(mark.begun)} is after `now`: write - if it hasn't begun")
        if isinstance(mark.begun, datetime) and isinstance(mark.ended, datetime) and mark.ended < mark.begun:
            self.report(mark, "ended", f"{exact(mark.ended)} is before it has begun, at {exact(mark.begun)}")
        if mark.begun is False and is_over:
            self.report(mark, "ended", "it has ended, and not begun")
        if isinstance(mark.ended, datetime) and not is_over and not mark.begun and start >= self.at:
            self.report(mark, "ended", f"{exact(mark.ended)} is after `now`, and it hasn't begun: change its time in "
                                       "the table, or write when it has begun")
        if mark.ended is False and end <= self.at:
            self.report(mark, "ended", f"by its times it ends at {exact(self.clock.span(0, end)[1])}: write when it "
                                       "will end, after `now`")
        return len(self.faults) > count

    def end_before(self, mark: Mark, place: int, machine: int, other: tuple[int, int], limit: int) -> None:
        """The one before an operation that has begun is finished by then, unless it is known not to be."""
        if self.ends[other] <= limit:
            return
        name, machine_name = self.shop.job_name(self.order[other[0]]), self.shop.machine_name(other[1])
        own = self.marks.get((name, other[1]))
        if self.starts[other] < limit and (own is None or own.ended is None):
            self.ends[other] = limit
            return
        job, on = self.shop.job_name(self.order[place]), self.shop.machine_name(machine)
        self.report(mark, "begun" if mark.begun else "ended", f"{job!r} has {'begun' if mark.begun else 'ended'} on "
                    f"{on!r}, and {name!r} hasn't ended before on {machine_name!r}: write when it has")
