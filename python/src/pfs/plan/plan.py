"""Plans: an order of the jobs of a table, of which the first ones may be held, and when there is work. `pfs-plan` makes
them of options, and the page for planners of requests."""
from __future__ import annotations

import contextlib
from collections.abc import Callable, Iterable, Iterator, Sequence
from datetime import datetime, timedelta
from functools import cached_property
from typing import Any, NamedTuple

import numpy as np

from pfs.base.names import shown
from pfs.base.units import CLOCK, amount
from pfs.plan.dates import begun_before, check_past, dates_in, ends_of, is_of_another, marks_in, with_finished
from pfs.plan.floor import Floor
from pfs.plan.orders import AFTER_ORDER, FoundOrder, filled
from pfs.schedules.calendar import MINUTE, Calendar, Clock, begin_of, needed, text_of
from pfs.schedules.report import JOBS, Report, rows_of, text_table
from pfs.plan.passing import arranged
from pfs.schedules.rest import begun, left_of, shop_of
from pfs.schedules.schedule import Schedule
from pfs.shops.instance import Instance, digest_of
from pfs.shops.proof import EARLY, is_small, solve_and_prove
from pfs.shops.search import Event, Progress, Search
from pfs.shops.solution import Solution


class Limits(NamedTuple):
    """How long a plan is searched: up to a round, or for some seconds or up to the bound; and for how many seconds it
    is then tried to prove that no order is shorter."""

    rounds: int | None
    seconds: float | None
    prove: float


class Plan:
    """A plan of a shop. `order` has the jobs that have a place so far, of which the first ones are held, and `gone` the
    jobs of it that the shop lacks."""

    def __init__(self, shop: Instance, found: FoundOrder = FoundOrder([], {}), held: int = 0,
                 calendar: Calendar | None = None, language: str = "en") -> None:
        self.shop, self.calendar, self.language, self.least = shop, calendar, language, 0
        # What is to be said of the plan before which this is what was left, perhaps with names; when its jobs were to
        # end, and when those ended that are finished.
        self.notes = list[tuple[str, Sequence[str] | None]]()
        self.planned, self.ended = dict[str, datetime](), dict[str, datetime]()
        self.order, self.gone, self.rows, self.columns = found
        self.held = self.order[:held]

    @cached_property
    def clock(self) -> Clock | None:
        return None if self.calendar is None else Clock(self.calendar, self.shop)

    @cached_property
    def table(self) -> str:
        """What tells its table from others."""
        return digest_of(self.shop)[:16]

    def know(self, least: int, table: str) -> bool:
        """Use a bound that is known of a table, unless that is another one. Return whether it is used."""
        self.least = least if table == self.table else 0
        return self.least == least

    def hold(self, jobs: Iterable[int]) -> None:
        """Hold these jobs too, after those that are held."""
        self.held = list(dict.fromkeys([*self.held, *jobs]))
        self.order = list(dict.fromkeys([*self.held, *self.order]))

    def fill(self) -> list[int]:
        """Insert the jobs that have no place at their best ones after the held jobs, and return them."""
        return filled(self.shop, self.order, len(self.held))

    def search(self, seed: int = 0, method: str = "iterated-greedy", take: int | None = None,
               passes: int | None = None, move: Sequence[int] | None = None) -> Search:
        """The search for a shorter order, which begins with this one if all jobs have a place. Of those that aren't
        held it moves all, or these."""
        start = self.order if len(self.order) == self.shop.jobs else None
        return Search(self.shop, start, 0, take, passes, seed, self.held, move, method=method)

    def solve(self, search: Search, limits: Limits, progress: Progress | None = None, stop: Event | None = None,
              watch: Callable[[float], bool] | None = None) -> Solution:
        """Search within limits. Where a proof is tried afterwards, one is also tried for a moment before. The best
        order becomes that of the plan. Every exception has the best order so far in its attribute `solution`."""
        prove = limits.prove if is_provable(search) else 0.0
        early = min(EARLY, prove, limits.seconds or 0.0) if limits.rounds is None else 0.0
        return self.keep(solve_and_prove(search, limits.rounds, progress, limits.seconds, stop=stop, early=early,
                                         prove=prove, watch=watch))

    def keep(self, best: Solution) -> Solution:
        """Make this the order of the plan."""
        self.order, self.best, self.least = best.order.tolist(), best, best.bound
        return best

    @cached_property
    def best(self) -> Solution:
        """The order with its makespan and bound."""
        best = Solution(self.order, self.schedule.makespan)
        best.bound = min(max(self.shop.bound(), self.least), best.makespan)
        return best

    @cached_property
    def schedule(self) -> Schedule:
        return self.shop.schedule(self.order)

    @cached_property
    def report(self) -> Report:
        return self.schedule.report()

    # What it says

    def amount(self, time: int) -> str:
        """A time."""
        return amount(time, self.shop.decimals, self.shop.unit)

    def span(self, time: int) -> str:
        """A time with its unit."""
        return span_text(self.shop, time)

    def ends(self) -> list[str]:
        """The makespan, and when it is finished; not if there are no dates, or the calendar ends before."""
        found = [f"makespan {self.span(self.best.makespan)}"]
        if self.clock is not None:
            with contextlib.suppress(ValueError):
                found.append(f"end {self.moment(self.clock.span(0, self.best.makespan)[1])}")
        return found

    @cached_property
    def digits(self) -> int:
        """How many decimals seconds have for people; -1 without seconds, where all that takes time takes a minute."""
        assert self.clock is not None
        times = self.shop.times[self.shop.times > 0]
        is_long = times.size > 0 and self.clock.worked(int(times.min())) >= MINUTE
        return -1 if is_long else self.clock.digits(self.schedule.starts, self.schedule.ends)

    def moment(self, moment: datetime) -> str:
        """A date and time for people, to the nearest minute if that is enough."""
        return text_of(moment + timedelta(seconds=30 if self.digits < 0 else 0), self.digits)

    def machines(self) -> list[tuple[Any, ...]]:
        """The rows of a table of the machines, with its heads."""
        return rows_of(self.report, self.amount)

    def jobs(self) -> list[list[str]]:
        """Each job, in their order, with its start and its end."""
        clock = self.clock
        return [[each.name, *([self.amount(each.start), self.amount(each.end)] if clock is None else
                              map(self.moment, clock.span(each.start, each.end)))] for each in self.report.jobs]

    def text(self, is_reported: bool = False) -> str:
        """What `pfs-plan` prints, perhaps with a report."""
        makespan, *end = self.ends()
        lines = [makespan, f"bound {self.span(self.best.bound)}", *["optimal"] * self.best.optimal, *end]
        lines += [f"{place} {shown(self.shop.job_name(job))}" for place, job in enumerate(self.order, 1)]
        if is_reported:
            machines = [[shown(str(cell)) for cell in row] for row in self.machines()]
            jobs = [[*JOBS], *([*map(shown, row)] for row in self.jobs())]
            lines += [AFTER_ORDER, f"{text_table(machines)}\nbottleneck {shown(self.report.bottleneck)}\n",
                      text_table(jobs).rstrip("\n")]
            if self.planned:
                rows = [[shown(name), *map(self.moment, ends)] for name, *ends in self.compared()]
                lines += ["", text_table([["job", "planned end", "end"], *rows]).rstrip("\n")]
        return "\n".join(lines) + "\n"

    def compared(self) -> Iterator[tuple[str, datetime, datetime]]:
        """When each job of the schedule before was to end, and when it ended or ends now."""
        assert self.clock is not None
        later = {each.name: self.clock.span(each.start, each.end)[1] for each in self.report.jobs}
        for name, planned in self.planned.items():
            if name in self.ended or name in later:
                yield name, planned, self.ended.get(name) or later[name]

    # What it writes

    def write(self, path: str, delimiter: str, mark: bool) -> list[str]:
        """Write the schedule as a workbook, as calendars or as CSV, and return the names of the files."""
        if path.lower().endswith(".ics"):
            return self.schedule.to_ics(path, needed(self.calendar, "a calendar"))
        if path.lower().endswith(".xlsx"):
            self.schedule.to_xlsx(path, calendar=self.calendar, language=self.language)
        else:
            self.schedule.to_csv(path, delimiter, mark=mark, calendar=self.calendar, language=self.language)
        return [path]

    def chart(self, path: str, title: bool | str) -> None:
        """Write the chart."""
        self.schedule.plot(path, critical=True, bound=self.best.bound, calendar=self.calendar, title=title,
                           language=self.language)

    # What is left of it

    def rest(self, moment: str, down: Iterable[tuple[str, str]], hold: int = 0, path: str | None = None,
             first: Iterable[int] = (), is_kept: bool = False) -> tuple[Plan, tuple[str, ...]]:
        """The plan of what is left at a moment, and the names of the jobs that are finished. Machines are down until
        these moments. The jobs that have begun are held, and the first ones of this order; jobs without a place come
        last. The order is in a file, if there is a path. Jobs may pass a machine that is down after those that are to
        be first, unless the order is kept."""
        clock = self.clock or Clock(needed(self.calendar, "`now`"), self.shop)
        calendar, now = clock.calendar, begin_of(moment)
        if now < calendar.begin:
            raise ValueError(f"`now`: {now} is before `begin`")
        file, at, found = path or "", clock.time_at(now), FoundOrder(self.order, self.gone, self.rows, self.columns)
        dates, marks = dates_in(self.shop, found, file), marks_in(self.shop, found, now, file)
        shop, before = begun_before(self.shop, dates, clock)
        is_other = is_of_another(shop, found, file)
        shop, found = with_finished(shop, found, dates, marks, clock, now)
        floor = Floor(shop, found.jobs, marks, clock, now, self.columns, file)
        check_gone(shop, found, floor, path)
        if dates:
            check_past(shop, found.jobs, dates, clock, now, file)
        new = [job for job in range(self.shop.jobs) if job not in set(self.order)]
        left = left_of(shop, found.jobs, floor.starts, floor.ends, at, down_until(down, clock, shop, at), new)
        # Of the first jobs of the order those that are finished are gone.
        held = max(left.held, min(hold, len(self.order)) + len(left.rows) - len(new) - len(self.order))
        rows, held, passing = arranged(shop, left._replace(held=held), [*map(shop.job_name, first)], is_kept)
        unplaced = {*map(shop.job_name, new)} - {row.name for row in rows[:held]}
        order = [job for job, row in enumerate(rows) if row.name not in unplaced]
        later = calendar._begun_at(calendar.start(clock.worked(at)))
        plan = Plan(shop_of(shop, rows), FoundOrder(order, found.gone), held, later, self.language)
        plan.planned, plan.ended = ends_of(dates), floor.ended(left.done)
        plan.notes = [("has all times of jobs that had begun before; what was left then is planned", before),
                      (is_other, None), ("they skip what is down, and come first, so as not to wait", passing)]
        return plan, left.done


def check_gone(shop: Instance, found: FoundOrder, floor: Floor, path: str | None) -> None:
    """A job that the table lacks has delayed those after it, if one of them has begun."""
    places = np.flatnonzero(begun(floor.starts, floor.ends, floor.at))
    last = int(places.max(initial=-1))
    gone = next((name for name, before in found.gone.items() if before <= last), None)
    if gone is not None:
        later = shop.job_name(found.jobs[last])
        raise ValueError(f"{path}: the table has no job {gone!r}, but {later!r} after it has begun: leave jobs that "
                         "have begun in the table")


def is_provable(search: Search) -> bool:
    """Whether a proof says anything of a search: all jobs move, and are few enough."""
    return len(search.moved) == search.shop.jobs and is_small(search.shop)


def span_text(shop: Instance, span: int) -> str:
    """A time with its unit."""
    unit = "h" if shop.unit == CLOCK else shown(shop.unit)
    return f"{amount(span, shop.decimals, shop.unit)} {unit}".rstrip()


def calendar_of(begin: str | None, shift: Sequence[str], days: str | Sequence[str],
                closed: str | Sequence[str]) -> Calendar | None:
    """The calendar of a plan, if it has one."""
    if begin:
        return Calendar(begin, shift, days or (), closed or ())
    for name, value in (("shift", shift), ("days", days), ("closed", closed)):
        if value:
            needed(None, f"`{name}`")
    return None


def down_until(given: Iterable[tuple[str, str]], clock: Clock, shop: Instance, at: int) -> dict[int, int]:
    """Return until when machines are down, by their numbers."""
    names = [shop.machine_name(machine) for machine in range(shop.machines)]
    folded = [*map(str.casefold, names)]
    found: dict[int, int] = {}
    for name, moment in given:
        own, until = name.strip(), clock.time_at(begin_of(moment))
        if own not in names and folded.count(own.casefold()) != 1:
            what = "may be several machines" if own.casefold() in folded else "isn't the name of a machine of the table"
            raise ValueError(f"`down`: {name!r} {what}")
        machine = names.index(own) if own in names else folded.index(own.casefold())
        if machine in found:
            raise ValueError(f"`down`: {name!r} is there twice")
        if until <= at:
            raise ValueError(f"`down`: {name!r} is up again by then ({moment})")
        found[machine] = until
    return found
