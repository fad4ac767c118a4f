"""Dates and times of day for the times of a schedule."""
from __future__ import annotations

import copy
import math
import re
from bisect import bisect_left, bisect_right
from collections import defaultdict
from collections.abc import Collection, Iterable, Iterator
from datetime import date, datetime, timedelta
from itertools import accumulate, count, islice, pairwise, takewhile
from typing import TYPE_CHECKING, Protocol, TypeAlias

import numpy as np

from pfs.base.languages import ENGLISH, Say
from pfs.base.units import seconds_in

if TYPE_CHECKING:
    from pfs.binding.validate import Order

# All times here are whole microseconds. Moments count from a Monday.
SECOND = 1_000_000
MINUTE, DAY, WEEK = 60 * SECOND, 86_400 * SECOND, 7 * 86_400 * SECOND
MONDAY = datetime(1970, 1, 5)
DAYS = ("mon", "tue", "wed", "thu", "fri", "sat", "sun")
# Seconds between the marks of a scale: from a second to half a minute, half an hour, and longer than a calendar.
STEPS = [step * unit for unit in (1, 60) for step in (1, 2, 5, 10, 15, 30)] + [3_600 * 2**at for at in range(30)]
BEGIN = re.compile(r"([0-9]{4}-[0-9]{2}-[0-9]{2})(?:[T ]([0-9]{2}:[0-9]{2}(?::[0-9]{2})?))?")
SHIFT = re.compile(r"([0-9]{1,2}):([0-9]{2})-([0-9]{1,2}):([0-9]{2})")
# Shifts after the days or dates on which they start, and a date from which on they do, perhaps on some days only.
NAMED = re.compile(r"\s*(?:([a-z][^:]*)|([0-9]{4}-[^:]*)):(.*)", re.ASCII | re.IGNORECASE)
SINCE = re.compile(r"([0-9]{4}-[0-9]{2}-[0-9]{2})\s*\.\.\s*([a-z].*)?", re.ASCII | re.IGNORECASE)
# Before each date.
EVER = -10**6
DATE = re.compile(r"[0-9]{4}-[0-9]{2}-[0-9]{2}")
# How far after the begin dates may have shifts of their own or be closed, and how many breaks a chart may have.
MOST_DAYS, MOST_BREAKS = 3_660, 400
UNIT_NEEDED = "write min, h, s or d in brackets into the first cell of the table, as in 'job [min]', or set `unit`"

# From when to when there is work, in microseconds.
Span: TypeAlias = tuple[int, int]
# The shifts of dates, and those from a date on: of a day of the week, or with an empty text of all others.
Shifts: TypeAlias = dict[int | tuple[int, str], list[Span]]


class Calendar:
    """When there is work: from a date and time on, in shifts, on some days of the week, but for closed days.

    The times of a schedule are working time. A calendar maps them to dates and times of day. All machines stop at the
    end of a shift and continue at the start of the next one, in the middle of an operation too; the order and its
    makespan stay as they are. An operation that follows such a stop starts with the shift, and one that is finished
    just before it ends with the shift.

    Dates and times are local and have no time zone: a day on which clocks change has 24 hours here.

    Parameters
    ----------
    begin : str or datetime.datetime
        When the work begins, such as ``2026-11-30T06:00``. Outside a shift, it begins with the next one; a date
        without a time of day begins at midnight.
    shifts : str or iterable of str
        The shifts of a working day, such as ``"06:00-14:00"``; several in a list or with commas. A shift may cross
        midnight; it then belongs to the day on which it starts. By default there is work around the clock. Days of the
        week or dates before the shifts have these only: ``"fri:06:00-12:00"``, ``"2026-12-05:06:00-12:00"``. From a
        date on, shifts follow the earlier ones: ``"2026-12-02..:06:00-18:30"`` those of all days without shifts of
        their own, and ``"2026-12-02..fri:06:00-14:00"`` those of Fridays.
    days : str or iterable of str
        The days on which other shifts start, such as ``"mon-fri"`` or ``"mon,wed,fri"``. By default all days.
    closed : str or iterable of str
        Dates on which no shift starts, unless a shift names the date: ``"2026-12-24..2027-01-01"`` or
        ``"2026-05-01,2026-10-03"``.

    Attributes
    ----------
    begin : datetime.datetime
        When the work begins.
    spans : list of (int, int)
        From when to when there is work, in microseconds from Monday, 1970-01-05. The spans from the index `loop` on
        are there in each later week again.
    loop : int
        The index of the first span that is there each week.

    Raises
    ------
    TypeError, ValueError
        An argument is of another kind, a text has another form, shifts overlap, a day is named twice, or a date is more
        than ten years after the begin.

    Examples
    --------
    >>> calendar = pfs.Calendar("2026-11-27T12:00", shifts="06:00-14:00", days="mon-fri", closed="2026-11-30")
    >>> shop = pfs.Instance([[3, 2], [1, 4]], job_names=["table", "chair"], unit="h")
    >>> print(shop.schedule([0, 1]).to_csv(calendar=calendar), end="")
    job,machine,start,end
    table,0,2026-11-27 12:00,2026-12-01 07:00
    table,1,2026-12-01 07:00,2026-12-01 09:00
    chair,0,2026-12-01 07:00,2026-12-01 08:00
    chair,1,2026-12-01 09:00,2026-12-01 13:00
    """

    __slots__ = ("begin", "spans", "loop", "_rule", "_befores")

    def __init__(self, begin: str | datetime, shifts: str | Iterable[str] = (), days: str | Iterable[str] = (),
                 closed: str | Iterable[str] = ()) -> None:
        self.begin, self._rule = begin_of(begin), (shifts_of(shifts), days_of(days), dates_of(closed))
        self._find_spans()

    def _find_spans(self) -> None:
        self.spans, self.loop = spans_from(self.begin, *self._rule)
        # How much work there is before each span, and up to the end of the last one.
        self._befores = [0, *accumulate(end - start for start, end in self.spans)]

    def _begun_at(self, begin: datetime) -> Calendar:
        """The same shifts from another moment on."""
        found = copy.copy(self)
        found.begin = begin
        found._find_spans()
        return found

    @property
    def is_always(self) -> bool:
        """Whether there is work around the clock."""
        spans = [*self.spans, next(islice(self._open(), len(self.spans), None))]
        return all(end == start for (_, end), (start, _) in pairwise(spans))

    def _open(self) -> Iterator[Span]:
        """When there is work, also in later weeks."""
        yield from self.spans
        for past in count(WEEK, WEEK):
            yield from ((start + past, end + past) for start, end in self.spans[self.loop:])

    def _within(self, worked: int, is_over: bool) -> datetime:
        """When this working time is over; at a break its end, or its start if the work is over."""
        first, week = self._befores[self.loop], self._befores[-1] - self._befores[self.loop]
        weeks = max(0, (worked - first - is_over) // week)
        rest = worked - weeks * week
        at = max(0, (bisect_left if is_over else bisect_right)(self._befores, rest) - 1)
        return moment_at(weeks * WEEK + self.spans[at][0] + rest - self._befores[at])

    def start(self, worked: int) -> datetime:
        """When work continues after this working time."""
        return self._within(worked, False)

    def end(self, worked: int) -> datetime:
        """When this working time is over: after a shift its end, and not the start of the next one."""
        return self._within(worked, True)

    def worked_by(self, moment: datetime) -> int:
        """The working time from the begin up to a moment."""
        worked, until = 0, (moment - MONDAY) // timedelta(microseconds=1)
        for start, end in takewhile(lambda span: span[0] < until, self._open()):
            worked += min(end, until) - start
        return worked

    def _breaks(self, end: int, say: Say) -> Iterator[tuple[int, str]]:
        """Return the working times before `end` at which a shift or a day begins, each with the day if it is the first
        of its date: `Mon 2026-11-30`."""
        worked, before = 0, ""
        for start, stop in self._open():
            for moment in (start, *range((start // DAY + 1) * DAY, stop, DAY)):
                if worked + moment - start >= end:
                    return
                day = day_of(moment_at(moment), say)
                yield worked + moment - start, day if day != before else ""
                before = day
            worked += stop - start


def needed(calendar: Calendar | None, what: str) -> Calendar:
    """Return the calendar, which this needs."""
    if calendar is None:
        raise ValueError(f"{what} needs `begin`, which says when the work begins")
    return calendar


class Timed(Protocol):
    """What has times in a unit."""

    unit: str
    decimals: int


class Clock:
    """The moments of an instance's times. Raises a `ValueError` if its unit isn't one of time."""

    def __init__(self, calendar: Calendar, shop: Timed, say: Say = ENGLISH) -> None:
        if not isinstance(calendar, Calendar):
            raise TypeError(f"calendar must be a Calendar, not {calendar!r}")
        seconds = seconds_in(shop.unit)
        if seconds is None:
            what = f"{shop.unit!r} is not a unit of time" if shop.unit else "the times have no unit"
            raise ValueError(f"{what}, which dates need: {UNIT_NEEDED}")
        if seconds * SECOND == DAY and not calendar.is_always:
            raise ValueError("a day of work may be 24 hours or the shifts of a day: write the times in hours")
        self.calendar, self.say = calendar, say
        self.scale: int = 10**shop.decimals
        self.tick = seconds * SECOND

    def ratio(self) -> tuple[int, int]:
        """How many times of the schedule are as long as how many microseconds."""
        common = math.gcd(self.scale, self.tick)
        return self.scale // common, self.tick // common

    def worked(self, time: int) -> int:
        """The working time up to a time of the schedule, to the nearest microsecond."""
        return (2 * time * self.tick + self.scale) // (2 * self.scale)

    def span(self, start: int, end: int) -> tuple[datetime, datetime]:
        """When an operation starts and ends. What takes no time is done when the work before it is."""
        first, last = self.worked(start), self.worked(end)
        if first < last:
            return self.calendar.start(first), self.calendar.end(last)
        moment = self.calendar.end(first) if first else self.calendar.start(0)
        return moment, moment

    def time_at(self, moment: datetime) -> int:
        """The first time, in whole seconds of work, at which the moment has come."""
        step: int = self.scale * SECOND // math.gcd(self.scale * SECOND, self.tick)
        return -(-self.calendar.worked_by(moment) * self.scale // (self.tick * step)) * step

    def between(self, start: datetime, end: datetime) -> int:
        """The nearest time to the working time between two moments."""
        worked = self.calendar.worked_by(end) - self.calendar.worked_by(start)
        return (2 * worked * self.scale + self.tick) // (2 * self.tick)

    def breaks(self, end: int) -> list[tuple[float, str]]:
        """The times up to `end` at which a shift or a day begins, with the day; none if there are too many for a
        chart."""
        found = list(islice(self.calendar._breaks(self.worked(end), self.say), MOST_BREAKS + 1))
        return [] if len(found) > MOST_BREAKS else [(at * self.scale / self.tick, day) for at, day in found]

    def steps(self) -> list[float]:
        """The lengths of time, in those of the schedule, that may be between two marks of a scale."""
        return [step * SECOND * self.scale / self.tick for step in STEPS]

    def marks(self, end: int, most: int) -> list[tuple[float, str]]:
        """Return about `most` marks of a scale from 0 to `end`, each a time and its text: the time of day, and the date
        if it differs from that of the mark before."""
        worked, second = end * self.tick, SECOND * self.scale
        step = next(step for step in STEPS if step * second * most >= worked)
        found: list[tuple[float, str]] = []
        before = ""
        for at in range(0, worked // second + 1, step):
            moment = self.calendar.start(at * SECOND)
            clock, day = text_of(moment, 0 if step < 60 else -1).partition(" ")[2], day_of(moment, self.say)
            found.append((at * second / self.tick, f"{clock}\n{day}" if day != before else clock))
            before = day
        return found

    def digits(self, *times: Order) -> int:
        """How many decimals seconds need for these times; -1 if whole minutes are enough."""
        step = int(np.gcd.reduce([int(np.gcd.reduce(each, axis=None)) for each in times])) * self.tick
        if self.calendar.begin.second == 0 and step % (MINUTE * self.scale) == 0:
            return -1
        return next((digits for digits in range(6) if step % (SECOND // 10**digits * self.scale) == 0), 6)


def text_of(moment: datetime, digits: int) -> str:
    """Return a date and time with this number of decimals of its seconds; with -1, without seconds.

    >>> moment = datetime(2026, 11, 30, 6)
    >>> text_of(moment, -1), text_of(moment, 0), text_of(moment, 2)
    ('2026-11-30 06:00', '2026-11-30 06:00:00', '2026-11-30 06:00:00.00')
    """
    text = moment.isoformat(" ", "microseconds")
    return text[:20 + digits] if digits > 0 else text[:19 if digits == 0 else 16]


def day_of(moment: datetime, say: Say = ENGLISH) -> str:
    """Return the day of the week and the date.

    >>> day_of(datetime(2026, 11, 30, 6))
    'Mon 2026-11-30'
    """
    return f"{say(DAYS[moment.weekday()].title())} {moment.date()}"


def moment_at(microseconds: int) -> datetime:
    """The moment after this time from the Monday."""
    try:
        return MONDAY + timedelta(microseconds=microseconds)
    except OverflowError:
        raise ValueError("the schedule ends after the year 9999") from None


def begin_of(begin: str | datetime) -> datetime:
    """When the work begins."""
    if isinstance(begin, datetime):
        if begin.tzinfo is not None or begin.microsecond:
            raise ValueError("begin must be a local time without a time zone, in whole seconds")
        return begin
    if not isinstance(begin, str):
        raise TypeError(f"begin must be a date and time, not {begin!r}")
    found = BEGIN.fullmatch(begin.strip())
    try:
        if found:
            return datetime.fromisoformat(f"{found[1]}T{found[2] or '00:00'}")
    except ValueError:
        """A month or an hour that doesn't exist."""
    raise ValueError(f"{begin!r} is not a local date and time such as 2026-11-30T06:00")


def words_of(given: str | Iterable[str], what: str) -> Iterator[str]:
    """The texts between commas."""
    for text in [given] if isinstance(given, str) else given:
        if not isinstance(text, str):
            raise TypeError(f"{what} must be texts, not {text!r}")
        yield from (word.strip() for word in text.split(","))


def shifts_of(shifts: str | Iterable[str]) -> Shifts:
    """Parse the shifts of a day, from their starts to their ends, which may be on the next day. Dates count from the
    Monday."""
    found: Shifts = defaultdict(list)
    for text in [shifts] if isinstance(shifts, str) else shifts:
        named = NAMED.fullmatch(text) if isinstance(text, str) else None
        spans = [span_of(word) for word in words_of([named[3] if named else text], "shifts")]
        for day in days_named(named[1], named[2]) if named else [(EVER, "")]:
            found[day].extend(spans)
    return found


def days_named(days: str | None, dates: str) -> list[int | tuple[int, str]]:
    """The days of the week or the dates that are written before shifts."""
    since = None if days else SINCE.fullmatch(dates.strip())
    days = since[2] if since else days
    if since or days:
        first = dates_of(since[1])[0] if since else EVER
        return [(first, DAYS[day]) for day in days_of(days)] if days else [(first, "")]
    return [*dates_of(dates)]


def span_of(word: str) -> Span:
    """Parse a shift, from its start to its end on the same or the next day; 24:00 is the end of a day."""
    match = SHIFT.fullmatch(word)
    if match is None:
        raise ValueError(f"{word!r} is not a shift such as 06:00-14:00")
    start, end = ((60 * int(match[at]) + int(match[at + 1])) * MINUTE for at in (1, 3))
    for time, clock in zip((start, end), word.split("-")):
        if clock[-2:] > "59" or time > DAY:
            raise ValueError(f"{word!r} is not a shift such as 06:00-14:00: {clock} is not a time of day")
    if start == DAY:
        raise ValueError(f"the shift {word!r} starts at 24:00: write 00:00")
    if start == end:
        raise ValueError(f"the shift {word!r} has no length: a whole day is 00:00-24:00")
    return start, end if end > start else end + DAY


def days_of(days: str | Iterable[str]) -> list[int]:
    """The numbers of days of the week, from 0 for Monday."""
    found: list[int] = []
    for word in words_of(days, "days"):
        ends = word.lower().split("-")
        if len(ends) > 2 or not set(ends) <= set(DAYS):
            raise ValueError(f"{word!r} is not a day of the week such as mon, or days such as mon-fri")
        first, last = DAYS.index(ends[0]), DAYS.index(ends[-1])
        if len(ends) == 2 and first == last:
            raise ValueError(f"{word!r} has the same day twice: write {ends[0]}")
        found += [(first + at) % 7 for at in range((last - first) % 7 + 1)]
    twice = next((day for day in found if found.count(day) > 1), None)
    if twice is not None:
        raise ValueError(f"the day {DAYS[twice]} is there twice")
    return found


def dates_of(dates: str | Iterable[str]) -> list[int]:
    """The numbers of dates, counted from the Monday."""
    found: list[int] = []
    for word in words_of(dates, "dates"):
        try:
            # Python takes 20261224 as a date too.
            ends = [date.fromisoformat(end if DATE.fullmatch(end) else "") for end in word.split("..")]
            first, last = ends[0] - MONDAY.date(), ends[-1] - MONDAY.date()
        except ValueError:
            raise ValueError(f"{word!r} is not a date such as 2026-12-24, or dates such as "
                             "2026-12-24..2027-01-01") from None
        if len(ends) > 2 or last < first:
            raise ValueError(f"{word!r} is not a first and a last date, as 2026-12-24..2027-01-01 is")
        found += range(first.days, last.days + 1)
    return found


def starting(day: int, shifts: Shifts, days: Collection[int], closed: Collection[int]) -> list[Span]:
    """The shifts that start on a day, in their order. If none are given for all days, there is work around the clock on
    each day of `days`, or on all days if no day of the week has other shifts."""
    if day in shifts or day in closed:
        return sorted(shifts.get(day, []))
    # The last ones count that hold from a date up to this one on.
    holding = {name: shifts[since, name] for since, name in sorted(key for key in shifts if isinstance(key, tuple))
               if since <= day}
    others = holding.get("", [] if not days and holding.keys() - {""} else [(0, DAY)])
    return sorted(holding.get(DAYS[day % 7], others if not days or day % 7 in days else []))


def spans_from(begin: datetime, shifts: Shifts, days: Collection[int],
               closed: Collection[int]) -> tuple[list[Span], int]:
    """When there is work from the begin on, up to a week after the last date that is closed, or has or begins
    shifts of its own, and the index of the first span of that week."""
    closed, since = set(closed), begin - MONDAY
    last = max([since.days, *(key if isinstance(key, int) else key[0] for key in shifts), *closed])
    if last > since.days + MOST_DAYS:
        raise ValueError(f"{(MONDAY + timedelta(days=last)).date()} is more than ten years after the begin")
    found = [(day * DAY + start, day * DAY + end) for day in range(since.days - 1, last + 8)
             for start, end in starting(day, shifts, days, closed)]
    past = since // timedelta(microseconds=1)
    loop = sum(past < end and start < (last + 1) * DAY for start, end in found)
    spans = [(max(start, past), end) for start, end in found if end > past]
    for (_, end), (start, _) in pairwise([*spans, (spans[loop][0] + WEEK, 0)]):
        if start < end:
            moment = moment_at(start)
            raise ValueError(f"shifts overlap on {day_of(moment)} at {moment:%H:%M}")
    return spans, loop
