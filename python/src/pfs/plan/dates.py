"""The dates of a schedule: what happened before a moment is what they say."""
from __future__ import annotations

import contextlib
import re
from collections.abc import Iterator, Sequence
from datetime import datetime, timedelta
from fractions import Fraction
from typing import NamedTuple, TypeAlias

import numpy as np

from pfs.base.cells import text_cell
from pfs.base.faults import TableFault, raise_all
from pfs.base.units import amount, seconds_in
from pfs.plan.orders import FoundOrder, iso_of, numbers_by_name
from pfs.schedules.calendar import Clock, text_of
from pfs.schedules.report import MARKS
from pfs.schedules.rest import Row, shop_of, spans_of
from pfs.shops.instance import Instance

STAMP = re.compile(r"([0-9]{4}-[0-9]{2}-[0-9]{2})[ T]([0-9]{1,2}:[0-9]{2})(:[0-9]{2})?(?:[.,]([0-9]{1,6}))?")
PLAIN = re.compile(r"([0-9]+)(?:([.,:])([0-9]+))?")
# A workbook has moments to the nearest millisecond, and a CSV that a spreadsheet saved may lack their seconds.
ROUNDED, MINUTE = timedelta(milliseconds=1), timedelta(minutes=1)
WHAT_TO_DO = ("give the table, `begin` and the shifts of that schedule, those of past days by date (`shift`), or plan "
              "the table of `rest` with its own schedule")

# From when to when a job is on a machine, by the name of the job and the number of the machine.
Key: TypeAlias = tuple[str, int]
Span: TypeAlias = tuple[datetime, datetime]
Dates: TypeAlias = dict[Key, Span]


# What may be in a cell of `begun` and `ended` in place of a moment: that it has happened, or that it hasn't by now.
HAS, HASNT = ("x", "yes", "ja", "\u2713"), ("-", "no", "nein")


class Mark(NamedTuple):
    """When an operation has begun and ended, or will; or whether it has by now; or None if that is as planned. And its
    line in the schedule."""

    begun: datetime | bool | None
    ended: datetime | bool | None
    line: int


Marks: TypeAlias = dict[Key, Mark]


class Difference(NamedTuple):
    """An operation with another span than is computed, and from when on they differ."""

    moment: datetime
    place: int
    machine: int
    said: Span | None
    own: Span | None


def operations_of(shop: Instance, found: FoundOrder, path: str) -> Iterator[tuple[Key, int, list[str]]]:
    """The operations of a schedule, each with its line and its cells. All faults of their names are raised at once."""
    names = [shop.machine_name(machine) for machine in range(shop.machines)]
    machines = {text: at for at, name in enumerate(names) for text in (text_cell(name), name)}
    jobs, seen, faults = numbers_by_name(shop), dict[Key, tuple[Key, int, list[str]]](), list[TableFault]()
    for line, row in found.rows:
        name, machine = [*row, ""][:2]
        key = shop.job_name(jobs[name]) if name in jobs else name, machines.get(machine, -1)
        if key[1] < 0:
            faults.append(TableFault(path, line, 2, f"the table has no machine {machine!r}: the schedule is of another "
                                                    "table"))
        elif key in seen:
            faults.append(TableFault(path, line, 0, f"{key[0]!r} is on {machine!r} twice"))
        seen[key] = key, line, row
    raise_all(faults)
    yield from seen.values()


def dates_in(shop: Instance, found: FoundOrder, path: str) -> Dates:
    """The dates of a schedule; none if its times are numbers. Its machines are those of the shop."""
    dates, faults = Dates(), list[TableFault]()
    if not all(PLAIN.fullmatch(cell) for _, row in found.rows for cell in row[2:4]):
        for key, line, row in operations_of(shop, found, path):
            texts = [*row, "", ""][2:4]
            start, end = map(moment_in, texts)
            if start and end:
                dates[key] = start, end
            faults += [TableFault(path, line, column, f"{text!r} isn't a date and time such as 2026-11-30 06:00: save "
                                  "the schedule as a workbook, which keeps dates")
                       for column, text, moment in zip((3, 4), texts, (start, end)) if moment is None]
        raise_all(faults)
    return dates


def marks_in(shop: Instance, found: FoundOrder, now: datetime, path: str) -> Marks:
    """What the columns `begun` and `ended` of a schedule say. A time of day is one of the day of `now`."""
    marks, faults = Marks(), list[TableFault]()
    for key, line, row in operations_of(shop, found, path) if found.columns else ():
        cells: list[datetime | bool | None] = []
        for column in map(found.columns.get, MARKS):
            text = row[column - 1].strip() if column and column <= len(row) else ""
            moment = moment_in(f"{now.date()} {text}" if re.match("[0-9]{1,2}:", text) else text)
            cells.append(moment or (text.casefold() in HAS if text else None))
            if moment is None and text.casefold() not in ("", *HAS, *HASNT):
                faults.append(TableFault(path, line, column or 0, f"{text!r} isn't a date and time, a time of day, x "
                                         "if that has happened, or - if it hasn't"))
        if cells != [None, None]:
            marks[key] = Mark(cells[0], cells[1], line)
    raise_all(faults)
    return marks


def moment_in(text: str) -> datetime | None:
    """A date and time of a schedule, or None if it isn't one."""
    if match := STAMP.fullmatch(iso_of(text)):
        day, clock, seconds, part = match.groups("")
        with contextlib.suppress(ValueError):  # a month or an hour that doesn't exist
            return datetime.fromisoformat(f"{day} {clock:0>5}{seconds or ':00'}.{part:0<6}")
    return None


def ends_of(dates: Dates) -> dict[str, datetime]:
    """When each job of a schedule ends, with its last operation that takes time."""
    ends = dict[str, datetime]()
    for (name, _), (start, end) in dates.items():
        if start < end:
            ends[name] = max(end, ends.get(name, end))
    return ends


def begun_before(shop: Instance, dates: Dates, clock: Clock) -> tuple[Instance, list[str]]:
    """The shop with the times that were left of jobs which had begun before a schedule that begins with the calendar,
    if the table has all of their times; and the names of these jobs. They are first in the schedule. On their first
    machines they take no time in it, and on the next one perhaps less, from its begin on."""
    begin, times, names, is_sure = clock.calendar.start(0), shop.times.copy(), list[str](), False
    if begin != min((start for start, end in dates.values() if start < end), default=None):
        return shop, []
    numbers = {shop.job_name(job): job for job in range(shop.jobs)}
    for name in dict.fromkeys(name for name, _ in dates if name in numbers):
        spans = [dates.get((name, machine), (begin, begin)) for machine in range(shop.machines)]
        row, work = shop.times[numbers[name]].tolist(), [clock.between(*span) for span in spans]
        at = next((machine for machine, time in enumerate(work) if time), 0)
        if work == row and row[0]:
            break
        is_cut = spans[at][0] == begin and (work[at] < row[at] or any(row[:at]))
        if any(work) and work != row and work[at + 1:] == row[at + 1:] and (is_cut or work[at] == row[at]):
            times[numbers[name]], is_sure = work, is_sure or any(row[:at])
            names.append(name)
    if not is_sure:  # jobs that take less on the machine on which they begin may be of another table
        return shop, []
    return shop_of(shop, [Row(shop.job_name(job), row) for job, row in enumerate(times)]), names


def ended_by(mark: Mark | None, planned: datetime, now: datetime) -> datetime:
    """When an operation ended, or will."""
    ended = mark and mark.ended
    return ended if isinstance(ended, datetime) else min(planned, now) if ended else planned


def with_finished(shop: Instance, found: FoundOrder, dates: Dates, marks: Marks, clock: Clock, now: datetime) -> tuple[
        Instance, FoundOrder]:
    """The shop and the order, with the jobs that the table lacks and that are finished by then. Their times are those
    between their dates."""
    rows, names, order, gone = list[list[int]](), list[str](), list[int](), dict[str, int]()
    for place in range(len(found.jobs) + 1):
        for name in (name for name, before in found.gone.items() if before == place):
            own = [dates.get((name, machine)) for machine in range(shop.machines)]
            last = max((ended_by(marks.get((name, machine)), span[1], now) for machine, span in enumerate(own)
                        if span and span[0] < span[1]), default=clock.calendar.begin)
            if clock.calendar.begin < last <= now:
                order.append(shop.jobs + len(rows))
                rows.append([clock.between(*span) if span else 0 for span in own])
                names.append(name)
            else:
                gone[name] = len(order)
        order += found.jobs[place:place + 1]
    if rows:
        shop = shop_of(shop, [*(Row(shop.job_name(job), row) for job, row in enumerate(shop.times)),
                              *(Row(name, np.array(row)) for name, row in zip(names, rows))])
    return shop, found._replace(jobs=order, gone=gone)


def check_past(shop: Instance, order: Sequence[int], dates: Dates, clock: Clock, now: datetime, path: str) -> None:
    """Raise an error that names the first operation, unless a schedule says what is computed of the work from the begin
    up to a moment."""
    first = min(differences(shop, order, dates, clock, now), default=None, key=lambda each: each[:3])
    if first is None:
        return
    what = f"{shop.job_name(order[first.place])!r} {{}} on {shop.machine_name(first.machine)!r}".format
    said, own, by = first.said, first.own, "by this table and these shifts"
    if own is None:
        text = f"{what('starts')} at {exact(said[0] if said else now)}, and takes no time there in this table"
    elif said is None or said[0] == said[1]:
        text = f"has no work of {what('')}, where it starts at {exact(own[0])} {by}".replace("  ", " ")
    else:
        at = int(abs(clipped(said[0], clock, now) - clipped(own[0], clock, now)) <= slack_of(dates))
        text = f"{what(('starts', 'ends')[at])} at {exact(said[at])}, but {by} at {exact(own[at])}"
    raise ValueError(f"{path}: {text}: {WHAT_TO_DO}")


def differences(shop: Instance, order: Sequence[int], dates: Dates, clock: Clock, now: datetime) -> Iterator[
        Difference]:
    """The operations of which a schedule says something else, up to a moment."""
    (starts, ends), slack = spans_of(shop, order), slack_of(dates)
    for place, job in enumerate(order):
        for machine, (start, end) in enumerate(zip(starts[place].tolist(), ends[place].tolist())):
            said = dates.get((shop.job_name(job), machine))
            own = clock.span(start, end) if start < end else None
            spans = [[clipped(moment, clock, now) for moment in span or (now, now)] for span in (said, own)]
            worked = [span for span in spans if span[0] < span[1]]
            if worked and any(abs(said_of - own_of) > slack for said_of, own_of in zip(*spans)):
                is_end = abs(spans[0][0] - spans[1][0]) <= slack
                moment = min(span[1] for span in spans) if is_end else min(span[0] for span in worked)
                yield Difference(moment, place, machine, said, own)


def slack_of(dates: Dates) -> timedelta:
    """By how much equal moments may differ."""
    return ROUNDED if any(moment.second or moment.microsecond for span in dates.values() for moment in span) else \
        MINUTE - ROUNDED


def clipped(moment: datetime, clock: Clock, now: datetime) -> datetime:
    """The nearest moment from the begin up to now."""
    return min(max(moment, clock.calendar.begin), now)


def exact(moment: datetime) -> str:
    """A moment with the digits that it needs."""
    return text_of(moment, 6 if moment.microsecond else 0 if moment.second else -1)


def is_of_another(shop: Instance, found: FoundOrder, path: str) -> str:
    """What shows that a schedule is of another table, whatever its shifts were: an operation that takes another time,
    or longer than there is time between its dates."""
    numbers = {shop.job_name(job): job for job in range(shop.jobs)}
    try:
        operations = [*operations_of(shop, found, path)]
    except TableFault as fault:
        return fault.text
    for (name, machine), _, row in operations:
        start, end = [*row, "", ""][2:4]
        time = int(shop.times[numbers[name], machine]) if name in numbers else 0
        if name in numbers and takes_another(shop, time, start, end):
            return (f"is of another table: {name!r} is on {shop.machine_name(machine)!r} from {start} to {end}, and "
                    f"takes {amount(time, shop.decimals, shop.unit)} in this one")
    return ""


def takes_another(shop: Instance, time: int, start: str, end: str) -> bool:
    """Whether an operation with these times or dates takes another time than this, for sure."""
    first, last, seconds = moment_in(start), moment_in(end), seconds_in(shop.unit)
    if first and last and seconds:
        own = timedelta(seconds=time * seconds / 10**shop.decimals)
        is_exact = not own % MINUTE or first.second or last.second
        return last - first + (2 * ROUNDED if is_exact else MINUTE) < own
    from_, to = number_in(start), number_in(end)
    return from_ is not None and to is not None and to - from_ != Fraction(time, 10**shop.decimals)


def number_in(text: str) -> Fraction | None:
    """A time of a schedule without dates."""
    if match := PLAIN.fullmatch(text):
        return Fraction(60 * int(match[1]) + int(match[3]) if match[2] == ":" else text.replace(",", "."))
    return None
