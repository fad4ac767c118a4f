"""Dates and times of day for the times of a schedule: by hand, against a walk minute by minute, in files and charts."""
import copy
import datetime
import itertools
import pathlib
import re
from collections.abc import Callable, Iterator
from typing import Any, NamedTuple
from xml.etree import ElementTree

import numpy as np
import pfs
import pytest
from hypothesis import assume, given
from hypothesis import strategies as st
from pfs.schedules.calendar import Clock

DAY = datetime.timedelta(days=1)
DAYS = ["mon", "tue", "wed", "thu", "fri", "sat", "sun"]
EARLY = {"shifts": "06:00-14:00", "days": "mon-fri"}
ALWAYS: dict[str, Any] = {}
# A calendar, the times of an operation in minutes, and when it starts and ends. 2026-11-30 is a Monday.
BY_HAND: dict[str, tuple[str, dict[str, Any], int, int, str, str]] = {
    "to midnight": ("2026-11-30T06:00", {"shifts": "16:00-24:00"}, 0, 480, "2026-11-30 16:00", "2026-12-01 00:00"),
    "days alone": ("2026-12-04T23:00", {"days": "mon,fri"}, 60, 120, "2026-12-07 00:00", "2026-12-07 01:00"),
    "the clocks change": ("2026-03-28T22:00", {"shifts": "22:00-06:00"}, 0, 480, "2026-03-28 22:00",
                          "2026-03-29 06:00"),
    "around the clock on other days": ("2026-12-03T12:00", {"shifts": "fri:06:00-07:00", "days": "mon-thu"}, 720, 721,
                                       "2026-12-04 06:00", "2026-12-04 06:01"),
    "closed over the new year": ("2026-12-23T06:00", EARLY | {"closed": ["2026-12-24..2027-01-01", "2027-01-05"]}, 470,
                                 970, "2026-12-23 13:50", "2027-01-06 06:10"),
    "late from Wednesday on": ("2026-11-30T06:00", {"shifts": ["06:00-14:00", "2026-12-02..:06:00-18:30"]}, 959, 1711,
                               "2026-12-01 13:59", "2026-12-03 06:01"),
    "from a date on twice": ("2026-12-02T06:00", {"shifts": [
        "2026-12-03..:08:00-10:00", "06:00-14:00", "2026-12-02 .. :07:00-08:00"]}, 0, 61, "2026-12-02 07:00",
        "2026-12-03 08:01"),
    "Fridays from a date on": ("2026-12-04T06:00", {"days": "mon-fri", "shifts": [
        "06:00-14:00", "fri:06:00-07:00", "2026-12-11..FRI:06:00-08:00", "2026-12-01..:06:00-10:00"]}, 60,
        60 + 4 * 240 + 240 + 120, "2026-12-07 06:00", "2026-12-14 10:00"),
    "a date after one from which on": ("2026-12-03T06:00", {"shifts": [
        "2026-12-02..:06:00-18:30", "2026-12-03:06:00-12:00"], "closed": "2026-12-04"}, 360, 361, "2026-12-05 06:00",
        "2026-12-05 06:01"),
    "no time at the begin": ("2026-11-30T05:00", EARLY, 0, 0, "2026-11-30 06:00", "2026-11-30 06:00"),
    "no time at the end of a shift": ("2026-11-30T06:00", EARLY, 480, 480, "2026-11-30 14:00", "2026-11-30 14:00"),
}


def clock_of(begin: str, words: dict[str, Any], unit: str = "min", decimals: int = 0) -> Clock:
    return Clock(pfs.Calendar(begin, **words), pfs.Instance([[1]], unit=unit, decimals=decimals))


@pytest.mark.parametrize("case", BY_HAND)
def test_calendars_by_hand(case: str) -> None:
    begin, words, start, end, first, last = BY_HAND[case]
    assert [str(moment) for moment in clock_of(begin, words).span(start, end)] == [f"{first}:00", f"{last}:00"]


@pytest.mark.parametrize(("unit", "decimals", "time", "end"), [
    ("min", 0, 90, "07:30:00"), ("Minuten", 1, 905, "07:30:30"), ("h", 0, 2, "08:00:00"), ("Std", 2, 125, "07:15:00"),
    ("s", 0, 61, "06:01:01"), ("S", 3, 1500, "06:00:01.500000"), ("d", 1, 5, "18:00:00"),
    ("h", 3, 1, "06:00:03.600000"), ("s", 9, 500, "06:00:00.000001"), ("s", 9, 499, "06:00:00"),
    ("min", 9, 10**9, "06:01:00")])
def test_units_and_decimals(unit: str, decimals: int, time: int, end: str) -> None:
    """To the nearest microsecond."""
    moment = clock_of("2026-11-30T06:00", ALWAYS, unit, decimals).span(0, time)[1]
    assert str(moment) == f"2026-11-30 {end}"


@pytest.mark.parametrize("decimals", range(8))
def test_seconds_have_as_many_decimals_as_they_need(decimals: int) -> None:
    """At most six; whole minutes have no seconds."""
    clock = clock_of("2026-11-30T06:00", ALWAYS, "s", decimals)
    times = (np.array([0, time * 10**decimals // 10**shift]) for time, shift in ((1, decimals), (1, 0), (60, 0)))
    assert [clock.digits(each) for each in times] == [min(decimals, 6), 0, -1]


class Drawn(NamedTuple):
    """A calendar: its shifts with their lengths, which don't overlap, a day of the week with the last of them alone,
    and a date with the first one alone. From the date `later` on, other days have the first one alone, too."""
    begin: datetime.datetime
    shifts: list[tuple[int, int]]
    days: list[int]
    closed: list[datetime.date]
    short: int
    extra: datetime.date
    later: datetime.date

    def starting(self, date: datetime.date) -> list[tuple[int, int]]:
        own = self.shifts[:1 if date >= self.later else None] if date.weekday() in self.days else []
        own = [] if date in self.closed else self.shifts[-1:] if date.weekday() == self.short else own
        return self.shifts[:1] if date == self.extra else own

    def minutes(self) -> Iterator[datetime.datetime]:
        """The minutes with work from the begin on, found by looking at one after the other."""
        moment = self.begin
        while True:
            minute, date = 60 * moment.hour + moment.minute, moment.date()
            if any(start <= at < start + length for at, day in ((minute, date), (minute + 1440, date - DAY))
                   for start, length in self.starting(day)):
                yield moment
            moment += datetime.timedelta(minutes=1)


@st.composite
def calendars(draw: st.DrawFn) -> Drawn:
    begin = draw(st.datetimes(datetime.datetime(1960, 1, 1), datetime.datetime(2090, 1, 1)))
    cuts = sorted(draw(st.sets(st.integers(0, 1439), min_size=2, max_size=6)))
    cuts = cuts[:len(cuts) // 2 * 2]
    if draw(st.booleans()):
        # The last shift crosses midnight.
        cuts = [*cuts[1:], cuts[0] + 1440]
    shifts = [(start, end - start) for start, end in zip(cuts[::2], cuts[1::2])]
    closed = [begin.date() + DAY * day for day in draw(st.sets(st.integers(-3, 12)))]
    days = sorted(draw(st.sets(st.integers(0, 6), min_size=1)))
    return Drawn(begin.replace(second=0, microsecond=0), shifts, days, closed, draw(st.integers(0, 6)),
                 *(begin.date() + DAY * draw(st.integers(-2, 14)) for _ in range(2)))


def calendar_of(drawn: Drawn) -> pfs.Calendar:
    words = ["-".join(f"{minute % 1440 // 60:02}:{minute % 60:02}" for minute in (start, start + length))
             for start, length in drawn.shifts]
    words += [f"{drawn.extra}:{words[0]}", f"{DAYS[drawn.short]}:{words[-1]}", f"{drawn.later}..:{words[0]}"]
    return pfs.Calendar(drawn.begin, words, [DAYS[day] for day in drawn.days], map(str, drawn.closed))


@given(calendars(), st.integers(1, 400))
def test_calendars_are_those_of_a_walk(drawn: Drawn, count: int) -> None:
    """Operations of a minute each take one minute with work after the other."""
    clock = Clock(calendar_of(drawn), pfs.Instance([[1]], unit="min"))
    minute = datetime.timedelta(minutes=1)
    due = [*itertools.islice(drawn.minutes(), count)]
    assert [clock.span(time, time + 1) for time in range(count)] == [(moment, moment + minute) for moment in due]
    assert clock.span(0, count) == (due[0], due[-1] + minute)
    at, days = 0, []
    for time, moment in enumerate(due):
        if moment.date() != due[at].date() or time == 0:
            at = time
            days.append((time, moment.strftime("%a %Y-%m-%d")))
    breaks = clock.breaks(count)
    assert [each for each in breaks if each[1]] == days
    gaps = [time for time in range(count) if time == 0 or due[time] - due[time - 1] > minute]
    assert set(gaps) <= {time for time, _ in breaks}, "each shift that begins after a break is marked"
    for end in gaps:
        assert clock.breaks(end) == [each for each in breaks if each[0] < end], "no shift from the end on is marked"


@given(calendars(), st.integers(0, 20), st.sampled_from(["{}..:00:00-01:00", "{}..sun:00:00-24:00", "{}:07:00-08:00"]))
def test_what_is_said_of_later_changes_nothing_before(drawn: Drawn, days: int, words: str) -> None:
    """No minute before the date, in which a night shift of the day before may still go on."""
    date, plain = max(drawn.begin.date(), drawn.begin.date() + DAY * days), calendar_of(drawn)
    rule = pfs.schedules.calendar.shifts_of(words.format(date))
    other = copy.copy(plain)
    own, open_days, closed = plain._rule
    other._rule = {**own, **rule}, open_days, closed
    try:
        other._find_spans()
    except ValueError as error:
        assert "overlap" in str(error)
        return
    until = (date - datetime.date(1970, 1, 5)).days * 86_400 * 10**6
    found = [[(start, min(end, until)) for start, end in itertools.islice(each._open(), 400) if start < until]
             for each in (plain, other)]
    assert found[0] == found[1]


@given(calendars(), st.lists(st.integers(0, 10**6), min_size=2, max_size=20), st.sampled_from(["s", "min", "h"]))
def test_dates_increase_and_lead_back_to_the_times(drawn: Drawn, times: list[int], unit: str) -> None:
    calendar = calendar_of(drawn)
    clock = Clock(calendar, pfs.Instance([[1]], unit=unit))
    times = sorted(set(times))
    moments = [moment for time in times for moment in clock.span(time, time + 1)]
    assume(len(times) > 1)
    assert moments == sorted(moments) and all(first < last for first, last in zip(moments[::2], moments[1::2]))
    spans, loop = calendar.spans, calendar.loop
    week = sum(end - start for start, end in spans[loop:])
    for time, last in zip(times, moments[1::2]):
        past = (last - datetime.datetime(1970, 1, 5)) // datetime.timedelta(microseconds=1)
        weeks = max(0, (past - spans[loop][0]) // (7 * 86_400 * 10**6))
        rest = past - weeks * 7 * 86_400 * 10**6
        worked = weeks * week + sum(min(rest, end) - start for start, end in spans if start < rest)
        assert worked == (time + 1) * {"s": 1, "min": 60, "h": 3600}[unit] * 10**6, "the working time up to a moment"


@pytest.mark.parametrize(("words", "kind", "why"), [
    ({"begin": "2026-11-30T6"}, ValueError, "'2026-11-30T6' is not a local date and time such as 2026-11-30T06:00"),
    *(({"begin": begin}, ValueError, "is not a local date and time") for begin in (
        "2026-11-31T06:00", "2026-11-30T24:00", "2026-11-30T06:00+01:00", "\u0662026-11-30T06:00")),
    ({"begin": 2026}, TypeError, "begin must be a date and time, not 2026"),
    ({"begin": datetime.datetime(2026, 11, 30, tzinfo=datetime.timezone.utc)}, ValueError, "without a time zone"),
    ({"begin": datetime.datetime(2026, 11, 30, microsecond=1)}, ValueError, "in whole seconds"),
    ({"shifts": "6-14"}, ValueError, "'6-14' is not a shift such as 06:00-14:00"),
    *(({"shifts": shifts}, ValueError, f"{shifts.removeprefix('fri:')!r} is not a shift")
      for shifts in ("06:00", "", "fri:", "fri")),
    ({"shifts": "06:00-14:60"}, ValueError, "'06:00-14:60' is not a shift such as 06:00-14:00: 14:60 is not a time"),
    ({"shifts": "06:00-24:01"}, ValueError, "24:01 is not a time of day"),
    ({"shifts": "06:00-06:00"}, ValueError, "'06:00-06:00' has no length: a whole day is 00:00-24:00"),
    ({"shifts": "24:00-06:00"}, ValueError, "'24:00-06:00' starts at 24:00: write 00:00"),
    ({"shifts": "06:00-14:00,13:00-20:00"}, ValueError, "shifts overlap on Mon 2026-11-30 at 13:00"),
    ({"shifts": ["22:00-06:00", "05:00-13:00"]}, ValueError, "shifts overlap on Tue 2026-12-01 at 05:00"),
    ({"shifts": ["00:00-24:00", "05:00-13:00"]}, ValueError, "shifts overlap on Mon 2026-11-30 at 06:00"),
    ({"shifts": ["sun:22:00-06:00", "mon:05:00-13:00"]}, ValueError, "shifts overlap on Mon 2026-12-07 at 05:00"),
    ({"shifts": ["22:00-06:00", "2026-12-05:05:00-13:00"]}, ValueError, "shifts overlap on Sat 2026-12-05 at 05:00"),
    ({"shifts": ["mon-fri:06:00-14:00", "fri:06:00-12:00"]}, ValueError, "shifts overlap on Fri 2026-12-04 at 06:00"),
    ({"begin": "9999-12-31T23:59", "shifts": "06:00-14:00,13:00-20:00"}, ValueError, "ends after the year 9999"),
    ({"begin": "2026-12-01T06:00", "closed": "2026-12-01", "shifts": ["tue:22:00-06:00", "wed:05:00-07:00"]},
     ValueError, "shifts overlap on Wed 2026-12-09 at 05:00"),
    ({"shifts": "fry:06:00-12:00"}, ValueError, "'fry' is not a day of the week"),
    *(({"shifts": f"2026-11-31{since}:06:00-12:00"}, ValueError, "'2026-11-31' is not a date such as 2026-12-24")
      for since in ("", "..", "..fri")),
    ({"shifts": "2026-12-02..fry:06:00-12:00"}, ValueError, "'fry' is not a day of the week"),
    ({"shifts": "2036-12-08..:06:00-12:00"}, ValueError, "2036-12-08 is more than ten years after the begin"),
    ({"shifts": ["2026-12-02..:06:00-14:00", "2026-12-02..:08:00-12:00"]}, ValueError, "overlap on Wed 2026-12-02"),
    ({"closed": "24.12.2026"}, ValueError, "'24.12.2026' is not a date such as 2026-12-24, or dates such as "),
    ({"closed": "20261224"}, ValueError, "is not a date"), ({"closed": ""}, ValueError, "'' is not a date"),
    ({"closed": "2026-12-24..2026-12-23"}, ValueError, "is not a first and a last date, as 2026-12-24..2027-01-01 is"),
    ({"closed": "2026-12-24..2026-12-25..2026-12-26"}, ValueError, "is not a first and a last date"),
    ({"closed": "2036-12-08"}, ValueError, "2036-12-08 is more than ten years after the begin"),
    ({"closed": [24]}, TypeError, "dates must be texts, not 24"),
    ({"shifts": [6]}, TypeError, "shifts must be texts, not 6"),
    ({"days": "mo-fr"}, ValueError, "'mo-fr' is not a day of the week such as mon, or days such as mon-fri"),
    ({"days": "mon-wed-fri"}, ValueError, "is not a day"), ({"days": ""}, ValueError, "'' is not a day"),
    ({"days": "mon,,tue"}, ValueError, "'' is not a day"),
    ({"days": "mon-mon"}, ValueError, "'mon-mon' has the same day twice: write mon"),
    ({"days": "mon-wed,tue"}, ValueError, "the day tue is there twice"),
    ({"days": [1]}, TypeError, "days must be texts, not 1"),
])
def test_calendars_that_are_rejected(words: dict[str, Any], kind: type[Exception], why: str) -> None:
    with pytest.raises(kind, match=re.escape(why)):
        pfs.Calendar(**{"begin": "2026-11-30T06:00"} | words)


def test_what_is_read_as_the_same_calendar() -> None:
    plain = pfs.Calendar("2026-11-30T06:00", ["06:00-14:00", "14:00-22:00"], "mon-wed")
    begins: list[str | datetime.datetime] = ["2026-11-30 06:00", "2026-11-30T06:00:00",
                                             datetime.datetime(2026, 11, 30, 6)]
    for begin in begins:
        other = pfs.Calendar(begin, "14:00-22:00, 6:00-14:00", ["MON", "wed", "tue"])
        assert (other.begin, other.spans, other.loop) == (plain.begin, plain.spans, plain.loop)
    for shifts in (["mon-wed:06:00-14:00,14:00-22:00"],
                   ["mon,Tue:06:00-14:00,14:00-22:00", "wed:14:00-22:00,06:00-14:00"]):
        assert pfs.Calendar("2026-11-30T06:00", shifts).spans == plain.spans
    dated = [pfs.Calendar("2026-11-30T06:00", f"2026-12-05:{words}").spans
             for words in ("06:00-09:00,10:00-14:00", "10:00-14:00,06:00-09:00")]
    assert dated[0] == dated[1]
    assert pfs.Calendar("2026-11-30T06:00", "06:00-14:00,14:00-22:00,22:00-06:00").is_always
    assert pfs.Calendar("2026-11-30T06:00").is_always and not plain.is_always
    assert not pfs.Calendar("2026-11-30T06:00", closed="2026-12-24").is_always
    assert not pfs.Calendar("2026-11-30T06:00", closed="2036-12-07").is_always, "as far ahead as it may be"


@given(st.sampled_from([("s", 0), ("s", 2), ("min", 0), ("min", 1), ("h", 0), ("h", 3), ("d", 0)]),
       st.integers(0, 10**6) | st.integers(0, 600) | st.integers(1, 3), st.integers(1, 30))
def test_marks_are_as_close_as_there_is_room_for(unit: tuple[str, int], end: int, most: int) -> None:
    """At whole seconds, minutes or hours, each with its time of day, and with the date if it is another one."""
    seconds = {"s": 1, "min": 60, "h": 3_600, "d": 86_400}[unit[0]] / 10**unit[1]
    steps = [1, 2, 5, 10, 15, 30, 60, 120, 300, 600, 900, 1_800, *(3_600 * 2**at for at in range(30))]
    step = next(step for step in steps if step * most >= end * seconds)
    times = [number * step for number in range(int(end * seconds / step + 1e-9) + 1)]
    marks = clock_of("2026-11-30T06:00", ALWAYS, *unit).marks(end, most)
    assert [at * seconds for at, _ in marks] == pytest.approx(times)
    moments = [datetime.datetime(2026, 11, 30, 6) + datetime.timedelta(seconds=time) for time in times]
    days = ["", *(moment.strftime("\n%a %Y-%m-%d") for moment in moments)]
    assert [text for _, text in marks] == [
        f"{moment:{'%H:%M:%S' if step < 60 else '%H:%M'}}{day if day != before else ''}"
        for moment, day, before in zip(moments, days[1:], days)]


def test_a_chart_has_at_most_400_breaks() -> None:
    clock = clock_of("2026-11-30", ALWAYS, "d")
    assert ([at for at, _ in clock.breaks(400)], clock.breaks(401)) == ([*range(400)], [])


def test_days_from_one_to_another() -> None:
    """Also over the end of the week."""
    for first, count in itertools.product(range(7), range(2, 8)):
        days = [DAYS[(first + at) % 7] for at in range(count)]
        one, other = (pfs.Calendar("2026-11-30", "06:00-14:00", words) for words in (f"{days[0]}-{days[-1]}", days))
        assert one.spans == other.spans


NEEDED = "which dates need: write min, h, s or d in brackets into the first cell of the table, as in 'job [min]', or " \
         "set "


@pytest.mark.parametrize(("unit", "why"), [
    ("", f"the times have no unit, {NEEDED}`unit`"), ("pieces", f"'pieces' is not a unit of time, {NEEDED}`unit`"),
    ("d", "a day of work may be 24 hours or the shifts of a day: write the times in hours")])
def test_units_that_have_no_dates(tmp_path: pathlib.Path, unit: str, why: str) -> None:
    made = pfs.Instance([[3, 2]], unit=unit).schedule([0])
    calendar = pfs.Calendar("2026-11-30T06:00", days="mon-fri")
    writers: list[Callable[..., object]] = [made.to_csv, made.plot, made.to_ics]
    for write in writers:
        with pytest.raises(ValueError, match=f"^{re.escape(why)}$"):
            write(tmp_path / "plan.html", calendar=calendar)
    assert not list(tmp_path.iterdir())


# Files

@pytest.mark.parametrize(("unit", "decimals", "begin", "rows"), [
    ("min", 0, "2026-11-30T06:00:20", ["a;x;2026-11-30 06:00:20;2026-11-30 06:30:20",
                                       "a;y;2026-11-30 06:30:20;2026-11-30 06:45:20"]),
    ("s", 0, "2026-11-30T06:00", ["a;x;2026-11-30 06:00:00;2026-11-30 06:00:30",
                                  "a;y;2026-11-30 06:00:30;2026-11-30 06:00:45"]),
    ("s", 2, "2026-11-30T06:00", ["a;x;2026-11-30 06:00:00,00;2026-11-30 06:00:00,30",
                                  "a;y;2026-11-30 06:00:00,30;2026-11-30 06:00:00,45"]),
])
def test_a_schedule_has_dates(unit: str, decimals: int, begin: str, rows: list[str]) -> None:
    """As exact as all of its times need."""
    shop = pfs.Instance([[30, 15]], job_names=["a"], machine_names=["x", "y"], unit=unit, decimals=decimals)
    text = shop.schedule([0]).to_csv(None, ";", calendar=pfs.Calendar(begin, **EARLY))
    assert text is not None and text.splitlines() == ["job;machine;start;end", *rows]


def test_a_picture_has_dates_on_its_scale(tmp_path: pathlib.Path) -> None:
    """The work begins at 12:00, and the shift of 8 hours ends at 14:00."""
    pytest.importorskip("matplotlib")
    made = pfs.Instance([[240, 250, 0], [200, 500, 150], [400, 100, 200]], unit="min").schedule([1, 0, 2])
    figure = made.plot(tmp_path / "chart.svg", calendar=pfs.Calendar("2026-11-30T12:00", **EARLY))
    axis = figure.axes[0]
    marks = [(mark.get_position()[0], mark.get_text()) for mark in axis.get_xticklabels()]
    assert marks == [(0, "12:00\nMon 2026-11-30"), (240, "08:00\nTue 2026-12-01"), (480, "12:00"),
                     (720, "08:00\nWed 2026-12-02"), (960, "12:00"), (1200, "08:00\nThu 2026-12-03")]
    days, = (lines for lines in axis.collections if lines.get_gid() == "days")
    assert [segment[0][0] for segment in days.get_segments()] == [120, 600, 1080], "where a day begins"
    assert axis.get_xlabel() == "date and time, in shifts only"
    texts = {text.text for text in ElementTree.parse(tmp_path / "chart.svg").iter("{http://www.w3.org/2000/svg}text")}
    assert {"Mon 2026-11-30", "Wed 2026-12-02"} <= texts
    always = made.plot(calendar=pfs.Calendar("2026-11-30T12:00"))
    assert always.axes[0].get_xlabel() == "date and time"
    assert made.plot().axes[0].get_xlabel() == "time (min)"
    assert axis.get_title().endswith(" min, end Thu 2026-12-03 08:50")
    assert not made.plot().axes[0].get_title().endswith(" min")
