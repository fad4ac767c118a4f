"""Pages of charts, looked at in a browser, most of them in frames of one window. What the pen does is compared with
`drawing`, which says what a reader expects of a schedule."""
import datetime
import itertools
import json
import math
import pathlib
import random
import re
from collections.abc import Iterator, Sequence
from typing import Any, NamedTuple
from unittest import mock

import pfs
import pytest
from pfs.schedules import chart as _chart, drawing as _drawing
from pfs.schedules.calendar import Clock
from support.browser import PEN, all_looked_at, looked_at, printed, scripted
from support.colours import contrast, hexadecimal
from support.needs import tool
from support.tools import output_of

pytestmark = pytest.mark.xdist_group("pages of charts")
TIMES = [[30, 25, 0], [20, 50, 15], [40, 10, 20]]
MACHINES = ["saw", "drill", "paint"]
# Paper, letters, lines, the scale, and idle time.
LIGHT = "#ffffff", "#111111", "#000000", "#888888", "#d9d9d9"
DARK = "#181a1b", "#e8e6e3", "#ffffff", "#999999", "#3c4043"
# The sizes of letters. Where the pen is noted, an i or an l is a quarter as wide as high, and others are twice as wide.
LETTERS, SMALL = 12, 9
MEASURED = """
pen.measureText = text => ({width: parseFloat(pen.font) / 4 * (2 * [...text].length - text.split(/[il]/).length + 1)});
"""


def width(text: str, letters: int) -> float:
    return letters / 4 * (2 * len(text) - len(re.findall("[il]", text)))


def cut(text: str, letters: int, room: float) -> str:
    """A text, or as much of its beginning as there is room for."""
    made = [text, *(text[:many].rstrip() + "\u2026" for many in range(len(text) - 1, 0, -1))]
    return next((each for each in made if width(each, letters) <= room), "\u2026")


class Look(NamedTuple):
    """What is looked at: a chart on a canvas of this width, from one time to another one or to the end; on a screen
    with this number of pixels for one of CSS, light or dark, or on paper; the operation that one points at, by machine
    and place; and the places of the jobs that are sought."""
    made: pfs.Schedule
    calendar: pfs.Calendar | None = None
    critical: bool = False
    bound: int | None = None
    wide: int = 1140
    first: float = 0
    last: float = 0
    pixels: float = 1
    dark: bool = False
    paper: str = ""
    pointed: tuple[int, int] | None = None
    sought: tuple[int, ...] = ()


class Layout:
    """Where times and machines are, and what is written there."""

    def __init__(self, look: Look) -> None:
        self.look, self.shop, order = look, look.made.instance, look.made.order.tolist()
        self.clock = Clock(look.calendar, self.shop) if look.calendar else None
        self.first, self.last = look.first, look.last or max(1, look.made.makespan)
        self.row, self.top = max(14, min(36, 720 / self.shop.machines)), 20 if self.clock else 6
        self.bottom = self.top + self.shop.machines * self.row
        self.height = self.bottom + (58 if self.clock else 44)
        paper = max(1500 if look.paper == "A3" else 1040, math.ceil(self.height * 1.6))
        self.wide = paper if look.paper else look.wide or 1000
        self.is_narrow = self.wide < 600
        self.machines = [self.shop.machine_name(machine) for machine in range(self.shop.machines)]
        longest = max(width(name, LETTERS) for name in self.machines)
        self.left = min(self.wide / (5 if self.is_narrow else 3), 16 + longest)
        self.right = self.wide - (40 if self.is_narrow else 76)
        self.jobs, self.fills = [*map(self.shop.job_name, order)], _drawing.colours([job + 1 for job in order])
        self.sign = "#" if any(name.isdecimal() for name in self.jobs) else ""

    def x(self, time: float) -> float:
        return self.left + (time - self.first) / (self.last - self.first) * (self.right - self.left)

    def spans(self, machine: int) -> list[tuple[int, int]]:
        """Start and end of each operation of a machine."""
        return [*zip(self.look.made.starts[:, machine].tolist(), self.look.made.ends[:, machine].tolist())]

    def bars(self, machine: int) -> Iterator[tuple[int, int, int]]:
        """Place, start and end of the operations that are drawn: of many within a pixel one."""
        pixel = None
        for place, (start, end) in enumerate(self.spans(machine)):
            is_seen, x = start < end and start < self.last and end > self.first, self.x(start)
            if is_seen and (self.x(end) - x >= 1 or math.floor(x) != pixel):
                pixel = math.floor(x)
                yield place, start, end

    def label(self, place: int, start: float, end: float) -> tuple[str, int, float]:
        """What is written in the middle of what is seen of a bar: the job's name, or in small letters its place in the
        key, with the beginning of the name where there is room."""
        begin, close = max(self.x(start), self.left), min(self.x(end), self.right)
        room, name, number = close - begin, self.jobs[place], f"{self.sign}{place + 1}"
        if room > 10 and width(name, LETTERS) + 6 < room:
            return name, LETTERS, (begin + close) / 2
        if self.shop.job_names is None or width(number, SMALL) + 2 >= room:
            return "", SMALL, 0
        longer = cut(f"{number} {name}", SMALL, room - 4)
        is_enough = room >= 40 and len(longer) >= len(number) + 6
        return longer if is_enough else number, SMALL, (begin + close) / 2

    def key(self) -> list[list[str]]:
        """The places and names of the jobs that are seen, with their colours, if a bar has no name."""
        labels = [self.label(*bar) for machine in range(self.shop.machines) for bar in self.bars(machine)]
        is_needed = self.shop.job_names is not None and any(letters == SMALL for _, letters, _ in labels)
        seen = {place for machine in range(self.shop.machines) for place, (start, end) in enumerate(self.spans(machine))
                if start < self.last and end > self.first}
        return [[f"\u25a0 {self.sign}{place + 1} {self.jobs[place]}",
                 "rgb({}, {}, {})".format(*(round(255 * part) for part in self.fills[place]))]
                for place in sorted(seen) if is_needed]

    def marks(self) -> Iterator[tuple[float, str, str]]:
        """The times of the scale, at least 80 pixels apart, each with its text and its date."""
        least, is_clock = (self.last - self.first) * 80 / (self.right - self.left), self.shop.unit == "h:mm"
        steps = self.clock.steps() if self.clock else _chart.MINUTES if is_clock else (
            digit * 10**zeros for zeros in itertools.count() for digit in (1, 2, 5))
        step = next(step for step in steps if step >= least)
        time = math.ceil(self.first / step) * step
        while time <= self.last:
            text, date = f"{time / 10**self.shop.decimals:.{self.shop.decimals}f}", ""
            if self.clock:
                tick = self.clock.tick / self.clock.scale
                moment = self.clock.calendar.start(round(time * tick))
                text, date = moment.strftime("%H:%M:%S" if step * tick < 60e6 else "%H:%M"), f"{moment:%a %Y-%m-%d}"
            yield time, f"{time // 60}:{time % 60:02}" if is_clock else text, date
            time += step


def drawing(look: Look) -> Iterator[list[Any]]:
    """What the pen does, in this order, with what it depends on."""
    at, made = Layout(look), look.made
    paper, ink, black, grey, idle = DARK if look.dark and not look.paper else LIGHT
    fine = min(look.pixels, 8192 / at.wide) if look.paper else look.pixels

    def text(what: str, x: float, y: float, align: str, letters: int = LETTERS, colour: str = ink,
             alpha: float = 1) -> list[Any]:
        return ["fillText", what, x, y, align, "middle", f"{letters}px system-ui, sans-serif", colour, alpha]

    def line(time: float, top: float, bottom: float, colour: str, wide: float, *dashes: int) -> list[Any]:
        return ["stroke", at.x(time), top, at.x(time), bottom, colour, 1, wide, *dashes]

    def outline(machine: int, start: int, end: int, wide: float, inside: int) -> Iterator[list[Any]]:
        x, long = at.x(start), at.x(end) - at.x(start)
        if start < end:
            yield ["strokeRect", x + inside, at.top + at.row * (machine + 0.1) + inside,
                   max(2, long - 3) if inside else long, at.row * 0.8 - 2 * inside, black, 1, wide]

    yield ["scale", fine, fine, int(at.wide * fine), int(at.height * fine), at.height]
    yield ["save"]
    yield ["clip", at.left - 1, 0, at.right - at.left + 2, at.height]
    for machine in range(at.shop.machines):
        y, high = at.top + at.row * (machine + 0.1), at.row * 0.8
        yield ["fillRect", at.x(0), y, at.x(made.makespan) - at.x(0), high, idle, 1]
        for place, start, end in at.bars(machine):
            long, alpha = at.x(end) - at.x(start), 0.2 if look.sought and place not in look.sought else 1
            yield ["fillRect", at.x(start), y, long - 1 if long > 4 else max(long, 0.6), high,
                   hexadecimal(at.fills[place]), alpha]
            label, letters, middle = at.label(place, start, end)
            if label:
                colour = {"black": "#000000", "white": "#ffffff"}[_drawing.ink(at.fills[place])]
                yield text(label, middle, y + high / 2, "center", letters, colour, alpha)
            if look.pointed and look.pointed[1] == place:
                yield from outline(machine, start, end, 3 if look.pointed[0] == machine else 1.5, 1)
    breaks = [each for each in at.clock.breaks(made.makespan) if at.first <= each[0] < at.last] if at.clock else []
    days = [(time, day) for time, day in breaks if day]
    for time, day in days if at.right - at.left < 5 * len(breaks) else breaks:
        yield line(time, 6, at.bottom, black, 1) if day else line(time, at.top, at.bottom, grey, 1, 3, 3)
    for (time, day), close in zip(days, [*(at.x(time) for time, _ in days[1:]), at.right]):
        texts = [each for each in (day, day[:4] + day[9:], day[:3]) if width(each, SMALL) < close - at.x(time) - 6]
        yield from [text(each, at.x(time) + 3, 11, "left", SMALL) for each in texts[:1]]
    path = _drawing.critical_path(made.starts, made.ends) if look.critical else []
    for machine, group in itertools.groupby(path, lambda operation: operation[1]):
        places = [place for place, _ in group]
        yield from outline(machine, at.spans(machine)[places[0]][0], at.spans(machine)[places[-1]][1], 2, 0)
    if look.bound is not None:
        yield line(look.bound, 0, at.bottom, paper, 3)
        yield line(look.bound, 0, at.bottom, black, 1.5, 6, 4)
    yield ["restore"]
    for machine, name in enumerate(at.machines):
        y, busy = at.top + at.row * (machine + 0.5), sum(end - start for start, end in at.spans(machine))
        yield text(cut(name, LETTERS, at.left - 10), at.left - 8, y, "right")
        if made.makespan:
            share = f"{100 - 100 * busy / made.makespan:.0f} %"
            yield text(share if machine or at.is_narrow else f"{share} idle", at.right + 8, y, "left")
    before, free = "", -math.inf
    for time, mark, date in at.marks():
        x, half = at.x(time), width(date, LETTERS) / 2 + 3
        yield line(time, at.bottom, at.bottom + 5, grey, 1)
        yield text(mark, x, at.bottom + 14, "center")
        if date != before and x - half >= free:
            yield text(date, x, at.bottom + 28, "center")
            before, free = date, x + half
    dates = "date and time" if look.calendar and look.calendar.is_always else "date and time, in shifts only"
    title = dates if at.clock else f"time ({at.shop.unit or 'units of the instance'})"
    yield text(title, (at.left + at.right) / 2, at.bottom + (46 if at.clock else 32), "center")


def assert_drawn(calls: list[list[Any]], look: Look) -> None:
    due = [*drawing(look)]
    for at, (got, wanted) in enumerate(zip(calls, due)):
        assert got == [pytest.approx(each, abs=1e-6) if isinstance(each, (int, float)) else each
                       for each in wanted], f"{look[4:]}: after {calls[:at][-2:]}"
    assert len(calls) == len(due), look


def just_fitting(last: str) -> pfs.Schedule:
    """A unit is a pixel where the canvas is 1140 wide: names and places just fit, or just don't fit."""
    lengths = {"i": 10, "l": 11, "box": 24, "bed": 25, "cupboard of oak": 6, "bench and back": 7, "oaks of Norway": 39,
               "oak tower of oak": 40, "oaks a row of them": 41, "doors of oak": 11, "stoop of oak": 12, "oak desk": 40,
               "oaken desk": 40, "stage": 4, "chest": 5, last: 1, "y": 0, "wardrobe " * 9 + "z": 300}
    times = [[length, 7 * at % 23, 5 * at % 11] for at, length in enumerate(lengths.values(), 1)]
    times[-1][-1] += 1024 - pfs.Instance(times).schedule(range(len(times))).makespan
    return pfs.Instance(times, job_names=[*lengths], machine_names=["saw", "drum", "oven"], unit="mm").schedule(
        range(len(times)))


CALENDARS = [(pfs.Calendar(*words), unit) for unit, *words in (
    ("h", "2026-12-30T12:00"), ("min", "1969-12-30T22:00:07", "22:00-06:00", "mon-fri"),
    ("s", "1969-12-31T23:59:50", "23:59-00:01"), ("min", "2026-12-06T23:00", "22:00-06:00", "sun"),
    ("min", "2026-11-30T10:40", "06:00-14:00", "mon-fri"),
    ("min", "2026-12-23T06:00", "06:00-10:00,10:30-14:00", "mon,wed,sun", "2026-12-24..2027-01-03"))]


def looks(look: Look, *others: dict[str, Any]) -> list[Look]:
    return [look._replace(**more) for more in others]


def generated(jobs: int, machines: int, name: str = "") -> pfs.Schedule:
    names = [f"{name} {4000 + job}, Lack" for job in range(jobs)] if name else None
    return pfs.Instance(pfs.generate(jobs, machines, 7).times, job_names=names, unit="min").schedule(range(jobs))


FITTING = Look(just_fitting("z"), critical=True, bound=800)
LOOKS: dict[str, list[Look]] = {
    "names that just fit": looks(
        FITTING, {}, dict(first=256, last=768), dict(first=288, last=800), dict(first=128, last=768, dark=True),
        dict(wide=592, pixels=2), dict(wide=600, pixels=1.5), dict(wide=599), dict(wide=0), dict(pixels=4, paper="A4"),
        dict(pixels=4, paper="A3", dark=True), dict(pointed=(0, 2)), dict(pointed=(1, 4)), dict(pointed=(2, 17)),
        dict(sought=(2, 17))),
    "a name that is a number": [Look(just_fitting("4711"), bound=0)],
    "8 hours a day": looks(
        Look(pfs.Instance([[500, 100], [400, 200]], unit="h", machine_names=["saw", "drum"]).schedule([0, 1]),
             pfs.Calendar("2026-11-30T06:00", "06:00-10:00,11:00-15:00"), True, 1000),
        dict(wide=1491), dict(wide=1490), *(dict(wide=wide, last=last) for wide, last in (
            (1220, 128), (1236, 128), (860, 128), (740, 256), (836, 64))), dict(wide=828, last=64, dark=True),
        dict(first=64, last=192), dict(first=32, last=232, wide=500), dict(paper="A4", pixels=4)),
    "other shifts": looks(
        Look(pfs.Instance([[4800, 0, 3000], [600, 24_000, 0], [2400, 0, 9], [1, 1, 0]], unit="min", decimals=1,
                          job_names=[*"abcd"], machine_names=MACHINES).schedule([2, 0, 1, 3]),
             pfs.Calendar("2026-11-27T12:00:30", ["06:00-14:00", "fri:22:00-02:00"], "mon-fri", "2026-11-30"), True),
        {}, dict(first=3000, last=3040), dict(first=3000, last=3100), dict(first=4700, last=4710), dict(last=600)),
    "hours and minutes": looks(Look(pfs.Instance([[90, 45], [30, 600]], unit="h:mm").schedule([1, 0]), critical=True),
                               dict(wide=500), dict(wide=1000, first=90, last=330)),
    "many operations": looks(Look(generated(1500, 1)), {}, dict(first=1000, last=3000)),
    "rows of 14 pixels": [Look(generated(3, 60))], "rows of 18 pixels": [Look(generated(3, 40))],
    "a long page": [Look(generated(2, 199), pixels=4, paper="A4")],
    "no work": looks(Look(pfs.Instance([[0, 0]] * 2, machine_names=["saw", "il " * 40]).schedule([0, 1]), None, True),
                     dict(wide=900), dict(wide=450)),
    **{f"from {calendar.begin} on": [Look(pfs.Instance(
        [[240, 250, 0], [200, 500, 150], [400, 100, 205]], unit=unit, decimals=7 if unit == "s" else 0,
        machine_names=MACHINES).schedule([1, 0, 2]), calendar)] for calendar, unit in CALENDARS},
}
LOOKED = MEASURED + """
function items(list) {
  return [...list.querySelectorAll("li")].map(each => [each.textContent, each.firstChild.style.color]);
}
function looked(look) {
  canvas.style.width = `${look.wide}px`;
  window.devicePixelRatio = look.pixels;
  Object.defineProperty(isDark, "matches", {value: look.dark, configurable: true});
  [paper.value, places.open, pointed, pen.font] = [look.paper || "A4", true, look.pointed, "1px serif"];
  sought = look.sought.length ? new Set(look.sought) : null;
  show(look.first, look.last || end);
  if (look.paper) window.dispatchEvent(new Event("beforeprint"));
  const seen = [calls, places.hidden ? [] : items(places)];
  if (look.paper) window.dispatchEvent(new Event("afterprint"));
  return seen;
}
const told = table.machines.map((_, machine) => table.jobs.map((_, place) => spanOf(machine, place)));
const listed = lists.map(list => [...list.tBodies[0].rows].map(row => [...row.cells].map(cell => cell.textContent)));
"""


class Page(NamedTuple):
    """A schedule, a script that looks at its page in a frame of this width, and what else its chart or its page has."""
    made: pfs.Schedule
    script: str
    more: dict[str, Any] = {}
    width: int = 1000
    is_listed: bool = True
    injected: str = ""


def page_of(looks: list[Look]) -> Page:
    states, first = [dict(list(look._asdict().items())[4:]) for look in looks], looks[0]
    return Page(first.made, LOOKED + f"tell([told, listed, ...{json.dumps(states)}.map(looked)]);", {
        "calendar": first.calendar, "critical": first.critical, "bound": False if first.bound is None else first.bound})


def listed(rows: list[list[str]], is_dated: bool) -> list[list[str]]:
    """The list of a machine: each date once, and no job that skips the machine."""
    found, before = list[list[str]](), ""
    for place, (job, _, *times) in enumerate(rows, 1):
        if times[0] != times[1]:
            days = [f"{datetime.date.fromisoformat(time[:10]):%a %Y-%m-%d}" if is_dated else "" for time in times]
            start, end = (time[11:] if is_dated else time for time in times)
            found += [[days[0]]] if days[0] != before else []
            found.append([str(place), job, start, end if days[0] == days[1] else f"{days[1]} {end}"])
            before = days[0]
    return found


PAGES = {name: page_of(looks) for name, looks in LOOKS.items()}


@pytest.fixture(scope="module")
def pages(chromium: str, tmp_path_factory: pytest.TempPathFactory) -> dict[str, Any]:
    """What is seen of all pages."""
    folder, frames = tmp_path_factory.mktemp("pages"), dict[str, tuple[str, int]]()
    for name, page in PAGES.items():
        with mock.patch.object(_chart, "MOST_LISTED", _chart.MOST_LISTED * page.is_listed):
            page.made.plot(folder / "page.html", **page.more)
        frames[name] = scripted(folder / "page.html", PEN + page.script, page.injected), page.width
    return all_looked_at(chromium, frames, folder)


@pytest.mark.seconds(20)
@pytest.mark.parametrize("name", LOOKS)
def test_a_chart_is_drawn_as_its_schedule_says(pages: dict[str, Any], name: str) -> None:
    """And tells and lists the times of the CSV: with minutes below ten, decimals, ends of shifts, and later weeks."""
    told, lists, *seen = pages[name]
    for look, (calls, key) in zip(LOOKS[name], seen, strict=True):
        assert_drawn(calls, look)
        assert key == Layout(look).key(), look[4:]
    rows = [line.split(",") for line in str(look.made.to_csv(calendar=look.calendar)).splitlines()[1:]]
    at = Layout(look)
    every = {(row, place): [job, machine, *told[row][place]] for row, machine in enumerate(at.machines)
             for place, job in enumerate(at.jobs)}
    # The CSV has what takes time, and of a job without time the first machine.
    busy = {key for key, (_, _, start, end) in every.items() if start != end}
    assert sorted(rows) == sorted(each for (row, place), each in every.items() if (row, place) in busy or row == 0
                                  and not any((other, place) in busy for other in range(len(at.machines))))
    assert lists == [listed([each for (of, _), each in every.items() if of == row], bool(at.clock))
                     for row in range(len(at.machines))]


# What hands do with a chart

def schedule() -> pfs.Schedule:
    return pfs.Instance(TIMES, name="plan", job_names=["table", "chair", "box"], decimals=1, unit="h",
                        machine_names=MACHINES).schedule([1, 0, 2])


TIP, TIP_OF_DRILL = "job table\nmachine saw\nstart 2.0\nend 5.0", "job table\nmachine drill\nstart 7.0\nend 9.5"
FAR_IN, LEAVE, IN = 'press("+", "+", "+"); ', '; send("pointerleave", PointerEvent, 5, -5)', math.exp(-0.25)
LIFT = "; lift(1); lift(2)"
# What is done with the whole chart, of 125 units with 8 pixels each, the times that are seen then, and the text of the
# tip. A zoom by a key keeps the middle, one by the wheel what is under the pointer, and one by two fingers the times
# under them. An arrow moves by an eighth of what is seen. A finger is at the place that a time has in the whole chart.
MOVES: dict[str, tuple[tuple[float, float], str]] = {
    'press("+")': ((12.5, 112.5), ""), 'press("+", "+", "+", "-")': ((22.5, 102.5), ""),
    'press("x", "Enter", "1")': ((0, 125), ""), 'hover(70)' + LEAVE: ((0, 125), ""),
    'press("+", "+", "+", "ArrowRight")': ((38.5, 102.5), ""), 'press("+", "+", "+", "ArrowLeft")': ((22.5, 86.5), ""),
    'press(..."+".repeat(80))': ((60.5, 64.5), ""), 'press("+", ..."-".repeat(80))': ((0, 125), ""),
    'press("+", "+", ...Array(80).fill("ArrowRight"))': ((45, 125), ""),
    'press("+", "+", ...Array(80).fill("ArrowLeft"))': ((0, 80), ""),
    'wheel(25, -1, 0, 20)': ((25 - 25 * IN, 25 + 100 * IN), TIP),
    FAR_IN + 'wheel(from, 1, 1)': ((30.5, 30.5 + 64 / IN), ""),
    FAR_IN + 'wheel(from, 1, -plot() / 8)': ((22.5, 86.5), ""),
    'press("+"); send("dblclick", MouseEvent, left, 5)': ((0, 125), ""),
    FAR_IN + 'hover(70); send("pointermove", PointerEvent, width - RIGHT + 9, yOf(1) + ROW / 2)': ((30.5, 94.5), ""),
    'press("+", "+"); hover(70)': ((22.5, 102.5), TIP_OF_DRILL), 'tap(25)': ((0, 125), TIP),
    'tap(25); tap(5, 2)': ((0, 125), ""), 'touch(1, 25); touch(2, 75)' + LIFT: ((0, 125), TIP),
    FAR_IN + 'touch(1, 25); slide(1, 25.3125); lift(1)': ((30.5, 94.5), TIP),
    FAR_IN + 'touch(1, 25); slide(1, 25.4375); lift(1)': ((30.276, 94.276), ""),
    'tap(25); document.body.dispatchEvent(new PointerEvent("pointerdown", {pointerId: 3, bubbles: true}))':
        ((0, 125), ""),
    'touch(1, 50); touch(2, 75); slide(1, 37.5); slide(2, 87.5)' + LIFT + '; slide(1, 10); slide(2, 110)'
    + LEAVE: ((31.25, 93.75), ""),
    'press("+", "+", "+", "+"); touch(1, 0); touch(2, 125); slide(1, 50); slide(2, 75)' + LIFT: ((0, 125), ""),
    FAR_IN + 'touch(1, 50); touch(2, 75); slide(2, 50.875)' + LIFT + LEAVE: ((30.5, 94.5), ""),
    FAR_IN + 'touch(1, 50); touch(2, 75); slide(2, 51)' + LIFT + LEAVE: ((0, 125), ""),
    FAR_IN + 'touch(1, 25); slide(1, 50); lift(1)': ((30.5 - 64 / 5, 94.5 - 64 / 5), ""),
    FAR_IN + 'touch(1, 25); lift(1, "pointercancel"); slide(1, 50)' + LEAVE: ((30.5, 94.5), ""),
    FAR_IN + 'touch(1, 25, {button: 2}); slide(1, 50)' + LEAVE: ((30.5, 94.5), ""),
    'canvas.style.width = "600px"; window.dispatchEvent(new Event("resize"))': ((0, 125), ""),
}
PAGES["hands"] = Page(schedule(), MEASURED + """
Object.assign(canvas.style, {position: "absolute", left: 0, width: "1119px"});
function finger(kind, pointerId, time, machine, more) {
  const x = left + time / 125 * plot();
  send(kind, PointerEvent, x, yOf(machine) + ROW / 2, {pointerId, pointerType: "touch", ...more});
}
function touch(number, time, more) { finger("pointerdown", number, time, 0, more); }
function slide(number, time, more) { finger("pointermove", number, time, 0, more); }
function lift(number, kind = "pointerup") { finger(kind, number, 0, 0); finger("pointerleave", number, 0, 0); }
function tap(time, machine = 0) { finger("pointerdown", 1, time, machine); lift(1); }
function wheel(time, deltaY, deltaX = 0, y = 5) { send("wheel", WheelEvent, xOf(time), y, {deltaX, deltaY}); }
function hover(time) { send("pointermove", PointerEvent, xOf(time) + 5, yOf(1) + ROW / 2); }
function moved(done) {
  press("0");
  send("pointerleave", PointerEvent, 5, -5);
  done();
  return {calls, from, to, tip: tip.hidden ? "" : tip.textContent};
}
function isTaken(type, kind, more) {
  const event = new type(kind, {bubbles: true, cancelable: true, ...more});
  canvas.dispatchEvent(event);
  return event.defaultPrevented;
}
draw();
const seen = {moved: {}, taken: [], action: getComputedStyle(canvas).touchAction};
press("+", "+");
for (const [held, key] of ["ctrlKey", "altKey", "metaKey"].flatMap(held => Object.keys(KEYS).map(key => [held, key])))
  seen.taken.push(isTaken(KeyboardEvent, "keydown", {key, [held]: true}));
seen.taken.push(isTaken(WheelEvent, "wheel", {deltaY: 1, ctrlKey: true}), from !== 22.5 || to !== 102.5);
seen.own = [isTaken(KeyboardEvent, "keydown", {key: "+"}), isTaken(WheelEvent, "wheel", {deltaY: 1})];
""" + "".join(f"seen.moved[{json.dumps(move)}] = moved(() => {{ {move}; }});\n" for move in MOVES) + """
calls = [];
isDark.dispatchEvent(new Event("change"));
tell({...seen, isFollowed: calls.length > 0});
""", {"critical": True, "bound": True})


@pytest.mark.parametrize("move", MOVES)
def test_what_hands_do_with_a_chart(pages: dict[str, Any], move: str) -> None:
    """The operation that one points at has a tip and a wide outline, and its job's other operations narrower ones."""
    made, drawn, (view, tip) = schedule(), pages["hands"]["moved"][move], MOVES[move]
    assert (drawn["from"], drawn["to"], drawn["tip"]) == (*(pytest.approx(time) for time in view), tip)
    assert_drawn(drawn["calls"], Look(
        made, None, True, made.instance.bound(), 600 if "600px" in move else 1119, drawn["from"], drawn["to"],
        pointed=(MACHINES.index(tip.split()[3]), 1) if tip else None))


def test_keys_the_wheel_and_fingers_that_scroll_are_the_browsers(pages: dict[str, Any]) -> None:
    seen = pages["hands"]
    assert (seen["taken"], seen["own"], seen["action"], seen["isFollowed"]) == ([False] * 17, [True] * 2, "pan-y", True)


# Functions of the page, each with many arguments

DRAWS = random.Random(7)
XS = [-1, 0, *(time for row in FITTING.made.ends.T.tolist() for time in row), 1024, 1050]
YS = [5, 6, 24, 41.5, 42, 77.5, 78, 113.5, 114]
POINTS = [(40 + DRAWS.choice(XS) + DRAWS.choice([-0.5, 0, 0.5]), DRAWS.choice(YS)) for _ in range(600)]
POINTERS = [(45, 10), (900, 100), (560, 20), (990, 110), (700, 140)]
PAGES["functions"] = Page(FITTING.made, MEASURED + f"""
Object.assign(canvas.style, {{position: "absolute", left: 0, top: 0, width: "1140px"}});
draw();
const points = {json.dumps(POINTS)}.map(([x, y]) => operationAt(x, y)), tips = {json.dumps(POINTERS)}.map(([x, y]) => {{
  send("pointermove", PointerEvent, x, y);
  const {{offsetLeft, offsetTop, offsetWidth, offsetHeight}} = tip;
  return [tip.hidden, offsetLeft, offsetTop, offsetLeft + offsetWidth, offsetTop + offsetHeight];
}});
tell({{points, tips, size: [window.innerWidth, window.innerHeight]}});
""")


def test_the_operation_at_a_point(pages: dict[str, Any]) -> None:
    at, due = Layout(FITTING), list[list[int] | None]()
    for x, y in POINTS:
        machine = math.floor((y - at.top) / at.row)
        spans = at.spans(machine) if 0 <= machine < 3 and at.left <= x <= at.right else []
        due.append(next(([machine, place] for place, (start, end) in enumerate(spans) if start <= x - 40 < end), None))
    assert pages["functions"]["points"] == due and 200 < due.count(None) < 400


def test_a_tip_is_next_to_the_pointer_and_in_the_window(pages: dict[str, Any]) -> None:
    wide, high = pages["functions"]["size"]
    for (x, y), (is_hidden, left, top, right, bottom) in zip(POINTERS, pages["functions"]["tips"], strict=True):
        beside, below = max(left - x - 14, right - wide + 8), max(top - y - 14, bottom - high + 8)
        assert is_hidden if y > 114 else beside == below == 0, (x, y)


# Names that a page, a template or a replacement could take for something else

DANGEROUS = [
    "\u202eright to left", "{{data}}", "{{title}}", "x autofocus onfocus=document.title=/PWNED/.source y", "__proto__",
    "</script><b id=x>", "<script>document.title='PWNED'</script>", "\"><img src=x onerror=\"document.title='PWNED'\">",
    "' onload='x", "<!--<script>", "&lt;b&gt;&amp;", "\\u003cb\\u003e", "\\g<0> \\1 $& $1", "a\u2028b", "p\udce4rt"]
UNIT = "{{data}} \"><b onclick=x></title><script>document.title='PWNED'</script>"


def of_names(names: list[str], name: str, unit: str) -> Page:
    """The page's title, heading, elements with their attributes, and what it says of each operation."""
    shop = pfs.Instance([[20 + at, 10] for at in range(len(names))], name=name, unit=unit, job_names=names,
                        machine_names=[f"saw {names[0]}", f"drill {names[-1]}"])
    return Page(shop.schedule(range(len(names))), """
const seen = {titles: [document.title, document.querySelector("h1").textContent, canvas.getAttribute("aria-label")],
              focus: document.activeElement.tagName};
sought = new Set([0, 1]);
showLists();
seen.elements = [...document.querySelectorAll("*")].filter(one => one !== document.currentScript)
  .map(one => [one.tagName, [...one.attributes].map(kept => kept.name)]);
seen.tips = [...table.jobs.keys()].map(place => {
  send("pointermove", PointerEvent, xOf((table.starts[0][place] + table.ends[0][place]) / 2), yOf(0) + ROW / 2);
  return tip.textContent;
});
tell(seen);
""", {"critical": True, "bound": True})


PAGES |= {"harmless": of_names([f"job {at}" for at in range(len(DANGEROUS))], "plan.csv", "h"),
          "dangerous": of_names(DANGEROUS, f"{UNIT}\x1b.csv", f"{UNIT}\x1b")}


def test_no_name_becomes_a_part_of_the_page(pages: dict[str, Any]) -> None:
    due, seen, made = pages["harmless"], pages["dangerous"], PAGES["dangerous"].made
    title = due["titles"][0].removeprefix("plan.csv").replace(" h,", f" {UNIT}\\x1b,")
    assert seen["titles"] == [f"{UNIT}\\x1b.csv{title}"] * 3 and seen["focus"] == due["focus"] == "BODY"
    assert seen["elements"] == due["elements"], "a name has made an element or an attribute"
    shown = ["\\u202eright to left", *DANGEROUS[1:-2], "a\\u2028b", "p\\udce4rt"]
    assert seen["tips"] == [f"job {job}\nmachine saw {shown[0]}\nstart {start}\nend {end}"
                            for job, start, end in zip(shown, made.starts[:, 0], made.ends[:, 0])]


PAGES["foreign"] = Page(schedule(), """
tell([document.title, ...[document.querySelector("h1"), canvas].map(each => getComputedStyle(each).display)]);
""", {"bound": True, "critical": True}, injected="<script>document.title = 'PWNED'</script><style>h1 { display: none }"
     "</style><img src='data:image/png;base64,x' onerror=\"document.title = 'PWNED'\">")


def test_the_policy_keeps_other_scripts_and_styles_out(tmp_path: pathlib.Path, pages: dict[str, Any]) -> None:
    assert pages["foreign"] == [
        "plan: 3 jobs on 3 machines: makespan 12.5 h, bound 11.5 (dashed), critical path outlined", "block", "block"]
    schedule().plot(tmp_path / "chart.html")
    text = (tmp_path / "chart.html").read_text("utf-8")
    assert "default-src 'none'" in text and "unsafe" not in text and text.count("</script>") == 2
    assert not re.search(r"""(?:src|href)\s*=|url\(|@import|https?:|fetch\(|XMLHttp|import\(""", text)
    lists = text[text.index('<div id="lists">'):text.index('<script type="application/json"')]
    assert '<div id="drawn" hidden>' in text and "<noscript>" in text and "hidden" not in lists, "without scripts"


# A search for a job, and a list of each machine

LENGTHS = [[400, 300, 500], [40, 12, 40], [40, 40, 0], [12, 1, 40], [40, 40, 40]]
NAMES = ["table", "chair, oiled and polished", "shelf of oak", "box with a lid", "bench without a back"]
SHORT_NAMES = ["table", "A", "Shelf of oak", "Shelf", "bOX"]
ORDER = [0, 2, 1, 4, 3]


def plan(names: Sequence[str] | None = NAMES, times: Any = LENGTHS) -> pfs.Schedule:
    return pfs.Instance(times, job_names=names, machine_names=MACHINES, name="plan", unit="min").schedule(ORDER)


def of_search(made: pfs.Schedule, *texts: str) -> Page:
    return Page(made, """
function rows() {
  return [...document.querySelectorAll("table:not([hidden])")].map(({caption, tHead, tBodies}) => [
    caption.textContent, [...tHead.rows[0].cells].map(cell => `${cell.scope} ${cell.textContent}`),
    ...[...tBodies[0].rows].map(row => [...row.cells].map(cell => cell.textContent))]);
}
function type(text) {
  field.value = text;
  calls = [];
  field.dispatchEvent(new Event("input"));
  return [byId("found").textContent, rows(), sought && [...sought], calls.length > 0];
}
const seen = {choices: [...choice.options].map(option => option.textContent)};
for (const text of TEXTS) seen[text] = type(text);
for (const value of ["drill", "all", "none"]) {
  choice.selectedIndex = seen.choices.indexOf(value);
  choice.dispatchEvent(new Event("change"));
  seen[`choice ${value}`] = rows();
}
seen.reached = [canvas, field, choice, print, paper].map(({tabIndex, type, role, autocomplete, labels}) =>
  [tabIndex, type ?? role, autocomplete, labels?.[0].firstChild.textContent.trim()]);
seen.roles = [byId("found").role, tip.role];
const submit = new Event("submit", {cancelable: true});
document.querySelector("form").dispatchEvent(submit);
tell({...seen, stays: submit.defaultPrevented});
""".replace("TEXTS", json.dumps(texts)))


# What is typed, and the jobs that are found. A name that is typed in full is that job's alone.
FOUND: dict[str, list[int]] = {"box": [4], "BOX": [4], " box ": [4], "shelf": [3], "o": [2, 4], "a": [1], "nothing": [],
                               "": []}
MANY_NAMES = [f"{'x' if at < 20 else 'y'} {at}" for at in range(41)]
PAGES |= {"sought": of_search(plan(SHORT_NAMES), *FOUND),
          "many sought": of_search(pfs.Instance([[3]] * 41, job_names=MANY_NAMES).schedule(range(41)), "x", "y")}


def test_jobs_that_are_sought_and_machines_are_listed(pages: dict[str, Any]) -> None:
    """Without a mouse, and Enter leaves the page as it is."""
    made, seen = plan(SHORT_NAMES), pages["sought"]
    heads = ["col machine", "col start", "col end"], ["col place", "col job", "col start", "col end"]
    times = [[[machine, str(start), str(end)] for machine, start, end in zip(MACHINES, *row) if start < end]
             for row in zip(made.starts, made.ends)]
    for text, jobs in FOUND.items():
        places = sorted(ORDER.index(job) for job in jobs)
        lists = [[f"Job {SHORT_NAMES[ORDER[place]]}, place {place + 1}", heads[0], *times[place]] for place in places]
        said = f"{len(jobs)} job{'' if len(jobs) == 1 else 's'} found" if text else ""
        assert seen[text] == [said, lists, places or None, True], text
    assert seen["choice all"] == [[f"Machine {machine}", heads[1], *(
        [str(place), SHORT_NAMES[ORDER[place - 1]], *row[1:]] for place, rows in enumerate(times, 1) for row in rows
        if row[0] == machine)] for machine in MACHINES]
    assert seen["choice drill"] == seen["choice all"][1:2] and seen["choice none"] == []
    assert seen["choices"] == ["none", "all", *MACHINES] and seen["roles"] == ["status"] * 2 and seen["stays"]
    assert seen["reached"] == [[0, "img", None, None], [0, "search", "off", "Find a job:"], *(
        [0, "select-one", "", label] for label in ("List a machine:", "Print:", "on"))]
    for text, many, first in (("x", 20, 0), ("y", 21, 20)):
        said, lists, places, _ = pages["many sought"][text]
        assert said == f"{many} jobs found" + (", the first 20 are listed below" if many > 20 else "")
        assert [each[0] for each in lists] == [
            f"Job {MANY_NAMES[place]}, place {place + 1}" for place in places[:20]] and len(places) == many


# Paper

# The plan takes six days, after whose first one a day is closed. What is chosen before the page is printed.
DATES = pfs.Calendar("2026-12-03T06:00", "06:00-10:00", closed="2026-12-04")
CHOSEN = """for (const [id, value] of Object.entries(%s)) {
  byId(id).value = value;
  byId(id).dispatchEvent(new Event("change"));
}"""
A4, A3, UPRIGHT = (842, 595), (1191, 842), (595, 842)


@pytest.mark.seconds(8)
@pytest.mark.parametrize(("what", "chosen", "sizes"), [
    ((30, 200), {}, [A4]), ((500, 5, "Auftrag"), {}, [A4] * 3),
    ((), {"paper": "A3"}, [A3]), ((), {"print": "days"}, [A4] * 6),
    ((), {"listed": "all"}, [A4, UPRIGHT, UPRIGHT, UPRIGHT])])
def test_what_is_printed(chromium: str, tmp_path: pathlib.Path, what: tuple[Any, ...], chosen: dict[str, str],
                         sizes: list[tuple[int, int]]) -> None:
    """A page of what is shown, with a key if bars lack names, or one for each day; and one for the list of each
    machine."""
    made, page = generated(*what) if what else plan(), tmp_path / "chart.html"
    made.plot(page, calendar=None if what else DATES)
    page.write_text(scripted(page, CHOSEN % json.dumps(chosen)), "utf-8")
    boxes = re.findall(rb"/MediaBox \[0 0 ([\d.]+) ([\d.]+)\]", printed(chromium, page, tmp_path))
    assert [tuple(map(float, box)) for box in boxes] == [pytest.approx(size, abs=2) for size in sizes], "in points"
    text = output_of([tool("pdftotext"), "page.pdf", "-"], tmp_path)
    assert not re.search("Find a job|Point at|Places of", text) and made.instance.name in text
    assert what or ("idle" in text) == ("print" not in chosen), "the chart of the window beside the days, or none"


PAGES["sheets"] = Page(plan([f"{name} {name * 20}" for name in NAMES]), LOOKED + """
function state() {
  return [from, to, calls, places.open && items(places), places.hidden, places.open, document.body.className,
          sheets.children.length];
}
const seen = {}, own = draw;
for (const size of ["A4", "A3"]) {
  [paper.value, print.value, places.open] = [size, "days", size === "A3"];
  press("0", "+");
  places.dispatchEvent(new Event("toggle"));
  const before = JSON.stringify(state()), pens = [];
  point({clientX: 100, clientY: canvas.getBoundingClientRect().top + TOP + 5});
  beginPrint();
  draw = () => { own(); pens.push(calls); };
  beginPrint();
  draw = own;
  const view = [from, to], all = [...sheets.children].map(({children: [head, copy, key]}, at) => {
    [from, to] = [days[at][0], days[at + 1]?.[0] ?? end];
    draw();
    const isSame = copy.toDataURL() === canvas.toDataURL();
    return [head.tagName, head.textContent, copy.id, isSame, key.className, items(key)];
  });
  [from, to] = view;
  draw();
  seen[size] = [view, pens, all, items(places), places.open, places.lastChild.style.columnWidth];
  endPrint();
  seen[size].push(JSON.stringify(state()) === before);
}
tell(seen);
""", {"calendar": DATES})


@pytest.mark.parametrize("size", ["A4", "A3"])
def test_a_sheet_for_each_day(pages: dict[str, Any], size: str) -> None:
    """With its jobs. The page is as it was, also if it is printed twice; nothing is pointed at on paper."""
    made, ((first, last), calls, *seen) = PAGES["sheets"].made, pages["sheets"][size]
    ends = [*range(0, made.makespan, 240), made.makespan]
    days = ["Thu 2026-12-03", "Sat 2026-12-05", "Sun 2026-12-06", "Mon 2026-12-07", "Tue 2026-12-08", "Wed 2026-12-09"]
    shown = [Look(made, DATES, pixels=2, paper=size, first=start, last=end) for start, end in (
        *itertools.pairwise(ends), (first, last))]
    for look, each in zip(shown, calls, strict=True):
        assert_drawn(each, look)
    assert seen == [[["H2", day, "", True, "key", Layout(look).key()] for day, look in zip(days, shown)],
                    Layout(shown[-1]).key(), True, "40em", True]


PAGES |= {f"{many} days": Page(pfs.Instance([[many]], unit="d").schedule([0]), """
tell([[...print.options].map(option => [option.value, option.textContent]), choice.parentElement.hidden]);
""", {"calendar": pfs.Calendar("2026-11-30")}, is_listed=many < 63) for many in (1, 2, 62, 63)}


def test_what_can_be_printed_and_listed(pages: dict[str, Any]) -> None:
    for many in (1, 2, 62, 63):
        options = [["", "what is shown"], *([["days", "a page a day"]] if 1 < many < 63 else [])]
        assert pages[f"{many} days"] == [options, many == 63]


# Style

# The selector of each rule, and what it sets.
STYLE = [(selector.strip(), re.findall(r"(?:^|;)\s*([-\w]+):", body)) for selector, body in re.findall(
    r"([^{}]+)\{([^{}]*)\}", pathlib.Path(pfs.__file__).with_name("chart.html").read_text("utf-8").partition(
        "<style>")[2].partition("</style>")[0])]
STYLED = f"const STYLE = {json.dumps(STYLE)};" + """
function all(selector, found) { return [...document.querySelectorAll(selector)].map(found); }
function box({left, top, right, bottom}) { return [left, top, right, bottom]; }
function textBox(one) {
  const range = document.createRange();
  range.selectNodeContents(one);
  return [...box(range.getBoundingClientRect()), range.getClientRects().length];
}
function ground(one) {
  const {backgroundColor} = getComputedStyle(one);
  return backgroundColor === "rgba(0, 0, 0, 0)" ? ground(one.parentElement) : backgroundColor;
}
function look() {
  return {
    width: document.documentElement.clientWidth, idle: calls[3][5],
    blocks: all("h1, #drawn > p, form, canvas, #places, table", one => box(one.getBoundingClientRect())),
    sheets: all("section canvas", one => one.getBoundingClientRect().right), labels: all("label", textBox),
    tables: all("table", made => [...made.rows].map(row => [...row.cells].map(
      cell => [...textBox(cell), getComputedStyle(cell).textAlign === "right" ? 2 : 0]))),
    columns: [places.lastChild.style.columnWidth, getComputedStyle(places.lastChild).columnGap],
    sizes: ["p", "h1", "caption", "input", "#places li", "td"].map(each => {
      const {fontSize, fontWeight, lineHeight} = getComputedStyle(document.querySelector(each));
      return [fontSize, fontWeight, lineHeight].map(parseFloat);
    }),
    colours: all("h1, #drawn > p, label, input, select, #found, caption, th, td, #tip, summary, li",
                 one => [getComputedStyle(one).color, ground(one)]),
  };
}
field.value = "a";
field.dispatchEvent(new Event("input"));
choice.value = "all";
choice.dispatchEvent(new Event("change"));
places.open = true;
places.dispatchEvent(new Event("toggle"));
send("pointermove", PointerEvent, left + 5, TOP + 5);
draw();
const seen = {screen: look()};
document.body.style.width = "160px";
seen.lines = all("#lists :is(th, td)", cell => cell.textContent.includes(" ") || textBox(cell)[4]);
document.body.style.width = "";
const parts = [...document.styleSheets[0].cssRules], medias = parts.filter(({media}) => media);
[paper.value, print.value] = ["A3", "days"];
beginPrint();
seen.rules = parts.flatMap(rule => rule.media ? [...rule.cssRules] : [rule]).map((rule, at) => [
  STYLE[at]?.[1].filter(name => !rule.style.getPropertyValue(name)),
  !(rule instanceof CSSStyleRule) || document.querySelector(rule.selectorText) !== null]);
seen.medias = medias.map(({media}) => media.mediaText);
for (const {media} of medias) media.mediaText = media.mediaText === "print" ? "all" : "not all";
tell({...seen, paper: look()});
"""
PAGES |= {name: Page(plan(), STYLED, {"calendar": DATES}, width) for name, width in (("wide", 1000), ("narrow", 500))}


def test_all_that_the_style_says_is_understood_and_is_for_something(pages: dict[str, Any]) -> None:
    assert pages["wide"]["rules"] == [[[], True]] * len(STYLE) and len(STYLE) > 20
    assert len(pages["wide"]["medias"]) == 3 and "not all" not in pages["wide"]["medias"]


@pytest.mark.parametrize(("name", "margin", "column"), [("wide", 16, 17), ("narrow", 8, 5)])
def test_blocks_and_columns_are_apart(pages: dict[str, Any], name: str, margin: int, column: int) -> None:
    """In pixels. Blocks are as wide as the window but for its margins; numbers are under each other."""
    seen, paper = pages[name]["screen"], pages[name]["paper"]
    blocks, ((size, _, high), *others), left = seen["blocks"], seen["sizes"], seen["blocks"][0][0]
    assert all(block[0] == left for block in blocks) and left == pytest.approx(margin, abs=2)
    assert {round(seen["width"] - block[2] - left) for block in blocks[:5]} == {0}
    gaps = [below[1] - above[3] for above, below in itertools.pairwise(blocks)]
    assert 0 < gaps[0] < 8 and gaps[3] == 0 and all(8 < each < 16 for each in gaps[1:3] + gaps[4:]), gaps
    assert 12 <= size <= 16 and 1.2 < high / size < 1.6, "letters and lines"
    assert [(round(letters / size, 1), weight) for letters, weight, _ in others] == [
        (pytest.approx(1.15, abs=0.1), 700), (1, 700), (1, 400), (0.8, 400), (1, 400)], "sizes"
    assert all(16 < after[0] - before[2] < 30 for before, after in itertools.pairwise(seen["labels"])
               if before[1] == after[1]) and seen["columns"] == ["19em", "16px"]
    assert [rows[0][1][0] - left < 70 for rows in seen["tables"][-3:]] == [True] * 3, "places have a narrow column"
    for rows in seen["tables"]:
        whole = [row for row in rows if len(row) == len(rows[0])]
        assert all(after[0] - before[2] > column for row in whole for before, after in itertools.pairwise(row)), rows
        for cells in zip(*whole):
            assert len({round(cell[cell[5]]) for cell in cells}) == 1, "cells of a column"
    assert {*pages[name]["lines"]} == {True}, "a word is broken where a list is narrow"
    assert paper["blocks"][0][0] == 0 and 0.8 < paper["sizes"][-1][0] / size < 0.9
    assert {round(right) for right in paper["sheets"]} == {paper["width"]}, "the charts are as wide as the paper"


DIM, FORCED = "--blink-settings=preferredColorScheme=0", "--enable-features=WebContentsForceDark"  # 0 is dark


def test_all_can_be_read_on_a_dark_screen_too(chromium: str, tmp_path: pathlib.Path, pages: dict[str, Any]) -> None:
    """Also where the browser would darken the pages that have no colours for it, which leaves charts alone."""
    plan().plot(tmp_path / "chart.html", calendar=DATES)
    dark = looked_at(chromium, scripted(tmp_path / "chart.html", PEN + STYLED), tmp_path, (DIM, FORCED))
    for seen, (paper, *_, idle) in ((pages["wide"], LIGHT), (dark, DARK)):
        colours = [["#" + "".join(f"{int(part):02x}" for part in re.findall(r"\d+", colour)[:3]) for colour in pair]
                   for pair in seen["screen"]["colours"]]
        assert min(contrast(*pair) for pair in colours) > 4.5 and seen["screen"]["idle"] == idle
        assert max(contrast(ground, paper) for _, ground in colours) < 4
