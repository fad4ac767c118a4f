"""What has happened is what the plan said: the dates of a schedule before `--now`, and random weeks against a
simulation of the floor, minute by minute."""
import csv
import pathlib
import random
import re
from collections import defaultdict
from datetime import datetime, timedelta

import pytest
from support.commands import ended

TABLE = "job [min];saw;drill\ntable;300;200\nchair;250;400\nlamp;60;30\nbox;30;90\n"
WEEK = ["--begin", "2026-11-30T06:00", "--shift", "06:00-14:00"]
NOW = ["--order", "monday.csv", "--now", "2026-12-01T08:10"]
HINT = ("give the table, --begin and the shifts of that schedule, those of past days by date (--shift), or plan the "
        "table of --rest with its own schedule")


def plan(folder: pathlib.Path, *words: str, table: str = "times.csv", status: int = 0) -> tuple[list[str], str]:
    got = ended(["plan", table, *words], folder)
    assert got[0] == status, got
    return got[1].splitlines(), got[2]


@pytest.fixture
def folder(tmp_path: pathlib.Path) -> pathlib.Path:
    """A folder with Monday's schedule: chair is on the saw until 10:10 and on the drill until 08:50 of Tuesday, table
    on the saw until 07:10 of Tuesday and then lamp until 08:10."""
    (tmp_path / "times.csv").write_text(TABLE)
    (tmp_path / "order").write_text("chair\ntable\nlamp\nbox\n")
    plan(tmp_path, *WEEK, "--order", "order", "--schedule", "monday.csv")
    return tmp_path


def test_the_past_of_a_schedule_is_what_its_dates_say(folder: pathlib.Path) -> None:
    before = plan(folder, *WEEK, *NOW)
    assert before[1] == "from 2026-12-01 08:10 on: 0 finished, 3 held, 1 to plan\n"
    # Overtime, as if it had been there on Monday too.
    for shift, moment in (("06:00-18:00", "2026-11-30 15:10"), ("06:00-14:00,15:00-16:00", "2026-12-01 06:10")):
        assert plan(folder, *WEEK[:3], shift, *NOW, status=3) == ([], (
            "pfs: monday.csv: 'table' ends on 'saw' at 2026-12-01 07:10, but by this table and these shifts at "
            f"{moment}: {HINT}\n"))
    # By date, or from Tuesday on, the past stays, and box ends today.
    assert before[0][-5] == "end 2026-12-02 06:10"
    for tuesday in ("2026-12-01", "2026-12-01.."):
        got = plan(folder, *WEEK, "--shift", f"{tuesday}:06:00-18:00", *NOW)
        assert (got[0][-5], got[1]) == ("end 2026-12-01 14:10", before[1])
    # Another begin, and a table whose job takes longer.
    assert plan(folder, "--begin", "2026-11-30T07:00", *WEEK[2:], *NOW, status=3)[1] == (
        f"pfs: monday.csv: 'chair' ends on 'saw' at 2026-11-30 10:10, but by this table and these shifts at "
        f"2026-11-30 11:10: {HINT}\n")
    said = plan(folder, "--begin", "2026-11-28T06:00", *WEEK[2:], *NOW, status=3)[1]
    assert "'chair' starts on 'saw' at 2026-11-30 06:00, but by this table and these shifts at 2026-11-28 06:00" in said
    (folder / "times.csv").write_text(TABLE.replace("chair;250;400", "chair;250;200"))
    said = plan(folder, *WEEK, *NOW, status=3)[1]
    assert "'chair' ends on 'drill' at 2026-12-01 08:50, but by this table and these shifts at 2026-11-30 13:30" in said
    (folder / "times.csv").write_text(TABLE.replace("table;300", "table;0"))
    assert "'table' starts on 'saw' at 2026-11-30 10:10, and takes no time there in this table" in plan(
        folder, *WEEK, *NOW, status=3)[1]


def test_what_a_schedule_says_of_later_changes_nothing(folder: pathlib.Path) -> None:
    """Times of jobs that haven't begun, and lines that people move or leave out."""
    before = plan(folder, *WEEK, *NOW)
    (folder / "times.csv").write_text(TABLE.replace("box;30;90", "box;40;90"))
    assert plan(folder, *WEEK, *NOW)[0][-1] == before[0][-1]
    head, *lines = (folder / "monday.csv").read_text("utf-8-sig").splitlines()
    (folder / "monday.csv").write_text("\n".join([head, *lines[:-2]]))
    assert plan(folder, *WEEK, *NOW)[1] == before[1] + "monday.csv: new, and inserted at their best places: box\n"
    # But not of one that has begun, and not the sequence of what has begun.
    (folder / "monday.csv").write_text("\n".join([head, lines[0], *lines[2:]]))
    assert plan(folder, *WEEK, *NOW, status=3)[1] == (
        "pfs: monday.csv: has no work of 'chair' on 'drill', where it starts at 2026-11-30 10:10 by this table and "
        f"these shifts: {HINT}\n")
    (folder / "monday.csv").write_text("\n".join([head, *lines[2:4], *lines[:2], *lines[4:]]))
    assert "'table' starts on 'saw' at 2026-11-30 10:10, but by" in plan(folder, *WEEK, *NOW, status=3)[1]


@pytest.mark.parametrize(("old", "new", "said"), [
    ("2026-11-30 06:00", "11/30/2026 06:00", "cell C2: '11/30/2026 06:00' isn't a date and time such as"),
    ("2026-11-30 06:00", "2026-11-31 06:00", "cell C2: '2026-11-31 06:00' isn't a date and time such as"),
    ("2026-11-30 06:00", "", "cell C2: '' isn't a date and time such as"),
    ("table;drill", "table;lathe", "cell B5: the table has no machine 'lathe': the schedule is of another table"),
    ("table;drill", "table;saw", "line 5, 'table' is on 'saw' twice")])
def test_dates_that_are_none(folder: pathlib.Path, old: str, new: str, said: str) -> None:
    text = (folder / "monday.csv").read_text("utf-8-sig")
    assert old in text
    (folder / "monday.csv").write_text(text.replace(old, new, 1))
    assert f"monday.csv: {said}" in plan(folder, *WEEK, *NOW, status=2)[1]
    # As an order it will do.
    got = plan(folder, *WEEK, "--order", "monday.csv")[1]
    assert got == (f"monday.csv: {said.partition(': ')[2]}\n" if "lathe" in said else
                   "monday.csv: 'table' is on 'saw' twice\n" if "twice" in said else "")


@pytest.mark.parametrize(("seconds", "sign"), [(":00", ""), (":00.0", "."), (":00,000000", ",")])
def test_dates_in_each_form(folder: pathlib.Path, seconds: str, sign: str) -> None:
    before, text = plan(folder, *WEEK, *NOW), (folder / "monday.csv").read_text("utf-8-sig")
    (folder / "monday.csv").write_text(re.sub(r"(:\d\d)(?=[;\n])", rf"\1{seconds}", text))
    assert plan(folder, *WEEK, *NOW) == before
    (folder / "monday.csv").write_text(re.sub(r"(:\d\d)(?=[;\n])", r"\1:01", text))
    assert "'chair' starts on 'saw' at 2026-11-30 06:00:01, but by" in plan(folder, *WEEK, *NOW, status=3)[1]


def test_a_workbook_as_schedule(folder: pathlib.Path) -> None:
    """Its moments are rounded to milliseconds."""
    pytest.importorskip("openpyxl")
    (folder / "times.csv").write_text("job [h];saw;drill\na;0,123457;2,333333\nb;1,111111;0,5\nc;5;2,000001\n")
    now = [*WEEK, "--now", "2026-11-30T07:30", "--rest", "rest.csv", "--order"]
    for name in ("plan.csv", "plan.xlsx"):
        plan(folder, *WEEK, "--rounds", "0", "--schedule", name, "--language", "de")
    before = plan(folder, *now, "plan.csv"), (folder / "rest.csv").read_bytes()
    assert "0 finished, 3 held" in before[0][1] or "0 finished, 2 held" in before[0][1]
    assert (plan(folder, *now, "plan.xlsx"), (folder / "rest.csv").read_bytes()) == before
    (folder / "times.csv").write_text("job [h];saw;drill\na;0,123458;2,333333\nb;1,111111;0,5\nc;5;2,000001\n")
    assert "but by this table" in plan(folder, *now, "plan.xlsx", status=3)[1]


def test_an_order_without_dates_is_as_the_shifts_say(folder: pathlib.Path) -> None:
    plan(folder, "--order", "order", "--schedule", "plain.csv")
    for order in ("order", "plain.csv"):
        assert "1 finished, 3 held, 0 to plan" in plan(
            folder, *WEEK[:3], "06:00-18:00", "--order", order, "--now", "2026-12-01T06:00")[1]


def test_a_table_without_the_jobs_that_are_finished(folder: pathlib.Path) -> None:
    """At nine chair is finished, and table is on the drill."""
    now = [*WEEK, *NOW[:3], "2026-12-01T09:00", "--rest", "rest.csv"]
    with_all = plan(folder, *now)
    rest = (folder / "rest.csv").read_bytes()
    assert with_all[1].startswith("from 2026-12-01 09:00 on: 1 finished, 3 held, 0 to plan\n")
    (folder / "times.csv").write_text(TABLE.replace("chair;250;400\n", ""))
    assert plan(folder, *now) == with_all and (folder / "rest.csv").read_bytes() == rest
    # It isn't finished at ten past eight, and without dates nobody knows.
    assert "the table has no job 'chair', but 'box' after it has begun" in plan(folder, *WEEK, *NOW, status=3)[1]
    assert "the table has no job 'chair'" in plan(
        folder, *WEEK, "--order", "order", "--now", "2026-12-01T09:00", status=3)[1]


def test_a_schedule_with_a_rest_and_the_one_before(folder: pathlib.Path) -> None:
    """The rest of Tuesday goes with its own schedule, and with Monday's as far as nothing moved."""
    plan(folder, *WEEK, *NOW, "--rest", "rest.csv", "--schedule", "tuesday.csv")
    later = ["--begin", "2026-12-01T08:10", *WEEK[2:], "--now", "2026-12-01T08:20", "--order"]
    for order in ("tuesday.csv", "monday.csv"):
        assert "0 finished, 4 held, 0 to plan" in plan(folder, *later, order, table="rest.csv")[1]
    # Monday's table with the schedule of Tuesday would plan again what is finished.
    assert "has no work of 'chair' on 'saw', where it starts at 2026-11-30 06:00 by" in (
        plan(folder, *WEEK, *later[4:], "tuesday.csv", status=3)[1])


def test_a_schedule_of_another_table(folder: pathlib.Path) -> None:
    """Also where the difference is only in what follows. An operation may last longer than its time: for a break."""
    other = ("monday.csv: is of another table: 'box' is on 'saw' from 2026-12-01 08:10 to 2026-12-01 08:40, and takes "
             "31 in this one\n")
    for time, said in ((30, ""), (31, other), (20, "")):
        (folder / "times.csv").write_text(TABLE.replace("box;30;90", f"box;{time};90"))
        assert plan(folder, *WEEK, *NOW)[1] == f"{said}from 2026-12-01 08:10 on: 0 finished, 3 held, 1 to plan\n"
    # The drill needs 90 minutes until ten past six of Wednesday, and there may have been overtime.
    (folder / "times.csv").write_text(TABLE.replace("box;30;90", "box;30;900"))
    assert "another" not in plan(folder, *WEEK, *NOW)[1]


def test_numbers_of_another_table(folder: pathlib.Path) -> None:
    """A schedule without dates has all times, also of --compare, and in hours and minutes."""
    plan(folder, "--order", "order", "--schedule", "plain.csv")
    assert "another" not in plan(folder, "--order", "plain.csv")[1]
    (folder / "times.csv").write_text(TABLE.replace("box;30;90", "box;30;80") + "new;1;1\n")
    said = "plain.csv: is of another table: 'box' is on 'drill' from 880 to 970, and takes 80 in this one\n"
    assert plan(folder, "--order", "plain.csv")[1].startswith(said)
    assert said in plan(folder, "--order", "order", "--compare", "plain.csv")[1]
    (folder / "clock.csv").write_text("job [h:mm];saw\na;1:30\nb;0:05\n")
    plan(folder, "--order", "order", "--schedule", "plain.csv", table="clock.csv", status=2)
    plan(folder, "--schedule", "plain.csv", table="clock.csv")
    assert plan(folder, "--order", "plain.csv", table="clock.csv")[1] == ""
    (folder / "clock.csv").write_text("job [h:mm];saw\na;1:31\nb;0:05\n")
    assert "and takes 1:31 in this one" in plan(folder, "--order", "plain.csv", table="clock.csv")[1]


def test_a_csv_that_a_spreadsheet_saved(folder: pathlib.Path) -> None:
    """In German, and without the seconds that it doesn't show."""
    (folder / "times.csv").write_text("job [h];saw;drill\na;0,123457;2,333333\nb;1,111111;0,5\nc;5;2,000001\n")
    plan(folder, *WEEK, "--rounds", "0", "--schedule", "plan.csv")
    now = [*WEEK, "--now", "2026-11-30T07:30", "--rest", "rest.csv", "--order", "plan.csv"]
    before = plan(folder, *now), (folder / "rest.csv").read_bytes()
    text = (folder / "plan.csv").read_text("utf-8-sig")
    saved = re.sub(r"(\d{4})-(\d\d)-(\d\d) (\d\d:\d\d):[\d,]+", r"\3.\2.\1 \4", text)
    assert saved.count(".11.2026") == text.count("2026-11")
    (folder / "plan.csv").write_text(saved)
    assert (plan(folder, *now), (folder / "rest.csv").read_bytes()) == before
    assert "plan.csv: says end 2026-11-30 " in plan(folder, *WEEK, "--compare", "plan.csv")[1]
    (folder / "times.csv").write_text("job [h];saw;drill\na;0,173457;2,333333\nb;1,111111;0,5\nc;5;2,000001\n")
    assert "but by this table" in plan(folder, *now, status=3)[1]


@pytest.mark.parametrize("seed", range(5))
def test_a_third_day_with_tables_that_lack_what_is_finished(tmp_path: pathlib.Path, seed: int) -> None:
    """An export has all times of the jobs that aren't finished, also of those that have begun: on the third day the
    plan is that of the rest of the second one."""
    chance, compared = random.Random(seed), 0
    for _ in range(12):
        rows = {f"job{number}": [chance.choice([0, chance.randint(1, 200)]) for _ in range(3)] for number in range(8)}
        rows = {name: row if any(row) else [9, 9, 9] for name, row in rows.items()}
        floor = Floor(random.Random(0))
        floor.machines = ["saw", "drill", "paint"]
        write_times(tmp_path / "times.csv", floor, rows)
        plan(tmp_path, *WEEK, "--rounds", "3", "--schedule", "monday.csv")
        last = max(minute_of(row[3]) for row in rows_in(tmp_path / "monday.csv"))
        day, next_day = sorted(chance.sample([at for at in range(380, last) if 360 < at % DAY < 840], 2))
        begin, order = text_at(360), "monday.csv"
        for now, own, rest in ((day, "tuesday.csv", "rest.csv"), (next_day, "wednesday.csv", "left.csv")):
            words = ["--begin", begin, *WEEK[2:], "--order", order, "--now", text_at(now), "--rounds", "2",
                     "--schedule", own, "--rest", rest]
            status, printed, got = ended(["plan", "times.csv", *words], tmp_path)
            if status:
                assert "by this table" in got or "all jobs are finished" in got, got
                break
            # A single job that has begun on its first machine alone may be of another table, which is said.
            if now == next_day and "is of another table" not in got:
                assert "tuesday.csv: has all times of jobs that had begun before; what was left then is planned: " in (
                    got)
                other = ended(["plan", "rest.csv", *words[:-1], "other.csv"], tmp_path)
                assert (status, printed) == other[:2]
                assert (tmp_path / "left.csv").read_text() == (tmp_path / "other.csv").read_text()
                compared += 1
            found = re.search("from (.*) on:", got)
            assert found
            begin, order, due = found[1], own, {row[0] for row in rows_in(tmp_path / rest)}
            write_times(tmp_path / "times.csv", floor, {name: row for name, row in rows.items() if name in due})
    assert compared > 5


def test_a_time_that_has_changed_is_no_time_that_was_left(folder: pathlib.Path) -> None:
    """Of a job that was not first: lamp skipped the saw when the schedule was made."""
    (folder / "times.csv").write_text(TABLE.replace("lamp;60;30", "lamp;0;30"))
    plan(folder, *WEEK, "--order", "order", "--schedule", "monday.csv")
    (folder / "times.csv").write_text(TABLE)
    assert plan(folder, *WEEK, *NOW, status=3)[1] == (
        "pfs: monday.csv: has no work of 'lamp' on 'saw', where it starts at 2026-12-01 07:10 by this table and these "
        f"shifts: {HINT}\n")


# Random weeks, against a simulation of the floor in minutes from the midnight before Monday, 2026-11-30

DAY, BEGIN, DAYS = 1_440, 360, 40
Key = tuple[str, str]


def text_at(minute: int) -> str:
    return (datetime(2026, 11, 30) + timedelta(minutes=minute)).isoformat(" ", "minutes")


def minute_of(text: str) -> int:
    return int((datetime.fromisoformat(text) - datetime(2026, 11, 30)).total_seconds()) // 60


def shift_text(start: int, end: int) -> str:
    return "-".join(f"{minute // 60:02}:{minute % 60:02}" for minute in (start, end))


class Floor:
    """A shop with its true calendar, and how long each job was on each machine."""

    def __init__(self, chance: random.Random) -> None:
        self.chance = chance
        self.usual = chance.choice([[(360, 840)], [(360, 540), (570, 870)], [(0, 1_440)]])
        # The shifts from a day on, and those of each day.
        self.since = {0: self.usual}
        self.days = {day: self.usual_on(day) for day in range(DAYS)}
        self.machines = ["saw", "drill", "paint"][:chance.randint(1, 3)]
        # What each job takes in all, with repairs, and how much of it is done; which machine worked when, and on what.
        self.needs: dict[Key, int] = {}
        self.done: dict[Key, int] = defaultdict(int)
        self.worked: dict[str, dict[int, str]] = defaultdict(dict)

    def usual_on(self, day: int) -> list[tuple[int, int]]:
        return [] if day % 7 > 4 else self.since[max(since for since in self.since if since <= day)]

    def is_open(self, minute: int) -> bool:
        return any(start <= minute % DAY < end for start, end in self.days[minute // DAY])

    def next_open(self, minute: int) -> int:
        return next(later for later in range(minute, DAYS * DAY) if self.is_open(later))

    def add(self, *names: str) -> None:
        for name in names:
            for machine in self.machines:
                self.needs[name, machine] = self.chance.choice([0, self.chance.randint(1, 150)])
            self.needs[name, self.machines[0]] += 1

    def change(self, now: int) -> None:
        """Another calendar, from the end of this day's shifts or from the next day on."""
        day = now // DAY
        if self.chance.random() < .4:
            first = day + self.chance.randint(1, 3)
            self.since[first] = self.chance.choice([[(360, 1_110)], [(300, 600), (660, 900)]])
            self.days |= {later: self.usual_on(later) for later in range(first, DAYS)}
        for later in range(day + 1, min(day + 5, DAYS)):
            if self.chance.random() < .3:
                self.days[later] = self.chance.choice([[], [(420, 1_100)], [(360, 540), (600, 870), (900, 1_000)]])
        last = max((end for _, end in self.days[day]), default=0)
        if now % DAY < last <= DAY - 120 and self.chance.random() < .4:
            self.days[day] = [*self.days[day], (last + 30, last + 90)]

    def options(self, begin: int) -> list[str]:
        usual = ",".join(shift_text(*each) for each in self.usual)
        words = ["--begin", text_at(begin), "--days", "mon-fri", "--shift", usual]
        for day, shifts in self.days.items():
            date = text_at(day * DAY)[:10]
            if day and day in self.since:
                words += ["--shift", f"{date}..:{','.join(shift_text(*each) for each in self.since[day])}"]
            if shifts != self.usual_on(day):
                words += ["--shift", f"{date}:{','.join(shift_text(*each) for each in shifts)}"] if shifts else [
                    "--closed", date]
        return words

    def end_after(self, minute: int, work: int) -> int:
        """When this much is worked from a minute on."""
        while work:
            work -= self.is_open(minute)
            minute += 1
        return minute

    def work(self, rows: list[list[str]], begin: int, now: int) -> None:
        """What a schedule says happens until now. No machine works in a break or on two jobs, and no job overtakes."""
        for job, machine, *moments in rows:
            start, end = map(minute_of, moments)
            for minute in range(max(start, begin), min(end, now)):
                if self.is_open(minute):
                    assert minute not in self.worked[machine], "two jobs at once"
                    self.worked[machine][minute] = job
                    self.done[job, machine] += 1
            assert not start < end <= now or self.is_open(start) and self.is_open(end - 1), "work in a break"

    def left(self, name: str) -> list[int]:
        return [self.needs[name, machine] - self.done[name, machine] for machine in self.machines]


def rows_in(path: pathlib.Path) -> list[list[str]]:
    return [*csv.reader(path.read_text("utf-8-sig").splitlines())][1:]


def times_in(path: pathlib.Path) -> dict[str, list[int]]:
    return {name: [*map(int, times)] for name, *times in rows_in(path)}


def write_times(path: pathlib.Path, floor: Floor, times: dict[str, list[int]]) -> None:
    path.write_text("\n".join([",".join(["job [min]", *floor.machines]),
                               *(",".join([name, *map(str, row)]) for name, row in times.items())]) + "\n")


def happened(path: pathlib.Path, floor: Floor, begin: int, now: int) -> list[list[str]]:
    """What really happens until now, of what a schedule says: some operations take more or less time, which is marked
    in it, and the others follow."""
    chance, ends, real = floor.chance, defaultdict[str, int](int), list[list[str]]()
    lines = [path.read_text("utf-8-sig").splitlines()[0] + ",begun,ended"]
    for job, machine, *moments in rows_in(path):
        start, end = map(minute_of, moments)
        work, cell = floor.needs[job, machine] - floor.done[job, machine], ""
        if start < min(end, now):
            start = max(start, ends[job], ends[machine])
            start = floor.next_open(start) if start < now else start
            real_work = max(1, work + chance.choice([0, chance.randint(-60, 90)] if job[0] != "(" else [0]))
            if start < now:
                end = floor.end_after(start, real_work)
                real.append([job, machine, text_at(start), text_at(end)])
                floor.needs[job, machine] += real_work - work
                cell = text_at(end) if real_work != work else ""
                if cell[:10] == text_at(now)[:10] and chance.random() < .5:
                    cell = cell[11:]
                elif cell and chance.random() < .5:
                    cell = f"{datetime.fromisoformat(cell):%d.%m.%Y %H:%M}"
            ends[job] = ends[machine] = end if start < now else DAYS * DAY
        lines.append(",".join([job, machine, *moments, "", cell]))
    path.write_text("\n".join(lines) + "\n")
    return real


def one_day(folder: pathlib.Path, floor: Floor, begin: int, number: int) -> int | None:
    """Work until a moment, and plan what is left: with what really happened, a changed calendar, rush jobs, a machine
    that is down, and perhaps without the rows of finished jobs. Return from when on it is planned, if a job is left."""
    chance, old = floor.chance, rows_in(folder / "plan.csv")
    end = max(minute_of(row[3]) for row in old)
    now = chance.randint(begin, end)
    before = {minute for minute in range(now) if floor.is_open(minute)}
    floor.change(now)
    assert before == {minute for minute in range(now) if floor.is_open(minute)}
    before_now = dict(floor.done)
    floor.work(happened(folder / "plan.csv", floor, begin, now) if chance.random() < .5 else old, begin, now)
    times = times_in(folder / "times.csv")
    finished = {name for name in times if not any(floor.left(name))}
    if len(finished) == len(times):
        return None
    if chance.random() < .5:
        times = {name: row for name, row in times.items() if name not in finished}
    new = [f"rush{number}"] * chance.randint(0, 1)
    floor.add(*new)
    times |= {name: floor.left(name) for name in new}
    write_times(folder / "times.csv", floor, times)
    then = floor.next_open(now)
    down = {machine: then + chance.randint(1, 600) for machine in floor.machines if chance.random() < .2}
    words = [word for machine, until in down.items() for word in ("--down", f"{machine}={text_at(until)}")]
    words += ["--first", *new] if new and chance.random() < .5 else []
    lines, got = plan(folder, *floor.options(begin), "--order", "plan.csv", "--now", text_at(now), *words, "--rounds",
                      "3", "--schedule", "next.csv", "--rest", "rest.csv")
    rest, places = times_in(folder / "rest.csv"), [line.split(" ", 1)[1] for line in lines if re.match(r"\d", line)]
    begun = {name for (name, machine), done in floor.done.items() if done > before_now.get((name, machine), 0)}
    held = re.search(r"from (.*) on: (\d+) finished, (\d+) held, (\d+) to plan\n", got)
    assert held and held[1] == text_at(then) and int(held[3]) + int(held[4]) == len(rest) == len(places)
    # No job is lost, and none is planned twice. What is left is what isn't done, with the time of a repair.
    pauses = {name for name in rest if name[0] == "("}
    assert rest.keys() - pauses == {name for name in floor_names(floor) if any(floor.left(name))} - pauses
    assert sorted(places) == sorted(rest) and begun - finished <= {*places[:int(held[3])]}
    for name, row in rest.items():
        for machine, time in zip(floor.machines, row):
            repair = sum(floor.is_open(minute) for minute in range(then, down.get(machine, then)))
            more = time - (0 if name in pauses and (name, machine) not in floor.needs else
                           floor.needs[name, machine] - floor.done[name, machine])
            assert more in (0, repair) or name in pauses and 0 < more <= repair, (name, machine, time)
            floor.needs[name, machine] = floor.needs.get((name, machine), 0) + more
    # A machine that is down does nothing but go on with the operation that it interrupts.
    for name, machine, *moments in rows_in(folder / "next.csv"):
        assert (floor.done[name, machine] or name in pauses or moments[0] == moments[1]
                or minute_of(moments[0]) >= down.get(machine, 0)), (name, machine)
    assert int(held[2]) == len(finished & {row[0] for row in old})
    (folder / "plan.csv").write_bytes((folder / "next.csv").read_bytes())
    (folder / "times.csv").write_bytes((folder / "rest.csv").read_bytes())
    return then


def floor_names(floor: Floor) -> list[str]:
    return [*dict.fromkeys(name for name, _ in floor.needs)]


@pytest.mark.seconds(20)
@pytest.mark.parametrize("seed", range(4))
def test_random_weeks(tmp_path: pathlib.Path, seed: int) -> None:
    for week in range(15):
        floor = Floor(random.Random(100 * seed + week))
        floor.add(*(f"job{number}" for number in range(floor.chance.randint(2, 7))))
        write_times(tmp_path / "times.csv", floor, {name: floor.left(name) for name in floor_names(floor)})
        begin: int | None = floor.next_open(BEGIN)
        assert begin is not None
        plan(tmp_path, *floor.options(begin), "--rounds", "3", "--schedule", "plan.csv")
        for number in range(4):
            begin = one_day(tmp_path, floor, begin, number)
            if begin is None:
                break
        else:
            floor.work(rows_in(tmp_path / "plan.csv"), begin, DAYS * DAY)
        assert not any(left for name in floor_names(floor) for left in floor.left(name)), (seed, week)
