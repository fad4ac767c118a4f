"""The state of the page: after any steps and failures, a plan that is shown is that of the table on the screen. What it
has to be is computed here from the cells that are seen."""
import contextlib
import datetime
import itertools
import json
import pathlib
import random
import re
import time
from collections import Counter
from collections.abc import Callable
from decimal import Decimal
from typing import Any, TypeAlias

import pytest
from support.servers import free_port
from test_web import TOKEN
from test_web_page import Page, browser_in
from test_web_server import Server, served

pytestmark = [pytest.mark.seconds(110), pytest.mark.timeout(900), pytest.mark.xdist_group("state")]
# The times of each job, in an order, each with its machine.
Times: TypeAlias = dict[str, tuple[tuple[str, int], ...]]
DATES = ["", "2026-11-30T06:00", "2026-12-01T07:30"]
# Each request fails in one of three ways, or none does.
FAIL = """const ownFetch = window.fetch, busy = {error: "the server is busy: try again in a minute"};
window.failing = 0;
window.fetch = (...given) => window.failing === 1 ? Promise.reject(new TypeError())
  : window.failing === 2 ? Promise.resolve(Response.json(busy, {status: 503}))
  : window.failing === 3 ? Promise.resolve(new Response("<html>", {status: 502})) : ownFetch(...given);"""
# What is seen on the screen, and of the document only whether something is under way. A plan of what isn't read yet is
# marked, and hidden a moment later. After a move, a hold or another date the plan before it is shown until the server
# tells the new one.
SEEN = """const one = id => document.getElementById(id), isSeen = each => each.checkVisibility();
const rows = name => [...document.querySelectorAll(`#${name} tbody tr[aria-rowindex]`)], result = one("three");
const three = result.checkVisibility({visibilityProperty: true}) && (arguments[0] || !result.matches(".unread"));
return {rows: rows("table").map(row => [...row.querySelectorAll("td input")].map(each => each.value)),
  lines: rows("table").map(row => parseInt(row.cells[0].textContent)), three, two: isSeen(one("two")),
  ticks: [...document.querySelectorAll("#table thead th input")].map(each => [each.dataset.key, each.checked]),
  message: isSeen(one("message")) ? one("message").textContent : "", ends: one("ends").textContent,
  order: rows("order").map(row => [row.querySelector(".name").textContent, row.cells[4].textContent,
                                   row.classList.contains("held")]), begin: one("begin").value,
  plans: [...document.querySelectorAll("#plans tr")].slice(1).map(row => [...row.cells].map(each => each.textContent)),
  chart: one("chart").srcdoc, faults: one("faults").childElementCount, hasPlan: Boolean(desk.state.doc.plan),
  isTold: desk.steps.isShown(desk.state), isQuiet: !desk.steps.wish(desk.state) && !desk.state.search};"""
ENDS = re.compile(r"(\d+) min(?:, finished ([-\d]+ [\d:]+))?; (?:(optimal)|at most .*no order is below (\d+) min)")


def ends_of(times: list[tuple[tuple[str, int], ...]]) -> list[int]:
    """When each job of an order ends: with its last operation that takes time."""
    free, found = [0] * len(times[0]), list[int]()
    for row in times:
        at = end = 0
        for machine, (_, each) in enumerate(row):
            at = free[machine] = max(at, free[machine]) + each
            end = at if each else end
        found.append(end)
    return found


def shortest(times: Times) -> int:
    """Of all orders."""
    return min(max(ends_of([*order])) for order in itertools.permutations(times.values()))


def times_in(seen: dict[str, Any]) -> Times | None:
    """The times of the rows on the screen, or None if these aren't a table."""
    columns = [int(key.split(",")[0]) - 1 for key, is_on in seen["ticks"] if is_on]
    head, *rows = seen["rows"] or [[]]
    names = [row[0] for row in rows]
    cells = [[row[at] for at in columns] for row in rows]
    if not columns or not names or "" in names or len({*names}) < len(names) \
            or len({head[at] for at in columns}) < len(columns) \
            or not all(re.fullmatch(r"\d+(\.0)?", cell) for row in cells for cell in row):
        return None
    return {name: tuple((head[at], int(Decimal(cell))) for at, cell in zip(columns, row))
            for name, row in zip(names, cells)}


def compared(kept: Times, now: Times) -> tuple[int, str]:
    """The makespan of the jobs of a kept plan that are here, and how they differ."""
    differing = (("left out, as the table lacks them:", kept.keys() - now.keys()),
                 ("with other times:", {job for job in kept.keys() & now.keys() if kept[job] != now[job]}),
                 ("new, and inserted where they are best:", now.keys() - kept.keys()))
    notes = [f"{text} {', '.join(sorted(jobs))}" for text, jobs in differing if jobs]
    return max(ends_of([now[job] for job in kept if job in now])), "; ".join(notes)


def check(seen: dict[str, Any], kept: dict[str, Times]) -> None:
    """A plan that is shown is of the table that is shown."""
    times = times_in(seen)
    assert times is not None, "a plan of what is no table"
    names = [name for name, _, _ in seen["order"]]
    assert sorted(names) == sorted(times)
    ends, least = ends_of([times[name] for name in names]), shortest(times)
    told = ENDS.match(seen["ends"])
    assert told and int(told[1]) == max(ends), f"the makespan is {max(ends)}"
    assert max(ends) == least if told[3] else int(told[4]) <= least, f"the shortest takes {least}"
    if not seen["isTold"]:
        return
    if seen["begin"]:
        begin = datetime.datetime.fromisoformat(seen["begin"])
        due = [f"{begin + datetime.timedelta(minutes=end):%Y-%m-%d %H:%M}" for end in (max(ends), *ends)]
        assert told[2] == due[0]
    # A job without any time has no own end.
    busy = {name for name, row in times.items() if any(time for _, time in row)}
    assert [end for name, end, _ in seen["order"] if name in busy] == \
        [end for name, end in zip(names, due[1:] if seen["begin"] else map(str, ends)) if name in busy]
    held = [is_held for _, _, is_held in seen["order"]]
    assert held == sorted(held, reverse=True), "the first ones are held"
    for title, makespan, _, _, note, _ in seen["plans"]:
        is_other = kept[title].keys().isdisjoint(times)
        assert (makespan == "of another table") == is_other, "a kept plan with a job of the table is compared"
        if not is_other:
            least, differing = compared(kept[title], times)
            parts = (part.partition(": ") for part in note.split("; "))
            assert "; ".join(f"{text}: {', '.join(sorted(jobs.split(', ')))}" for text, _, jobs in parts if jobs) \
                == differing
            found = int(makespan.removesuffix(" min"))
            assert found >= least if "new" in differing else found == least
    assert all(name in seen["chart"] for name in names)


class Week:
    """A planner, a server and a network, by a seed."""

    def __init__(self, page: Page, seed: int, serve: Callable[[], Any]) -> None:
        self.page, self.random, self.serve, self.up = page, random.Random(seed), serve, contextlib.ExitStack()
        self.seen, self.done = dict[str, Any](), Counter[str]()
        self.kept, self.saved = dict[str, Times](), list[str]()
        self.run = page.browser.execute_script
        # How often each is done.
        self.steps: dict[Callable[[], None], int] = {
            self.edit: 12, self.mend: 6, self.rename: 3, self.leave: 2, self.add: 3, self.choose: 2, self.plan: 14,
            self.move: 9, self.hold: 4, self.fail: 5, self.stop: 2, self.start: 6, self.reload: 4, self.rest: 4,
            self.back: 8, self.open: 2, self.keep: 6, self.show: 5, self.date: 3, self.save: 3, self.load: 3}

    def look(self, is_later: bool = False) -> dict[str, Any]:
        self.seen = self.run(SEEN, is_later)
        if self.seen["three"]:
            check(self.seen, self.kept)
            self.done["shown"] += 1
        return self.seen

    def step(self) -> None:
        """Do something, look at once, and often again when all is quiet."""
        act, = self.random.choices([*self.steps], [*self.steps.values()])
        self.done[act.__name__] += 1
        act()
        moment = self.random.choice([0.01, 0.03, 0.1, 0.5])
        time.sleep(moment)
        self.look(moment == 0.5)
        if self.random.random() < 0.3:
            self.start()
            self.page.wait(lambda: self.look()["isQuiet"], "all is told")
            # It is drawn a moment later.
            time.sleep(0.05)
            seen = self.look()
            if seen["hasPlan"] and not seen["faults"] and not seen["message"]:
                assert seen["three"], "a plan that is told is shown"

    def click(self, selector: str) -> None:
        self.run("const one = document.querySelector(arguments[0]); if (one && one.checkVisibility()) one.click()",
                 selector)

    def put(self, selector: str, value: str) -> None:
        self.run("const one = document.querySelector(arguments[0]); if (one) { one.focus(); one.value = arguments[1]; "
                 "one.dispatchEvent(new Event('change', {bubbles: true})); one.blur(); }", selector, value)

    def write(self, line: int, column: int, text: str) -> None:
        self.put(f"[data-key='{line},{column}']", text)

    def line(self) -> int:
        return int(self.random.choice(self.seen["lines"][1:] or [2]))

    def job(self) -> str:
        return str(self.random.choice(self.seen["order"])[0]) if self.seen["order"] else ""

    # What a planner does

    def open(self) -> None:
        machines = self.random.randint(2, 4)
        rows = [[f"J{at}x{self.random.randint(0, 99)}", *(str(self.random.randint(1, 9)) for _ in range(machines))]
                for at in range(self.random.randint(3, 5))]
        heads = ["job [min]", *(f"m{at}" for at in range(machines))]
        self.page.drop("table.csv", "".join(",".join(row) + "\n" for row in [heads, *rows]).encode())

    def edit(self) -> None:
        self.write(self.line(), self.random.randint(2, 5), self.random.choice([*"0123456789", "x"]))

    def mend(self) -> None:
        for line, row in zip(self.seen["lines"][1:], self.seen["rows"][1:]):
            for column in range(2, len(self.seen["rows"][0]) + 1):
                if not re.fullmatch(r"\d+(\.0)?", row[column - 1]):
                    self.write(line, column, "3")

    def rename(self) -> None:
        self.write(self.line(), 1, f"N{self.random.randint(0, 999)}")

    def leave(self) -> None:
        if len(self.seen["rows"]) > 3:
            self.click(f"[data-key='{self.line()},out']")

    def add(self) -> None:
        if len(self.seen["rows"]) < 6:
            self.click("#add")

    def choose(self) -> None:
        self.click(self.random.choice(["#totals", *(f"[data-key='{at},machine']" for at in (2, 3, 4))]))

    def plan(self) -> None:
        self.run("const one = document.querySelector('#seconds'); one.options[0].value = one.value = '1'")
        self.click("#plan:enabled")

    def move(self) -> None:
        self.click(f"[data-key='{self.job()}:{self.random.choice(['up', 'down', 'first'])}']")

    def hold(self) -> None:
        self.click(f"[data-key='{self.job()}:hold']")

    def rest(self) -> None:
        if self.seen["three"] and self.seen["begin"]:
            now = datetime.datetime.fromisoformat(self.seen["begin"])
            self.put("#now", f"{now + datetime.timedelta(minutes=self.random.randint(0, 9)):%Y-%m-%dT%H:%M}")
            self.click("#rest")

    def back(self) -> None:
        self.click("#back")

    def keep(self) -> None:
        """The plan that is kept has the table of this moment."""
        title = f"K{self.done['keep']}"
        self.start()
        self.page.wait(lambda: self.look()["isQuiet"], "all is told")
        self.mend()
        self.put("#title", title)
        self.plan()
        self.page.wait(lambda: self.look()["isQuiet"], "all is told")
        times = times_in(self.look())
        if self.seen["three"] and times:
            self.kept[title] = {name: times[name] for name, _, _ in self.seen["order"]}
            self.click("#keep")
            self.page.wait(lambda: title in [each[0] for each in self.look()["plans"]], "it is kept")

    def show(self) -> None:
        self.run("const all = document.querySelectorAll('#plans button'); all[arguments[0] % all.length]?.click()",
                 self.random.randint(0, 99))

    def date(self) -> None:
        self.put("#begin", self.random.choice(DATES))

    def save(self) -> None:
        self.saved.append(self.run("return desk.steps.toFile(desk.state.doc)"))

    def load(self) -> None:
        """Bounds of a file may be wrong: they are only said to be those of the file."""
        if self.saved:
            doc = json.loads(self.random.choice(self.saved))
            doc["proved"] = {digest: bound + self.random.randint(0, 2) for digest, bound in doc["proved"].items()}
            self.page.drop("week.json", json.dumps(doc).encode())

    # What happens to the server

    def fail(self) -> None:
        self.run("window.failing = arguments[0]", self.random.randint(1, 3))

    def stop(self) -> None:
        self.up.close()
        self.server = None

    def start(self) -> None:
        """The server and the network are there again."""
        if not getattr(self, "server", None):
            self.server = self.up.enter_context(self.serve())
        self.run("window.failing = 0; window.dispatchEvent(new Event('online'))")

    def reload(self) -> None:
        self.start()
        self.page.browser.refresh()
        self.page.wait(lambda: self.run("return Boolean(window.desk)"), "the page is there again")


@pytest.fixture
def folder(tmp_path: pathlib.Path) -> pathlib.Path:
    (tmp_path / "token").write_text(f"{TOKEN}\n")
    (tmp_path / "token").chmod(0o600)
    return tmp_path


def test_each_step_does_what_it_says(folder: pathlib.Path) -> None:
    """20,000 steps of the document alone, with answers that come late or never."""
    script = pathlib.Path(__file__).with_name("page_steps.js").read_text("utf-8")
    with browser_in(folder) as browser, served() as server:
        Page(browser, server, folder).open()
        browser.set_script_timeout(60)
        for seed in range(4):
            assert browser.execute_async_script(f"(async () => {{ {script} }})()", seed, 5_000) == ""


@pytest.mark.parametrize("seed", [1])
def test_what_is_shown_is_of_the_table_on_the_screen(seed: int, folder: pathlib.Path) -> None:
    """In a random week with failures, restarts and reloads, with what is saved, opened, kept and taken back."""
    port = free_port()

    def serve() -> Any:
        return served("--searches", "2", "--token-file", str(folder / "token"), port=port)

    with browser_in(folder) as browser, contextlib.ExitStack() as stack:
        browser.execute_cdp_cmd("Page.addScriptToEvaluateOnNewDocument", {"source": FAIL})
        with served("--searches", "2", "--token-file", str(folder / "token"), port=port) as server:
            page = Page(browser, Server(server.process, port, ""), folder)
            page.open()
        week = Week(page, seed, serve)
        stack.callback(week.up.close)
        week.start()
        week.open()
        page.wait(lambda: week.look()["two"])
        week.plan()
        for at in range(200):
            try:
                week.step()
            except Exception as error:
                error.add_note(f"seed {seed}, step {at}: {json.dumps({**week.seen, 'chart': ''})}")
                raise
    assert week.done["shown"] > 100, dict(week.done)
