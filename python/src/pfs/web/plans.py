"""What a request says: a table, an order of its jobs and dates; and what is made of them. The functions with a folder
are called apart (`pfs.web.apart`)."""
from __future__ import annotations

import base64
import contextlib
import pathlib
import re
import zipfile
from typing import Any
from zlib import crc32

from pfs.base.faults import TableFault
from pfs.base.languages import words_of
from pfs.base.names import shown
from pfs.base.wording import as_controls
from pfs.base.workbooks import MOST_ROWS, OPTIONS_SHEET, Workbook
from pfs.files import tables
from pfs.plan.options import DECIMAL_SIGNS, OPTIONS, options_in
from pfs.plan.orders import moved, numbers_by_name, order_in
from pfs.plan.plan import Plan, calendar_of
from pfs.schedules.calendar import begin_of, needed, text_of
from pfs.shops.instance import Instance
from pfs.web.apart import Wrong

# The most times of a table, faults that are listed, and letters of a text.
MOST_TIMES, MOST_FAULTS, MOST_LETTERS = 400_000, 2_000, 10_000
DAY_OF = {"mo": "mon", "di": "tue", "mi": "wed", "do": "thu", "fr": "fri", "sa": "sat", "so": "sun"}
# The options of a table that have a field on the page, with what is usual.
TYPED: dict[str, Any] = {"unit": "", "sheet": None, "decimals": None, "decimal": "", "machines": [], "jobs": "",
                         "quantity": "", "setup": []}
OTHER_FORM = Wrong("the request has another form than those of this server's page", 400)


def field(given: dict[str, Any], name: str, kind: type[Any], default: Any = None, most: int = MOST_LETTERS) -> Any:
    """A field of a request, which has this type; the default if it is missing or null. A number is from 0 to `most`,
    and a text has at most so many letters."""
    if (value := given.get(name)) is None:
        return default
    if type(value) is not kind or kind is int and not 0 <= value <= most:
        raise OTHER_FORM
    if kind is str and len(texts([value])[0]) > most:
        raise Wrong(f"a text is too long: {most:,} letters are the most")
    return value


def texts(given: Any) -> list[str]:
    """A list of texts, which can be written: no half of a letter is in them."""
    if type(given) is not list or not all(type(each) is str for each in given):
        raise OTHER_FORM
    "".join(given).encode()
    return given


def content_from(given: dict[str, Any]) -> bytes:
    """The content of a file."""
    return base64.b64decode(field(given, "content", str, "", 2**23), validate=True)


# Tables

def read(given: dict[str, Any], folder: str) -> dict[str, Any]:
    """What is said of a table: of a file, which comes with its rows, or of rows that were changed."""
    options = field(given, "options", dict, {})
    if "content" not in given:
        return shop_of(rows_from(given.get("rows")), options)
    content, own, hidden = content_from(given), dict[str, Any](), [0, 0]
    name, sheet = field(given, "name", str, ""), field(options, "sheet", str)
    faults, sheets, marks = list[TableFault](), list[str](), dict[str, Any]()
    if content.startswith(tables.ARCHIVE):
        # A sheet is named when another one is chosen.
        book = Workbook(content, name)
        own = {} if sheet else set_in(book)
        options = {**options, **own.get("typed", {})}
        sheets, sheet = [each for each in book.names if each.casefold() != OPTIONS_SHEET], options.get("sheet")
        if own and sheet and sheet not in book.names:
            raise Wrong(f"{name} has no sheet {sheet!r}, but {', '.join(map(repr, book.names))}")
        table = book.csv_of(sheet := sheet if sheet in book.names else book.first, tables.MOST_ROWS + 2)
        hidden = book.hidden
        marks = {name: [[*cell] for cell in sorted(cells)] for name, cells in
                 (("texts", book.texts), ("computed", book.computed))}
    else:
        table = tables.text_of(content, name, faults)
    delimiter = tables.delimiter_of(table)
    rows = [*tables.records(table, name, delimiter)]
    if len(rows) > tables.MOST_ROWS:
        raise Wrong(f"the table has more than {tables.MOST_ROWS:,} rows")
    marks |= {"delimiter": delimiter}
    return {"rows": rows, "texts": None, "computed": None, "sheets": sheets, "sheet": sheet, "isOther": bool(faults),
            "own": own, "hidden": hidden, **marks, **shop_of(rows, {**options, **marks})}


def set_in(book: Workbook) -> dict[str, Any]:
    """What the sheet `pfs` of a workbook sets, as for `pfs-plan`, and the options that have no field on the page."""
    found = options_in(book)
    last = {name: OPTIONS[name].value(given) for name, given in found.items()}
    typed = {name: last.get(name, usual) for name, usual in TYPED.items()}
    typed |= {"totals": last.get("allow-totals", False), "decimal": DECIMAL_SIGNS.get(typed["decimal"], ""),
              "setup": found.get("setup", [])}
    begin = text_of(begin_of(last["begin"]), 0).replace(" ", "T") if "begin" in last else ""
    dates = {"begin": begin, "shifts": "\n".join(found.get("shift", []))}
    dates |= {name: ",".join(found.get(name, [])) for name in ("days", "closed")}
    unused = found.keys() - {*TYPED, "allow-totals", "begin", "shift", "days", "closed"}
    return {"typed": typed, "calendar": dates, "unused": sorted(unused)} if found else {}


def shop_of(rows: list[tuple[int, list[str]]], options: dict[str, Any]) -> dict[str, Any]:
    """The shop of a table, or its faults by their cells. A workbook's has `texts`, the cells that aren't numbers, also
    those that were typed here, and `computed`, the cells of formulas."""
    marks, computed = places(options, "texts"), places(options, "computed") or set()
    machines, setups = (texts(field(options, name, list, [])) for name in ("machines", "setup"))
    delimiter, jobs, quantity, unit, decimal = (
        field(options, name, str, "") for name in ("delimiter", "jobs", "quantity", "unit", "decimal"))
    if delimiter not in ("", ",", ";", "\t"):
        raise OTHER_FORM
    table = tables.Rows("table", lambda: rows, delimiter or ",", marks, bool(machines), [])
    table.computed = computed - (marks or set())
    try:
        shop, rounded = tables.shop_in(
            table, unit, decimal or None, field(options, "totals", bool, False), machines,
            field(options, "decimals", int), quantity or None, setups, jobs or None)
    except TableFault as fault:
        found = [{"line": each.line, "column": each.column, "text": as_controls(each.text)}
                 for each in (fault, *fault.others)]
        return {"faults": found[:MOST_FAULTS], "more": len(found[MOST_FAULTS:]),
                "suggested": tables.likely_machines(rows)}
    return {"faults": [], "more": 0, "suggested": [], "rounded": rounded, "digest": Plan(shop).table,
            "shop": {"jobs": shop.job_names, "machines": shop.machine_names, "unit": shop.unit,
                     "decimals": shop.decimals, "times": shop.times.tolist()}}


def places(options: dict[str, Any], name: str) -> set[tuple[int, int]] | None:
    """Cells of a table, by their rows and columns."""
    found = field(options, name, list)
    if found and not all(type(each) is list and [*map(type, each)] == [int, int] for each in found):
        raise OTHER_FORM
    return None if found is None else {(line, column) for line, column in found}


def rows_from(rows: Any) -> list[tuple[int, list[str]]]:
    """The rows of the page that aren't empty, each with its line."""
    before, found = 0, list[tuple[int, list[str]]]()
    for row in rows if type(rows) is list else [None]:
        if type(row) is not list or len(row) != 2 or type(row[0]) is not int or not before < row[0] <= MOST_ROWS:
            raise OTHER_FORM
        before, cells = row[0], tables.texts_in(texts(row[1]))
        if len(cells) > tables.MOST_CELLS:
            raise OTHER_FORM
        found += [(before, cells)] if any(cells) else []
    return found


def shop_from(given: dict[str, Any]) -> Instance:
    """The shop of a request."""
    fields = field(given, "shop", dict, {})
    times, jobs, machines = field(fields, "times", list), texts(fields.get("jobs")), texts(fields.get("machines"))
    if times is None or any(type(row) is not list or {*map(type, row)} != {int} for row in times):
        raise OTHER_FORM
    if sum(map(len, times)) > MOST_TIMES:
        raise Wrong(f"the table has more than {MOST_TIMES:,} times")
    return Instance(times, name=field(given, "title", str, ""), job_names=jobs, machine_names=machines,
                    unit=field(fields, "unit", str, ""), decimals=field(fields, "decimals", int, 0, 9))


def order(given: dict[str, Any], folder: str) -> dict[str, list[str]]:
    """The jobs of a table in the order of a file, as `pfs-plan --order` reads it. What has happened isn't left out in
    silence."""
    shop, path = shop_from(given), pathlib.Path(folder, "order")
    path.write_bytes(content_from(given))
    try:
        found = order_in(path, shop)
    except TableFault as fault:
        raise Wrong(fault.text) from None
    if any("".join(row[column - 1:column]) for _, row in found.rows for column in found.columns.values()):
        raise Wrong("what has begun and ended is planned by pfs-plan --now: leave these columns out to take the order")
    return {"order": [*map(shop.job_name, found.jobs)]}


# Plans

def placed(plan: Plan, names: list[str], held: int) -> dict[str, list[str]]:
    """Give the jobs with these names their places, and return the names that the table lacks, and those that the names
    lack, which are inserted where they are best after the first ones."""
    numbers = numbers_by_name(plan.shop)
    plan.order = list(dict.fromkeys(numbers[name] for name in names if name in numbers))
    plan.held = plan.order[:held]
    new = plan.fill()
    plan.held = plan.order[:held]
    return {"gone": [name for name in names if name not in numbers], "new": [*map(plan.shop.job_name, new)]}


def plan_from(given: dict[str, Any]) -> tuple[Plan, dict[str, Any]]:
    """The plan of a request, and what is said of it: the names of jobs that are gone or new, and whether the bound that
    the page remembers, or that of its file, is of another table. One above a makespan is of another one."""
    plan, digest = Plan(shop := shop_from(given)), field(given, "digest", str, "")
    least, claimed = (field(given, name, int, 0, 2**53) for name in ("least", "claimed"))
    said: dict[str, Any] = placed(plan, texts(given.get("order")), field(given, "held", int, 0, shop.jobs))
    most = plan.schedule.makespan
    known = {number: number <= most and plan.know(number, digest) for number in (claimed, least)}
    # What only a file says isn't proved here.
    plan.know(known[least] * least, digest)
    said |= {"isOther": not all(known.values()),
             "claimed": plan.span(claimed) if known[claimed] and claimed > plan.best.bound else ""}
    # A line has a shift; a comma is between days and dates.
    begin, shifts, days, closed = (plain(field(field(given, "calendar", dict, {}), name, str, "").strip())
                                   for name in ("begin", "shifts", "days", "closed"))
    plan.calendar = calendar_of(begin, [*filter(None, map(str.strip, shifts.split("\n")))], days, closed)
    # It can't name a file.
    plan.language = "de" if field(given, "language", str) == "de" else "en"
    return plan, said


def plain(text: str) -> str:
    """Dates, days and shifts as calendars read them, of such as Mo-Fr, 24.12.2026 and 6:00 - 14:30 with a long dash."""
    text = re.sub("\\s*[-\u2010-\u2015]\\s*", "-", text)
    text = re.sub(r"\b([0-9])(?=\.|:[0-9]{2})", r"0\1", text)
    text = re.sub(r"\b([0-9]{2})\.([0-9]{2})\.([0-9]{4})\b", r"\3-\2-\1", text)
    text = re.sub("(?<=-[0-9]{2}-[0-9]{2})-(?=[0-9]{4}-)", "..", text)
    return re.sub(r"\b(mo|di|mi|do|fr|sa|so)\b", lambda each: DAY_OF[each[1].lower()], text, flags=re.IGNORECASE)


def told(given: dict[str, Any], folder: str) -> dict[str, Any]:
    """What a plan comes to, with its chart, and the jobs that have moved from orders that were kept."""
    (plan, said), chart = plan_from(given), pathlib.Path(folder, "chart.html")
    jobs, (heads, *machines) = plan.jobs(), plan.machines()
    plan.chart(str(chart), plan.shop.name or True)
    return {**quality(plan), **said,
            "end": end_of(plan), "bottleneck": plan.report.bottleneck,
            "machines": machines, "heads": [*map(words_of(plan.language), heads)],
            "kept": [compared(given, each, [name for name, *_ in jobs]) for each in field(given, "kept", list, [])],
            "jobs": [[*row, mark] for row, mark in zip(jobs, marks(plan))], "chart": chart.read_text("utf-8")}


def marks(plan: Plan) -> list[int]:
    """Numbers that tell the times of jobs from other times, in the order of the plan."""
    times = plan.shop.times[plan.order] / 10**plan.shop.decimals
    return [crc32(repr((plan.shop.machine_names, plan.shop.unit, row)).encode()) for row in times.tolist()]


def compared(given: dict[str, Any], kept: Any, names: list[str]) -> dict[str, Any] | None:
    """What an order that was kept comes to with the table of the request, with its own dates or those of the request,
    and the jobs that have moved from it. None if no job of it is in the table, or its dates are wrong."""
    kept = field({"kept": kept}, "kept", dict, {})
    if {*names}.isdisjoint(texts(kept.get("order"))):
        return None
    with contextlib.suppress(ValueError):
        plan, said = plan_from({**given, "claimed": 0, **kept})
        return {**quality(plan), "gone": said["gone"], "new": said["new"], "end": end_of(plan),
                "ends": {name: end for name, _, end in plan.jobs()}, "moved": moved(names, kept["order"])}
    return None


def end_of(plan: Plan) -> str:
    """When it is finished, if there are dates."""
    return "".join(end.removeprefix("end ") for end in plan.ends()[1:])


def quality(plan: Plan) -> dict[str, Any]:
    """A makespan, and how far above the shortest one it may be, in percent."""
    best = plan.best
    return {"makespan": plan.span(best.makespan), "span": best.makespan, "bound": plan.span(best.bound),
            "isOptimal": best.optimal, "above": round(100 * (best.makespan - best.bound) / max(1, best.bound), 1)}


def file(given: dict[str, Any], folder: str) -> bytes:
    """A plan as a file of this kind."""
    if (kind := given.get("kind")) not in ("csv", "html", "pdf", "txt", "xlsx", "zip"):
        raise OTHER_FORM
    (plan, _), path = plan_from(given), pathlib.Path(folder, f"plan.{kind}")
    if kind == "txt":
        path.write_text("".join(f"{shown(plan.shop.job_name(job))}\n" for job in plan.order), "utf-8")
    elif kind in ("html", "pdf"):
        plan.chart(str(path), plan.shop.name or True)
    elif kind != "zip":
        plan.write(str(path), ";", True)
    else:
        with zipfile.ZipFile(path, "w", zipfile.ZIP_DEFLATED) as archive:
            for each in plan.write(str(pathlib.Path(folder, "plan.ics")), ";", True):
                archive.write(each, pathlib.Path(each).name)
    return path.read_bytes()


def rest(given: dict[str, Any], folder: str) -> dict[str, Any]:
    """The table of what is left of a plan at a moment, with its order and the date from which on it is planned."""
    (plan, _), down = plan_from(given), field(given, "down", dict, {})
    until = [(machine, field(down, machine, str, "")) for machine in down]
    left, done = plan.rest(field(given, "at", str, ""), until)
    rows = [*enumerate(tables.text_rows(left.shop), 1)]
    return {"rows": rows, "delimiter": ",", "order": left.shop.job_names, "held": len(left.held), "done": done,
            "begin": text_of(needed(left.calendar, "`now`").begin, 0).replace(" ", "T"),
            **shop_of(rows, {"totals": True, "machines": rows[0][1][1:]})}
