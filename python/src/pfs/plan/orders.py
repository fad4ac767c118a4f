"""Files with an order by the names of jobs, which `plan` prints and people change."""
from __future__ import annotations

import contextlib
import csv
import os
import re
from bisect import bisect_left
from collections.abc import Collection, Iterable, Iterator, Mapping, Sequence
from itertools import chain, islice, takewhile
from typing import NamedTuple, TypeVar

from pfs.base.cells import text_cell, text_in_cell
from pfs.base.faults import TableFault, raise_all
from pfs.base.languages import words_of
from pfs.base.names import shown
from pfs.base.order_text import numbers_in, words_in
from pfs.files.instances import content_of
from pfs.files.tables import SAYS_JOB, delimiter_of, is_above_names, lines_of, records, text_of
from pfs.schedules.report import MARKS, OPERATIONS
from pfs.shops.instance import Instance
from pfs.shops.search import by_total, insert_after

# The lines of a plan before its jobs, and a job after its place.
HEAD = re.compile(r"(makespan|bound) \S.*")
AFTER = (re.compile("optimal"), re.compile(r"end [0-9]{4}-[0-9]{2}-[0-9]{2} [0-9:.]+"))
# The line after the jobs of a plan, where a report follows.
AFTER_ORDER = "---"
PLACED = re.compile(r"[0-9]+(?:[.):;,]\s*|\s+)(.+)")

# The most jobs whose names are compared with others that nearly match.
MOST_COMPARED = 500

# A job, by its number or by its name.
Job = TypeVar("Job", int, str)


class FoundOrder(NamedTuple):
    """An order that was read: the jobs that the table has, and the names that it lacks, with how many of these jobs are
    before each. Of a schedule also the rows of operations with their lines, and by their names the columns
    that say what has happened (`MARKS`), counted from 1."""

    jobs: list[int]
    gone: dict[str, int]
    rows: Sequence[tuple[int, list[str]]] = ()
    columns: Mapping[str, int] = {}


def order_in(path: str | os.PathLike[str], shop: Instance, language: str = "en") -> FoundOrder:
    """Return the order in a file.

    The file is the output of `plan`, its schedule as a table, in English, German or the language, or a list of the
    names of the jobs, one per line, with or without a place before it, or all on one line. A `TableFault` says which
    name occurs twice, or that no name is one of the table's."""
    path = os.fspath(path)
    content = content_of(path)
    numbers = numbers_by_name(shop)
    # The line of each job of the table, and of each other name.
    seen: dict[int | str, int] = {}
    text = text_of(content, path)
    rows, columns = operations_in(text, path, language)
    for line, name in firsts_of(rows) if rows else named_jobs(text, path, numbers):
        job = numbers.get(name, name)
        if job in seen:
            raise TableFault(path, line, 0, f"the job {name!r} is in line {seen[job]} too")
        seen[job] = line
    found = FoundOrder([], {}, rows, columns)
    for job in seen:
        if isinstance(job, int):
            found.jobs.append(job)
        else:
            found.gone[job] = len(found.jobs)
    near = near_names(found, shop)
    if len(near) > len(found.jobs):
        name, own = next(iter(near.items()))
        more = f" (and {len(near) - 1:,} more nearly match)" if len(near) > 1 else ""
        raise TableFault(path, seen[name], 0, f"{name!r} isn't a job of the table: write {own!r} if it is that{more}")
    if not found.jobs:
        raise TableFault(path, 1, 0, "no job of the table is named: write the names of the jobs, one in a line")
    return found


def near_names(found: FoundOrder, shop: Instance) -> dict[str, str]:
    """The jobs without a place that nearly have the names that the table lacks: in other capitals, with other signs
    between letters, without the zeros before a number, or with more words."""
    placed, forms, near = set(found.jobs), dict[str, str](), dict[str, str]()
    for name in (shop.job_name(job) for job in range(shop.jobs) if job not in placed) if found.gone else ():
        forms[plain_form(name)] = name
    for name in found.gone:
        own = plain_form(name)
        like = [own] if own in forms else [] if len(forms) > MOST_COMPARED else [
            form for form in forms if is_in(own, form) or is_in(form, own)]
        if len(like) == 1:
            near[name] = forms[like[0]]
    return near


def plain_form(name: str) -> str:
    """The letters and numbers of a name.

    >>> plain_form("FA-004727  (eilt)")
    'fa4727eilt'
    """
    return re.sub(r"(?<![0-9])0+(?=[0-9])", "", re.sub(r"[\W_]+", "", name.casefold()))


def is_in(part: str, form: str) -> bool:
    """Whether a form has a shorter one with three letters or more, and no part of a number."""
    before, after = ("(?<![0-9])" if part[:1].isdigit() else ""), ("(?![0-9])" if part[-1:].isdigit() else "")
    return len(part) > 2 and part in form and re.search(f"{before}{part}{after}", form) is not None


def stated_end(path: str | os.PathLike[str], found: FoundOrder) -> str:
    """What a plan or a schedule with dates says of its own end, or an empty text."""
    text = text_of(content_of(os.fspath(path)), os.fspath(path))
    lines = [line.strip() for line in islice(lines_of(text), 4)]
    if len(lines) > 1 and all(HEAD.fullmatch(line) for line in lines[:2]):
        return ", ".join([lines[0], *(line for line in lines if AFTER[1].fullmatch(line))])
    dates = [iso_of(row[3]) for _, row in found.rows if len(row) > 3 and "-" in iso_of(row[3])]
    return f"end {max(dates).removesuffix(':00') if len(max(dates)) > 16 else max(dates)}" if dates else ""


def iso_of(text: str) -> str:
    """A date and time as it was written, also if a spreadsheet in German saved it."""
    return re.sub(r"([0-9]{1,2})\.([0-9]{1,2})\.([0-9]{4})\b",
                  lambda date: f"{date[3]}-{date[2]:0>2}-{date[1]:0>2}", text)


def numbers_by_name(shop: Instance) -> dict[str, int]:
    """Return the number of each job by its name, also as plans and schedules have it."""
    names = [shop.job_name(job) for job in range(shop.jobs)]
    forms = [*map(shown, names)], [*map(text_in_cell, names)], [*map(text_cell, names)], names
    return {text: job for texts in forms for job, text in enumerate(texts)}


def filled(shop: Instance, order: list[int], held: int) -> list[int]:
    """Insert the jobs that an order lacks at their best places after the held ones, and return them."""
    new = by_total(shop, sorted({*range(shop.jobs)} - {*order}))
    insert_after(shop, order, held, new)
    return new


def moved(order: Sequence[Job], other: Sequence[Job]) -> list[Job]:
    """Return the jobs of an order that have moved since another one: all that it has too, but for the longest sequence
    that is in both.

    >>> moved(["a", "b", "c", "new", "d"], ["b", "c", "d", "gone", "a"])
    ['a']
    """
    places = {job: place for place, job in enumerate(other)}
    # The least last place of a sequence of each length, its last job, and the job before each one.
    ends: list[int] = []
    lasts: list[Job] = []
    befores: dict[Job, Job | None] = {}
    for job in order:
        if job in places:
            at = bisect_left(ends, places[job])
            ends[at:at + 1], lasts[at:at + 1], befores[job] = [places[job]], [job], lasts[at - 1] if at else None
    stayed, last = set[Job](), lasts[-1] if lasts else None
    while last is not None:
        stayed.add(last)
        last = befores[last]
    return [job for job in order if job in places and job not in stayed]


def rows_of_table(text: str, path: str, delimiter: str, numbers: Collection[str]) -> list[tuple[int, list[str]]]:
    """Return the rows of a table of times, which has a head. In a list of jobs after their places, they are in the
    second column, perhaps with another head."""
    rows: list[tuple[int, list[str]]] = []
    with contextlib.suppress(TableFault):
        rows = [*records(text, path, delimiter)]
    head = rows[0][1] if rows else []
    if len(head) < 2 or head[0] in numbers or not is_above_names(head[0]):
        return []
    firsts, seconds = (len({row[at] for _, row in rows if len(row) > at}.intersection(numbers)) for at in (0, 1))
    return rows[1:] if firsts > seconds or (firsts == seconds and not SAYS_JOB.match(head[1])) else []


def operations_in(text: str, path: str, language: str) -> tuple[list[tuple[int, list[str]]], dict[str, int]]:
    """The rows of a schedule with their lines, and the columns that say what has happened; none if it isn't one."""
    says = [words_of(each) for each in ("en", "de", language)]
    marks, count = {say(name).casefold(): name for say in says for name in MARKS}, len(OPERATIONS)
    line, first = next(filled_lines(text), (0, ""))
    for separator in ";,\t":
        for row in csv.reader([first], delimiter=separator):
            if any([*map(say, OPERATIONS)] == row[:count] for say in says):
                others = [(column, cell) for column, cell in enumerate(map(str.strip, row[count:]), count + 1) if cell]
                raise_all(TableFault(path, line, column, f"{cell!r} is no column of a schedule: those that say what "
                                     f"has happened are {' and '.join(MARKS)}") for column, cell in others
                          if cell.casefold() not in marks)
                columns = {marks[cell.casefold()]: column for column, cell in others}
                return [*islice(records(text, path, separator), 1, None)], columns
    return [], {}


def filled_lines(text: str) -> Iterator[tuple[int, str]]:
    """The lines that aren't empty, with their numbers, without one that names the separator."""
    return ((line, cell) for line, row in enumerate(lines_of(text), 1)
            if (cell := row.strip()) and not re.fullmatch("sep=.", cell))


def firsts_of(rows: Iterable[tuple[int, list[str]]]) -> Iterator[tuple[int, str]]:
    """The jobs of a schedule, each with its first line."""
    seen: set[str] = set()
    for line, row in rows:
        if row[0] not in seen:
            seen.add(row[0])
            yield line, row[0]


def named_jobs(text: str, path: str, numbers: dict[str, int]) -> Iterator[tuple[int, str]]:
    """Return the names of the jobs with their lines, of a file that isn't a schedule."""
    filled = filled_lines(text)
    lines = list(islice(filled, 4))
    is_plan = len(lines) > 2 and all(HEAD.fullmatch(lines[at][1]) for at in (0, 1))
    if is_plan:
        lines = lines[2:]
        for after in AFTER:
            lines = lines[1:] if lines and after.fullmatch(lines[0][1]) else lines
    elif len(lines) == 1 and lines[0][1] not in numbers:
        line, entry = lines[0]
        words = words_in(entry)
        if len(words) > 1 and (numbers.keys() >= {*words} or isinstance(numbers_in(entry), list)):
            yield from ((line, word) for word in words)
            return
    delimiter = delimiter_of(text)
    is_list = is_plan or any(entry in numbers for _, entry in lines[:1])
    rows = [] if is_list else rows_of_table(text, path, delimiter, numbers)
    if rows:
        yield from ((line, row[0]) for line, row in rows if row[0])
        return
    listed = takewhile(lambda each: not is_plan or each[1] != AFTER_ORDER, chain(lines, filled))
    for at, (line, entry) in enumerate(listed):
        placed = PLACED.fullmatch(entry)
        name = placed[1] if placed and (is_plan or entry not in numbers) else entry
        # A row of a table has other cells after the name, which may be a number.
        first, own = (next(csv.reader([each], delimiter=delimiter), [""])[0].strip() for each in (name, entry))
        known = next((each for each in (name, first, "" if is_plan else own) if each in numbers), None)
        if known is not None:
            yield line, known
        elif is_plan or at or not is_above_names(first):
            yield line, re.split("[;\t]", name)[0].strip().strip('"')
