"""Audits of tables with orders and makespans that others have published."""
from __future__ import annotations

import re
import warnings
from collections import Counter, defaultdict
from collections.abc import Iterator, Mapping
from itertools import chain, islice
from typing import Any, NamedTuple

from pfs.audits.causes import MOST_HINTS, Causes, Stated
from pfs.audits.figures import Figures
from pfs.audits.heads import ROLES
from pfs.audits.shelf import LAYOUTS, Shelf, Shops
from pfs.audits.supplements import Given, Table, sheet_of, tables_of, text_in
from pfs.base.order_text import numbers_in
from pfs.binding.validate import checked_int
from pfs.shops.instance import Instance

# Of three zeros after a point, as in 1.000, the point may group thousands.
WHOLE = re.compile(r"([0-9]{1,18})(?:\.(?!000\Z)0*)?")


class Audited(NamedTuple):
    """The verdict on a published order.

    Attributes
    ----------
    row : int
        The row of a frame or list, counted from 0; of a file, its line, counted from 1.
    instance, method : str
        As the table has them.
    stated : int or None
        The makespan in the table, or None if it is unclear.
    makespan : int or None
        The makespan of the order, or None if it isn't an order of the instance's jobs.
    bound : int or None
        The instance's lower bound, or None if the instance is unclear.
    valid : bool
        Whether the order has all jobs, and the stated makespan.
    verdict : str
        ``valid``, ``valid and optimal`` (it meets the bound), ``valid and below the reference`` (``upper`` of the
        instance), ``valid, counted from 0`` or ``1`` (unlike the others of its method), ``valid, no makespan`` (none is
        stated), ``unclear`` (the row can't be audited), or what is wrong: of a valid order ``wrong RPD``, and of a row
        of means ``mean`` or ``wrong mean``.
    why : str
        What is wrong or unclear in detail. Jobs are numbered as in the table, and places count from 1.
    sheet : str
        The sheet of a workbook, the file of a folder or archive, the number of a table in LaTeX, or an empty text.
    """

    row: int
    instance: str
    method: str
    stated: int | None
    makespan: int | None
    bound: int | None
    valid: bool
    verdict: str
    why: str
    sheet: str = ""


class Row(NamedTuple):
    """A row of a table, with the numbers of its jobs as written."""

    given: Given
    at: int
    instance: str
    method: str
    # None if none is stated
    stated: int | None
    numbers: list[int]
    shop: Instance
    # The RPD and the reference as written.
    figures: tuple[str, str] = ("", "")
    # The line whose instance it has, if its own cell is empty.
    filled: int = 0
    # The number of the first job.
    first: int = 1

    def as_stated(self) -> Stated:
        sheet = f"{sheet_of(self.given.sheet)}, " if self.given.sheet else ""
        place = f"{sheet}{'line' if self.given.path else 'row'} {self.at}"
        jobs = [number - self.first for number in self.numbers]
        return Stated(place, self.instance, self.method, self.stated or 0, self.shop, jobs,
                      "" if self.given.is_order() else self.given.sheet)


class Unclear(NamedTuple):
    """A row that can't be audited: what is clear of it, and each column that isn't, by its role, with the reason."""

    given: Given
    at: int
    instance: str
    method: str
    stated: int | None
    shop: Instance | None
    faults: list[tuple[str, str]]

    def audited(self) -> Audited:
        why = "; ".join(self.given.place(self.at, column) + text for column, text in self.faults)
        bound = self.shop.bound() if self.shop else None
        return Audited(self.at, self.instance, self.method, self.stated, None, bound, False, "unclear", why,
                       self.given.sheet)


class Means(NamedTuple):
    """A row with means of the columns above it, as written."""

    given: Given
    at: int
    instance: str
    method: str
    texts: dict[str, str]


def audit(table: Table, shops: Shops = (), *, layout: str | None = None, first: int | None = None,
          columns: Mapping[str, str] | None = None, strict: bool = False) -> list[Audited]:
    """Audit each order of a published table. ``pandas.DataFrame`` makes a table of the verdicts.

    A verdict comes from the library, whose results are proved. A row that can't be audited is ``unclear``.

    Parameters
    ----------
    table : pandas.DataFrame, list of dict, str or os.PathLike
        A table; a file: a CSV with semicolons, tabs or commas, a workbook (``.xlsx``), which needs openpyxl, or LaTeX;
        or a folder or zip archive of such files and of files with an order each, whose name is the instance's and whose
        folder's is the method; a line of it may have the makespan. A table has the columns ``instance`` (or
        ``problem``, or ``n``, ``m`` and ``No.``), ``makespan`` (or ``Cmax``) and ``order`` (or ``sequence``,
        ``permutation``, ``schedule``, ``Reihenfolge``), and may have ``method`` (or ``algorithm``), ``block``, ``RPD``
        and ``reference``, in upper or lower case, also as ``Best Makespan``, ``Cmax (s)`` or ``Job sequence``, and in
        any order. Lines above these names are left out. Columns such as ``Cmax IG``, ``Sequence IG``, ``Cmax GA`` and
        ``Sequence GA``, or with the method's name in the line above, are tables of several methods. An order is a list,
        a text such as ``3 1 2``, ``3-1-2``, ``[3, 1, 2]``, ``π = (3; 1; 2)`` or ``J3 J1 J2``, or has a column for each
        job. A warning names what is left out of a file, sheet by sheet.
    shops : str, os.PathLike, dict or list of Instance
        The folder of the instance files, of any layout, or the instances. They are found by their names, without the
        ending and in upper or lower case; a block by ``NAME:BLOCK`` or the column ``block``; and by the numbers of jobs
        and machines and their own, as ``20x5-1``. Taillard's instances ``ta001`` to ``ta120`` are found by their seeds
        in files, and need none.
    layout : str, optional
        The layout of all files: ``"taillard"``, ``"orlib"`` or ``"matrix"``.
    first : int, optional
        The number of the first job, 0 or 1. By default it is that of most orders of a method.
    columns : dict, optional
        The names of columns by what they say (``{"order": "Best found"}``), where `audit` doesn't know them.
    strict : bool
        Whether the first row that is unclear is an error.

    Raises
    ------
    TypeError, ValueError
        If a column is missing or occurs twice, a file has no rows, or an argument is wrong. For a file it is a
        `TableFault`. With ``strict``, also if an instance is missing or has several meanings, a makespan isn't a whole
        number, or an order isn't a list of jobs; the message names the row.

    Examples
    --------
    >>> shop = pfs.Instance([[3, 2], [2, 5], [4, 1]], name="small")
    >>> table = [{"Instance": "Small", "Cmax": 10, "Sequence": "2 1 3"},
    ...          {"Instance": "small", "Cmax": 9, "Sequence": "2,3,1"}, {"Instance": "small", "Cmax": "n/a"}]
    >>> [row.verdict for row in pfs.audit(table, [shop])]
    ['valid and optimal', 'wrong makespan', 'unclear']
    """
    found, left_out = audited_of(table, shops, layout, first, columns, strict)
    for text in left_out:
        warnings.warn(text, stacklevel=2)
    return found


def audited_of(table: Table, shops: Shops, layout: str | None, first: int | None,
               columns: Mapping[str, str] | None = None, strict: bool = False) -> tuple[list[Audited], list[str]]:
    """Return the verdicts, and what is left out. The parameters are those of `audit`."""
    first = None if first is None else checked_int(first, "first", 0, 1)
    shelf, tables, left_out = understood(table, shops, layout, columns)
    rows = with_first([row for given in tables for row in rows_of(given, shelf)], first)
    unclear = next((row for row in rows if isinstance(row, Unclear)), None)
    if strict and unclear is not None:
        raise unclear.given.fault(unclear.at, *unclear.faults[0])
    causes = Causes(row.as_stated() for row in rows if isinstance(row, Row) and row.stated is not None)
    figures = Figures()
    return [row.audited() if isinstance(row, Unclear) else mean_of(row, figures) if isinstance(row, Means)
            else audited(row, causes, figures) for row in rows], left_out


def understood(table: Table, shops: Shops, layout: str | None,
               columns: Mapping[str, str] | None) -> tuple[Shelf, list[Given], list[str]]:
    """Return the instances, the tables, and what is left out."""
    if layout is not None and layout not in LAYOUTS:
        raise ValueError(f"layout must be {', '.join(map(repr, LAYOUTS))}, not {layout!r}")
    for role in columns or {}:
        if role not in ROLES:
            raise ValueError(f"columns must be of {', '.join(map(repr, ROLES))}, not {role!r}")
    tables, left_out = tables_of(table, columns or {})
    notes = [f"{sheet_of(given.sheet)}: {given.note}" if given.sheet else given.note for given in tables if given.note]
    return Shelf(shops, layout), tables, [*left_out, *dict.fromkeys(notes)]


def with_first(rows: list[Row | Unclear | Means], first: int | None) -> list[Row | Unclear | Means]:
    """Return the rows with the number of the first job, by default that of most orders of a method on a sheet."""
    counts: dict[tuple[str, str], Counter[int | None]] = defaultdict(Counter)
    for row in rows:
        if isinstance(row, Row):
            counts[row.given.sheet, row.method][first_number(row.numbers)] += len(row.numbers) == row.shop.jobs
    found: list[Row | Unclear | Means] = []
    for row in rows:
        zeros, ones = (counts[row.given.sheet, row.method][number] for number in (0, 1))
        if isinstance(row, Row) and first is None and zeros == ones > 0:
            text = (f"{zeros} orders{f' of {row.method}' if row.method else ''} count jobs from 0 and as many from 1: "
                    "state the number of the first job (`first`)")
            row = Unclear(*row[:5], row.shop, [("", text)])
        elif isinstance(row, Row):
            row = row._replace(first=int(zeros <= ones) if first is None else first)
        found.append(row)
    return found


def dummy(row: Row) -> str:
    """Return what an order of jobs from 1 on takes without a 0 at its ends, or an empty text."""
    numbers = row.numbers[row.numbers[0] == 0:len(row.numbers) - (row.numbers[-1] == 0)]
    if row.first != 1 or len(numbers) == len(row.numbers) or sorted(numbers) != [*range(1, row.shop.jobs + 1)]:
        return ""
    check = row.shop.check([number - 1 for number in numbers], row.stated)
    ends = " and ".join(["the beginning"] * (row.numbers[0] == 0) + ["the end"] * (row.numbers[-1] == 0))
    return f"without the 0 at {ends} it takes {check.makespan}" + (", as stated" if check.valid and row.stated else "")


# What the first cell of a row of means says
MEANS = ("average", "averages", "avg", "mean", "means", "mittel", "mittelwert", "durchschnitt", "overall", "gesamt")


def rows_of(given: Given, shelf: Shelf) -> Iterator[Row | Unclear | Means]:
    """Yield the rows of a table. An empty cell of a file has the instance of the row above."""
    above, line = "", 0
    for at, cells in given.cells:
        texts = given.texts(cells)
        plain = {role: text_in(cell) for role, cell in texts.items() if role != "order"}
        name = plain.get("instance", "") or plain.get("number", "")
        method = " ".join(filter(None, [plain.get("method", ""), given.columns.method]))
        if given.path and name.casefold().rstrip(".: ") in MEANS and not text_in(texts["order"] or ""):
            yield Means(given, at, name, method, plain)
            continue
        if name.isdecimal() and plain.get("jobs") and plain.get("machines"):
            name = f"{plain['jobs']}x{plain['machines']}-{name}"
        filled = line if given.path and not name and not given.columns.places.keys() & {"number"} else 0
        above, line = (name, at) if name else (above, line)
        yield row_of(given, at, cells, above if filled else name, method, texts, filled, shelf)


def row_of(given: Given, at: int, cells: list[Any], name: str, method: str, texts: dict[str, Any], filled: int,
           shelf: Shelf) -> Row | Unclear:
    """Return a row, or what is unclear of it."""
    faults = [("", f"{len(cells)} cells for {len(given.head)} columns: quote an order that contains the separator")
              ] if len(cells) > len(given.head) and any(map(text_in, cells[len(given.head):])) else []
    whole = {}
    for role in "makespan", "block":
        text = text_in(texts.get(role, ""))
        match = WHOLE.fullmatch(text)
        # A file with an order alone states no makespan.
        if match is None and (text or role == "makespan" and not given.is_order()):
            faults.append((role, f"{text[:40]!r} isn't a {role}: a whole number"))
        whole[role] = match[1] if match else ""
    shop, numbers = None, numbers_in(texts["order"])
    try:
        shop = shelf.get(name, whole["block"])
    except LookupError as error:
        faults.append(("instance" if "instance" in given.columns.places else "number", str(error.args[0])))
    if isinstance(numbers, str):
        faults.append(("order", numbers))
    stated = int(whole["makespan"]) if whole["makespan"] else None
    if shop is None or isinstance(numbers, str) or faults:
        return Unclear(given, at, name, method, stated, shop, faults)
    figures = text_in(texts.get("rpd", "")), text_in(texts.get("reference", ""))
    return Row(given, at, name, method, stated, numbers, shop, figures, filled)


def first_number(numbers: list[int]) -> int | None:
    """Return 0 or 1 if the numbers are those from 0 or from 1 on, each once."""
    least = min(numbers)
    is_order = least <= 1 and max(numbers) - least == len(numbers) - 1 == len(set(numbers)) - 1
    return least if is_order else None


# The verdicts

def audited(row: Row, causes: Causes, figures: Figures) -> Audited:
    """Return the verdict on a row. Whether it is valid is the library's verdict."""
    shop, numbers = row.shop, row.numbers
    jobs = [number - row.first for number in numbers]
    check = shop.check(jobs, row.stated)
    valid, verdict, why = check.valid, "valid", ""
    if check.makespan is None:
        verdict, why = fault_of(row, jobs, causes)
        if valid := verdict.startswith("valid"):
            check = shop.check([number - 1 + row.first for number in numbers], row.stated)
    elif not check.valid:
        verdict = "wrong makespan"
        why = "; ".join([f"states {row.stated}, takes {check.makespan}",
                         *causes.of(row.as_stated(), jobs, check.makespan)])
    elif row.stated is None:
        verdict = "valid, no makespan"
    elif check.makespan == check.bound:
        verdict = "valid and optimal"
    elif row.stated < shop.upper:
        verdict, why = "valid and below the reference", f"the reference is {shop.upper}"
    if row.filled and not valid:
        verdict, why = "unclear", (f"{row.given.place(row.at, 'instance')}there is no instance, and with that of line "
                                   f"{row.filled} the row is wrong: {verdict}: {why}")
    rpd = figures.fault(row.given, row.stated, row.figures, shop.upper) if row.stated is not None else ""
    if rpd and valid:
        verdict, why = "wrong RPD", rpd
    return Audited(*row[1:5], check.makespan, check.bound, valid, verdict, why, row.given.sheet)


def mean_of(row: Means, figures: Figures) -> Audited:
    """Return the verdict on a row of means."""
    faults = figures.faults_of_means(row.given, row.texts)
    return Audited(row.at, row.instance, row.method, None, None, None, not faults, "wrong mean" if faults else "mean",
                   "; ".join(row.given.place(row.at, role) + text for role, text in faults), row.given.sheet)


def fault_of(row: Row, jobs: list[int], causes: Causes) -> tuple[str, str]:
    """Return what is wrong with a list of jobs that the library rejects, and in detail."""
    shop, numbers, first, count = row.shop, row.numbers, row.first, len(jobs)
    if count == shop.jobs and first_number(numbers) not in (None, first):
        from_other = shop.check([number - 1 + first for number in numbers], row.stated)
        counted = f"counted from {1 - first}"
        if from_other.valid:
            return f"valid, {counted}", f"others count from {first}"
        return counted, f"others count from {first}; {counted}, it takes {from_other.makespan}, and states {row.stated}"
    if hint := dummy(row):
        return "wrong size", f"{count} jobs, but the instance has {shop.jobs}; {hint}"
    if abs(count - shop.jobs) > 1:
        stated = row.as_stated()
        others = islice(chain(causes.moved(stated), causes.on_others(stated, jobs)), MOST_HINTS) if row.stated else ()
        return "wrong size", "; ".join([f"{count} jobs, but the instance has {shop.jobs}", *others])
    left = sorted({*range(first, first + shop.jobs)} - {*numbers})
    missing = f"; job {left[0]} is missing" if left else ""
    places: dict[int, int] = {}
    for place, number in enumerate(numbers, 1):
        if not first <= number < first + shop.jobs:
            return "job out of range", (f"job {number} at place {place}: the jobs are {first} to "
                                        f"{first + shop.jobs - 1}{missing}")
        if places.setdefault(number, place) != place:
            return "job twice", f"job {number} at places {places[number]} and {place}{missing}"
    return "job missing", missing[2:]
