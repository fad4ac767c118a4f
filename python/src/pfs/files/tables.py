"""Tables of times, as spreadsheets export them."""
from __future__ import annotations

import codecs
import csv
import os
import re
import warnings
from collections.abc import Callable, Iterable, Iterator, Sequence
from functools import cached_property, partial
from itertools import islice, takewhile
from typing import NamedTuple, TypeAlias

import numpy as np

from pfs.base.atomic import atomic_write
from pfs.base.cells import csv_writer, text_cell, text_in_cell
from pfs.base.faults import TableFault, cell_name, raise_all
from pfs.base.units import CLOCK, amount, seconds_in
from pfs.base.workbooks import OPTIONS_SHEET, Workbook, cell_of, write_workbook
from pfs.binding import library as c
from pfs.binding.validate import Order, checked_int
from pfs.files.instances import content_of
from pfs.shops.instance import Instance

# The most cells of a row, as in spreadsheets, and the most rows, with titles.
MOST_CELLS, MOST_ROWS = 16_384, 10_000
LINE = re.compile(r"[^\r\n]*(?:\r\n?|\n)|[^\r\n]+")
QUOTED = re.compile(r'(?:^|(?<=[,;\t\r])) *(?:"[^"]*")+', re.MULTILINE)
# A time for each piece: the unit of its time in a unit in brackets, and words in a name.
PIECE = r"(?:stk|st(?:\u00fc|ue)ck|st|teil|pcs?|pieces?|parts?|units?|ea(?:ch)?)\b\.?"
PER_PIECE = re.compile(rf"(?:/|\bje\b|\bpro\b|\bper\b)\s*{PIECE}", re.IGNORECASE)
# A unit in brackets at the end of a name.
UNIT = re.compile(r"[\[(]([^\[\]()]+)[\])]\Z")
NUMBER = re.compile(r"([0-9]{1,20})(?:([.,])([0-9]{1,20}))?\Z")
HOURS = re.compile(r"([0-9]{1,6}):([0-5][0-9])(?::00)?\Z")
ZERO = re.compile(r"0(?:[.,]0+)?\Z")
CLOCKS = (CLOCK, "hh:mm")
# The decimals of an hour and of a day that are less than a second; of minutes and seconds they are 2.
SECOND_IN = {3_600: 4, 86_400: 5}
MISSING = "the time is missing: write 0 where a job skips a machine (it still waits there for its turn)"
ONE_UNIT = "use one unit"
EMPTY_ROW = "the row has no times: leave it out if it is no job, or write 0 where the job skips a machine"
ROUND_IT = "round it, or say how many decimals to keep (`decimals`)"
NO_MACHINE = "leave the column out if it is no machine, or say which columns are machines (`machines`)"
SECONDS = re.compile(r"[0-9]+:[0-9]{2}:[0-9]{2}")
SKIPS = "write 0 where a job skips a machine"
# What isn't a time, and what to write instead.
HINTS = (
    (re.compile(r"#[A-Z0-9/]+[!?]?"), "the formula has an error"),
    (re.compile(r"[-\u2012-\u2015]|n\.?[/.]?a\.?", re.IGNORECASE), SKIPS),
    (re.compile(r"(?:24|48|72|96|[1-9][0-9]{2,}):00|1900-02-28 .*"), "a cell with the format of a time has a number of "
     "days: format it as a number, and write the time again"),
    (HOURS, "other times of the table are numbers: write all of them like this, or none"),
    (SECONDS, "write hours and minutes, as 1:30, or a number"),
    (re.compile(r"[0-9]+\s*h\s*[0-9]{2}"), "write hours and minutes as 1:30"),
    (re.compile(r"[0-9]{1,3}(?:['\u2019\u02bc\s][0-9]{3})+(?:[.,][0-9]+)?"), "leave out thousands separators"),
    (re.compile(r"[0-9]{1,3}(?:\.[0-9]{3})+,[0-9]+|[0-9]{1,3}(?:,[0-9]{3})+\.[0-9]+"),
     "leave out thousands separators, or say which decimal sign the table has (`decimal`)"),
    (re.compile(r"[0-9]+(?:[.,][0-9]+)?\s*[^\W\d]+\.?"), "write the unit in brackets into the first cell of the table"),
    (re.compile(r"\D+|\d+([./-])\d+\1(?:\d+(?:\s.*)?)?|.*[^\W\d]{3}.*"), NO_MACHINE),
)
# A number with thousands separators, which could also be one with three decimals. A number doesn't begin with the group
# "0", so 0.125 has decimals.
GROUPED = re.compile(r"(?!0[.,])[0-9]{1,3}(?:([.,])[0-9]{3})(?:\1[0-9]{3})*\Z")
# Names of rows and columns that have no times of their own: of sums and means, and of columns with quantities.
TOTALS = (r"(?:sub|grand |zwischen|gesamt)?(?:sums?|totals?|summen?|gesamt\w*|somme|suma|totale|totaal|\u03a3"
          r"|means?|average|avg|durchschnitt|mittel(?:wert)?|moyenne|media|promedio|gemiddelde|\u00f8)")
QUANTITIES = (r"|menge|anzahl|st(?:\u00fc|ue)ck(?:zahl)?|stk|quantity|qty|pieces|pcs|quantit\u00e9|qt\u00e9|cantidad"
              r"|aantal")
NO_JOB = re.compile(rf"(?:{TOTALS})(?!\w)", re.IGNORECASE)
NO_TIMES = re.compile(rf"(?:{TOTALS}{QUANTITIES})(?!\w)", re.IGNORECASE)
# Whole names, perhaps with a unit, of rows that are no job, and of columns of an export that are no machine.
CAPACITIES = (r"kapazit(?:\u00e4|ae)t(?:en)?|capacity|verf(?:\u00fc|ue)gbar\w*|available|availability|auslastung"
              r"|utili[sz]ation")
SET_UPS = r"r(?:\u00fc|ue)st(?:en|zeit(?:en)?)?|set[ -]?ups?(?:[ -]?times?)?"
OF_EXPORTS = (rf"{CAPACITIES}|{SET_UPS}|los(?:gr(?:\u00f6|oe)(?:\u00df|ss)en?)?|(?:lot|batch)(?:[ -]?sizes?)?"
              r"|(?:auftrags|bestell|fertigungs|ist|los|plan|rest|soll)mengen?"
              r"|prio(?:rit(?:\u00e4t|aet|y))?|kst|kostenstelle|cost cent(?:er|re)|kw|kalenderwoche|week|pos(?:ition)?"
              r"|\w*termin|due(?:[ -]?date)?")
WITH_UNIT = r"(?:[\W_]*(?:[\[(].*)?|\s+(?:h|min|std)\.?)\Z"
CAPACITY = re.compile(rf"(?:{CAPACITIES}){WITH_UNIT}", re.IGNORECASE)
OF_EXPORT = re.compile(rf"(?:{OF_EXPORTS}){WITH_UNIT}", re.IGNORECASE)
# The first cell of a table in which the names may be numbers.
SAYS_JOB = re.compile(r"(?:(?:jobs?|(?:work)?orders?|wo(?:rk(?!order))?|(?:fertigungs)?auftr(?:ag|\u00e4ge)s?|fa|of"
                      r"|ordres?|commandes?|pedidos?|ordin[ei]|parts?|lots?|los|teile?|artikel|items?|pos(?:ition)?|id"
                      r"|nr|no|n(?=\u00b0)|number|nummer|num\u00e9ro)"
                      r"[\s.#\u00b0_:-]*)*\Z", re.IGNORECASE)
# The first cell of a table whose rows are machines.
SAYS_MACHINE = re.compile(r"(?:machines?|maschinen?|m\u00e1quinas?|macchin[ae])\b", re.IGNORECASE)
# The first bytes of spreadsheets in their own formats, which are archives or compound documents.
ARCHIVE, COMPOUND = b"PK\x03\x04", b"\xd0\xcf\x11\xe0"
# Byte order marks.
MARKS = codecs.BOM_UTF8, codecs.BOM_UTF16_LE, codecs.BOM_UTF16_BE
TIMES_AS_NAMES = ("the names of the {what}s are numbers, as if the {part} of names were missing: add it, or write "
                  "`job` into the first cell of the table")
SAVE_AS = "save it as CSV UTF-8 (Excel), or as CSV with the character set Unicode (UTF-8) (LibreOffice)"


# What gives the rows of a table that aren't empty, with their numbers.
Records: TypeAlias = "Callable[[], Iterable[tuple[int, list[str]]]]"


class Table(NamedTuple):
    """A table that was read."""

    shop: Instance
    # The separator of the columns.
    delimiter: str
    # Whether the file begins with a byte order mark, as Excel's do.
    has_mark: bool
    # Which sheet was read, if a workbook has several and none was named, and how many hidden rows and columns it has.
    note: str
    # What was rounded, or an empty text.
    rounded: str
    # The names of the columns that were left out, and of the sheet.
    left_out: tuple[str, ...] = ()
    sheet: str = "times"


class Cell(NamedTuple):
    """A cell, with its row and its column as spreadsheets count them."""

    line: int
    column: int
    text: str

    @property
    def name(self) -> str:
        return cell_name(self.line, self.column)


class Rows:
    """A table: its rows that aren't empty, without titles and without empty columns, and its faults so far."""

    def __init__(self, path: str, records: Records, delimiter: str, texts: set[tuple[int, int]] | None,
                 is_chosen: bool, faults: list[TableFault]) -> None:
        self.path = path
        self.records = records
        self.delimiter = delimiter
        # The cells of a workbook that are texts, and look like numbers with a separator; None in another table.
        self.texts = texts
        # The cells of a workbook that formulas computed with many digits.
        self.computed: set[tuple[int, int]] = set()
        # Whether the machines were named.
        self.is_chosen = is_chosen
        self.faults = faults
        # The cell above the jobs, the names of the machines, and those of the jobs.
        self.corner: Cell
        self.machines: list[Cell] = []
        self.jobs: list[Cell] = []
        # The columns with the pieces of each job and with set-ups, and the machines that each of these is for.
        self.quantity: Cell | None = None
        self.setups: list[Cell] = []
        self.set_up: list[list[Cell]] = []
        # The names of the other columns.
        self.left_out: list[str] = []
        # The first cell of each column that isn't a time, and how many there are, for each cause.
        self.wrong: dict[tuple[int, str], tuple[TableFault, int]] = {}

    @cached_property
    def heads(self) -> dict[int, str]:
        """The names of the columns that are read."""
        return {head.column: head.text for head in [*self.machines, *self.setups, *filter(None, [self.quantity])]}

    def fault(self, cell: Cell, text: str) -> TableFault:
        head = self.heads.get(cell.column, "") if cell.line > self.corner.line else ""
        return TableFault(self.path, cell.line, cell.column, text, head)

    def report(self, cell: Cell, text: str) -> None:
        self.faults.append(self.fault(cell, text))

    def times(self) -> Iterator[list[Cell]]:
        """Read the times and set-ups again, row by row: all of their cells would take a hundred times the memory of the
        text."""
        return self.cells([*self.machines, *self.setups])

    def cells(self, heads: Iterable[Cell]) -> Iterator[list[Cell]]:
        """Read the cells of the jobs below these ones."""
        lines, columns = {job.line for job in self.jobs}, [head.column for head in heads]
        for line, row in self.records():
            if line in lines:
                yield [Cell(line, column, row[column - 1] if column <= len(row) else "") for column in columns]

    def read_times(self, read: Callable[[Cell], int]) -> Order:
        """Read each time. Of each column the first cell that isn't one is noted for each cause."""
        times = np.zeros((len(self.jobs), len(self.machines) + len(self.setups)), dtype=np.int64)
        for at, row in enumerate(self.times()):
            if not any(cell.text for cell in row):
                self.report(self.jobs[at], EMPTY_ROW)
                continue
            for machine, cell in enumerate(row):
                try:
                    times[at, machine] = read(cell)
                except TableFault as fault:
                    cause = cell.column, fault.text.replace(repr(cell.text), "")
                    first, count = self.wrong.get(cause, (fault, 0))
                    self.wrong[cause] = first, count + 1
        return times

    def check(self) -> None:
        """Raise the faults that were found, if there are any, in the order of their cells."""
        others = {column for column, cause in self.wrong if NO_MACHINE in cause}
        faults = [fault for fault in self.faults if fault.column not in others or ONE_UNIT not in fault.text]
        for (column, cause), (fault, count) in self.wrong.items():
            if column not in others or NO_MACHINE in cause:
                more = f" (and {counted(count - 1, 'more cell')} of the column)" if count > 1 else ""
                faults.append(TableFault(self.path, fault.line, column, fault.text + more, fault.head))
        raise_all(faults)


def read_csv(source: str | os.PathLike[str], unit: str = "", *, decimal: str | None = None,
             allow_totals: bool = False, machines: Iterable[str] | None = None, sheet: str | None = None,
             decimals: int | None = None, quantity: str | None = None, setup: Iterable[str] = (),
             jobs: str | None = None) -> Instance:
    """Read a table of times from a CSV file or a workbook: a row for each job, a column for each machine.

    Parameters
    ----------
    source : str or os.PathLike
        The file, in UTF-8 or in UTF-16 with a byte order mark, of at most 64 MiB. The first row names the machines and
        the first column the jobs. Semicolons, tabs or commas separate the columns. Titles above the first row, empty
        rows and empty columns are skipped. A workbook (``.xlsx``) needs openpyxl.
    unit : str
        The unit of all times. The table can name it in its first cell, in brackets: ``job [min]``, or at each machine.
        Two different units of time are rejected.
    decimal : str, optional
        The decimal sign, ``"."`` or ``","``. The other one may then group digits by thousands. By default it is the
        point where commas separate the columns. Elsewhere it is the one that the table uses, and a number such as
        ``1.000``, which may be 1 or 1000, is rejected. In a workbook it is the sign of texts, and a text such as
        ``1.000`` is rejected without it.
    allow_totals : bool
        Whether rows and columns may have names of sums, means or quantities, the last row may be the sum of the rows
        above, and the last column the sum of the columns before it. By default such a table is rejected, since they
        would be planned as jobs or machines.
    machines : iterable of str, optional
        The names of the columns that are machines, in the order of the machines. Other columns, and rows above the one
        that has these names, are skipped. By default all columns but the first one.
    sheet : str, optional
        The sheet of a workbook. By default it is the one that the workbook opens with, and a warning names it if there
        are others. The sheet ``pfs`` has options of `pfs-plan`, and isn't counted. Hidden rows and columns are read
        too, and a warning says how many there are. Of another file, a warning says that it has no sheets.
    decimals : int, optional
        Round times with more decimals than this, 0 to 9, to the nearest one, and halves up. By default only what
        formulas of a workbook computed is rounded, such as ``=50/60``: to less than a second, if the times have a unit
        of time and aren't those of a piece. Another time with more than 9 decimals is rejected. Numbers of workbooks
        have 9 decimals at most.
    quantity : str, optional
        The name of the column with the pieces of each job: the times of the table are then those of a piece. A table
        that says that they are, as in ``saw [min/pc]``, is rejected without it.
    setup : iterable of str
        The names of columns with set-ups, which are added to the times of a job that aren't 0: on all machines, or on
        one, as in ``saw=set-up``.
    jobs : str, optional
        The name of the column with the names of the jobs, if it isn't the first one. Machines are then the columns
        after it, unless they are named.

    Returns
    -------
    Instance
        The instance, with names. Its ``times`` are the times of the table, times 10 to the power of ``decimals``, the
        number of decimals in the table. Hours and minutes, such as ``1:30``, are read as minutes; the unit is then
        ``h:mm``.

    Raises
    ------
    TableFault
        If a cell isn't a time or is ambiguous, a name is missing or occurs twice, all names are numbers as if they were
        times, units differ, or there are totals. It has all faults of the table.
    ImportError
        If the file is a workbook, and openpyxl isn't installed.

    Examples
    --------
    >>> import pathlib, tempfile
    >>> path = pathlib.Path(tempfile.mkdtemp(), "plan.csv")
    >>> _ = path.write_text("job [h];saw;drill\\ntable;3;2,5\\nchair;2;5\\n")
    >>> shop = pfs.read_csv(path)
    >>> shop.job_names, shop.machine_names, shop.unit
    (('table', 'chair'), ('saw', 'drill'), 'h')
    >>> shop.times.tolist(), shop.decimals
    ([[30, 25], [20, 50]], 1)
    >>> print(shop.schedule([1, 0]).to_csv(), end="")
    job,machine,start,end
    chair,saw,0.0,2.0
    chair,drill,2.0,7.0
    table,saw,2.0,5.0
    table,drill,7.0,9.5
    """
    found = table_of(source, unit, decimal, allow_totals, machines, sheet, decimals, quantity, setup, jobs)
    if found.note:
        warnings.warn(found.note, stacklevel=2)
    return found.shop


def table_of(source: str | os.PathLike[str], unit: str, decimal: str | None, allow_totals: bool,
             machines: Iterable[str] | None = None, sheet: str | None = None, most_decimals: int | None = None,
             quantity: str | None = None, setup: Iterable[str] = (), jobs: str | None = None) -> Table:
    """Read a table. The parameters are those of `read_csv`."""
    path = os.fspath(source)
    content, faults, book = content_of(path, "table"), list[TableFault](), None
    if content.startswith(ARCHIVE):
        book = Workbook(content, path)
        own = book.first if sheet is None else sheet
        text, note = sheet_of(book, own, sheet is not None)
    else:
        own, text = "times", text_of(content, path, faults)
        note = f"{path} isn't a workbook, and has no sheet {sheet!r}" if sheet is not None else ""
    delimiter = delimiter_of(text)
    rows = Rows(path, lambda: records(text, path, delimiter), delimiter, None, bool(machines), faults)
    if book is not None:
        rows.texts, rows.computed = book.texts, book.computed
    shop, rounded = shop_in(rows, unit, decimal, allow_totals, machines, most_decimals, quantity, setup, jobs)
    return Table(shop, delimiter, content.startswith(MARKS), note, rounded, tuple(rows.left_out), own)


def shop_in(rows: Rows, unit: str, decimal: str | None, allow_totals: bool, machines: Iterable[str] | None,
            most_decimals: int | None, quantity: str | None = None, setup: Iterable[str] = (),
            jobs: str | None = None) -> tuple[Instance, str]:
    """Read a table from its rows. Return it, and what was rounded."""
    most_decimals = None if most_decimals is None else checked_int(most_decimals, "decimals", 0, 9)
    if decimal not in (None, ".", ","):
        raise ValueError(f"decimal must be '.' or ',', not {decimal!r}")
    names, setups = [*(machines or ())], [*setup]
    rows.is_chosen = bool(names)
    table = rows_of(rows, names, quantity, setups, jobs)
    if not allow_totals:
        leave_out_totals(table)
    heads, found = without_units(table, unit)
    check_sizes(table)
    job_names, machine_names = names_in(table, table.jobs, "job"), names_in(table, heads, "machine")
    reject_times_as_names(table, machine_names, job_names)
    sign = DecimalSign(table, decimal, most_decimals)
    times, decimals, found = times_of(table, sign, found)
    table.check()
    if not allow_totals:
        reject_sums(table, times)
    shop = Instance(times, name=os.path.basename(table.path), job_names=job_names, machine_names=machine_names,
                    unit=found, decimals=decimals)
    return shop, sign.rounded()


def sheet_of(book: Workbook, own: str, is_named: bool) -> tuple[str, str]:
    """Return a sheet of a workbook as CSV, of whose rows one more than a table may have is read. The second text says
    which one it is if it wasn't named and there are others, and if rows or columns are hidden."""
    if own not in book.names:
        raise ValueError(f"{book.path} has no sheet {own!r}, but {', '.join(map(repr, book.names))}")
    text = book.csv_of(own, MOST_ROWS + 2)
    others = [repr(name) for name in book.names if name != own and name.casefold() != OPTIONS_SHEET]
    note = f"the sheet {own!r} is read, and not {', '.join(others)} (`sheet`)" if others and not is_named else ""
    hidden = " and ".join(counted(number, f"hidden {what}") for number, what in zip(book.hidden, ("row", "column"))
                          if number)
    if hidden:
        note += f"{'; ' if note else ''}{hidden} {'is' if sum(book.hidden) == 1 else 'are'} read too"
    return text, note and f"{book.path}: {note}"


def text_of(content: bytes, path: str, faults: list[TableFault] | None = None) -> str:
    """Return the text of a file; that of a workbook as CSV. Another encoding is added to the faults, or raised."""
    if content.startswith(ARCHIVE):
        book = Workbook(content, path)
        return book.csv_of(book.first)
    if content.startswith(COMPOUND):
        raise TableFault(path, 1, 0, f"is a spreadsheet's own file: {SAVE_AS}, or as .xlsx")
    encoding = "utf-16" if content.startswith(MARKS[1:]) else "utf-8-sig"
    try:
        return content.decode(encoding)
    except UnicodeDecodeError as error:
        line = content[:error.start].count(b"\n") + 1
        fault = TableFault(path, line, 0, f"isn't text in UTF-8: {SAVE_AS}")
    if faults is None or encoding == "utf-16":
        raise fault
    faults.append(fault)
    return content.decode("cp1252", "replace")


def lines_of(text: str) -> Iterator[str]:
    """Return the lines with their ends, one after the other."""
    return map(re.Match.group, LINE.finditer(text))


def delimiter_of(text: str) -> str:
    """Return the separator of the columns: the one that the first line names, or `;` or tab if it is in more than half
    of the lines, outside of cells in quotes, else a comma."""
    count, counts = 0, {";": 0, "\t": 0}
    for line in islice(filter(str.strip, lines_of(QUOTED.sub("x", text))), 10 * MOST_ROWS):
        named = re.fullmatch(r"sep=(.)\s*", line)
        if named and not count:
            return named[1]
        count += 1
        for sign in counts:
            counts[sign] += sign in line
    return next((sign for sign in counts if 2 * counts[sign] > count), ",")


def texts_in(row: Iterable[str]) -> list[str]:
    """Return the texts of cells."""
    return [text_in_cell(cell) if "'" in cell else cell.strip() for cell in row]


def records(text: str, path: str, delimiter: str) -> Iterator[tuple[int, list[str]]]:
    """Return the rows that aren't empty, with their numbers, without one that names the separator."""
    signs, line, number = 0, 1, 0

    def lines() -> Iterator[str]:
        nonlocal signs
        for each in lines_of(text):
            signs += each.count(delimiter)
            if signs >= MOST_CELLS:
                raise TableFault(path, line, 0, f"the row has more than {MOST_CELLS:,} cells")
            yield each

    reader = csv.reader(lines(), delimiter=delimiter, strict=True, skipinitialspace=delimiter != "\t")
    try:
        for row in reader:
            number += row[:1] != ["sep="] or number > 0
            cells = texts_in(row)
            if any(cells) and number:
                yield number, cells
            signs, line = 0, reader.line_num + 1
    except csv.Error as error:
        raise TableFault(path, reader.line_num, 0, f"isn't a row of a table: {error}") from None


def rows_of(table: Rows, machines: list[str], quantity: str | None, setups: list[str], jobs: str | None) -> Rows:
    """Return the table: the rows from the first one on that has more than a first cell, or that names these machines
    and the column of the jobs. Those above it are titles."""
    path = table.path
    head: list[str] = []
    titles: list[Cell] = []
    used: set[int] = set()
    column = 1
    for line, row in table.records():
        if len(titles) + len(table.jobs) == MOST_ROWS:
            raise TableFault(path, line, 0, f"the table has more than {MOST_ROWS:,} rows")
        if jobs is not None and not used:
            column = next(iter(columns_of(["", *row], jobs)), 1) - 1
        first = Cell(line, column, row[column - 1] if 0 < column <= len(row) else "")
        if not table.jobs and column and is_head(row, head if used else None, machines, jobs):
            head, table.corner, used = row, first, {column}
        else:
            (table.jobs if used else titles).append(first)
        if used:
            used.update(column for column, cell in enumerate(row, 1) if cell)
    if not titles and not used:
        raise TableFault(path, 1, 0, "the table is empty")
    if not used and jobs is not None and not any(columns_of(["", *row], jobs) for _, row in table.records()):
        raise TableFault(path, titles[0].line, 0, f"no column is named {jobs!r} (`jobs`)")
    if not used:
        reject_columns(table, titles, machines)
    line = table.corner.line
    for other in columns_of(["", *head], jobs)[1:] if jobs is not None else []:
        table.report(Cell(line, other - 1, ""), f"the column {jobs!r} may be this column or {table.corner.name}: give "
                     "them different names, or write the whole name (`jobs`)")
    heads = {column: Cell(line, column, head[column - 1] if column <= len(head) else "") for column in sorted(used)}
    named = [machine_and_column(table, text) for text in setups]
    table.setups = [named_column(table, name, "setup") for _, name in named]
    table.quantity = None if quantity is None else named_column(table, quantity, "quantity")
    own = {cell.column for cell in [*table.setups, *filter(None, [table.quantity])]}
    others = [cell for cell in heads.values() if cell.column not in own and cell != table.corner]
    table.machines = [heads[the_column(table, head, name)] for name in machines] or [
        cell for cell in others if cell.column > table.corner.column]
    table.left_out = [name for cell in others if cell not in table.machines and (name := name_of_column(table, cell))]
    table.set_up = [[cell for cell in table.machines if not name or cell.column == the_column(table, head, name)]
                    for name, _ in named]
    check_pieces(table)
    if not machines and jobs is None:
        check_titles(table, titles)
    return table


def heads_of(table: Rows) -> list[tuple[int, list[str]]]:
    """The rows with names of columns: that of the machines first, and then those above it."""
    return [*takewhile(lambda each: each[0] <= table.corner.line, table.records())][::-1]


def machine_and_column(table: Rows, text: str) -> tuple[str, str]:
    """The machine and the column of a set-up: `saw=set-up`, or only a column, for all machines."""
    machine, _, column = text.partition("=")
    rows = [row for _, row in heads_of(table)]
    if any(columns_of(row, text) for row in rows) or not column:
        return "", text
    named_column(table, machine, "setup")
    return machine, column


def named_column(table: Rows, name: str, what: str) -> Cell:
    """The column with this name, which may be above the names of machines."""
    head, *above = [row for _, row in heads_of(table)]
    row = next((row for row in [head, *above] if columns_of(row, name)), None)
    if row is None:
        others = ", ".join(filter(None, head[1:])) or "no other names"
        raise TableFault(table.path, table.corner.line, 0, f"no column is named {name!r}: this row has {others} "
                                                           f"(`{what}`)")
    return Cell(table.corner.line, the_column(table, row, name, what), name)


def name_of_column(table: Rows, head: Cell) -> str:
    """The name of a column that is left out: above it, if it has only a unit."""
    texts = [row[head.column - 1] for _, row in heads_of(table) if head.column <= len(row)]
    return next((text for text in texts if text and seconds_in(text) is None), "")


def check_pieces(table: Rows) -> None:
    """Report times that are those of a piece, by their unit, the name of their column or a title above, unless there is
    a column with the quantities."""
    if table.quantity is not None:
        return
    above = [Cell(line, column, text) for line, row in heads_of(table)[1:] for column, text in enumerate(row, 1)]
    for cell in [*above, table.corner, *table.machines]:
        if PER_PIECE.search(cell.text):
            table.report(cell, f"{cell.text!r} says that times are those of a piece: say which column has the "
                               "quantities (`quantity`), or leave these words out")


def is_head(row: Sequence[str], above: Sequence[str] | None, machines: list[str], jobs: str | None) -> bool:
    """Whether a row names these machines and the column of the jobs, or else is the first one with more than a first
    cell. If the row above it was taken for that, it was a title if it names fewer machines and this row has names
    only."""
    if above is None:
        return all(columns_of(row, name) for name in machines) if machines or jobs is not None else any(row[1:])
    if jobs is not None:
        return False
    names, others = ([name for name in each[1:] if name] for each in (row, above))
    return not machines and len(names) > len(others) and not any(map(is_time, names)) and is_above_names(row[0] or "?")


def columns_of(head: Sequence[str], name: str) -> list[int]:
    """Return the columns after the first one that have this name, or else, if it isn't empty, those that have it
    without their units or in other capitals."""
    wanted, names = name.strip(), [*enumerate(head[1:], 2)]
    found = [column for column, text in names if text == wanted] or [
        column for column, text in names if wanted.casefold() in (text.casefold(), without_unit(text).casefold())]
    return found if wanted else []


def the_column(table: Rows, head: Sequence[str], name: str, what: str = "machines") -> int:
    """Return the column with this name. Several ones are reported."""
    column, *others = columns_of(head, name)
    for other in others:
        kind = "machine" if what == "machines" else "column"
        table.report(Cell(table.corner.line, other, ""), f"the {kind} {name!r} may be this column or "
                     f"{cell_name(table.corner.line, column)}: give them different names, or write the whole name "
                     f"(`{what}`)")
    return column


def reject_columns(table: Rows, titles: Sequence[Cell], machines: list[str]) -> None:
    """No row has names of machines, or not the given ones: say what the row with the most of them lacks."""
    if not machines:
        raise TableFault(table.path, titles[0].line, 0, f"0 machines: there may be 1 to {c.MOST_MACHINES}")
    line, row = max(table.records(), key=lambda each: sum(bool(columns_of(each[1], name)) for name in machines))
    missing = next(name for name in machines if not columns_of(row, name))
    others = ", ".join(filter(None, row[1:]))
    raise TableFault(table.path, line, 0, f"no column is named {missing!r}: this row has {others or 'no other names'} "
                                    "(`machines`)")


def check_titles(table: Rows, titles: Sequence[Cell]) -> None:
    """If the names of the machines are missing, that row looks like a title and the first job like the names, which
    would lose the job: a fault. So is a table with a row for each machine."""
    for title in titles:
        if title.text and is_above_names(title.text):
            raise table.fault(Cell(title.line, 2, ""), "the machine has no name")
    if SAYS_MACHINE.match(table.corner.text):
        table.report(table.corner, f"{table.corner.text!r} says that the rows are machines, but a row is a job: turn "
                                   "the table round, or write `job` here")
    names = [head.text for head in table.machines if head.text]
    if titles and all(map(is_time, names)) and not is_above_names(table.corner.text):
        raise table.fault(table.machines[0], TIMES_AS_NAMES.format(what="machine", part="row"))


def leave_out_totals(table: Rows) -> None:
    """Report rows and columns whose names aren't those of jobs and machines: of sums, means, quantities, capacities,
    and what else exports have. Columns may be if they were chosen."""
    machines = [] if table.is_chosen else table.machines
    allow = "leave it out, or allow totals (`allow_totals`)"
    for cells, pattern, what in (
            (table.jobs, NO_JOB, f"the row {{!r}} looks like a sum or a mean: {allow}"),
            (table.jobs, CAPACITY, f"the row {{!r}} looks like no job: {allow}"),
            (machines, NO_TIMES, f"the column {{!r}} looks like a sum, a mean or a quantity: {allow}"),
            (machines, OF_EXPORT, f"the column {{!r}} looks like no machine: {NO_MACHINE}")):
        for cell in [cell for cell in cells if pattern.match(cell.text)]:
            table.report(cell, what.format(cell.text))
            cells.remove(cell)


def check_sizes(table: Rows) -> None:
    """Raise the faults so far if there are too many or too few jobs or machines."""
    for cells, what, most in ((table.machines, "machine", c.MOST_MACHINES), (table.jobs, "job", c.MOST_JOBS)):
        if not 1 <= len(cells) <= most:
            line = (cells or [table.corner])[-1].line
            table.report(Cell(line, 0, ""), f"{len(cells)} {what}s: there may be 1 to {most:,}")
            table.check()


def names_in(table: Rows, cells: Iterable[Cell], what: str) -> list[str]:
    """Return the names in these cells. Missing and repeated ones are reported."""
    seen: dict[str, Cell] = {}
    for cell in cells:
        title = ": name it, or if the row is a title, leave out all but its first cell" if what == "machine" else ""
        if not cell.text:
            table.report(cell, f"the {what} has no name{title}")
        elif cell.text in seen:
            table.report(cell, f"the {what} {cell.text!r} is in {seen[cell.text].name} too")
        seen.setdefault(cell.text, cell)
    return list(seen)


def unit_in(text: str) -> str:
    """The text in brackets at the end of a name; of a time for each piece its unit."""
    found = UNIT.search(text)
    unit = found[1].strip() if found else ""
    piece = PER_PIECE.search(unit)
    return unit[:piece.start()].rstrip() if piece and piece.end() == len(unit) else unit


def kind_of(unit: str) -> tuple[int, bool] | None:
    """What all names of a unit of time have in common: its seconds, and whether times in it are written as 1:30."""
    seconds = seconds_in(unit)
    return None if seconds is None else (seconds, unit.casefold() in CLOCKS)


def without_units(table: Rows, unit: str) -> tuple[list[Cell], str]:
    """The names of the machines without a unit that they all have, and the unit of the table."""
    first = unit_in(table.corner.text)
    if unit and seconds_in(first) and kind_of(unit) != kind_of(first):
        table.report(table.corner, f"the times are in {first}, and `unit` is {unit}: {ONE_UNIT}")
    named = unit or first
    units = [own if seconds_in(own := unit_in(head.text)) else "" for head in table.machines]
    if not any(units):
        return table.machines, named
    expected = named or next(filter(None, units))
    heads = [head._replace(text=without_unit(head.text) if own else head.text)
             for head, own in zip(table.machines, units)]
    for head, own in zip(heads, units):
        if kind_of(own) != kind_of(expected) and (own or not named):
            others = "`unit` is" if unit else "others are in"
            table.report(head, f"the times of {without_unit(head.text)!r} are in {own or 'no unit'}, and {others} "
                               f"{expected}: {ONE_UNIT}")
    return heads, expected


def without_unit(text: str) -> str:
    """A name without what is in brackets at its end."""
    return UNIT.sub("", text).rstrip()


def likely_machines(rows: Iterable[tuple[int, Sequence[str]]]) -> list[str]:
    """The names of the columns that have mostly times, and not the name of a sum. Of the rows with several names the
    one that has most of them counts."""
    texts, best = [cells for _, cells in rows], list[str]()
    heads = (at for at, cells in enumerate(texts) if sum(bool(cell) and not is_time(cell) for cell in cells[1:]) > 1)
    for at in islice(heads, 5):
        found = []
        for column, name in enumerate(texts[at][1:], 1):
            below = [cells[column] for cells in texts[at + 1:] if column < len(cells) and cells[column]]
            is_other = is_time(name) or NO_TIMES.match(name) or OF_EXPORT.match(name)
            if name and not is_other and 2 * sum(map(is_time, below)) > len(below):
                found.append(name)
        best = max(best, found, key=len)
    return best


def is_above_names(first: str) -> bool:
    """Whether the first cell of a row says that names follow to the right and below: it is `job`, empty, or has a unit
    of time."""
    return bool(SAYS_JOB.match(without_unit(first))) or seconds_in(unit_in(first)) is not None


def is_time(text: str) -> bool:
    return NUMBER.match(text) is not None or HOURS.match(text) is not None


def reject_times_as_names(table: Rows, machines: Sequence[str], jobs: Sequence[str]) -> None:
    """Names that are all numbers are probably times: the row or the column of names is missing. The first cell of the
    table may say that they are names."""
    if is_above_names(table.corner.text):
        return
    for names, what, part, cell in ((machines, "machine", "row", table.machines[0]),
                                    (jobs, "job", "column", table.jobs[0])):
        if all(map(is_time, names)):
            table.report(cell, TIMES_AS_NAMES.format(what=what, part=part))


def times_of(table: Rows, sign: DecimalSign, unit: str) -> tuple[Order, int, str]:
    """Return the times, the number of their decimals, and their unit. They are hours and minutes if most cells are, or
    the unit says so."""
    numbers = hours = 0
    for row in table.times():
        for cell in row:
            number = NUMBER.match(cell.text)
            numbers += number is not None and not ZERO.match(cell.text)
            hours += HOURS.match(cell.text) is not None
            if number and number[2] and sign.sign is None and not GROUPED.match(cell.text):
                sign.sign, sign.first = number[2], cell
    if hours >= max(1, numbers) or unit.casefold() in CLOCKS:
        check_clock(table, unit)
        why = "other times of the table are" if hours else "the unit says"
        times, decimals, unit, note = table.read_times(partial(minutes_of, table, why)), 0, CLOCK, " minutes"
    else:
        # In billionths. What is too long for them is too long for a time.
        seconds = seconds_in(unit)
        sign.second = None if seconds is None or table.quantity else SECOND_IN.get(seconds, 2)
        times, decimals, note = table.read_times(sign.billionths_of), sign.decimals, ""
        times //= 10**(9 - decimals)
    times = of_all_pieces(table, times)
    for job, machine in np.argwhere(times > c.LONGEST_TIME)[:1].tolist():
        cell, most = Cell(table.jobs[job].line, table.machines[machine].column, ""), f"above {c.LONGEST_TIME:,}"
        if sign.longest is None or times[job, machine] > c.LONGEST_TIME * 10**decimals:
            table.report(cell, f"the time is {most}{note}")
        else:
            table.report(sign.longest, f"{sign.longest.text!r} has {counted(decimals, 'decimal')}, in which the time "
                                       f"in {cell.name} is {most}: {ROUND_IT}")
    return times, decimals, unit


def of_all_pieces(table: Rows, times: Order) -> Order:
    """The time of each job on each machine: its set-up, and the time of a piece as often as there are pieces. Where a
    piece takes no time, the job skips the machine."""
    if table.quantity is None and not table.setups:
        return times
    count = len(table.machines)
    # What is too long for 64 bits is too long for a time.
    each = times[:, :count].astype(object)
    is_skipped = each == 0
    if table.quantity is not None:
        for row, (cell,) in zip(each, table.cells([table.quantity])):
            row *= pieces_of(table, cell)
    for own, machines in zip(times[:, count:].T, table.set_up):
        for machine in machines:
            each[:, table.machines.index(machine)] += own
    most: Order = np.where(is_skipped, 0, np.minimum(each, np.iinfo(np.int64).max)).astype(np.int64)
    return most


def pieces_of(table: Rows, cell: Cell) -> int:
    """Return a quantity."""
    if re.fullmatch("[0-9]{1,9}(?:[.,]0)?", cell.text) is None or not int(re.split("[.,]", cell.text)[0]):
        table.report(cell, f"{cell.text!r} isn't a whole number of pieces, from 1 to 999,999,999"
                     if cell.text else "the quantity is missing: write how many pieces there are")
        return 1
    return int(re.split("[.,]", cell.text)[0])


def check_clock(table: Rows, unit: str) -> None:
    """Report a unit in which times aren't hours and minutes."""
    if unit and unit.casefold() not in CLOCKS and kind_of(unit) != kind_of("h"):
        table.report(table.corner, "times such as 1:30 may be hours and minutes, or minutes and seconds: write [h:mm] "
                                   f"instead of {unit}, or numbers" if kind_of(unit) == kind_of("min") else
                                   f"times such as 1:30 are hours and minutes, not {unit}")


def minutes_of(table: Rows, why: str, cell: Cell) -> int:
    """Return a time in minutes that is written as hours and minutes."""
    match = HOURS.match(cell.text)
    if match is None and not ZERO.match(cell.text):
        hint = ": leave out the seconds" if SECONDS.fullmatch(cell.text) else ""
        raise table.fault(cell, f"{cell.text!r} isn't hours and minutes, as {why}{hint}" if cell.text else MISSING)
    return 60 * int(match[1]) + int(match[2]) if match else 0


class DecimalSign:
    """The decimal sign of a table. By default it is the sign of the first time in which it can't group thousands."""

    def __init__(self, table: Rows, given: str | None, most: int | None = None) -> None:
        self.table, self.given, self.most = table, given, most
        self.sign = given or ("." if table.delimiter == "," else None)
        # The time that shows it.
        self.first: Cell | None = None
        # With how many decimals a formula's time is about a second, if it is rounded.
        self.second: int | None = None
        # The most decimals of a time so far, and the first time with so many.
        self.decimals = 0
        self.longest: Cell | None = None
        # How many times were rounded, the first one that changed most, and by how many of 10^-20.
        self.changed = self.change = 0
        self.worst: Cell | None = None

    def billionths_of(self, cell: Cell) -> int:
        """Return a time in billionths, at most the greatest int64."""
        texts = self.table.texts
        # A number of a workbook has a point.
        given, sign = (self.given, self.sign) if texts is None or cell[:2] in texts else (".", ".")
        text = self.without_groups(cell.text, given) if given else cell.text
        match = NUMBER.match(text)
        if not text:
            raise self.table.fault(cell, MISSING)
        if (sign is None or texts is not None and not given) and GROUPED.match(text):
            digits = re.sub("[.,]", "", text)
            raise self.table.fault(cell, f"{text!r} may be {digits}, or have decimals: leave out thousands separators, "
                                         "or say which decimal sign the table has (`decimal`)")
        if match and match[2] not in (None, sign) and self.first:
            raise self.table.fault(cell, f"{cell.text!r} has another decimal sign than {self.first.text!r} in "
                                         f"{self.first.name}")
        if match is None or match[2] not in (None, sign):
            raise self.table.fault(cell, f"{cell.text!r} isn't a time{self.hint_for(cell.text)}")
        whole, part = match[1], (match[3] or "").rstrip("0")
        most = self.second if self.most is None and cell[:2] in self.table.computed else self.most
        if most is not None and len(part) > most:
            whole, part = self.round(cell, int(whole + part.ljust(20, "0")), most)
        if len(part) > 9:
            raise self.table.fault(cell, f"{cell.text!r} has more than 9 decimals: {ROUND_IT}")
        if len(part) > self.decimals:
            self.decimals, self.longest = len(part), cell
        return min(int(whole + part.ljust(9, "0")), np.iinfo(np.int64).max)

    def round(self, cell: Cell, time: int, most: int) -> tuple[str, str]:
        """Round a time, in units of 10^-20, and return its digits before and after the decimal sign."""
        step: int = 10**(20 - most)
        rounded = (time + step // 2) // step * step
        self.changed += 1
        if abs(rounded - time) > self.change:
            self.worst, self.change = cell, abs(rounded - time)
        digits = f"{rounded:021d}"
        return digits[:-20], digits[-20:].rstrip("0")

    def rounded(self) -> str:
        """Say what was rounded."""
        if self.worst is None:
            return ""
        most = f"{self.change / 10**20:.2g}"
        of = "" if self.most is not None else " of formulas"
        decimals = self.most if self.most is not None else self.second or 0
        return (f"{counted(self.changed, 'time')}{of} rounded to {counted(decimals, 'decimal')}, by {most} at most "
                f"({self.worst.name}: {self.worst.text})")

    def hint_for(self, text: str) -> str:
        """What to write instead of what isn't a time."""
        if match := NUMBER.match(text):
            is_text = match[2] and self.table.texts is not None
            return ": it is text that looks like a number: format the cell as a number, and write it again" if is_text \
                else ""
        hint = next((hint for wrong, hint in HINTS if wrong.fullmatch(text)), "")
        return f": {SKIPS if hint == NO_MACHINE and self.table.is_chosen else hint}" if hint else ""

    def without_groups(self, text: str, given: str) -> str:
        """Return a number without its thousands separators."""
        other = "," if given == "." else "."
        grouped = rf"(?!0)[0-9]{{1,3}}(?:\{other}[0-9]{{3}})+(?:\{given}[0-9]+)?\Z"
        return text.replace(other, "") if re.match(grouped, text) else text


def reject_sums(table: Rows, times: Order) -> None:
    """Reject a table whose last row or column is the sum of the others. A single equal number may be a coincidence, so
    at least two rows and two columns must be summed."""
    for last, own, others in ((table.jobs[-1], times, "row {!r} has the sums of the rows above"),
                              (table.machines[-1], times.T, "column {!r} has the sums of the columns before")):
        total = own[:-1].sum(axis=0)
        if min(own.shape[0] - 1, len(total)) > 1 and total.any() and (total == own[-1]).all():
            raise table.fault(last, f"the {others.format(last.text)}: leave it out, or allow totals (`allow_totals`)")


def text_rows(shop: Instance) -> Iterator[list[str]]:
    """The rows of a table of times, as texts with decimal points."""
    yield [f"job [{shop.unit}]" if shop.unit else "job", *map(shop.machine_name, range(shop.machines))]
    for job, row in enumerate(shop.times.tolist()):
        yield [shop.job_name(job), *(amount(time, shop.decimals, shop.unit) for time in row)]


def write_table(path: str, shop: Instance, delimiter: str, mark: bool, sheet: str = "times") -> None:
    """Write a table of times that `table_of` reads as this instance, as a workbook with this sheet or as CSV."""
    head, *texts = text_rows(shop)
    if path.lower().endswith(".xlsx"):
        rows = [[shop.job_name(job), *(cell_of(time, shop.decimals, shop.unit) for time in row)]
                for job, row in enumerate(shop.times.tolist())]
        write_workbook(path, [(sheet, [head, *rows])])
        return
    lines: list[str] = []
    writer = csv_writer(lines, [*head, *(name for name, *_ in texts)], delimiter)
    writer.writerow(map(text_cell, head))
    point = "," if delimiter == ";" else "."
    # The sign before three decimals alone could separate thousands, so they get another zero.
    more = "0" if shop.decimals == 3 and delimiter != "," else ""
    for name, *row in texts:
        writer.writerow([text_cell(name), *(time.replace(".", point) + more for time in row)])
    atomic_write(path, "".join(lines).encode("utf-8-sig" if mark else "utf-8"))


def counted(number: int, what: str) -> str:
    """Return a number with its noun.

    >>> counted(1, "job"), counted(2, "job")
    ('1 job', '2 jobs')
    """
    return f"{number:,} {what}{'' if number == 1 else 's'}"


def described(shop: Instance) -> str:
    """Return one line about what was read.

    >>> described(Instance([[35, 20]], machine_names=["saw", "drill"], unit="min", decimals=1))
    '1 job, 2 machines (saw, drill), times in min with 1 decimal'
    >>> described(Instance([[1] * 12]))[-33:], described(Instance([[1] * 13]))[-33:]
    (' 9, 10, 11), times without a unit', '10, 11, ..), times without a unit')
    """
    names = [shop.machine_name(machine) for machine in range(shop.machines)]
    decimals = f" with {counted(shop.decimals, 'decimal')}" if shop.decimals else ""
    unit = f"times in {shop.unit}" if shop.unit else "times without a unit"
    some = ", ".join(names[:12]) + (", .." if len(names) > 12 else "")
    return f"{counted(shop.jobs, 'job')}, {counted(shop.machines, 'machine')} ({some}), {unit}{decimals}"
