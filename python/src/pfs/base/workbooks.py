"""Workbooks (.xlsx), which are read and written with openpyxl."""
from __future__ import annotations

import contextlib
import csv
import datetime
import io
import os
import re
import warnings
import zipfile
from collections.abc import Collection, Iterable, Iterator, Sequence
from itertools import chain, count
from typing import Any
from xml.etree import ElementTree

from pfs.base.atomic import atomic_write
from pfs.base.faults import TableFault
from pfs.base.names import NOT_IN_XML, printable, shown
from pfs.base.optional import optional
from pfs.base.units import CLOCK

# Days count from the first date in workbooks, and from the other one up to February 1900, which had 29 days there.
# openpyxl takes the last two of them for one.
FIRST_DAY, FIRST_OF_1900 = datetime.datetime(1899, 12, 30), datetime.datetime(1899, 12, 31)
TWO_DAYS = datetime.date(1900, 2, 28)
# The most rows of a sheet in Excel.
MOST_ROWS = 1_048_576
# The most bytes of all parts.
MOST_UNPACKED = 2**28
# The most cells of all sheets, of all rows with the empty ones before their last ones, and of one row; rows and formats
# of columns count as cells. The most tags of another part, of a sheet beside those of its cells, and of the styles, of
# which openpyxl takes 40 microseconds for each. The most tags of a cell.
MOST_CELLS, MOST_IN_ROW, MOST_TAGS, MOST_STYLES, IN_CELL = 3_000_000, 16_384, 500_000, 100_000, 8
TAG = re.compile(rb"<(?:\w+:)?(c|col|row)[\s/>]")
# How a part begins that the parser reads, and one in whose encoding tags have other bytes.
XML = re.compile(rb"(?:\xef\xbb\xbf|\xff\xfe|\xfe\xff)?[\s\0]*<")
ENCODED = re.compile(rb"[^<]*<\?xml[^>]*encoding\s*=\s*[\"'](?!(?i:utf|us-ascii|iso-8859|windows))")
# The most bytes of a tag or a comment, of which the parser takes the square.
LONGEST = 2**18
FORMULA = re.compile(rb"<(?:\w+:)?f[\s/>]")
MERGED = re.compile(rb'<(?:\w+:)?mergeCell\s+ref="([A-Z]{1,3}[0-9]{1,7}:[A-Z]{1,3}[0-9]{1,7})"')
SEPARATED = re.compile(r"[0-9]+(?:[.,][0-9]+)+", re.ASCII)
# The sheet with options of `pfs-plan`, which is no table.
OPTIONS_SHEET = "pfs"
# How many rows decide how wide their columns are, and the widest one.
MOST_MEASURED, WIDEST = 2_000, 40


class Workbook:
    """A workbook: the names of its sheets, and of the table with which it opens."""

    def __init__(self, content: bytes, path: str) -> None:
        self.openpyxl = optional("openpyxl", f"{path}: reading a workbook")
        self.path = path
        # How many cells may still be read.
        self.cells = MOST_CELLS
        # The texts that look like numbers with a separator, in the last sheet that was read.
        self.texts: set[tuple[int, int]] = set()
        # Its cells that formulas computed with many digits, and how many hidden rows and columns it has.
        self.computed: set[tuple[int, int]] = set()
        self.hidden = [0, 0]
        with self.faults():
            with zipfile.ZipFile(io.BytesIO(content)) as archive:
                check_parts(archive)
            self.book = self.openpyxl.load_workbook(io.BytesIO(content), read_only=True, data_only=True)
            self.names: list[str] = [sheet.title for sheet in self.book.worksheets]
            tables = [name for name in self.names if name.casefold() != OPTIONS_SHEET] or self.names
            # It may open with a chart.
            opened = getattr(self.book.active, "title", None)
            self.first = opened if opened in tables else tables[0]

    @contextlib.contextmanager
    def faults(self) -> Iterator[None]:
        """What openpyxl raises becomes a fault of the file. It warns of what it wouldn't write again."""
        try:
            with warnings.catch_warnings():
                warnings.simplefilter("ignore")
                yield
        except MemoryError:
            raise
        except Exception as error:
            raise TableFault(self.path, 1, 0, f"isn't a workbook that openpyxl reads ({shown(str(error))}): save it as "
                                              ".xlsx or as CSV UTF-8") from None

    def csv_of(self, name: str, most_rows: int = MOST_ROWS) -> str:
        """Return a sheet as CSV with commas. Of the rows that aren't empty, the first ones are read. A formula without
        a stored value is a fault."""
        with self.faults():
            sheet = self.book[name]
            content = self.book._archive.read(sheet._worksheet_path)
            place = self.openpyxl.utils.cell.coordinate_to_tuple
            formulas = [(cell, value) for cell, value in formulas_in(content) if value is None or len(value) > 9]
            self.computed = {place(cell) for cell, value in formulas if value}
            empty = [cell for cell, value in formulas if value is None]
            text = self.text_of_rows(sheet, most_rows, *hidden_in(content))
        if empty:
            path = f"{self.path}, sheet {name}" if len(self.names) > 1 else self.path
            line, column = place(empty[0])
            more = f" (and {len(empty) - 1:,} more)" if len(empty) > 1 else ""
            raise TableFault(path, line, column, f"has a formula without a value{more}: open the workbook in a "
                                                 "spreadsheet and save it")
        return text

    def merged(self, name: str) -> list[tuple[int, int, int, int]]:
        """Return the merged cells of a sheet: of each range its first row and column and its last ones."""
        content = self.book._archive.read(self.book[name]._worksheet_path)
        bounds = self.openpyxl.utils.cell.range_boundaries
        with self.faults():
            found = (bounds(ref.decode()) for ref in MERGED.findall(content)[:MOST_TAGS])
            return [(top, left, bottom, right) for left, top, right, bottom in found]

    def text_of_rows(self, sheet: Any, most_rows: int, rows_hidden: Collection[int],
                     columns_hidden: Collection[int]) -> str:
        """Return the rows of a sheet as CSV, and count the hidden rows and columns among them."""
        text = io.StringIO("sep=,\n")
        text.seek(0, os.SEEK_END)
        rows = csv.writer(text)
        # The sizes that a workbook states may be wrong.
        sheet.reset_dimensions()
        self.texts, self.hidden, widest = set(), [0, 0], 0
        for number, row in enumerate(sheet.iter_rows(values_only=True)):
            self.cells -= len(row)
            if number == MOST_ROWS or self.cells < 0:
                raise ValueError("it has too many cells")
            last = next((at for at in range(len(row), 0, -1) if row[at - 1] is not None), 0)
            rows.writerow(["" if value is None else text_in(value) for value in row[:last]])
            self.texts.update((number + 1, column) for column, value in enumerate(row, 1)
                              if isinstance(value, str) and SEPARATED.fullmatch(value.strip()))
            self.hidden[0] += last > 0 and number + 1 in rows_hidden
            widest = max(widest, last)
            most_rows -= last > 0
            if not most_rows:
                break
        self.hidden[1] = sum(column <= widest for column in columns_hidden)
        return text.getvalue()


def check_parts(archive: zipfile.ZipFile) -> None:
    """Raise an error if the parts of a workbook would take much longer or much more memory than a large table."""
    if "mimetype" in archive.namelist():
        raise ValueError("it is of LibreOffice's own format")
    if sum(part.file_size for part in archive.infolist()) > MOST_UNPACKED:
        raise ValueError("its parts are too large")
    cells = 0
    for part in archive.infolist():
        content, name = archive.read(part), part.filename
        if XML.match(content):
            # UTF-16 has a zero beside each letter of a tag.
            content = content.replace(b"\0", b"") if b"\0" in content[:4] else content
            most = MOST_STYLES if name.endswith("styles.xml") else MOST_TAGS
            is_sheet = "worksheets/" in name and not is_large(content, most + IN_CELL * MOST_CELLS)
            own = cells_in(content, MOST_CELLS - cells) if is_sheet else 0
            if is_large(content, most + IN_CELL * own):
                raise ValueError(f"its part {name} is too large")
            cells += own


def cells_in(sheet: bytes, most: int) -> int:
    """Return the number of cells, rows and formats of columns of a sheet, or raise an error if there are more."""
    cells = rows = same = 0
    before = b""
    for tag in TAG.finditer(sheet):
        same = same + 1 if tag[1] == before else 1
        before, cells, rows = tag[1], cells + 1, rows + (tag[1] == b"row")
        if cells > most or rows > MOST_ROWS or same > MOST_IN_ROW and before != b"row":
            raise ValueError("it has too many cells")
    return cells


def is_large(content: bytes, most: int) -> bool:
    """Whether a part has more tags, or a tag or a comment that is too long for the parser. A document type, which
    workbooks lack, may have such ones, and an encoding may hide them."""
    if content.count(b"<") > most or b"<!DOCTYPE" in content or ENCODED.match(content):
        return True
    if any(content.find(b"<", at, at + LONGEST) < 0 for at in range(0, len(content) - LONGEST, LONGEST)):
        return True
    for begin, end in ((b"<!--", b"-->"), (b"<?", b"?>")):
        at = content.find(begin)
        while at >= 0:
            at = content.find(end, at + len(begin), at + LONGEST)
            if at < 0:
                return True
            at = content.find(begin, at)
    return False


def formulas_in(sheet: bytes) -> Iterator[tuple[str, str | None]]:
    """Return the names of the cells with formulas, and their stored values; None without one, not even an empty text,
    which openpyxl reads as an empty cell."""
    for _, row in ElementTree.iterparse(io.BytesIO(sheet)) if FORMULA.search(sheet) else ():
        if row.tag.endswith("}row"):
            yield from ((cell.get("r", "A1"), "" if cell.get("t") == "str" else cell.findtext("{*}v") or None)
                        for cell in row if cell.find("{*}f") is not None)
            row.clear()


def hidden_in(sheet: bytes) -> tuple[set[int], set[int]]:
    """Return the numbers of the rows and of the columns that are hidden."""
    rows: set[int] = set()
    columns: set[int] = set()
    count = 0
    for _, tag in ElementTree.iterparse(io.BytesIO(sheet)) if b"hidden=" in sheet else ():
        if tag.get("hidden") in ("1", "true"):
            if tag.tag.endswith("}row"):
                rows.add(int(tag.get("r", 0)))
            elif tag.tag.endswith("}col"):
                own = range(int(tag.get("min", 1)), min(int(tag.get("max", 0)), MOST_IN_ROW) + 1)
                columns.update(own)
                count += len(own)
                if count > MOST_IN_ROW:
                    raise ValueError("it has too many cells")
        tag.clear()
    return rows, columns


def text_in(value: Any) -> str:
    """Return the text of a cell: a time of day and a length of time as hours and minutes, such as 1:30."""
    if isinstance(value, float):
        return f"{value:.9f}".rstrip("0").rstrip(".")
    if isinstance(value, datetime.datetime) and value.year <= 1900 and value.date() != TWO_DAYS:
        value -= FIRST_OF_1900 if value < datetime.datetime(1900, 3, 1) else FIRST_DAY
    if isinstance(value, datetime.time):
        value = datetime.datetime.combine(FIRST_DAY, value) - FIRST_DAY
    if isinstance(value, datetime.timedelta):
        seconds = round(value.total_seconds())
        return f"{seconds // 3600}:{seconds // 60 % 60:02}" + (f":{seconds % 60:02}" if seconds % 60 else "")
    return str(value)


def cell_of(time: int, decimals: int, unit: str) -> Any:
    """What a cell has for a time: a number, or a length of time."""
    if unit == CLOCK:
        return datetime.timedelta(minutes=time)
    return time / 10**decimals if decimals else time


def write_workbook(path: str | os.PathLike[str], sheets: Iterable[tuple[str, Sequence[Sequence[Any]]]]) -> None:
    """Write sheets with rows of texts, numbers and dates as a workbook. The first row of a sheet has its heads. A text
    is never a formula."""
    openpyxl = optional("openpyxl", "writing a workbook")
    book = openpyxl.Workbook()
    book.remove(book.active)
    for title, rows in sheets:
        write_sheet(book.create_sheet(title_of(title, {sheet.title.casefold() for sheet in book})), rows)
    content = io.BytesIO()
    book.save(content)
    atomic_write(path, content.getvalue())


def title_of(name: str, used: Collection[str]) -> str:
    """Return the name of a sheet as spreadsheets allow it: at most 31 letters, some of which no name has, and unlike
    the others.

    >>> title_of("saw/drill: 1", set()), title_of("x" * 40, {"x" * 31}), title_of("'", set())
    ('saw-drill- 1', 'xxxxxxxxxxxxxxxxxxxxxxxxxxx (2)', 'sheet')
    """
    title = re.sub(r"[\[\]:*?/\\]", "-", printable(name)).strip(" '")[:31] or "sheet"
    ends = chain([""], (f" ({number})" for number in count(2)))
    return next(each for end in ends if (each := title[:31 - len(end)] + end).casefold() not in used)


def write_sheet(sheet: Any, rows: Iterable[Sequence[Any]]) -> None:
    """Write the rows of a sheet, whose columns are as wide as their cells. The heads stay in view, are on each printed
    page, and have filters."""
    font = optional("openpyxl", "").styles.Font("Calibri", 11, bold=True)
    for line, row in enumerate(rows, 1):
        for column, value in enumerate(row, 1):
            cell = sheet.cell(line, column, shown(value, NOT_IN_XML) if isinstance(value, str) else value)
            if line == 1:
                cell.font = font
            if isinstance(value, str):
                cell.data_type = "s"
            elif isinstance(value, datetime.datetime):
                cell.number_format = "yyyy-mm-dd hh:mm" + ":ss" * bool(value.second or value.microsecond)
            elif isinstance(value, datetime.timedelta):
                cell.number_format = "[h]:mm"
    for cells in sheet.iter_cols(max_row=min(sheet.max_row, MOST_MEASURED)):
        sheet.column_dimensions[cells[0].column_letter].width = min(WIDEST, 3 + max(map(letters_of, cells)))
    sheet.freeze_panes, sheet.auto_filter.ref, sheet.print_title_rows = "A2", sheet.dimensions, "1:1"
    sheet.sheet_properties.pageSetUpPr.fitToPage, sheet.page_setup.fitToHeight = True, 0
    sheet.oddHeader.center.text = "&A"


def letters_of(cell: Any) -> int:
    """How many letters a cell shows."""
    return len(cell.number_format if isinstance(cell.value, datetime.datetime) else str(cell.value))
