"""Tables with orders as supplements have them: CSVs, sheets of workbooks, LaTeX, and folders or archives of files."""
from __future__ import annotations

import contextlib
import io
import os
import pathlib
import re
import struct
import zipfile
from collections.abc import Iterable, Iterator, Mapping
from typing import Any, NamedTuple, TypeAlias

from pfs.audits.heads import Columns, columns_in, meaning
from pfs.base.faults import Fault, TableFault, cell_name
from pfs.base.names import is_frame, shown
from pfs.base.workbooks import MOST_IN_ROW, Workbook
from pfs.binding import library as c
from pfs.files.instances import content_of, read_order
from pfs.files.tables import ARCHIVE, records, text_of

# How many lines may be above the head of a table.
MOST_ABOVE = 100
# The most files of a folder or archive, the most bytes of an archive's list of files, and of a LaTeX file.
MOST_FILES, LONGEST_LIST, LONGEST_LATEX = 20_000, 4 << 20, 4 << 20
# The names of files with a table, and of those that hold no order.
TABLES, NO_ORDERS = (".csv", ".xlsx", ".tex"), (".md", ".pdf", ".zip", ".py", ".png")

Line: TypeAlias = tuple[int, list[Any]]
# A DataFrame too, whose type is unknown without pandas.
Table: TypeAlias = "str | os.PathLike[str] | Iterable[Mapping[str, Any]] | Any"


class Given(NamedTuple):
    """The rows of a method in a table. The path is empty unless it is a file. The sheet is that of a workbook, the
    number of a table in LaTeX, or the file of a folder or archive, and else empty."""

    path: str
    sheet: str
    # The line of the head, its cells, and the columns.
    line: int
    head: list[str]
    columns: Columns
    cells: list[Line]
    # The columns that are left out.
    note: str = ""

    def is_order(self) -> bool:
        """Whether it is a file with an order alone."""
        return bool(self.path) and not self.line

    def place(self, at: int, role: str) -> str:
        """Return where in a row something is."""
        if role not in self.columns.places:
            return ""
        column = self.columns.places[role]
        return f"cell {cell_name(at, column + 1)}: " if self.path else f"column {self.head[column]!r}: "

    def fault(self, at: int, role: str, text: str) -> ValueError:
        if self.path:
            path = f"{self.path}, {sheet_of(self.sheet)}" if self.sheet else self.path
            return TableFault(path, at, self.columns.places.get(role, -1) + 1, text)
        column = f", column {self.head[self.columns.places[role]]!r}" if role in self.columns.places else ""
        return ValueError(f"row {at}{column}: {text}")

    def texts(self, cells: list[Any]) -> dict[str, Any]:
        """Return the cells of a row by their roles, with the list of jobs where each has a column of its own."""
        found = {role: cells[at] if at < len(cells) else "" for role, at in self.columns.places.items()}
        if self.columns.jobs:
            jobs = [text_in(cells[at]) for at in self.columns.jobs if at < len(cells)]
            while jobs and not jobs[-1]:
                jobs.pop()
            found["order"] = jobs
        return found


class NoHead(TableFault):
    """No line is the head of a table, and as many columns as the one has that comes nearest: with another separator it
    may have more."""

    def __init__(self, path: str, line: int, column: int, text: str, columns: int) -> None:
        super().__init__(path, line, column, text)
        self.columns = columns


def sheet_of(sheet: str) -> str:
    """Return what a sheet is called in messages: a file of a folder by its name."""
    return sheet if "/" in sheet or "." in sheet else f"sheet {sheet}"


def text_in(cell: Any) -> str:
    """Return the text of a cell, which is empty for a missing value."""
    try:
        return "" if cell is None or cell != cell else str(cell).strip()
    except TypeError:  # pandas.NA is neither equal nor different
        return ""


def tables_of(table: Any, named: Mapping[str, str]) -> tuple[list[Given], list[str]]:
    """Return the tables of a file, folder, archive, frame or list, and what is left out, with the reason."""
    if isinstance(table, (str, os.PathLike)):
        path = os.fspath(table)
        if os.path.isdir(path):
            return in_folder(path, files_below(pathlib.Path(path)), named)
        content = content_of(path, "table")
        if is_archive(content, path):
            return in_folder(path, files_in(content, path), named)
        return in_file(content, path, "", named)
    if is_frame(table):
        head = [str(column) for column in table.columns]
        cells = [*enumerate(map(list, table.itertuples(index=False, name=None)))]
    else:
        rows = list(table)
        if not all(isinstance(row, Mapping) for row in rows):
            raise TypeError("table must be a DataFrame, the path of a CSV or a workbook, or a list of dicts")
        head = list(dict.fromkeys(str(name) for row in rows for name in row))
        cells = [(at, [row.get(name, "") for name in head]) for at, row in enumerate(rows)]
    if not cells and not head:
        return [], []
    try:
        made = columns_in(head, [], [row for _, row in cells], named)
    except LookupError as error:
        text = str(error.args[0])
        raise ValueError(f"the table has {text}" if text.startswith("no column") else f"row 0: {text}") from None
    return [Given("", "", 0, head, columns, cells) for columns in made], []


def in_file(content: bytes, path: str, name: str, named: Mapping[str, str]) -> tuple[list[Given], list[str]]:
    """Return the tables of a file. The name is that in its folder."""
    if content.startswith(ARCHIVE):
        return in_workbook(content, path, name, named)
    text = text_of(content, path)
    if "\\begin{" in text or (name or path).lower().endswith(".tex"):
        return in_latex(text, path, name, named)
    return given_in(text, path, name, ";\t,", named), []


def in_workbook(content: bytes, path: str, name: str, named: Mapping[str, str]) -> tuple[list[Given], list[str]]:
    """Return the tables of each sheet that has the columns and rows, and why the others are left out."""
    book = Workbook(content, path)
    found: list[Given] = []
    left_out: list[str] = []
    for sheet in book.names:
        text, merged = book.csv_of(sheet), book.merged(sheet)
        try:
            found += given_in(text, path, f"{name}/{sheet}" if name else sheet, ",", named, merged)
        except TableFault as fault:
            left_out.append(f"the sheet {sheet!r} is left out: {fault.text}")
    if not found:
        raise TableFault(path, 1, 0, f"no sheet is a table of orders: {'; '.join(left_out)}")
    return found, left_out


def given_in(text: str, path: str, sheet: str, delimiters: str, named: Mapping[str, str],
             merged: Iterable[tuple[int, int, int, int]] = ()) -> list[Given]:
    """Return the tables of a CSV. A `TableFault` says what its head lacks, or that it has no other line."""
    faults: list[NoHead] = []
    for delimiter in delimiters:
        lines: list[Line] = []
        later: list[TableFault] = []
        try:
            lines += records(text, path, delimiter)
        except TableFault as fault:
            later.append(fault)
        fill(lines, merged)
        try:
            found = table_in(lines, path, sheet, named)
        except NoHead as fault:
            faults.append(fault)
            continue
        except TableFault as fault:
            later.append(fault)
        if later:
            raise later[0]
        return found
    raise max(faults, key=lambda fault: fault.columns)


def fill(lines: list[Line], merged: Iterable[tuple[int, int, int, int]]) -> None:
    """Give each cell that is merged with one to its left or above it the text of that one."""
    by_line = dict(lines)
    for top, left, bottom, right in merged:
        text = by_line.get(top, [])[left - 1:left]
        for line in range(top, bottom + 1) if left == right or top == bottom else ():
            cells = by_line.get(line)
            if cells is not None and text:
                last = min(right, max(map(len, by_line.values())))
                cells += [""] * (last - len(cells))
                cells[left - 1:last] = text * (last - left + 1)


def table_in(lines: list[Line], path: str, sheet: str, named: Mapping[str, str]) -> list[Given]:
    """Return the tables below the first line that is a head: that has the columns which are needed."""
    best, text = 0, "the table is empty"
    for at, (line, head) in enumerate(lines[:MOST_ABOVE]):
        above = lines[at - 1][1] if at and lines[at - 1][0] == line - 1 else []
        rows = [cells for _, cells in lines[at + 1:at + 21]]
        try:
            made = columns_in(head, above, rows, named)
        except LookupError as error:
            why, has = str(error.args[0]), sum(map(bool, head))
            if not why.startswith("no column"):
                raise NoHead(path, line, 0, why, MOST_IN_ROW) from None
            if has > best:
                best, text = has, f"{'the first line' if line == 1 else f'line {line}'} has {why}"
            continue
        if at + 1 == len(lines):
            raise TableFault(path, line, 0, "the table has only its first line, and no orders")
        return [Given(path, sheet, line, head, columns, lines[at + 1:], note_of(head, made)) for columns in made]
    raise NoHead(path, 1, 0, text, best)


def note_of(head: list[str], made: list[Columns]) -> str:
    """Return which columns with makespans have no orders, and the other way round."""
    used = {at for columns in made for at in [*columns.places.values(), *columns.jobs]}
    found = []
    for role, lacks in (("makespan", "orders"), ("order", "makespans")):
        lone = [repr(name) for at, name in enumerate(head) if at not in used and meaning(name)[0] == role]
        if lone:
            found.append((f"the columns {', '.join(lone)} are left out: they have" if lone[1:] else
                          f"the column {lone[0]} is left out: it has") + f" no {lacks}")
    return "; ".join(found)


# LaTeX

COMMENT = re.compile(r"(?<!\\)((?:\\\\)*)%.*")
TABULAR = re.compile(r"\\begin\{(tabular[xy*]?|longtable|array)\}(.*?)\\end\{\1\}", re.DOTALL)
# What follows the name: a place, a width and the columns.
FORMAT = re.compile(r"\s*(?:\[[^\]]*\])?\s*\{(?:[^{}]|\{[^{}]*\})*\}")
SPAN = re.compile(r"\\multi(row|column)\s*\{([0-9]{1,3})\}\s*\{[^{}]*\}\s*(?:\[[^\]]*\])?\s*"
                  r"\{((?:[^{}]|\{[^{}]*\})*)\}")
# Rules, and commands around a text or without one.
RULE = re.compile(r"\\(?:hline|toprule|midrule|bottomrule|endhead|endfirsthead|endfoot|endlastfoot)\b"
                  r"|\\c(?:mid|)(?:line|rule)\s*(?:\([^)]*\))?\s*\{[^}]*\}|\\addlinespace(?:\[[^\]]*\])?")
WRAPPED = re.compile(r"\\(?:textbf|textit|emph|mathbf|mathrm|text|texttt|underline|num|bm|boldsymbol|makecell|textrm)"
                     r"\s*\{([^{}]*)\}")
SIGNS = {r"\pi": "π", r"\rightarrow": "->", r"\to": "->", r"\max": "max", "{,}": ",", "~": " ", r"\ ": " ", r"\_": "_",
         r"\#": "#", r"\%": "%", r"\&": "&", "--": "-"}
SIGN = re.compile("|".join(re.escape(sign) + (r"(?![a-zA-Z])" if sign[-1].isalpha() else "") for sign in SIGNS))
THIN = re.compile(r"(?<=[0-9])\\[,:;!](?=[0-9]{3}(?![0-9]))")


def in_latex(text: str, path: str, name: str, named: Mapping[str, str]) -> tuple[list[Given], list[str]]:
    """Return the tables of a LaTeX file that have the columns, and why the others are left out."""
    if len(text) > LONGEST_LATEX:
        raise TableFault(path, 1, 0, f"the LaTeX file has more than {LONGEST_LATEX:,} characters")
    text = COMMENT.sub(r"\1", text)
    found: list[Given] = []
    left_out: list[str] = []
    tables = [*TABULAR.finditer(text)]
    for number, table in enumerate(tables, 1):
        sheet, start = f"table {number}" if len(tables) > 1 else "", table.start(2)
        for _ in range(1 + table[1].endswith(("x", "y", "*"))):
            found_format = FORMAT.match(text, start)
            start = found_format.end() if found_format else start
        try:
            found += table_in([*latex_lines(text[start:table.end(2)], text[:start].count("\n") + 1, path)], path,
                              f"{name}/{sheet}" if name and sheet else name or sheet, named)
        except TableFault as fault:
            left_out.append(f"the table in line {text[:table.start()].count(chr(10)) + 1} is left out: {fault.text}")
    if not found:
        why = "; ".join(left_out) or "it has no tabular"
        raise TableFault(path, 1, 0, f"no table of the LaTeX file is one of orders: {why}")
    return found, left_out


def latex_lines(text: str, line: int, path: str) -> Iterator[Line]:
    """Yield the rows of a table, each with the line in which it begins and its cells as plain text."""
    open_rows: dict[int, tuple[int, str]] = {}
    for row in re.split(r"\\\\(?:\s*\[[^\]]*\])?|\\tabularnewline\b", text):
        plain = RULE.sub(" ", row)
        at = line + plain[:len(plain) - len(plain.lstrip())].count("\n")
        line += row.count("\n")
        cells: list[str] = []
        for cell in re.split(r"(?<!\\)&", plain):
            if len(cells) > MOST_IN_ROW:
                raise TableFault(path, at, 0, f"the row has more than {MOST_IN_ROW:,} cells")
            span = SPAN.search(cell)
            while span is not None:
                inside = plain_of(cell[:span.start()] + span[3] + cell[span.end():])
                if span[1] == "row":
                    open_rows[len(cells)] = (int(span[2]), inside)
                else:
                    cells += [inside] * (int(span[2]) - 1)
                cell, span = cell[:span.start()] + span[3] + cell[span.end():], None
            cells.append(plain_of(cell))
        for column, (left, inside) in [*open_rows.items()]:
            if column < len(cells) and any(cells):
                cells[column] = cells[column] or inside
                open_rows[column] = (left - 1, inside)
                if left == 1:
                    del open_rows[column]
        if any(cells):
            yield at, cells


def plain_of(cell: str) -> str:
    """Return the text of a cell.

    >>> plain_of(r"$\\mathbf{1\\,278}$"), plain_of(r"$C_{\\max}$"), plain_of(r"$\\pi=(3,1,2)$")
    ('1278', 'C_max', 'π=(3,1,2)')
    """
    cell = THIN.sub("", cell)
    while (made := WRAPPED.sub(r"\1", cell)) != cell:
        cell = made
    cell = SIGN.sub(lambda sign: SIGNS[sign[0]], cell)
    cell = re.sub(r"\\[,:;!]|\\(?:left|right|bf|it|small|scriptsize|footnotesize|centering)\b", " ", cell)
    return " ".join(re.sub(r"[${}]|\\q?quad\b", "", cell).split())


# Folders and archives with an order in each file

# A line with the makespan of the order in its file.
STATED = re.compile(r"\s*(?:(?:best\s*)?(?:makespan|c_?max)\s*[:=]?\s*)?([0-9]{1,18})\s*", re.IGNORECASE)
WORDY = re.compile(r"(?i)makespan|c_?max")


def files_below(folder: pathlib.Path) -> Iterator[tuple[str, bytes | str]]:
    """Yield the files of a folder by their paths in it, each with its content or why it can't be read."""
    for number, path in enumerate(path for path in folder.rglob("*") if path.is_file()):
        if number == MOST_FILES:
            raise TableFault(str(folder), 1, 0, f"the folder has more than {MOST_FILES:,} files")
        try:
            yield str(path.relative_to(folder)), content_of(str(path))
        except (Fault, OSError) as error:
            yield str(path.relative_to(folder)), str(error)


def is_archive(content: bytes, path: str) -> bool:
    """Whether a file is a zip archive and no workbook. Its list of files isn't read if that would take long."""
    if not content.startswith(ARCHIVE):
        return False
    end = content.rfind(b"PK\x05\x06")
    size = struct.unpack_from("<I", content, end + 12)[0] if 0 <= end <= len(content) - 22 else 0
    if size > LONGEST_LIST:
        raise TableFault(path, 1, 0, f"the archive has more than {MOST_FILES:,} files")
    with contextlib.suppress(zipfile.BadZipFile, NotImplementedError, ValueError, struct.error):
        with zipfile.ZipFile(io.BytesIO(content)) as archive:
            names = archive.namelist()
            return not any(name.startswith("xl/") or name in ("[Content_Types].xml", "mimetype") for name in names)
    return False


def files_in(content: bytes, path: str) -> Iterator[tuple[str, bytes | str]]:
    """Yield the files of an archive by their names, each with its content or why it can't be read. Nothing is written,
    and an archive in it isn't opened."""
    left = c.LONGEST_INPUT
    with zipfile.ZipFile(io.BytesIO(content)) as archive:
        parts = [part for part in archive.infolist() if not part.is_dir()]
        if len(parts) > MOST_FILES:
            raise TableFault(path, 1, 0, f"the archive has more than {MOST_FILES:,} files")
        for part in parts:
            left -= part.file_size
            if left < 0:
                raise TableFault(path, 1, 0, f"the files of the archive have more than {c.LONGEST_INPUT:,} bytes")
            try:
                yield part.filename, archive.read(part)
            except (zipfile.BadZipFile, NotImplementedError, RuntimeError, OSError, EOFError, ValueError) as error:
                yield part.filename, f"can't be read: {shown(str(error))}"
            except Exception as error:  # zlib.error, which is no subclass of these
                yield part.filename, f"is damaged: {shown(str(error))}"


def in_folder(path: str, files: Iterable[tuple[str, bytes | str]],
              named: Mapping[str, str]) -> tuple[list[Given], list[str]]:
    """Return the tables and the orders of files. The name of a file is that of its instance, and its folder's is the
    method. What is neither is left out."""
    found: list[Given] = []
    left_out: list[str] = []
    for name, content in sorted(files):
        parts = pathlib.PurePosixPath(name.replace("\\", "/"))
        try:
            if isinstance(content, str) or parts.suffix.lower() in NO_ORDERS:
                raise TableFault(path, 1, 0, content if isinstance(content, str) else "it is no table and no order")
            if parts.suffix.lower() in TABLES or content.startswith(ARCHIVE):
                tables, others = in_file(content, f"{path}/{name}", name, named)
                found += tables
                left_out += [f"{name}: {text}" for text in others]
            else:
                found.append(order_in(content, f"{path}/{name}", parts))
        except Fault as fault:
            text = fault.text if isinstance(fault, TableFault) else str(fault)
            left_out.append(f"the file {name!r} is left out: {text}")
    if not found:
        raise TableFault(path, 1, 0, "no file is a table or an order" + (f": {left_out[0]}" if left_out else ""))
    return found, left_out


def order_in(content: bytes, path: str, name: pathlib.PurePosixPath) -> Given:
    """Return the order of a file as a table of one row. It is one of pfs, or the lines of a list of jobs, with one line
    that has only the makespan or names it."""
    jobs, stated = order_and_makespan(content, path)
    columns = Columns({"instance": 0, "method": 1, "makespan": 2, "order": 3}, "", [])
    return Given(path, str(name), 0, ["instance", "method", "makespan", "order"], columns,
                 [(1, [name.name, name.parent.name.strip("."), stated, jobs])])


def order_and_makespan(content: bytes, path: str) -> tuple[str, str]:
    """Return the texts of the order and of the makespan of a file."""
    with contextlib.suppress(Fault):
        order = read_order(io.BytesIO(content))
        return " ".join(str(job + 1) for job in order.order.tolist()), str(order.makespan)
    lines = [line for line in text_of(content, path).splitlines() if line.strip()]
    spans = [at for at in sorted({0, len(lines) - 1}) if len(lines) > 1 and is_stated(lines, at)]
    if len(spans) > 1:
        raise TableFault(path, 1, 0, "its first and its last line may be the makespan")
    jobs = " ".join(line for at, line in enumerate(lines) if at not in spans)
    if not re.search("[0-9]", jobs):
        raise TableFault(path, 1, 0, "it has no order")
    return jobs, STATED.sub(r"\1", lines[spans[0]]) if spans else ""


def is_stated(lines: list[str], at: int) -> bool:
    """Whether a line of a file has its makespan: it says so, or is the only one with a single number among others."""
    if not STATED.fullmatch(lines[at]):
        return False
    others = [line for other, line in enumerate(lines) if other != at]
    return bool(WORDY.search(lines[at])) or any(len(re.findall("[0-9]+", line)) > 1 for line in others)
