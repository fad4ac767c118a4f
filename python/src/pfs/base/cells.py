"""Cells of CSVs that no spreadsheet takes for formulas, and no reader for others; and tables in HTML."""
from __future__ import annotations

import csv
import html
import re
from collections.abc import Iterable
from types import SimpleNamespace
from typing import Any, Literal

FORMULA = re.compile(r"\s*[=+@-]|[\t\r]")


def text_cell(text: str) -> str:
    """Return a text with an apostrophe before it if a spreadsheet would interpret it as a formula, perhaps after
    removing blanks."""
    return f"'{text}" if FORMULA.match(text) else text


def text_in_cell(cell: str) -> str:
    """Return the text of a cell, without blanks around it and without the apostrophe of `text_cell`.

    >>> text_in_cell(" '=5 "), text_in_cell("'round")
    ('=5', "'round")
    """
    text = cell.strip()
    return text[1:] if text[:1] == "'" and FORMULA.match(text, 1) else text


def quoting_of(names: Iterable[str], delimiter: str) -> Literal[0, 1]:
    """Return how the cells of CSV are quoted: all of them if a name has what a reader could take for the delimiter."""
    others = {",": {";", "\t"}, "\t": {";"}}.get(delimiter, set())
    return csv.QUOTE_ALL if others & set().union(*names) else csv.QUOTE_MINIMAL


def csv_writer(lines: list[str], names: Iterable[str], delimiter: str = ",") -> Any:
    """Return a writer of CSV with these names, which appends each row to the lines."""
    # With this line terminator, cells that contain \r or \n are quoted.
    file = SimpleNamespace(write=lambda row: lines.append(row.removesuffix("\r\n") + "\n"))
    return csv.writer(file, delimiter=delimiter, lineterminator="\r\n", quoting=quoting_of(names, delimiter))


def html_table(rows: Iterable[Iterable[str]]) -> str:
    """Return a table of texts in HTML.

    >>> html_table([["saw", "<1 & 2"]])
    '<table><tr><td>saw</td><td>&lt;1 &amp; 2</td></tr></table>'
    """
    lines = ("".join(f"<td>{html.escape(text)}</td>" for text in row) for row in rows)
    return f"<table>{''.join(f'<tr>{line}</tr>' for line in lines)}</table>"
