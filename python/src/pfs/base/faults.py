"""Exceptions for invalid files."""
from __future__ import annotations

from collections.abc import Iterable

# The name and the text of each fault by its number. `{}` is the place.
INSTANCE_FAULTS = {
    20: ("no block", "no block, found {}"),
    21: ("size count", "size line {} has a wrong count"),
    22: ("size range", "size line {} is out of range"),
    23: ("mixed line", "mixed line at {}"),
    24: ("time range", "time out of range at {}"),
    25: ("machine number", "wrong machine number at {}"),
    26: ("extra number", "extra number at {}"),
    27: ("truncated", "truncated after {} times"),
    28: ("input too long", "input too long"),
}
ORDER_FAULTS = {
    30: ("syntax", "order file syntax at {}"),
    31: ("job range", "order file job out of range at place {}"),
    32: ("job repeated", "order file job repeated at place {}"),
    33: ("order file too long", "order file too long"),
}


class Refused(Exception):
    """An input is invalid."""


class Fault(ValueError):
    """A file is invalid.

    Attributes
    ----------
    path : str
        The file.
    number : int
        The fault's number in ``pfs.h``.
    name : str
        The fault's name, such as ``"truncated"``.
    place : int
        The number in the text of the fault, or 0 if there is none. An offset counts bytes from 0; lines and places
        count from 1.
    text : str
        The line that the program ``pfs`` prints for the fault.
    """

    # All arguments are in `args`, from which a pickled exception is made again.
    def __init__(self, path: str, number: int, place: int) -> None:
        self.path, self.number, self.place = path, number, place
        self.name, text = (INSTANCE_FAULTS | ORDER_FAULTS)[number]
        self.text = "pfs: " + text.format(place)

    def __str__(self) -> str:
        return (f"{self.path}: " if self.path else "") + self.text.removeprefix("pfs: ")


class FileFault(Fault):
    """An instance file doesn't follow its layout.

    Attributes
    ----------
    line : int
        The line of the fault, counted from 1. It is the last line if the file ends too early, and 0 if the file is too
        long.
    column : int
        The byte of the line at which the fault is, counted from 1, or 0 for the whole line.
    hint : str
        A probable cause of the fault, which the message has too, or an empty text.
    """

    def __init__(self, path: str, number: int, place: int, line: int, column: int, hint: str) -> None:
        super().__init__(path, number, place)
        self.line, self.column, self.hint = line, column, hint

    def __str__(self) -> str:
        return super().__str__() + (f" ({self.hint})" if self.hint else "")


class OrderFault(Fault):
    """A file isn't an order file, or its order isn't an order of all jobs."""


# Of more faults of a table than this, the rest is counted.
MOST_FAULTS = 20


class TableFault(Fault):
    """A table (:func:`pfs.read_csv`, :func:`pfs.audit`) or a file of the layout ``matrix`` is invalid. The message has
    all faults of the table, each on a line. Its ``name`` is ``"table"``, its ``number`` 0 and its ``place`` the line.

    Attributes
    ----------
    path : str
        The file.
    line, column : int
        The position of the first fault, counted from 1, as spreadsheets count. The column is 0 for the whole row.
    text : str
        What is wrong, and what to do.
    head : str
        The name of the column, or an empty text.
    others : tuple of TableFault
        The other faults of the table.
    """

    def __init__(self, path: str, line: int, column: int, text: str, head: str = "",
                 others: tuple[TableFault, ...] = ()) -> None:
        self.path, self.name, self.number, self.place = path, "table", 0, line
        self.line, self.column, self.text, self.head, self.others = line, column, text, head, others

    def messages(self) -> list[str]:
        """Return a line for each fault, up to a number of them."""
        place = f"cell {cell_name(self.line, self.column)}" if self.column else f"line {self.line}, "
        place += f", column {self.head!r}: " if self.head else ": " if self.column else ""
        rest = len(self.others) - MOST_FAULTS
        return [f"{self.path}: {place}{self.text}", *(other.messages()[0] for other in self.others[:MOST_FAULTS]),
                *([f"{self.path}: and {rest} more"] if rest > 0 else [])]

    def __str__(self) -> str:
        return "\n".join(self.messages())


def raise_all(faults: Iterable[TableFault]) -> None:
    """Raise these faults of a file as one, in the order of their cells, if there are any."""
    if first := sorted(faults, key=lambda fault: (fault.line, fault.column)):
        raise TableFault(first[0].path, first[0].line, first[0].column, first[0].text, first[0].head, tuple(first[1:]))


def cell_name(line: int, column: int) -> str:
    """Return the name of a cell in a spreadsheet.

    >>> cell_name(3, 4), cell_name(1, 28)
    ('D3', 'AB1')
    """
    letters = ""
    while column:
        column, letter = divmod(column - 1, 26)
        letters = chr(ord("A") + letter) + letters
    return f"{letters}{line}"
