"""Instances from files, from Taillard's generator and from pandas, and order files."""
from __future__ import annotations

import io
import os
import re
from collections.abc import Callable, Iterator
from ctypes import byref, c_char_p, c_size_t, c_uint64, c_void_p, cast
from itertools import islice
from typing import IO, Any, TypeAlias

import numpy as np

from pfs.base.benchmarks import taillard_rows
from pfs.base.faults import INSTANCE_FAULTS, ORDER_FAULTS, FileFault, OrderFault, TableFault
from pfs.base.names import is_frame
from pfs.base.order_text import numbers_in
from pfs.binding import library as c
from pfs.binding.validate import Order, Times, checked_int, layout_number
from pfs.shops.instance import Instance, generated
from pfs.shops.solution import Solution

Source: TypeAlias = "str | os.PathLike[str] | IO[bytes]"

# A line that has only numbers. The first one of a block is its size line.
NUMBER_LINE = re.compile(rb"^[ \t\r]*[0-9][0-9 \t\r]*$", re.MULTILINE)
NUMBERS_OF_SIZE = {c.LAYOUTS["taillard"]: 5, c.LAYOUTS["orlib"]: 2}
# The title of a block in OR-Library's files. Its last word is the name, if it contains a letter.
TITLE = re.compile(rb"^[ \t]*instance[ \t]+(?=[^a-z\s]*[a-z])(\S+)[ \t\r]*$", re.MULTILINE | re.IGNORECASE)
NUMBER = re.compile(rb"[0-9]{1,10}")

SIZE_COUNT, SIZE_RANGE, MIXED_LINE, TIME_RANGE, MACHINE_NUMBER, EXTRA_NUMBER, TRUNCATED, TOO_LONG = range(21, 29)
HINTS = {
    c.NO_BLOCK: "the file has no size line: no line consists of numbers alone",
    SIZE_RANGE: f"a block has 1 to {c.MOST_JOBS:,} jobs and 1 to {c.MOST_MACHINES} machines, and the notes are at most "
                f"{c.MOST_NOTE:,}",
    MIXED_LINE: "a line of times has only digits and blanks: no words, signs or decimal points",
    TIME_RANGE: f"times are 0 to {c.LONGEST_TIME:,}"}


def bytes_of(source: Source, most: int) -> tuple[bytes, str]:
    """Return the content of a file, at most one byte more than `most`, and its name."""
    if hasattr(source, "read"):
        return read_up_to(source.read, most + 1), str(getattr(source, "name", ""))
    with open(source, "rb") as file:
        return bytes_of(file, most)[0], os.fspath(source)


def content_of(path: str, what: str = "file") -> bytes:
    """Return the content of a file, which is at most 64 MiB."""
    content, _ = bytes_of(path, c.LONGEST_INPUT)
    if len(content) > c.LONGEST_INPUT:
        raise TableFault(path, 1, 0, f"the {what} has more than {c.LONGEST_INPUT:,} bytes")
    return content


def read_up_to(read_some: Callable[[int], bytes | None], most: int) -> bytes:
    """Return the content of a file, at most `most` bytes. A read of an unbuffered pipe may return fewer bytes than
    requested, even before the end."""
    parts: list[bytes] = []
    while most > 0:
        part = read_some(most)
        if part is None:
            raise BlockingIOError("the file is non-blocking and has no data yet: use a blocking one")
        if not isinstance(part, bytes):
            raise TypeError("the file must be opened in binary mode")
        if not part:
            break
        parts.append(part)
        most -= len(part)
    return b"".join(parts)


def read_block(text: bytes, layout: int, block: int, start: int) -> tuple[int, int, Times, c.Notes]:
    """Read a block, counted from the offset `start`: the number of the library's call, the place of a fault, the times
    and the notes."""
    found, place = c.Block(), c_uint64()
    length = len(text) - start
    # Each time takes at least two bytes, except the last, which may take one.
    times = np.empty(min(length // 2 + 1, c.MOST_JOBS * c.MOST_MACHINES), dtype=np.uint32)
    address = cast(c_char_p(text), c_void_p).value or 0
    number = c.library.pfs_read(address + start, length, layout, block, byref(found), times.ctypes.data, times.size,
                                byref(place))
    return number, place.value, times[:found.jobs * found.machines].reshape(found.jobs, found.machines), found.notes


def block_of(text: bytes, path: str, layout: int, block: int) -> Instance:
    """Return a block of a file."""
    number, place, times, notes = read_block(text, layout, block, 0)
    if number in INSTANCE_FAULTS:
        line, column = where(text, number, place)
        raise FileFault(path, number, place, line, column, hint_of(text, number, layout, line))
    c.done(number)
    return instance_of(times, notes, os.path.basename(path))


def instance_of(times: Times, notes: c.Notes, name: str) -> Instance:
    """Return what was read as an instance."""
    return Instance(times, name=name, seed=notes.seed, upper=notes.upper, lower=notes.lower)


def blocks_of(text: bytes, layout: int) -> Iterator[tuple[int, int, Times, c.Notes]]:
    """Read the blocks before the first fault, each from the end of the one before it. Return where each begins and
    ends, its times and its notes."""
    end = 0
    for _ in range(c.MOST_BLOCKS):
        start = end
        number, _, times, notes = read_block(text, layout, 1, start)
        if number in INSTANCE_FAULTS:
            break
        c.done(number)
        end = end_of_block(text, start, layout, times.size)
        yield start, end, times, notes


def title_of(text: bytes, start: int) -> str:
    """Return the name in the last title before the size line of the block at `start`, or an empty text."""
    size_line = NUMBER_LINE.search(text, start)
    titles: list[bytes] = TITLE.findall(text, start, size_line.start() if size_line else len(text))
    return titles[-1].decode("utf-8", "replace") if titles else ""


def end_of_block(text: bytes, start: int, layout: int, times: int) -> int:
    """Return the offset of the next block. A block has a size line and then its numbers, and ends with the line of the
    last one. The library has read this block before, so it is valid."""
    numbers, size_line = times * (2 if layout == c.LAYOUTS["orlib"] else 1), NUMBER_LINE.search(text, start)
    assert size_line is not None
    at, is_inside = size_line.end(), False
    while True:
        part = np.frombuffer(text, dtype=np.uint8, count=min(4 * numbers + 64, len(text) - at), offset=at)
        is_digit = part - np.uint8(ord("0")) < 10
        begins = np.flatnonzero(is_digit & ~np.append(np.bool_(is_inside), is_digit[:-1]))
        if len(begins) >= numbers:
            end = text.find(b"\n", at + int(begins[numbers - 1]))
            return len(text) if end < 0 else end + 1
        at, is_inside, numbers = at + len(part), bool(is_digit[-1]), numbers - len(begins)


# The position of a fault in an instance file, and a hint at its cause

def where(text: bytes, number: int, place: int) -> tuple[int, int]:
    """Return the line and the column of a fault.

    >>> where(b"1 2\\n3 x\\n", MIXED_LINE, 6), where(b"1 2", TOO_LONG, 3)
    ((2, 3), (0, 0))
    """
    if number in (MIXED_LINE, TIME_RANGE, MACHINE_NUMBER, EXTRA_NUMBER):
        return text.count(b"\n", 0, place) + 1, place - text.rfind(b"\n", 0, place)
    if number in (SIZE_COUNT, SIZE_RANGE):
        return place, 0
    return 0 if number == TOO_LONG else text.count(b"\n") + (not text.endswith(b"\n")), 0


def hint_of(text: bytes, number: int, layout: int, line: int) -> str:
    """Return a hint for a fault in this line."""
    if number == SIZE_COUNT:
        return hint_of_size(text, layout, line)
    if number in (MACHINE_NUMBER, EXTRA_NUMBER, TRUNCATED):
        return hint_of_rows(text, layout, line)
    return "" if number == c.NO_BLOCK and NUMBER_LINE.search(text) else HINTS.get(number, "")


def hint_of_size(text: bytes, layout: int, line: int) -> str:
    """Return a hint for a size line with a wrong count. The line before it may be the intended one."""
    before, own = islice(io.BytesIO(b"\n" + text), line - 1, line + 1)
    count, due = len(own.split()), NUMBERS_OF_SIZE[layout]
    if re.match(rb"[ \t]*[0-9]+[ \t]+[0-9]+\b.*[^0-9 \t\r\n]", before):
        return f"line {line - 1} has words next to its numbers, so it isn't read as a size line"
    other = next((name for name, own in c.LAYOUTS.items() if own != layout and NUMBERS_OF_SIZE[own] == count), None)
    hint = f"the line has {count} numbers, but a size line has {due}"
    return f"{hint}; in the layout {other!r} it has {count}" if other else hint


def hint_of_rows(text: bytes, layout: int, line: int) -> str:
    """Return a hint at the first row with a wrong count of numbers in the first block that is invalid."""
    size_line = NUMBER_LINE.search(text, max((end for _, end, *_ in blocks_of(text, layout)), default=0))
    if size_line is None:
        return ""
    jobs, machines = (int(word) for word in size_line[0].split()[:2])
    due = jobs if layout == c.LAYOUTS["taillard"] else 2 * machines
    at = text.count(b"\n", 0, size_line.end()) + 1
    for number, row in enumerate(islice(io.BytesIO(text), at, line), at + 1):
        count = len(row.split()) if NUMBER_LINE.match(row) else 0
        if count == machines != due and layout == c.LAYOUTS["orlib"]:
            return f"line {number} has {count} numbers: perhaps only times, instead of pairs of machine and time"
        if count not in (0, due):
            return f"line {number} has {count} numbers, but a row of this block has {due}"
    return ""


# The layout `matrix`: the sizes of an instance on one line, and then a line of times for each job

def matrix_of(text: bytes, path: str) -> Instance:
    """Return the instance of a file in the layout ``matrix``."""
    if len(text) > c.LONGEST_INPUT:
        raise TableFault(path, 1, 0, f"the file has more than {c.LONGEST_INPUT:,} bytes")
    # Words after the 5,000th are left together, as one more.
    lines = ((line, row.split(None, c.MOST_JOBS)) for line, row in enumerate(io.BytesIO(text), 1) if not row.isspace())
    line, sizes = next(lines, (1, list[bytes]()))
    if len(sizes) != 2:
        raise TableFault(path, line, 0, f"{counted(sizes)} numbers on the size line: it has those of jobs and machines")
    jobs, machines = (number_of(path, line, column, sizes[column - 1], 1, most)
                      for column, most in ((1, c.MOST_JOBS), (2, c.MOST_MACHINES)))
    times = np.zeros((jobs, machines), dtype=np.uint32)
    count = 0
    for line, words in lines:
        if count == jobs:
            raise TableFault(path, line, 0, f"more than {jobs:,} lines of times for {jobs:,} jobs")
        if len(words) != machines:
            hint = ": the layout has a line for each job, not for each machine" if len(words) == jobs else ""
            raise TableFault(path, line, 0, f"{counted(words)} times for {machines} machines{hint}")
        times[count] = [number_of(path, line, column, word, 0, c.LONGEST_TIME) for column, word in enumerate(words, 1)]
        count += 1
    if count < jobs:
        raise TableFault(path, line, 0, f"{count} lines of times for {jobs} jobs")
    return Instance(times, name=os.path.basename(path))


def counted(words: list[bytes]) -> str:
    """Return how many words a line has."""
    return f"{len(words)}" if len(words) <= c.MOST_JOBS else f"more than {c.MOST_JOBS:,}"


def number_of(path: str, line: int, column: int, word: bytes, least: int, most: int) -> int:
    """Return the number of a word, which must be in this range."""
    if not NUMBER.fullmatch(word) or not least <= int(word) <= most:
        raise TableFault(path, line, column, f"{word[:20].decode('latin-1')!r} is not a whole number from {least} to "
                                             f"{most:,}")
    return int(word)


def read(source: Source, layout: str, block: int = 1) -> Instance:
    """Read an instance file.

    Parameters
    ----------
    source : str, os.PathLike or binary file
        The file.
    layout : str
        ``"taillard"``, ``"orlib"`` or ``"matrix"``. The last one has the numbers of jobs and machines on one line, and
        then a line for each job with its time on each machine. The package alone reads it, so that isn't proved.
    block : int
        The number of the block to read, counted from 1. A file of the layout ``"matrix"`` has one block.

    Raises
    ------
    FileFault, TableFault
        If the file doesn't follow its layout; a TableFault for ``"matrix"``.

    Examples
    --------
    >>> import io
    >>> shop = pfs.read(io.BytesIO(b"3 2\\n0 3 1 2\\n0 2 1 5\\n0 4 1 1\\n"), "orlib")
    >>> shop.times
    array([[3, 2],
           [2, 5],
           [4, 1]])
    >>> pfs.read(io.BytesIO(b"3 2\\n0 3 1 2\\n0 2 2 5\\n"), "orlib")
    Traceback (most recent call last):
    pfs.base.faults.FileFault: wrong machine number at 16
    >>> pfs.read(io.BytesIO(b"3 2\\n3 2\\n2 5\\n4 1\\n"), "matrix") == shop
    True
    """
    if isinstance(layout, str) and layout == "matrix":
        checked_int(block, "block", 1, 1)
        return matrix_of(*bytes_of(source, c.LONGEST_INPUT))
    number, block = layout_number(layout, " or 'matrix'"), checked_int(block, "block", 1, c.MOST_BLOCKS)
    text, path = bytes_of(source, c.LONGEST_INPUT)
    return block_of(text, path, number, block)


def read_all(source: Source, layout: str) -> list[Instance]:
    """Read all instances of a file, one at least and 1,000 at most.

    An instance is named by the last line ``instance NAME`` before its size line, as in OR-Library's files, or else by
    the name of the file and the number of the block.

    Parameters
    ----------
    source : str, os.PathLike or binary file
        The file.
    layout : str
        ``"taillard"`` or ``"orlib"``.

    Raises
    ------
    FileFault
        If the file doesn't follow its layout, or has no instance.

    Examples
    --------
    >>> import io
    >>> pfs.read_all(io.BytesIO(b"1 1\\n0 7\\n2 1\\n0 3 0 4\\n"), "orlib")
    [<Instance 1: 1 jobs, 1 machines>, <Instance 2: 2 jobs, 1 machines>]
    """
    number = layout_number(layout)
    text, path = bytes_of(source, c.LONGEST_INPUT)
    shops: list[Instance] = []
    for start, end, times, notes in blocks_of(text, number):
        if end > c.LONGEST_INPUT:
            break
        name = title_of(text, start) or f"{os.path.basename(path)} {len(shops) + 1}".strip()
        shops.append(instance_of(times, notes, name))
    if len(shops) < c.MOST_BLOCKS:
        try:
            # Read from the start of the file, so that the offset of the fault is right.
            block_of(text, path, number, len(shops) + 1)
        except FileFault as fault:
            if fault.number != c.NO_BLOCK or not shops:
                raise
    return shops


def read_order(source: Source) -> Solution:
    """Return the order of an order file, of version 1 or 2, and the makespan that it states, which isn't checked.

    Parameters
    ----------
    source : str, os.PathLike or binary file
        The file, in which jobs count from 1. In the result they count from 0.

    Raises
    ------
    OrderFault
        If it isn't an order file, or its order isn't an order of all jobs.

    Examples
    --------
    >>> import io
    >>> pfs.read_order(io.BytesIO(b"order2 3 2\\n2 1 3\\nmakespan 10\\n"))
    Solution(order=[1, 0, 2], makespan=10)
    """
    text, path = bytes_of(source, c.LONGEST_ORDER_FILE)
    jobs, machines, makespan, place = c_size_t(), c_size_t(), c_uint64(), c_uint64()
    order = np.empty(c.MOST_JOBS, dtype=np.uint32)
    number = c.library.pfs_read_order(text, len(text), order.ctypes.data, order.size, byref(jobs), byref(machines),
                                      byref(makespan), byref(place))
    if number in ORDER_FAULTS:
        raise OrderFault(path, number, place.value)
    c.done(number)
    return Solution(order[:jobs.value], makespan.value, 0, machines.value)


def parse_order(text: str, first: int = 0) -> Order:
    """Read an order from a text, such as a line of a table in a paper, as an array of int64, counted from 0.

    Parameters
    ----------
    text : str
        The jobs, separated by commas, semicolons, blanks or dashes, perhaps in brackets and with the same letters
        before each: ``"2, 1, 3"``, ``"2-1-3"``, ``"π = (J2; J1; J3)"``.
    first : int
        The number of the first job in the text, 0 or 1. In most papers it is 1.

    Raises
    ------
    TypeError, ValueError
        If the text isn't a str, isn't a list of numbers, or doesn't have each job from ``first`` exactly once.

    Examples
    --------
    >>> order = pfs.parse_order("2, 1, 3", first=1)
    >>> order.tolist()
    [1, 0, 2]
    >>> pfs.Instance([[3, 2], [2, 5], [4, 1]]).makespan(order)
    10
    >>> pfs.parse_order("J1 J0 J2")
    array([1, 0, 2])
    """
    if not isinstance(text, str):
        raise TypeError(f"text must be a str, not {text!r}")
    first = checked_int(first, "first", 0, 1)
    numbers = numbers_in(text)
    if isinstance(numbers, str):
        raise ValueError(numbers)
    if len(numbers) > c.MOST_JOBS:
        raise ValueError(f"the list has {len(numbers):,} jobs, but at most {c.MOST_JOBS:,} are allowed")
    places: dict[int, int] = {}
    for place, number in enumerate(numbers):
        if not first <= number < len(numbers) + first:
            raise ValueError(f"{number} at place {place} isn't a job: the {len(numbers)} jobs are {first} to "
                             f"{len(numbers) - 1 + first}")
        if places.setdefault(number, place) != place:
            raise ValueError(f"job {number} occurs twice, at places {places[number]} and {place}")
    return np.array(numbers, dtype=np.int64) - first


def from_frame(frame: Any, *, unit: str = "", decimals: int = 0) -> Instance:
    """Make an instance from a pandas DataFrame.

    Parameters
    ----------
    frame : pandas.DataFrame
        A row for each job and a column for each machine. The index and the columns are the names, unless they count
        from 0.
    unit : str
        The unit of the times, such as ``"min"``.
    decimals : int
        The number of decimals of the times in the frame, 0 to 9. The times of the instance are integers: with 1
        decimal, 2.5 becomes 25.

    Raises
    ------
    TypeError, ValueError
        If it isn't a DataFrame of numbers, a time is missing, has more decimals, other than by the rounding of its
        type, or is out of range, or a name occurs twice.

    Examples
    --------
    >>> import pandas
    >>> frame = pandas.DataFrame({"saw": [3, 2], "drill": [2.5, 5]}, index=["table", "chair"])
    >>> shop = pfs.from_frame(frame, unit="h", decimals=1)
    >>> shop.times.tolist(), shop.job_names, shop.machine_names
    ([[30, 25], [20, 50]], ('table', 'chair'), ('saw', 'drill'))
    """
    if not is_frame(frame):
        raise TypeError(f"frame must be a pandas DataFrame, not {type(frame).__name__}")
    decimals = checked_int(decimals, "decimals", 0, 9)
    if decimals:
        columns = [scaled(frame.iloc[:, at], decimals) for at in range(frame.shape[1])]
        names = frame.columns
        frame = type(frame)(dict(enumerate(columns)), index=frame.index)
        frame.columns = names
    return Instance(frame, unit=unit, decimals=decimals)


def scaled(column: Any, decimals: int) -> list[Any]:
    """Return a column in the unit of its last decimal. What isn't a number stays, and `Instance` rejects it."""
    # A float may differ slightly from the decimal that it represents, by the last bits of its type.
    kind = getattr(column.dtype, "numpy_dtype", column.dtype)
    error = max(1e-12, float(np.finfo(kind).eps)) if kind.kind == "f" else 1e-12
    found: list[Any] = []
    for value in column.tolist():
        value = value.item() if isinstance(value, np.generic) else value
        if isinstance(value, (int, float)) and not isinstance(value, bool):
            value *= 10**decimals
            if abs(value) < 2**53 and abs(value - round(value)) <= error * abs(value):
                value = round(value)
        found.append(value)
    return found


def generate(jobs: int, machines: int, seed: int) -> Instance:
    """Generate an instance with Taillard's generator (1993), which draws times from 1 to 99.

    Parameters
    ----------
    jobs, machines : int
        The number of jobs and of machines.
    seed : int
        1 to 2,147,483,646.

    Examples
    --------
    >>> pfs.generate(5, 1, 873654221).times.ravel().tolist()
    [54, 83, 15, 71, 77]
    """
    jobs = checked_int(jobs, "jobs", 1, c.MOST_JOBS)
    machines = checked_int(machines, "machines", 1, c.MOST_MACHINES)
    seed = checked_int(seed, "seed", 1, c.MOST_GENERATOR_SEED)
    return Instance(generated(jobs, machines, seed), seed=seed)


def taillard(number: int) -> Instance:
    """Return one of the 120 permutation flow shop instances of Taillard's benchmark (1993), with its seed. ``lower`` is
    the published lower bound, and ``upper`` the best known makespan (Taillard's list of best known bounds; of ``ta056``
    that of Mezmaz, Melab and Talbi 2007). Both are published numbers; they aren't proved here. Some of those with 100
    jobs and more on 20 machines, or with 200 and more, may have been lowered since. ``best`` has the shortest order
    known to pfs, and whether it is proved optimal.

    Parameters
    ----------
    number : int
        1 to 120, as in ``ta001`` to ``ta120``.

    Examples
    --------
    >>> shop = pfs.taillard(1)
    >>> shop, shop.lower, shop.upper
    (<Instance ta001: 20 jobs, 5 machines>, 1232, 1278)
    >>> shop.best.makespan, shop.best.optimal
    (1278, True)
    """
    name, jobs, machines, seed, lower, upper = taillard_rows()[checked_int(number, "number", 1, 120) - 1]
    return Instance(generate(jobs, machines, seed).times, name=name, seed=seed, lower=lower, upper=upper)
