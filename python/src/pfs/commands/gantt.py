"""Draws a Gantt chart of the time table that `pfs table` prints: a row for each machine, a colour for each job, idle
time in grey. The table is read from the file TABLE or from standard input. The extension of PICTURE selects the format:
SVG, PNG or PDF. Needs matplotlib (Debian: python3-matplotlib).

usage: pfs-gantt [--critical] [--bound B] [--unit UNIT] [--width INCHES] [--dpi DPI] [--title TEXT] [TABLE] PICTURE"""
from __future__ import annotations

import argparse
import importlib
import os
import re
import sys
from typing import Any

from pfs.base.atomic import atomic_write
from pfs.base.faults import Refused
from pfs.base.optional import optional
from pfs.commands.cli import CommandLine, Misused, inches, number, run
from pfs.schedules.drawing import DPI, UNIT, WIDTH, Chart, draw, picture_of

# The most pixels of a PNG, so that it fits into memory.
MOST_PIXELS = 100_000_000
# The limits of pfs, and a number of bytes that no table of pfs exceeds.
MOST_JOBS, MOST_MACHINES, LONGEST = 5_000, 200, 67_108_864


# The time table

def numbers(line: str, count: int, what: str) -> list[int]:
    if line.count(" ") != count - 1 or not re.fullmatch("[0-9]{1,18}(?: [0-9]{1,18})*", line):
        raise Refused(f"{what} must have {count} numbers")
    return [int(word) for word in line.split(" ")]


def read_table(text: str) -> tuple[list[int], Any, Any]:
    """Parse and validate a time table of `pfs table`: the order, and the starts and ends by place and by machine."""
    numpy = importlib.import_module("numpy")
    lines = text.removesuffix("\n").split("\n")
    head, _, size = lines[0].partition(" ")
    if head != "table":
        raise Refused("not a time table: the first line must be `table N M`")
    if not text.endswith("\n"):
        raise Refused("the time table is incomplete: its last line has no line end")
    jobs, machines = numbers(size, 2, "line 1")
    if jobs > MOST_JOBS or machines > MOST_MACHINES:
        raise Refused(f"a time table has at most {MOST_JOBS:,} jobs and {MOST_MACHINES} machines")
    if jobs == 0 or machines == 0 or len(lines) != jobs + 2:
        raise Refused(f"not a time table of {jobs} jobs and {machines} machines: it has {len(lines)} lines")
    table = numpy.array([numpy.array(numbers(line, 2 * machines + 1, f"line {at}"))
                         for at, line in enumerate(lines[1:-1], 2)])
    order, starts, ends = table[:, 0].tolist(), table[:, 1::2], table[:, 2::2]
    if sorted(order) != list(range(1, jobs + 1)):
        raise Refused(f"each of the jobs 1 to {jobs} must have one line")
    # Each operation starts as soon as its job and its machine are free.
    free = numpy.zeros_like(starts)
    free[1:] = ends[:-1]
    free[:, 1:] = numpy.maximum(free[:, 1:], ends[:, :-1])
    wrong = numpy.argwhere((starts != free) | (ends < starts))
    if len(wrong):
        place, machine = wrong[0].tolist()
        raise Refused(f"line {place + 2}: the job must start on machine {machine + 1} at {free[place, machine]}")
    if lines[-1] != f"makespan {ends[-1, -1]}":
        raise Refused(f"the last line must be `makespan {ends[-1, -1]}`")
    return order, starts, ends


# The command line

def on_one_line(text: str) -> str:
    if not text.isprintable():
        raise argparse.ArgumentTypeError(f"{text!r} has characters that can't be printed")
    return text


def words() -> CommandLine:
    parser = CommandLine("pfs-gantt", usage=(__doc__ or "").partition("usage: ")[2])
    parser.add_argument("--critical", action="store_true", help="outline a critical path")
    parser.add_argument("--bound", type=number(0, 10 ** 18 - 1), help="draw a dashed line at this lower bound")
    parser.add_argument("--unit", type=on_one_line, default=UNIT, help="the unit of the times")
    parser.add_argument("--width", type=inches, default=WIDTH, help="the width of the picture, in inches")
    parser.add_argument("--dpi", type=number(20, 2400), default=DPI, help="dots per inch of a PNG or an image of rows")
    parser.add_argument("--title", type=on_one_line, default=True, help="the title; none if it is empty")
    parser.add_argument("--no-title", dest="title", action="store_false", help=argparse.SUPPRESS)
    parser.add_argument("table", nargs="?", metavar="TABLE")
    parser.add_argument("picture", metavar="PICTURE")
    return parser


def draw_picture() -> int:
    given = vars(words().parse_args())
    optional("numpy", "a picture")
    optional("matplotlib", "a picture").rcdefaults()  # no matplotlibrc of the current folder
    source, picture = given.pop("table"), given.pop("picture")
    extension = os.path.splitext(picture)[1][1:]
    if extension not in ("svg", "png", "pdf"):
        raise Misused(f"{picture}: the name of a picture must end with .svg, .png or .pdf")
    with open(source or 0, encoding="ascii", errors="replace", newline="", closefd=bool(source)) as file:
        text = file.read(LONGEST + 1)
    if len(text) > LONGEST:
        raise Refused(f"not a time table: longer than {LONGEST:,} bytes")
    order, starts, ends = read_table(text)
    chart = Chart(order, starts, ends, [*map(str, order)], [str(at + 1) for at in range(starts.shape[1])], **given)
    if chart.bound is not None and chart.bound > chart.makespan:
        raise Misused(f"the bound {chart.bound} exceeds the makespan {chart.makespan}")
    if chart.width * chart.height * chart.dpi ** 2 > MOST_PIXELS:
        raise Misused(f"a picture of {chart.width:g} by {chart.height:g} inches at {chart.dpi} dots per inch has "
                      "too many pixels")
    atomic_write(picture, picture_of(draw(chart), extension, chart.dpi))
    if chart.is_image:
        print(f"pfs-gantt: {starts.size:,} operations are too many or too short to draw one by one: the rows are an "
              f"image of {chart.dpi} dots per inch", file=sys.stderr)
    return 0


def main() -> int:
    return run("pfs-gantt", draw_picture)


if __name__ == "__main__":
    sys.exit(main())
