"""What a Gantt chart shows, and its picture by matplotlib: a row for each machine, a colour for each job, idle time in
grey. A page shows the same `Chart`. This needs NumPy, for pictures matplotlib, and not the library."""
from __future__ import annotations

import importlib
import io
import itertools
import logging
import math
import textwrap
from collections.abc import Sequence
from dataclasses import dataclass
from functools import cached_property
from typing import Any, TypeAlias

from pfs.base.languages import ENGLISH, Say
from pfs.base.units import CLOCK, amount

# Sizes are in inches, those of letters in points.
WIDTH, DPI = 12.0, 110
UNIT = "units of the instance"
LETTERS = 8
DIGIT = 0.66 * LETTERS / 72
HIGHEST_ROWS = 12
# Rows of this height or less have no letters.
SMALLEST_ROW = 0.2
# The key of places and names: the size and the width of its letters, and the height of its lines.
KEY_LETTERS = 7
KEY_DIGIT = 0.64 * KEY_LETTERS / 72
KEY_LINE = 0.14
NARROW = 6
# The space for the shares of idle time at the right and for machines of ten letters at the left, and that of a letter.
# Their names take at most a quarter of the width.
BESIDE, NAME, NAME_DIGIT = 1.5, 10, 0.07
IDLE = "#d9d9d9"
# If there are more operations, or more jobs than pixels from left to right, the rows are one image.
MANY = 20_000
# Up to this number of jobs have colours of the palette. Any two of them, and the grey of idle time, differ by 4.6
# (CIEDE2000) or more, also without the red or the green cones (simulated as in Machado et al., 2009); the first 20
# differ by 9.0 or more. Each colour was chosen as far as possible from those before it.
FEW = 60
PALETTE = """
    326ebe 5a7800 f0c81e 508c82 8cb4fa 82b482 8c4650 963278 78a000 c896b4 5a8c5a 96e696 8282fa a0dcfa 4682a0
    645a28 c8b45a d282c8 e63282 007864 f0aab4 e61446 96a05a 50bea0 faaadc 1e5aa0 009696 6e6e46 148c6e 1edcbe
    14aa96 3c82c8 a0e66e 1e8282 aa0096 c84600 8cc882 bedcb4 beb400 f03c6e 00d2d2 3250d2 50aaaa 78783c c81e64
    f0783c 9696f0 326ef0 96c8fa 00aac8 3296aa 64aa8c b41e32 32788c 32a06e aac8a0 3c78aa 509682 465a82 a0d278""".split()

# Red, green and blue, each from 0 to 1.
Colour: TypeAlias = tuple[float, float, float]
# Figures and axes of matplotlib, and arrays of NumPy, which have no types here.
Figure: TypeAlias = Any
Axis: TypeAlias = Any
Array: TypeAlias = Any


@dataclass
class Chart:
    """A time table, and how it is drawn.

    `order` has the jobs, numbered from 1, and `jobs` their names, both by place; `starts` and `ends` have a row for
    each place and a column for each machine. The width is in inches, and `dpi` is dots per inch. `decimals` is the
    number of decimals of the times. The title is this text, or says what is drawn. A scale of dates has a title,
    `scale`, and marks, each a time and its text. With `key`, a bar that is too short for its job's name has the job's
    place in the order, and a key below the rows has the names. Shifts and days begin at `breaks`, each a time and the
    day or an empty text. `end` is the date of the end. `say` says words in the chart's language."""
    order: Sequence[int]
    starts: Array
    ends: Array
    jobs: Sequence[str]
    machines: Sequence[str]
    width: float = WIDTH
    dpi: int = DPI
    title: bool | str = True
    critical: bool = False
    bound: int | None = None
    unit: str = UNIT
    decimals: int = 0
    scale: str = ""
    marks: Sequence[tuple[float, str]] = ()
    key: bool = False
    breaks: Sequence[tuple[float, str]] = ()
    end: str = ""
    say: Say = ENGLISH

    def __post_init__(self) -> None:
        self.makespan = int(self.ends[-1, -1])
        self.fills = colours(self.order)
        # What a picture shows of the names of machines, and the space next to its rows.
        self.names = [shortened(name, int(self.width / 4 / NAME_DIGIT)) for name in self.machines]
        self.beside = BESIDE + NAME_DIGIT * max(0, max(map(len, self.names)) - NAME)
        # The sign before the number of a place, which is empty unless a name is a number.
        self.sign = "#" if any(name.isdecimal() for name in self.jobs) else ""

    @property
    def plot_width(self) -> float:
        return self.width - self.beside

    @property
    def row_height(self) -> float:
        return min(0.42, HIGHEST_ROWS / len(self.machines))

    @property
    def height(self) -> float:
        """The height of a picture but for its key."""
        return 1.3 + self.row_height * len(self.machines)

    @property
    def is_image(self) -> bool:
        """Whether the rows are drawn as an image: there are very many operations, or more jobs than pixels in a row."""
        return self.starts.size > MANY or len(self.order) > self.plot_width * self.dpi

    def inches(self, time: int) -> float:
        """The length of a time in the picture."""
        return self.plot_width / max(1, self.makespan) * time

    @property
    def shown_unit(self) -> str:
        return self.say(UNIT) if self.unit == UNIT else self.unit

    def formatted(self, time: float) -> str:
        return amount(round(time), self.decimals, self.unit)

    def heading(self, has_unit: bool) -> str:
        """The given title, or else what is drawn, on request with the unit of the makespan."""
        if self.title and isinstance(self.title, str):
            return self.title
        unit = f" {self.unit}" if has_unit and self.unit not in (UNIT, CLOCK) else ""
        say = self.say
        title = f"{len(self.jobs)} {say('jobs')} {say('on')} {len(self.machines)} {say('machines')}: "
        title += f"{say('makespan')} {self.formatted(self.makespan)}{unit}"
        title += f", {say('end')} {self.end}" if self.end else ""
        title += f", {say('bound')} {self.formatted(self.bound)} ({say('dashed')})" if self.bound is not None else ""
        return title + (f", {say('critical path outlined')}" if self.critical else "")

    def shares(self) -> list[str]:
        """The share of idle time of each machine; empty if nothing takes time."""
        busy = (self.ends - self.starts).sum(axis=0).tolist()
        return [f"{100 - 100 * time / self.makespan:.0f} %" if self.makespan else "" for time in busy]

    def outlines(self) -> list[tuple[int, int, int]]:
        """The machines of a critical path, each with the first and the last place of its operations on the path, which
        follow each other without a wait; none if the path isn't drawn."""
        path = critical_path(self.starts, self.ends) if self.critical else []
        groups = [[*group] for _, group in itertools.groupby(path, lambda operation: operation[1])]
        return [(group[0][1], group[0][0], group[-1][0]) for group in groups]

    @cached_property
    def labels(self) -> list[tuple[int, int, str, int]]:
        """The texts on bars: machine, place, text and the size of its letters."""
        if self.is_image or self.row_height <= SMALLEST_ROW:
            return []
        lengths = enumerate((self.ends - self.starts).T.tolist())
        labels = [(machine, place, *self.label_of(place, length)) for machine, row in lengths
                  for place, length in enumerate(row)]
        return [label for label in labels if label[2]]

    def label_of(self, place: int, length: int) -> tuple[str, int]:
        """Return the label of a bar of this length and the size of its letters: the job's name, or in smaller letters
        its place in the key with the beginning of its name, or its name if there is no key, or an empty text."""
        room, name = self.inches(length), self.jobs[place]
        if room > DIGIT * len(name) + 0.03:
            return name, LETTERS
        text, most = f"{self.sign}{place + 1}" if self.key else name, int((room - 0.03) / KEY_DIGIT)
        if self.key and most >= len(text) + 6:
            text = shortened(f"{text} {name}", most)
        return text if room > KEY_DIGIT * len(text) + 0.02 else "", KEY_LETTERS

    @cached_property
    def key_columns(self) -> list[list[str]]:
        """The places and names of all jobs, in columns of equal width; none if no bar has a place instead of a name."""
        if not self.key or all(letters == LETTERS for *_, letters in self.labels):
            return []
        most = int((self.width - 0.4) / KEY_DIGIT) - 4
        items = [shortened(f"{self.sign}{place} {name}", most) for place, name in enumerate(self.jobs, 1)]
        columns = max(1, min(len(items), int((self.width - 0.4) / (KEY_DIGIT * (4 + max(map(len, items)))))))
        rows = math.ceil(len(items) / columns)
        return [items[at:at + rows] for at in range(0, len(items), rows)]

    @property
    def key_height(self) -> float:
        """The height of the key, in inches; 0 if there is none."""
        return 0.2 + KEY_LINE * len(self.key_columns[0]) if self.key_columns else 0


def critical_path(starts: Array, ends: Array) -> list[tuple[int, int]]:
    """Return the places and machines of a critical path: operations from 0 to the makespan without a wait between
    them. Going back from the end, a step along the machine is preferred."""
    place, machine = (size - 1 for size in starts.shape)
    path = [(place, machine)]
    while place or machine:
        if place and (not machine or ends[place - 1, machine] == starts[place, machine]):
            place -= 1
        else:
            machine -= 1
        path.append((place, machine))
    return path[::-1]


def shortened(text: str, most: int) -> str:
    """Return the text, cut if it is longer than this.

    >>> shortened("drill", 5), shortened("drill 12", 7), shortened("drill 12", 6)
    ('drill', 'drill…', 'drill…')
    """
    return text if len(text) <= most else f"{text[:most - 1].rstrip()}\u2026"


# Colours

def colours(order: Sequence[int]) -> list[Colour]:
    """Return the colour of each job of the order. Few jobs have the colours of the palette, by their numbers. For many
    jobs the hue changes along the order, and neighbours differ in their lightness."""
    if len(order) <= FEW:
        return [rgb_of(PALETTE[job - 1]) for job in order]
    return [of_lightness((40, 75, 57)[place % 3], 320 * place / len(order)) for place in range(len(order))]


def rgb_of(digits: str) -> Colour:
    red, green, blue = (int(digits[at:at + 2], 16) / 255 for at in (0, 2, 4))
    return red, green, blue


def of_lightness(lightness: float, hue: float) -> Colour:
    """Return the colour of this lightness (L* of CIELAB, 40 or more) and this hue, in degrees."""
    along, chroma = math.radians(hue), 45
    y = (lightness + 16) / 116
    x, z = y + chroma * math.cos(along) / 500, y - chroma * math.sin(along) / 200
    x, y, z = 0.9505 * x ** 3, y ** 3, 1.089 * z ** 3
    linear = (3.2406 * x - 1.5372 * y - 0.4986 * z, -0.9689 * x + 1.8758 * y + 0.0415 * z,
              0.0557 * x - 0.2040 * y + 1.0570 * z)
    red, green, blue = (min(1, max(0, 1.055 * max(0, part) ** (1 / 2.4) - 0.055)) for part in linear)
    return red, green, blue


def ink(background: Colour) -> str:
    """Return black or white, whichever has the greater contrast, which is 4.57 or more (WCAG)."""
    red, green, blue = (((part + 0.055) / 1.055) ** 2.4 for part in background)
    return "black" if (0.2126 * red + 0.7152 * green + 0.0722 * blue + 0.05) ** 2 > 0.05 * 1.05 else "white"


# The picture

def draw(chart: Chart, axis: Axis | None = None) -> Figure:
    """Draw a chart on a new figure that is large enough for the rows and the key, or on axes of a caller."""
    matplotlib = importlib.import_module("matplotlib")
    logging.getLogger("matplotlib").setLevel(logging.ERROR)
    matplotlib.rcParams.update({"svg.fonttype": "none", "svg.hashsalt": "pfs", "pdf.fonttype": 42, "font.size": 9})
    if axis is None:
        height, key = chart.height, chart.key_height
        figure = importlib.import_module("matplotlib.figure").Figure((chart.width, height + key), layout="constrained")
        if key:
            figure.get_layout_engine().set(rect=(0, key / (height + key), 1, height / (height + key)))
        axis = figure.subplots()
    else:
        chart.width = axis.get_window_extent().width / axis.figure.dpi + chart.beside
    if chart.is_image:
        draw_image(axis, chart)
    else:
        draw_bars(axis, chart)
    draw_lines(axis, chart)
    draw_outlines(axis, chart)
    draw_key(axis.figure, chart)
    if chart.title:
        size = 11 if chart.width > NARROW else 9
        most = max(20, int(72 * (chart.width - 0.9) / (0.56 * size)))
        axis.set_title(textwrap.fill(chart.heading(bool(chart.scale)), most), fontsize=size, linespacing=1.3,
                       parse_math=False)
    draw_scales(axis, chart)
    return axis.figure


def draw_image(axis: Axis, chart: Chart) -> None:
    """Draw all rows as one image. The colour of a pixel is the mean of the colours at its time, with idle time."""
    numpy = importlib.import_module("numpy")
    width, machines = max(1, int(chart.plot_width * chart.dpi)), len(chart.machines)
    edges = numpy.linspace(0, chart.makespan, width + 1)
    idle, shades = numpy.array(rgb_of(IDLE[1:])), numpy.array(chart.fills)
    # ten lines per machine; the first and the last are the white between the rows
    image = numpy.full((10 * machines, width, 3), 255, dtype="uint8")
    for machine in range(machines):
        spans = numpy.stack((chart.starts[:, machine], chart.ends[:, machine]), axis=1)
        times = numpy.concatenate(([0], spans.ravel(), [chart.makespan]))
        lengths = numpy.diff(times)[:, None]
        # an operation has each second length, and idle time each other one
        lights = lengths * idle
        lights[1::2] = lengths[1::2] * shades
        sums = numpy.concatenate(([[0, 0, 0]], numpy.cumsum(lights, axis=0)))
        for part in range(3):
            means = numpy.diff(numpy.interp(edges, times, sums[:, part])) * width / max(1, chart.makespan)
            image[10 * machine + 1:10 * machine + 9, :, part] = numpy.rint(255 * means.clip(0, 1))
    axis.imshow(image, extent=(0, chart.makespan, machines + 0.5, 0.5), aspect="auto", interpolation="none",
                gid="rows")


def draw_bars(axis: Axis, chart: Chart) -> None:
    """Draw a grey strip for each machine, and on it the operations that take time, in the order of the jobs, with their
    labels. The white edges between them take at most a quarter of the shortest one."""
    for machine, (starts, ends) in enumerate(zip(chart.starts.T.tolist(), chart.ends.T.tolist())):
        bars = [(start, end - start, fill) for start, end, fill in zip(starts, ends, chart.fills) if end > start]
        shortest = 72 * chart.inches(min((length for _, length, _ in bars), default=0))
        row = (machine + 0.6, 0.8)
        axis.broken_barh([(0, chart.makespan)], row, facecolor=IDLE, linewidth=0, gid=f"strip-{machine + 1}")
        axis.broken_barh([bar[:2] for bar in bars], row, facecolors=[bar[2] for bar in bars], edgecolor="white",
                         linewidth=min(0.5, shortest / 4), gid=f"machine-{machine + 1}")
    for machine, place, text, letters in chart.labels:
        middle = (int(chart.starts[place, machine]) + int(chart.ends[place, machine])) / 2
        axis.text(middle, machine + 1, text, ha="center", va="center", fontsize=letters, zorder=4,
                  color=ink(chart.fills[place]), clip_on=True, parse_math=False)


def draw_lines(axis: Axis, chart: Chart) -> None:
    """Draw a line where a day begins, a thin one where another shift does, and a dashed one with a white edge at the
    bound, which isn't clipped at the end of the axis."""
    for name, wide, style in (("days", 0.9, "-"), ("shifts", 0.6, ":")):
        times = [at for at, day in chart.breaks if at and bool(day) == (name == "days")]
        if times:
            axis.vlines(times, 0, 1, transform=axis.get_xaxis_transform(), color="black", linewidth=wide,
                        linestyle=style, zorder=2.5, gid=name)
    if chart.bound is not None:
        axis.axvline(chart.bound, color="white", linewidth=2.4, zorder=3.5, clip_on=False, gid="beside-bound")
        axis.axvline(chart.bound, color="black", linestyle=(0, (4, 3)), linewidth=1.2, zorder=3.6, clip_on=False,
                     gid="bound")


def draw_outlines(axis: Axis, chart: Chart) -> None:
    """Outline the critical operations of each machine. With few jobs the line covers at most a quarter of the first and
    of the last of them, unless it would be too thin to see."""
    for machine, first, last in chart.outlines():
        lengths = (chart.ends - chart.starts)[first:last + 1, machine].tolist()
        ends = [next((length for length in each if length), 0) for each in (lengths, lengths[::-1])]
        thin = max(0.8, 72 * chart.inches(min(ends)) / 2) if len(chart.order) <= FEW else 2
        if sum(lengths):
            axis.broken_barh([(int(chart.starts[first, machine]), sum(lengths))], (machine + 0.6, 0.8),
                             facecolor="none", edgecolor="black", linewidth=min(2, 20 * chart.row_height, thin),
                             zorder=3, clip_on=False, gid=f"critical-{machine + 1}")


def draw_key(figure: Figure, chart: Chart) -> None:
    """Draw the key below the rows: a square of each job's colour, its place and its name."""
    height, colour = figure.get_figheight(), iter(chart.fills)
    for at, column in enumerate(chart.key_columns):
        for line, item in enumerate(column):
            left = 0.2 + at * (chart.width - 0.4) / len(chart.key_columns)
            top = chart.key_height - 0.1 - line * KEY_LINE
            for shift, text, ink_of in ((0, "\u25a0", next(colour)), (2 * KEY_DIGIT, item, "black")):
                figure.text((left + shift) / chart.width, top / height, text, va="baseline", fontsize=KEY_LETTERS,
                            color=ink_of, parse_math=False)


def draw_scales(axis: Axis, chart: Chart) -> None:
    """Draw the axes: time from left to right, machines downwards, and at the right their shares of idle time."""
    count, shares = len(chart.machines), chart.shares()
    step = next(step for step in (1, 2, 5) if step * chart.row_height > 0.18)
    shown = range(step, count + 1, step)
    axis.set_xlim(0, max(1, chart.makespan))
    axis.set_ylim(count + 0.5, 0.5)
    axis.set_yticks(shown, [chart.names[machine - 1] for machine in shown])
    for label in axis.get_yticklabels():  # not as formulas, even if they look like some
        label.set_parse_math(False)
    axis.set_xlabel(chart.scale or f"{chart.say('time')} ({chart.shown_unit})", parse_math=False)
    axis.set_ylabel(chart.say("machine"))
    if chart.marks:
        axis.set_xticks([time for time, _ in chart.marks], [text for _, text in chart.marks])
    else:
        axis.xaxis.set_major_formatter(lambda value, _: chart.formatted(value))
        axis.xaxis.get_major_locator().set_params(integer=True, **({} if chart.width > NARROW else {"nbins": 5}))
    axis.spines[["top", "right", "left"]].set_visible(False)
    axis.tick_params(axis="y", length=0)
    right = axis.secondary_yaxis("right")
    right.set_yticks(shown, [shares[machine - 1] for machine in shown])
    right.tick_params(length=0)
    right.spines["right"].set_visible(False)
    box = {"facecolor": IDLE, "pad": 1.5, "linewidth": 0}
    axis.text(1.005, 1, chart.say("idle"), transform=axis.transAxes, va="bottom", bbox=box)


def picture_of(figure: Figure, extension: str, dpi: float) -> bytes:
    """Return a figure as SVG, PNG or PDF. It has no date, so that equal pictures have equal bytes."""
    dates = {"svg": {"Date": None}, "pdf": {"CreationDate": None}}
    picture = io.BytesIO()
    figure.savefig(picture, format=extension, dpi=dpi, metadata=dates.get(extension))
    return picture.getvalue()
