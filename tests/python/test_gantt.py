"""pfs-gantt draws each operation that takes time at its time, on its machine's row and in its job's colour, with the
job's number if that fits. The tests look at the figure that matplotlib saves. An invalid time table is rejected, and no
file is left."""
import itertools
import math
import os
import pathlib
import random
import re
import struct
import sys
from collections.abc import Callable
from typing import Any, NamedTuple
from unittest import mock

import numpy
import pytest
from hypothesis import given
from hypothesis import strategies as st
from pfs.schedules import drawing as _drawing
from pfs.commands import gantt as _gantt
from pfs.experiments import __main__ as experiments
from support import second_program
from support.colours import contrast, hexadecimal, least_difference, seen, turn
from support.large import run_limited
from support.lines import TIME_TABLE
from support.needs import tool
from support.program import Program
from support.second_program import instance_of
from support.tools import TOP, Done, run_main, run_tool

PAGE, MANUAL = (TOP / "docs" / "COOKBOOK.md").read_text(), (TOP / "python" / "pfs-gantt.1").read_text()
THREE = TIME_TABLE.decode()
IDLE = "#d9d9d9"
# The sizes of the letters on bars, and how wide a digit is in these sizes.
LETTERS, SMALL, DIGIT = 8, 7, 0.636

BAD = {
    "another line after it": THREE + "makespan 10\n",
    "carriage returns": THREE.replace("\n", "\r\n"),
    "two blanks": THREE.replace(" 9 10", "  9 10"),
    "no number of machines": THREE.replace("table 3 2", "table 3"),
    "a job more in the first line": THREE.replace("table 3 2", "table 4 2"),
    "a machine less in the first line": THREE.replace("table 3 2", "table 3 1"),
    "no jobs": "table 0 2\nmakespan 0\n",
    "a job twice": THREE.replace("\n3 5", "\n2 5"),
    "a start before the machine is free": THREE.replace("1 2 5 7 9", "1 1 5 7 9"),
    "a start that waits for nothing": THREE.replace("1 2 5 7 9", "1 3 5 7 9"),
    "an end before its start": THREE.replace("1 2 5 7 9", "1 2 5 7 6"),
    "a digit of another script": THREE.replace("1 2 5 7 9", "1 2 5 7 \u0669"),
    "another makespan": THREE.replace("makespan 10", "makespan 11"),
    **{f"its first {end} bytes": THREE[:end] for end in range(len(THREE))},
}
BAD_WORDS = {
    "a picture without an ending": ["table", "picture"],
    "a bound above the makespan": ["--bound", "11", "table", "picture.svg"],
    "a bound that isn't a number": ["--bound", "x", "table", "picture.svg"],
    "a width that isn't a number": ["--width", "nan", "table", "picture.svg"],
    "a width of 1.99 inches": ["--width", "1.99", "table", "picture.svg"],
    "a width of 50.1 inches": ["--width", "50.1", "table", "picture.svg"],
    "19 dots": ["--dpi", "19", "table", "picture.svg"],
    "more pixels than memory has room for": ["--width", "50", "--dpi", "2400", "table", "picture.svg"],
    "a unit with a line end": ["--unit", "a\nb", "table", "picture.svg"],
    "an option with such bytes": ["--x\x1b[2J", "table", "picture.svg"],
    "a name that is not UTF-8": ["table", os.fsdecode(b"ch\xe4rt.gif")],
}
# What the system rejects.
REFUSED = {
    "a folder's name": ["table", "folder.svg"],
    "a folder that is missing": ["table", "nowhere/picture.svg"],
    "a table that is missing": ["missing", "picture.svg"],
    "a table whose name has control characters": ["missing\x1b[2J", "picture.svg"],
}


def gantt(folder: pathlib.Path, *words: str, text: str = THREE) -> Done:
    """Runs pfs-gantt in this process and in a folder whose file `table` has this text."""
    (folder / "table").write_text(text)
    with pytest.importorskip("matplotlib").rc_context():
        return run_main(_gantt.main, ["pfs-gantt", *words], folder)


class Bar(NamedTuple):
    """A bar from one time to another, the middle and the height of its row, and its colour."""
    start: float
    end: float
    row: float
    height: float
    fill: str


class Picture:
    """A figure, with what is drawn on its axes by the names of the groups."""

    def __init__(self, figure: Any) -> None:
        figure.draw_without_rendering()
        self.figure, self.axis = figure, figure.axes[0]
        self.groups = {each.get_gid(): each for each in (*self.axis.collections, *self.axis.lines) if each.get_gid()}
        self.title = self.axis.get_title().replace("\n", " ")
        # The texts on bars.
        self.labels = [text for text in self.axis.texts if text.get_text() != "idle"]

    def bars(self, name: str) -> list[Bar]:
        """The bars of a group, in the order in which they were drawn."""
        group = self.groups.get(name)
        boxes = [path.get_extents() for path in group.get_paths()] if group else []
        fills = [hexadecimal(colour[:3]) for colour in group.get_facecolors()] if group else []
        return [Bar(box.x0, box.x1, (box.y0 + box.y1) / 2, box.height, fill)
                for box, fill in zip(boxes, fills or ["none"] * len(boxes), strict=True)]

    def points(self, time: float) -> float:
        """How long a time is in the picture, in points."""
        (left, _), (right, _) = self.axis.transData.transform([(0, 0), (time, 0)])
        return float(right - left) * 72 / float(self.figure.dpi)


def drawn(folder: pathlib.Path, *words: str, text: str = THREE, said: str = "") -> Picture:
    """What is drawn with these words, and a message."""
    with mock.patch.object(_gantt, "picture_of", return_value=b"") as saved:
        assert gantt(folder, *words, "table", "picture.svg", text=text) == Done(0, "", said)
    return Picture(saved.call_args.args[0])


# Schedules

class Case(NamedTuple):
    """What is drawn: an order of the jobs of a shop, counted from 1, with these options."""
    name: str
    shop: second_program.Instance
    order: list[int]
    options: tuple[str, ...] = ("--critical",)

    @property
    def makespan(self) -> int:
        return second_program.makespan(self.shop, [job - 1 for job in self.order])

    def operations(self, machine: int) -> list[tuple[int, int, int]]:
        """Job, start and end of each operation on a machine that takes time."""
        spans = second_program.spans_of(self.shop, [job - 1 for job in self.order])
        return [(job, *row[machine]) for job, row in zip(self.order, spans) if row[machine][0] < row[machine][1]]

    def machines(self) -> range:
        return range(self.shop.machines)

    def drawn(self, folder: pathlib.Path, *words: str, said: str = "") -> Picture:
        """The picture of what pfs prints of it, with more words."""
        text, _ = second_program.tabled(self.shop, self.order, None)
        return drawn(folder, *self.options, *words, text=text.decode(), said=said)


def at_random(number: int) -> Case:
    draws = random.Random(number)
    jobs, machines, most = draws.randint(1, 12), draws.randint(1, 6), draws.choice([1, 3, 99, 1_000_000])
    times = [[draws.randint(0, most) for _ in range(machines)] for _ in range(jobs)]
    return Case(f"random {number}, {jobs} by {machines}", instance_of(times), draws.sample(range(1, jobs + 1), jobs))


def by_taillard(jobs: int, machines: int, seed: int, *options: str) -> Case:
    shop = second_program.generated(jobs, machines, seed)
    return Case(f"{jobs} by {machines} {' '.join(options)}", shop, [*range(jobs, 0, -1)], options)


PAPER = by_taillard(20, 5, 873654221, "--critical", "--bound", "1232", "--width", "3.5", "--unit", "s")
CASES = [
    Case("nothing takes time, 1 by 1", instance_of([[0]]), [1]),
    Case("nothing takes time, 2 by 2", instance_of([[0, 0], [0, 0]]), [1, 2]),
    *map(at_random, range(8)), by_taillard(20, 5, 873654221, "--critical"), PAPER,
    by_taillard(100, 10, 5, "--critical")]


@pytest.fixture(scope="module", params=CASES, ids=[case.name for case in CASES])
def case(request: pytest.FixtureRequest) -> Case:
    made: Case = request.param
    return made


@pytest.fixture(scope="module")
def picture(case: Case, tmp_path_factory: pytest.TempPathFactory) -> Picture:
    return case.drawn(tmp_path_factory.mktemp("picture"))


# Bars

def test_each_operation_has_its_bar_in_its_jobs_colour(case: Case, picture: Picture) -> None:
    """On a grey strip from 0 to the makespan. Time goes to the right, and machines go down."""
    assert picture.axis.get_xlim() == (0, max(1, case.makespan))
    assert picture.axis.get_ylim() == (len(case.machines()) + 0.5, 0.5)
    for machine in case.machines():
        strip, = picture.bars(f"strip-{machine + 1}")
        assert (strip.start, strip.end, strip.fill) == (0, case.makespan, IDLE)
        bars = picture.bars(f"machine-{machine + 1}")
        assert [bar[:2] for bar in bars] == [spent[1:] for spent in case.operations(machine)], f"machine {machine + 1}"
        assert all(bar.row == pytest.approx(machine + 1) and 0.5 < bar.height < 1 for bar in (strip, *bars))
    colours = colours_of(case, picture)
    assert [job for job, each in colours.items() if len(each) != 1] == [], "jobs of several colours"
    assert len(set().union(*colours.values())) >= 0.98 * len(colours), "colours, for so many jobs"
    for machine in case.machines():
        shortest = picture.points(min((end - start for _, start, end in case.operations(machine)), default=0))
        assert all(edge <= shortest / 4 + 1e-6 for edge in picture.groups[f"machine-{machine + 1}"].get_linewidths()), \
            f"edges on machine {machine + 1}, whose shortest bar is {shortest}"


def colours_of(case: Case, picture: Picture) -> dict[int, set[str]]:
    """The colours of each job's bars."""
    found: dict[int, set[str]] = {}
    for machine in case.machines():
        for (job, *_), bar in zip(case.operations(machine), picture.bars(f"machine-{machine + 1}")):
            found.setdefault(job, set()).add(bar.fill)
    return found


# How much the colours of jobs differ, as the page says.
COLOURS = re.search(r"Any two of up to (\d+) jobs have colours that differ by ([\d.]+) or more \(CIEDE2000; of (\d+) "
                    r"jobs by ([\d.]+)\).* Of more jobs, neighbours in the order differ by ([\d.]+) or more",
                    (TOP / "docs" / "DECISIONS.md").read_text())
assert COLOURS, "no sentence on the colours"
FEW, SOME = int(COLOURS[1]), int(COLOURS[3])
LEAST, LEAST_OF_SOME, OF_NEIGHBOURS = float(COLOURS[2]), float(COLOURS[4]), float(COLOURS[5])


def fills_of(jobs: int, folder: pathlib.Path, step: int = 1) -> list[str]:
    """The colours of jobs that take one unit on a machine, in their order."""
    case = Case("", instance_of([[1]] * jobs), [*range(1, jobs + 1)][::step], ())
    return [bar.fill for bar in case.drawn(folder).bars("machine-1")]


@pytest.mark.parametrize(("jobs", "got"), [(SOME, LEAST_OF_SOME), (FEW, LEAST)])
def test_any_two_of_few_jobs_differ_as_much_as_the_page_says(jobs: int, got: float, folder: pathlib.Path) -> None:
    """For all eyes, also from the grey of idle time, rounded to a tenth."""
    fills = [*fills_of(jobs, folder), IDLE]
    assert len(fills) == jobs + 1
    least = min(least_difference(one, other) for at, one in enumerate(fills) for other in fills[:at])
    assert round(least, 1) == got, f"the colours of {jobs} jobs"


@pytest.mark.parametrize("jobs", [FEW + 1, FEW + 2, FEW + 3, 500])
def test_neighbours_of_many_jobs_are_distinguishable(jobs: int, folder: pathlib.Path) -> None:
    """Also if an operation that takes no time is between them; and each of them from idle time."""
    fills = fills_of(jobs, folder, -1)
    assert len(fills) == jobs
    for apart in (1, 2):
        least = min(map(least_difference, fills, fills[apart:]))
        assert least >= OF_NEIGHBOURS, f"colours of jobs that are {apart} apart differ by {least}"
    assert min(least_difference(fill, IDLE) for fill in fills) >= 5


def test_many_jobs_have_each_hue_and_three_lightnesses() -> None:
    fills = _drawing.colours(range(1, 321))
    places = [place for place, fill in enumerate(fills) if 0 < min(fill) and max(fill) < 1]
    assert len(places) > 160
    for place in places:
        lightness, red, yellow = seen(hexadecimal(fills[place]), "all cones")
        assert lightness == pytest.approx((40, 75, 57)[place % 3], abs=0.3)
        assert math.hypot(red, yellow) == pytest.approx(45, abs=0.8)
        assert turn(math.degrees(math.atan2(yellow, red)), place) == pytest.approx(0, abs=0.8)


@given(st.tuples(*[st.integers(0, 255)] * 3))
def test_letters_have_a_contrast(fill: tuple[int, int, int]) -> None:
    red, green, blue = (part / 255 for part in fill)
    ink = {"black": "#000000", "white": "#ffffff"}[_drawing.ink((red, green, blue))]
    assert contrast(ink, hexadecimal((red, green, blue))) > 4.57


@pytest.mark.parametrize("width", ["12", "50"])
def test_the_outline_of_the_path_leaves_an_operation_of_one_unit_to_be_seen(width: str, folder: pathlib.Path) -> None:
    """Half of its line lies on the first and on the last operation that it surrounds, each a unit long here."""
    case = Case("", instance_of([[1, 300], [2, 1]]), [1, 2])
    picture = case.drawn(folder, "--width", width)
    for machine in case.machines():
        line, = picture.groups[f"critical-{machine + 1}"].get_linewidths()
        assert 0.7 < line < max(0.9, 0.55 * picture.points(1)), (machine, line)


def test_numbers_are_in_the_middle_of_bars_and_at_the_scales(case: Case, picture: Picture) -> None:
    """In small letters, if not in others, and in a colour that can be read on the bar's."""
    fills, places = colours_of(case, picture), {text.get_position(): text for text in picture.labels}
    assert len(places) == len(picture.labels)
    for machine in case.machines():
        for job, start, end in case.operations(machine):
            text, wanted = places.pop(((start + end) / 2, machine + 1), None), DIGIT * SMALL * len(str(job))
            if text is None:
                assert picture.points(end - start) <= 1.3 * wanted + 3, f"no number of job {job} on {machine + 1}"
                continue
            assert text.get_text() == str(job) and text.get_size() in (LETTERS, SMALL)
            assert (text.get_ha(), text.get_va()) == ("center", "center")
            assert text.get_window_extent().width * 72 / picture.figure.dpi < picture.points(end - start), text
            ink = {"black": "#000000", "white": "#ffffff"}[text.get_color()]
            assert contrast(ink, *fills[job]) >= 4.5, f"{ink} letters on {fills[job]}"
    assert places == {}, "texts that are on no bar"
    times, machines = ([int(label.get_text().replace("\N{MINUS SIGN}", "-")) for label in labels if label.get_text()]
                       for labels in (picture.axis.get_xticklabels(), picture.axis.get_yticklabels()))
    assert times == list(picture.axis.get_xticks()) and 2 <= len(times) <= 16
    assert machines == list(picture.axis.get_yticks()) and {*machines} <= {machine + 1 for machine in case.machines()}
    busy = [sum(end - start for _, start, end in case.operations(machine - 1)) for machine in machines]
    right, = picture.axis.child_axes
    assert [label.get_text() for label in right.get_yticklabels()] == [
        f"{100 - 100 * each / case.makespan:.0f} %" if case.makespan else "" for each in busy]
    assert list(right.get_yticks()) == machines


# Axes

def test_what_is_drawn_is_named_in_letters_that_can_be_read(folder: pathlib.Path) -> None:
    """The title is above the rows, and names the bound and the path where they are drawn, or it is the one given."""
    plain, whole = drawn(folder), drawn(folder, "--critical", "--bound", "10", "--unit", "min")
    title = "3 jobs on 2 machines: makespan 10"
    assert (plain.title, whole.title) == (title, title + ", bound 10 (dashed), critical path outlined")
    assert [drawn(folder, *words).title for words in (["--no-title"], ["--title", ""], ["--title", "jobs of $48$"])] \
        == ["", "", "jobs of $48$"]
    marks = {"bound", "beside-bound", "critical-1", "critical-2"}
    assert marks & plain.groups.keys() == set() and marks <= whole.groups.keys()
    assert plain.axis.get_xlabel() == "time (units of the instance)"
    assert (whole.axis.get_xlabel(), whole.axis.get_ylabel()) == ("time (min)", "machine")
    box, = (text.get_window_extent() for text in whole.axis.texts if text.get_text() == "idle")
    rows = whole.axis.get_window_extent()
    assert box.x0 > rows.x1 and box.y0 >= rows.y1 - 1, "the label of idle shares stands above them"
    assert whole.axis.title.get_window_extent().y0 > rows.y1
    picture = PAPER.drawn(folder)
    assert picture.figure.get_figwidth() == 3.5
    ticks = [label for axis in (picture.axis, *picture.axis.child_axes) for label in
             (*axis.get_xticklabels(), *axis.get_yticklabels())]
    for text in (*picture.axis.texts, *ticks, picture.axis.title, picture.axis.xaxis.label, picture.axis.yaxis.label):
        box = text.get_window_extent()
        assert text.get_size() >= 7 and box.x0 >= 0 and box.x1 <= picture.figure.bbox.x1, text
    boxes = [label.get_window_extent() for label in picture.axis.get_xticklabels()]
    assert len(boxes) > 2 and all(after.x0 > before.x1 + 2 for before, after in itertools.pairwise(boxes))


def test_the_critical_path_leads_from_0_to_the_makespan_without_idle_time(case: Case, picture: Picture) -> None:
    at = 0.0
    for machine in case.machines():
        for outline in picture.bars(f"critical-{machine + 1}"):
            assert outline[0] == at and outline.row == pytest.approx(machine + 1) and outline.fill == "none"
            at = outline.end
            busy = sum(end - start for _, start, end in case.operations(machine)
                       if outline.start <= start and end <= at)
            assert busy == at - outline.start, f"idle time on the path, machine {machine + 1}"
    assert at == case.makespan, "end of the path"


# Papers

@pytest.mark.parametrize(("words", "text", "size"), [
    ([], THREE, (1320, 235)), (["--width", "2"], THREE, (220, 235)), (["--dpi", "300"], THREE, (3600, 642)),
    (["--dpi", "20"], f"table 1 40\n1{' 0 0' * 40}\nmakespan 0\n", (240, 266)),
], ids=["usual", "narrow", "fine", "many rows"])
def test_a_png_has_the_requested_size(words: list[str], text: str, size: tuple[int, int], folder: pathlib.Path) -> None:
    """Inches times dots per inch; two rows of 0.42 inches and 1.3 inches for the rest. Many rows are 12 inches high."""
    assert gantt(folder, *words, "table", "picture.png", text=text) == Done(0, "", "")
    png = (folder / "picture.png").read_bytes()
    assert struct.unpack(">II", png[16:24]) == pytest.approx(size, abs=1)


def test_the_pages_state_the_defaults_the_exit_statuses_and_an_example() -> None:
    """Its command is that of the other page, which tests/tools/test_pages.py runs, with other names."""
    items = re.findall(r"^\.It Fl -(\w+)[^\n]*\n(.*?)(?=^\.It|^\.El)", MANUAL, re.MULTILINE | re.DOTALL)
    got = {option: value for option, text in items
           for value in re.findall(r"^The default is (.*)\.$", text, re.MULTILINE)}
    given = vars(_gantt.words().parse_args(["picture.svg"]))
    assert got == {option: f"{given[option]:g}" for option in ("width", "dpi")}
    source = MANUAL.partition("\n.Sh EXIT STATUS\n")[2].partition("\n.Sh ")[0]
    assert re.findall(r"^\.It (\d)\n(.*)$", source, re.MULTILINE) == [
        ("0", "The picture is written."), ("2", "The time table is rejected."), ("3", "The command line is rejected."),
        ("4", "A file can't be read or written, or a package is missing.")]
    assert re.findall(r"rejected with one line on standard error and status (\d)", PAGE) == ["2"]
    shown, = re.findall(r"^\$ (pfs table .* \| pfs-gantt .*)$", PAGE, re.MULTILINE)
    assert re.findall(r"^\.Dl \$ (.*)$", MANUAL, re.MULTILINE) \
        == [shown.replace("three best", "instance order").replace("schedule.svg", "chart.svg")]


# Rows that are an image

# 2,000 jobs of one unit on each of two machines, but for one of 600 on the first one, for which the second one waits.
STEPS = Case("", instance_of([[600 if job == 1000 else 1, 1] for job in range(2000)]), [*range(1, 2001)], ())


def test_a_pixel_of_an_image_has_the_mean_of_the_colours_at_its_time(folder: pathlib.Path) -> None:
    """Of idle time it is grey. Each row has white above and below. With more pixels the rows are bars."""
    said = ("pfs-gantt: 4,000 operations are too many or too short to draw one by one: the rows are an image of 100 "
            "dots per inch\n")
    image, = STEPS.drawn(folder, "--dpi", "100", said=said).axis.images
    assert tuple(image.get_extent()) == (0, 2600, 2.5, 0.5)
    pixels, edges = image.get_array().astype(int), numpy.arange(1051)[:, None] * 2600 / 1050
    assert pixels.shape == (20, 1050, 3), "pixels from left to right: 12 inches but for 1.5, at 100 an inch"
    bars = STEPS.drawn(folder, "--dpi", "300")
    assert not bars.axis.images
    for machine in STEPS.machines():
        _, first, last = numpy.array(STEPS.operations(machine)).T
        busy = (numpy.minimum(last, edges[1:]) - numpy.maximum(first, edges[:-1])).clip(0) * 1050 / 2600
        fills = numpy.array([list(bytes.fromhex(bar.fill[1:])) for bar in bars.bars(f"machine-{machine + 1}")])
        due = busy @ fills + 0xd9 * (1 - busy.sum(axis=1, keepdims=True))
        rows = pixels[10 * machine:10 * machine + 10]
        assert abs(rows[1:9] - due).max() < 1.1 and (rows[[0, 9]] == 255).all()


def test_from_this_number_of_operations_on_the_rows_are_an_image() -> None:
    stated, = re.findall(r"^- Of more than ([\d,]+) operations", PAGE, re.MULTILINE)
    most = int(stated.replace(",", ""))
    for count in (most, most + 1):
        spans = numpy.zeros((1, count), dtype=int)
        chart = _drawing.Chart([1], spans, spans, ["a"], ["b"] * count)
        assert chart.is_image == (count > most), f"{count:,} operations"


@pytest.mark.seconds(10)
def test_the_greatest_table_is_drawn_soon_and_small(scripts: pathlib.Path, matplotlib: None, pfs: Program,
                                                    folder: pathlib.Path) -> None:
    """5,000 by 200, within 20 seconds, 300 MB of memory and 20 MB of file."""
    (folder / "shop").write_bytes(pfs.run("generate 5000 200 7", folder).stdout)
    (folder / "order").write_bytes(second_program.order_text(range(5000), 200, 0))
    (folder / "table").write_bytes(pfs.run("table --layout taillard shop order", folder).stdout)
    words, picture = ["--critical", "table", "picture.pdf"], folder / "picture.pdf"
    ran = run_limited(Program(scripts / "pfs-gantt"), words, folder, 4_000_000_000)
    assert ran.ran.status == 0 and picture.read_bytes().startswith(b"%PDF-")
    assert (ran.seconds < 20, ran.resident < 300e6, picture.stat().st_size < 20e6) == (True,) * 3, ran


# Files

def test_a_full_disk_keeps_the_old_picture(scripts: pathlib.Path, folder: pathlib.Path, matplotlib: None) -> None:
    (folder / "table").write_text(THREE)
    (folder / "picture.svg").write_text("the old one")
    got = run_tool([tool("prlimit"), "--fsize=1000", scripts / "pfs-gantt", "table", "picture.svg"], folder,
                   env=os.environ | {"COV_CORE_DATAFILE": ""})  # which writes a file too
    assert got == Done(4, "", "pfs-gantt: picture.svg: File too large\n")
    assert (folder / "picture.svg").read_text() == "the old one", "the picture was written in place"
    assert sorted(os.listdir(folder)) == ["picture.svg", "table"]


@pytest.mark.parametrize(("main", "line", "what", "module"), [
    *((_gantt.main, "pfs-gantt table", "pfs-gantt: a picture", module) for module in ("numpy", "matplotlib")),
    *((experiments.main, "pfs-experiments report runs", "pfs-experiments report: a report", module)
      for module in ("matplotlib", "pandas", "scipy"))])
def test_a_missing_module_is_named_with_its_package(main: Callable[[], int], line: str, what: str, module: str,
                                                    folder: pathlib.Path, monkeypatch: pytest.MonkeyPatch) -> None:
    """Before anything is read or written, here or by the report of an experiment."""
    modules: dict[str, Any] = sys.modules
    monkeypatch.setitem(modules, module, None)
    monkeypatch.setattr("signal.signal", mock.Mock())
    got = run_main(main, [*line.split(), "made.svg"], folder)
    assert got == Done(4, "", f"{what} needs {module} (Debian: python3-{module}; pip install 'pfs[charts]')\n")
    assert os.listdir(folder) == []


@pytest.mark.parametrize(("text", "said"), [
    *((THREE.replace("3 2", size, 1), "a time table has at most 5,000 jobs and 200 machines")
      for size in ("5001 1", "1 201", "5001 201", "20 1000", "100000 1")),
    ("", "not a time table: the first line must be `table N M`"),
    (THREE.replace("\n3 5", "\n2 5"), "each of the jobs 1 to 3 must have one line"),
    (THREE[:-1], "the time table is incomplete: its last line has no line end")])
def test_sizes_over_the_limits_and_other_texts_are_rejected_at_once(folder: pathlib.Path, text: str, said: str) -> None:
    assert gantt(folder, "table", "picture.svg", text=text) == Done(2, "", f"pfs-gantt: {said}\n")


@pytest.mark.parametrize(("bound", "said"), [
    *((bound, f"the bound {bound} exceeds the makespan 10") for bound in ("11", "9" * 18)),
    (f"1{'0' * 18}", f"argument --bound: '1{'0' * 18}' is not a whole number from 0 to {'999,' * 5}999 "
                     "(pfs-gantt --help lists what there is)")])
def test_bounds_that_are_too_large(folder: pathlib.Path, bound: str, said: str) -> None:
    assert gantt(folder, "--bound", bound, "table", "picture.svg") == Done(3, "", f"pfs-gantt: {said}\n")


@pytest.mark.parametrize(("status", "words", "text"), [
    *((2, ["table", "picture.svg"], text) for text in BAD.values()),
    *((3, words, THREE) for words in BAD_WORDS.values()), *((4, words, THREE) for words in REFUSED.values())],
    ids=[*BAD, *BAD_WORDS, *REFUSED])
def test_what_is_rejected_leaves_the_old_picture(status: int, words: list[str], text: str,
                                                 folder: pathlib.Path) -> None:
    """With nothing but one line on standard error."""
    (folder / "picture.svg").write_text("old")
    (folder / "folder.svg").mkdir()
    got = gantt(folder, *words, text=text)
    assert (got.status, got.stdout) == (status, "") and re.fullmatch("pfs-gantt: [^\n]+\n", got.stderr), got
    assert got.stderr[:-1].isprintable(), f"a terminal interprets a part of this as a command: {got.stderr!r}"
    assert sorted(os.listdir(folder)) == ["folder.svg", "picture.svg", "table"]
    assert (folder / "picture.svg").read_text() == "old"
