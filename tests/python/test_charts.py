"""Pictures of schedules, and what they have in common with pages. Bars are drawn as by pfs-gantt, which
test_gantt.py tests."""
import contextlib
import locale
import logging
import os
import pathlib
import sys
import warnings
from typing import Any
from xml.etree import ElementTree

import numpy as np
import pfs
import pytest
from pfs.schedules import chart as _chart, drawing as _drawing
from test_chart_pages import LENGTHS, MACHINES, NAMES, ORDER, TIMES, plan

matplotlib = pytest.importorskip("matplotlib")

BEGINNINGS = {"svg": b"<?xml", "png": b"\x89PNG\r\n", "pdf": b"%PDF-", "html": b"<!DOCTYPE html>"}


def named() -> pfs.Schedule:
    """Names that a page or a formula would take for something else, and times with a decimal."""
    shop = pfs.Instance(TIMES, name="plan", job_names=["table $x$", "</script><b>", "box & \"lid\""], decimals=1,
                        unit="h", machine_names=["saw", "drill $y$", "<paint>"])
    return shop.schedule([1, 0, 2])


def a_schedule() -> pfs.Schedule:
    return pfs.Instance([[3, 2], [2, 5], [4, 1]]).schedule([1, 0, 2])


@pytest.mark.parametrize("ending", BEGINNINGS)
def test_each_ending(tmp_path: pathlib.Path, ending: str) -> None:
    first, again = tmp_path / f"chart.{ending.upper()}", tmp_path / f"again.{ending}"
    figure = named().plot(first, critical=True, bound=True)
    assert first.read_bytes().startswith(BEGINNINGS[ending]) and (figure is None) == (ending == "html")
    named().plot(str(again), critical=True, bound=True)
    assert hash(again.read_bytes()) == hash(first.read_bytes()), "a chart that is drawn again has other bytes"
    assert ending != "pdf" or (b"/FontFile2" in first.read_bytes() and b"/Type3" not in first.read_bytes()), "fonts"


def test_the_picture_has_the_names() -> None:
    axis = named().plot(critical=True, bound=True).axes[0]
    assert [label.get_text() for label in axis.get_yticklabels()] == ["saw", "drill $y$", "<paint>"]
    assert {"table $x$", "</script><b>", 'box & "lid"'} <= {text.get_text() for text in axis.texts}
    lengths = f"makespan {named().makespan / 10}, bound {named().instance.bound() / 10} (dashed)"
    assert axis.get_title() == f"3 jobs on 3 machines: {lengths}, critical path outlined"
    assert axis.get_xlabel() == "time (h)" and axis.xaxis.get_major_formatter()(25) == "2.5"
    assert named().plot(unit="days").axes[0].get_xlabel() == "time (days)"


@pytest.mark.parametrize("path", ["chart.svg", "chart.png", "chart.pdf", "chart.html", "none/chart.svg"])
def test_settings_stay_as_they_are(tmp_path: pathlib.Path, path: str, caplog: pytest.LogCaptureFixture) -> None:
    """Also if the chart can't be written. No earlier chart has left these."""
    def settings() -> list[Any]:
        return [matplotlib.rcParams.copy(), logging.getLogger("matplotlib").level, logging.getLogger().level,
                {**os.environ}, [*sys.path], [*warnings.filters], locale.setlocale(locale.LC_ALL), os.getcwd()]

    caplog.set_level(logging.INFO, "matplotlib")
    with matplotlib.rc_context({"svg.fonttype": "path", "svg.hashsalt": "x", "pdf.fonttype": 3, "font.size": 7}):
        before = settings()
        with contextlib.suppress(OSError):
            a_schedule().plot(tmp_path / path, critical=True, bound=True)
        assert settings() == before and (tmp_path / path).exists() == (path[:4] != "none")


# Names that are shown by escapes: what moves a cursor, ends a line, turns its direction, or isn't a character of XML.
ESCAPED = {"saw\x1b[2J\x07": "saw\\x1b[2J\\x07", "two\nlines": "two\\nlines", "car\rriage": "car\\rriage",
           "a\u2028b\u2029c": "a\\u2028b\\u2029c", "\u202eright to left": "\\u202eright to left", "\x9b5m": "\\x9b5m",
           "p\udce4rt": "p\\udce4rt", "\ufffe": "\\ufffe", "nul\0": "nul\\x00"}


def test_names_with_control_characters(tmp_path: pathlib.Path) -> None:
    """Whoever looks at a picture sees them; it is XML."""
    names = [*ESCAPED, "Z\xfcrich"]
    shop = pfs.Instance([[90] * len(names)], job_names=["\udce4"], machine_names=names, unit="\x1b[1mh")
    shop.schedule([0]).plot(tmp_path / "chart.svg", title="\x1b")
    texts = {text.text for text in ElementTree.parse(tmp_path / "chart.svg").iter("{http://www.w3.org/2000/svg}text")}
    assert {*ESCAPED.values(), "Z\xfcrich", "\\udce4", "time (\\x1b[1mh)", "\\x1b"} <= texts


# The frame of a picture

def test_width_dpi_title_and_axes_of_ones_own(tmp_path: pathlib.Path) -> None:
    figure = a_schedule().plot(tmp_path / "chart.png", width=4, dpi=50)
    assert int.from_bytes((tmp_path / "chart.png").read_bytes()[16:20], "big") == 200
    assert figure.get_size_inches()[0] == 4
    titles: dict[Any, str] = {False: "", "my $x$ title": "my $x$ title", "": "",
                              True: "3 jobs on 2 machines: makespan 10"}
    for title, due in titles.items():
        assert a_schedule().plot(title=title).axes[0].get_title() == due
    figure = matplotlib.figure.Figure(figsize=(8, 3))
    axes = figure.subplots(1, 2)
    assert a_schedule().plot(ax=axes[1], title="right") is figure
    assert (axes[0].get_title(), axes[1].get_title()) == ("", "right")
    assert not axes[0].collections and len(axes[1].collections) == 4, "two strips and two rows"
    assert figure.get_size_inches().tolist() == [8, 3]
    with pytest.raises(ValueError, match="ax is for pictures: a page has no axes"):
        a_schedule().plot("chart.html", ax=axes[0])


def test_the_lines_of_a_picture() -> None:
    """How wide they are, in points, and which of them cover others. No text is a formula."""
    calendar = pfs.Calendar("2026-11-30T06:00", "06:00-10:00,11:00-16:00")
    shop = pfs.Instance([[600, 60], [60, 600]], unit="min", job_names=["$a$ of oak", "b"], machine_names=["$x$", "y"])
    figure = shop.schedule([0, 1]).plot(critical=True, bound=True, calendar=calendar, title="$t$")
    (axis,), key = figure.axes, figure.texts
    due: dict[str, tuple[Any, ...]] = {
        **{f"strip-{at}": (1, True, 0, True) for at in (1, 2)},
        **{f"machine-{at}": (1, True, 1, 0.5, True) for at in (1, 2)},
        **{f"critical-{at}": (3, False, 0, 2, True) for at in (1, 2)},
        "days": (2.5, True, 0, 0.9, True), "shifts": (2.5, True, 0, 0.6, False)}
    assert {each.get_gid(): (each.get_zorder(), each.get_clip_on(), *each.get_edgecolor()[:, 0], *each.get_linewidth(),
                             each.get_linestyle()[0][1] is None) for each in axis.collections} == due
    texts = [*axis.texts[:-1], axis.title, axis.xaxis.label, *axis.get_yticklabels(), *key]
    assert len(key) == 4 and not any(text.get_parse_math() for text in texts) and axis.title._linespacing == 1.3
    assert {(text.get_zorder(), text.get_clip_on()) for text in axis.texts[:-1]} == {(4, True)}
    assert [text.get_size() for text in (axis.xaxis.label, axis.yaxis.label, axis.texts[-1])] == [9, 9, 9]
    lines = {each.get_gid(): (each.get_zorder(), each.get_clip_on(), each.get_color(), each.get_linewidth(),
                              each.is_dashed(), [*each.get_xdata()], [*each.get_ydata()]) for each in axis.lines}
    assert lines == {"beside-bound": (3.5, False, "white", 2.4, False, [720, 720], [0, 1]),
                     "bound": (3.6, False, "black", 1.2, True, [720, 720], [0, 1])}, "through all rows, over the path"
    axes = axis, *axis.child_axes
    assert [name for each in axes for name, spine in each.spines.items() if spine.get_visible()] == ["bottom"]
    assert [each.yaxis.get_major_ticks()[0].tick1line.get_markersize() for each in axes] == [0, 0]


@pytest.mark.parametrize(("key", "length", "label"), [
    (True, 82, ("", 7)), (True, 83, ("1", 7)), (True, 465, ("1", 7)), (True, 466, ("1 abcd\u2026", 7)),
    (True, 763, ("1 abcdefgh\u2026", 7)), (True, 764, ("abcdefghij", 8)), (False, 642, ("", 7)),
    (False, 643, ("abcdefghij", 7))])
def test_what_fits_a_bar(key: bool, length: int, label: tuple[str, int]) -> None:
    """Letters of 8 points are 0.66 of this wide, those of 7 points 0.64. An inch has 72 points, and is 1,000 units."""
    chart = _drawing.Chart([1], np.array([[0]]), np.array([[10_500]]), ["abcdefghij"], ["saw"], key=key)
    assert chart.label_of(0, length) == label


@pytest.mark.parametrize(("width", "jobs", "name", "item", "rows", "columns"), [
    (12, 12, "x" * 24, f"12 {'x' * 24}", 2, 6), (12, 12, "x" * 25, f"12 {'x' * 25}", 3, 4),
    (2, 2, "x" * 40, f"2 {'x' * 18}\u2026", 2, 1)])
def test_what_fits_a_key(width: int, jobs: int, name: str, item: str, rows: int, columns: int) -> None:
    ends = np.arange(1, jobs + 1)[:, None]
    chart = _drawing.Chart([*range(1, jobs + 1)], ends - 1, ends, [name] * jobs, ["y" * 15], width, key=True)
    assert [len(column) for column in chart.key_columns] == [rows] * columns and chart.key_columns[-1][-1] == item
    assert (chart.key_height, chart.beside) == pytest.approx((0.2 + 0.14 * rows, 1.85 if width == 12 else 1.5))


def test_marks_of_hours_and_minutes() -> None:
    cases = [(2, 90, 120), (100, 90, 2), (12, 9, 1), (12, 10, 2), (12, 18, 2), (12, 19, 5), (12, 45, 5), (12, 46, 10),
             (12, 90, 10), (12, 91, 15), (12, 135, 15), (12, 136, 30), (12, 270, 30), (12, 271, 60), (12, 541, 120)]
    for width, makespan, step in cases:
        axis, = pfs.Instance([[makespan]], unit="h:mm").schedule([0]).plot(width=width, title=False, dpi=20).axes
        assert [mark.get_text() for mark in axis.get_xticklabels()] == [
            f"{at // 60}:{at % 60:02}" for at in range(0, makespan + 1, step)] and step in _chart.MINUTES, makespan


def test_a_page_lists_so_many_operations() -> None:
    for count, machines in ((100_000, 200), (100_001, 11)):
        spans = np.zeros((count // machines, machines), dtype=np.int64)
        chart = _drawing.Chart([*range(1, len(spans) + 1)], spans, spans, ["a"] * len(spans), ["b"] * machines)
        assert bool(_chart.lists_of(chart, None)) == (count == 100_000)


def test_jupyter_shows_the_chart(monkeypatch: pytest.MonkeyPatch) -> None:
    text = a_schedule()._repr_svg_()
    assert text is not None and "<svg" in text and "critical" in text and "bound" in text
    assert "S\u00e4ge" in str(pfs.Instance([[1]], machine_names=["S\u00e4ge"]).schedule([0])._repr_svg_())
    assert pfs.generate(100, 20, 1).schedule(range(100))._repr_svg_(), "the largest picture"
    assert pfs.generate(2001, 1, 1).schedule(range(2001))._repr_svg_() is None, "a very large picture"
    modules: dict[str, Any] = sys.modules
    monkeypatch.setitem(modules, "matplotlib", None)
    assert a_schedule()._repr_svg_() is None


@pytest.mark.parametrize(("words", "kind", "why"), [
    *(({"width": width}, ValueError, f"width must be from 2 to 100 inches, not {width}")
      for width in (1, 100.1, float("nan"))),
    *(({"width": width}, TypeError, f"width must be a number of inches, not {width!r}") for width in ("4", True)),
    *(({"dpi": dpi}, ValueError, f"dpi must be from 20 to 2,400, not {dpi}") for dpi in (19, 2401)),
    ({"title": 3}, TypeError, "title must be True, False or a text, not 3"),
    ({"ax": 3}, TypeError, "ax must be matplotlib axes, not 3")])
def test_frames_of_pictures_that_are_rejected(tmp_path: pathlib.Path, words: dict[str, Any], kind: type[Exception],
                                              why: str) -> None:
    for name in ("chart.svg", "chart.html"):
        with pytest.raises(kind, match=why):
            a_schedule().plot(tmp_path / name, **words)
        assert not (tmp_path / name).exists()


# The key of bars that are too short for a name

def texts_of(made: pfs.Schedule, **more: Any) -> tuple[dict[int, list[str]], list[str], Any]:
    """The texts on bars by place, each inside of its bar, those of the key, and the figure."""
    figure = made.plot(**more)
    figure.draw_without_rendering()
    texts = [text.get_text() for text in figure.texts]
    key = [text for text in texts if text != "\u25a0"]
    assert len(texts) == 2 * len(key), "a square for each job"
    axis, bars = figure.axes[0], dict[int, list[str]]()
    spans = {((start + end) / 2, machine + 1): (place, start, end) for machine in range(made.instance.machines)
             for place, (start, end) in enumerate(zip(made.starts[:, machine].tolist(), made.ends[:, machine].tolist()))
             if start < end}
    for text in axis.texts:
        if text.get_text() != "idle":
            place, *span = spans[text.get_position()]
            (left, _), (right, _) = axis.transData.transform([(at, 0) for at in span])
            assert left <= text.get_window_extent().x0 and text.get_window_extent().x1 <= right, text
            bars.setdefault(place, []).append(text.get_text())
    return bars, key, figure


@pytest.mark.parametrize(("names", "sign"), [(NAMES, ""), (["4711", *NAMES[1:]], "#")])
def test_bars_of_pictures_have_names_or_places_of_a_key(names: list[str], sign: str) -> None:
    bars, key, figure = texts_of(plan(names))
    assert key == [f"{sign}{place} {names[job]}" for place, job in enumerate(ORDER, 1)]
    assert bars[0] == [names[0]] * 3
    for place in (1, 2, 3, 4):
        assert {*bars[place]} - {names[ORDER[place]]} == {f"{sign}{place + 1}"}, f"names or the place {place + 1}"
    fills, = [each.get_facecolor()[:, :3] for each in figure.axes[0].collections if each.get_gid() == "machine-1"]
    assert [text.get_color() for text in figure.texts[::2]] == [tuple(fill) for fill in fills], "squares of the key"
    # The key is inside the picture, below the title of the scale.
    boxes = [text.get_window_extent() for text in figure.texts]
    scale = figure.axes[0].xaxis.label.get_window_extent()
    assert all(0 <= box.y0 and box.y1 < scale.y0 and 0 <= box.x0 and box.x1 <= figure.bbox.width for box in boxes)


def test_a_key_has_columns_and_lines_that_can_be_read() -> None:
    """A name is beside its square, columns are spread over the width, and lines don't touch."""
    made = pfs.Instance([[1, 9]] * 30, job_names=[f"number {at} of a lot" for at in range(30)]).schedule(range(30))
    figure = texts_of(made, width=5)[2]
    boxes, inch = [text.get_window_extent() for text in figure.texts], figure.dpi
    assert all(0 < name.x0 - square.x1 < 0.06 * inch for square, name in zip(boxes[::2], boxes[1::2]))
    lefts = sorted({square.x0 for square in boxes[::2]})
    assert lefts == pytest.approx([(0.2 + at * 4.6 / len(lefts)) * inch for at in range(len(lefts))])
    rows = -(-30 // len(lefts))
    assert 1 < rows < 30 and [square.x0 for square in boxes[::2]] == [lefts[at // rows] for at in range(30)]
    gaps = [upper.y0 - lower.y1 for upper, lower in zip(boxes[1:2 * rows:2], boxes[3:2 * rows:2])]
    assert 0 <= min(gaps) <= max(gaps) < boxes[1].height and boxes[2 * rows - 1].y0 < 0.3 * inch


def test_pictures_without_a_key_and_with_names_that_are_cut_in_it() -> None:
    """Where all names fit, there are none, the rows are low, or the axes are the caller's."""
    for made in (plan([*"abcde"], [[100, 100, 100]] * 5), plan(None)):
        assert texts_of(made)[1] == []
    many = pfs.Instance([[10 + at % 3] * 100 for at in range(5)], job_names=NAMES).schedule(ORDER)
    assert texts_of(many)[:2] == ({}, [])
    bars, key, _ = texts_of(plan(), ax=matplotlib.figure.Figure(figsize=(12, 3)).subplots())
    assert key == [] and {name for each in bars.values() for name in each} <= {*NAMES}, "no place without a key"
    names = ["x" * 300, *NAMES[1:]]
    made = pfs.Instance(LENGTHS, job_names=names, machine_names=[*MACHINES[:2], "oven " * 30]).schedule(ORDER)
    _, key, figure = texts_of(made, width=4)
    assert [label.get_text() for label in figure.axes[0].get_yticklabels()] == ["saw", "drill", "oven oven ove\u2026"]
    assert key[0].startswith("1 xxx") and key[0].endswith("x\u2026") and len(key[0]) < 100
    assert [line.split(" ", 1)[1] for line in key[1:]] == [names[job] for job in ORDER[1:]]
    assert max(text.get_window_extent().x1 for text in figure.texts) <= figure.bbox.width
