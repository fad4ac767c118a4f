"""Charts of schedules: pictures and HTML pages."""
from __future__ import annotations

import base64
import hashlib
import html
import importlib.resources
import json
import logging
import os
import re
from typing import TYPE_CHECKING, Any

from pfs.base.atomic import atomic_write
from pfs.base.languages import Say, words_of
from pfs.base.names import shown
from pfs.base.optional import optional
from pfs.base.units import CLOCK
from pfs.binding.validate import BOOLS, checked_int
from pfs.schedules.calendar import Calendar, Clock, day_of, text_of
from pfs.schedules.drawing import DPI, IDLE, UNIT, WIDTH, Chart, draw, ink, picture_of

if TYPE_CHECKING:
    from pfs.schedules.schedule import Schedule

ENDINGS = ("svg", "png", "pdf", "html")
# The greatest numbers of operations that Jupyter shows, and that a page lists as text.
MOST_SHOWN, MOST_LISTED = 2_000, 100_000
# What the script of a page says.
PAGE_WORDS = ("job", "machine", "start", "end", "place", "time", "idle", "Job", "a page a day", "1 job found",
              "jobs found", "the first 20 are listed below", "Sun", "Mon", "Tue", "Wed", "Thu", "Fri", "Sat")
# Minutes between the marks of a scale of hours and minutes, up to more than any makespan.
MINUTES = [1, 2, 5, 10, 15, 30, *(60 * 2**at for at in range(40))]


def check_frame(width: float, title: bool | str, ax: Any) -> None:
    """Validate the width in inches, the title, and axes to draw on."""
    if isinstance(width, bool) or not isinstance(width, (int, float)):
        raise TypeError(f"width must be a number of inches, not {width!r}")
    if not 2 <= width <= 100:
        raise ValueError(f"width must be from 2 to 100 inches, not {width}")
    if not isinstance(title, (bool, str)):
        raise TypeError(f"title must be True, False or a text, not {title!r}")
    if ax is not None and not hasattr(ax, "broken_barh"):
        raise TypeError(f"ax must be matplotlib axes, not {ax!r}")


def svg_of(schedule: Schedule) -> str | None:
    """Return the picture for Jupyter."""
    if schedule.starts.size > MOST_SHOWN:
        return None
    try:
        figure = plot(schedule, critical=True, bound=True)
    except ImportError:
        return None
    return picture_of(figure, "svg", DPI).decode()


def plot(schedule: Schedule, path: str | os.PathLike[str] | None = None, *, critical: bool,
         bound: bool | int, unit: str | None = None, width: float = WIDTH, dpi: int = DPI, title: bool | str = True,
         ax: Any = None, calendar: Calendar | None = None, language: str | os.PathLike[str] = "en") -> Any:
    """The figure, or, where the path is that of a page, none."""
    shop = schedule.instance
    say = words_of(language)
    if type(bound) in BOOLS:
        line = shop.bound() if bound else None
    else:
        line = checked_int(bound, "bound", 0, 2**64 - 1)
    clock = None if calendar is None else Clock(calendar, shop, say)
    ending = None if path is None else ending_of(path)
    check_frame(width, title, ax)
    if ending == "html" and ax is not None:
        raise ValueError("ax is for pictures: a page has no axes")
    chart = Chart(
        [job + 1 for job in schedule.order.tolist()], schedule.starts, schedule.ends,
        [shown(shop.job_name(job)) for job in schedule.order.tolist()],
        [shown(shop.machine_name(machine)) for machine in range(shop.machines)],
        width, checked_int(dpi, "dpi", 20, 2_400), shown(title) if isinstance(title, str) else title, critical,
        line, shown(unit or shop.unit or UNIT), shop.decimals,
        key=shop.job_names is not None and ax is None, say=say)
    most = max(1, int(chart.plot_width / 1.1))
    if clock is not None:
        end, digits = clock.span(0, chart.makespan)[1], clock.digits(schedule.starts, schedule.ends)
        chart.scale = say("date and time" if clock.calendar.is_always else "date and time, in shifts only")
        chart.marks, chart.breaks = clock.marks(chart.makespan, most), clock.breaks(chart.makespan)
        chart.end = f"{day_of(end, say)} {text_of(end, digits).partition(' ')[2]}"
    elif chart.unit == CLOCK:
        step = next(step for step in MINUTES if step * most >= chart.makespan)
        chart.marks = [(time, chart.formatted(time)) for time in range(0, chart.makespan + 1, step)]
    if ending != "html":
        return drawn(chart, path, ending, ax)
    assert path is not None
    atomic_write(path, page_of(chart, schedule, clock).encode())
    return None


def ending_of(path: str | os.PathLike[str]) -> str:
    """Return the ending of a chart's name."""
    ending = os.path.splitext(os.fspath(path))[1][1:].lower()
    if ending not in ENDINGS:
        raise ValueError(f"{os.fspath(path)}: the name of a chart ends with .svg, .png, .pdf or .html")
    return ending


def drawn(chart: Chart, path: str | os.PathLike[str] | None, ending: str | None, ax: Any) -> Any:
    """Draw the figure, and save it if there is a path. The settings of matplotlib don't change."""
    matplotlib = optional("matplotlib", "plot")
    logger = logging.getLogger("matplotlib")
    level = logger.level
    try:
        with matplotlib.rc_context():
            figure = draw(chart, ax)
            if path is not None:
                atomic_write(path, picture_of(figure, str(ending), chart.dpi))
            return figure
    finally:
        logger.setLevel(level)


def lists_of(chart: Chart, clock: Clock | None) -> str:
    """A list of each machine as HTML: the jobs that it has work for, and below each day when they start and end."""
    if chart.starts.size > MOST_LISTED:
        return ""
    digits, say = 0 if clock is None else clock.digits(chart.starts, chart.ends), chart.say
    heads = [html.escape(say(head)) for head in ("place", "job", "start", "end")]

    def times_of(start: int, end: int) -> tuple[str, str, str]:
        if clock is None:
            return "", chart.formatted(start), chart.formatted(end)
        first, last = clock.span(start, end)
        begun, done = (text_of(moment, digits).partition(" ")[2] for moment in (first, last))
        days = [day_of(moment, say) for moment in (first, last)]
        return days[0], begun, done if days[0] == days[1] else f"{days[1]} {done}"

    lines: list[str] = []
    for name, starts, ends in zip(chart.machines, chart.starts.T.tolist(), chart.ends.T.tolist()):
        lines.append(f"\n<table><caption>{html.escape(say('Machine'))} {html.escape(name)}</caption><thead><tr>"
                     f"<th scope=col class=number>{heads[0]}<th scope=col>{heads[1]}"
                     f"<th scope=col class=number>{heads[2]}<th scope=col class=number>{heads[3]}</thead><tbody>")
        before = ""
        for place, (job, start, end) in enumerate(zip(chart.jobs, starts, ends), 1):
            if start < end:
                day, begun, done = times_of(start, end)
                lines += [f"<tr><th scope=rowgroup colspan=4>{day}"] if day != before else []
                lines.append(f"<tr><td class=number>{place}<td>{html.escape(job)}<td class=number>{begun}"
                             f"<td class=number>{done}")
                before = day
        lines.append("</tbody></table>")
    return "".join(lines)


def page_of(chart: Chart, schedule: Schedule, clock: Clock | None) -> str:
    """The page: one file, that asks for nothing else. Its data has more than a picture needs."""
    name, title = shown(schedule.instance.name), chart.heading(True)
    title = title if not name or title == chart.title else f"{name}: {title}"
    data = {
        "jobs": chart.jobs, "machines": chart.machines, "starts": chart.starts.T.tolist(),
        "ends": chart.ends.T.tolist(), "makespan": chart.makespan, "bound": chart.bound, "critical": chart.outlines(),
        "shares": chart.shares(), "unit": chart.shown_unit, "decimals": chart.decimals, "breaks": chart.breaks,
        "fills": ["#" + "".join(f"{round(255 * part):02x}" for part in fill) for fill in chart.fills],
        "inks": [ink(fill) for fill in chart.fills], "idle": IDLE, "isNamed": chart.key, "sign": chart.sign,
        "words": {text: chart.say(text) for text in PAGE_WORDS},
        "steps": MINUTES if chart.unit == CLOCK else [] if clock is None else clock.steps(),
        "dates": None if clock is None else {
            **dict(zip(("times", "microseconds"), clock.ratio())), "spans": clock.calendar.spans,
            "loop": clock.calendar.loop, "digits": clock.digits(chart.starts, chart.ends), "scale": chart.scale},
    }
    text = json.dumps(data, ensure_ascii=False, separators=(",", ":")).replace("<", "\\u003c")
    return filled({"title": html.escape(title), "data": text, "lists": lists_of(chart, clock)}, chart.say)


def filled(values: dict[str, str], say: Say) -> str:
    """Return the template with its placeholders replaced: names by values, and `=` and a text by this text in the
    page's language. One pass: a value may look like a placeholder."""
    template = importlib.resources.files("pfs").joinpath("chart.html").read_text("utf-8")
    values = values | {"policy": policy_of(template)}
    return re.sub(r"\{\{(=?)([^{}]+)\}\}", lambda found: html.escape(say(" ".join(found[2].split()))) if found[1] else
                  values[found[2]], template)


def policy_of(template: str) -> str:
    """Return the page's content security policy: only the template's own style and script apply."""
    hashes = {}
    for element in ("style", "script"):
        own = template.partition(f"<{element}>")[2].partition(f"</{element}>")[0]
        digest = base64.b64encode(hashlib.sha256(own.encode()).digest()).decode()
        hashes[element] = f"{element}-src 'sha256-{digest}'"
    return f"default-src 'none'; {hashes['style']}; {hashes['script']}; base-uri 'none'; form-action 'none'"
