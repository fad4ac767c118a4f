"""Schedules as calendar files (iCalendar, RFC 5545): an event for each operation, in local times."""
from __future__ import annotations

import hashlib
import os
import re
from collections.abc import Iterator
from datetime import datetime, timezone
from typing import TYPE_CHECKING

from pfs.base.atomic import atomic_write
from pfs.base.names import shown
from pfs.base.workbooks import title_of
from pfs.schedules.calendar import Calendar, Clock, moment_at

if TYPE_CHECKING:
    from pfs.schedules.schedule import Schedule


def folded(line: str) -> str:
    """A line in parts of at most 75 bytes, of which no letter is cut.

    >>> [len(part.encode()) for part in folded("\u00e4" * 80).split("\\r\\n")]
    [74, 75, 13]
    """
    parts, size = [""], 0
    for letter in line:
        size += len(letter.encode())
        if size > 75:
            parts.append(" ")
            size = 1 + len(letter.encode())
        parts[-1] += letter
    return "\r\n".join(parts)


def escaped(text: str) -> str:
    """A text as a value.

    >>> print(escaped("saw; 1, 2\\\\3"))
    saw\\; 1\\, 2\\\\3
    """
    return re.sub(r"[\\;,]", lambda found: "\\" + found[0], shown(text))


def stretches(clock: Clock, start: int, end: int) -> Iterator[tuple[datetime, datetime]]:
    """When an operation is worked on, from when to when, shift by shift."""
    first, last, before = clock.worked(start), clock.worked(end), 0
    for opened, closed in clock.calendar._open():
        low, high = max(first, before), min(last, before + closed - opened)
        if low < high:
            yield moment_at(opened + low - before), moment_at(opened + high - before)
        before += closed - opened
        if before >= last:
            return


def write_events(schedule: Schedule, path: str | os.PathLike[str], calendar: Calendar) -> list[str]:
    """Write the operations of each machine as a calendar file. Return the paths."""
    shop, clock = schedule.instance, Clock(calendar, schedule.instance)
    stem, ending = os.path.splitext(os.fspath(path))
    now = datetime.now(timezone.utc).strftime("%Y%m%dT%H%M%SZ")
    paths: list[str] = []
    used: set[str] = set()
    for machine in range(shop.machines):
        name, title = shop.machine_name(machine), title_of(shop.machine_name(machine), used)
        used.add(title.casefold())
        lines = ["BEGIN:VCALENDAR", "VERSION:2.0", "PRODID:-//pfs//plan//EN", f"X-WR-CALNAME:{escaped(name)}"]
        for job, starts, ends in zip(schedule.order.tolist(), schedule.starts.tolist(), schedule.ends.tolist()):
            for part, (first, last) in enumerate(stretches(clock, starts[machine], ends[machine])):
                own = "\0".join((os.path.basename(stem), name, shop.job_name(job), str(part)))
                lines += ["BEGIN:VEVENT", f"UID:{hashlib.sha256(own.encode('utf-8', 'replace')).hexdigest()[:24]}@pfs",
                          f"DTSTAMP:{now}", f"DTSTART:{first:%Y%m%dT%H%M%S}", f"DTEND:{last:%Y%m%dT%H%M%S}",
                          f"SUMMARY:{escaped(shop.job_name(job))}", f"LOCATION:{escaped(name)}", "TRANSP:TRANSPARENT",
                          "END:VEVENT"]
        paths.append(f"{stem}-{title}{ending}")
        atomic_write(paths[-1], "".join(f"{folded(line)}\r\n" for line in [*lines, "END:VCALENDAR"]).encode())
    return paths
