"""The class `Schedule`: when each operation of an order starts and ends."""
from __future__ import annotations

import os
from collections.abc import Callable, Iterator, Mapping
from itertools import chain
from typing import TYPE_CHECKING, Any

import numpy as np

from pfs.base.atomic import atomic_write
from pfs.base.cells import csv_writer, text_cell
from pfs.base.languages import words_of
from pfs.base.optional import optional
from pfs.base.units import amount
from pfs.base.workbooks import cell_of, write_workbook
from pfs.binding import library as c
from pfs.binding.validate import Order, checked_int
from pfs.schedules.calendar import Calendar, Clock, text_of
from pfs.schedules.drawing import critical_path
from pfs.schedules.report import OPERATIONS, Report, report_of, sheets_of
from pfs.schedules.rest import Rest, down_of, rest_of

if TYPE_CHECKING:
    from pfs.shops.instance import Instance


class Schedule:
    """A schedule: when each operation of an order starts and ends. Each operation starts as early as possible.

    Schedules are made by :meth:`pfs.Instance.schedule`.

    Attributes
    ----------
    instance : Instance
        The instance.
    order : numpy.ndarray
        The jobs, counted from 0, in the order in which they run.
    starts, ends : numpy.ndarray
        Arrays of shape (jobs, machines): the job ``order[place]`` starts at ``starts[place, machine]`` on a machine.

    Examples
    --------
    >>> schedule = pfs.Instance([[3, 2], [2, 5], [4, 1]]).schedule([1, 0, 2])
    >>> schedule.makespan
    10
    >>> schedule.starts
    array([[0, 2],
           [2, 7],
           [5, 9]])
    >>> print(schedule.to_csv(), end="")
    job,machine,start,end
    1,0,0,2
    1,1,2,7
    0,0,2,5
    0,1,7,9
    2,0,5,9
    2,1,9,10
    """

    __slots__ = ("instance", "order", "starts", "ends")

    def __init__(self, instance: Instance, order: Order, starts: Order, ends: Order) -> None:
        self.instance = instance
        self.order = order
        self.starts = starts
        self.ends = ends

    def __repr__(self) -> str:
        return f"Schedule({self.instance.jobs} jobs, {self.instance.machines} machines, makespan={self.makespan})"

    @property
    def makespan(self) -> int:
        """The time at which the last job leaves the last machine."""
        return int(self.ends[-1, -1])

    def _operations(self) -> Iterator[tuple[int, int, int, int]]:
        """Yield job, machine, start and end of each operation that takes time, by place and then by machine; of a job
        that takes none the first one."""
        for job, starts, ends in zip(self.order.tolist(), self.starts.tolist(), self.ends.tolist()):
            for machine, (start, end) in enumerate(zip(starts, ends)):
                if start < end or machine == 0 and starts == ends:
                    yield job, machine, start, end

    def critical_path(self) -> list[tuple[int, int]]:
        """Return the places and machines of a critical path: operations that follow each other without a wait, from
        time 0 to the makespan.

        From one operation to the next either the place or the machine increases by 1. If there are several paths, then
        going back from the end a step along the machine is preferred.

        Examples
        --------
        >>> schedule = pfs.Instance([[3, 2], [2, 5], [4, 1]]).schedule([1, 0, 2])
        >>> schedule.critical_path()
        [(0, 0), (0, 1), (1, 1), (2, 1)]
        """
        return critical_path(self.starts, self.ends)

    def idle(self) -> Order:
        """Return the idle time of each machine before each operation, an array of int64 and of shape (jobs, machines).

        Element ``[place, machine]`` is the time from the end of the machine's previous operation, or from 0, to the
        start of this one. ``makespan - ends[-1]`` is the idle time after the last one.

        Examples
        --------
        >>> pfs.Instance([[3, 2], [2, 5], [4, 1]]).schedule([1, 0, 2]).idle()
        array([[0, 2],
               [0, 0],
               [0, 0]])
        """
        waits = self.starts.copy()
        waits[1:] -= self.ends[:-1]
        return waits

    def report(self) -> Report:
        """Return how busy each machine is, when each job is made, and which machine has the most work.

        Examples
        --------
        >>> report = pfs.Instance([[3, 2], [2, 5], [4, 1]], machine_names=["saw", "drill"]).schedule([1, 0, 2]).report()
        >>> report.bottleneck, report.machines[0].work, report.machines[0].utilisation
        ('saw', 9, 90.0)
        >>> report.machines[1]
        MachineReport(name='drill', work=8, utilisation=80.0, before=2, between=0, after=0, critical=80.0)
        >>> report.jobs[0]
        JobReport(name='1', start=0, end=7)
        """
        return report_of(self)

    def rest(self, at: int, down: Mapping[Any, int] | None = None) -> Rest:
        """Return what is left of the schedule at a time, from which a plan can be made for what follows.

        The same order of what is left has the ends of this schedule, less ``at``. A machine that is down delays the
        operation that it interrupts, or else the jobs that come to it.

        Parameters
        ----------
        at : int
            The time, as in ``starts`` and ``ends``.
        down : dict, optional
            The times until which machines, given by number or name, are down from ``at`` on.

        Raises
        ------
        TypeError, ValueError
            If ``at`` isn't a time, a machine is unknown, or all jobs are finished.

        Examples
        --------
        >>> names = {"job_names": ["a", "b", "c"], "machine_names": ["saw", "drill"]}
        >>> shop = pfs.Instance([[3, 2], [2, 5], [4, 1]], **names)
        >>> left, held, done = shop.schedule([1, 0, 2]).rest(6, {"drill": 9})
        >>> left.job_names, left.times.tolist(), held, done
        (('b', 'a', 'c'), [[0, 4], [0, 2], [3, 1]], 3, ())
        """
        at = checked_int(at, "at", 0, c.MOST_SEED // 2)
        until = {machine: checked_int(time, "down", 0, c.MOST_SEED // 2) for machine, time in (down or {}).items()}
        return rest_of(self.instance, self.order.tolist(), at, down_of(self.instance, until, at))

    def to_frame(self) -> Any:
        """Return the operations as a pandas DataFrame.

        It has a row for each operation, by place in the order and then by machine, with the columns ``job``,
        ``machine``, ``start`` and ``end``: names, or numbers from 0, and times with the instance's decimals.

        Examples
        --------
        >>> frame = pfs.Instance([[3, 2], [2, 5]]).schedule([1, 0]).to_frame()
        >>> print(frame.to_string(index=False))
         job  machine  start  end
           1        0      0    2
           1        1      2    7
           0        0      2    5
           0        1      7    9
        """
        pandas = optional("pandas", "to_frame")
        jobs, machines = self.starts.shape
        job_of, machine_of = self.order.repeat(machines), np.tile(np.arange(machines), jobs)
        shop = self.instance
        scale = 10**shop.decimals
        return pandas.DataFrame({
            "job": job_of if shop.job_names is None else np.array(shop.job_names, dtype=object)[job_of],
            "machine": machine_of if shop.machine_names is None else np.array(shop.machine_names, object)[machine_of],
            "start": self.starts.ravel() if scale == 1 else self.starts.ravel() / scale,
            "end": self.ends.ravel() if scale == 1 else self.ends.ravel() / scale,
        })

    def to_csv(self, path: str | os.PathLike[str] | None = None, delimiter: str = ",", *,
               mark: bool = False, calendar: Calendar | None = None,
               language: str | os.PathLike[str] = "en") -> str | None:
        """Write the operations that take time as CSV, or return them as a text if there is no path. A job that takes
        none has a row for its first machine. A name that a spreadsheet would interpret as a formula gets an apostrophe.

        Parameters
        ----------
        path : str or os.PathLike, optional
            The file. An existing file is replaced atomically.
        delimiter : str
            The separator of the columns. With ``;`` decimals have a comma.
        mark : bool
            Begin the file with a byte order mark. Excel needs it to read letters such as ``ä`` correctly.
        calendar : Calendar, optional
            Write dates and times of day, such as ``2026-11-30 06:00``, instead of times.
        language : str or os.PathLike
            The language of the heads: ``"en"``, ``"de"``, or a file in UTF-8. Each of its lines has an English text,
            ``=``, and what to write instead, such as ``job = commande``. Texts that it lacks stay English.

        Raises
        ------
        ValueError
            If there is a calendar, but the instance's unit is not a unit of time, or the schedule ends after the year
            9999; if the language is unknown, or its file is invalid.
        """
        shop, say = self.instance, words_of(language)
        times_of = self._texts(calendar)
        lines: list[str] = []
        names = chain(map(shop.job_name, range(shop.jobs)), map(shop.machine_name, range(shop.machines)))
        rows = csv_writer(lines, names, delimiter)
        rows.writerow([text_cell(say(head)) for head in OPERATIONS])
        for job, machine, start, end in self._operations():
            shown = (time.replace(".", ",") if delimiter == ";" else time for time in times_of(start, end))
            rows.writerow([text_cell(shop.job_name(job)), text_cell(shop.machine_name(machine)), *shown])
        text = "".join(lines)
        if path is None:
            return text
        atomic_write(path, text.encode("utf-8-sig" if mark else "utf-8"))
        return None

    def to_xlsx(self, path: str | os.PathLike[str], *, calendar: Calendar | None = None,
                language: str | os.PathLike[str] = "en") -> None:
        """Write the operations that :meth:`to_csv` writes as a workbook, with numbers, or with dates and times of day.
        Other sheets have the :meth:`report`, and the jobs of each machine. This needs openpyxl.

        Parameters
        ----------
        path, calendar, language : str or os.PathLike, Calendar, str or os.PathLike
            As for :meth:`to_csv`, which raises the same errors. The names of sheets are in this language too.
        """
        shop = self.instance
        clock = None if calendar is None else Clock(calendar, shop)

        def cell(time: int) -> Any:
            return cell_of(time, shop.decimals, shop.unit)

        def span(start: int, end: int) -> tuple[Any, Any]:
            return (cell(start), cell(end)) if clock is None else clock.span(start, end)

        write_workbook(path, sheets_of(self, cell, span, words_of(language)))

    def to_ics(self, path: str | os.PathLike[str], calendar: Calendar) -> list[str]:
        """Write a calendar file for each machine, which Outlook and other calendars import, and return the paths.

        Each operation is an event, and one that a shift's end interrupts is an event for each stretch of work. The
        names of the files have the machine before the ending: ``plan-saw.ics``. If a file of the same name is imported
        again, its events replace the earlier ones.

        Parameters
        ----------
        path, calendar : str or os.PathLike, Calendar
            The name without the machines, and when there is work. Errors are those of :meth:`to_csv`.
        """
        from pfs.schedules.events import write_events
        return write_events(self, path, calendar)

    def _texts(self, calendar: Calendar | None) -> Callable[[int, int], list[str]]:
        """What writes the times of an operation, as numbers or as dates and times of day."""
        shop = self.instance
        if calendar is None:
            return lambda *times: [amount(time, shop.decimals, shop.unit) for time in times]
        clock = Clock(calendar, shop)
        digits = clock.digits(self.starts, self.ends)
        return lambda start, end: [text_of(moment, digits) for moment in clock.span(start, end)]

    def plot(self, path: str | os.PathLike[str] | None = None, *, critical: bool = False,
             bound: bool | int = False, unit: str | None = None, width: float = 12.0, dpi: int = 110,
             title: bool | str = True, ax: Any = None, calendar: Calendar | None = None,
             language: str | os.PathLike[str] = "en") -> Any:
        """Draw a Gantt chart, with a row for each machine, a colour for each job, and idle time in grey.

        Parameters
        ----------
        path : str or os.PathLike, optional
            The file, whose name ends with ``.svg``, ``.png``, ``.pdf`` or ``.html``. An HTML page is a single file. It
            shows the job, machine, start and end of the operation under the pointer, and the wheel zooms.
        critical : bool
            Outline a critical path.
        bound : bool or int
            Draw the instance's bound as a dashed line, or a bound of your own, such as that of a solution.
        unit : str, optional
            The unit of the times (default: the instance's).
        width : float
            The width in inches, 2 to 100. A page ignores it.
        dpi : int
            The resolution of a PNG in dots per inch, 20 to 2,400.
        title : bool or str
            Whether to draw a title, or your own title. A page always has one.
        ax : matplotlib.axes.Axes, optional
            The axes to draw on. The size of their figure doesn't change.
        calendar : Calendar, optional
            Show dates and times of day instead of times. The axis shows working time only: the next shift follows
            directly.
        language : str or os.PathLike
            As for :meth:`to_csv`.

        Returns
        -------
        matplotlib.figure.Figure or None
            The figure, or None for a page, which doesn't need matplotlib.

        Raises
        ------
        ImportError, TypeError, ValueError
            If matplotlib isn't installed, an argument is of the wrong type, the name has another ending, a number is
            out of range, ``ax`` is given for a page, or a calendar for times whose unit is not a unit of time, or the
            language is unknown.
        """
        from pfs.schedules.chart import plot
        return plot(self, path, critical=critical, bound=bound, unit=unit, width=width, dpi=dpi, title=title, ax=ax,
                    calendar=calendar, language=language)

    def _repr_svg_(self) -> str | None:
        """Return the chart for Jupyter, or None without matplotlib or if the chart would be very large."""
        from pfs.schedules.chart import svg_of
        return svg_of(self)
