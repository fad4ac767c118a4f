"""Reports of schedules: how busy each machine is, and when each job is made."""
from __future__ import annotations

from collections import Counter
from collections.abc import Callable
from typing import TYPE_CHECKING, Any, NamedTuple

from pfs.base.languages import Say
from pfs.binding.validate import Order

if TYPE_CHECKING:
    from pfs.schedules.schedule import Schedule


class MachineReport(NamedTuple):
    """How busy a machine is: its work, and its share of the makespan in percent; the idle time before its first
    operation, between its operations and after the last one; and its share of a critical path in percent."""

    name: str
    work: int
    utilisation: float
    before: int
    between: int
    after: int
    critical: float


class JobReport(NamedTuple):
    """When the first operation of a job that takes time starts, and when its last one ends."""

    name: str
    start: int
    end: int


class Report(NamedTuple):
    """A report of a schedule.

    Attributes
    ----------
    machines : tuple of MachineReport
        For each machine its name, ``work``, ``utilisation``, the idle times ``before``, ``between`` and ``after``, and
        ``critical``, the share of a critical path. Shares are percentages of the makespan.
    jobs : tuple of JobReport
        For each job, in the schedule's order, its name, ``start`` and ``end``: of the operations that take time.
    bottleneck : str
        The machine with the most work; of equal ones the first.
    """

    machines: tuple[MachineReport, ...]
    jobs: tuple[JobReport, ...]
    bottleneck: str


def report_of(schedule: Schedule) -> Report:
    """Return the report of a schedule."""
    shop, starts, ends, makespan = schedule.instance, schedule.starts, schedule.ends, schedule.makespan
    critical: Counter[int] = Counter()
    for place, machine in schedule.critical_path():
        critical[machine] += int(ends[place, machine] - starts[place, machine])
    machines = []
    for machine, work in enumerate(shop.times.sum(axis=0).tolist()):
        first, last = ends_of_work(starts[:, machine], ends[:, machine], makespan)
        machines.append(MachineReport(shop.machine_name(machine), work, share(work, makespan), first,
                                      last - first - work, makespan - last, share(critical[machine], makespan)))
    jobs = [JobReport(shop.job_name(job), *ends_of_work(starts[place], ends[place], int(starts[place, 0])))
            for place, job in enumerate(schedule.order.tolist())]
    return Report(tuple(machines), tuple(jobs), max(machines, key=lambda each: each.work).name)


# The heads of tables.
OPERATIONS, JOBS, PLACES = ("job", "machine", "start", "end"), ("job", "start", "end"), ("place", "job", "start", "end")
# More columns of a schedule, in which people say what has happened.
MARKS = ("begun", "ended")
MACHINES = ("machine", "work", "utilisation %", "idle before", "idle between", "idle after", "critical %")


def rows_of(report: Report, cell: Callable[[int], Any]) -> list[tuple[Any, ...]]:
    """The rows of a table of the machines. `cell` shows a length of time."""
    return [MACHINES, *((each.name, cell(each.work), each.utilisation, cell(each.before), cell(each.between),
                         cell(each.after), each.critical) for each in report.machines)]


def sheets_of(schedule: Schedule, cell: Callable[[int], Any],
              span: Callable[[int, int], tuple[Any, Any]], say: Say) -> list[tuple[str, list[tuple[Any, ...]]]]:
    """The names and the rows of the sheets of a schedule: its operations, its report, and those that take time of each
    machine. `span` shows a start and an end, and `say` says names and heads in a language."""
    shop, report = schedule.instance, schedule.report()
    operations: list[tuple[Any, ...]] = [(*map(say, OPERATIONS),)]
    lists: list[list[tuple[Any, ...]]] = [[(*map(say, PLACES),)] for _ in range(shop.machines)]
    for job, machine, start, end in schedule._operations():
        name, times = shop.job_name(job), span(start, end)
        operations.append((name, shop.machine_name(machine), *times))
        if start < end:
            lists[machine].append((len(lists[machine]), name, *times))
    jobs: list[tuple[Any, ...]] = [(*map(say, JOBS),)]
    jobs += ((each.name, *span(each.start, each.end)) for each in report.jobs)
    heads, *machines = rows_of(report, cell)
    return [(say("schedule"), operations), (say("machines"), [(*map(say, heads),), *machines]), (say("jobs"), jobs),
            *((shop.machine_name(machine), rows) for machine, rows in enumerate(lists))]


def ends_of_work(starts: Order, ends: Order, none: int) -> tuple[int, int]:
    """When the first operation that takes time starts, and when the last one ends; `none` if there is none."""
    takes = starts < ends
    return (int(starts[takes].min()), int(ends[takes].max())) if takes.any() else (none, none)


def share(part: int, whole: int) -> float:
    """Return a share in percent.

    >>> share(1, 3), share(0, 0)
    (33.3, 0.0)
    """
    return round(100 * part / whole, 1) if whole else 0.0


def text_table(rows: list[list[str]]) -> str:
    """Return rows of cells as lines. The first column is aligned at the left, all others at the right.

    >>> print(text_table([["machine", "work"], ["saw", "12.5"]]), end="")
    machine  work
    saw      12.5
    """
    widths = [max(map(len, column)) for column in zip(*rows)]
    return "".join("  ".join([row[0].ljust(widths[0]), *(cell.rjust(width) for cell, width in
                                                         zip(row[1:], widths[1:]))]).rstrip() + "\n" for row in rows)
