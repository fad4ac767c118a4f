#!/usr/bin/env python3
"""Runs of an experiment, in the folder of copies, which may be on another machine: needs Python alone. The arguments
are the numbers of the runs, each of which is a line of `runs.tsv`, with the values of `Run`; a hyphen is none. In 3,1,2
the runs 1 and 2 are what run 3 had found by their times. `commands.json` has for a method its command, or the options
of a search that only the library makes. Else it searches with the program `pfs`, or with the library if the run has a
limit of time and no rounds. Audits the order. As soon as a run ends, prints the length of its result in bytes, on a
line, and the result: the order file, and then one line of CSV with the run's number, makespan, bound, cells, processor
seconds of the search, `ok` or an error, the rounds of a search by time, how many processes a command has left, and the
trajectory, `SECONDS:MAKESPAN` for each better makespan. Without an order it is only this line. The exit status is 0
even if a search or an audit fails."""
from __future__ import annotations

import contextlib
import csv
import importlib
import io
import json
import math
import os
import re
import resource
import select
import signal
import subprocess
import sys
import time
from collections import namedtuple
from collections.abc import Callable, Iterable, Iterator

# Many runs are shorter than Python's start, so what only some runs need is imported where it is used.
TYPE_CHECKING = False
if TYPE_CHECKING:
    from types import FrameType
    from typing import Any

    from pfs.binding.rounds import Rounds

HERE = os.path.dirname(os.path.abspath(__file__))
LIBRARY = "libpfs.so.1"
# A command, and each of its processes, may use this multiple of its processor time, and these seconds for its start,
# in whole seconds. In real time it may take ten times as long, and this number of seconds more.
TIMES, START, PATIENCE = 1.5, 0.5, 10.0
# The most bytes that a command may print without its trajectory, how many of the last of its errors are kept, and the
# most lines of a trajectory.
MOST_BYTES, MOST_SAID, MOST_POINTS = 1_048_576, 1_000, 1_000
# A makespan with its order, which a command prints while it runs.
POINT = re.compile(rb"makespan ([0-9]{1,18})[ :,]\s*(\S.*)")
PR_SET_PDEATHSIG, PR_SET_CHILD_SUBREAPER = 1, 36
ENDINGS = (signal.SIGTERM, signal.SIGINT, signal.SIGHUP)

# The values of a line of `runs.tsv`.
Run = namedtuple("Run", "number file layout block rounds limit take passes seed repetition time_factor jobs machines "
                        "instance method anytime")
# The order file of a search, its cells and seconds, the rounds if it was by time, how many processes a command has
# left, and the better orders on the way.
Found = namedtuple("Found", "order cells seconds rounds left points", defaults=("", 0, ()))
# After how many seconds an order was found, its makespan, and its order file, or "" if the library says so.
Point = namedtuple("Point", "seconds makespan order", defaults=("",))


def shared(name: str) -> Any:
    """Returns a module of the package, or its copy in this folder, in which `python3 -I -S` finds no module, and where
    nothing else is left."""
    if __package__:
        return importlib.import_module(f"pfs.{name}")
    sys.dont_write_bytecode, sys.path[:0] = True, [HERE]
    return importlib.import_module(name.rpartition(".")[2])


class Failed(Exception):
    """A run failed. The message says how."""


def run_pfs(run: Run, *words: str, text: str = "") -> subprocess.CompletedProcess[bytes]:
    """Runs pfs on the instance, with a text as input. Its exit status may be any."""
    options = ["--from" if words[0] == "convert" else "--layout", run.layout, "--block", run.block, run.file]
    options += ["/dev/stdin"] if text else []
    done = subprocess.run(["./pfs", *words, *options], cwd=HERE, input=text.encode(), capture_output=True)
    if done.returncode < 0:
        raise Failed(f"{words[0]}: signal {-done.returncode}")
    return done


def pfs(run: Run, *words: str) -> str:
    """Returns what pfs prints."""
    done = run_pfs(run, *words)
    if done.returncode != 0:
        output = (done.stderr or done.stdout).decode(errors="replace").splitlines() or [""]
        raise Failed(f"{words[0]}: exit {done.returncode}, {output[0]}")
    return done.stdout.decode(errors="replace")


def child_seconds() -> float:
    spent = resource.getrusage(resource.RUSAGE_CHILDREN)
    return spent.ru_utime + spent.ru_stime


def order_file(first: str, jobs: Iterable[object], makespan: int) -> str:
    return f"{first}\n{' '.join(map(str, jobs))}\nmakespan {makespan}\n"


def by_rounds(run: Run) -> Found:
    take = [] if run.take == "-" else ["--take", run.take]
    before = child_seconds()
    text = pfs(run, "solve", "--rounds", run.rounds, "--passes", run.passes, "--seed", run.seed, "--cells", *take)
    found = re.fullmatch("(.*\n)cells ([0-9]{1,20})\n", text, re.DOTALL)
    if not found:
        raise Failed("solve: no cells printed")
    return Found(found[1], found[2], child_seconds() - before)


def audit(run: Run, order: str) -> tuple[str, str]:
    """Audits an order file, which must be valid. Returns its makespan and its bound."""
    done = run_pfs(run, "check", text=order)
    lines = (done.stderr or done.stdout).decode(errors="replace").splitlines() or ["no verdict"]
    found = re.match("valid\nmakespan ([0-9]{1,18})\nbound ([0-9]{1,18})(?:\n|$)", "\n".join(lines))
    if done.returncode != 0 or not found:
        raise Failed(f"check: {f'exit {done.returncode}, ' if done.returncode else ''}{', '.join(lines)}")
    return found[1], found[2]


# Searches with the library, in parts of rounds

def caller(times: list[int], jobs: int, machines: int) -> Callable[..., None]:
    """Returns a function that calls a function of the library for C, which has to succeed, on the instance. The
    processing times are listed job by job."""
    import ctypes
    import weakref
    library, instance = ctypes.CDLL(os.path.join(HERE, LIBRARY)), ctypes.byref(ctypes.c_void_p())

    def check(function: str, *arguments: object) -> None:
        number = getattr(library, function)(*arguments)
        if number != 0:
            raise Failed("solve: exit 4, pfs: no memory" if number == 1 else f"libpfs: {function} returns {number}")

    sizes = [ctypes.c_size_t(size) for size in (len(times), jobs, machines)]
    check("pfs_prepare", (ctypes.c_uint32 * len(times))(*times), *sizes, instance)

    def call(function: str, *arguments: object) -> None:
        check(function, instance, *arguments)

    weakref.finalize(call, library.pfs_release, instance)
    return call


def search(running: Rounds, seconds: float | None, rounds: int | None = None,
           note: Callable[[float], object] = float) -> float:
    """Searches for this processor time or up to this round, and returns the time spent. A part is only started if it is
    expected to end in time, as estimated from the part before it. Notes the time after each part."""
    start, pace = time.process_time(), shared("binding.rounds").Pace(seconds, time.process_time, least=0)
    running.begin()
    note(time.process_time() - start)
    while count := pace.next(running.left_of_seed() if rounds is None else rounds - running.finished().total):
        before = time.process_time()
        running.run_rounds(count)
        pace.took(count, time.process_time() - before)
        note(time.process_time() - start)
    return time.process_time() - start


def by_library(run: Run, options: dict[str, Any] | None) -> Found:
    """Searches by time, or with these options also accepts longer orders, in rounds that count no cells."""
    jobs, machines, *pairs = map(int, pfs(run, "convert", "--to", "orlib").split()[3:])
    times = pairs[1::2]
    is_by_time = run.limit != "-"
    try:
        call, rounds = caller(times, jobs, machines), shared("binding.rounds")
        more = None if options is None else rounds.iterating(sum(times), len(times), **options)
        running = rounds.Rounds(call, jobs, int(run.take), int(run.passes), int(run.seed), more=more)
        points: list[Point] = []
        limits = (float(run.limit), None) if is_by_time else (None, int(run.rounds))
        spent = search(running, *limits,
                       lambda seconds: points.append(Point(seconds, running.finished().makespan.value)))
    except (OSError, AttributeError) as error:
        raise Failed(f"libpfs: {error}") from None
    best = running.finished()
    order = order_file(f"order2 {jobs} {machines}", [job + 1 for job in best.order], best.makespan.value)
    return Found(order, str(best.all_cells()) if more is None else "", spent, str(best.total) if is_by_time else "",
                 points=points if is_by_time else [])


# Other programs

def by_command(words: list[str], run: Run) -> Found:
    """Searches with another program, which gets its own copy of the instance. If it prints only job numbers, the
    audit computes the makespan. Its last order is the result. The better ones on the way are audited too."""
    import shutil
    import tempfile
    try:
        with tempfile.TemporaryDirectory() as own:
            copy = shutil.copyfile(os.path.join(HERE, run.file), os.path.join(own, "instance"))
            os.chmod(copy, 0o444)
            values = {**run._asdict(), "seconds": run.limit, "instance": copy, "name": os.path.basename(run.instance)}
            words = [re.sub(r"\{(\w+)\}", lambda name: str(values[str(name[1])]), word) for word in words]
            text, spent, left, printed = run_command(words, os.path.join(HERE, "files"),
                                                     None if run.limit == "-" else float(run.limit))
        points = [Point(point.seconds, point.makespan, stated_file(point)) for point in better(printed)]
        order, jobs = ("", []) if points and not text.strip() else order_of(text)
    except Failed as failure:
        raise Failed(f"command: {failure}") from None
    for point in points:
        audit(run, point.order)
    if jobs:
        first = f"order {len(jobs)}"
        computed = re.search(rb"\ncomputed ([0-9]+)", run_pfs(run, "check", text=order_file(first, jobs, 0)).stdout)
        order = order_file(first, jobs, int(computed[1]) if computed else 0)
    return Found(order or points[-1].order, "", spent, left=left, points=points)


def better(points: Iterable[Point]) -> list[Point]:
    """Returns those that are shorter than all before them."""
    found: list[Point] = []
    for point in points:
        found += [point] if not found or point.makespan < found[-1].makespan else []
    return found


def stated_file(point: Point) -> str:
    """Returns the order file of an order that was printed with its makespan."""
    _, jobs = order_of(point.order)
    return order_file(f"order {len(jobs)}", jobs, point.makespan)


def order_of(text: str) -> tuple[str, list[str]]:
    """Returns the order file that a program printed, or the job numbers of its only line."""
    lines = [line for line in text.splitlines() if line.strip()]
    if not lines:
        raise Failed("nothing printed")
    if re.match("order2? ", lines[0]):
        return text if text.endswith("\n") else f"{text}\n", []
    numbers = shared("base.order_text").numbers_in(lines[0])
    if len(lines) > 1 or isinstance(numbers, str):
        raise Failed(f"no order printed: {lines[0][:40]!r}")
    if 0 in numbers:
        raise Failed("job 0: jobs count from 1")
    return "", list(map(str, numbers))


def run_command(words: list[str], folder: str, seconds: float | None) -> tuple[str, float, int, list[Point]]:
    """Returns what a program prints on standard output, its processor seconds with those of all processes that it has
    started, how many of them it has left, and its trajectory. If its first line is `start`, the time before it, up to
    `START`, doesn't count. Its processes are killed when it ends. A program that takes too
    long, prints too much or fails is killed with all of them."""
    before, end = child_seconds(), math.inf if seconds is None else time.monotonic() + 10 * TIMES * seconds + PATIENCE
    set_process(PR_SET_CHILD_SUBREAPER, 1)
    for number in ENDINGS:
        signal.signal(number, stop)
    try:
        with subprocess.Popen(words, cwd=folder, stdin=subprocess.DEVNULL, stdout=subprocess.PIPE,
                              stderr=subprocess.PIPE, bufsize=0, start_new_session=True,
                              preexec_fn=lambda: limit(seconds)) as child:
            printed = Printed(child)
            try:
                while child.poll() is None and not printed.is_too_much() and time.monotonic() < end:
                    printed.read(0.05)
                ended = child.poll() is not None
            finally:
                left = kill_descendants()
            while not printed.is_too_much() and printed.read(0):
                """What was printed before the end."""
    except (OSError, ValueError) as error:
        raise Failed(getattr(error, "strerror", None) or str(error)) from None
    said, spent = printed.said.decode(errors="replace").splitlines() or [""], child_seconds() - before
    if printed.is_too_much():
        many = f"{MOST_POINTS:,} makespans" if len(printed.points) > MOST_POINTS else f"{MOST_BYTES:,} bytes"
        raise Failed(f"more than {many} printed")
    if seconds is not None and spent > TIMES * seconds + START:
        raise Failed(f"took too long: {spent:.2f} s of processor time instead of {seconds:g} s")
    if not ended:
        raise Failed(f"still running, and used {spent:.2f} s of processor time of {seconds:g} s")
    if child.returncode < 0:
        raise Failed(f"signal {-child.returncode}")
    if child.returncode > 0:
        raise Failed(f"exit {child.returncode}, {' '.join(said[-1].split())[:200]}")
    printed.take(b"\n" if printed.line else b"")
    start = min(max(printed.start - before, 0), START)
    return printed.text.decode(errors="replace"), max(spent - start, 0), left, [
        point._replace(seconds=max(min(point.seconds - before, spent) - start, 0)) for point in printed.points]


class Printed:
    """What a program prints: its output, a little more than is taken at most, its trajectory, the line that it is
    printing, and the last part of its errors."""

    def __init__(self, child: subprocess.Popen[bytes]) -> None:
        assert child.stdout and child.stderr
        self.out, self.open = child.stdout, [child.stdout, child.stderr]
        self.text, self.line, self.said = bytearray(), b"", b""
        self.points: list[Point] = []
        # Whether and when it printed that it has started.
        self.has_started, self.start = False, 0.0

    def is_too_much(self) -> bool:
        return len(self.text) + len(self.line) > MOST_BYTES or len(self.points) > MOST_POINTS

    def take(self, part: bytes) -> None:
        """Takes the next part of the output."""
        *lines, self.line = (self.line + part).split(b"\n")
        for line in lines:
            if line.strip() == b"start" and not (self.has_started or self.points or self.text):
                self.has_started = True
                # With more after it, it has waited in a buffer.
                self.start = seconds_so_far() if part.count(b"\n") == 1 and not self.line else 0.0
            elif point := POINT.fullmatch(line.strip()):
                self.points.append(Point(seconds_so_far(), int(point[1]), point[2].decode(errors="replace")))
            else:
                self.text += line + b"\n"

    def read(self, seconds: float) -> bool:
        """Reads what is there, or waits for it for this time. Returns whether there was anything."""
        ready = select.select(self.open, [], [], seconds)[0]
        for pipe in ready:
            part = os.read(pipe.fileno(), 65_536)
            if not part:
                self.open.remove(pipe)
            elif pipe is self.out:
                self.take(part)
            else:
                self.said = (self.said + part)[-MOST_SAID:]
        return bool(ready)


def stop(number: int, _frame: FrameType | None) -> None:
    """Ends this program after its cleanup, which further signals don't interrupt."""
    for each in ENDINGS:
        signal.signal(each, signal.SIG_IGN)
    sys.exit(128 + number)


def set_process(what: int, value: int) -> None:
    import ctypes
    ctypes.CDLL(None).prctl(what, value)


def limit(seconds: float | None) -> None:
    """Limits the processor time of each process of a program, and has it killed when this process ends."""
    set_process(PR_SET_PDEATHSIG, signal.SIGKILL)
    if seconds is not None:
        resource.setrlimit(resource.RLIMIT_CPU, (math.ceil(TIMES * seconds + START),) * 2)


def children_of(process: int) -> list[int]:
    with open(f"/proc/{process}/task/{process}/children") as children:
        return [*map(int, children.read().split())]


def seconds_so_far() -> float:
    """Returns the processor seconds of the processes that have ended, as `child_seconds`, and of those that run."""
    total, running = child_seconds(), children_of(os.getpid())
    while running:
        process = running.pop()
        with contextlib.suppress(OSError):  # it has just ended
            with open(f"/proc/{process}/stat", "rb") as file:
                waited = sum(map(int, file.read().rpartition(b")")[2].split()[13:15])) / os.sysconf("SC_CLK_TCK")
            # the clock of a process's processor time, which clock_getcpuclockid of the C library returns
            total += time.clock_gettime(~process << 3 | 2) + waited
            running += children_of(process)
    return total


def kill_descendants() -> int:
    """Kills all processes that this one and its descendants have started, waits for them, and returns how many were
    killed. Those whose parent has ended must be adopted."""
    killed = 0
    with contextlib.suppress(ChildProcessError):
        while True:
            pid, status = os.waitpid(-1, os.WNOHANG)
            killed += pid != 0 and os.WIFSIGNALED(status) and os.WTERMSIG(status) == signal.SIGKILL
            if pid == 0:
                for child in children_of(os.getpid()):
                    os.kill(child, signal.SIGKILL)
                time.sleep(0.005)
    return killed


# The runs of this process

def main() -> None:
    """Makes the runs one after the other, until what has started this process is gone."""
    before, groups = starters(), [[*map(int, word.split(","))] for word in sys.argv[1:]]
    wanted = {number for group in groups for number in group}
    with open(os.path.join(HERE, "runs.tsv"), encoding="utf-8") as file:
        runs = {number: Run._make(line[:-1].split("\t")) for number, line in enumerate(file, 1) if number in wanted}
    with open(os.path.join(HERE, "commands.json"), "rb") as file:
        commands = json.load(file)
    for first, *others in groups:
        if starters() == before:
            run = runs[first]
            for order, row in results(run, [runs[number] for number in others], commands.get(run.method)):
                line = io.StringIO()
                csv.writer(line, lineterminator="\n").writerow(row)
                made = (order + line.getvalue()).encode(errors="replace")
                sys.stdout.buffer.write(b"%d\n%b" % (len(made), made))
            sys.stdout.buffer.flush()


def starters() -> tuple[int, bytes]:
    """Returns the parent of this process, which is a shell, and that of the shell."""
    parent, second = os.getppid(), b""
    with contextlib.suppress(OSError), open(f"/proc/{parent}/stat", "rb") as file:
        second = file.read().rpartition(b")")[2].split()[1]
    return parent, second


def results(run: Run, others: list[Run],
            command: list[str] | dict[str, Any] | None) -> Iterator[tuple[str, list[str]]]:
    """Searches with the command of the method or its options, by rounds or by time, and audits the order. Yields the
    order file and the row of the run and of each of the others, which are what it had found by their times."""
    order = ""
    try:
        if isinstance(command, list):
            made = by_command(command, run)
        else:
            made = by_rounds(run) if command is None and run.limit == "-" else by_library(run, command)
        order = made.order
        makespan, bound = audit(run, order)
    except (Failed, OSError) as failure:
        lost = f"lost: {failure.strerror}" if isinstance(failure, OSError) else str(failure)
        for each in (run, *others):
            yield order if each is run else "", [each.number, "", "", "", "", lost]
        return
    ends = better([*made.points, Point(made.seconds, int(makespan), order)]) if made.points else []
    way = " ".join(f"{at}:{span}" for at, span in {f"{it.seconds:.6f}": it.makespan for it in ends}.items())
    yield order, [run.number, makespan, bound, made.cells, f"{made.seconds:.6f}", "ok", made.rounds, str(made.left),
                  way]
    for other in others:
        limit = float(other.limit)
        found = [point for point in ends if point.seconds <= limit][-1:]
        for point in found:
            seconds = min(limit, made.seconds)
            yield point.order, [other.number, str(point.makespan), bound, "", f"{seconds:.6f}", "ok"]
        if not found:
            yield "", [other.number, "", "", "", "", f"command: no order with its makespan printed in {limit:g} s"]


if __name__ == "__main__":
    main()
