"""Runs with GNU parallel, here and over ssh, and on a Slurm cluster; their results and the CSV; and audits of it."""
from __future__ import annotations

import contextlib
import csv
import fcntl
import io
import json
import math
import os
import pathlib
import re
import secrets
import shlex
import shutil
import signal
import subprocess
import sys
import time
from collections.abc import Container, Iterator, Mapping, Sequence
from typing import TypedDict

from pfs.base.cells import FORMULA, text_cell
from pfs.experiments import ExperimentError, Options, csv_text, folders, one, plain
from pfs.experiments.folders import Experiment, prepare, write_text
from pfs.experiments.plan import Reference, Row, reference_for, rows_of

COLUMNS = ["instance", "jobs", "machines", "rounds", "take", "passes", "seed", "repetition",
           "makespan", "bound", "gap_percent", "cells", "seconds", "status", "order", "reference", "source"]
# The last line of the result of a run, or its first six. Only a run by time has rounds there.
RESULT = ["number", "makespan", "bound", "cells", "seconds", "status", "rounds", "left", "trajectory"]
# The file of an experiment's folder with the bounds that `prove` has proved.
PROOFS = "proofs.json"
# The end of a run whose program was killed, or whose allocation failed: the next start repeats it.
KILLED = re.compile("(?:solve|check): (?:signal [0-9]+|exit 4, pfs: no memory)|lost: .*")
# The end of a line of GNU parallel's log: the exit status, the signal, and the numbers of the runs in the command.
LOGGED = re.compile(r"\t([0-9]+)\t([0-9]+)\t[^\t\n]*/one((?: [0-9,]+)+)$", re.MULTILINE)
# The line before a result, with its length in bytes.
LENGTH = re.compile(rb"([0-9]{1,9})\n")
# The most kinds of errors that are reported, and the columns that describe the first run of each.
MOST_KINDS = 10
DISTINCT = ["method", "rounds", "time_factor", "take", "passes", "seed"]
# The columns of a CSV that identify a run, and all that `check` needs.
SAME = ["instance", "method", "rounds", "time_factor", "take", "passes", "seed", "repetition"]
NEEDED = ["instance", "rounds", "take", "passes", "seed", "repetition", "makespan", "bound", "status", "order"]
# By default an array of Slurm has at most this number of tasks, and each takes at least about this number of seconds.
MOST_TASKS, LEAST_SECONDS = 1000, 60
# For how many seconds the tasks of an array may complete after it has ended.
COMPLETING = 60
# A number as pandas may write it.
WRITTEN = re.compile(r"\A([0-9]+(?:\.[0-9]*[1-9])?)\.?0*\Z")
# More than pfs needs for a table cell.
SECONDS_A_CELL = 1e-9
# A process of GNU parallel makes at most this number of runs, which take about this number of seconds, and there are
# at least this number of processes.
MOST_RUNS, SHARED_SECONDS, LEAST_PROCESSES = 25, 1, 8


def begin(args: Options, program: str, package: str) -> tuple[Experiment, list[Row]]:
    """Returns the prepared experiment and the runs that are left to be made, whose numbers the file `left` has then,
    each with those of the runs that it makes too. Those that were lost come last: what has killed one may kill it
    again, and the later runs of its process are left."""
    if shutil.which(program) is None:
        raise FileNotFoundError(f"{program} is not installed (Debian: {package})")
    experiment = prepare(args.plan, args.csv, args.pfs)
    statuses = {result["number"]: result["status"] for result in results_of(experiment.folder)}
    lost = endings(experiment.folder, statuses)
    left = [run for run in experiment.runs if not is_done(statuses.get(run["number"]), args.retry)]
    left.sort(key=lambda run: run["number"] in lost)
    for run in left:
        (experiment.folder / "results" / run["number"]).unlink(missing_ok=True)
    groups = together(left)
    lines = [",".join(run["number"] for run in runs) for runs in groups]
    write_text(experiment.folder / "left", "".join(f"{line}\n" for line in lines))
    (experiment.folder / "joblog").unlink(missing_ok=True)
    return experiment, [runs[0] for runs in groups]


def together(left: list[Row]) -> list[list[Row]]:
    """Returns the runs that are made at once, the longest first: of a method that is `anytime` those that differ only
    in their time."""
    groups: dict[tuple[str, ...], list[Row]] = {}
    for run in left:
        same = [column for column in folders.KEY if column != "time_factor"]
        key = tuple(run[column] for column in same) if run["anytime"] and run["limit"] else (run["number"],)
        groups.setdefault(key, []).append(run)
    return [sorted(runs, key=lambda run: -float(run["limit"] or 0)) for runs in groups.values()]


def run(args: Options) -> int:
    """Makes the runs that are left with GNU parallel, by default one per core at a time, and writes the CSV. The files
    of results have new names at each start, so no process of an earlier start writes into one of a later start."""
    experiment, runs = begin(args, "parallel", "parallel")
    auditors = [experiment.folder / experiment.stage / name for name in folders.OWN]
    before = [path.read_bytes() for path in auditors]
    machines = args.sshloginfile
    if machines and os.path.isfile(machines):
        machines = os.path.abspath(machines)
    words = ["parallel", "--plain", "--will-cite", "--arg-file", "left", "-n", str(runs_a_process(runs)),
             "--joblog", "joblog", "--results", f"results/{secrets.token_hex(4)}-{{#}}"]
    words += ["--bar"] if sys.stderr.isatty() else []
    words += ["--sshloginfile", machines, "--basefile", experiment.stage] if machines else []
    words += [*args.options, "python3", "-I", "-S", f"{experiment.stage}/one"]
    parallel(experiment.folder, words)
    if before != [path.read_bytes() if path.exists() else b"" for path in auditors]:
        raise ExperimentError(f"{args.csv}: a command has changed the programs by which its orders are audited: delete "
                              f"{experiment.folder}")
    failed, left = gather(experiment, args.csv)
    if machines and left == 0:
        subprocess.run(["parallel", "--plain", "--will-cite", "--sshloginfile", machines, "--nonall",
                        f"rm -rf ~/{experiment.stage}"], stdin=subprocess.DEVNULL)
    return 1 if failed or left else 0


def runs_a_process(left: list[Row]) -> int:
    """Returns how many runs a process makes, which takes longer to start than a short run."""
    longest = max(map(seconds_of, left), default=0)
    return max(1, min(MOST_RUNS, int(SHARED_SECONDS / max(longest, 1e-9)), -(-len(left) // LEAST_PROCESSES)))


def parallel(folder: pathlib.Path, words: list[str], variables: Mapping[str, str] = os.environ) -> int:
    """Runs GNU parallel, which handles SIGINT itself, kills what it leaves, and returns its exit status. SIGTERM is
    passed to it as SIGINT. It gets SIGINT too when this process is killed. Both signals wait until it has started."""
    def begin() -> None:
        one.set_process(one.PR_SET_PDEATHSIG, signal.SIGINT)
        signal.pthread_sigmask(signal.SIG_UNBLOCK, stops)

    stops = {signal.SIGINT, signal.SIGTERM}
    signal.pthread_sigmask(signal.SIG_BLOCK, stops)
    one.set_process(one.PR_SET_CHILD_SUBREAPER, 1)
    process = subprocess.Popen(words, cwd=folder, stdin=subprocess.DEVNULL, stdout=subprocess.DEVNULL,
                               env={**variables, "PARALLEL_SHELL": "/bin/sh"}, preexec_fn=begin)
    signal.signal(signal.SIGINT, signal.SIG_IGN)
    signal.signal(signal.SIGTERM, lambda *_: process.send_signal(signal.SIGINT))
    signal.pthread_sigmask(signal.SIG_UNBLOCK, stops)
    status = process.wait()
    one.kill_descendants()
    return status


# Slurm

def slurm(args: Options) -> int:
    """Submits an array that makes the runs that are left, waits for it and for earlier ones of the same CSV, and writes
    the CSV. After an interruption the array continues."""
    experiment, left = begin(args, "sbatch", "slurm-client")
    # Runs that are shorter than a minute share a task.
    usual = min(MOST_TASKS, max(1, math.ceil(sum(map(seconds_of, left)) / LEAST_SECONDS)))
    tasks = min(len(left), int(args.tasks or usual))
    task = str(pathlib.Path(one.__file__).with_name("task"))
    words = ["sbatch", "--wait", f"--array=1-{tasks}", f"--job-name={experiment.stage}", "--dependency=singleton",
             "--output=slurm/%A-%a.log", *args.options, task, experiment.stage]
    (experiment.folder / "slurm").mkdir(exist_ok=True)
    if args.dry_run:
        if left:
            print(f"cd {shlex.quote(str(experiment.folder))} && {shlex.join(words)}")
        print(f"{args.csv}: {len(left)} runs still to run", file=sys.stderr)
        return 0
    if left:
        submit(words, experiment.folder, experiment.stage)
    return 1 if any(gather(experiment, args.csv)) else 0


def submit(words: Sequence[str], folder: pathlib.Path, name: str, variables: dict[str, str] | None = None) -> None:
    """Submits an array of this name and waits for it. sbatch returns while tasks that were ended still complete, and
    their logs then lack what Slurm says of them."""
    subprocess.run(words, cwd=folder, env=variables, stdin=subprocess.DEVNULL, stdout=sys.stderr)
    end = time.monotonic() + COMPLETING
    completing = ["squeue", "--noheader", f"--name={name}", "--states=completing"]
    with contextlib.suppress(FileNotFoundError):
        while time.monotonic() < end and subprocess.run(completing, capture_output=True).stdout.strip():
            time.sleep(0.1)


def seconds_of(run: Row) -> float:
    """Returns about how many seconds a run takes. A command without a time, or a run of an instance that pfs rejects,
    needs a whole task."""
    if run["limit"]:
        return float(run["limit"])
    numbers = [run[column] for column in ("jobs", "machines", "rounds", "take", "passes")]
    if not all(map(str.isdigit, numbers)):
        return LEAST_SECONDS
    jobs, machines, rounds, take, passes = map(int, numbers)
    round_cells = 2 * take * (2 * jobs - take) + passes * jobs * (4 * jobs - 2)
    return SECONDS_A_CELL * machines * (2 * jobs * jobs + rounds * round_cells)


# Results

def is_done(status: str | None, retry: bool) -> bool:
    """Whether a run with a result of this status, or without one, isn't made again."""
    return status is not None and not KILLED.fullmatch(status) and (status == "ok" or not retry)


def results_of(folder: pathlib.Path) -> Iterator[Row]:
    """Yields the complete results of runs, each with its order file, a later one of a run after an earlier one."""
    files = [path for path in (folder / "results").iterdir() if not path.suffix]
    for path in sorted(files, key=lambda path: path.stat().st_mtime_ns):
        data = path.read_bytes()
        while length := LENGTH.match(data):
            text, data = data[length.end():][:int(length[1])], data[length.end() + int(length[1]):]
            result = result_of(text) if len(text) == int(length[1]) else None
            if result:
                yield result


def result_of(data: bytes) -> Row | None:
    """Returns the result of a run, with its order file; None if it is incomplete."""
    try:
        text = data.decode()
        order, _, last = f"\n{text}".removesuffix("\n").rpartition("\n")
        row: list[str] = next(csv.reader(io.StringIO(last)), [])
    except (UnicodeDecodeError, csv.Error):
        return None
    if not text.endswith("\n") or not 6 <= len(row) <= len(RESULT):
        return None
    result = {**dict(zip(RESULT, row)), "order": f"{order[1:]}\n" if order else ""}
    numbers = ",".join(row[1:3] + row[4:5])
    is_whole = re.fullmatch(r"[0-9]{1,18},[0-9]{1,18},[0-9]{1,12}\.[0-9]{6}", numbers) and result["order"]
    return result if result["status"] != "ok" or is_whole else None


def endings(folder: pathlib.Path, made: Container[str]) -> Row:
    """Returns the errors of runs without a result, by their numbers, from the logs of GNU parallel and Slurm. Of the
    runs of a process that was killed, the first one without a result was under way, and the later ones are left."""
    found: Row = {}
    with contextlib.suppress(FileNotFoundError):
        text = (folder / "joblog").read_bytes().decode(errors="replace")
        for status, number_of_signal, numbers in LOGGED.findall(text):
            for number in [number for number in re.split("[ ,]", numbers[1:]) if number not in made][:1]:
                found[number] = f"lost: exit {status}, signal {number_of_signal}"
    for log in sorted((folder / "slurm").glob("*.log"), key=lambda path: path.stat().st_mtime_ns):
        text = log.read_bytes().decode(errors="replace")
        last = re.findall(r"^run ([0-9]+)$", text, re.MULTILINE)
        errors = re.findall(r"^slurmstepd\S*: error: (.*)", text, re.MULTILINE)
        if last and errors:
            found[last[-1]] = f"lost: {errors[0]}"
    return found


# The CSV

def path_cell(path: str) -> str:
    """Returns an equivalent path that a spreadsheet shows as text."""
    return f"./{path}" if FORMULA.match(path) else path


def status(args: Options) -> int:
    """Writes the CSV of the runs that have ended so far, while the others continue."""
    return 1 if any(gather(folders.started(args.csv), args.csv)) else 0


def gather(experiment: Experiment, csv_path: str) -> tuple[int, int]:
    """Writes the CSV, one process at a time, so that no later one has fewer runs."""
    held = folders.opened(experiment.folder / "csv.lock")
    try:
        fcntl.flock(held, fcntl.LOCK_EX)
        return write_csv(experiment, csv_path)
    finally:
        os.close(held)


def write_csv(experiment: Experiment, csv_path: str) -> tuple[int, int]:
    """Writes the order files and the CSV of the runs that have ended. Reports and returns the numbers of runs that
    failed and that are missing."""
    (experiment.folder / "orders").mkdir(exist_ok=True)
    by_number, proofs = {run["number"]: run for run in experiment.runs}, proofs_of(experiment.folder)
    made = {result["number"]: with_order(experiment.folder, by_number[result["number"]], result)
            for result in results_of(experiment.folder) if result["number"] in by_number}
    lost = {number: {"status": status} for number, status in endings(experiment.folder, made).items()}
    results = [(run, found) for run in experiment.runs if (found := made.get(run["number"]) or lost.get(run["number"]))]
    rows = [row_of(run, found, experiment.reference, proofs) for run, found in results]
    more = [column for column in ("time_factor", "method", "trajectory", "proved_bound")
            if any(row.get(column) for row in (*experiment.runs, *rows))]
    columns = [*COLUMNS, *more]
    write_text(csv_path, csv_text([columns, *([*map(row.get, columns)] for row in rows)]))
    failed, left = sum(row["status"] != "ok" for row in rows), len(experiment.runs) - len(rows)
    report_errors(rows)
    killed = sum(int(row.get("left") or 0) for row in rows)
    if killed:
        print(f"processes that commands left when they ended, and that were killed: {killed}", file=sys.stderr)
    print(f"{csv_path}: {len(rows)} runs, {failed} of them failed, {left} still to run", file=sys.stderr)
    return failed, left


class Proved(TypedDict):
    """What `prove` has proved of an instance: a bound, the makespan of the shortest order that is known, and its file
    if no run has found it."""
    bound: int
    makespan: int
    order: str


class Proof(Proved, total=False):
    """With where the search began, its nodes and processor seconds, how many parts are open, its proof file, and what
    it was made with."""
    start: str
    seed: str
    nodes: int
    seconds: float
    open: int
    proof: str
    version: str
    program: str
    library: str
    instance: str


def proofs_of(folder: pathlib.Path) -> dict[str, Proof]:
    """Returns what `prove` has proved, by the names of the instances."""
    path = folder / PROOFS
    if not path.exists():
        return {}
    try:
        found = json.loads(path.read_bytes())
    except ValueError:
        found = None
    if not isinstance(found, dict) or not all(
            isinstance(each, dict) and [*map(type, map(each.get, ("bound", "makespan", "order")))] == [int, int, str]
            and 0 <= each["bound"] <= each["makespan"] for each in found.values()):
        raise ExperimentError(f"{path} is damaged: delete it, and prove again")
    return found


def whole(path: str, row: Row, column: str) -> int:
    """Returns the number in a cell of a CSV, which pandas may have written as 3967.0."""
    match = re.fullmatch(r" *([0-9]{1,18})(?:\.0*)? *", row[column])
    if not match:
        raise ExperimentError(f"{path}: {row['instance']}: {row[column][:40]!r} is not a whole {column}")
    return int(match[1])


def with_order(folder: pathlib.Path, run: Row, result: Row) -> Row:
    """Writes the order file of a result, and returns the result with its path."""
    if not result["order"]:
        return result
    path = folder / "orders" / order_name(run)
    if not path.exists() or path.read_bytes() != result["order"].encode():
        write_text(path, result["order"])
    return result | {"order": path_cell(f"{folder.name}/orders/{path.name}")}


def row_of(run: Row, result: Row, reference: Reference, proofs: dict[str, Proof]) -> Row:
    """Returns the row of a run, of the columns of the CSV that have a value."""
    row = {**run, **{column: cell for column, cell in result.items() if cell}, "method": text_cell(run["method"]),
           "instance": path_cell(run["instance"]), "status": text_cell(result["status"])}
    if result["status"] == "ok":
        makespan, bound = int(result["makespan"]), int(result["bound"])
        row["gap_percent"] = f"{100 * (makespan - bound) / bound:.4f}" if bound else "0.0000"
    if run["instance"] in proofs:
        row["proved_bound"] = str(proofs[run["instance"]]["bound"])
    known = reference_for(reference, run["instance"])
    return row | ({"reference": str(known[0]), "source": text_cell(known[1])} if known else {})


def report_errors(rows: list[Row]) -> None:
    """Reports the first error of each kind, with its run. Errors of the same kind differ only in numbers."""
    kinds: dict[str, list[Row]] = {}
    for row in rows:
        if row["status"] != "ok":
            kinds.setdefault(re.sub("[0-9]+", "0", row["status"]), []).append(row)
    for failed in list(kinds.values())[:MOST_KINDS]:
        first = ", ".join(f"{column.replace('_', ' ')} {failed[0][column]}" for column in DISTINCT
                          if failed[0].get(column))
        more = f" and {len(failed) - 1} more" if len(failed) > 1 else ""
        print(plain(f"{failed[0]['instance']} ({first}){more} failed: {failed[0]['status']}"), file=sys.stderr)
    if len(kinds) > MOST_KINDS:
        print(f"{len(kinds) - MOST_KINDS} more kinds of errors", file=sys.stderr)


def order_name(run: Row) -> str:
    """Returns the name of a run's order file. It has the number of the run, as instances in several folders may have
    the same name."""
    file = os.path.basename(run["instance"]).encode()[:100].decode(errors="ignore").replace(":", "-block-")
    parts = [f"{column}-{run[column]}" for column in (*SAME[2:], "number") if run[column]]
    return "-".join([file, *parts])


# Audits

def check(args: Options) -> int:
    """Audits each order of a CSV again, with the copies of the instances next to it, and compares the output with the
    CSV. Prints each wrong row, and the number of orders."""
    rows = [row for row in rows_of(args.csv, NEEDED) if row["status"] == "ok"]
    experiment, program = folders.started(args.csv), folders.find_pfs(args.pfs)
    listed = {same({**run, "instance": path_cell(run["instance"]), "method": text_cell(run["method"])}): run
              for run in experiment.runs}
    count = others = 0
    for row in rows:
        made = listed.get(same(row))
        fault = wrong(args.csv, row, program, experiment, made)
        if fault:
            count, others = count + (made is not None), others + (made is None)
            print(plain(", ".join(f"{column} {row[column]}" for column in SAME if row.get(column)) + f": {fault}"))
    print(f"{args.csv}: {len(rows) - others} orders audited, {count} of them wrong"
          + (f"; {others} rows are of no run in {experiment.folder.name}, and not audited" if others else ""))
    return 1 if count else 2 if others else 0


def same(row: Row) -> tuple[str, ...]:
    """Returns what identifies a run, with numbers as pandas may have written them. Runs by time have other rounds in
    the CSV than in the list of runs."""
    texts = {column: "" if row.get("time_factor") and column == "rounds" else row.get(column, "") for column in SAME}
    return tuple(text if column in SAME[:2] else WRITTEN.sub(r"\1", text.strip()) for column, text in texts.items())


def wrong(path: str, row: Row, program: str, experiment: Experiment, run: Row | None) -> str:
    """Returns what is wrong with a row, or an empty text."""
    folder = experiment.folder
    if run is None:
        return f"the run is not in {folder.name}"
    if not row["order"]:
        return "the run has no order file"
    words = [program, "check", "--layout", run["layout"], "--block", run["block"], run["file"],
             str(folder.parent / row["order"])]
    done = subprocess.run(words, cwd=folder / experiment.stage, stdin=subprocess.DEVNULL, capture_output=True,
                          text=True, errors="replace")
    printed = " ".join((done.stdout + done.stderr).split()).removesuffix(" optimal")
    expected = f"valid makespan {whole(path, row, 'makespan')} bound {whole(path, row, 'bound')}"
    return "" if printed == expected else f"{row['order']}: {printed or 'no output'}, but the CSV has {expected}"
