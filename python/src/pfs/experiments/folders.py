"""The folder of a plan's runs, next to its CSV: the list of the runs, and the stage, a folder with copies of all files
that they read. And Taillard's instances."""
from __future__ import annotations

import contextlib
import datetime
import fcntl
import filecmp
import hashlib
import itertools
import json
import os
import pathlib
import platform
import re
import secrets
import shutil
import subprocess
import sys
from collections.abc import Iterable, Iterator
from typing import Any, NamedTuple

from pfs.base import order_text
from pfs.base.atomic import atomic_write
from pfs.base.benchmarks import taillard_rows
from pfs.base.checkout import version
from pfs.binding import rounds as searches
from pfs.experiments import ExperimentError, Options, listed, one, plain
from pfs.experiments.plan import (OF_ITERATED, Reference, Row, is_iterated, read_plan, reference_for, reference_of,
                                  usual_of)

# What plan.json has of a run: columns of the CSV, its number, the copy of its instance, and the seconds of a search by
# time. Unknown values are empty, and hyphens in runs.tsv, which is made of it: a line for each number.
RUN = list(one.Run._fields)
# The columns that identify a run.
KEY = ["file", "block", "method", "rounds", "time_factor", "take", "passes", "seed", "repetition"]
# Those that don't change a search of 0 rounds.
OF_ROUNDS = ["take", "passes", "seed"]
# What `pfs generate 1 1 1` prints.
ONE_JOB = b"1 1 1 0 0\nprocessing times :\n1\n"
# The programs in the stage that search and audit.
OWN = ("pfs", "one", "rounds.py", "order_text.py")
# Seconds after which a program that doesn't behave like pfs is killed.
PATIENCE = 20


class Experiment(NamedTuple):
    """The folder of a plan's runs, the name of its stage, the runs in the order of the CSV, and the reference."""
    folder: pathlib.Path
    stage: str
    runs: list[Row]
    reference: Reference


def write_text(path: str | os.PathLike[str], text: str) -> None:
    """Replaces the content of a file atomically."""
    atomic_write(path, text.encode(errors="backslashreplace"))


def check_output(path: str | pathlib.Path | None, inputs: Iterable[str | pathlib.Path | None],
                 what: str = "file") -> None:
    """Rejects an output that would replace a file that is read."""
    for each in inputs if path and os.path.exists(path) else ():
        if each is not None and os.path.exists(each) and os.path.samefile(each, str(path)):
            raise ExperimentError(f"{path} is read, and writing would replace it: name another {what}")


def find_pfs(program: str | None) -> str:
    """Returns the absolute path of the program, which must be pfs. At most 1,000 bytes of its output are read."""
    if program is None:
        raise ExperimentError("pfs is not on the path: pass it with --pfs")
    if not os.access(program, os.X_OK) or os.path.isdir(program):
        raise ExperimentError(f"{program} is not a program")
    line = f'timeout -s KILL {PATIENCE} "$0" generate 1 1 1 < /dev/null 2> /dev/null | head -c 1000'
    if not subprocess.run(["sh", "-c", line, os.path.abspath(program)], capture_output=True).stdout.endswith(ONE_JOB):
        raise ExperimentError(f"{program} is not pfs: `{program} generate 1 1 1` must print an instance")
    return os.path.abspath(program)


def taillard(args: Options) -> int:
    """Writes Taillard's 120 instances into a folder, as files ta001 to ta120."""
    pfs = find_pfs(args.pfs)
    args.folder.mkdir(parents=True, exist_ok=True)
    for name, *numbers, _, _ in taillard_rows():
        words = [pfs, "generate", *map(str, numbers)]
        done = subprocess.run(words, stdin=subprocess.DEVNULL, capture_output=True)
        if done.returncode != 0:
            raise ExperimentError(f"{' '.join(words)} failed: exit {done.returncode}")
        atomic_write(args.folder / name, done.stdout)
    return 0


def folder_of(csv_path: str) -> pathlib.Path:
    return pathlib.Path(f"{os.path.abspath(csv_path)}.d")


def prepare(plan_path: str, csv_path: str, program: str | None) -> Experiment:
    """Prepares the folder of a plan's runs. If it exists, the experiment continues with its program, its instances and
    its runs, and new runs of the plan are added. The folder is complete if it has the file plan.json."""
    plan, top, folder = read_plan(plan_path), os.path.dirname(os.path.abspath(plan_path)), folder_of(csv_path)
    reference = checked_reference(plan, top, plan_path) if plan["reference"] else {}
    files = [name for each in plan["methods"] for name in each.get("files", [])]
    check_output(csv_path, [plan_path, *(os.path.join(top, name) for name in
                                         [*plan["instances"], *files, plan["reference"] or plan_path])])
    if os.path.isdir(csv_path):
        raise ExperimentError(f"{csv_path}: Is a directory")
    if not folder.name.isprintable():
        raise ExperimentError(f"{csv_path}: the name of a CSV must be UTF-8 without control characters")
    folder.mkdir(parents=True, exist_ok=True)
    lock(folder, csv_path)
    try:
        if not (folder / "plan.json").exists():
            begin(folder, find_pfs(program))
        stored = {"places": {}, "runs": [], "methods": [], "layout": plan["layout"], **stored_plan(folder)}
        commands = commands_of(plan)
        others = {"layout": stored["layout"] != plan["layout"],
                  "command or search": any(commands.get(name, was) != was for name, was in commands_of(stored).items())}
        for what in filter(others.get, others):
            raise ExperimentError(f"{csv_path} was started with another {what}: use another CSV")
        stage = folder / stage_of(folder)
        inputs = copied_inputs(plan, stored["places"], top, stage)
        runs = add_runs(plan, stored, reference, stage, csv_path)
        note_start(stage, plan, inputs)
        changed = [name for to, name in inputs.items() if not is_copy(stage / to, os.path.join(top, name))]
        if changed:
            text = (f"{csv_path}: changed since they were copied for its runs: {', '.join(changed)}. The copies are "
                    f"used: to begin anew, name another CSV or delete {csv_path}.d")
            print(plain(text), file=sys.stderr, flush=True)
        return Experiment(folder, stage.name, runs, reference)
    except BaseException:
        if not (folder / "plan.json").exists():
            shutil.rmtree(folder, ignore_errors=True)
        raise


def checked_reference(plan: dict[str, Any], top: str, plan_path: str) -> Reference:
    """Returns the reference of a plan, which must name an instance. Reports the instances that it lacks."""
    reference = reference_of(os.path.join(top, plan["reference"]))
    names = [label_of(plan, name, block) for name in plan["instances"] for block in plan["blocks"]]
    lacking = [name for name in names if reference_for(reference, name) is None]
    if lacking == names:
        raise ExperimentError(f"{plan_path}: the reference {plan['reference']} names none of the instances: it has "
                              f"{next(iter(reference))}, and the plan {names[0]}")
    if lacking:
        print(plain(f"{plan['reference']} lacks {len(lacking)} of {len(names)} instances: {listed(lacking, 5)}"),
              file=sys.stderr)
    return reference


def label_of(plan: dict[str, Any], name: str, block: object) -> str:
    """Returns the name of an instance in the CSV."""
    return name if plan["blocks"] == [1] else f"{name}:{block}"


def opened(lock: pathlib.Path) -> int:
    """Opens a file that is a lock. Child processes don't inherit it, and no link is followed."""
    return os.open(lock, os.O_RDWR | os.O_CREAT | os.O_NOFOLLOW, 0o666)


def lock(folder: pathlib.Path, csv_path: str) -> None:
    """Waits for the lock of the folder, which names the process that has it, and is free when this process ends."""
    file = opened(folder / "lock")
    try:
        fcntl.flock(file, fcntl.LOCK_EX | fcntl.LOCK_NB)
    except BlockingIOError:
        print(f"waiting for process {os.read(file, 100).decode()}, which is already running {csv_path}",
              file=sys.stderr, flush=True)
        fcntl.flock(file, fcntl.LOCK_EX)
    with contextlib.suppress(OSError):  # a full disk
        os.ftruncate(file, 0)
        os.pwrite(file, f"{os.getpid()} on {os.uname().nodename}".encode(), 0)


# Copies

def begin(folder: pathlib.Path, pfs: str) -> None:
    """Makes the stage, after removing what a start has left that was killed."""
    for half_done in folder.glob("pfs-experiment-*"):
        shutil.rmtree(half_done)
    stage = folder / f"pfs-experiment-{secrets.token_hex(6)}"
    (folder / "results").mkdir(exist_ok=True)
    for source, name in zip((pfs, one.__file__, searches.__file__, order_text.__file__), OWN):
        copy(source, stage / name)
        (stage / name).chmod(0o755)


def copy(source: str, to: pathlib.Path) -> None:
    """Copies a file, unless the copy exists. A copy is always complete."""
    if not to.exists():
        new = to.with_name(f"{to.name}.new")
        new.unlink(missing_ok=True)
        to.parent.mkdir(parents=True, exist_ok=True)
        shutil.copy(source, new)
        os.replace(new, to)


def is_copy(copy: pathlib.Path, source: str) -> bool:
    """Whether a file has not changed since it was copied. One that is gone has not."""
    return not os.path.isfile(source) or filecmp.cmp(source, copy, shallow=False)


def copied_inputs(plan: dict[str, Any], places: dict[str, int], top: str, stage: pathlib.Path) -> dict[str, str]:
    """Copies what the runs need: a command with its files, or the library for searches that the program doesn't make,
    and the instances. Returns the names of the files and the instances, by their copies."""
    (stage / "files").mkdir(exist_ok=True)
    if any("command" not in each and ("time_factors" in each or is_iterated(each)) for each in plan["methods"]):
        copy(library(), stage / one.LIBRARY)
    inputs = {f"files/{name}": name for each in plan["methods"] for name in each.get("files", [])}
    inputs |= {f"instances/{places.setdefault(name, len(places) + 1)}": name for name in plan["instances"]}
    for to, name in inputs.items():
        copy(os.path.join(top, name), stage / to)
    return inputs


def library() -> str:
    """Returns the path of the library for C that the package loads, which may be known by its name only."""
    from pfs.binding.library import FILE, PATH
    loaded = re.search(rf"/.*{re.escape(FILE)}$", pathlib.Path("/proc/self/maps").read_text(), re.MULTILINE)
    return PATH if "/" in PATH or loaded is None else loaded[0]


def note_start(stage: pathlib.Path, plan: dict[str, Any], inputs: dict[str, str]) -> None:
    """Writes what the runs were made with, the version, the plan and the sums of the copies, and adds this start to the
    earlier ones, unless the file of these is damaged. Where the program and the library were is left out: every version
    of them finds the same orders."""
    path, starts = stage.parent / "provenance.json", []
    with contextlib.suppress(OSError, ValueError, RecursionError, KeyError, TypeError):
        starts = list(json.loads(path.read_bytes())["starts"])
    processor = re.search(r"(?m)^model name\s*: *(.*)", pathlib.Path("/proc/cpuinfo").read_text("latin-1"))
    starts.append({"at": datetime.datetime.now(datetime.timezone.utc).isoformat(timespec="seconds"),
                   "host": os.uname().nodename, "processor": processor[1] if processor else platform.processor(),
                   "processors": os.cpu_count(), "system": platform.platform(), "python": platform.python_version()})
    sums = {name: hashlib.sha256((stage / to).read_bytes()).hexdigest()
            for to, name in {"pfs": "pfs", one.LIBRARY: one.LIBRARY, **inputs}.items() if (stage / to).exists()}
    text = json.dumps({"version": version(), "plan": plan, "sha256": sums, "starts": starts}, indent=1)
    write_text(path, f"{text}\n")


# The runs

def commands_of(plan: dict[str, Any]) -> dict[str, list[str] | dict[str, Any] | None]:
    """Returns the command line of each method, the options of a search that also accepts longer orders, or None for
    pfs."""
    return {each["method"]: each.get("command") or (
                {key: each[key] for key in OF_ITERATED if key in each} if is_iterated(each) else None)
            for each in plan["methods"]}


def add_runs(plan: dict[str, Any], stored: dict[str, Any], references: Reference, stage: pathlib.Path,
             csv_path: str) -> list[Row]:
    """Adds the plan's new instances and runs to the folder, and returns all runs in the order of the plan. A run keeps
    its number."""
    folder, added, runs = stage.parent, stored["runs"], dict[tuple[str, ...], Row]()
    known = {key_of(run): run for run in added}
    for run in planned_runs(plan, stored, stage):
        key = key_of(run)
        kept = {column: known[key][column] for column in ("number", *OF_ROUNDS)} if key in known else {}
        if key not in runs:
            runs[key] = run | (kept or {"number": str(len(added) + 1)})
            added += [] if kept else [runs[key]]
    gone = known.keys() - runs.keys()
    if gone:
        what = ", ".join(f"{column} {value}" for column, value in zip(KEY[1:], min(gone)[1:]) if value)
        raise ExperimentError(f"{csv_path} was started with another plan, which has {what}: use another CSV, or delete "
                              f"{folder}")
    write_text(stage / "commands.json", json.dumps(commands_of(plan)))
    write_text(stage / "runs.tsv", table_of(added))
    write_text(folder / "plan.json", json.dumps({**plan, "references": references, "places": stored["places"],
                                                 "runs": added, "order": [run["number"] for run in runs.values()]}))
    return list(runs.values())


def started(csv_path: str) -> Experiment:
    """Returns an experiment as it was last started."""
    folder = folder_of(csv_path)
    plan = stored_plan(folder)
    if not plan:
        raise ExperimentError(f"{csv_path} was not started: {folder.name} is missing")
    return Experiment(folder, stage_of(folder), plan["order"], plan.get("references", {}))


def table_of(runs: list[Row]) -> str:
    return "".join("\t".join(run[column] or "-" for column in RUN) + "\n" for run in runs)


def key_of(run: Row) -> tuple[str, ...]:
    return tuple("" if run["rounds"] == "0" and column in OF_ROUNDS else run[column] for column in KEY)


def planned_runs(plan: dict[str, Any], stored: dict[str, Any], stage: pathlib.Path) -> Iterator[Row]:
    """Yields the runs of a plan, but for their numbers, in the order of the CSV, instance by instance."""
    sizes = {(run["file"], run["block"]): (run["jobs"], run["machines"]) for run in stored["runs"]}
    for name, block in itertools.product(plan["instances"], map(str, plan["blocks"])):
        file, label = f"instances/{stored['places'][name]}", label_of(plan, name, block)
        jobs, machines = sizes.get((file, block)) or size_of(stage, "--from", plan["layout"], "--block", block, file)
        for method in plan["methods"]:
            for numbers in settings_of(method, jobs, machines, label):
                yield dict(zip(RUN, ("", file, plan["layout"], block, *numbers, jobs, machines, label,
                                     method["method"], "yes" if method.get("anytime") else "")))


def settings_of(method: dict[str, Any], jobs: str, machines: str, label: str) -> Iterator[tuple[str, ...]]:
    """Yields the rounds, seconds, take, passes, seed, repetition and time factor of each run of a method on an
    instance, whose size is unknown if pfs rejects it."""
    is_pfs = "command" not in method
    usual = str(min(usual_of(method).take, int(jobs))) if jobs and is_pfs else ""
    # the milliseconds of a time factor are jobs times half the machines times the factor
    unit = int(jobs) * int(machines) / 2000 if jobs else 0
    budgets = [(str(rounds), "", "") for rounds in method["rounds"]]
    budgets += [("", decimal(unit * factor), decimal(factor)) for factor in method.get("time_factors", [])]
    for (rounds, seconds, factor), take, passes, seed, repetition in itertools.product(
            budgets or [("", "", "")], map(str, method["takes"] or [usual]), method["passes"] if is_pfs else [""],
            method["seeds"], range(1, method["repetitions"] + 1)):
        if jobs and take and int(take) > int(jobs):
            raise ExperimentError(f"takes has {take}, but {label} has only {jobs} jobs")
        yield rounds, seconds, take, str(passes), str(seed), str(repetition), factor


def decimal(number: float) -> str:
    return f"{number:.9f}".rstrip("0").rstrip(".")


def size_of(stage: pathlib.Path, *words: str) -> tuple[str, str]:
    """Returns the jobs and machines of an instance, as texts, which are empty if pfs rejects it."""
    done = subprocess.run(["./pfs", "convert", "--to", "orlib", *words], cwd=stage, capture_output=True)
    size = re.match(rb"flow shop instance\n([0-9]+) ([0-9]+)", done.stdout)
    return (size[1].decode(), size[2].decode()) if size else ("", "")


def stored_plan(folder: pathlib.Path) -> dict[str, Any]:
    """Returns the stored plan, with the places of the instances, the runs, and the runs in the order of the CSV. It is
    empty in a new folder."""
    path = folder / "plan.json"
    try:
        stored = json.loads(path.read_bytes().decode())
        for number, run in enumerate(stored["runs"], 1):
            if (run["number"], [*run]) != (str(number), RUN):
                raise ValueError(f"run {number}")
        return {**stored, "order": [stored["runs"][int(number) - 1] for number in stored["order"]]}
    except FileNotFoundError:
        return {}
    except (ValueError, RecursionError, LookupError, TypeError) as error:
        raise ExperimentError(f"{path} is damaged, or of another version ({error}): delete the folder {folder.name} to "
                              "start again") from None


def stage_of(folder: pathlib.Path) -> str:
    """Returns the name of the stage."""
    for stage in folder.glob("pfs-experiment-*"):
        return stage.name
    raise ExperimentError(f"{folder} has no copy of the program: delete it to start again")
