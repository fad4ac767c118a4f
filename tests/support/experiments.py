"""Plans of experiments, the CSV that must come of them, and programs in the place of pfs that wait or fail."""
import itertools
import os
import pathlib
import re
import subprocess
from collections.abc import Callable, Iterable, Iterator
from contextlib import contextmanager, suppress
from typing import IO, Any, NamedTuple

import pytest
from support.needs import tool
from support.program import Program
from support.tools import Done, csv_rows, run_tool, with_path, write_script

PLAN = 'instances = ["shops/*"]\nrounds = [10, 30]\nseeds = [1, 2, 3]\n'
# A shorter one.
HALF = PLAN.replace("[10, 30]", "[10]")
SHOPS = {"a": (20, 5, 873654221), "b": (3, 2, 7)}
HEAD = ("instance,jobs,machines,rounds,take,passes,seed,repetition,makespan,bound,gap_percent,cells,seconds,status,"
        "order,reference,source").split(",")
# The columns that two starts of a run have in common.
SAME = [column for column in HEAD[:14] if column != "seconds"]

# A replacement of pfs: it notes its arguments, then waits at the gate, a pipe, as long as there is one, and in these
# cases does something else, unless the file `fixed` exists.
REPLACEMENT = """#!/bin/sh
pfs={pfs}
case "$1" in solve)
    echo "$*" >> {folder}/notes
    if [ -p {folder}/gate ]; then read -r line < {folder}/gate; fi ;;
esac
test -e {folder}/fixed || case "$*" in
{cases}
esac
exec $pfs "$@"
"""
Row = tuple[str, ...]


class Experiment(NamedTuple):
    """A folder with shops and a plan, and the program that its runs are made with."""
    scripts: pathlib.Path
    folder: pathlib.Path
    pfs: Program

    def plan(self, text: str) -> "Experiment":
        (self.folder / "plan.toml").write_text(text)
        return self

    def words(self, name: str, *words: str, program: pathlib.Path | None = None) -> list[str | pathlib.Path]:
        given = ["--pfs", str(program or self.pfs.path)] if name in ("run", "slurm", "check", "taillard") else []
        return [self.scripts / "pfs-experiments", name, *given, *words]

    def script(self, name: str, *words: str, program: pathlib.Path | None = None, **how: Any) -> Done:
        """Runs a command of pfs-experiments."""
        return run_tool(self.words(name, *words, program=program), self.folder, **how)

    def run(self, csv_name: str = "out.csv", *words: str, program: pathlib.Path | None = None, **how: Any) -> Done:
        """Makes the runs of the plan by GNU parallel."""
        return self.script("run", "plan.toml", csv_name, *words, program=program, **how)

    def printed(self, *words: str) -> str:
        ran = self.pfs.run(words, self.folder)
        assert ran.status == 0, ran
        return ran.stdout.decode()

    def wanted(self, rounds: Iterable[int] = (10, 30), seeds: Iterable[int] = (1, 2, 3), takes: Iterable[int] = (4,),
               repetitions: int = 1, shops: Iterable[str] = SHOPS) -> list[Row]:
        """The rows of the plan, each by its own search and audit."""
        rows = []
        for name, count, take, seed, repetition in itertools.product(shops, rounds, takes, seeds,
                                                                     range(1, repetitions + 1)):
            shop, (jobs, machines, _), take = f"shops/{name}", SHOPS[name], min(take, SHOPS[name][0])
            words = ["--rounds", str(count), "--take", str(take), "--seed", str(seed), "--cells", shop]
            *order, cells = self.printed("solve", "--layout", "taillard", *words).splitlines(keepends=True)
            (self.folder / "order").write_text("".join(order))
            verdict = self.printed("check", "--layout", "taillard", shop, "order").splitlines()
            makespan, bound = (int(verdict[line].split()[1]) for line in (1, 2))
            numbers = (jobs, machines, count, take, 0, seed, repetition, makespan, bound)
            rows.append((shop, *map(str, numbers), f"{(makespan / bound - 1) * 100:.4f}", cells.split()[1], "ok"))
        return rows

    def rows(self, name: str = "out.csv") -> list[Row]:
        """The rows of a CSV, but for the seconds, the order file and the reference."""
        return self.columns(*SAME, csv_name=name)

    def columns(self, *names: str, csv_name: str = "out.csv") -> list[Row]:
        return [tuple(row[name] for name in names) for row in csv_rows(self.folder / csv_name)]

    @property
    def runs(self) -> pathlib.Path:
        """The folder of the runs."""
        return self.folder / "out.csv.d"

    # Programs that wait or fail

    def replacement(self, cases: str = "") -> pathlib.Path:
        return write_script(self.folder / "program", REPLACEMENT.format(pfs=self.pfs.path, folder=self.folder,
                                                                        cases=cases))

    def parallel(self, text: str) -> dict[str, str]:
        """An environment with a script of this text in the place of GNU parallel."""
        return with_path(write_script(self.folder / "bin" / "parallel", f"#!/bin/sh\n{text}\n").parent)

    @contextmanager
    def gate(self) -> Iterator[Callable[[int], object]]:
        """The gate, which is shut until the block ends, but for as many searches as the function is called with."""
        path = self.folder / "gate"
        os.mkfifo(path)
        end = os.open(path, os.O_RDWR)
        try:
            yield lambda count: os.write(end, b"\n" * count)
        finally:
            path.unlink()
            os.close(end)

    def start(self, *words: str, name: str = "run", env: dict[str, str] | None = None,
              stderr: int | IO[bytes] = subprocess.DEVNULL) -> subprocess.Popen[Any]:
        """Starts the plan with the program that waits. A script before GNU parallel notes its process."""
        env = env or self.parallel(f"echo $$ > {self.folder}/parallel\nexec {tool('parallel')} \"$@\"")
        return subprocess.Popen(self.words(name, "plan.toml", "out.csv", *words, program=self.replacement()),
                                cwd=self.folder, env=env, stdin=subprocess.DEVNULL, stdout=subprocess.DEVNULL,
                                stderr=stderr, start_new_session=True)

    def started(self) -> list[str]:
        """The searches that were started, by their words."""
        notes = self.folder / "notes"
        return notes.read_text().splitlines() if notes.exists() else []

    def searches(self) -> dict[str, int]:
        """How often each run's search was started."""
        started = [(*line.split()[2:7:2], line.split()[-1]) for line in self.started()]
        table, = self.runs.glob("pfs-experiment-*/runs.tsv")
        runs = [line.split("\t") for line in table.read_text().splitlines()]
        return {run[0]: started.count((run[4], run[7], run[8], run[1])) for run in runs}

    def done(self) -> set[str]:
        """The numbers of the runs that have a whole result."""
        texts = [path.read_text() for path in (self.runs / "results").glob("*[0-9]")]
        return {number for text in texts for number in re.findall(r"^(\d+),\d+,.*,ok,.*$", text, re.MULTILINE)}

    def written(self) -> dict[str, int]:
        """When each result was written."""
        return {path.name: path.stat().st_mtime_ns for path in (self.runs / "results").iterdir()}

    def left(self) -> list[str]:
        """The processes that starts have left in the folder of the runs."""
        found = []
        for process in pathlib.Path("/proc").glob("[0-9]*"):
            with suppress(OSError):
                if os.readlink(process / "cwd").startswith(str(self.runs)):
                    found.append((process / "cmdline").read_text())
        return found


@pytest.fixture
def experiment(scripts: pathlib.Path, pfs: Program, folder: pathlib.Path) -> Experiment:
    """The shops and the plan, in a new folder."""
    tool("parallel")
    made = Experiment(scripts, folder, pfs)
    (folder / "shops").mkdir()
    for name, size in SHOPS.items():
        (folder / "shops" / name).write_text(made.printed("generate", *map(str, size)))
    return made.plan(PLAN)


@pytest.fixture
def made(experiment: Experiment) -> Experiment:
    """The shorter plan, whose runs are made."""
    done = experiment.plan(HALF).run()
    assert (done.status, done.stdout) == (0, ""), done
    return experiment
