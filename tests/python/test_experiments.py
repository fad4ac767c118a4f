"""The CSV of an experiment has the results of pfs itself: with GNU parallel, here and over ssh, and on a Slurm cluster
of one node, also if its runs were killed at various moments and repeated, and if two experiments start at once."""
import fcntl
import functools
import hashlib
import itertools
import json
import os
import pathlib
import re
import shutil
import signal
import subprocess
import sys
import time
from concurrent.futures import ThreadPoolExecutor
from typing import Any
from unittest import mock

import pfs
import pytest
from hypothesis import given, strategies
from pfs.binding import library as _library, rounds as _rounds
from pfs.binding.rounds import Rounds
from pfs.experiments import ExperimentError, folders, one, plan, run
from support import plainly
from support.experiments import HALF, HEAD, PLAN, Experiment
from support.files import THREE_JOBS
from support.library import Library
from support.needs import missing, tool
from support.program import Program
from support.servers import Cluster, Server
from support.terminals import Terminal
from support.tools import Done, csv_rows, run_tool, wait_until, with_path, write_script

README = (pathlib.Path(__file__).resolve().parents[2] / "experiments" / "README.md").read_text()
on_slurm = pytest.mark.xdist_group("slurm")


def ended(count: int, failed: int = 0, left: int = 0, said: str = "", name: str = "out.csv") -> Done:
    """The result of a start that has made this number of runs."""
    line = f"{name}: {count} runs, {failed} of them failed, {left} still to run\n"
    return Done(1 if failed or left else 0, "", said + line)


def assert_refused(got: Done, *said: str, status: int = 2) -> None:
    """With one line, which has these texts."""
    assert (got.status, got.stdout, got.stderr.count("\n")) == (status, "", 1), got.stderr[-500:]
    assert [text for text in said if text not in got.stderr] == [], got.stderr[-500:]


def prepare(experiment: Experiment) -> folders.Experiment:
    """Prepares the runs of the plan in this process."""
    folder = experiment.folder
    return folders.prepare(str(folder / "plan.toml"), str(folder / "out.csv"), str(experiment.pfs.path))


# Plans and starts

# The instances of a plan, to which other lines may be added.
ALL, ONLY_B = 'instances = ["shops/*"]\n', 'instances = ["shops/b"]\n'
MINE = ALL + 'method = "m"\n'
GRID = MINE + 'command = "a {instance} {x}"\n'
INVALID = {
    "unknown key 'seed'": ALL + "seed = [1]\n", "rounds must be a list of whole numbers": ALL + "rounds = 3\n",
    **{f'{key} needs search = "iterated-greedy"': f"{ALL}{key} = {value}\n"
       for key, value in (("partial", 1), ("ties", '"idle"'), ("temperature", 1))},
    "instances must be a list of paths": "", "instances must be a list of": 'instances = "shops/b"\n',
    "instances must be a list": "instances = []\n", "instances must be": "instances = [1]\n",
    "no file matches none*": 'instances = ["none*"]', "shops is not a file": 'instances = ["sh*"]',
    "no file matches": 'instances = ["shops/\\u0000"]\n', "plan.toml: ": ALL + "rounds = [1\n",
    "takes has 4, but shops/b has only 3 jobs": ALL + "takes = [2, 4]\n",
    "reference must be the path of a CSV": ALL + 'reference = "a\\u0000"\n', "reference must": ALL + "reference = 1\n",
    "none.csv": ALL + 'reference = "none.csv"\n', "no column instance, makespan": ALL + 'reference = "plan.toml"\n',
    "the values are nested too deeply": "x = " + "[" * 5000 + "]" * 5000,
    "command needs method, the name of the program, and files needs command": ALL + 'command = "a {instance}"\n',
    "command needs method": MINE + 'command = ""\n', "command must be a command": MINE + 'command = "\\u0000"\n',
    "command must contain {instance}": MINE + 'command = "a"\n',
    "command: No closing quotation": MINE + """command = "a '{instance}"\n""",
    "{}, but there are only {block}, {instance}, {jobs}, {machines}, {name}, {seconds}, {seed}":
    MINE + 'command = "a {instance} {}"\n', "command contains {x}, but there are only": GRID,
    "command contains {a}, but": MINE + 'command = "a {instance} {e} {d} {c} {b} {a}"\n',
    "command contains {seconds}, which needs time_factors": MINE + 'command = "a {instance} {seconds}"\n',
    "command must contain {block}": MINE + 'blocks = [2]\ncommand = "a {instance}"\n',
    **{f"{key} is for pfs, not for a command": f'{MINE}{key} = {value}\ncommand = "a {{instance}}"\n'
       for key, value in (("rounds", [1]), ("takes", [1]), ("passes", [1]), ("search", '"solve"'))},
    "no file matches a": MINE + 'command = "./a {instance}"\n', "files needs command": MINE + 'files = ["shops/*"]\n',
    "/etc/passwd is not in the plan's folder": MINE + 'command = "a {instance}"\nfiles = ["/etc/passwd"]\n',
    "../": MINE + 'command = "a {instance}"\nfiles = ["../*/shops/a"]\n',
    "a name without control characters": ALL + 'method = "a\\nb"\n', "a name without": ALL + 'method = ""\n',
    **{f"methods must be tables: write [[methods]] before the keys of each{' ' * at}": f"{ALL}methods = {value}\n"
       for at, value in enumerate(("[1]", "[]", "1"))},
    "key 'layout' of methods": ALL + '[[methods]]\nlayout = "orlib"\n',
    "each of methods needs method, a name that no other one has": ALL + "[[methods]]\n[[methods]]\n",
    "anytime is for a command with time_factors": MINE + 'anytime = true\ncommand = "a {instance}"\n',
    "anytime is for a command": ALL + "anytime = true\ntime_factors = [1]\n",
    **{f"grid must be a table of lists, of different numbers or texts, by the names in the command{' ' * at}":
       GRID + text for at, text in enumerate((
           "grid = 3\n", "grid = []\n", "[grid]\n", "[grid]\nx = 1\n", "[grid]\nx = []\n",
           "[grid]\nx = [1, 1]\n", '[grid]\nx = [1, "1"]\n', "[grid]\nx = [true]\n", "[grid]\nx = [[1]]\n",
           '[grid]\nx = ["a\\nb"]\n'))},
    "grid has y, so the command must contain {y}, which has no other meaning": GRID + "[grid]\nx = [1]\ny = [2]\n",
    "grid has seed, so": GRID.replace("{x}", "{seed}") + "[grid]\nseed = [1]\n",
    "grid has x, so": ALL + "[grid]\nx = [1]\n", "command needs": GRID.replace("method", "#") + "[grid]\nx = [1]\n",
}


@pytest.mark.parametrize(("named", "text"), INVALID.items(), ids=INVALID)
def test_an_invalid_plan_is_rejected_with_its_fault(text: str, named: str, experiment: Experiment) -> None:
    error = FileNotFoundError if named == "none.csv" else ExperimentError
    with pytest.raises(error, match=re.escape(named.rstrip())):
        prepare(experiment.plan(text))
    assert sorted(os.listdir(experiment.folder)) == ["plan.toml", "shops"]


# The least and the greatest value of each key, and the step from there to what is rejected.
LIMITS: dict[str, tuple[float, float, float]] = {
    "blocks": (1, 1000, 1), "rounds": (0, 1_000_000, 1), "takes": (1, 5000, 1), "passes": (0, 100, 1),
    "seeds": (0, 2 ** 64 - 1, 1), "time_factors": (0.001, 10_000, 0.0001), "repetitions": (1, 10 ** 18 - 1, 1),
    "partial": (0, 100, 1), "temperature": (0, 1000, 0.01)}


@pytest.mark.parametrize("key", LIMITS)
def test_the_limits_of_a_plan(key: str) -> None:
    what, is_right = plan.VALUES[key]
    least, most, step = LIMITS[key]
    given: list[Any] = [least, most, least - step, most + step, float("nan"), True, str(least)]
    if what.startswith("a list"):
        given = [*([each] for each in given), [], [least, most + step], least, (least,)]
    assert [*map(is_right, given)] == [True, True] + [False] * (len(given) - 2)


def test_readme_has_the_keys_of_a_plan_with_their_defaults_the_columns_and_the_number_of_tasks() -> None:
    keys = README.partition("## Plan")[2].partition("## CSV")[0]
    cells = [[cell.strip() for cell in re.split(r"(?<!\\)\|", line)[1:-1]] for line in keys.splitlines()
             if line.startswith("| `")]
    got = {key: cell for names, _, cell in cells for key, cell in
           zip(re.findall("`(\\w+)`", names), [each.strip() for each in cell.split(",")] * 9)}
    assert got.keys() == plan.KEYS, "the keys in experiments/README.md"
    for key, usual in plan.NUMBERS.items():
        assert got[key] == (f"`{usual}`" if usual is not None else "that of `pfs solve`"), f"the default of {key}"
    assert (got["layout"], got["repetitions"]) == ('`"taillard"`', "`1`")
    columns = re.findall(r"^\| (`.*`) \|", README.partition("## CSV")[2].partition("\n## ")[0], re.MULTILINE)
    assert [name for cell in columns for name in re.findall("`([^`]+)`", cell)] == HEAD
    assert f"Each of at most {run.MOST_TASKS:,} tasks (`--tasks`)" in README


NO_PFS = {"prints nothing": "#!/bin/sh\n", "prints its words": "#!/bin/sh\necho \"$@\"\n",
          "prints without end": "#!/bin/sh\nyes\n", "is a text": "some words\n", "is a binary": "\x7fELF"}
PATHS = {"shops": (2, "shops: Is a directory\n"), "plan.toml": (2, ""), "shops/b": (2, ""), "x" * 255: (4, ""),
         "plan.toml/out.csv": (4, ""), "\udcff.csv": (2, "must be UTF-8 without control characters\n")}
# The status, the arguments, what is said, the text of a program that isn't pfs, and variables.
REFUSED: dict[str, tuple[int, str, str, str, dict[str, str]]] = {
    **{f"the CSV {path[:20]!r}": (how, f"run plan.toml {path}", said, "", {}) for path, (how, said) in PATHS.items()},
    **{f"a program that {what}": (2, "run plan.toml out.csv", "generate 1 1 1` must print an instance\n", text, {})
       for what, text in NO_PFS.items()},
    **{f"a library that is {path}": (4, "run timed.toml out.csv", path, "", {"PFS_LIBRARY": path})
       for path in ("./none.so", "./plan.toml")},
    "no GNU parallel": (4, "run plan.toml out.csv", "parallel is not installed (Debian: parallel)", "",
                        {"PATH": "/none"}),
    "no Slurm": (4, "slurm plan.toml out.csv", "sbatch is not installed (Debian: slurm-client)", "", {"PATH": "/none"}),
    "no words": (3, "run", "required: PLAN, CSV (pfs-experiments run --help ", "", {}),
    "other options": (3, "check out.csv --jobs --all", "unrecognized arguments: --jobs --all (", "", {}),
    "an instance that isn't made": (2, "taillard .", "/program generate 20 5 873654221 failed: exit 3\n",
                                    "#!/bin/sh\n[ $2 = 1 ] || exit 3\nprintf '1 1 1 0 0\nprocessing times :\n1\n'", {}),
    "no tasks": (3, "slurm plan.toml out.csv --tasks 0", "from 1 to 1,000,000,000 ", "", {}),
}


@pytest.mark.parametrize(("status", "words", "said", "text", "env"), REFUSED.values(), ids=REFUSED)
def test_a_start_is_refused_before_anything_is_written(status: int, words: str, said: str, text: str,
                                                       env: dict[str, str], experiment: Experiment) -> None:
    """Or is run: the replacement would note it."""
    program = write_script(experiment.folder / "program", text) if text else experiment.replacement()
    (experiment.folder / "timed.toml").write_text(ALL + "time_factors = [1]\n")
    before = sorted(os.listdir(experiment.folder))
    assert_refused(experiment.script(*words.split(), program=program, env={**os.environ, **env}), said,
                   status=status)
    assert sorted(os.listdir(experiment.folder)) == before


def test_an_interruption_at_the_start_prints_nothing(experiment: Experiment) -> None:
    """While modules are imported."""
    (experiment.folder / "secrets.py").write_text("import os, signal, time\nos.kill(os.getpid(), signal.SIGINT)\n")
    got = experiment.run(env=dict(os.environ, PYTHONPATH=str(experiment.folder)))
    assert got == Done(-signal.SIGINT, "", ""), "what an interruption prints"


# Whole experiments

@pytest.mark.quick
def test_the_csv_is_what_pfs_gives_and_a_second_start_makes_nothing_again(experiment: Experiment) -> None:
    """No link in the place of the lock is followed. A smaller plan is rejected. The program is found next to the script
    that is not on the path."""
    (experiment.folder / "victim").write_text("kept\n")
    experiment.runs.mkdir()
    (experiment.runs / "lock").symlink_to(experiment.folder / "victim")
    assert_refused(experiment.run(), status=4)
    (experiment.runs / "lock").unlink()
    assert experiment.run() == ended(12)
    assert experiment.rows() == experiment.wanted()
    assert [seconds for seconds, in experiment.columns("seconds") if not 0 < float(seconds) < 60] == []
    first = (experiment.folder / "out.csv").read_text()
    (experiment.folder / "out.csv").unlink()
    assert experiment.run() == ended(12)
    for other, said in ((PLAN.replace("[10, 30]", "[30]"), "another plan"), (PLAN.replace("*", "a"), "another plan"),
                        (PLAN + "layout = \"orlib\"\n", "started with another layout: use another CSV\n")):
        assert_refused(experiment.plan(other).run(), said)
    assert (experiment.folder / "out.csv").read_text() == first
    assert (experiment.folder / "victim").read_text() == "kept\n"
    shutil.copytree(experiment.scripts, experiment.folder / "bin")
    shutil.copy(experiment.pfs.path, experiment.folder / "bin" / "pfs")
    got = run_tool([experiment.folder / "bin" / "pfs-experiments", "check", "out.csv"], experiment.folder,
                   env={"PATH": "/usr/bin"})
    assert got == Done(0, "out.csv: 12 orders audited, 0 of them wrong\n", "")


def test_layouts_blocks_takes_passes_and_repetitions(experiment: Experiment) -> None:
    """And a file that isn't an instance, and one whose bound is 0, which has the gap 0."""
    experiment.plan('layout = "orlib"\ninstances = ["two.or", "bad.or", "zero.or"]\nblocks = [2, 1]\nrounds = [5]\n'
                    "takes = [2, 1]\npasses = [1]\nseeds = [7]\nrepetitions = 2\n")
    shops = [experiment.printed("convert", "--from", "taillard", "--to", "orlib", f"shops/{name}") for name in "ab"]
    for name, text in (("two", "".join(shops)), ("bad", "3 2\n0 1 1 x\n"), ("zero", "2 1\n0 0\n0 0\n" * 2)):
        (experiment.folder / f"{name}.or").write_text(text)
    fault = "solve: exit 2, pfs: mixed line at 10"
    assert experiment.run() == ended(24, 8, 0, f"bad.or:2 (rounds 5, take 2, passes 1, seed 7) and 7 more failed: "
                                               f"{fault}\n")
    rows = experiment.rows()
    assert [(*row[:8], row[-1]) for row in rows] == [
        (f"{name}:{block}", *size, "5", take, "1", "7", again, status)
        for name, sizes, status in (("two.or", [("3", "2"), ("20", "5")], "ok"), ("bad.or", [("", "")] * 2, fault),
                                    ("zero.or", [("2", "1")] * 2, "ok"))
        for block, size in zip((2, 1), sizes) for take in "21" for again in "12"]
    line = "solve --layout orlib --block 1 --rounds 5 --take 2 --passes 1 --seed 7 --cells two.or"
    *_, makespan, cells = experiment.printed(*line.split(" ")).splitlines()
    assert [makespan.split()[1], cells.split()[1]] == [rows[4][8], rows[4][11]]
    assert rows[4][8:12] == rows[5][8:12], "repetitions of a run"
    assert [order for order, in experiment.columns("order") if ":" in order] == [], "colons in names of files"
    assert {row[8:11] for row in rows[16:]} == {("0", "0", "0.0000")}, "makespan, bound and gap"
    for row in (row for row in csv_rows(experiment.folder / "out.csv") if row["cells"]):
        assert run.seconds_of(row | {"limit": ""}) == pytest.approx(int(row["cells"]) / 1e9), "which is expected"
    assert experiment.script("check", "out.csv").status == 0, "an optimal order is wrong"


def test_each_order_is_kept_and_check_audits_it_again(made: Experiment) -> None:
    """The CSV says where, and a person finds it by its name. A row without an order is wrong too."""
    rows = made.columns("instance", "rounds", "seed", "order")
    for shop, rounds, seed, order in rows:
        assert re.fullmatch(rf"out.csv.d/orders/{shop[6:]}-rounds-{rounds}-take-.*-seed-{seed}-.*", order)
        wanted = made.printed("solve", "--layout", "taillard", "--rounds", rounds, "--seed", seed, shop)
        assert (made.folder / order).read_text() == wanted
    orders = [order for *_, order in rows]
    (made.folder / orders[0]).unlink()
    (made.folder / orders[1]).write_text(f"order2 20 5\n{' '.join(map(str, range(1, 21)))}\nmakespan 1448\n")
    (made.folder / orders[3]).write_text("order2 3 2\n1 2 3\nmakespan 1\n")
    text = (made.folder / "out.csv").read_text()
    (made.folder / "out.csv").write_text(text.replace(orders[4], ""))
    got = made.script("check", "out.csv")
    *wrong, last = got.stdout.splitlines()
    assert (got.status, got.stderr, last) == (1, "", "out.csv: 6 orders audited, 4 of them wrong")
    assert [re.findall(r"number-(\d+)", line)[:1] for line in wrong] == [["1"], ["2"], ["4"], []], wrong
    assert re.search(r": wrong makespan stated 1 computed \d+, but the CSV has valid makespan \d+ bound \d+$", wrong[2])
    assert wrong[3].endswith(": the run has no order file"), wrong
    assert made.run() == ended(6), "which writes the orders again"
    assert made.script("check", "out.csv") == Done(0, "out.csv: 6 orders audited, 0 of them wrong\n", "")
    (made.folder / "old.csv").write_text("instance,makespan\na,1\n")
    assert_refused(made.script("check", "old.csv"), "pfs-experiments check: old.csv: no column rounds, take")


def test_a_plan_may_grow(experiment: Experiment) -> None:
    """What is done is kept, and the CSV is in the order of the plan that has grown. No file is written in place: a link
    to the old one has the old text."""
    program, before, old = experiment.replacement(), list[tuple[str, ...]](), dict[pathlib.Path, bytes]()
    settings: dict[str, Any] = {"shops": ["a"], "rounds": [10], "seeds": [1], "takes": [3]}
    for key, more in (("seeds", [1]), ("rounds", [10, 30]), ("seeds", [2, 1]), ("takes", [1, 3]), ("repetitions", 2),
                      ("shops", ["a", "b"])):
        settings[key] = more
        lines = {**settings, "instances": [f"shops/{name}" for name in settings["shops"]]}
        experiment.plan("".join(f"{key} = {json.dumps(value)}\n" for key, value in lines.items() if key != "shops"))
        assert experiment.run(program=program).status == 0
        assert [link for link, text in old.items() if link.read_bytes() != text] == [], "written in place"
        for path in (experiment.folder / "out.csv", experiment.runs / "plan.json"):
            link = path.with_name(f"{len(old)}.old")
            link.hardlink_to(path)
            old[link] = path.read_bytes()
        after = experiment.columns(*HEAD)
        assert [row for row in before if row not in after] == [], "runs that are gone, or were made again"
        assert len(experiment.started()) == len(after) > len(before), "each is made once"
        assert experiment.rows() == experiment.wanted(**settings), "the rows of the plan that has grown"
        before = after
    assert experiment.script("check", "out.csv").status == 0
    assert experiment.script("status", "out.csv").status == 0
    assert experiment.columns(*HEAD) == before


def test_a_search_of_0_rounds_is_made_once(experiment: Experiment) -> None:
    """Take, passes and seed don't change it, also if the plan grows by those that come before. Repetitions are made."""
    for takes, count in (("[3]", 2 + 8), ("[2, 3]", 2 + 16)):
        assert experiment.plan(ONLY_B + f"rounds = [0, 1]\ntakes = {takes}\npasses = [0, 1]\nseeds = [5, 6]\n"
                               "repetitions = 2\n").run(program=experiment.replacement()).status == 0
        zeros = [row[:8] for row in experiment.rows() if row[3] == "0"]
        assert zeros == [("shops/b", "3", "2", "0", "3", "0", "5", again) for again in "12"]
        assert len(experiment.rows()) == len(experiment.started()) == count


HOSTILE = ["=1+1", "+1", "-1", "@SUM(1)", "=cmd|' _C calc'!A0", "<b>&", "\x1b[31m", "a,b", 'a"b', "$x$", "\u00e4" * 120]


def test_names_of_instances_are_not_formulas_in_a_spreadsheet(experiment: Experiment) -> None:
    """They stay the paths of their files, and `check` finds them. One that is not UTF-8 is reported."""
    for name in HOSTILE:
        shutil.copy(experiment.folder / "shops" / "b", experiment.folder / name)
    listed = ", ".join(json.dumps(re.sub(r"([\[*?])", r"[\1]", name)) for name in HOSTILE)
    assert experiment.plan(f"instances = [{listed}]\n").run("=out.csv").status == 0
    rows = csv_rows(experiment.folder / "=out.csv")
    assert [cell for row in rows for cell in row.values() if re.match(r"[=+@\t\r-]", cell)] == [], "formulas"
    assert [os.path.normpath(row["instance"]) for row in rows] == HOSTILE
    assert [(experiment.folder / row["order"]).exists() for row in rows] == [True] * len(HOSTILE)
    assert experiment.script("check", "=out.csv").status == 0
    for name, said in (("\udcff", "b'shops/\\xff' is not UTF-8"), ("a\n", "'shops/a\\n' contains a tab or a line end")):
        shutil.copy(experiment.folder / "shops" / "b", experiment.folder / "shops" / name)
        assert_refused(experiment.plan(PLAN).run(), f"plan.toml: the name {said}\n")


# Folders that are damaged, and small disks

RESULTS = [b"\xff\n", b'1,"\n', b"1,\0\n", b"o\n1,x,y,z,t,ok\n", b"1,1,1,1,1.000000,ok\n",
           b"o\n1,1,1,1,1.000000,o", b"o\n1,1,1,1,1.000000,ok,12", b"o\n1,1,1,1,1.000000,ok,,,,\n",
           b"o\n1,1,1,1,1.0000000,ok\n", b"o\n1,%b,1,1,1.000000,ok\n" % (b"1" * 19)]
# Files of results, each after its length.
FILES = [b"", b"2", b"x\n", b"\xff\n", b"99\no\n1,1,1,1,1.000000,ok\n",
         *(b"%d\n%b" % (len(data), data) for data in RESULTS)]
PLANS = [b"{", b"[]", b'{"places": 1}', b"[" * 100_000, b'{"layout": "\xff"}', b'{"places": {}, "runs": []}']


def test_one_process_at_a_time_writes_the_csv(made: Experiment) -> None:
    before = (made.folder / "out.csv").read_bytes()
    (made.folder / "out.csv").unlink()
    with open(made.runs / "csv.lock", "w") as held, ThreadPoolExecutor(1) as threads:
        fcntl.flock(held, fcntl.LOCK_EX)
        path = str(made.folder / "out.csv")
        written = threads.submit(run.gather, folders.started(path), path)
        with pytest.raises(TimeoutError):
            written.result(0.5)
        assert not (made.folder / "out.csv").exists()
        fcntl.flock(held, fcntl.LOCK_UN)
        assert written.result(60) == (0, 0) and (made.folder / "out.csv").read_bytes() == before


@pytest.mark.parametrize("error", [KeyboardInterrupt, OSError])
def test_a_start_that_ends_half_way_leaves_no_folder(error: type[BaseException], experiment: Experiment,
                                                     monkeypatch: pytest.MonkeyPatch) -> None:
    monkeypatch.setattr(folders, "add_runs", mock.Mock(side_effect=error))
    with pytest.raises(error):
        prepare(experiment)
    assert not experiment.runs.exists()


def test_what_is_gone_has_not_changed(made: Experiment, monkeypatch: pytest.MonkeyPatch,
                                      capsys: pytest.CaptureFixture[str]) -> None:
    """An instance that somebody deletes while a start waits for an earlier one."""
    monkeypatch.setattr(folders, "lock", lambda *_: (made.folder / "shops" / "a").unlink())
    assert len(prepare(made).runs) == 6 and capsys.readouterr() == ("", "")


def test_a_damaged_result_is_made_again_and_a_damaged_plan_is_reported(made: Experiment) -> None:
    """On one line; so is a folder without a program."""
    (made.runs / "joblog").write_bytes(b"\xff\n1\t2\n")
    path = max((made.runs / "results").glob("*-1"), key=lambda path: path.stat().st_mtime_ns)
    for data in FILES:
        path.write_bytes(data)
        assert len([*run.results_of(made.runs)]) == 5, f"{data!r} is taken as it is"
    assert made.run() == ended(6) and made.rows() == made.wanted(rounds=(10,))
    path.unlink()
    with open(path, "w") as earlier:  # a run that continues after its start was killed
        assert made.run() == ended(6)
        earlier.write("torn")
    assert made.run() == ended(6)
    assert made.script("check", "out.csv").status == 0, "an order into which an earlier start has written"
    before, (stage,) = (made.folder / "out.csv").read_text(), made.runs.glob("pfs-experiment-*")
    whole = (made.runs / "plan.json").read_bytes()
    for data in (*PLANS, whole.replace(b'"number": "1"', b'"number": "2"'), whole):
        (made.runs / "plan.json").write_bytes(data)
        if data == whole:
            stage.rename(made.folder / "elsewhere")
        said = ("/out.csv.d has no copy of the program: delete it" if data == whole else
                "): delete the folder out.csv.d") + " to start again\n"
        assert_refused(made.plan(PLAN + "repetitions = 2\n").run(), said, "out.csv")
        assert (made.folder / "out.csv").read_text() == before


@pytest.mark.parametrize("kib", [4, 24, 48, 160])
def test_a_full_disk_is_reported(kib: int, experiment: Experiment) -> None:
    """On one line. Once there is room, the same command completes the work."""
    if subprocess.run([tool("unshare"), "-m", "true"], capture_output=True).returncode != 0:
        missing("nobody but root mounts a small disk here")
    small = experiment.plan(HALF).folder / "small"
    small.mkdir()
    line = " ".join(map(str, experiment.words("run", "plan.toml", "small/out.csv", program=experiment.replacement())))
    script = (f"mount -t tmpfs -o size={kib}k none small && {line} 2> report; echo $? > status; "
              "find small -name '*.new' > halves; "
              f"mount -o remount,size=9m small && {line} 2> again; echo $? >> again; cp small/out.csv all.csv")
    done = subprocess.run(["unshare", "-m", "sh", "-c", script], cwd=experiment.folder, capture_output=True, text=True)
    assert done.returncode == 0, done.stderr
    status, got, again, halves = ((experiment.folder / name).read_text() for name in
                                  ("status", "report", "again", "halves"))
    refused = re.fullmatch("pfs-experiments run: [^\n]*: No space left on device\n", got)
    assert (status == "4\n" and refused) or (status == "0\n" and kib > 100), got
    assert halves == "", "what is left of files that had no room"
    assert again == f"small/{ended(6).stderr}0\n" and experiment.rows("all.csv") == experiment.wanted(rounds=(10,))


# Runs by time

def test_runs_by_time_take_their_time(experiment: Experiment) -> None:
    """Jobs times half the machines times the factor, in milliseconds. The order is that of the rounds in the CSV, and
    the trajectory leads to it from NEH's."""
    before = ALL + "takes = [2]\nseeds = [1, 2]\nrounds = [5]\n"
    assert experiment.plan(before).run().status == 0
    kept = experiment.columns(*HEAD)
    assert experiment.plan(before + "time_factors = [1, 2.5]\n").run().status == 0
    assert [row for row in experiment.columns(*HEAD) if row in kept] == kept, "a plan that grows by times"
    rows = [row for row in csv_rows(experiment.folder / "out.csv") if row["time_factor"]]
    assert [(row["instance"], row["time_factor"], row["seed"]) for row in rows] \
        == [(shop, factor, seed) for shop in ("shops/a", "shops/b") for factor in ("1", "2.5") for seed in "12"]
    for row in rows:
        given = (20 * 5 if row["instance"] == "shops/a" else 3 * 2) / 2 * float(row["time_factor"]) / 1000
        assert 0.5 * given <= float(row["seconds"]) <= given + 0.05, f"seconds of {row}"
        wanted = experiment.printed("solve", "--layout", "taillard", "--rounds", row["rounds"], "--take", "2", "--seed",
                                    row["seed"], "--cells", row["instance"])
        assert (experiment.folder / row["order"]).read_text() + f"cells {row['cells']}\n" == wanted
        neh = experiment.printed("solve", "--layout", "taillard", "--rounds", "0", row["instance"])
        points = [point.split(":") for point in row["trajectory"].split(" ")]
        spent, spans = ([*map(float, numbers)] for numbers in zip(*points))
        assert 0 < spent[0] and spent == sorted(spent) and spent[-1] <= float(row["seconds"])
        assert f"makespan {points[0][1]}\n" in neh and points[-1][1] == row["makespan"]
        assert spans == sorted({*spans}, reverse=True)
    assert experiment.script("check", "out.csv") == Done(0, "out.csv: 12 orders audited, 0 of them wrong\n", "")
    table, = experiment.runs.glob("pfs-experiment-*/runs.tsv")
    assert [line.split("\t")[5] for line in table.read_text().splitlines()[4:]] == [
        "0.05"] * 2 + ["0.125"] * 2 + ["0.003"] * 2 + ["0.0075"] * 2
    sums = json.loads((experiment.runs / "provenance.json").read_text())["sha256"]
    assert sums["libpfs.so.1"] == hashlib.sha256(pathlib.Path(os.environ["PFS_LIBRARY"]).read_bytes()).hexdigest()


def test_the_search_that_accepts_longer_orders(experiment: Experiment) -> None:
    """By rounds and by time, beside that of pfs. Its orders are those of the package, and are audited."""
    text = ('instances = ["shops/*"]\nseeds = [1, 2]\nrounds = [0, 20]\n[[methods]]\nmethod = "pfs"\n'
            '[[methods]]\nmethod = "ig"\nsearch = "iterated-greedy"\n{}'
            '[[methods]]\nmethod = "own"\nsearch = "iterated-greedy"\ntakes = [1]\npasses = [0, 3]\n'
            'partial = 2\nties = "first"\ntemperature = 40\n')
    own: dict[str, Any] = {"partial": 2, "ties": "first", "temperature": 40}
    for more in ("", "time_factors = [1]\n"):
        assert experiment.plan(text.format(more)).run().status == 0
    rows = [row for row in csv_rows(experiment.folder / "out.csv") if row["method"] != "pfs"]
    assert {(row["method"], row["take"], row["passes"], row["cells"], row["status"]) for row in rows} == {
        ("ig", "2", "100", "", "ok"), ("own", "1", "0", "", "ok"), ("own", "1", "3", "", "ok")}
    assert {row["time_factor"] for row in rows if row["method"] == "ig"} == {"", "1"}
    for row in rows:
        words: dict[str, Any] = {name: int(row[name]) for name in ("rounds", "take", "passes", "seed")}
        words |= own if row["method"] == "own" else {}
        found = pfs.read(experiment.folder / row["instance"], "taillard").solve(method="iterated-greedy", **words)
        assert (experiment.folder / row["order"]).read_text() == found.to_text(), row
    assert experiment.script("check", "out.csv").status == 0
    assert experiment.plan(text.format("")).run("new.csv").status == 0
    for was, new in (('search = "iterated-greedy"\n[[', "[["),
                     ("ature = 40", "ature = 0"), ("partial = 2", "partial = 3")):
        assert "new.csv was started with another command or search" in experiment.plan(
            text.format("").replace(was, new)).run("new.csv").stderr


def test_bounds_are_proved_and_optima_counted(experiment: Experiment) -> None:
    """From the best order of each instance, of those that are in the folder and whose run succeeded. A later call keeps
    what is proved, and a makespan below it is rejected."""
    first, second = (experiment.folder / "shops" / name for name in "ab")
    first.write_text(first.read_text() + second.read_text())
    text = 'instances = ["shops/a"]\nblocks = [1, 2]\nseeds = [1, 2]\nrounds = [0, 200]\nmethod = "m"\n'
    assert experiment.plan(text).run().status == 0
    before = csv_rows(experiment.folder / "out.csv")
    head, *lines = (experiment.folder / "out.csv").read_text().splitlines()
    others = [lines[-1].replace("shops/a:2", "x"), lines[-1].replace(",ok,out", ",no,none")]
    (experiment.folder / "out.csv").write_text("\n".join([head, *others, *lines]))
    got = experiment.script("prove", "out.csv", "--seconds", "60")
    assert got.status == 0 and "out.csv: the shortest makespan of 2 of 2 instances is known\n" in got.stderr
    assert got.stdout == f"shops/a:1: 1278, optimal\nshops/a:2: {before[-1]['makespan']}, optimal\n"
    after = csv_rows(experiment.folder / "out.csv")
    bounds = {"shops/a:1": "1278", "shops/a:2": before[-1]["makespan"]}
    assert after == [row | {"proved_bound": bounds[row["instance"]]} for row in before]
    assert experiment.script("check", "out.csv").status == 0
    assert experiment.script("report", "out.csv", "report").status == 0
    tables = csv_rows(experiment.folder / "report" / "table.csv")
    for row in tables:
        runs = [each for each in after if (each["jobs"], each["rounds"]) == (row["jobs"], row["rounds"])]
        assert row["optimal"] == str(sum(each["makespan"] == each["proved_bound"] for each in runs))
    assert {row["optimal"] for row in tables} > {"0"}
    assert experiment.script("status", "out.csv").status == 0
    assert csv_rows(experiment.folder / "out.csv") == after
    (experiment.folder / "new.csv").write_text("instance,makespan,bound,proved_bound\nx,1277,9,1278\nx,1278,9,\n")
    assert "the makespan 1277 of x is below the bound 1278" in experiment.script("report", "new.csv", "report").stderr
    assert "none.csv was not started: none.csv.d is missing\n" in experiment.script("prove", "none.csv").stderr
    (experiment.folder / "out.csv").write_text("\n".join([head, *lines]).replace(",1278,", ",x,"))
    assert_refused(experiment.script("prove", "out.csv"), "out.csv: shops/a:1: 'x' is not a whole makespan")


def test_a_shorter_order_that_is_proved_is_kept(experiment: Experiment) -> None:
    """It is the reference and the best order, and a later call begins with it. What isn't so is one line."""
    shop = pfs.generate(6, 4, 4)
    shop.write(experiment.folder / "shops" / "six", "taillard")
    least = plainly.shortest(shop.times.tolist())
    assert experiment.plan('instances = ["shops/six"]\nrounds = [0]\n').run().status == 0
    [row] = csv_rows(experiment.folder / "out.csv")
    assert int(row["makespan"]) > least
    for _ in range(2):
        got = experiment.script("prove", "out.csv", "--seconds", "60")
        assert got.status == 0 and got.stdout == f"shops/six: {row['makespan']}; optimal is {least}\n"
        proofs = json.loads((experiment.runs / "proofs.json").read_text())
        assert (proofs["shops/six"]["bound"], proofs["shops/six"]["makespan"]) == (least, least)
        order = pfs.read_order(experiment.runs / proofs["shops/six"]["order"])
        assert plainly.makespan(shop.times.tolist(), order.order.tolist()) == order.makespan == least
    file = experiment.folder / "shops" / "six"
    assert proofs["shops/six"]["instance"] == hashlib.sha256(file.read_bytes()).hexdigest()
    assert proofs["shops/six"]["seed"] == "0" and proofs["shops/six"]["version"] == pfs.__version__
    assert experiment.script("report", "out.csv", "report").status == 0
    rpd = f"{100 * (int(row['makespan']) - least) / least:.3f}"
    assert [each["mean_rpd_percent"] for each in csv_rows(experiment.folder / "report" / "table.csv")] == [rpd]
    for name in ("table.md", "sizes.md", "sizes.tex"):
        text = (experiment.folder / "report" / name).read_text()
        assert f"relative to the optimum that pfs {pfs.__version__} has proved." in text, name
    [best] = csv_rows(experiment.folder / "report" / "best.csv")
    assert (best["makespan"], best["method"]) == (str(least), f"proved by pfs {pfs.__version__}")
    # What is stated is audited, and a damaged file is named.
    text = (experiment.folder / "out.csv").read_text()
    (experiment.folder / "out.csv").write_text(text.replace(f",{row['makespan']},", f",{least},"))
    assert_refused(experiment.script("prove", "out.csv"), f"out.csv: shops/six: wrong makespan: states {least}, takes "
                                                          f"{row['makespan']}")
    for damaged in ("{", "[1]", "null", '{"shops/six": 1}', '{"shops/six": {"bound": 9, "makespan": 8, "order": ""}}'):
        (experiment.runs / "proofs.json").write_text(damaged)
        for name in ("prove", "status"):
            assert_refused(experiment.script(name, "out.csv"), "out.csv.d/proofs.json is damaged: delete it, and")
    (experiment.folder / "out.csv").write_text(text)
    (experiment.runs / "proofs.json").write_text('{"shops/six": {"bound": 5000, "makespan": 6000, "order": ""}}')
    assert_refused(experiment.script("prove", "out.csv"), "out.csv.d/proofs.json: the bound 5000 of shops/six is above "
                   f"the makespan {least} of an order: delete it, and prove again")


def test_a_csv_that_pandas_wrote_is_the_same(experiment: Experiment) -> None:
    """Also with other columns. A row of no run is named, and not called wrong."""
    assert experiment.plan('instances = ["shops/b"]\nrounds = [0, 20]\nseeds = [1]\n').run().status == 0
    text = (experiment.folder / "out.csv").read_text()
    head, *lines = text.splitlines()
    at = [head.split(",").index(name) for name in ("rounds", "makespan", "bound", "seed", "take")]
    cells = [line.split(",") for line in lines]
    for row in cells:
        for column in at:
            row[column] += ".0" * (row[column] != "")
    floats = "\n".join([f"{head},mine", *(",".join([*row, "x"]) for row in cells), ""])
    (experiment.folder / "out.csv").write_text(floats)
    assert experiment.script("check", "out.csv").stdout == "out.csv: 2 orders audited, 0 of them wrong\n"
    (experiment.folder / "out.csv").write_text(floats + ",".join([*cells[1][:3], "999", *cells[1][4:], "x\n"]))
    got = experiment.script("check", "out.csv")
    assert got.status == 2 and "rounds 999" in got.stdout and got.stdout.endswith(
        ": the run is not in out.csv.d\nout.csv: 2 orders audited, 0 of them wrong; 1 rows are of no run in out.csv.d, "
        "and not audited\n")


def test_readmes_plans_by_time(experiment: Experiment) -> None:
    """For files in OR-Library's layout, for a grid, and for several methods."""
    for_vfr, of_mine, of_grid, methods = re.findall(r"```\n([^`]*time_factors[^`]*)```", README)
    (experiment.folder / "VFR10_5_1_Gap.txt").write_text(
        experiment.printed("convert", "--from", "taillard", "--to", "orlib", "shops/b"))
    (experiment.folder / "vfr.csv").write_text("instance,makespan\nVFR10_5_1,20\n")
    assert experiment.plan(for_vfr).run().status == 0
    assert experiment.columns("instance", "time_factor", "reference") == [("VFR10_5_1_Gap.txt", "30", "20")]
    makespan = experiment.printed("value", "--layout", "taillard", "shops/b").strip()
    write_script(experiment.folder / "mine", f"#!/bin/sh\necho {makespan} 1 2 3\n")
    grid = {(f"mine, temperature {first}, take {second}", "") for first in ("0.2", "0.4") for second in (2, 4)}
    for name, text, found in (("methods", of_mine, {("mine", "")}),
                              ("methods", methods, {("mine", ""), ("pfs", "1"), ("longer", "100")}),
                              ("grid", of_grid, grid)):
        experiment.plan(re.sub("out/taillard/[^\"]*", "shops/b", text))
        assert experiment.run(f"{name}.csv").status == 0
        assert {*experiment.columns("method", "passes", csv_name=f"{name}.csv")} == found


def test_a_search_by_time_continues_with_another_seed(libpfs: Library, monkeypatch: pytest.MonkeyPatch) -> None:
    """After the last round of a seed, here the eighth. No part goes beyond it. If NEH takes as long as there is, no
    round begins. By the clock NEH takes 3 s and a round 1 s. The time is noted after NEH and after each part."""
    def search(number: int) -> Rounds:
        return Rounds(one.caller([at * at % 97 for at in range(1, 201)], 20, 10), 20, 4, 0, number)

    def spent_by(found: Rounds, seconds: float) -> float:
        monkeypatch.setattr(time, "process_time", lambda: 10.0 + (3 + found.last.total if found.last else 0))
        notes.clear()
        return one.search(found, seconds, None, notes.append)

    notes = list[float]()
    monkeypatch.setattr(one, "HERE", str(libpfs.path.parent))
    monkeypatch.setattr(one, "LIBRARY", libpfs.path.name)
    for seconds, spent, rounds in ((2.5, 3, 0), (5, 4, 1)):
        found = search(1)
        assert (spent_by(found, seconds), found.finished().total) == (spent, rounds) and notes == [3, 4][:rounds + 1]
    monkeypatch.setattr(_rounds, "PART", 5)
    monkeypatch.setattr(_rounds, "MOST_ROUNDS", 8)
    found = search(2 ** 64 - 5)
    assert (spent_by(found, 18), notes) == (18, [3, 4, 8, 11, 16, 18]) and found.finished().total == 15


# Other programs

# What a program does for each seed, and the status of its run. $line has the jobs in the order of their numbers.
OTHERS = [
    ('test "$3 $4 $5 $6" = "0.5 a 20 5" && echo "$line"', "ok"),
    (r"printf 'order 20\n%s\nmakespan 1448\n' " '"$line"', "ok"), ("kill -SEGV $$", "command: signal 11"),
    (r"printf 'order 20\n%s\nmakespan 1\n' " '"$line"', "check: exit 1, wrong makespan, stated 1, computed 1448"),
    (r"printf '1%900000s\n' 2", "check: exit 1, wrong size, .*")]
PROGRAM = "line=$(seq -s ' ' 20)\ncase $2 in\n" + "".join(
    f"{seed}) {line} ;;\n" for seed, (line, _) in enumerate(OTHERS, 1)) + "esac"
OTHER = f"""instances = ["shops/a"]
time_factors = [10]
seeds = {[*range(1, len(OTHERS) + 1)]}
method = "solve"
command = "./mine {{instance}} {{seed}} {{seconds}} {{name}} {{jobs}} {{machines}}"
"""


def with_other(experiment: Experiment, plan: str, program: str) -> Experiment:
    write_script(experiment.folder / "mine", f"#!/bin/sh\n{program}\n")
    return experiment.plan(plan)


def test_another_program_is_run_and_audited(experiment: Experiment) -> None:
    """An order file, or the jobs on one line. A run that crashes or states a wrong makespan has failed, and isn't made
    again."""
    got = with_other(experiment, OTHER, PROGRAM).run()
    assert got.stderr.count("\n") == 4 and got == ended(5, 3, 0, got.stderr.rpartition("out.csv:")[0])
    rows = experiment.columns("seed", "status", "method", "time_factor", "rounds", "take", "passes", "cells")
    assert [row[0] for row in rows] == [*"12345"]
    assert [(row[1], wanted) for row, (_, wanted) in zip(rows, OTHERS) if not re.fullmatch(wanted, row[1])] == []
    assert {row[2:] for row in rows} == {("solve", "10", "", "", "", "")}
    assert experiment.script("check", "out.csv") == Done(0, "out.csv: 2 orders audited, 0 of them wrong\n", "")
    makespans = {row for row in experiment.columns("status", "makespan", "bound") if row[0] == "ok"}
    assert makespans == {("ok", "1448", "1232")}, "the makespan of the order by numbers"
    before = experiment.written()
    assert experiment.run().status == 1
    assert experiment.written() == before, "runs that were made again"


def test_processes_that_commands_leave_are_counted(experiment: Experiment) -> None:
    plan = ONLY_B + 'seeds = [1, 2]\nmethod = "m"\ncommand = "./mine {instance} {seed}"\n'
    got = with_other(experiment, plan, "setsid sleep 60 > /dev/null 2>&1 & sleep 0.1; echo 1 2 3").run()
    assert got == ended(2, said="processes that commands left when they ended, and that were killed: 2\n")


def test_a_command_that_replaces_the_audit_is_reported(experiment: Experiment) -> None:
    """Its CSV isn't written."""
    for change in ("cp $0 ../pfs", "rm ../one", "echo >> ../order_text.py"):
        plan = ONLY_B + 'method = "m"\ncommand = "./mine {instance}"\n'
        got = with_other(experiment, plan, f"{change}; echo 1 2 3").run()
        assert_refused(got, "out.csv: a command has changed the programs by which its orders are audited: delete ")
        assert not (experiment.folder / "out.csv").exists()
        shutil.rmtree(experiment.runs)


def test_a_plan_has_several_methods(experiment: Experiment) -> None:
    """Each with its own settings. It may grow by some, whose commands can't change."""
    first = ONLY_B + 'seeds = [1, 2]\n[[methods]]\nmethod = "=p"\nrounds = [0, 5]\n'
    more = [f'[[methods]]\nmethod = "{name}"\nseeds = [3]\ncommand = "./{name} {{instance}} {{seed}}"\n'
            for name in ("mine", "other")]
    grown = first + "".join(more)
    write_script(experiment.folder / "other", "#!/bin/sh\necho 2 1 3\n")
    with_other(experiment, first, "echo 3 2 1").run()
    before = experiment.written()
    assert experiment.plan(grown).run() == ended(5)
    assert before.items() <= experiment.written().items(), "runs that were made again"
    assert experiment.columns("method", "rounds", "take", "passes", "seed") == [
        ("'=p", "0", "3", "0", "1"), ("'=p", "5", "3", "0", "1"), ("'=p", "5", "3", "0", "2"),
        ("mine", "", "", "", "3"), ("other", "", "", "", "3")]
    orders = [experiment.folder / name for name, in experiment.columns("order")[-2:]]
    assert [order.read_text().splitlines()[1] for order in orders] == ["3 2 1", "2 1 3"]
    assert experiment.script("check", "out.csv") == Done(0, "out.csv: 5 orders audited, 0 of them wrong\n", "")
    orders[1].unlink()
    assert experiment.script("check", "out.csv").stdout.startswith(
        "instance shops/b, method other, seed 3, repetition 1: ")
    assert_refused(experiment.plan(grown.replace("{seed}", "7")).run(), "was started with another command")
    assert_refused(experiment.plan(first).run(), "was started with another plan, which has block 1, method mine, "
                   "seed 3, repetition 1: use another CSV, or delete /")


# Trajectories and grids

# At these seconds of processor time a program prints these makespans and orders.
WALK = """import time
for seconds, line in [(0, "14 3 1 2"), (0.8, "11 1 2 3"), (0.9, "14 3 1 2"), (1.6, "10 2 1 3")]:
    while time.process_time() < seconds:
        pass
    print("makespan", line, flush=True)
"""
ANYTIME = """instances = ["three"]
time_factors = {}
method = "walk"
command = "./mine {{instance}}"
anytime = true
"""


def test_a_run_has_the_orders_of_shorter_ones(experiment: Experiment) -> None:
    """The best one that it had printed by their times, each of which is audited. What is done isn't changed by a plan
    that grows."""
    (experiment.folder / "three").write_bytes(THREE_JOBS)
    program = f"echo >> {experiment.folder}/notes; exec python3 -c '{WALK}'"
    assert with_other(experiment, ANYTIME.format([200, 400, 700]), program).run() == ended(3)
    assert len(experiment.started()) == 1, "programs that were started"
    assert experiment.columns("time_factor", "makespan", "status") == [
        ("200", "14", "ok"), ("400", "11", "ok"), ("700", "10", "ok")]
    seconds = [float(row[0]) for row in experiment.columns("seconds")]
    assert seconds[:2] == [0.6, 1.2] and 1.6 <= seconds[2] < 2.1
    ways = [way for way, in experiment.columns("trajectory")]
    points = [point.split(":") for point in ways[2].split(" ")]
    assert ways[:2] == ["", ""] and [span for _, span in points] == ["14", "11", "10"]
    first, second, last = (float(at) for at, _ in points)
    assert 0 < first < 0.6 and 0.8 <= second < 1.2 and 1.6 <= last <= seconds[2]
    orders = [(experiment.folder / name).read_text().splitlines()[1] for name, in experiment.columns("order")]
    assert orders == ["3 1 2", "1 2 3", "2 1 3"]
    assert experiment.script("check", "out.csv").status == 0
    before = experiment.columns(*HEAD)
    assert experiment.plan(ANYTIME.format([200, 400, 700, 800])).run() == ended(4)
    assert experiment.columns(*HEAD)[:3] == before and len(experiment.started()) == 2


@given(strategies.lists(strategies.sampled_from([b"makespan 7 1 2", b" makespan 8, 2 1 ", b"a makespan 7 1", b""])),
       strategies.lists(strategies.integers(0, 60)))
def test_lines_are_taken_from_any_parts(lines: list[bytes], cuts: list[int]) -> None:
    """Those with a makespan and an order are points, and the others are the output."""
    with subprocess.Popen(["true"], stdout=subprocess.PIPE, stderr=subprocess.PIPE) as child:
        printed = one.Printed(child)
    text = b"".join(line + b"\n" for line in lines)
    for start, end in itertools.pairwise([0, *sorted(cuts), len(text) + 60]):
        printed.take(text[start:end])
    points = {b"makespan 7 1 2": (7, "1 2"), b" makespan 8, 2 1 ": (8, "2 1")}
    assert [point[1:] for point in printed.points] == [points[line] for line in lines if line in points]
    assert printed.text == b"".join(line + b"\n" for line in lines if line not in points)


def test_the_time_of_an_order_is_that_of_all_processes(folder: pathlib.Path) -> None:
    """Of those that run and, in hundredths of a second, of those that have ended. Each of two takes 0.3 seconds of
    processor time, the second half of them in the system."""
    busy = "import os, time as t\nwhile t.process_time() < .15: pass\nwhile t.process_time() < .3: os.urandom(9999)\n"
    line = f"python3 -c '{busy}'; python3 -c '{busy}print(\"makespan 1 1\", flush=True)\nt.sleep(0.3)'"
    code = ("import sys; from pfs.experiments import one\n"
            "_, spent, _, points = one.run_command(['sh', '-c', sys.argv[1]], '.', 9)\n"
            "print(points[0].seconds, spent)\n")
    got = plainly.python("-c", code, line, cwd=folder)
    seconds, spent = map(float, got.stdout.split())
    assert 0.57 <= seconds <= spent, got


def test_a_grid_is_a_method_for_each_combination(experiment: Experiment) -> None:
    """With the values in its name and in its command. Other methods may have none."""
    grid = ('[[methods]]\nmethod = "m"\ncommand = "./mine {instance} {x} a{y}"\n[methods.grid]\n'
            'x = [1, 20, "t; u"]\ny = [0.5]\n[[methods]]\nmethod = "other"\ncommand = "./mine {instance} 0 0"\n')
    program = f'echo "$2 $3" >> {experiment.folder}/notes; echo 3 2 1'
    assert with_other(experiment, ONLY_B + grid, program).run() == ended(4)
    assert experiment.columns("method") == [("m, x 1, y 0.5",), ("m, x 20, y 0.5",), ("m, x t; u, y 0.5",), ("other",)]
    assert sorted(experiment.started()) == ["0 0", "1 a0.5", "20 a0.5", "t; u a0.5"]


def test_a_run_for_irace(experiment: Experiment, top: pathlib.Path) -> None:
    """As irace calls it: all settings make about the same number of cells. It names what pfs rejects, and the files
    that the scenario names exist."""
    words = ["/usr/bin/python3", str(top / "experiments" / "target-runner.py"), "1", "2"]
    env = with_path(write_script(experiment.folder / "bin" / "pfs",
                                 f"#!/bin/sh\nexec {experiment.pfs.path} \"$@\"\n").parent)
    work = []
    for take, passes, rounds in ((1, 0, 12_820), (4, 1, 541), (10, 3, 189)):
        setting = ["--take", str(take), "--passes", str(passes)]
        got = run_tool([*words, "7", "shops/a", *setting], experiment.folder, env=env)
        solve = ["solve", "--layout", "taillard", "--rounds", str(rounds), "--seed", "7", "--cells", *setting]
        *_, makespan, cells = experiment.printed(*solve, "shops/a").splitlines()
        assert got == Done(0, makespan.removeprefix("makespan ") + "\n", ""), (take, passes)
        work.append(int(cells.split()[1]))
    assert max(work) < 1.02 * min(work)
    assert run_tool([*words, "7", "shops/b", "--take", "10", "--passes", "0"], experiment.folder, env=env).status == 0
    bad = run_tool([*words, "7", "plan.toml", "--take", "1", "--passes", "0"], experiment.folder, env=env)
    assert bad.status != 0 and "pfs: " in bad.stderr and bad.stdout == ""
    scenario = (top / "experiments" / "irace.txt").read_text()
    named = re.findall(r'^(?:targetRunner|parameterFile) = "(.*)"$', scenario, re.MULTILINE)
    named += re.findall(r"--(?:target-runner|parameter-file) ([\w.-]+)", scenario)
    assert len(named) == 6 and all((top / "experiments" / name).is_file() for name in named)
    assert "out/taillard" not in scenario, "the benchmark isn't for tuning"


def test_a_run_for_irace_of_iterated_greedy_and_of_a_program(experiment: Experiment, top: pathlib.Path) -> None:
    """Both print a makespan of an order. A wrong order of the program is an error, and so are values that the search
    rejects."""
    shop = pfs.read(experiment.folder / "shops" / "a", "taillard")
    env = {**os.environ, **plainly.environment()}
    words = ["/usr/bin/python3", str(top / "experiments" / "target-iterated.py"), "1", "2", "7", "shops/a"]
    got = run_tool([*words, "--take", "4", "--partial", "1", "--temperature", "0.5"], experiment.folder, env=env)
    assert got.status == 0 and shop.bound() <= int(got.stdout) <= shop.neh().makespan
    bad = run_tool([*words, "--take", "4", "--partial", "1", "--temperature", "-1"], experiment.folder, env=env)
    assert bad.status != 0 and bad.stdout == "" and "temperature must be" in bad.stderr
    words[1] = str(top / "experiments" / "target-command.py")
    jobs = " ".join(str(job + 1) for job in range(shop.jobs))
    for order, status, printed in ((jobs, 0, f"{shop.makespan(range(shop.jobs))}\n"), (jobs[2:], 1, "")):
        write_script(experiment.folder / "mine", f'#!/bin/sh\necho "$@" > words\necho start\necho "{order}"\n')
        got = run_tool([*words, "--take", "4"], experiment.folder, env=env)
        assert (got.status, got.stdout) == (status, printed), got
        seconds = 0.0015 * shop.jobs * shop.machines
        assert (experiment.folder / "words").read_text() == f"shops/a 7 {seconds} --take 4\n"


# In this many seconds of processor time, or any: what a line or a program prints and how many processes it leaves, or
# how it fails.
SPIN = "setsid python3 -c 'import time\nwhile time.process_time() < 9: pass' "
SLEEP = "setsid sleep 60 "
LINES = [
    ("0.01", "sleep 1000 & sleep 1000", "still running, and used .* s of processor time of 0.01 s"),
    ("0.1", "exec >&- 2>&-; sleep 1000", "still running, .*"),
    ("0.1", f"{SLEEP} & {SLEEP} > /dev/null 2>&1 & sleep 0.1; echo 1", "1 2"), ("0.1", "sleep 1; echo 2", "2 0"),
    ("0.2", f"({SPIN} &); sleep 1000", r"took too long: [01]\.\d\d s of processor time instead of 0.2 s"),
    ("0.05", "for each in $(seq 200); do (for at in $(seq 30000); do :; done); done; echo 3", "took too long: .*"),
    ("0.01", "python3 -c 'import time\nwhile time.process_time() < 0.3: pass'; printf '4\\377'", "4\ufffd 0"),
    ("9", "kill -9 $$", "signal 9"),
    ("9", "yes | head -c 3000000 >&2; printf 'first\\n a  \\377 ' >&2; exit 3", "exit 3, a \ufffd"),
    ("9", "printf '%0999d b\n' 0 >&2; exit 3", "exit 3, 0{200}"),
    ("9", "printf 'a%999s' b >&2; exit 3", "exit 3, a b"), ("9", "printf 'a%1000s' b >&2; exit 3", "exit 3, b"),
    ("5", "ulimit -t; ulimit -Ht", "8\n8 0"), ("0.4", "ulimit -t", "2 0"), ("null", "ulimit -t", r"(unlimited|\d+) 0"),
    ("9", "cat; echo 5", "5 0"), ("9", "kill -9 0", "signal 9"),
    ("9", ["./none"], "No such file or directory"), ("9", ["\ud800"], ".* surrogates not allowed"),
    ("9", "head -c 2000000 /dev/zero; sleep 2; touch late", "more than 1,048,576 bytes printed"),
    ("9", "yes makespan 7 1 | head -n 1001", "more than 1,000 makespans printed"),
    ("9", "yes makespan 7 1 | head -n 1000; yes | head -c 1048576", "y[y\n]*y 0"),
]


@pytest.mark.parametrize(("seconds", "line", "wanted"), LINES, ids=[ascii(line)[:30] for _, line, _ in LINES])
def test_a_program_that_waits_or_takes_too_long_is_ended_with_all_that_it_has_started(
        seconds: str, line: str | list[str], wanted: str, folder: pathlib.Path) -> None:
    """It has no input, and is apart from the group of its starter."""
    words = json.dumps(["sh", "-c", line] if isinstance(line, str) else line)
    code = ("import json, sys; from pfs.experiments import one; one.PATIENCE = 3\n"
            "try: text, _, left, _ = one.run_command(json.loads(sys.argv[2]), '.', json.loads(sys.argv[1]))\n"
            "except one.Failed as failure: print(failure)\nelse: print(text.strip(), left)\n")
    got = run_tool([sys.executable, "-c", code, seconds, words], folder, env=plainly.environment(), stdin=None,
                   input="x", start_new_session=True)
    assert (got.status, got.stderr) == (0, "") and re.fullmatch(wanted, got.stdout.strip()), got
    left = [path for path in pathlib.Path("/proc").glob("[0-9]*/cwd") if os.path.realpath(path) == str(folder)]
    assert left == [] and os.listdir(folder) == [], "processes that are left, or what they have done late"


# Runs that fail

# What pfs does for each seed from 1, and the status of the run.
FAILING = [("$pfs \"$@\" | sed 's/^makespan .*/makespan 1/'; exit",
            "check: exit 1, wrong makespan, stated 1, computed"),
           ("kill -9 $$", "solve: signal 9"),
           ('echo "no memory, perhaps" >&2; exit 4', "solve: exit 4, no memory, perhaps"),
           ('echo "nothing that could be read"; exit', "solve: no cells printed"),
           ("kill -9 $PPID", "lost: exit 137, signal 0")]


def test_the_csv_has_a_failed_run_with_its_status(experiment: Experiment) -> None:
    """A run that was killed is made by the next start, and the others are with --retry."""
    program = experiment.replacement("\n".join(f'"solve "*"--seed {seed} "*) {line};;'
                                               for seed, (line, _) in enumerate(FAILING, 1)))
    got = experiment.plan(HALF.replace("[1, 2, 3]", "[0, 1, 2, 3, 4, 5]")).run(program=program)
    statuses = ["ok", *(status for _, status in FAILING)]
    assert got._replace(stderr=re.sub(r"(?<=computed) \d+", "", got.stderr)) == ended(12, 10, 0, "".join(
        f"shops/a (rounds 10, take 4, passes 0, seed {seed}) and 1 more failed: {statuses[seed]}\n"
        for seed in (1, 2, 3, 4, 5)))
    assert [re.sub(r"(?<=computed) \d+", "", row[-1]) for row in experiment.rows()] == statuses * 2
    assert {row[8:-1] for row in experiment.rows() if row[-1] != "ok"} == {("",) * 4}, "results of runs that failed"
    (experiment.folder / "notes").unlink()
    (experiment.folder / "fixed").touch()
    assert experiment.run(program=program).status == 1
    assert sorted(line.partition("--seed ")[2][0] for line in experiment.started()) == ["2", "2", "5", "5"]
    assert experiment.run("out.csv", "--retry", program=program) == ended(12)
    assert experiment.rows() == experiment.wanted(rounds=[10], seeds=range(6))


# Interruptions

@pytest.mark.parametrize(("whom", "number"), [
    ("all", signal.SIGINT), ("starter", signal.SIGTERM), ("starter", signal.SIGKILL), ("parallel", signal.SIGKILL)])
def test_no_run_is_lost_or_made_again(whom: str, number: int, experiment: Experiment) -> None:
    """Each run is in the CSV once, and none that was done before a signal is made again. It comes while two are done
    and two wait."""
    wanted = experiment.plan(HALF).wanted(rounds=(10,))
    # as a start leaves it that was killed while it made copies
    (experiment.runs / "pfs-experiment-begun" / "instances").mkdir(parents=True)
    with experiment.gate() as let_through:
        begun = experiment.start("--jobs", "2")
        let_through(2)
        try:
            wait_until(lambda: (len(experiment.done()), len(experiment.started())) == (2, 4), "two are done, two wait")
            made = dict.fromkeys(experiment.done(), 1)
        finally:
            parallel = int((experiment.folder / "parallel").read_text())
            os.kill({"all": -begun.pid, "starter": begun.pid, "parallel": parallel}[whom], number)
            begun.wait(60)
        wait_until(lambda: experiment.left() == [], "what a start has begun ends with it")
    if (whom, number) != ("starter", signal.SIGKILL):
        so_far = experiment.rows()
        assert len(so_far) >= 2 and [row for row in so_far if row not in wanted] == [], "the CSV so far"
        assert experiment.script("check", "out.csv").status == 0, "the orders so far, each whole"
    assert len(experiment.started()) <= 4, "runs that GNU parallel begins without its starter"
    assert experiment.run(program=experiment.replacement()).status == 0
    assert experiment.rows() == wanted and len([*experiment.runs.glob("pfs-experiment-*")]) == 1
    counts = experiment.searches()
    assert [number for number, count in counts.items() if count == 0] == [], "runs that were never made"
    assert made.items() <= counts.items(), "runs made again"
    assert sum(counts.values()) <= len(counts) + 2, "searches that were lost"


def test_a_run_that_kills_its_process_leaves_the_later_ones_to_the_next_start(experiment: Experiment) -> None:
    """There it comes last, so the others of its process are made, also if it kills it again. The 60 runs are short
    enough to share processes."""
    program = experiment.replacement('"solve "*"--seed 1 "*shops/a|"solve "*"--seed 1 "*instances/1) kill -9 $PPID;;')
    got = experiment.plan(ALL + f"rounds = [10]\nseeds = {[*range(30)]}\n").run(program=program)
    lost = "shops/a (rounds 10, take 4, passes 0, seed 1) failed: lost: exit 137, signal 0\n"
    assert got == ended(54, 1, 6, lost), "8 runs a process, of which the second is lost"
    assert experiment.run(program=program) == ended(60, 1, 0, lost)
    (experiment.folder / "fixed").touch()
    assert experiment.run(program=program) == ended(60)
    assert set(experiment.searches().values()) == {1, 3}, "how often each run was begun"


@pytest.mark.parametrize("number", [signal.SIGTERM, signal.SIGKILL])
def test_what_gnu_parallel_leaves_has_no_lock(number: signal.Signals, experiment: Experiment) -> None:
    """If it is ended at its start, processes by which it counts how many there may be are left."""
    process = experiment.start(env=experiment.parallel("sleep 60 &\necho > started\nwait"))
    wait_until((experiment.runs / "started").exists, "GNU parallel has started")
    process.send_signal(number)
    process.wait(60)
    held = run_tool(["flock", "--nonblock", experiment.runs / "lock", "true"], experiment.folder).status
    assert held == 0, "a process that GNU parallel has left holds the lock"
    assert number == signal.SIGKILL or experiment.left() == [], "processes that GNU parallel has left"
    assert experiment.run() == ended(12)


def test_two_starts_at_once_make_each_run_once(experiment: Experiment) -> None:
    experiment.plan(HALF)
    with experiment.gate(), open(experiment.folder / "report", "wb") as got:
        first = experiment.start("--jobs", "1")
        wait_until(lambda: len(experiment.started()) == 1, "the first start makes a run")
        second = experiment.start("--jobs", "1", stderr=got)
        waits = (experiment.folder / "report").read_text
        wait_until(lambda: len(experiment.started()) > 1 or "\n" in waits(), "the second start waits, or makes a run")
        started, line = experiment.started(), waits()
    statuses = [start.wait(60) for start in (first, second)]
    assert len(started) == 1, "runs that are made at once by two starts"
    holder = f"process {first.pid} on {os.uname().nodename}"
    assert (line, statuses) == (f"waiting for {holder}, which is already running out.csv\n", [0, 0])
    assert set(experiment.searches().values()) == {1}, "how often each run was made"


# GNU parallel on a terminal and on another machine

def test_on_a_terminal_the_share_that_is_done_is_shown(experiment: Experiment) -> None:
    words = [str(word) for word in experiment.words("run", "plan.toml", "out.csv")]
    with Terminal(words, experiment.folder) as terminal:
        assert terminal.read_all() == 0
        assert re.search(rb"100% 6:0=\d+s", terminal.seen), terminal.seen[-300:]
        assert b"citation" not in terminal.seen.lower()


@pytest.mark.xdist_group("ssh")
def test_over_ssh_the_csv_is_the_same(ssh_server: Server, experiment: Experiment) -> None:
    """Of pfs and of another program. All runs are made on the other machine, and nothing is left there, once none is
    left to run: before that, a replacement of GNU parallel, which makes no run, isn't asked to remove anything."""
    (experiment.folder / "machines").write_text(ssh_server.line)
    with_other(experiment, ALL + 'seeds = [1, 2, 3]\n[[methods]]\nrounds = [10]\n[[methods]]\nmethod = "m"\n'
               'command = "./mine {instance} {jobs}"\n', "seq -s ' ' $2")
    words = ["out.csv", "--sshloginfile", "machines"]
    got = experiment.run(*words, env=experiment.parallel(f'echo "$*" >> {experiment.folder}/calls'))
    assert got == ended(0, 0, 12)
    assert "--nonall" not in (experiment.folder / "calls").read_text()
    assert experiment.run(*words) == ended(12)
    assert [*experiment.rows()[:3], *experiment.rows()[6:9]] == experiment.wanted(rounds=(10,))
    lines = (experiment.runs / "joblog").read_text().splitlines()[1:]
    assert {line.split("\t")[1].split()[-1] for line in lines} == {"127.0.0.1"}
    assert [path.name for path in ssh_server.home.iterdir() if path.name != ".parallel"] == []


# Slurm

@on_slurm
def test_on_slurm_the_csv_is_the_same(experiment: Experiment, slurm: Cluster) -> None:
    """The runs are one array of the requested number of tasks, and each is made by one task. What Slurm says of tasks
    that it ended is in the CSV. The next start makes their runs, and a later one those whose results are gone."""
    words = ["--tasks", "2", "--time=5"]
    with experiment.plan(HALF).gate():
        begun = experiment.start(*words, name="slurm", env=slurm.env)
        wait_until(lambda: len(experiment.started()) == 2, "two tasks make a run each")
        number = slurm.tells("squeue", "-h", "-o", "%F").split()[0]
        assert slurm.tells("scontrol", "-o", "show", "job", number).count(f"ArrayJobId={number} ") == 2
        slurm.tells("scancel", "--full", number)
        assert begun.wait(100) == 1
    said = r"lost: \*\*\* JOB \d+ ON \S+ CANCELLED AT \S+ \*\*\*"
    assert [bool(re.fullmatch(said, row[-1])) for row in experiment.rows()] == [True] * 2
    (experiment.folder / "notes").unlink()
    assert experiment.start(*words, name="slurm", env=slurm.env).wait(100) == 0
    assert experiment.rows() == experiment.wanted(rounds=(10,))
    assert set(experiment.searches().values()) == {1}, "how often each run was made"
    results, before = experiment.runs / "results", experiment.written()
    (results / "2").unlink()
    (results / "5").write_text("5,1")
    assert experiment.start(*words, name="slurm", env=slurm.env).wait(100) == 0
    assert {name for name, _ in experiment.written().items() - before.items()} == {"2", "5"}
    got = experiment.script("slurm", *words[:2], "plan.toml", "out.csv", env=slurm.env)
    assert got == ended(6), "a start where nothing is left to do"


@on_slurm
def test_on_slurm_a_second_start_waits_for_the_array_of_the_first(experiment: Experiment, slurm: Cluster) -> None:
    """Also if the first start was killed while it waited for its array. A result exists only once it is complete."""
    experiment.plan(HALF)
    with experiment.gate():
        first = experiment.start("--tasks", "1", "--time=5", name="slurm", env=slurm.env)
        wait_until(lambda: len(experiment.started()) == 1, "the array makes a run")
        os.killpg(first.pid, signal.SIGKILL)
        first.wait(60)
        assert experiment.done() == set(), "results of runs that have not ended"
        second = experiment.start("--tasks", "1", "--time=5", name="slurm", env=slurm.env)
        wait_until(lambda: "Dependency" in slurm.tells("squeue", "-h", "-o", "%r"), "the second array waits")
    assert second.wait(120) == 0
    assert set(experiment.searches().values()) == {1}, "how often each run was made"
    assert experiment.rows() == experiment.wanted(rounds=(10,))


@pytest.mark.parametrize(("seconds", "count", "runs"), [
    ("0.1", 8, 1), ("0.1", 9, 2), ("0.1", 16, 2), ("0.1", 400, 10), ("0.001", 400, 25), ("1", 400, 1), ("5", 400, 1),
    ("5", 0, 1)])
def test_short_runs_share_a_process(seconds: str, count: int, runs: int) -> None:
    """At most 25 of them, for about a second, and there are at least 8 processes."""
    assert run.runs_a_process([{"limit": "0.0001"}, *[{"limit": seconds}] * count][:count]) == runs


def test_files_of_orders_have_the_settings_in_their_names() -> None:
    """And the beginning of the instance's, at most 100 bytes of it."""
    row = dict.fromkeys(folders.RUN, "") | {"rounds": "10", "take": "4", "passes": "0", "seed": "2", "number": "7"}
    assert run.order_name(row | {"instance": "x/ta001:2"}) == "ta001-block-2-rounds-10-take-4-passes-0-seed-2-number-7"
    assert run.order_name(row | {"instance": "x" + "\u00e4" * 60}).partition("-")[0] == "x" + "\u00e4" * 49


def test_the_last_array_says_how_a_run_ended(folder: pathlib.Path) -> None:
    """By the times of the logs, which may have any bytes; numbers of arrays have more and more digits."""
    (folder / "slurm").mkdir()
    for age, name in enumerate(("9-1.log", "10-1.log")):
        (folder / "slurm" / name).write_bytes(b"\xff\nrun 1\nrun 7\nrun 8 \nslurmstepd-a: error: %s\n" % name.encode())
        os.utime(folder / "slurm" / name, (age, age))
    assert run.endings(folder, ()) == {"7": "lost: 10-1.log"}


# A run of the first shop takes minutes with as many passes as there may be, and one of the second less than a second.
LONG = 'instances = ["shops/a"]\nrounds = [1000000]\npasses = [100]\nseeds = {}\n'
ARRAYS = {
    "long runs": (LONG.format([1, 2, 3]), [], "1-3"), "many": (LONG.format(list(range(1100))), [], "1-1000"),
    "short runs share a task": (ONLY_B + f"rounds = [1]\nseeds = {[*range(1100)]}\n", [], "1-1"),
    "fewer tasks": (PLAN, ["--tasks", "5"], "1-5"), "as many tasks as runs": (PLAN, ["--tasks", "50"], "1-12"),
    "a command without a time": (MINE + 'seeds = [1, 2]\ncommand = "m {instance} {seed}"\n', [], "1-4"),
    # 100 runs of 1.5 seconds and 100 of 0.09
    "a command with a time": (MINE + f'time_factors = [30]\nseeds = {[*range(100)]}\n'
                              'command = "/bin/m {instance} {seed}"\n', [], "1-3"),
}


@pytest.mark.parametrize(("plan", "words", "array"), ARRAYS.values(), ids=ARRAYS)
def test_slurm_is_asked_for_an_array_of(plan: str, words: list[str], array: str, experiment: Experiment) -> None:
    """A dry run prints the line that another one calls, and submits nothing."""
    write_script(experiment.folder / "bin" / "sbatch", "#!/bin/sh\necho \"$@\" > submitted\n")
    env = with_path(experiment.folder / "bin")
    got = experiment.plan(plan).script("slurm", "--dry-run", *words, "plan.toml", "out.csv", "--time=5", env=env)
    assert got.status == 0 and not (experiment.runs / "submitted").exists()
    assert re.search(r"^out\.csv: [0-9]+ runs still to run$", got.stderr, re.MULTILINE)
    assert not (experiment.folder / "out.csv").exists()
    assert run_tool(["sh", "-c", got.stdout], experiment.folder, env=env).status == 0
    submitted = (experiment.runs / "submitted").read_text().split()
    (experiment.runs / "submitted").unlink()
    assert experiment.script("slurm", *words, "plan.toml", "out.csv", "--time=5", env=env).status == 1, "none has run"
    assert (experiment.runs / "submitted").read_text().split() == submitted
    assert {f"--array={array}", "--wait", f"--job-name={submitted[-1]}", "--dependency=singleton", "--time=5",
            "--output=slurm/%A-%a.log"} <= {*submitted}
    assert submitted[-2:] == [str(pathlib.Path(one.__file__).with_name("task")),
                              *(path.name for path in experiment.runs.glob("pfs-experiment-*"))]


# What the runs were made with, their reference, and what there is before the end

WITH_FILE = """instances = ["shops/b"]
seeds = [{seeds}]
method = "mine"
command = "./mine {{instance}}"
files = ["data"]
"""


def test_the_file_has_the_version_the_sums_and_each_start(experiment: Experiment, top: pathlib.Path) -> None:
    """What has changed since is reported, and the copies are used."""
    (experiment.folder / "data").write_text("1\n")
    mine = with_other(experiment, WITH_FILE.format(seeds="1"), "echo 1 2 3")
    inputs = {"pfs": mine.pfs.path, **{name: mine.folder / name for name in ("shops/b", "data", "mine")}}
    wanted = {name: hashlib.sha256(path.read_bytes()).hexdigest() for name, path in inputs.items()}
    assert mine.run() == mine.run() == ended(1)
    stored = json.loads((mine.runs / "provenance.json").read_text())
    assert re.fullmatch(re.escape((top / "VERSION").read_text().strip()) + "(, commit [0-9a-f]+( with changes)?)?",
                        stored["version"]) and stored["sha256"] == wanted
    method, = stored["plan"]["methods"]
    assert (method["seeds"], method["method"]) == ([1], "mine")
    assert stored["starts"][0]["at"] <= stored["starts"][1]["at"]
    for start in stored["starts"]:
        assert re.fullmatch(r"\d{4}-\d\d-\d\dT\d\d:\d\d:\d\d\+00:00 .+ Linux-.+", " ".join(
            start.pop(key) for key in ("at", "processor", "system")))
        assert start == {"host": os.uname().nodename, "processors": os.cpu_count(), "python": sys.version.split()[0]}
    before = mine.columns("makespan")
    with_other(mine, WITH_FILE.format(seeds="1, 2"), "echo 1 3 2")
    for name in ("data", "shops/b"):
        with open(mine.folder / name, "a") as file:
            file.write("# changed\n")
    assert mine.run() == ended(2, said="out.csv: changed since they were copied for its runs: data, mine, shops/b. The "
                                       "copies are used: to begin anew, name another CSV or delete out.csv.d\n")
    assert mine.columns("makespan") == before * 2
    assert json.loads((mine.runs / "provenance.json").read_text())["sha256"] == wanted, "sums of the copies"
    assert mine.run("new.csv") == ended(2, name="new.csv")
    assert mine.columns("makespan", csv_name="new.csv") != before * 2
    for name in ("mine", "data"):
        (mine.folder / name).rename(mine.folder / f"{name}.gone")
    assert "no file matches data" in mine.run().stderr


@pytest.mark.parametrize("damaged", [b"", b"{", b"[1]", b'{"starts": 3}', b"{}", b"\xff", b"[" * 100_000])
def test_a_damaged_list_of_starts_is_begun_anew(damaged: bytes, folder: pathlib.Path) -> None:
    (folder / "provenance.json").write_bytes(damaged)
    for count in (1, 2):
        folders.note_start(folder / "stage", {}, {})
        assert len(json.loads((folder / "provenance.json").read_text())["starts"]) == count


def test_the_lock_names_only_its_last_process(folder: pathlib.Path) -> None:
    (folder / "lock").write_text("9" * 99)
    folders.lock(folder, "out.csv")
    assert (folder / "lock").read_text() == f"{os.getpid()} on {os.uname().nodename}"


def test_the_library_that_was_loaded_is_copied(libpfs: Library, monkeypatch: pytest.MonkeyPatch) -> None:
    """Also if only its name is known, as where the system has it."""
    for path in (_library.FILE, str(libpfs.path)):
        monkeypatch.setattr(_library, "PATH", path)
        assert folders.library() == str(libpfs.path)


def test_a_reference_must_name_an_instance_and_status_writes_what_there_is(experiment: Experiment) -> None:
    """By its name in the plan, or without folder, ending and in lower case. What it lacks is reported. It may begin
    with a byte order mark, and be named once all runs are made. The CSV has the order of the plan, and what the
    reference had at the start."""
    status = functools.partial(experiment.script, "status", "out.csv")
    assert_refused(status(), "pfs-experiments status: out.csv was not started: out.csv.d is missing\n")
    plan = 'instances = ["shops/*"]\nseeds = [2, 1]\nrounds = [1]\nreference = "best.csv"\n'
    (experiment.folder / "best.csv").write_text("instance,makespan\nc,9\n")
    assert_refused(experiment.plan(plan).run(), "pfs-experiments run: plan.toml: the reference best.csv names none of "
                                                "the instances: it has c, and the plan shops/a\n")
    assert not experiment.runs.exists()
    with experiment.plan(plan.rpartition("reference")[0]).gate() as let_through:
        begun = experiment.start("--jobs", "1")
        let_through(1)
        wait_until(lambda: (experiment.runs / "plan.json").exists() and status() == ended(1, 0, 3), "a run has ended")
        assert experiment.columns("instance", "seed", "reference") == [("shops/a", "2", "")]
    assert begun.wait(60) == 0
    (experiment.folder / "best.csv").write_text("\N{BOM}instance,makespan,source\nc,9,no paper\nB.txt,7.0,a paper\n")
    assert experiment.plan(plan).run() == ended(4, 0, 0, "best.csv lacks 1 of 2 instances: shops/a\n")
    (experiment.folder / "best.csv").unlink()
    before = (experiment.folder / "out.csv").read_bytes()
    assert status() == ended(4)
    assert (experiment.folder / "out.csv").read_bytes() == before and before.count(b"\n") == 5
    assert experiment.columns("seed", "reference", "source") == [
        (seed, *known) for known in (("", ""), ("7", "a paper")) for seed in "21"]


# The pages

@pytest.mark.seconds(20)
def test_the_lines_of_the_way_lead_to_a_report(top: pathlib.Path, pfs: Program, folder: pathlib.Path,
                                               scripts: pathlib.Path, scipy: None) -> None:
    """Of README, in a copy that has the built program, which is taken as it is, and of the manual page, whose exit
    statuses these are. The plan has fewer runs."""
    tool("parallel")
    for name in ("experiments", "python/src"):
        shutil.copytree(top / name, folder / name, ignore=shutil.ignore_patterns("out", "__pycache__"))
    for name in ("Makefile", "crates.txt"):
        shutil.copy(top / name, folder / name)
    shutil.copytree(scripts, folder / "bin")
    for place in ("crates/pfs/out", "bin"):
        (folder / place).mkdir(parents=True, exist_ok=True)
        shutil.copy(pfs.path, folder / place / "pfs")
    plan = folder / "experiments" / "example.toml"
    plan.write_text(plan.read_text().replace("[1-3]", "1").replace(", 100, 1000]", ", 20]"))
    block, = re.findall(r"```\n(sudo apt-get install parallel .*?)```", README, re.DOTALL)
    page = (top / "python" / "pfs-experiments.1").read_text()
    sections = {name: page.partition(f".Sh {name}")[2].partition(".Sh ")[0] for name in ("EXAMPLES", "EXIT STATUS")}
    manual = re.findall(r"^\$ (.*)$", sections["EXAMPLES"], re.MULTILINE)
    lines = [line.partition("#")[0].strip() for line in block.splitlines()[1:]]
    assert len(lines) == 5 and len(manual) == 4 and manual[0].startswith("cp ")
    for line in (*lines, "cp experiments/example.toml .", "rm -r example.csv example.csv.d report", *manual[1:]):
        assert run_tool(line.split(" "), folder, env=with_path(folder / "bin")).status == 0, line
    assert sum(int(row["runs"]) for row in csv_rows(folder / "report" / "table.csv")) == 3 * (1 + 2 * 3)
    got = dict(re.findall(r"^\.It (\d)\n([^.]*\.)", sections["EXIT STATUS"], re.MULTILINE))
    assert list(got) == ["0", "1", "2", "3", "4"] and got["0"] == "Done." and "rejected" in got["2"]
    assert "failed" in got["1"] and "wrong" in got["1"]
