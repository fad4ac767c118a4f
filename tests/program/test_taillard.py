"""The 120 instances that `make taillard` writes are Taillard's: their times are those of the generator's recurrence,
and `pfs check` prints the published bound of each. The quality of orders in docs/SEARCH.md is what searches find on
some of them."""
import fnmatch
import os
import pathlib
import re
import statistics
import tomllib

import pytest
from support.files import generated
from support.needs import tool
from support.program import Program, Ran
from support.tools import csv_rows, output_of, run_tool, write_script

SIZES = [(20, 5), (20, 10), (20, 20), (50, 5), (50, 10), (50, 20), (100, 5), (100, 10), (100, 20), (200, 10),
         (200, 20), (500, 20)]
NAMES = [f"ta{number:03}" for number in range(1, 121)]

# so that the instances are written once
pytestmark = pytest.mark.xdist_group("taillard")


Listed = dict[str, dict[str, str]]


@pytest.fixture(scope="module")
def listed(top: pathlib.Path) -> Listed:
    """The rows of the list, by name."""
    return {row["instance"]: row for row in csv_rows(top / "python" / "src" / "pfs" / "taillard.csv")}


@pytest.fixture(scope="module")
def shops(scripts: pathlib.Path, pfs: Program, tmp_path_factory: pytest.TempPathFactory) -> pathlib.Path:
    """A folder with the instances."""
    folder = tmp_path_factory.mktemp("taillard")
    output_of([scripts / "pfs-experiments", "taillard", "--pfs", pfs.path, "shops"], folder)
    return folder / "shops"


@pytest.mark.parametrize("name", NAMES)
def test_the_bound_is_the_published_one(name: str, listed: Listed, shops: pathlib.Path, pfs: Program,
                                        folder: pathlib.Path) -> None:
    """With the times of the recurrence. There are ten instances of each size."""
    assert sorted(os.listdir(shops)) == [*listed] == NAMES
    jobs, machines, seed, best, bound = (int(listed[name][key]) for key in (
        "jobs", "machines", "time_seed", "best_makespan", "lower_bound"))
    assert (jobs, machines) == SIZES[NAMES.index(name) // 10] and best >= bound
    assert (shops / name).read_bytes() == generated(jobs, machines, seed)
    value = pfs.run(["value", "--layout", "taillard", str(shops / name)], folder)
    numbers = " ".join(str(job) for job in range(1, jobs + 1))
    (folder / "order").write_bytes(b"order %d\n%s\n" % (jobs, numbers.encode()) + value.stdout)
    verdict = pfs.run(["check", "--layout", "taillard", str(shops / name), "order"], folder)
    lines = verdict.stdout.decode().splitlines()
    assert Ran(b"", verdict.stderr, verdict.status) == Ran(b"", b"", 0)
    assert [lines[0], lines[2]] == ["valid", f"bound {listed[name]['lower_bound']}"]


# The tables of deviations

# The sizes of their columns, and the passes of their searches.
TABLE_SIZES = [(20, 5), (50, 10), (50, 20), (100, 10)]
TABLE_PASSES = [0, 1]


@pytest.fixture(scope="module")
def best_known(listed: Listed) -> dict[str, int]:
    return {name: int(row["best_makespan"]) for name, row in listed.items()}


def test_a_killed_program_leaves_no_part_of_an_instance(scripts: pathlib.Path, pfs: Program,
                                                        folder: pathlib.Path) -> None:
    """Under the name of an instance there is a whole one or none."""
    program = write_script(folder / "pfs", "#!/bin/sh\ncase $* in *' 379008056') echo half; kill -9 $$;; esac\n"
                           f"exec {pfs.path} \"$@\"\n")
    words: list[str | pathlib.Path] = [scripts / "pfs-experiments", "taillard", "--pfs"]
    got = run_tool([*words, program, "shops"], folder)
    assert got.status != 0, "the script says nothing of the program that was killed"
    whole = sorted(path.name for path in (folder / "shops").iterdir() if path.suffix != ".new")
    assert whole == ["ta001"], "a part of ta002 has the name of the whole instance"
    run_tool([tool("prlimit"), "--fsize=100", *words, pfs.path, "small"], folder)
    assert list((folder / "small").iterdir()) == [], "a part of ta001, for which there was no room"


def test_the_deviation_of_neh_is_the_published_one(best_known: dict[str, int], shops: pathlib.Path,
                                                   pfs: Program) -> None:
    """The mean of all 120 instances is 3.33 %, relative to the best known makespans."""
    found = []
    for name in NAMES:
        ran = pfs.run(f"solve --layout taillard {name}", shops)
        found.append(100 * (int(ran.stdout.split()[-1]) / best_known[name] - 1))
    assert min(found) > 0 and statistics.fmean(found) == pytest.approx(3.33, abs=0.005)


def test_the_plan_of_the_tables_is_that_of_the_page(top: pathlib.Path) -> None:
    """Its instances, rounds, passes and seeds are those of the tables."""
    plan = tomllib.loads((top / "experiments" / "quality.toml").read_text())
    names = [name for pattern in plan["instances"] for name in NAMES
             if fnmatch.fnmatchcase(f"out/taillard/{name}", pattern)]
    sizes = [SIZES[(int(name[2:]) - 1) // 10] for name in names]
    assert sizes == [size for size in TABLE_SIZES for _ in range(10)], "sizes of quality.toml"
    assert plan["passes"] == TABLE_PASSES, "passes of quality.toml"
    for passes, table in zip(TABLE_PASSES, tables_of(top), strict=True):
        heads = re.findall(r"(\d+)×(\d+): s \|", table)
        assert [(int(jobs), int(machines)) for jobs, machines in heads] == TABLE_SIZES, "sizes of the tables"
        rounds = [int(cell.replace(",", "")) for cell in re.findall(r"^\| ([\d,]+)", table, re.MULTILINE)]
        assert rounds == (plan["rounds"] if passes == 0 else plan["rounds"][1:]), "rounds of the tables"
    seed = re.search(r"over all ten of Taillard's instances of each size .*, with `--seed (\d+)` and no other option",
                     (top / "docs" / "SEARCH.md").read_text())
    assert seed and plan["seeds"] == [int(seed[1])], "seeds of quality.toml and of the page"
    others = plan.keys() - {"instances", "rounds", "seeds", "passes"}
    assert others == set(), "options that are not the default ones"


def tables_of(top: pathlib.Path) -> list[str]:
    """The page's tables, one for each number of passes."""
    return re.findall(r"^\| Rounds \|.*\n(?:\|.*\n)+", (top / "docs" / "SEARCH.md").read_text(), re.MULTILINE)


def test_readme_has_rows_of_these_tables(top: pathlib.Path) -> None:
    text = (top / "README.md").read_text()
    for name, rounds, passes in (("NEH", "0 (NEH)", 0), ("1,000 rounds", "1,000", 0),
                                 ("1,000 rounds with a pass in each", "1,000", 1),
                                 ("1,000,000 rounds with a pass in each", "1,000,000", 1)):
        row, = re.findall(rf"^\| {name} (\|.*\|)$", text, re.MULTILINE)
        wanted, = re.findall(rf"^\| {re.escape(rounds)} (\|.*\|)$", tables_of(top)[passes], re.MULTILINE)
        assert row.split("|")[1:5] == wanted.split("|")[2:-1:2], name


@pytest.mark.parametrize(("rounds", "passes"), [(0, 0), (1000, 0), (10000, 0), (1000, 1)])
def test_the_page_has_the_deviations_of_searches(rounds: int, passes: int, best_known: dict[str, int],
                                                 listed: Listed, shops: pathlib.Path, pfs: Program,
                                                 top: pathlib.Path) -> None:
    """They have two decimals. The other rows take minutes."""
    deviations: dict[tuple[int, int], list[float]] = {size: [] for size in TABLE_SIZES}
    for name, best in best_known.items():
        size = int(listed[name]["jobs"]), int(listed[name]["machines"])
        if size not in deviations:
            continue
        ran = pfs.run(f"solve --layout taillard --rounds {rounds} --passes {passes} --seed 1 {name}", shops)
        span = int(ran.stdout.split()[-1])
        assert span >= best, "a makespan below the best known one"
        deviations[size].append(100 * (span - best) / best)
    row, = re.findall(rf"^\| {rounds:,}(?: \(NEH\))? \|(.*)\|$", tables_of(top)[passes], re.MULTILINE)
    printed = [cell.strip() for cell in row.split("|")][1::2]
    for some, text in zip(deviations.values(), printed, strict=True):
        assert re.fullmatch(r"\d+\.\d\d", text) and abs(statistics.fmean(some) - float(text)) < 0.0051, printed
