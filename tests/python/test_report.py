"""The report of experiments: its tables, its statistics by plain definitions, and what its plots show."""
import csv
import itertools
import math
import os
import pathlib
import re
import statistics
import time
from collections.abc import Callable
from typing import Any
from unittest import mock

import numpy as np
import pfs
import pytest
from hypothesis import given
from hypothesis import strategies as st
from support.colours import least_difference
from support.experiments import Experiment
from support.tools import Done, csv_rows, run_main, run_tool

for _name in ("matplotlib", "pandas", "scipy"):
    pytest.importorskip(_name)
import matplotlib as mpl
import pandas
from matplotlib.colors import to_hex
from pfs.experiments import __main__ as experiments
from pfs.experiments import report as typed
from pfs.experiments.statistics import alike, common, critical_difference, holm

HEAD = "instance,jobs,machines,rounds,take,passes,seed,repetition,makespan,bound,gap_percent,cells,seconds,status\n"
# By hand, and no mean is a median. The best makespans are 101 of a, 103 of b and 200 of c, from which the RPD of a's
# first run is 900 / 101.
REPORTED = HEAD + """a,20,5,0,4,0,1,1,110,100,10.0000,1000,0.001000,ok
b,20,5,0,4,0,1,1,120,100,20.0000,1000,0.003000,ok
a,20,5,100,4,0,1,1,101,100,1.0000,100000,0.100000,ok
b,20,5,100,4,0,1,1,103,100,3.0000,100000,0.200000,ok
a,20,5,100,4,0,2,1,105,100,4.5000,100000,0.300000,ok
b,20,5,100,4,0,2,1,107,100,7.5000,100000,1.400000,ok
a,20,5,100,4,0,3,1,,,,,,"solve: exit 4, pfs: no memory"
c,100,10,100,4,0,1,1,200,200,0.0000,1000000,2.000000,ok
d,100,10,0,4,0,1,1,1,,,,,solve: signal 9
e,,,0,,0,1,1,,,,,,"solve: exit 2, pfs: no block, found 0"
"""
TABLE = """method,jobs,machines,rounds,take,passes,runs,failed,audited,mean_rpd_percent,greatest_rpd_percent,\
mean_gap_percent,greatest_gap_percent,mean_seconds
out,,,0,,0,0,1,0,,,,,
out,20,5,0,4,0,2,0,0,12.708,16.505,15.000,20.000,0.0020
out,20,5,100,4,0,4,1,0,1.961,3.960,4.000,7.500,0.5000
out,100,10,0,4,0,0,1,0,,,,,
out,100,10,100,4,0,1,0,0,0.000,0.000,0.000,0.000,2.0000
"""
HEADS = ("method | jobs | machines | rounds | take | passes | runs | failed | audited | mean rpd, % | greatest rpd, % "
         "| mean gap, % | greatest gap, % | mean time, s")
FILES = ["gap.png", "instances.csv", "rpd.png", "seconds.png", "sizes.csv", "sizes.md", "sizes.tex",
         "table.csv", "table.md", "time.png"]
Reported = Callable[..., Done]
# Its figures are those of matplotlib, which has no types.
reports: Any = typed


@pytest.fixture
def report(folder: pathlib.Path) -> Reported:
    """Runs `pfs-experiments report` in this process, with these words, or else into the folder `report`, after it has
    written CSVs of these texts, each by its name, the first one as `out`. That of `best` is the reference."""
    def run(text: str = "", *options: str, words: str = "", **texts: str) -> Done:
        texts |= {"out": text} if text else {}
        for name, each in texts.items():
            (folder / f"{name}.csv").write_text(each)
        reference = ["--reference", "best.csv"] if "best" in texts else []
        given = words.split() or [*options, *reference, *(f"{name}.csv" for name in texts if name != "best"), "report"]
        with mock.patch("signal.signal"), mpl.rc_context():
            return run_main(experiments.main, ["pfs-experiments", "report", *given], folder)
    return run


def columns(folder: pathlib.Path, table: str, *names: str) -> list[tuple[str, ...]]:
    return [tuple(row[name] for name in names) for row in csv_rows(folder / "report" / f"{table}.csv")]


def column(folder: pathlib.Path, name: str, table: str = "table") -> list[str]:
    return [cell for cell, in columns(folder, table, name)]


def cells_of(path: pathlib.Path) -> list[list[str]]:
    return list(csv.reader(path.read_text().splitlines()))


@pytest.mark.parametrize(("ending", "begin"), [("png", b"\x89PNG"), ("svg", b"<?xml"), ("pdf", b"%PDF")])
def test_a_report_has_its_table_and_its_plots(ending: str, begin: bytes, report: Reported,
                                              folder: pathlib.Path) -> None:
    """With the dots per inch of the option. Of runs that all failed there is only the table."""
    got = report(REPORTED, "--format", ending, "--dpi", "100")
    assert (got.status, got.stderr) == (0, "")
    assert sorted(os.listdir(folder / "report")) == [name.replace("png", ending) for name in FILES]
    assert (folder / "report" / "table.csv").read_bytes() == TABLE.encode()
    assert (folder / "report" / "table.md").read_text() == got.stdout
    rows = [HEADS, " | ".join(["---:"] * 14), *(line.replace(",", " | ") for line in TABLE.splitlines()[1:])]
    assert got.stdout == "".join(f"| {row} |\n" for row in rows) + (
        "\nRPD: relative to the best makespan of any of these runs.\n")
    for name in ("gap", "rpd", "seconds", "time"):
        picture = (folder / "report" / f"{name}.{ending}").read_bytes()
        assert picture.startswith(begin) and len(picture) > 5000, name
        assert ending != "pdf" or (b"/FontFile2" in picture and b"/Type3" not in picture), "fonts"
        assert (ending, name) != ("png", "gap") or int.from_bytes(picture[16:20], "big") == 650, "dots in 6.5 inches"
    got = report(words="failed.csv none", failed=HEAD + "a,20,5,0,4,0,1,1,,,,,,solve: signal 9\n")
    assert got == Done(1, "", "pfs-experiments report: no run succeeded: nothing to plot\n")
    assert sorted(os.listdir(folder / "none")) == ["table.csv", "table.md"]


GAP, SECONDS = "the column gap_percent, from -100 to 1e+20", "the column seconds, from 0 to 1e+12"
BAD = [("20,5,0", "20,5,0.5", "'0.5' is not a number of the column rounds, from 0 to 1e+09"),
       *(("10.0000", each, f"{each!r} is not a number of {GAP}") for each in ("-101", "nan", "x", "1.1e20")),
       (",110,", f",{'1' * 320},", f"'{'1' * 40}' is not a number of the column makespan, from 0 to 1e+18"),
       (",110,", f",{'1' * 131_073},", "field larger than field limit (131072)"),
       *(("0.001000", each, f"{each!r} is not a number of {SECONDS}")
         for each in ("inf", "1_0", "-1", "\N{ARABIC-INDIC DIGIT ONE}"))]
# The status, the arguments, and what is said.
WORDS = [(4, "none.csv report", "none.csv: "), (3, "--width 0 out.csv report", "'0' is not a number of inches"),
         (3, "--dpi 25.5 out.csv report", "'25.5' is not a whole number from 20 to 1,200"),
         (4, "out.csv out.csv", "out.csv: "), (4, "out.csv out.csv/report", "out.csv/report: "),
         (4, "--reference none out.csv report", "none: "),
         (2, "--reference other.csv out.csv report", "other.csv: no column instance, makespan"),
         (2, "--reference two.csv out.csv report", "two.csv: a has two makespans"),
         (2, "--reference three.csv out.csv report", "three.csv: '1.000' is not a whole number of at most 18 digits"),
         (2, "out.csv ./out.csv report", "a CSV is named twice, and its runs would count twice"),
         (2, "--reference ranks.csv out.csv .", "ranks.csv is read, and writing would replace it"),
         (2, "other.csv report", "other.csv: no column instance, makespan"),
         (2, "means.csv report", "published means are columns beside the runs of another CSV")]


@pytest.mark.parametrize(("text", "status", "words", "said"), [
    *((REPORTED.replace(old, new), 2, "out.csv report", f"report: out.csv: {said}\n") for old, new, said in BAD),
    *((REPORTED, *each) for each in WORDS)],
    ids=[*(f"{new[:9]!r}" for _, new, _ in BAD), *(words for _, words, _ in WORDS)])
def test_what_is_refused_is_said_on_one_line_and_nothing_is_left(text: str, status: int, words: str, said: str,
                                                                 report: Reported, folder: pathlib.Path) -> None:
    got = report(words=words, out=text, other="name,length\na,1\n", means="jobs,machines,rpd\n2,2,1\n",
                 two="instance,makespan\na,50\na,51\n", ranks="instance,makespan,makespan\na,50,51\n",
                 three="instance,makespan\na,1.000\n")
    assert (got.status, got.stdout) == (status, "")
    assert re.fullmatch("pfs-experiments report: [^\n]*\n", got.stderr) and said in got.stderr, got.stderr
    assert sorted(os.listdir(folder)) == ["means.csv", "other.csv", "out.csv", "ranks.csv", "three.csv",
                                          "two.csv"]


def test_a_csv_that_pandas_wrote_and_the_greatest_numbers(report: Reported, folder: pathlib.Path) -> None:
    """Which writes whole numbers with a point in columns where some are missing, and an index before; with a byte order
    mark."""
    (folder / "given.csv").write_text(REPORTED)
    written = pandas.read_csv(folder / "given.csv").to_csv()
    assert ",20.0,5.0," in written and report("\N{BOM}" + written).status == 0
    assert (folder / "report" / "table.csv").read_text() == TABLE
    most = 1_000_000
    lines = [f"a,{most},{most},{rounds},{most},{most},18446744073709551615,1,{makespan},1,{gap},{cells},{seconds},ok\n"
             for rounds, makespan, gap, cells, seconds in (
                 (0, 1, "0.0000", 1, "1e-320"), (0, 999999999999999999, "99999999999999999800.0000", 2, "1e-9"),
                 (1000000000, 999999999999999999, "1e20", 18446744073709551615, "1e12"))]
    assert report(HEAD + "".join(lines)).status == 0
    assert [float(each) for each in column(folder, "greatest_rpd_percent")] == pytest.approx([1e20] * 2)


# Names of methods from a CSV of somebody else, and how LaTeX has some.
NAMES = ["a|b", "<img src=x>", "two\nlines", "_x_", "[l](http://x)", "\x1b[31mred", "=1+1", "-1+1", "@SUM(1)", "$x^^$",
         "a&amp;b", "x" * 500, "`code`", "*bold*", "~~gone~~", "back\\slash"]
ESCAPED = {"{x}": r"\{x\}", "50%": r"50\%", "a_b": r"a\_b", "#1": r"\#1", "$": r"\$", "a&b": r"a\&b",
           "^": r"\textasciicircum{}", "~": r"\textasciitilde{}", "\\": r"\textbackslash{}",
           "<": r"\textless{}", ">": r"\textgreater{}", "|": r"\textbar{}", 'a"': "a''",
           "a_b; c, d": r"\shortstack[r]{a\_b; c\\d}"}


def test_names_stay_in_their_cells_and_are_escaped(report: Reported, folder: pathlib.Path) -> None:
    """They aren't read as marks in Markdown, formulas in a spreadsheet, or codes on a terminal or in a picture."""
    rows = {"instance": "a|b/=i", "makespan": range(10, 26), "method": NAMES, "seconds": 0.5, "jobs": 3, "machines": 2,
            "rounds": [at // 4 for at in range(10, 26)], "take": 1, "passes": 0}
    with mock.patch.object(typed, "by_rounds", return_value=None):  # where each name has a panel
        got = report(pandas.DataFrame(rows).to_csv(index=False), "--format", "svg")
    assert got.status == 0 and "\x1b" not in got.stdout + got.stderr, got.stderr
    for path in (folder / "report").glob("*.md"):
        lines = path.read_text().partition("\n\n")[0].splitlines()
        assert {len(re.findall(r"(?<!\\)\|", line)) for line in lines} == {lines[1].count("|")}, f"cells in {path.name}"
        assert re.findall(r"(?<!\\)[<`*\[~&]|(?<![\\A-Za-z0-9])_", "\n".join(lines)) == [], f"marks in {path.name}"
    formulas = [cell for path in (folder / "report").glob("*.csv") for row in csv_rows(path) for cell in
                [*row, *row.values()] if re.match(r"[=+@\t\r]|-[^0-9]|-1\+", cell)]
    assert formulas == []
    shown = (folder / "report" / "seconds.svg").read_text()
    for text in ("a|b", "&lt;img src=x&gt;", r"two\nlines", r"\x1b[31mred", "$x^^$", "\u200b_x_"):
        assert text in shown, f"{text} is in no picture"
    frame = pandas.DataFrame({"instance": "a", "makespan": range(10, 10 + len(ESCAPED)), "method": ESCAPED.keys()})
    with mock.patch.object(typed, "plot"):
        assert report(frame.to_csv(index=False)).status == 0
    head = (folder / "report" / "sizes.tex").read_text().splitlines()[3]
    assert sorted(head.removesuffix(r" \\").split(" & ")[1:]) == sorted(ESCAPED.values()), "names in sizes.tex"


# The reference

FOLDERS = REPORTED.replace("\na,", "\nsome/folder/a,")
WITH_COLUMN = REPORTED.replace(",status", ",status,reference").replace("ok\n", "ok,100\n").replace("2.000000,ok,100",
                                                                                                   "2.000000,ok,")
KNOWN = "instance,jobs,machines,makespan\nout/ta001,20,5,1291\nta111,500,20,26301\nta002,50,5,2724\nmine,20,5,1000\n"
LARGE = f"{100 * 261 / 26040:.3f}"
# A CSV, the reference, the mean RPDs and what is said. (10 + 140) / 2 at 0 rounds; 1, 106, 5 and 114 at 100. By the
# column b has 20, and 3 and 7, and a 120, 102 and 110. The best known makespans of ta001 and ta111 are 1278 and 26040.
REFERENCES: dict[str, tuple[str, str, list[str], str]] = {
    "the last part of a path, and another encoding": (
        FOLDERS, "\N{BOM}instance,makespan,source\na,100,a paper\nb,50.0,another\n", ["", "75.000", "56.500", "", ""],
        "\n\nRPD: relative to the makespan in best.csv.\n1 runs of 1 instances have no reference, and no RPD: c.\n"),
    "a path before its last part": (FOLDERS, "instance,makespan\na,7\nsome/folder/a,100\nb,50\n",
                                    ["", "75.000", "56.500", "", ""], ""),
    "the case": (FOLDERS.replace("/a,", "/A,"), "instance,makespan\na,7\nA,100\nb,50\n",
                 ["", "75.000", "56.500", "", ""], ""),
    "two makespans of two names": (
        "instance,makespan,rounds\nx/b,9,1\nx/c,18,2\nB.txt,14,3\n",
        "instance,makespan\nB.txt,7\nb.dat,8\nC.txt,9\nc.dat,9\n", ["", "100.000", "100.000"],
        "1 runs of 1 instances have no reference, and no RPD: x/b.\n"),
    "the column after the file": (WITH_COLUMN, "instance,makespan\na,50\na,50\n", ["", "70.000", "55.500", "", ""], ""),
    "0": ("instance,makespan,reference\nb,0,0\nc,1,0\n", "", ["0.000"], ""),
    "a file that names none": ("instance,makespan,reference\na,101,100\n", "instance,makespan\nz,5\n", ["1.000"],
                               "RPD: relative to the makespan in best.csv, or else the makespan in the column "
                               "`reference`.\n"),
    "the best known": (KNOWN, "", [f"{100 * 13 / 1278:.3f}", "", LARGE],
                       "RPD: relative to the best known makespan of Taillard's instance.\n"
                       "2 runs of 2 instances have no reference, and no RPD: ta002, mine.\n"),
    "another than the best known": (KNOWN, "instance,makespan\nta001,1000\n", ["29.100", "", LARGE], ""),
    "one that is beaten": ("instance,makespan,reference\na,100,\nta001,1232,\nta002,1400,\nb,100,101\nb,99,101\n"
                           "c,7,7\n", "", ["-0.990", "-0.291"],
                           "\nBelow the reference: b 99 (101), ta001 1232 (1278).\n")}


@pytest.mark.parametrize(("text", "best", "means", "said"), REFERENCES.values(), ids=REFERENCES)
def test_the_rpd_is_relative_to_the_reference(text: str, best: str, means: list[str], said: str, report: Reported,
                                              folder: pathlib.Path) -> None:
    """By an instance's name, or the last part of its path; else by the column, if any has a reference there; else the
    best known one by its name and size. The others have no RPD."""
    with mock.patch.object(typed, "plot"):
        got = report(text, **({"best": best} if best else {}))
    assert got.status == 0 and said in got.stdout
    assert column(folder, "mean_rpd_percent") == means


def test_the_rpd_is_that_of_readmes_formula(top: pathlib.Path, report: Reported, folder: pathlib.Path) -> None:
    formula = re.search(r"RPD is the relative percentage deviation from the reference, ([^.]*)\.",
                        (top / "experiments" / "README.md").read_text())
    assert formula, "no formula in experiments/README.md"
    plain = formula[1].replace("·", "*").replace("\N{MINUS SIGN}", "-")
    assert re.fullmatch(r"[\s()*/+0-9-]*", re.sub("makespan|reference", "", plain)), plain
    assert report("instance,makespan,reference\na,113,80\nb,80,80\n").status == 0
    wanted = eval(plain, {"__builtins__": {}}, {"makespan": 113, "reference": 80})
    assert columns(folder, "table", "mean_rpd_percent", "greatest_rpd_percent") == [
        (f"{wanted / 2:.3f}", f"{wanted:.3f}")]


@pytest.mark.parametrize("text", ["ta001,1231,,", "x/tai20_5.txt:1,1231,,", "TA001.txt,1231,,",
                                  "i,99,98,\ni,100,100,1"])
def test_a_makespan_below_the_bound_is_an_error(text: str, report: Reported) -> None:
    """Of Taillard's instance, by each of its names, or that of a CSV."""
    got = report(f"instance,makespan,bound,seed\n{text}\n")
    name, makespan, *_ = text.split(",")
    assert got == Done(2, "", f"pfs-experiments report: out: the makespan {makespan} of {name} is below the bound "
                              f"{int(makespan) + 1}: no order has it\n")


def test_orders_are_audited_where_the_instance_is_at_hand(experiment: Experiment, report: Reported) -> None:
    """As one of Taillard's, or next to a CSV as long as the folder there is whole. The makespan of the order 1 2 3 ..
    of ta001 is 1448."""
    folder, order = experiment.folder, " ".join(map(str, range(1, 21)))
    wrong = {f"1449,{order}": "wrong makespan: states 1449, takes 1448", f"1449,{order[:-3]}": "job missing: job 20 is "
             "missing", "1449,3 1 2": "wrong size: 3 jobs, but the instance has 20",
             f"1448.5,{order}": "the makespan of an order is whole"}

    def report_of(text: str, *names: str) -> Done:
        name, *more = names or ("out.csv",)
        (folder / name).write_text(text if "status" in text else f"instance,seed,makespan,order\n{text}")
        with mock.patch.object(typed, "plot"):
            return report(words=" ".join([name, *more, "report"]))

    text = f"ta001,1,1448,{order}\nta001,2,1300,\ni,1,5,1 2\nta002,1,1400,gone/order\nta003,1,,1 2\n"
    assert report_of(text).status == 0
    assert columns(folder, "table", "audited", "runs") == [("0", "1"), ("1", "3")]
    assert "Not audited, only stated: out." in (folder / "report" / "sizes.md").read_text()
    assert [row["instance"] for row in csv_rows(folder / "report" / "best.csv")] == ["ta001"], "an unknown instance"
    assert report_of(f"ta001,1,1448,{order}\nta001,2,1448,{order}\n").status == 0
    assert "audited" not in (folder / "report" / "sizes.md").read_text()
    assert csv_rows(folder / "report" / "best.csv") == [dict(instance="ta001", method="out", makespan="1448",
                                                             order=order)], "the best order of each instance, once"
    (folder / "report" / "best.csv").rename(folder / "\udcff.csv")
    assert experiment.script("audit", "\udcff.csv").stdout == (
        "\\udcff.csv: 1 orders audited, 1 valid (0 optimal), 0 wrong\n")
    unclear = f"ta001,1,1448,{order}\nta002,1,1400,{' '.join(map(str, range(20)))}\n"
    assert "1 orders of out.csv count jobs from 0 and as many from 1" in report_of(unclear).stderr
    for text, why in wrong.items():
        assert report_of(f"ta002,1,1300,\nta001,1,{text}\n") == Done(
            2, "", f"pfs-experiments report: out.csv: line 3, ta001: {why}\n")
    assert experiment.plan('instances = ["shops/b"]\n').run("runs.csv").status == 0
    text, (row,) = (folder / "runs.csv").read_text(), csv_rows(folder / "runs.csv")
    (folder / "\udcff.csv").write_text(text.replace(row["order"], (folder / row["order"]).read_text().split("\n")[1]))
    assert report_of(text, "runs.csv").status == 0 and column(folder, "audited") == ["1"]
    assert report_of(text, "runs.csv", "\udcff.csv").status == 0 and column(folder, "audited") == ["1", "1"]
    more = int(row["makespan"]) + 1
    assert report_of(text.replace(f",{row['makespan']},", f",{more},", 1), "runs.csv").stderr == (
        f"pfs-experiments report: runs.csv: line 2, shops/b: wrong makespan: states {more}, takes {row['makespan']}\n")
    (folder / row["order"]).write_text("order 3\n1 1 2\nmakespan 9\n")
    assert report_of(text, "runs.csv").stderr == (
        f"pfs-experiments report: runs.csv: {row['order']}: order file job repeated at place 2\n")
    (folder / row["order"]).unlink()
    for damaged in (next(folder.glob("runs.csv.d/pfs-*/instances/1")), folder / "runs.csv.d" / "plan.json"):
        damaged.write_text("{")
        assert report_of(text, "runs.csv").status == 0 and column(folder, "audited") == ["0"]


# Several methods

# Runs in words: setting, instance and seed, if it has one. What the others keep of those of `a` and of themselves, and
# which setting lacks which instances.
OF_A = "ai1 ai2 aj1 aj2"
COMMON = [
    ("", OF_A, {}), ("bi1 bi2 bj1 bj2", f"{OF_A} bi1 bi2 bj1 bj2", {}), ("bi1 bj1", "ai1 aj1 bi1 bj1", {"b": "ij"}),
    ("bi1 bi2", "ai1 ai2 bi1 bi2", {"b": "j"}), ("nk ni", "ai1 ai2 ni", {"a": "k", "n": "j"}),
    ("bi1 bi2 bj1 bj2 bk1 bk2", f"{OF_A} bi1 bi2 bj1 bj2", {"a": "k"}), ("bk1 bk2", "", {"a": "k", "b": "ij"}),
    ("bi2 bj1", "ai2 aj1 bi2 bj1", {"b": "ij"}), ("ni nj", f"{OF_A} ni nj", {}), ("ni", "ai1 ai2 ni", {"n": "j"}),
    ("bi3 bj3", "", {"a": "ij", "b": "ij"})]


@pytest.mark.parametrize(("others", "kept", "lacking"), COMMON, ids=[others for others, *_ in COMMON])
def test_compared_is_what_all_settings_have(others: str, kept: str, lacking: dict[str, str]) -> None:
    """A run without a seed is for all of them, and so is one of 0 rounds."""
    words = [*OF_A.split(), *others.split()]
    for rounds, seed in ((5, ""), (0, "7")):
        runs = pandas.DataFrame({"method": word[0], "instance": word[1], "seed": word[2:] or seed, "take": 4,
                                 "rounds": 5 if word[2:] else rounds, "passes": 0, "time_factor": -1} for word in words)
        found, without = common(runs)
        assert [words[at] for at in found.index] == kept.split()
        assert {setting[0]: "".join(instances) for setting, instances in without.items()} == lacking


def test_methods_without_a_common_instance_are_reported(report: Reported, folder: pathlib.Path) -> None:
    """Files of one name are methods by their paths. Where others have a reference, those without have no RPD."""
    for name in "xy":
        (folder / name).mkdir()
        (folder / name / "out.csv").write_text("instance,makespan\n" + "".join(
            f"{name}{at},{1100 + at}\n" for at in range(12 if name == "x" else 10)))
    first, second = (", ".join(f"{name}{at}" for at in places) for name, places in (
        ("x", (0, 1, 10, 11, *range(2, 8))), ("y", range(10))))
    got = report(words="x/out.csv y/out.csv report")
    assert got.stderr == ("pfs-experiments report: no table of sizes: Compared are the instances and seeds that all "
                          f"have: x/out.csv lacks runs of {second}; y/out.csv lacks runs of {first}, ...\n")
    assert not (folder / "report" / "comparison.csv").exists()
    assert "\n21 runs of 21 instances have no reference, and no RPD: x1, x2, x3, x4, x5, x6, x7, x8, x9, x10, ...\n" \
        in report(words="--reference best.csv x/out.csv y/out.csv report", best="instance,makespan\nx0,1000\n").stdout


def all_signs(differences: list[float]) -> float:
    """The probability by Wilcoxon's test, by each choice of signs."""
    sizes = sorted(abs(each) for each in differences)
    ranks = [statistics.fmean(at for at, size in enumerate(sizes, 1) if size == abs(each)) for each in differences]
    middle = sum(ranks) / 2
    found = abs(sum(rank for rank, each in zip(ranks, differences) if each > 0) - middle)
    sums = [sum(itertools.compress(ranks, signs)) for signs in itertools.product((0, 1), repeat=len(ranks))]
    return sum(abs(each - middle) >= found - 1e-9 for each in sums) / len(sums)


# The makespans of two methods on instances with these references, and the differences in RPD. In the second case the
# ranks of the differences in makespan are others. In the first four pairs are tied, and some differences are equal.
PAIRS: dict[str, tuple[list[int], list[int]]] = {
    "ties": ([1000] * 11, [0, 0, 0, 0, 10, 10, 20, 20, -20, -30, -40]),
    "scales": ([100, 100, 1000, 1000, 10000, 10000, 500], [9, 7, 50, 30, -100, -120, 15]),
    "all tied": ([100], [0])}


@pytest.mark.parametrize(("scales", "differences"), PAIRS.values(), ids=PAIRS)
def test_two_methods_are_compared_by_plain_definitions(scales: list[int], differences: list[int], report: Reported,
                                                       folder: pathlib.Path) -> None:
    texts = {name: "instance,makespan,reference\n" + "".join(
        f"i{at},{scale + max(0, sign * each)},{scale}\n" for at, (scale, each) in enumerate(zip(scales, differences)))
        for name, sign in (("first", 1), ("second", -1))}
    assert report(**texts).status == 0
    row, = csv_rows(folder / "report" / "comparison.csv")
    rpds = [100 * each / scale for scale, each in zip(scales, differences)]
    changed = [each for each in rpds if each]
    wanted = {"won": sum(each < 0 for each in rpds), "lost": sum(each > 0 for each in rpds), "tied": rpds.count(0),
              "pairs": len(changed), "median_difference_percent": pytest.approx(statistics.median(rpds), abs=0.0006),
              **dict.fromkeys(("p", "p_holm"), pytest.approx(all_signs(changed) if changed else 1, rel=1e-3)),
              "vargha_delaney_a": pytest.approx(statistics.fmean((each < 0) + 0.5 * (each == 0) for each in rpds),
                                                abs=0.0006)}
    assert {name: float(row[name]) for name in wanted} == wanted


def test_the_effect_size_and_the_counts_are_by_instance(report: Reported, folder: pathlib.Path) -> None:
    """On the first instance 3 of 4 pairs of runs are won, and on the second, which is longer, 1 and a tie. On the third
    one method lacks a seed, which has no part."""
    spans: dict[str, dict[str, tuple[int, ...]]] = {"a": {"i": (10, 12), "j": (500, 510), "k": (7,)},
                                                    "b": {"i": (11, 13), "j": (500, 505), "k": (8, 1)}}
    assert report(**{name: "instance,seed,makespan\n" + "".join(
        f"{instance},{seed},{span}\n" for instance, own in rows.items() for seed, span in enumerate(own, 1))
        for name, rows in spans.items()}).status == 0
    assert columns(folder, "comparison", "vargha_delaney_a", "lost") == [(f"{(0.75 + 0.375 + 1) / 3:.3f}", "1")]
    assert report(out=REPORTED, second="instance,makespan\nx/a,102\nx/a,105\nx/b,105\nx/z,1\n").status == 0
    assert columns(folder, "comparison", "rounds", "take", "instances", "won", "tied", "lost") == [
        ("0", "4", "2", "0", "0", "2"), ("100", "4", "2", "1", "1", "0")]
    assert ("second", "20", "3") in columns(folder, "table", "method", "jobs", "runs")
    assert columns(folder, "instances", "instance", "rounds", "runs", "best", "mean", "deviation", "mean_rpd_percent")[
        1] == ("a", "100", "2", "101", "103", f"{8 ** 0.5:.15g}", f"{200 / 101:.3f}")


def test_methods_without_an_rpd_are_compared_by_their_makespans(report: Reported, folder: pathlib.Path) -> None:
    """Three have ranks if they have two instances."""
    texts = {name: f"instance,makespan\ni,{at}\n" for at, name in enumerate("abc", 1)}
    assert report(**texts, best="instance,makespan\nz,1\n").status == 0
    assert [[*row.values()][-9:] for row in csv_rows(folder / "report" / "comparison.csv")] == [
        ["1", "1", "0", "0", "", "0", "", "", "1.000"]] * 3
    for more, count in (("", 0), ("j,5\n", 1)):
        assert report(**{name: text + more for name, text in texts.items()}).status == 0
        assert len([*folder.glob("report/ranks.csv")]) == count


def test_only_equal_rounds_or_times_are_compared(report: Reported, folder: pathlib.Path) -> None:
    """And Holm's correction is for these. Settings of one method are compared too, and a method that tells neither is
    compared with all."""
    budgets = {"a": (",10,", ",30,"), "b": (",30,", ",10,", "5,,"), "c": ("7,,2", "7,,4"), "published": (",,",)}
    got = report(**{name: "instance,makespan,reference,rounds,time_factor,take\n" + "".join(
        f"i{at},{1000 + at + more},1000,{budget}\n" for at in range(6) for more, budget in enumerate(own))
        for name, own in budgets.items()})
    assert got.status == 0 and (folder / "report" / "comparison.md").read_text() in got.stdout
    assert cells_of(folder / "report" / "comparison.csv")[0][14:17] == ["p", "pairs", "p_holm"]
    assert "; ties count half.\n" in got.stdout and got.stdout.endswith("p: Friedman's test.\n")
    names = ("method", "rounds", "time_factor", "take")
    rows = columns(folder, "comparison", *names, *(f"other_{name}" for name in names), "won")
    assert sorted((" ".join(filter(None, row[:4])), " ".join(filter(None, row[4:8]))) for row in rows) == [
        ("a 10", "b 10"), ("a 10", "published"), ("a 30", "b 30"), ("a 30", "published"), ("b 10", "published"),
        ("b 30", "published"), ("b 5", "published"), ("c 7 2", "c 7 4"), ("c 7 2", "published"), ("c 7 4", "published")]
    assert [row[-1] for row in rows if row[4] == "c"] == ["6"]
    (folder / "report" / "comparison.csv").unlink()
    assert report("instance,makespan,rounds\ni,9,10\ni,8,\n").status == 0
    assert not (folder / "report" / "comparison.csv").exists(), "of one method, rounds and what tells none"


def test_three_settings_have_average_ranks(report: Reported, folder: pathlib.Path) -> None:
    """Of each time factor, by their mean makespans. p is that of Friedman's formula, whose distribution for three
    settings is e^(-x/2). A setting that tells no time is in each group, and settings that are all equal have p = 1. How
    many rounds a search by time made tells nothing."""
    last = (3, 3, 3, 2, 3)
    spans = {("a", "3"): (1, 1, 2, 1, 1), ("b", "3"): (2, 2, 1, 2, 2), ("c", ""): last, ("a", "5"): last,
             ("d", "5"): last, ("e", "7"): (1, 1, 1, 1, 1)}
    assert report("instance,makespan,method,time_factor,reference,rounds\n" + "".join(
        f"i{at},{10 + span + more},{method},{factor},10,{factor and 7 * at}\n"
        for (method, factor), own in spans.items() for at, span in enumerate(own)
        for more in ((-2, 2) if method == "a" else (0,)))).status == 0
    assert columns(folder, "ranks", "group", "method", "time_factor", "instances", "mean_rank") == [
        ("1", "a", "3", "5", "1.20"), ("1", "b", "3", "5", "1.90"), ("1", "c", "", "5", "2.90"),
        ("2", "a", "5", "5", "2.00"), ("2", "c", "", "5", "2.00"), ("2", "d", "5", "5", "2.00")]
    ranks, count, ties = (6, 9.5, 14.5), 5, 2 ** 3 - 2
    statistic = (12 / (count * 3 * 4) * sum(rank ** 2 for rank in ranks) - 3 * count * 4) / (1 - ties / (count * 24))
    for path in (folder / "report").glob("*.csv"):
        assert report(words=f"report/{path.name} report").stderr.endswith(" would replace it: name another folder\n")
    assert list(map(float, column(folder, "p", "ranks"))) == pytest.approx([math.exp(-statistic / 2)] * 3 + [1] * 3,
                                                                           rel=1e-3)


def test_many_pairs_and_holms_correction_for_them(report: Reported, folder: pathlib.Path) -> None:
    """For 51 pairs, of which the first method wins all; it is near the exact one for 50."""
    for count in (50, 51):
        texts = {name: "instance,makespan,reference\n" + "".join(
            f"i{at},{1000 + more * at},1000\n" for at in range(1, count + 1)) for name, more in (("a", 1), ("b", 2))}
        assert report(**texts).status == 0
        middle, deviation = count * (count + 1) / 4, math.sqrt(count * (count + 1) * (2 * count + 1) / 24)
        normal = math.erfc(middle / deviation / math.sqrt(2))
        assert float(column(folder, "p", "comparison")[0]) == pytest.approx(2 / 2 ** 50 if count == 50 else normal,
                                                                            rel=1e-3)
    cases: list[tuple[list[float | None], list[float | None]]] = [
        ([0.04, None, 0.03, 0.05], [0.09, None, 0.09, 0.09]), ([0.9, 0.5], [1, 1]), ([0.01, 0.04], [0.02, 0.04])]
    for values, wanted in cases:
        got = holm(pandas.Series(values)).reindex(range(len(values)))
        assert [None if each != each else each for each in got] == pytest.approx(wanted)


PAPER = "instance,jobs,machines,makespan,method,reference\n" + "".join(
    f"{size}-{at},{size},5,{100 + rpd},{method},100\n" for size, method, rpds in (
        (20, "mine_1", (1, 2, 3)), (50, "mine_1", (4, 6)), (20, "5% & more", (0, 1, 5)), (50, "5% & more", (1, 2)))
    for at, rpd in enumerate(rpds))


def test_the_table_of_sizes_has_each_method_and_published_mean(report: Reported, folder: pathlib.Path) -> None:
    """And a row of means. With a method that lacks instances, only the others are in it, which a note says."""
    sizes = folder / "report" / "sizes.csv"
    assert report(PAPER + "20-0,20,5,109,part,100\n20-1,20,5,101,part,100\n").status == 0
    assert cells_of(sizes) == [["jobs×machines", "5% & more", "mine_1", "part"], ["20×5", "0.500", "1.500", "5.000"],
                               ["mean", "0.500", "1.500", "5.000"]]
    note = ("Mean RPD, {percent}, relative to the makespan in the column reference. 2 instances of each size; 1 seed; "
            f"pfs {pfs.__version__}. Compared are the instances and seeds that all have: part lacks runs of 20-2, "
            "50-0, 50-1. Not audited, only stated: 5{percent} {and} more, mine{under}1, part.")
    assert sizes.with_suffix(".md").read_text().endswith(
        "\n" + note.format(percent="%", under="_", **{"and": r"\&"}) + "\n")
    assert "{\\par\\footnotesize " + note.format(percent=r"\%", under=r"\_", **{"and": r"\&"}) + "\\par}" in (
        sizes.with_suffix(".tex").read_text())
    assert report(PAPER).status == 0
    wanted = [["jobs×machines", "5% & more", "mine_1"], ["20×5", "2.000", "2.000"], ["50×5", "1.500", "5.000"],
              ["mean", "1.750", "3.500"]]
    assert cells_of(sizes) == wanted
    lines = sizes.with_suffix(".md").read_text().splitlines()
    assert [line.replace("\\&", "&")[2:-2].split(" | ") for line in lines[:1] + lines[2:5]] == wanted
    tex = sizes.with_suffix(".tex").read_text()
    assert re.findall(r"\\(?:top|mid|bottom)rule", tex) == ["\\toprule", "\\midrule", "\\midrule", "\\bottomrule"]
    assert "jobs$\\times$machines & 5\\% \\& more & mine\\_1 \\\\\n" in tex and "\nmean & 1.750 & 3.500 \\\\\n" in tex
    assert tex.startswith("% \\usepackage{booktabs}\n\\begin{tabular}{lrr}\n") and "\\end{tabular}\n" in tex
    published = "jobs,machines,rpd,method\n20,5,0.04,P\n20,5,0.5,Q\n50,5,1.25,Q\n20,5,0.7,out\n50,5,0.9,\n"
    assert report(out="instance,jobs,machines,makespan,reference\na,20,5,100.5,100\nb,50,5,102,100\n",
                  paper=published).status == 0
    assert cells_of(sizes) == [["jobs×machines", "out", "P", "Q", "out (published)", "paper"],
                               ["20×5", "0.500", "0.040", "0.500", "0.700", ""],
                               ["50×5", "2.000", "", "1.250", "", "0.900"], ["mean", "1.250", "", "0.875", "", ""]]
    assert "Not audited, only stated: P, Q, out, paper." in sizes.with_suffix(".tex").read_text()
    assert column(folder, "best", "instances") == ["100.5", "102"]
    # The mean over the seeds 1 and 2 of 20x5 is that of 1 and 3, of 50x5 there is one instance; its deviation.
    assert report("instance,jobs,machines,seed,rounds,makespan,time_factor\n" + "".join(
        f"{name},{jobs},5,{seed},,{span},2\n" for name, jobs, seed, span in (
            ("a", 20, 1, 100), ("a", 20, 2, 103), ("b", 20, 1, 102), ("b", 20, 2, 100), ("c", 50, 1, 100),
            ("c", 50, 2, 104)))).status == 0
    lines = sizes.with_suffix(".md").read_text().splitlines()
    assert lines[2:] == ["| 20×5 | 1.250 ± 0.354 |", "| 50×5 | 2.000 ± 2.828 |", "| mean | 1.625 |", "",
                         "Mean RPD, %, relative to the best makespan of any of these runs. Instances: 20×5 2, 50×5 "
                         "1; 2 seeds: the mean of their means ± its standard deviation; time factor 2; pfs "
                         f"{pfs.__version__}. Not audited, only stated: out."]
    assert cells_of(sizes)[1:] == [["20×5", "1.250"], ["50×5", "2.000"], ["mean", "1.625"]]


# The plots

@pytest.fixture
def done(folder: pathlib.Path) -> Callable[[str], Any]:
    """The runs of a CSV of this text that succeeded."""
    def read(text: str) -> Any:
        (folder / "out.csv").write_text(text)
        return reports.read([str(folder / "out.csv")], None)[0].dropna(subset=["makespan"])
    return read


def lines_of(axis: Any) -> dict[str, Any]:
    return {line.get_label(): [tuple(map(float, point)) for point in line.get_xydata()] for line in axis.get_lines()}


# Takes 2 and 4 and passes 0 and 3, each with other gaps, at 0 and at 10 rounds.
GAPS = {(2, 0): (21.0, 11.0), (4, 0): (22.0, 12.0), (2, 3): (23.0, 13.0), (4, 3): (24.0, 14.0)}


def test_lines_bands_scale_and_colours_of_the_plots_by_rounds(done: Callable[[str], Any]) -> None:
    """The seeds at 100 rounds have the mean gaps 2 and 6, and the mean RPDs 0 and 3.9220. A run of 0 rounds, which is
    made once, is in the panel of each take and number of passes."""
    rpds = [(900 / 101 + 1700 / 103) / 2, 0, (400 / 101 + 400 / 103) / 2]
    wanted: dict[str, list[float]] = {"gap_percent": [15, 2, 6], "rpd": rpds}

    def panels(text: str, value: str = "gap_percent") -> Any:
        return reports.by_rounds(done(HEAD + text), value, "y", "title", None).axes

    for value, points in wanted.items():
        axis = panels(REPORTED[len(HEAD):], value)[0]
        assert lines_of(axis)["20×5"] == [(0, points[0]), (100, pytest.approx(sum(points[1:]) / 2))]
        band = {(x, round(y, 4)) for x, y in axis.collections[0].get_paths()[0].vertices}
        assert band == {(0, round(points[0], 4)), *((100, round(each, 4)) for each in points[1:])}
    axis = panels("".join(f"a,20,5,{rounds},4,0,1,1,{200 - at},100,{100 - at}.0,1,0.1,ok\n"
                          for at, rounds in enumerate((0, 10, 100, 1000, 10000))))[0]
    places = [axis.transData.transform((rounds, 0))[0] for rounds in (0, 10, 100, 1000, 10000)]
    steps = [later - place for place, later in zip(places[1:], places[2:])]
    assert steps == pytest.approx([steps[0]] * 3, rel=0.01) and 0 < places[1] - places[0] < steps[0] / 2
    lines = panels("".join(f"{jobs},{jobs},{machines},{rounds},4,0,1,1,9,9,{jobs}.0,1,0.1,ok\n" for machines, jobs in
                           enumerate((20, 50, 100, 200, 500)) for rounds in (0, 10)))[0].get_lines()
    assert [line.get_linestyle() for line in lines] == ["-", "--", ":", "-.", "-"]
    fills = [to_hex(line.get_color()) for line in lines]
    assert (len(fills), fills[0], fills[-1]) == (5, "#440154", "#7ad151"), "of viridis"
    assert min(map(least_difference, fills, fills[1:])) > 10, fills
    several = panels("a,20,5,0,2,0,1,1,1,1,30.0,1,0.1,ok\nb,20,5,0,4,0,1,1,1,1,10.0,1,0.1,ok\n" + "".join(
        f"a,20,5,{rounds},{take},{passes},1,1,1,1,{gap:.4f},1000,0.001000,ok\n"
        for (take, passes), gaps in GAPS.items() for rounds, gap in zip((5, 10), gaps)))[:-1]
    assert {axis.get_title(): lines_of(axis)["20×5"] for axis in several} == {
        f"out, take {take}, passes {passes}": [(0, 20.0), (5, first), (10, second)]
        for (take, passes), (first, second) in GAPS.items()}
    assert [axis.get_subplotspec().colspan.start for axis in several] == [0, 1] * 2


def test_the_plots_of_times(done: Callable[[str], Any]) -> None:
    """A panel for each size; the seconds have a logarithmic scale with two marks or more."""
    first, second, _ = reports.by_seconds(done(REPORTED), None).axes
    assert [axis.get_title() for axis in (first, second)] == ["20×5", "100×10"]
    assert lines_of(first) == {"out": [(0.002, pytest.approx(12.708, abs=0.001)),
                                       (0.5, pytest.approx(1.961, abs=0.001))]}
    assert first.get_xscale() == "log" and len([tick for tick in first.get_xticks() if 1e-3 <= tick <= 10]) >= 2
    figure = reports.cell_times(done(HEAD + "a,20,5,0,4,0,1,1,101,100,1.0000,1000,0.001000,ok\n" + "".join(
        f"a,20,5,100,4,0,{at},1,101,100,1.0000,1000000,{time / 1000:.6f},ok\n"
        for at, time in enumerate((1, 2, 3, 4, 10)))), None)
    drawn = sorted({round(float(y), 6) for line in figure.axes[0].get_lines() for y in line.get_ydata()})
    assert drawn == [1, 2, 3, 4, 10] and "at 100 rounds" in figure._suptitle.get_text().replace("\n", " ")
    assert figure.axes[0].get_ylim()[0] == 0
    figure = reports.cell_times(done("instance,jobs,machines,makespan,cells,seconds,time_factor\na,2,2,9,9,1,3\n"),
                                None)
    assert "cell of searches by time" in figure._suptitle.get_text()
    assert figure.axes[0].get_xticklabels()[0].get_text() == "2×2"
    figure = reports.cell_times(done("method,instance,jobs,machines,makespan,cells,seconds,time_factor\n"
                                     "p,a,2,2,9,9,1,3\nq,a,2,2,9,9,1,3\n"), None)
    assert [label.get_text() for label in figure.axes[0].get_xticklabels()][:2] == ["2×2\np", "2×2\nq"]


# Of two methods the seconds of two runs on an instance whose reference is 100, and their makespans on the way.
WAYS = {"a": [(30, "1:110 10:104"), (40, "2:106 20:102")], "b": [(6, "3:103"), (5, "0.5:120 5:101")]}
WAY_HEAD = "instance,jobs,machines,method,seed,makespan,reference,seconds,trajectory\n"


def test_trajectories_have_their_mean_and_the_share_that_reaches_the_target(done: Callable[[str], Any]) -> None:
    """The mean begins when all runs have an order. The target is the median of the RPDs at the end, which are 4, 2, 3
    and 1. Runs without a trajectory aren't drawn, and the larger shop has another panel."""
    text = WAY_HEAD + "".join(f"i,20,5,{method},{seed},{way[-3:]},100,{seconds},{way}\n"
                              for method, ways in WAYS.items() for seed, (seconds, way) in enumerate(ways))
    text += "j,50,5,a,,101,100,3,3:101\nj,50,5,b,,101,100,7,\nj,50,5,c,,101,100,,1:110 3:101\n"
    figures = reports.along(done(text), None)
    assert {name: labels_of(figure)[:2] for name, figure in figures.items()} == {
        "trajectory": ("processor time, s", "mean RPD, %"), "target": ("processor time, s", "share of the runs")}
    first, second = figures["trajectory"].axes[:2]
    assert (first.get_title(), second.get_title(), first.get_xscale()) == ("20×5", "50×5", "log")
    lines = lines_of(first)
    assert [(lines[name][0], lines[name][-1]) for name in "ab"] == [((2, 8), (40, 3)), ((3, 11.5), (6, 2))]
    for x, y in lines["a"]:
        assert y == pytest.approx(8 if x < 10 else 5 if x < 20 else 3), x
    assert [*lines_of(second)] == [*"ac"] and {y for _, y in lines_of(second)["a"]} == {1}
    assert [line.get_linestyle() for axis in (first, second) for line in axis.get_lines()] == ["-", "--", "-", "-."]
    first, second = figures["target"].axes[:2]
    assert first.get_title() == "20×5: RPD of at most 2.500 %"
    assert lines_of(first) == {"a": [(1, 0), (20, 0.5), (40, 0.5)], "b": [(0.5, 0), (5, 0.5), (6, 0.5)]}
    assert lines_of(second) == {"a": [(3, 0), (3, 1), (3, 1)], "c": [(1, 0), (3, 1), (3, 1)]}
    assert {line.get_drawstyle() for line in first.get_lines()} == {"steps-post"}
    assert reports.along(done(WAY_HEAD + "i,20,5,a,1,104,100,1,\nj,20,5,a,1,0,0,1,1:0\n"), None) == {}


def test_a_late_first_order_is_named(done: Callable[[str], Any]) -> None:
    """In the median of the runs, of n(m/2) milliseconds times the factor: half a second here. Runs without a trajectory
    or a time don't count."""
    head = "instance,jobs,machines,method,seed,makespan,reference,seconds,time_factor,trajectory\n"
    rows = {"late_": (0.02, 0.03, 0.4), "in time": (0.025, 0.4, 0.01), "no way": ("", "", "")}
    text = head + "".join(f"i,20,5,{name},{seed},101,100,0.5,10,{first and f'{first}:101'}\n"
                          for name, firsts in rows.items() for seed, first in enumerate(firsts))
    text += "".join(f"i,20,5,no time,{seed},101,100,0.5,,0.4:101\n" for seed in range(3))
    assert reports.late_starts(done(text)) == (
        "\nThe first order of late\\_ comes after 6 % of the time: its start counts as search.")


# The layout of plots

def points_of(panels: int, labels: int, least: float = 0) -> Any:
    """Points of this number of panels, each with a line for each label."""
    return pandas.DataFrame([{"panel": f"panel {panel}", "label": f"label {label}", "x": x, "y": least + label + x}
                             for panel in range(panels) for label in range(labels) for x in (1, 10)])


def styles_of(labels: int) -> dict[str, dict[str, Any]]:
    return {f"label {label}": {"color": "black"} for label in range(labels)}


@pytest.mark.parametrize(("panels", "columns", "width", "wide", "high", "rows", "across"), [
    (1, 3, None, 6.5, 4.525, 1, 1), (2, 3, None, 8.4, 4.075, 1, 2), (5, 3, None, 12.6, 7.225, 2, 3),
    (4, 2, None, 8.4, 7.225, 2, 2), (5, 3, 5.0, 5, 6.925, 3, 2), (3, 3, 2.0, 2, 7.095, 3, 1),
    (3, 3, 6.7, 6.7, 2.925, 1, 3), (3, 3, 6.5, 6.5, 5.8, 2, 2)])
def test_panels_are_in_rows_above_their_legend(panels: int, columns: int, width: float | None, wide: float, high: float,
                                               rows: int, across: int) -> None:
    """Of equal scales, whose marks have numbers at the left and below the last panel of each column. They are three
    quarters as high as wide, but from 2 to 3.6 inches."""
    figure = reports.panels(points_of(panels, 2, -1), styles_of(2), columns, width, "the x", "the y", "a title",
                            "a legend")
    *axes, below = figure.axes
    assert [*figure.get_size_inches()] == pytest.approx([wide, high])
    assert [axis.get_title() for axis in axes] == [f"panel {at}" for at in range(panels)]
    places = [(spec.rowspan.start, spec.colspan.start) for spec in (axis.get_subplotspec() for axis in axes)]
    assert places == [divmod(at, across) for at in range(panels)] and below.get_subplotspec().rowspan.start == rows
    assert below.get_subplotspec().colspan == range(across)
    figure.draw_without_rendering()
    for at, axis in enumerate(axes):
        shown = [bool([label for label in labels if label.get_visible() and label.get_text()])
                 for labels in (axis.get_yticklabels(), axis.get_xticklabels())]
        assert shown == [at % across == 0, at + across >= panels], at
        assert axis.get_xlim() == axes[0].get_xlim() and axis.get_ylim() == axes[0].get_ylim()
    legend = below.get_legend()
    assert [text.get_text() for text in legend.get_texts()] == ["label 0", "label 1"]
    assert (legend.get_title().get_text(), below.get_title(), figure._supylabel.get_text()) == (
        "a legend", "the x", "the y")
    assert figure._suptitle.get_text() == "a title" and axes[0].get_ylim()[0] == 0
    heights = [axis.get_window_extent().height / figure.dpi for axis in axes]
    assert max(heights) - min(heights) < 0.02 and 0.9 < min(heights) <= max(heights) <= 3.6


def test_values_below_0_are_seen_and_long_legends_have_several_lines() -> None:
    axes = reports.panels(points_of(1, 30, -5.0), styles_of(30), 3, None, "x", "y", "title", "legend").axes
    assert axes[0].get_ylim()[0] < -4
    figure = axes[0].figure
    figure.draw_without_rendering()
    box = axes[-1].get_legend().get_window_extent()
    room = axes[-1].get_window_extent()
    assert 0 <= box.x0 and box.x1 <= figure.bbox.width and 0 <= box.y0, "inside of the picture"
    assert abs(box.x0 + box.x1 - room.x0 - room.x1) < 2 and box.y1 > room.y1 - 9, "in the middle, at the top"
    assert not any(line.get_clip_on() or line.get_zorder() <= 2.5 for line in axes[0].get_lines()), "whole points"
    assert axes[-1].get_legend()._ncols == 4, "as many as fit beside each other"
    bands = points_of(1, 1, 3).assign(low=-1.0, high=9.0)
    axis = reports.panels(bands, styles_of(1), 3, None, "x", "y", "title", "legend").axes[0]
    assert axis.get_ylim()[0] < 0 < axis.collections[0].get_alpha() < 0.5 and axis.collections[0].get_linewidth() == 0
    assert {round(float(y), 6) for y in axis.collections[0].get_paths()[0].vertices[:, 1]} == {-1, 9}


def labels_of(figure: Any) -> tuple[str, str, str]:
    below = figure.axes[-1]
    return below.get_title(), figure._supylabel.get_text(), below.get_legend().get_title().get_text()


@pytest.mark.parametrize(("rounds", "scale", "ends"), [
    ((0, 20), "linear", (0, 20)), ((0, 21), "symlog", (0, 21)), ((5,), "linear", (5, 6)), ((0,), "linear", (0, 1)),
    ((7, 1000), "symlog", (7, 1000))])
def test_many_rounds_have_a_logarithmic_scale(rounds: tuple[int, ...], scale: str, ends: tuple[int, int],
                                              done: Callable[[str], Any]) -> None:
    text = "".join(f"a,20,5,{each},4,0,1,1,110,100,10.0,1000,0.1,ok\n" for each in rounds)
    figure = reports.by_rounds(done(HEAD + text), "gap_percent", "y", "title", None)
    axis = figure.axes[0]
    assert labels_of(figure) == ("rounds of iterated greedy", "y", "jobs×machines")
    assert (axis.get_xscale(), axis.get_xlim()) == (scale, ends)
    assert axis.xaxis.get_major_formatter()(1000) == "1,000" and len(axis.xaxis.get_minorticklocs()) == 0


@pytest.mark.parametrize(("seconds", "ends"), [
    ((0.002, 0.5), (0.001, 1)), ((1, 1), (1, 10)), ((3, 100), (1, 100)), ((0.5, 101), (0.1, 1000)),
    ((1e-9, 1e-9), (1e-9, 1e-8))])
def test_times_have_a_logarithmic_scale(seconds: tuple[float, float], ends: tuple[float, float],
                                        done: Callable[[str], Any]) -> None:
    """From a power of ten to another one."""
    text = "".join(f"a,20,5,{at},4,0,1,1,110,100,10.0,1000,{each:.9f},ok\n" for at, each in enumerate(seconds))
    figure = reports.by_seconds(done(HEAD + text), None)
    axis = figure.axes[0]
    assert axis.get_xlim() == pytest.approx(ends) and labels_of(figure) == ("processor time, s", "RPD, %", "method")
    assert [axis.xaxis.get_major_formatter()(each) for each in (0.001, 0.5, 1, 1000, 1e5, 1e6)] == [
        "0.001", "0.5", "1", "1,000", "100,000", "1e+06"]


@pytest.mark.parametrize(("count", "letters", "width", "wide", "is_rotated"), [
    (1, 70, None, 6.5, False), (1, 71, None, 6.5, True), (9, 6, None, 6.5, False), (10, 7, None, 7, True),
    (10, 6, None, 7, False), (10, 7, 8.0, 8, False), (20, 5, None, 13, False)])
def test_labels_are_rotated_where_they_have_no_room(count: int, letters: int, width: float | None, wide: float,
                                                    is_rotated: bool) -> None:
    labels = ["x" * letters + "\ny", *["x"] * (count - 1)]
    figure, axis = reports.of_labels(labels, width, "title", "the y")
    assert figure.get_size_inches() == pytest.approx([wide, 3.6 + 0.077 * letters * is_rotated])
    assert [*axis.get_xticks()] == [*range(1, count + 1)] and axis.get_ylabel() == "the y"
    assert {label.get_rotation() for label in axis.get_xticklabels()} == {90 if is_rotated else 0}
    assert [label.get_text() for label in axis.get_xticklabels()] == labels


def test_texts_of_plots_have_room() -> None:
    """A line has 12 letters at least, and a name at most 40. In tables no number is -0."""
    assert [typed.cell("rpd", value) for value in (-0.0, -1)] == ["0.000", "-1.000"]
    lines = [reports.wrapped("a " * 40, inches).split("\n") for inches in (0.5, 1.03, 1.2, 4.05, 4.06)]
    assert [max(map(len, each)) for each in lines] == [11, 11, 13, 45, 47]
    assert reports.shown("x" * 40) == "x" * 40 and reports.shown("x" * 41) == "x" * 38 + ".."
    assert reports.shown("_" + "x" * 40) == "\u200b_" + "x" * 37 + ".." and reports.shown("a\n") == "a\\n"


@pytest.mark.parametrize("way", ["1", "1:", "x:104", "1:104 ", "2:110 1:104", "1:104 2:104", "1:103 2:104", "1:110",
                                 "1e9:104", "-1:104", "1:110  2:104", "1:1_04", "\N{ARABIC-INDIC DIGIT ONE}:104"])
def test_a_trajectory_leads_to_the_makespan_of_its_run(way: str, report: Reported) -> None:
    """Each point is shorter, and none is earlier. That of a run that failed isn't read."""
    assert typed.way_of("1:110 1:104", 104, "", "") == [(1, 110), (1, 104)]
    got = report(WAY_HEAD + f"i,20,5,a,1,,,,x\ni,20,5,a,2,104,100,1,{way}\n")
    assert got == Done(2, "", "pfs-experiments report: out.csv: line 3: the trajectory must be SECONDS:MAKESPAN for "
                              "each better makespan, up to that of the run\n")


def bars_of(axis: Any) -> list[list[float]]:
    """The ends of the intervals in a panel, from above."""
    return [[float(x) for x, _ in segment] for segment in axis.collections[0].get_segments()]


def test_the_plot_of_differences_has_intervals_of_students_distribution(done: Callable[[str], Any]) -> None:
    """For 5 pairs the quantile is 2.776, as tables of it say. The differences are 2, 1, 2, 3 and 2, and their variance
    is 0.5."""
    methods = {"a": [1, 2, 3, 4, 5], "b": [3, 3, 5, 7, 7], "c": [0, 1, 2, 3, 4]}
    text = "instance,makespan,method,reference,jobs,machines\n" + "".join(
        f"i{at},{100 + rpd},{method},100,20,5\n" for method, rpds in methods.items() for at, rpd in enumerate(rpds))
    axis, = reports.differences(done(text), None).axes
    half = 2.776 * math.sqrt(0.5 / 5)
    assert bars_of(axis) == [pytest.approx([2 - half, 2 + half], abs=0.002), [-1, -1]]
    assert [label.get_text() for label in axis.get_yticklabels()] == ["c", "b"] and axis.get_title() == "20×5"
    assert axis.figure._supxlabel.get_text() == "RPD minus that of a, %"


def test_differences_are_those_of_the_instances_means_in_a_panel_for_each_size(done: Callable[[str], Any]) -> None:
    """Seeds of an instance count as one. A method without seeds is compared on all of them. Only settings of equal
    rounds are. The names are those of the tables."""
    rows = [("i", 20, 5, 100, 1, 110, "m"), ("i", 20, 5, 100, 2, 104, "m"), ("j", 50, 10, 100, 1, 102, "m"),
            ("i", 20, 5, 100, "", 101, "n"), ("j", 50, 10, 100, "", 105, "n"),
            ("i", 20, 5, 200, 1, 103, "m"), ("i", 20, 5, 200, 2, 103, "m"), ("j", 50, 10, 200, 1, 101, "m"),
            ("i", 20, 5, 200, "", 100, "n"), ("j", 50, 10, 200, "", 100, "n"),
            ("k", 20, 5, 100, 1, 102, "m"), ("k", 20, 5, 100, "", 104, "n"),
            ("k", 20, 5, 200, 1, 103, "m"), ("k", 20, 5, 200, "", 100, "n")]
    text = "instance,jobs,machines,rounds,seed,makespan,method,reference\n" + "".join(
        f"{','.join(map(str, row))},100\n" for row in rows)
    figure = reports.differences(done(text), None)
    half = 12.706 * statistics.stdev([-6, 2]) / math.sqrt(2)
    assert {axis.get_title().replace("\n", " "): bars_of(axis) for axis in figure.axes if axis.collections} == {
        "20×5, 100 rounds": [pytest.approx([-2 - half, -2 + half], abs=0.01)], "20×5, 200 rounds": [[-3, -3]],
        "50×10, 100 rounds": [[3, 3]], "50×10, 200 rounds": [[-1, -1]]}
    assert figure._supxlabel.get_text() == "RPD minus that of the first setting, %"
    labels = {label.get_text() for axis in figure.axes for label in axis.get_yticklabels()}
    assert labels == {"n, 100 rounds", "n, 200 rounds"}
    assert reports.differences(done("instance,makespan,method,reference\na,103,m,100\n"), None) is None


def test_the_labels_of_differences_have_room(done: Callable[[str], Any]) -> None:
    """Next to panels in at most three columns, which take half of the width or more. Nothing touches or is cut."""
    text = "instance,makespan,method,reference,jobs,machines\n" + "".join(
        f"i{jobs},{100 + at},{at} the method of somebody with a long name,100,{jobs},5\n"
        for jobs in (20, 50, 100, 200) for at in range(4))
    for width, columns in ((None, 3), (5.9, 2), (3.9, 1)):
        figure = reports.differences(done(text), width)
        figure.draw_without_rendering()
        axes, inch = [axis for axis in figure.axes if axis.axison], figure.dpi
        assert {axis.get_subplotspec().colspan.start for axis in axes} == {*range(columns)} and len(axes) == 4
        labels = [label.get_window_extent() for label in axes[0].get_yticklabels()]
        assert all(0 < upper.y0 - lower.y1 < 0.5 * inch for lower, upper in itertools.pairwise(labels)), width
        marks = [[mark for mark in axis.get_xticklabels() if mark.get_visible() and mark.get_text()] for axis in axes]
        assert [*map(bool, marks)] == [at + columns >= 4 for at in range(4)] and axes[0].get_ylim() == (-0.5, 2.5)
        panels = [axis.get_window_extent() for axis in axes]
        assert sum(box.width for box in panels[:columns]) > 0.45 * figure.bbox.width
        texts = [text.get_window_extent() for text in (figure._suptitle, figure._supxlabel)]
        assert all(0 < box.x0 and box.x1 < figure.bbox.width for box in [*texts, *labels])


def test_critical_differences_are_those_of_tables() -> None:
    """The quantiles of Nemenyi's test at 5 %, as Demšar (2006) has them, and his example of 4 methods."""
    quantiles = {2: 1.960, 3: 2.343, 4: 2.569, 5: 2.728, 6: 2.850, 7: 2.949, 8: 3.031, 9: 3.102, 10: 3.164}
    for count, quantile in quantiles.items():
        due = quantile * math.sqrt(count * (count + 1) / (6 * 14))
        assert critical_difference(count, 14) == pytest.approx(due, abs=0.002)
    assert critical_difference(4, 14) == pytest.approx(1.25, abs=0.005)


@given(st.lists(st.integers(10, 50), min_size=1, max_size=7).map(lambda ranks: sorted(ranks)), st.integers(1, 30))
def test_bars_are_beside_each_longest_run_of_ranks_that_differ_by_less(ranks: list[float], difference: float) -> None:
    places = range(len(ranks))
    near = {(one, other) for one, other in itertools.combinations(places, 2) if ranks[other] - ranks[one] < difference}
    longest = {(one, other) for one, other in near
               if not near & {(one - 1, other), (one, other + 1), (one - 1, other + 1)}}
    assert alike(ranks, difference) == sorted(longest)


def test_the_plot_of_ranks_has_a_panel_for_each_time(done: Callable[[str], Any]) -> None:
    """Of ten instances: all agree that a is before b, and c the last. The critical difference is 2.343 times the root
    of 2 · 3 · 4 / (6 · 2 · 10)."""
    text = "instance,makespan,method,reference,time_factor\n" + "".join(
        f"i{at},{100 + 10 * place + at},{method},100,{factor}\n" for factor in (10, 30) for at in range(10)
        for place, method in enumerate("abc"))
    first, second = reports.ranks(done(text), None).axes
    assert first.get_title() == "time factor 10, 10 instances" and second.get_title() == "time factor 30, 10 instances"
    dots, *bars = [line for line in first.lines if line.get_marker() in ("o", "None")]
    assert list(dots.get_xdata()) == [1, 2, 3] and list(dots.get_ydata()) == [0, 1, 2]
    ends = [tuple(bar.get_ydata()) for bar in bars if bar.get_linewidth() == 3]
    assert ends == [(-0.2, 1.2), (0.8, 2.2)], "a and b, b and c, and not a and c"
    names = [label.get_text() for label in first.get_yticklabels()]
    assert names == [f"critical difference {2.343 * math.sqrt(12 / 60):.2f}", "a", "b", "c"]
    assert reports.ranks(done("instance,makespan,method,reference\na,103,m,100\n"), None) is None


def test_performance_profiles_are_shares_of_instances(done: Callable[[str], Any]) -> None:
    """Of the means of their seeds: a is the shortest on i (by 10 %) and k (by 20 %), b on j (by 5 %); on l they are
    equal, and 0."""
    spans = {("i", "a"): (99, 101), ("i", "b"): (110, 110), ("j", "a"): (210, 210), ("j", "b"): (200, 200),
             ("k", "a"): (100, 100), ("k", "b"): (115, 125), ("l", "a"): (0, 0), ("l", "b"): (0, 0)}
    text = "instance,makespan,method,reference,seed\n" + "".join(
        f"{name},{span},{method},100,{seed}\n" for (name, method), pair in spans.items()
        for seed, span in enumerate(pair))
    axis, _ = reports.profile(done(text), None).axes
    a, b = axis.lines
    assert [line.get_label() for line in (a, b)] == ["a", "b"] and axis.get_title() == "4 instances"
    for line, shares in ((a, {0: 0.75, 4.9: 0.75, 5: 1}), (b, {0: 0.5, 9.9: 0.5, 10: 0.75, 19.9: 0.75, 20: 1})):
        x, y = line.get_xdata(), line.get_ydata()
        assert {at: y[[*np.flatnonzero(x <= at)][-1]] for at in shares} == shares
        assert line.get_drawstyle() == "steps-post" and max(x) == 20
    assert reports.profile(done(text.replace(",a,", ",b,")), None) is None, "one method"


TEXTS = {"gap": "Gap to the bound: mean, and range over the seeds; gap to the lower bound, %; jobs×machines",
         "rpd": "Relative percentage deviation: mean, and range over the seeds; RPD, %; jobs×machines",
         "seconds": "Mean relative percentage deviation by time; RPD, %; processor time, s; method",
         "time": "processor time per table cell, ns; jobs×machines; and maximum", "differences": "intervals of 95 %",
         "ranks": "average rank, 1 is the shortest; 1,000 rounds, 2 instances",
         "profile": "Performance profile; share of the instances; mean makespan above the shortest, %; setting",
         "trajectory": "Mean relative percentage deviation during the search; mean RPD, %; processor time, s; setting",
         "target": "Time to target: runs that have reached it; share of the runs; processor time, s; setting"}


@pytest.mark.parametrize(("width", "options"), [("3.5", ["--no-title"]), ("7", [])])
def test_all_is_inside_of_the_picture_and_can_be_read(width: str, options: list[str], report: Reported,
                                                      folder: pathlib.Path) -> None:
    """With long names, at the width of a column too: letters have 8 to 10 points. With `--no-title` nothing has a
    title."""
    text = HEAD.replace("\n", ",method,trajectory\n") + "".join(
        f"{name},{jobs},5,{rounds},1,0,1,1,{100 + at},90,1.0,1000,{rounds / 10},ok,"
        f'"the method of somebody, number {at}",0.01:120 0.05:{100 + at}\n'
        for at in range(3) for name, jobs in (("i", 20 + at), ("j", 20)) for rounds in (1, 10, 1000))
    assert report(text, "--format", "svg", "--width", width, *options).status == 0
    for name, texts in TEXTS.items():
        picture = (folder / "report" / f"{name}.svg").read_text()
        assert f'width="{72 * float(width):g}pt"' in picture
        letters = re.findall(r'<text style="font: ([0-9.]+)px [^"]*?(?:text-anchor: (\w+))?" x="([0-9.]+)" '
                             r'y="[0-9.]+"[^>]*>([^<]*)<', picture)
        assert letters and {*re.findall("font: ([0-9.]+)px", picture)} == {
            "9", *([] if options else ["10"]), *([] if name == "time" else ["8"])}, name
        for size, anchor, x, shown in letters:
            after = {"middle": 0.25, "end": 0}.get(anchor, 0.5) * float(size) * len(shown)
            assert float(x) + after <= 72 * float(width) + 2, shown
        assert options or [text for text in texts.split("; ") if f"{text}<" not in picture] == []
        assert not options or not re.search("interval|range over", picture)


@pytest.mark.parametrize("ending", ["svg", "pdf"])
def test_a_report_made_again_has_the_same_bytes(ending: str, scripts: pathlib.Path, report: Reported,
                                                folder: pathlib.Path) -> None:
    """The second report is made more than a second later, as a user does it, by a process whose hashes differ, in a
    folder with settings of matplotlib."""
    def files_of(got: Done) -> dict[str, bytes]:
        assert got.status == 0, got
        return {path.name: path.read_bytes() for path in (folder / "report").iterdir()}

    words = ["--format", ending, "out.csv", "report"]
    first = files_of(report(words=" ".join(words), out=REPORTED))
    (folder / "matplotlibrc").write_text("figure.facecolor: red\n")
    time.sleep(1.1)
    second = files_of(run_tool([scripts / "pfs-experiments", "report", *words], folder))
    assert [name for name in first if first[name] != second[name]] == [], "files that differ"
