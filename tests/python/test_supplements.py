"""Audits of supplements as people publish them. A generator writes them in many forms with many kinds of errors, by a
seed, and knows which rows are right; those by hand have what it doesn't make."""
import csv
import io
import pathlib
import random
import re
import struct
import time
import warnings
import zipfile
from collections import Counter
from collections.abc import Callable, Sequence
from typing import Any, NamedTuple

import openpyxl
import pfs
import pytest
from support import plainly
from test_audit import run

Times = list[list[int]]


class Planted(NamedTuple):
    """A row: its instance, stated makespan and order, and of an error what has to be said of it; `?` if any word will
    do."""

    name: str
    stated: int
    order: list[int]
    error: str = ""


def span(times: Times, order: Sequence[int]) -> int:
    return plainly.makespan(times, [job - 1 for job in order])


def no_wait(times: Times, order: Sequence[int]) -> int:
    """Each job starts as early as no operation of it waits and no machine has two jobs."""
    free, start = [0] * len(times[0]), 0
    for job in order:
        offsets = [sum(times[job - 1][:at]) for at in range(len(free))]
        start = max(at - offset for at, offset in zip(free, offsets))
        free = [start + offset + time for offset, time in zip(offsets, times[job - 1])]
    return free[-1]


def blocking(times: Times, order: Sequence[int]) -> int:
    """When each job leaves each machine, from a table with a row for each."""
    machines = len(times[0])
    left = [[0] * (machines + 1)]
    for job in order:
        row = [left[-1][1] if machines > 1 else left[-1][0]]
        start = left[-1][0]
        row = []
        for at in range(machines):
            end = start + times[job - 1][at]
            start = max(end, left[-1][at + 1]) if at + 1 < machines else end
            row.append(start)
        left.append([*row, 0])
    return left[-1][machines - 1]


# The last row's makespan or order came first, and files have no rows.
SHIFTED = "rows are shifted by 1 row|are in another order"
# What somebody states by an error, and what has to be said of it.
KINDS: dict[str, tuple[str, Callable[[Times, list[int], int], int]]] = {
    "digits": ("two digits of", lambda times, order, takes: int(str(takes)[:-2] + str(takes)[:-3:-1])),
    "rounded": ("rounded to tens", lambda times, order, takes: (takes + 5) // 10 * 10),
    "bound": ("that is the lower bound", lambda times, order, takes: plainly.bound(times)),
    "no-wait": ("without waiting between machines", lambda times, order, takes: no_wait(times, order)),
    "blocking": ("(blocking)", lambda times, order, takes: blocking(times, order)),
    "start": ("when the last operation starts", lambda times, order, takes: takes - times[order[-1] - 1][-1]),
    "machine": ("without the last machine", lambda times, order, takes: span([row[:-1] for row in times], order)),
    "first": ("without its first job", lambda times, order, takes: span(times, order[1:])),
    "last": ("without its last job", lambda times, order, takes: span(times, order[:-1])),
    "job": ("without the job at place", lambda times, order, takes: span(times, order[:2] + order[3:])),
    "reversed": ("the reversed order takes", lambda times, order, takes: span(times, order[::-1])),
    "small": ("?", lambda times, order, takes: takes - 1)}


def rows_for(shops: dict[str, Times], method: str, chance: random.Random) -> list[Planted]:
    """Some rows of a method, with errors in one of twelve and perhaps in a whole column."""
    rows = []
    for name, times in shops.items():
        order = chance.sample(range(1, len(times) + 1), len(times))
        rows.append(Planted(name, span(times, order), order))
    true = rows.copy()
    whole = chance.choice(["", "", "", "shift spans", "shift orders", "sort spans", "exchange"])
    sizes = {len(times) for times in shops.values()}
    if whole == "shift spans":
        rows = [row._replace(stated=rows[at - 1].stated, error=SHIFTED) for at, row in enumerate(rows)]
    elif whole == "shift orders" and len(sizes) == 1:
        rows = [row._replace(order=rows[at - 1].order, error=SHIFTED) for at, row in enumerate(rows)]
    elif whole == "sort spans":
        rows = [row._replace(stated=stated, error="are in another order|are exchanged|are shifted")
                for row, stated in zip(rows, sorted(row.stated for row in rows))]
    elif whole == "exchange":
        one, other = chance.sample(range(len(rows)), 2)
        text = "the makespans of this row and .* are exchanged"
        rows[one], rows[other] = (rows[one]._replace(stated=true[other].stated, error=text),
                                  rows[other]._replace(stated=true[one].stated, error=text))
    else:
        for at, row in enumerate(rows):
            if chance.random() < 1 / 12:
                rows[at] = with_error(row, shops[row.name], chance)
    return [row if is_wrong(row, shops[row.name]) else row._replace(error="") for row in rows]


def is_wrong(row: Planted, times: Times) -> bool:
    return sorted(row.order) != [*range(1, len(times) + 1)] or span(times, row.order) != row.stated


def with_error(row: Planted, times: Times, chance: random.Random) -> Planted:
    kind = chance.choice([*KINDS, "dummy", "twice", "lost"])
    if kind == "dummy":
        return row._replace(order=chance.choice([[0, *row.order], [*row.order, 0]]), error="without the 0 at the")
    if kind == "twice":
        return row._replace(order=[*row.order[:-1], row.order[0]], error="is missing")
    if kind == "lost":
        return row._replace(order=row.order[:-1], error="is missing")
    text, of = KINDS[kind]
    return row._replace(stated=of(times, row.order, row.stated), error=text)


# Forms

def text_of(order: Sequence[int], chance: random.Random) -> str:
    sign = chance.choice([" ", ", ", "-", " - ", "; "])
    text = sign.join(map(str, order))
    return chance.choice([text, f"[{text}]", f"π = ({text})", f"({text})"]) if sign != "-" else text


def in_csv(methods: dict[str, list[Planted]], folder: pathlib.Path, chance: random.Random) -> pathlib.Path:
    delimiter = chance.choice(";\t,")
    head = [chance.choice(["Problem", "Instance Name", "Instanz"]), chance.choice(["Cmax (s)", "Makespan", "UB"]),
            chance.choice(["Job sequence", "Schedule", "Best solution", "Reihenfolge"]), "Algorithm", "CPU"]
    with open(folder / "table.csv", "w", newline="") as file:
        writer = csv.writer(file, delimiter=delimiter)
        for line in ["Supplementary results"], ["Size", "n", "m"], ["Date", "1 December"]:
            writer.writerows([line] * (chance.random() < 0.5))
        writer.writerow(head)
        writer.writerows([row.name, row.stated, text_of(row.order, chance), method, "0.5"]
                         for method, rows in methods.items() for row in rows)
    return folder / "table.csv"


def side_by_side(methods: dict[str, list[Planted]], folder: pathlib.Path, chance: random.Random) -> pathlib.Path:
    """The methods' columns next to each other, with their names in the head or in the line above."""
    with open(folder / "wide.csv", "w", newline="") as file:
        writer = csv.writer(file, delimiter=";")
        if chance.random() < 0.5:
            names = (f"{text} {method}" for method in methods for text in ("Cmax", "Sequence"))
            writer.writerow(["No.", "Instance", *names])
        else:
            writer.writerow(["", "", *(cell for method in methods for cell in (method, ""))])
            writer.writerow(["No.", "Instance", *["Cmax", "Sequence"] * len(methods)])
        for at, rows in enumerate(zip(*methods.values()), 1):
            cells = (cell for row in rows for cell in (row.stated, text_of(row.order, chance)))
            writer.writerow([at, rows[0].name, *cells])
    return folder / "wide.csv"


def in_workbook(methods: dict[str, list[Planted]], folder: pathlib.Path, chance: random.Random) -> pathlib.Path:
    """A sheet for each method, below a title; or one, with the instances merged over the methods and a job a column."""
    book: Any = openpyxl.Workbook()
    if chance.random() < 0.5:
        for method, rows in methods.items():
            sheet = book.create_sheet(method)
            sheet.append([f"Results of {method}"])
            sheet.merge_cells("A1:C1")
            sheet.append(["Instance", "Best makespan", "Permutation π"])
            for row in rows:
                sheet.append([row.name, row.stated, text_of(row.order, chance)])
        del book["Sheet"]
    else:
        sheet, most = book.active, max(len(row.order) for rows in methods.values() for row in rows)
        sheet.append(["Problem", "Method", "Cmax", *range(1, most + 1)])
        for at, beside in enumerate(zip(*methods.values())):
            for turn, (method, row) in enumerate(zip(methods, beside)):
                sheet.append([row.name if turn == 0 else None, method, row.stated, *row.order])
            sheet.merge_cells(start_row=2 + at * len(methods), end_row=1 + (at + 1) * len(methods), start_column=1,
                              end_column=1)
    book.save(folder / "book.xlsx")
    return folder / "book.xlsx"


def in_latex(methods: dict[str, list[Planted]], folder: pathlib.Path, chance: random.Random) -> pathlib.Path:
    lines = [r"\documentclass{article} % a & b \\", r"\begin{table}\caption{Results}", r"\begin{tabular}{llrl}",
             r"\toprule", r"Problem & Method & $C_{\max}$ & Sequence $\pi$ \\ \midrule"]
    for rows in zip(*methods.values()):
        for turn, (method, row) in enumerate(zip(methods, rows)):
            name = row.name.replace("_", r"\_")
            first = rf"\multirow{{{len(methods)}}}{{*}}{{{name}}}" if turn == 0 else ""
            stated = f"{row.stated // 1000}\\,{row.stated % 1000:03}" if row.stated > 999 else str(row.stated)
            stated = chance.choice([stated, rf"\textbf{{{stated}}}", f"${stated}$"])
            order = chance.choice([", ", " - "]).join(map(str, row.order))
            lines.append(rf"{first} & \emph{{{method}}} & {stated} & ${order}$ \\")
        lines.append(r"\hline % a line")
    (folder / "paper.tex").write_text("\n".join([*lines, r"\end{tabular}\end{table}"]))
    return folder / "paper.tex"


def in_files(methods: dict[str, list[Planted]], folder: pathlib.Path, chance: random.Random) -> pathlib.Path:
    """A file for each order, in a folder for each method, or all of it as an archive."""
    top = folder / "orders"
    for method, rows in methods.items():
        (top / method).mkdir(parents=True)
        for row in rows:
            lines = chance.choice([" ", "\n", ","]).join(map(str, row.order))
            stated = chance.choice([f"{row.stated}", f"Cmax = {row.stated}"]) if "," in lines or " " in lines else \
                f"makespan: {row.stated}"
            (top / method / f"{row.name}.txt").write_text("\n".join(chance.sample([stated, lines], 2)) + "\n")
    if chance.random() < 0.5:
        return top
    with zipfile.ZipFile(folder / "orders.zip", "w", zipfile.ZIP_DEFLATED) as archive:
        for path in sorted(top.rglob("*.txt")):
            archive.write(path, f"supplement/{path.relative_to(top)}")
    return folder / "orders.zip"


FORMS = (in_csv, side_by_side, in_workbook, in_latex, in_files)


@pytest.mark.seconds(60)
def test_supplements_in_all_forms_with_all_errors(tmp_path: pathlib.Path, untraced: None) -> None:
    """Of 20,000 rows no right one is accused; of the planted errors 97 % are found, 90 % of these with their cause."""
    chance = random.Random(20261201)
    counts, rows_made, missed = Counter[str](), 0, list[str]()
    for number in range(1, 10_000):
        if rows_made > 20_000:
            break
        folder = tmp_path / str(number)
        folder.mkdir()
        sizes = [(chance.randrange(6, 13), chance.randrange(2, 7))]
        times = {f"set{number}_{at}": [[chance.randrange(1, 100) for _ in range(machines)] for _ in range(jobs)]
                 for at in range(30) for jobs, machines in [sizes[0] if number % 2 else
                                                            (chance.randrange(6, 13), chance.randrange(2, 7))]}
        methods = {method: rows_for(times, method, chance) for method in ("IG", "HGA", "TSM")[:chance.randrange(2, 4)]}
        path = FORMS[number % len(FORMS)](methods, folder, chance)
        with warnings.catch_warnings():
            warnings.simplefilter("error")
            found = pfs.audit(path, {name: pfs.Instance(rows) for name, rows in times.items()}, first=1)
        planted = {(row.name, method): row for method, rows in methods.items() for row in rows}
        assert len(found) == len(planted), path
        rows_made += len(found)
        for each in found:
            row = planted[each.instance.removesuffix(".txt"), each.method or each.sheet]
            if not row.error:
                assert each.valid, (path, each, row)
                continue
            counts["planted"] += 1
            counts["found"] += not each.valid
            counts["explained"] += row.error == "?" or re.search(row.error, each.why) is not None
            if row.error != "?" and not re.search(row.error, each.why):
                missed.append(f"{row.error}: {each.why}")
    assert rows_made > 20_000 and counts["planted"] > 1_500
    assert counts["found"] >= 0.97 * counts["planted"], counts
    assert counts["explained"] >= 0.90 * counts["planted"], (counts, missed[:20])


# Supplements by hand, which the generator doesn't make

SMALL = pfs.Instance([[3, 2], [2, 5], [4, 1]], name="small", upper=10)
TWENTY = " ".join(map(str, range(1, 21)))


def audited(text: str, tmp_path: pathlib.Path, name: str = "table.csv", shops: Any = (SMALL,),
            **options: Any) -> list[tuple[Any, ...]]:
    """Line, instance, method, verdict and reason of each row."""
    (tmp_path / name).write_text(text)
    return [(*each[:3], *each[7:9]) for each in pfs.audit(tmp_path / name, shops, **options)]


@pytest.mark.parametrize("name", ["Ta 001", "tai001", "TA-1", "ta_001", "20x5-1", "20x5_01", "tai20_5_1", "20 x 5 - 1",
                                  "20×5-1", r"C:\Sets\Ta001.txt", "Tai 001"])
def test_names_of_taillard(name: str, tmp_path: pathlib.Path) -> None:
    [row] = audited(f"Instance;Cmax;Sequence\n{name};1448;{TWENTY}\n", tmp_path)
    assert row == (2, name, "", "valid", "")


def test_names_of_other_benchmarks(tmp_path: pathlib.Path) -> None:
    """A benchmark's name decides. Without it, an instance of the folder comes before Taillard's; two are unclear."""
    folder = tmp_path / "shops"
    folder.mkdir()
    shops = {name: pfs.generate(3, 2, at) for at, name in enumerate(("VFR3_2_1_Gap", "own_3_2_2", "VFR3_2_2_Gap"), 1)}
    for name, shop in shops.items():
        shop.write(folder / f"{name}.txt", "orlib")
    spans = [plainly.makespan(shop.times.tolist(), [0, 1, 2]) for shop in shops.values()]
    names = {"VFR3-2-1": spans[0], "3x2-1": spans[0], "vfr_3_2_2": spans[2], "own-3-2-2": spans[1], "3x2-2": 0,
             "ta3x2-1": 0, "VFR3-2-3": 0}
    rows = audited("Instance,Cmax,Sequence\n" + "".join(f"{name},{span},1 2 3\n" for name, span in names.items()),
                   tmp_path, shops=folder)
    assert [row[3].split(" ")[0] for row in rows] == ["valid"] * 4 + ["unclear"] * 3
    assert "'3x2-2' is the name of 2 different instances: VFR3_2_2_Gap.txt, own_3_2_2.txt" in rows[4][4]
    table = "n;m;No.;C_max;Permutation\n3;2;1;{};1 2 3\n20;5;1;1448;{}\n3;2;;7;1 2 3\n"
    numbered = audited(table.format(spans[0], TWENTY), tmp_path, shops=folder)
    assert [(row[1], row[3][:5]) for row in numbered[:2]] == [("3x2-1", "valid"), ("20x5-1", "valid")]
    assert numbered[2][3] == "unclear" and "no instance ''" in numbered[2][4]


def test_heads_in_german_and_ambiguous_ones(tmp_path: pathlib.Path) -> None:
    for head in ("Instanz;Gesamtdauer;Reihenfolge", "Problem;Solution;Best solution", "Problem;UB;Solution",
                 "Instance;Best Makespan [s];Job_Sequence", "Instance;Makespan (Cmax);Sequenz"):
        assert [row[3] for row in audited(f"{head}\nsmall;10;2 1 3\n", tmp_path)] == ["valid and optimal"], head
    # With a makespan, an upper bound is the reference.
    assert audited("Problem,Cmax,UB,RPD,Order\nsmall,11,8,37.50,1 2 3\n", tmp_path)[0][3] == "valid"
    for head in ("Problem;Cmax;Makespan;Order", "Problem;Cmax IG;Cmax GA;Order", "Problem;Size;Order"):
        with pytest.raises(pfs.TableFault):
            audited(f"{head}\nsmall;10;10;2 1 3\n", tmp_path)


def test_a_column_by_name(tmp_path: pathlib.Path) -> None:
    text = "Problem;C;Best found;Order\nsmall;10;2 1 3;x\n"
    for columns in ({"makespan": "C", "order": "best  FOUND"}, {"makespan": "c", "order": "Best found"}):
        assert audited(text, tmp_path, columns=columns)[0][3] == "valid and optimal"
    with pytest.raises(pfs.TableFault, match="no column makespan"):
        audited(text, tmp_path, columns={"order": "Best found"})
    with pytest.raises(ValueError, match="columns must be of 'instance', .*, not 'span'"):
        audited(text, tmp_path, columns={"span": "C"})


def test_methods_side_by_side_that_lack_a_column(tmp_path: pathlib.Path) -> None:
    left_out = "'Cmax NEH' is left out: it has no orders; the columns 'Order TS', 'Order SA' are left out: they have no"
    with pytest.warns(UserWarning, match=left_out):
        rows = audited("Problem,Cmax NEH,Cmax IG,Order IG,Cmax GA,Order GA,Order TS,Order SA\n"
                       "small,1,10,2 1 3,11,1 2 3,2 1 3,2 1 3\n", tmp_path)
    assert [row[1:4] for row in rows] == [("small", "IG", "valid and optimal"), ("small", "GA", "valid")]


def test_an_empty_cell_has_the_instance_above_where_that_is_right(tmp_path: pathlib.Path) -> None:
    rows = audited("Problem,Method,Cmax,Order\nsmall,a,10,2 1 3\n,b,11,1 2 3\n,c,12,1 2 3\nsmall,d,12,1 2 3\n",
                   tmp_path)
    assert [row[3] for row in rows] == ["valid and optimal", "valid", "unclear", "wrong makespan"]
    assert rows[2][4].startswith("cell A4: there is no instance, and with that of line 2 the row is wrong: wrong makes")


LATEX = r"""\documentclass{article}
% \begin{tabular}{lll} Instance & Cmax & Order \\ small & 1 & 1 2 3 \end{tabular}
\begin{tabular}{ll} a & b \\ c & 5\% \\ \end{tabular}
\begin{longtable}{|l|r|l|r|l|} \hline
 & \multicolumn{2}{c|}{\textbf{IG}} & \multicolumn{2}{c}{HGA\_2} \\ \cline{2-5}
Problem & $C_{max}$ & Sequence & $C_{max}$ & Sequence \\[2pt] \endhead \hline
\multirow{2}{*}{small} & \textbf{10} & $\pi = (2, 1, 3)$ & 11 & $1\rightarrow 2 \rightarrow 3$ \\
 & $\mathbf{11}$ & {1--2--3} & 12 & 1~2~3 \tabularnewline
big & 1\,448 & @ & 1{,}448 & @
\\ \end{longtable}
"""


def test_latex(tmp_path: pathlib.Path) -> None:
    with pytest.warns(UserWarning, match="the table in line 3 is left out: the first line has|line 3 has no column"):
        rows = audited(LATEX.replace("@", TWENTY), tmp_path, "paper.tex", [SMALL, pfs.Instance(pfs.taillard(1).times,
                                                                                               name="big")])
    assert [row[:4] for row in rows] == [
        (7, "small", "IG", "valid and optimal"), (8, "small", "IG", "valid"), (9, "big", "IG", "valid"),
        (7, "small", "HGA_2", "valid"), (8, "small", "HGA_2", "wrong makespan"), (9, "big", "HGA_2", "unclear")]
    assert "'1,448' isn't a makespan" in rows[5][4]
    with pytest.raises(pfs.TableFault, match="no table of the LaTeX file is one of orders: it has no tabular"):
        audited("\\begin{document}", tmp_path, "empty.tex")


def test_a_folder_and_an_archive(tmp_path: pathlib.Path) -> None:
    """Orders, tables and other files; what can't be read is named and doesn't end the audit."""
    top = tmp_path / "supplement"
    (top / "IG").mkdir(parents=True)
    files = {"IG/small.txt": "10\n2 1 3\n", "small.dat": "2\n1\n3\n", "Small.sol": SMALL.neh().to_text(), "x.md": "# x",
             "small.two": "3\n1 2\n3\n", "table.csv": "Problem,Cmax,Order\nsmall,11,2 1 3\n", "none.txt": "nothing",
             "bad.csv": "a,b\n1,2\n", "IG/other.txt": "1 2 3\nCmax: 9\n"}
    for name, text in files.items():
        (top / name).write_text(text)
    (top / "latin.txt").write_bytes(b"\xff\xe91 2")
    with zipfile.ZipFile(tmp_path / "supplement.zip", "w") as archive:
        for path in sorted(top.rglob("*.*")):
            archive.write(path, f"../{path.relative_to(top)}")
    for table in (top, tmp_path / "supplement.zip"):
        with pytest.warns(UserWarning) as said:
            found = pfs.audit(table, [SMALL])
        verdicts = {(each.sheet.removeprefix("../"), each.verdict): (each.method, each.stated) for each in found}
        assert verdicts == {("IG/small.txt", "valid and optimal"): ("IG", 10), ("IG/other.txt", "unclear"): ("IG", 9),
                            ("small.dat", "valid, no makespan"): ("", None),
                            ("Small.sol", "valid and optimal"): ("", 10), ("table.csv", "wrong makespan"): ("", 11)}
        texts = sorted(str(each.message).replace("../", "") for each in said)
        assert [text.split(" is left out: ")[0] for text in texts] == [
            f"the file '{name}'" for name in ("bad.csv", "latin.txt", "none.txt", "small.two", "x.md")]
        assert "its first and its last line may be the makespan" in texts[3]
    (tmp_path / "empty").mkdir()
    with pytest.raises(pfs.TableFault, match="no file is a table or an order"):
        pfs.audit(tmp_path / "empty", [SMALL])


def test_rpds_and_means(tmp_path: pathlib.Path) -> None:
    """Against the table's reference or the best known makespan; numbers are right if they are rounded right. A share is
    a percentage."""
    rows = audited("Problem;Cmax;RPD;Ref;Order\nsmall;11;10.0 %;10;1 2 3\nsmall;10;0,00;;2 1 3\n"
                   "small;11;10.1;10;1 2 3\nAverage;10.67;6.7;;\nsmall;11;37.5;8;1 2 3\nsmall;11;0.0999;10;1 2 3\n"
                   "small;11;0.1000;;1 2 3\n"
                   "Mean;11;19.2;;\nMittelwert:;10.8;;;\nAvg;10.9;;;\n", tmp_path)
    assert [row[3] for row in rows] == ["valid", "valid and optimal", "wrong RPD", "mean", "valid", "wrong RPD",
                                        "valid", "mean", "mean", "wrong mean"]
    assert rows[2][4] == "RPD against 10: states 10.1, is 10.00"
    assert rows[9][4] == "cell B11: the mean: states 10.9, is 10.83"
    # Without a reference none is audited.
    plain = pfs.Instance(SMALL.times, name="small")
    assert audited("Problem;Cmax;RPD;Order\nsmall;11;99;1 2 3\n", tmp_path, shops=[plain])[0][3] == "valid"


def test_a_zero_at_an_end(tmp_path: pathlib.Path) -> None:
    rows = audited("Problem;Cmax;Order\nsmall;10;0 2 1 3\nsmall;10;2 1 3 0\nsmall;9;0-2-1-3-0\nsmall;10;2 1 3\n"
                   "small;10;0 0 2 1 3\n", tmp_path)
    assert [row[4].partition("; ")[2] for row in rows[:3]] == [
        "without the 0 at the beginning it takes 10, as stated", "without the 0 at the end it takes 10, as stated",
        "without the 0 at the beginning and the end it takes 10"]
    assert [row[3] for row in rows] == ["wrong size"] * 3 + ["valid and optimal", "wrong size"]


def test_the_command_says_how_it_reads_and_counts_figures(tmp_path: pathlib.Path, monkeypatch: pytest.MonkeyPatch,
                                                          capsys: pytest.CaptureFixture[str]) -> None:
    monkeypatch.chdir(tmp_path)
    pathlib.Path("shops").mkdir()
    SMALL.write("shops/sm\x1b[31mall.txt", "taillard")
    pathlib.Path("t.csv").write_text("Title\nProblem,C,1,2,3,RPD\nsm\x1b[31mall,11,1,2,3,9.9\nx\x1b[2J,1,1,2,3,\n")
    assert run("t.csv --instances shops --column makespan=C --dry-run") == 0
    assert capsys.readouterr().out == (
        "2 rows: names in line 2, instance in column A 'Problem', makespan in column B 'C', order in columns C to E "
        "'1', rpd in column F 'RPD'\n"
        "instance 'sm\\x1b[31mall': sm\\x1b[31mall.txt 1, 3 jobs on 2 machines\n"
        "instance 'x\\x1b[2J': no instance 'x\\x1b[2J'\n")
    assert run("t.csv --instances shops --column makespan=C") == 1
    assert capsys.readouterr().out.splitlines()[-1] == (
        "t.csv: 1 orders audited, 1 valid (0 optimal), 0 wrong; 1 row is unclear, and not audited; 1 RPD or mean is "
        "wrong")
    for option in ("makespan", "span=C", "makespan=", "makespan=C --column makespan=D"):
        with pytest.raises(pfs.experiments.ExperimentError, match="write ROLE=NAME once for a role: instance, "):
            run(f"t.csv --column {option}")


# Files that are to take long or much memory

def archive_of(count: int, size: int = 0) -> bytes:
    """An archive that says that its list of files is so long, or with a file of zeros."""
    content = io.BytesIO()
    with zipfile.ZipFile(content, "w", zipfile.ZIP_DEFLATED) as archive:
        archive.writestr("small.txt", bytes(size) or b"2 1 3")
    text = bytearray(content.getvalue())
    if count:
        text[-10:-6] = struct.pack("<I", 46 * count)
    return bytes(text)


@pytest.mark.parametrize(("name", "content", "said"), [
    ("many.zip", lambda: archive_of(1_000_000), "the archive has more than 20,000 files"),
    ("large.zip", lambda: archive_of(0, 70 << 20), "the files of the archive have more than 67,108,864 bytes"),
    ("nested.zip", lambda: nested(), "the file 'in.zip' is left out: it is no table and no order"),
    ("long.tex", lambda: b"\\begin{tabular}" + b"a&" * (3 << 20), "the LaTeX file has more than 4,194,304 characters"),
    ("deep.tex", lambda: b"\\begin{tabular}{l}" + b"\\textbf{" * 400_000 + b"\\end{tabular}", "is left out"),
    ("spans.tex", lambda: b"\\begin{tabular}{l}" + b"\\multicolumn{999}{l}{a} & " * 100_000 + b"\\end{tabular}",
     "is left out")])
def test_bombs(name: str, content: Callable[[], bytes], said: str, tmp_path: pathlib.Path) -> None:
    (tmp_path / name).write_bytes(content())
    begun = time.process_time()
    with pytest.raises(pfs.TableFault, match=re.escape(said)):
        pfs.audit(tmp_path / name, [SMALL])
    assert time.process_time() - begun < 5 and sorted(path.name for path in tmp_path.iterdir()) == [name]


def nested() -> bytes:
    content = io.BytesIO()
    with zipfile.ZipFile(content, "w") as archive:
        archive.writestr("in.zip", archive_of(0))
    return content.getvalue()
