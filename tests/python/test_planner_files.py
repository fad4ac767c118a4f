"""Files of planners: options in a file or on a sheet, hidden rows, hints for cells, and what another plan says of its
end."""
import datetime
import pathlib
import re
import warnings
from collections.abc import Sequence
from typing import Any

import pfs
import pytest
from support.commands import ended
from support.office import Office
from test_workbooks import book_of, fault_of

openpyxl = pytest.importorskip("openpyxl")
pytestmark = pytest.mark.xdist_group("office")
TABLE = "job [min];saw;drill\ntable;300;200\nchair;250;400\n"


def test_options_in_a_file(tmp_path: pathlib.Path) -> None:
    (tmp_path / "times.csv").write_text(TABLE)
    words = ["plan", "times.csv", "--begin", "2026-11-30T06:00", "--shift", "fri:06:00-12:00", "--title", "Week 49"]
    (tmp_path / "week.txt").write_text("\ufeff# of each week\n--begin 2026-11-30T06:00\n\n--shift fri:06:00-12:00\n"
                                       "--title 'Week 49'\n", "utf-8")
    assert ended(["plan", "times.csv", "@week.txt"], tmp_path) == ended(words, tmp_path)
    assert ended(["plan", "times.csv", "@week.txt", "--rest", "week.txt"], tmp_path) == (
        3, "", "pfs: week.txt is read, and writing would replace it: name another file\n")
    for text in ("@week.txt\n", "--title 'Week\n", "--nothing\n"):
        (tmp_path / "week.txt").write_text(text)
        assert ended(["plan", "times.csv", "@week.txt"], tmp_path)[:2] == (3, "")
    assert ended(["plan", "times.csv", "@none"], tmp_path)[:2] == (3, "")


def test_machines_with_a_comma_in_their_names(tmp_path: pathlib.Path) -> None:
    book_of(tmp_path / "times.xlsx", ("job", "saw, left", "note", "drill"), ("table", 3, "x", 1))
    status, _, got = ended(["plan", "times.xlsx", "--machines", 'drill, "saw, left"'], tmp_path)
    assert (status, got) == (0, "times.xlsx: columns that are left out: note\n")


@pytest.mark.parametrize(("cell", "hint"), [
    ("3 of a lot", "write 0 where a job skips a machine"), ("#REF!", "the formula has an error"),
    ("12,5", "it is text that looks like a number: format the cell as a number, and write it again"),
    *((datetime.datetime.fromisoformat(day), "a cell with the format of a time has a number of days: format it as a "
       "number, and write the time again") for day in ("1900-03-30", "1900-02-28 06:00"))])
def test_hints_for_cells(tmp_path: pathlib.Path, cell: Any, hint: str) -> None:
    """A spreadsheet counts days from 1900 on: 90 are 2160 hours."""
    path = book_of(tmp_path / "times.xlsx", ("job", "saw", "drill"), ("table", 3, 2), ("chair", 1, cell))
    shown = {datetime.datetime(1900, 3, 30): "2160:00"}.get(cell, str(cell))
    assert fault_of(path, machines=["saw", "drill"]) == (3, 3, f"{shown!r} isn't a time: {hint}")


def test_what_another_plan_says_of_its_end(tmp_path: pathlib.Path) -> None:
    """By `stated_end`: it had another calendar, and the slip by a holiday is seen."""
    (tmp_path / "times.csv").write_text(TABLE)
    words = ["plan", "times.csv", "--begin", "2026-11-30T06:00", "--shift", "06:00-14:00"]
    (tmp_path / "monday.txt").write_text(ended([*words, "--schedule", "monday.csv"], tmp_path)[1])
    end = "end 2026-12-01 12:10"
    for name, said in (("monday.txt", f"makespan 850 min, {end}"), ("monday.csv", end)):
        got = ended([*words, "--closed", "2026-12-01", "--order", "monday.txt", "--compare", name], tmp_path)[2]
        both = "makespan 850 min, end 2026-12-02 12:10"
        assert got == f"{name}: says {said}\n{name}: {both}; the plan: {both}\n"
    text = (tmp_path / "monday.csv").read_text("utf-8-sig")
    (tmp_path / "dos.csv").write_text(re.sub("([^;\n]+)", r'"\1"', text).replace("\n", "\r\n"), "utf-8", newline="")
    assert f"dos.csv: says {end}\n" in ended([*words, "--compare", "dos.csv"], tmp_path)[2]
    for new, said in (("12:10:00,5", "12:10:00,5"), ("12:10:00", "12:10"), ("12:00", "12:00")):
        (tmp_path / "parts.csv").write_text(text.replace("12:10", new), "utf-8")
        assert f"says end 2026-12-01 {said}\n" in ended([*words, "--compare", "parts.csv"], tmp_path)[2]
    (tmp_path / "names").write_text("table\nchair\n")
    assert "says" not in ended([*words, "--compare", "names"], tmp_path)[2]


@pytest.mark.parametrize("name", ["times.csv", "times.xlsx"])
def test_csv_for_a_spreadsheet_in_german(tmp_path: pathlib.Path, name: str) -> None:
    """With semicolons, decimal commas and a byte order mark, whatever the table has."""
    (tmp_path / "times.csv").write_text("job [h],saw\na,1.5\nb,2\n")
    book_of(tmp_path / "times.xlsx", ("job [h]", "saw"), ("a", 1.5), ("b", 2))
    (tmp_path / "order").write_text("b\na\n")
    words = ["plan", name, "--order", "order", "--schedule", "plan.csv", "--rest", "rest.csv"]
    assert ended(words, tmp_path)[0] == 0
    assert (tmp_path / "plan.csv").read_text("utf-8").startswith("job,machine,start,end\nb,saw,0.0,2.0\n")
    assert ended([*words, "--language", "de"], tmp_path)[0] == 0
    assert (tmp_path / "plan.csv").read_bytes() == (
        "\ufeffAuftrag;Maschine;Beginn;Ende\nb;saw;0,0;2,0\na;saw;2,0;3,5\n").encode()
    assert (tmp_path / "rest.csv").read_bytes() == "\ufeffjob [h];saw\na;1,5\nb;2,0\n".encode()
    again = ["plan", "rest.csv", "--order", "plan.csv"]
    assert "makespan 3.5 h" in ended(again, tmp_path)[1]


# Options on the sheet `pfs` of a workbook

ROWS = (("job [min]", "saw", "drill"), ("table", 300, 200), ("chair", 250, 400))


OPTIONS: list[list[object]] = [
    ["# each week", 1, 2], ["begin", datetime.datetime(2026, 11, 30, 6)], [], ["--shift", "fri:06:00-12:00"],
    ["closed", datetime.datetime(2026, 12, 4)], ["take", 2], ["report"]]


@pytest.mark.parametrize("sheets", [{"table": ROWS, "pfs": OPTIONS}, {"PFS": OPTIONS, "table": ROWS}])
def test_options_on_a_sheet(tmp_path: pathlib.Path, sheets: dict[str, Sequence[Sequence[object]]]) -> None:
    """Also on the first one, with which the workbook opens."""
    book_of(tmp_path / "plain.xlsx", *ROWS)
    (title, rows), (name, more) = sheets.items()
    book_of(tmp_path / "times.xlsx", *rows, title=title, **{name: more})
    words = ["--begin", "2026-11-30T06:00", "--shift", "fri:06:00-12:00", "--closed", "2026-12-04", "--take", "2",
             "--report"]
    plain, printed, _ = ended(["plan", "plain.xlsx", *words], tmp_path)
    told = ("times.xlsx: options of the sheet 'pfs': --begin=2026-11-30 06:00:00, --shift=fri:06:00-12:00, "
            "--closed=2026-12-04, --take=2, --report\n")
    status, got, said = ended(["plan", "times.xlsx"], tmp_path)
    assert (status, got) == (plain, printed) and said.startswith(told) and "not" not in said
    later = ended(["plan", "times.xlsx", "--begin", "2026-12-12T07:00"], tmp_path)[1]
    assert later == ended(["plan", "plain.xlsx", *words, "--begin", "2026-12-12T07:00"], tmp_path)[1] != got
    assert pfs.read_csv(tmp_path / "times.xlsx").times.tolist() == [[300, 200], [250, 400]]


@pytest.mark.parametrize(("row", "said"), [
    (["schedule", "plan.csv"], "--schedule names a file, which only the command line may do"),
    (["sched", "plan.csv"], "--schedule names a file, which only the command line may do"),
    (["order", "times.xlsx"], "--order names a file, which only the command line may do"),
    (["language", "/etc/hostname"], "--language names a file, which only the command line may do"),
    (["nothing", 3], "unrecognized arguments: --nothing=3"),
    *(([name], "with --help or --version nothing is planned") for name in ("version", "help")),
    (["take", 0], "argument --take: '0' is not a whole number from 1 to 5,000"),
    (["report", 1], "argument --report: it takes no value"), (["--begin"], "argument --begin: its value is missing"),
    (["s", 1], "unrecognized arguments: --s=1"), (["method", "best"], "argument --method: 'best' is none of solve"),
    (["down", "saw"], "argument --down: 'saw' is not a machine and a time such as"),
    (["lang", "fr"], "--language names a file, which only the command line may do"),
    (["shift", "06:00-12:00", "13:00-17:00"], "shift has several values: write a row for each")])
def test_a_sheet_of_options_names_no_file(tmp_path: pathlib.Path, row: list[object], said: str) -> None:
    """A workbook may come from a stranger."""
    book_of(tmp_path / "times.xlsx", *ROWS, pfs=[row])
    before = sorted(tmp_path.iterdir())
    status, printed, got = ended(["plan", "times.xlsx"], tmp_path)
    assert (status, printed) == (3, "") and got.startswith(f"pfs: times.xlsx, sheet pfs: {said}")
    assert sorted(tmp_path.iterdir()) == before


def test_a_workbook_that_has_only_the_sheet_pfs(tmp_path: pathlib.Path) -> None:
    book_of(tmp_path / "times.xlsx", *ROWS, title="pfs")
    assert ended(["plan", "times.xlsx"], tmp_path)[::2] == (0, "")


def test_a_plan_says_which_sheet_it_reads(tmp_path: pathlib.Path) -> None:
    book_of(tmp_path / "times.xlsx", *ROWS, title="new", old=ROWS[:2])
    assert ended(["plan", "times.xlsx"], tmp_path)[2] == (
        "pfs: times.xlsx: the sheet 'new' is read, and not 'old' (--sheet)\n"
        "2 jobs, 2 machines (saw, drill), times in min\n")
    assert ended(["plan", "times.xlsx", "--sheet", "old"], tmp_path)[::2] == (0, "")


# Rows and columns that are hidden

@pytest.mark.parametrize(("rows", "columns", "said"), [
    ([3], [], "1 hidden row is read too"), ([2, 3], ["C"], "2 hidden rows and 1 hidden column are read too"),
    ([9], ["F", "XFD"], ""), ([], ["B", "C"], "2 hidden columns are read too")])
def test_hidden_rows_and_columns(tmp_path: pathlib.Path, office: Office, rows: list[int], columns: list[str],
                                 said: str) -> None:
    path = book_of(tmp_path / "times.xlsx", *ROWS)
    book = openpyxl.load_workbook(path)
    for row in rows:
        book.active.row_dimensions[row].hidden = True
    for column in columns:
        book.active.column_dimensions[column].hidden = True
    book.save(path)
    for made in (path, office(path, "xlsx")):
        with warnings.catch_warnings(record=True) as caught:
            warnings.simplefilter("always")
            assert pfs.read_csv(made).times.tolist() == [[300, 200], [250, 400]]
        assert [str(each.message) for each in caught] == ([f"{made}: {said}"] if said else [])


# Names in an order that nearly match

NAMES = ["FA-004721", "FA-004727", "FA-004742", "Deckel", "saw 1", "saw 10"]


@pytest.mark.parametrize(("name", "near"), [
    ("fa-004742", "FA-004742"), ("FA-004727  (eilt)", "FA-004727"), ("4721", "FA-004721"), ("FA 4721", "FA-004721"),
    ("deckel_", "Deckel"), ("004721", "FA-004721"), ("472", ""), ("47421", ""), ("FA", ""), ("saw1", "saw 1"),
    ("saw", ""), ("saw 100", ""), ("Boden", ""), ("1", "")])
def test_a_name_that_nearly_matches_is_proposed(tmp_path: pathlib.Path, name: str, near: str) -> None:
    """If one job alone may be meant, which has no place."""
    (tmp_path / "times.csv").write_text("job;saw\n" + "".join(f"{each};1\n" for each in [*NAMES, "a", "b"]))
    (tmp_path / "order").write_text(f"a\nb\n{name}\n")
    got = ended(["plan", "times.csv", "--order", "order"], tmp_path)
    assert got[0] == 0 and got[2].splitlines()[0] == (
        f"order: left out, as the table has no such jobs: {name}" + f" ({near}?)" * bool(near))
    if near:
        (tmp_path / "order").write_text(f"a\n{near}\nb\n{name}\n")
        assert f": {name}\n" in ended(["plan", "times.csv", "--order", "order"], tmp_path)[2]


def test_an_order_whose_names_mostly_nearly_match_is_refused(tmp_path: pathlib.Path) -> None:
    """But not one of jobs that are finished, most of which the table lacks."""
    (tmp_path / "times.csv").write_text("job;saw\n" + "".join(f"{each};1\n" for each in NAMES))
    (tmp_path / "order").write_text("Deckel\nfa-004742\n4721\n")
    assert ended(["plan", "times.csv", "--order", "order"], tmp_path) == (
        2, "", "pfs: order: line 2, 'fa-004742' isn't a job of the table: write 'FA-004742' if it is that (and 1 more "
        "nearly match)\n")
    (tmp_path / "order").write_text("Deckel\nFA-004699\nFA-004700\nFA-004701\n")
    assert ended(["plan", "times.csv", "--order", "order"], tmp_path)[0] == 0


def test_options_of_the_line_count_wherever_a_file_stands(tmp_path: pathlib.Path) -> None:
    (tmp_path / "times.csv").write_text(TABLE)
    (tmp_path / "week.txt").write_text("--begin 2026-11-30T06:00 --title Week\n")
    due = ended(["plan", "times.csv", "--begin", "2026-12-01T06:00"], tmp_path)
    for words in (["@week.txt", "times.csv", "--begin", "2026-12-01T06:00"],
                  ["times.csv", "--begin", "2026-12-01T06:00", "@week.txt"]):
        assert ended(["plan", *words], tmp_path) == due
    (tmp_path / "later.txt").write_text("--begin 2026-12-01T06:00\n")
    assert ended(["plan", "times.csv", "@week.txt", "@later.txt"], tmp_path) == due


def test_a_rest_keeps_the_name_of_its_sheet(tmp_path: pathlib.Path) -> None:
    """So that the options of the week serve it, also where it is a CSV."""
    book_of(tmp_path / "times.xlsx", *ROWS, title="Zeiten", old=ROWS[:2])
    words = ["plan", "times.xlsx", "--sheet", "Zeiten", "--rest", "rest.xlsx", "--rest", "rest.csv"]
    due = ended(words, tmp_path)
    assert due[0] == 0 and openpyxl.load_workbook(tmp_path / "rest.xlsx").sheetnames == ["Zeiten"]
    assert ended(["plan", "rest.xlsx", "--sheet", "Zeiten"], tmp_path)[:2] == due[:2]
    status, printed, got = ended(["plan", "rest.csv", "--sheet", "Zeiten"], tmp_path)
    assert (status, printed) == due[:2]
    assert got.startswith("pfs: rest.csv isn't a workbook, and has no sheet 'Zeiten'\n")


def test_a_job_that_moved_at_its_place(tmp_path: pathlib.Path) -> None:
    (tmp_path / "times.csv").write_text("job;saw\n" + "".join(f"{each};1\n" for each in "abcd"))
    (tmp_path / "order").write_text("b\nc\na\nd\n")
    (tmp_path / "before").write_text("c\na\nb\nd\n")
    assert "before: moved: b (place 3 to 1)\n" in ended(
        ["plan", "times.csv", "--order", "order", "--compare", "before"], tmp_path)[2]
    (tmp_path / "order").write_text("d\nb\na\nc\n")
    assert re.search(r"before: moved: .*b \(place \d to 2\)|before: moved: .*[acd] \(place \d\)", ended(
        ["plan", "times.csv", "--order", "order", "--compare", "before"], tmp_path)[2])
