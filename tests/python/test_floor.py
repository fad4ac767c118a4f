"""What really happened: the columns `begun` and `ended` of a schedule."""
import datetime
import pathlib

import pytest
from support.commands import ended

TABLE = "job [min];saw;drill;paint\ntable;300;200;0\nchair;250;400;0\nlamp;60;30;0\nbox;30;90;20\n"
WEEK = ["--begin", "2026-11-30T06:00", "--shift", "06:00-14:00"]
# At ten past eight of Tuesday: chair is on the drill until 08:50, table has left the saw at 07:10, and lamp does now.
NOW = [*WEEK, "--now", "2026-12-01T08:10", "--rounds", "0", "--rest", "rest.csv", "--order"]


@pytest.fixture
def folder(tmp_path: pathlib.Path) -> pathlib.Path:
    """A folder with Monday's schedule."""
    (tmp_path / "times.csv").write_text(TABLE)
    (tmp_path / "order").write_text("chair\ntable\nlamp\nbox\n")
    assert ended(["plan", "times.csv", *WEEK, "--order", "order", "--schedule", "monday.csv"], tmp_path)[0] == 0
    return tmp_path


def mark(folder: pathlib.Path, marks: dict[str, str], head: str = "begun;ended") -> None:
    """Write these cells after the rows of Monday's schedule, by the beginnings of the rows."""
    first, *rows = (folder / "monday.csv").read_text("utf-8-sig").splitlines()
    assert all(any(row.startswith(f"{key};") for row in rows) for key in marks)
    cells = [next((text for key, text in marks.items() if row.startswith(f"{key};")), ";") for row in rows]
    (folder / "marked.csv").write_text("\n".join(map(";".join, zip([first, *rows], [head, *cells]))) + "\n")


def left(folder: pathlib.Path, marks: dict[str, str], head: str = "begun;ended") -> tuple[dict[str, str], str]:
    """The times that are left of each job, and what is said."""
    mark(folder, marks, head)
    status, _, got = ended(["plan", "times.csv", *NOW, "marked.csv"], folder)
    assert status == 0, got
    return dict(line.split(";", 1) for line in (folder / "rest.csv").read_text("utf-8-sig").splitlines()[1:]), got


PLANNED = {"chair": "0;40;0", "table": "0;200;0", "lamp": "0;30;0", "box": "30;90;20"}


@pytest.mark.parametrize(("marks", "differs"), [
    ({}, {}),
    # As planned, in each form, and in capitals.
    ({"table;saw": "30.11.2026 10:10;2026-12-01T07:10"}, {}), ({"table;saw": "X;ja"}, {}),
    ({"lamp;saw": "x;\u2713"}, {}),
    ({"chair;drill": ";8:50"}, {}), ({"box;saw": "-;-"}, {}), ({"table;saw": ";07:10:00"}, {}),
    # Table has left the saw half an hour later, and so lamp has half an hour left.
    ({"table;saw": ";2026-12-01 07:40"}, {"lamp": "30;30;0"}), ({"lamp;saw": "7:40;"}, {"lamp": "30;30;0"}),
    # What is before has ended by then.
    ({"chair;drill": ";08:00"}, {"chair": None}), ({"chair;drill": ";x"}, {"chair": None}),
    ({"table;drill": "08:00;"}, {"chair": None, "table": "0;190;0"}),
    ({"box;saw": "08:00;"}, {"box": "20;90;20"}), ({"box;saw": "x;"}, {"box": "30;90;20"}),
    ({"box;saw": ";x"}, {"box": "0;90;20"}), ({"box;saw": ";08:10"}, {"box": "0;90;20"}),
    # It hasn't, or will.
    ({"lamp;saw": "-;"}, {"lamp": "60;30;0"}), ({"lamp;saw": ";2026-12-01 09:00"}, {"lamp": "50;30;0"}),
    ({"chair;drill": ";2026-12-02 06:10"}, {"chair": "0;360;0"}), ({"lamp;saw": "x;8:30"}, {"lamp": "20;30;0"})])
def test_what_is_left(folder: pathlib.Path, marks: dict[str, str], differs: dict[str, str | None]) -> None:
    found, got = left(folder, marks)
    due: dict[str, str | None] = {**PLANNED, **differs}
    assert found == {name: row for name, row in due.items() if row is not None}
    assert f"{len(PLANNED) - len(found)} finished" in got


def test_columns_in_another_order_and_language(folder: pathlib.Path) -> None:
    """A spreadsheet adds empty columns; a workbook has moments and times of day."""
    assert left(folder, {"table;saw": "07:40;;"}, "Beendet;;")[0]["lamp"] == "30;30;0"
    assert left(folder, {"lamp;saw": "07:40;7:40"}, "ended;BEGUN")[0]["lamp"] == "0;30;0"
    openpyxl = pytest.importorskip("openpyxl")
    assert ended(["plan", "times.csv", *WEEK, "--order", "order", "--schedule", "plan.xlsx", "--language", "de"],
                 folder)[0] == 0
    book = openpyxl.load_workbook(folder / "plan.xlsx")
    sheet = book.worksheets[0]
    sheet["E1"], sheet["F1"] = "begonnen", "beendet"
    row = next(cells for cells in sheet.iter_rows() if [cell.value for cell in cells[:2]] == ["table", "saw"])
    for value in (datetime.datetime(2026, 12, 1, 7, 40), datetime.time(7, 40), "7:40"):
        sheet.cell(row[0].row, 6).value = value
        book.save(folder / "plan.xlsx")
        assert ended(["plan", "times.csv", *NOW, "plan.xlsx"], folder)[0] == 0
        assert "lamp;30;30;0\n" in (folder / "rest.csv").read_text("utf-8-sig")
    assert "lamp" in ended(["plan", "times.csv", "--order", "plan.xlsx"], folder)[1], "it is an order all the same"


def test_all_faults_at_once(folder: pathlib.Path) -> None:
    mark(folder, {"chair;saw": "2026-11-29 06:00;2026-11-30 10:00", "chair;drill": "8:20;", "table;saw": "x;-",
                  "lamp;saw": "07:30;07:20", "lamp;drill": ";x", "box;saw": "-;x", "box;drill": ";09:00"})
    assert ended(["plan", "times.csv", *NOW, "marked.csv"], folder) == (2, "", "".join(
        f"pfs: marked.csv: cell {text}\n" for text in (
            "E2: 2026-11-29 06:00 is before --begin",
            "E3: 2026-12-01 08:20 is after --now: write - if it hasn't begun",
            "F4: by its times it ends at 2026-12-01 07:10: write when it will end, after --now",
            "F6: 2026-12-01 07:20 is before it has begun, at 2026-12-01 07:30",
            "F7: 'lamp' has ended on 'drill', and 'table' hasn't ended before on 'drill': write when it has",
            "F8: it has ended, and not begun",
            "F9: 2026-12-01 09:00 is after --now, and it hasn't begun: change its time in the table, or write when it "
            "has begun")))
    mark(folder, {"chair;saw": "soon;25:00", "lamp;saw": "0;11/30/2026 10:00"})
    text = "isn't a date and time, a time of day, x if that has happened, or - if it hasn't"
    assert ended(["plan", "times.csv", *NOW, "marked.csv"], folder)[2] == "".join(
        f"pfs: marked.csv: cell {cell} {text}\n" for cell in ("E2: 'soon'", "F2: '25:00'", "E6: '0'",
                                                               "F6: '11/30/2026 10:00'"))
    mark(folder, {}, "note;Ended")
    assert ended(["plan", "times.csv", *NOW, "marked.csv"], folder)[2] == (
        "pfs: marked.csv: cell E1: 'note' is no column of a schedule: those that say what has happened are begun and "
        "ended\n")


def test_a_finished_job_that_the_table_lacks_ended_early(folder: pathlib.Path) -> None:
    (folder / "times.csv").write_text(TABLE.replace("chair;250;400;0\n", ""))
    found, got = left(folder, {"chair;drill": ";08:00"})
    assert found == {"table": "0;200;0", "lamp": "0;30;0", "box": "30;90;20"} and "1 finished" in got
    assert "the table has no job 'chair'" in ended(["plan", "times.csv", *NOW, "monday.csv"], folder)[2]


def test_the_report_compares_the_ends(folder: pathlib.Path) -> None:
    """Chair is finished early, and so are the others. A job that is new, before box, isn't compared."""
    (folder / "times.csv").write_text(TABLE + "new;1;1;1\n")
    mark(folder, {"chair;drill": ";08:00", "table;drill": "8:05;"})
    words = ["plan", "times.csv", *NOW, "marked.csv", "--report"]
    assert ended(words, folder)[1].partition("paint  ")[2].endswith("""
job         planned end               end
chair  2026-12-01 08:50  2026-12-01 08:00
table  2026-12-01 12:10  2026-12-01 11:25
lamp   2026-12-01 12:40  2026-12-01 11:55
box    2026-12-02 06:30  2026-12-01 13:46
""")
    assert "planned end" not in ended(["plan", "times.csv", *NOW, "order", "--report"], folder)[1]
