"""Workbooks of people: those that LibreOffice makes and opens, and those that would be read as another table."""
import datetime
import pathlib
import re
import resource
import warnings
import zipfile
from collections.abc import Sequence
from typing import Any
from unittest import mock

import pfs
import pytest
from pfs.base import workbooks as _workbooks
from pfs.plan.orders import order_in
from support.commands import ended
from support.needs import tool
from support.office import Office
from support.tools import output_of

openpyxl = pytest.importorskip("openpyxl")
pytestmark = pytest.mark.xdist_group("office")


def book_of(path: pathlib.Path, *rows: Sequence[object], title: str = "Sheet",
            **more: Sequence[Sequence[object]]) -> pathlib.Path:
    """A workbook with these rows on its first sheet, and more sheets with theirs."""
    book = openpyxl.Workbook()
    book.active.title = title
    for name, sheet in ((title, rows), *more.items()):
        for row in sheet:
            (book[name] if name in book.sheetnames else book.create_sheet(name)).append(row)
    book.save(path)
    return path


def fault_of(path: pathlib.Path, **words: Any) -> tuple[int, int, str]:
    with pytest.raises(pfs.TableFault) as fault:
        pfs.read_csv(path, **words)
    return fault.value.line, fault.value.column, fault.value.text


def test_workbooks_are_read_and_written(tmp_path: pathlib.Path) -> None:
    """Numbers have points, lengths of time are hours and minutes, and rows count as in the sheet."""
    rows: list[list[object]] = [["Week 49"], [], ["Job [h]", "saw", None, "drill"], ["a, 1", 1.1 + 2.2, None, 1250],
                                ["b\n2", 0.125, None, 0]]
    shop = pfs.read_csv(book_of(tmp_path / "numbers.xlsx", *rows))
    assert (shop.job_names, shop.machine_names, shop.unit) == (("a, 1", "b\n2"), ("saw", "drill"), "h")
    assert (shop.times.tolist(), shop.decimals) == ([[3300, 1250000], [125, 0]], 3)
    with pytest.raises(pfs.TableFault, match="cell D5, column 'drill': 'soon' isn't a time"):
        pfs.read_csv(book_of(tmp_path / "numbers.xlsx", *rows[:4], ["b", 1, None, "soon"]))
    shop = pfs.Instance([[15, 10]], job_names=["=1+1"], machine_names=["saw", "a\x1b"], unit="h", decimals=1)
    shop.schedule([0]).to_xlsx(tmp_path / "out.xlsx")
    sheet = openpyxl.load_workbook(tmp_path / "out.xlsx").active
    assert list(sheet.values) == [("job", "machine", "start", "end"), ("=1+1", "saw", 0, 1.5),
                                  ("=1+1", "a\\x1b", 1.5, 2.5)]
    assert sheet["A2"].data_type == "s"
    clock = pfs.Instance([[90]], unit="h:mm")
    clock.schedule([0]).to_xlsx(tmp_path / "out.xlsx")
    cell = openpyxl.load_workbook(tmp_path / "out.xlsx").active["D2"]
    assert (cell.value, cell.number_format) == (datetime.timedelta(minutes=90), "[h]:mm")


# Times in hours, most of which are made of minutes, and a row that is prepared for a job to come.
HOURS = (("job [h]", "saw", "drill"), ("table", 3.5, 0.75), ("chair", 1.5, "=50/60"), ("shelf", "=B2/3", 1.25),
         ('=IF(B9="","",B9)', '=IF(B9="","",B9)'))


def test_formulas_that_a_spreadsheet_computes(tmp_path: pathlib.Path, office: Office) -> None:
    """Without values they are rejected, and told what to do. Values of many decimals are rounded to the second."""
    path = book_of(tmp_path / "times.xlsx", *HOURS)
    assert fault_of(path) == (3, 3, "has a formula without a value (and 3 more): open the workbook in a spreadsheet "
                                    "and save it")
    path = office(path, "xlsx")
    shop = pfs.read_csv(path)
    assert (shop.times.tolist(), shop.decimals) == ([[35000, 7500], [15000, 8333], [11667, 12500]], 4)
    shop = pfs.read_csv(path, decimals=2)
    assert (shop.times.tolist(), shop.decimals) == ([[350, 75], [150, 83], [117, 125]], 2)
    status, _, got = ended(["plan", "times.xlsx"], path.parent)
    assert (status, got) == (0, "times.xlsx: 2 times of formulas rounded to 4 decimals, by 3.3e-05 at most (C3: "
                                "0.833333333)\n")
    status, printed, got = ended(["plan", "times.xlsx", "--decimals", "2"], path.parent)
    assert (status, got) == (0, "times.xlsx: 2 times rounded to 2 decimals, by 0.0033 at most (C3: 0.833333333)\n")


@pytest.mark.parametrize(("unit", "words", "times", "decimals"), [
    ("h", {}, [8333, 25000], 4), ("d", {}, [83333, 250_000], 5), ("min", {}, [83, 250], 2), ("s", {}, [83, 250], 2),
    ("h", {"decimals": 3}, [833, 2500], 3), ("pieces", {}, [833_333_333, 0], 9),
    ("h", {"quantity": "pcs"}, [833_333_333, 0], 9)])
def test_what_a_formula_computed_is_rounded_to_the_second(
        tmp_path: pathlib.Path, unit: str, words: dict[str, Any], times: list[int], decimals: int) -> None:
    """In units of time, and not the time of a piece. A number that was typed stays exact, and so does a short one."""
    last = 2.5 if times[1] else 0
    path = book_of(tmp_path / "typed.xlsx", (f"job [{unit}]", "pcs", "saw"), ("a", 1, 0.8333333333), ("b", 1, last))
    words = {"machines": ["saw"], **words}
    with zipfile.ZipFile(path) as book, zipfile.ZipFile(tmp_path / "times.xlsx", "w") as other:
        for name in book.namelist():
            other.writestr(name, re.sub(rb"<v>(0\.8333333333|2\.5)</v>", rb"<f>50/60</f><v>\1</v>", book.read(name)))
    shop = pfs.read_csv(tmp_path / "times.xlsx", **words)
    assert (shop.times[:, 0].tolist(), shop.decimals) == (times, decimals)
    typed = book_of(tmp_path / "typed.xlsx", (f"job [{unit}]", "pcs", "saw"), ("a", 1, 0.8333333333), ("b", 1, 0))
    if "decimals" not in words:
        assert pfs.read_csv(typed, **words).times.tolist() == [[833_333_333], [0]]


@pytest.mark.parametrize(("decimal", "cell", "times"), [
    (None, "2.5", [[1125, 2500], [2500, 750_000]]), (",", "2,5", [[1125, 2500], [2500, 750_000]]),
    (",", "1.500", [[1125, 2500], [1_500_000, 750_000]]), (".", "1.500", [[1125, 2500], [1500, 750_000]])])
def test_a_decimal_sign_is_that_of_texts(tmp_path: pathlib.Path, decimal: str | None, cell: str,
                                         times: list[list[int]]) -> None:
    """A number has none. A text that may have thousands needs one, and a name doesn't."""
    path = book_of(tmp_path / "times.xlsx", ("job", "saw", "drill"), ("1.500", 1.125, 2.5), ("chair", cell, 750))
    shop = pfs.read_csv(path, decimal=decimal)
    assert (shop.times.tolist(), shop.decimals) == (times, 3)
    if cell == "1.500":
        assert fault_of(path) == (3, 2, "'1.500' may be 1500, or have decimals: leave out thousands separators, or say "
                                        "which decimal sign the table has (`decimal`)")


def test_orders_of_workbooks(tmp_path: pathlib.Path) -> None:
    """They are read whole, and not with formulas without values."""
    shop = pfs.Instance([[1] * 3] * 4_000)
    shop.schedule(range(3_999, -1, -1)).to_xlsx(tmp_path / "plan.xlsx")
    assert order_in(tmp_path / "plan.xlsx", shop)[:2] == ([*range(3_999, -1, -1)], {})
    path = book_of(tmp_path / "order.xlsx", ("job",), ("2",), ("=A2",))
    with pytest.raises(pfs.TableFault, match="order.xlsx: cell A3: has a formula without a value"):
        order_in(path, shop)


def test_all_sheets_of_an_audit_have_the_limits_of_workbooks(tmp_path: pathlib.Path,
                                                             monkeypatch: pytest.MonkeyPatch) -> None:
    """A sheet that can't be read isn't left out."""
    shop = pfs.Instance([[3, 2], [2, 5], [4, 1]], name="small")
    path, head = tmp_path / "a.xlsx", ("instance", "makespan", "order")
    book_of(path, head, ("small", 10, "2 1 3"), more=[head, ("small", "=Sheet!B2", "2 1 3")])
    with pytest.raises(pfs.TableFault, match="a.xlsx, sheet more: cell B2: has a formula without a value"):
        pfs.audit(path, [shop])
    book_of(path, head, ("small", 10, "2 1 3"), a=[()], b=[()])
    monkeypatch.setattr(_workbooks, "MOST_CELLS", 300_000)
    rows = "".join(WIDE.format(number) for number in range(1, 11))
    changed(path, "sheet2.xml", NO_ROWS, f"<sheetData>{rows}</sheetData>")
    with pytest.warns(UserWarning, match="sheet 'a' is left out"):
        assert [each.valid for each in pfs.audit(path, [shop])] == [True]
    changed(path, "sheet3.xml", NO_ROWS, f"<sheetData>{rows}</sheetData>")
    with pytest.raises(pfs.TableFault, match="it has too many cells"):
        pfs.audit(path, [shop])


def changed(path: pathlib.Path, part: str, old: str, new: str) -> pathlib.Path:
    """Replaces a text in a part of a workbook."""
    with zipfile.ZipFile(path) as archive:
        parts = {name: archive.read(name).decode() for name in archive.namelist()}
    name = next(name for name in parts if name.endswith(part))
    parts[name], count = re.subn(old, lambda _: new, parts[name])
    assert count == 1
    with zipfile.ZipFile(path, "w", zipfile.ZIP_DEFLATED) as archive:
        for name, text in parts.items():
            archive.writestr(name, text)
    return path


def test_warnings_of_openpyxl_are_not_shown(tmp_path: pathlib.Path) -> None:
    """Of a list of choices."""
    path = book_of(tmp_path / "times.xlsx", ("job", "saw"), ("table", 3))
    ends = '<extLst><ext uri="{CCE6A557-97BC-4b89-ADB6-D9C93CAAB3DF}"/></extLst></worksheet>'
    changed(path, "sheet1.xml", "</worksheet>", ends)
    with warnings.catch_warnings():
        warnings.simplefilter("error")
        assert pfs.read_csv(path).times.tolist() == [[3]]


NO_ROWS, WIDE = "<sheetData.*</sheetData>|<sheetData ?/>", '<row r="{0}"><c r="XFD{0}"><v>1</v></c></row>'
# What a small workbook may have very many of.
LARGE = {
    "cells in the last column": ("sheet1.xml", NO_ROWS, WIDE, 4_000, "it has too many cells"),
    "rows": ("sheet1.xml", NO_ROWS, '<row r="1048577"><c><v>1</v></c></row>', 1, "it has too many cells"),
    "columns": ("sheet1.xml", "<sheetData", '<col min="1" max="16384" hidden="1"/>', 16_000, "it has too many cells"),
    "empty rows": ("sheet1.xml", NO_ROWS, "<row/>", 2_000_000, "it has too many cells"),
    "a comment": ("sheet1.xml", "</worksheet>", "<!--%s-->" % ("a" * 200_000_000), 1,
                  "its part xl/worksheets/sheet1.xml is too large"),
    "styles": ("styles.xml", "</cellXfs>", "<xf/>", 400_000, "its part xl/styles.xml is too large")}


@pytest.mark.parametrize("case", LARGE)
def test_small_workbooks_with_large_parts(tmp_path: pathlib.Path, case: str, untraced: None) -> None:
    """They take neither much time nor much memory."""
    part, old, text, count, why = LARGE[case]
    new = "".join(text.format(number) for number in range(1, count + 1))
    new = f"<sheetData>{new}</sheetData>" if "sheetData" in old else f"{new}{old}"
    path = changed(book_of(tmp_path / "times.xlsx"), part, old, new)
    before, begun = (resource.getrusage(resource.RUSAGE_SELF) for _ in range(2))
    assert fault_of(path)[2] == f"isn't a workbook that openpyxl reads ({why}): save it as .xlsx or as CSV UTF-8"
    after = resource.getrusage(resource.RUSAGE_SELF)
    assert after.ru_utime - begun.ru_utime < 8 and after.ru_maxrss - before.ru_maxrss < 120_000


@pytest.mark.parametrize(("value", "text"), [
    (7, "7"), (2.0, "2"), (0.1 + 0.2, "0.3"), (1250.0, "1250"), (0.0000000006, "0.000000001"), ("a ", "a "),
    (datetime.time(1, 30), "1:30"), (datetime.time(0, 0, 30), "0:00:30"), (datetime.timedelta(hours=30), "30:00"),
    (datetime.timedelta(seconds=3689.6), "1:01:30"), *((datetime.datetime.fromisoformat(day), text) for day, text in (
        ("1900-01-01 01:30", "25:30"), ("1900-02-27", "1392:00"), ("1900-03-01", "1464:00"), ("1900-12-31", "8784:00"),
        ("1900-02-28 06:00", "1900-02-28 06:00:00"), ("1901-01-01", "1901-01-01 00:00:00")))])
def test_the_text_of_a_cell(value: object, text: str) -> None:
    """Of a date as a number of hours the days count as in Excel, whose year 1900 has a February 29. For openpyxl this
    is February 28 too."""
    assert _workbooks.text_in(value) == text


def test_the_rows_of_a_sheet(tmp_path: pathlib.Path, monkeypatch: pytest.MonkeyPatch) -> None:
    """Up to the second one that isn't empty, with what looks like a number, and what of it is hidden."""
    monkeypatch.setattr(_workbooks, "MOST_CELLS", 12)
    book = _workbooks.Workbook(book_of(tmp_path / "a.xlsx", ("job",)).read_bytes(), "a.xlsx")
    rows = [("a", 1.5, None, 2), (None,) * 4, (None, "1.000.5 ", 3.0, None), ("1,2", "x")]
    sheet = mock.Mock(iter_rows=lambda values_only: rows)
    text = book.text_of_rows(sheet, 2, {1, 2, 3, 4}, {1, 4, 5})
    assert (text, book.texts, book.hidden) == ("sep=,\na,1.5,,2\r\n\r\n,1.000.5 ,3\r\n", {(3, 2)}, [2, 2])
    with pytest.raises(ValueError, match="^it has too many cells$"):
        book.text_of_rows(sheet, 2, {1, 2, 3, 4}, {1, 4, 5})
    monkeypatch.setattr(_workbooks, "check_parts", mock.Mock(side_effect=MemoryError))
    with pytest.raises(MemoryError):
        pfs.read_csv(tmp_path / "a.xlsx")


SHEET = b"""<s xmlns="n"><cols><col min="2" max="3" hidden="1"/><col min="9" max="16390" hidden="true"/><col min="5"
max="5"/><col max="1" hidden="1"/><col min="7" hidden="1"/></cols><row hidden="1"><c r="B1"><f/></c><c><f>1</f><v></v>
</c><c r="C1"><f/><v>0</v></c></row><row r="4" hidden="true"><c r="D1" t="str"><f/></c><c r="E1"><v/></c></row>
<row r="5" hidden="0"/></s>"""


def test_what_openpyxl_does_not_say_of_a_sheet() -> None:
    rows, columns = _workbooks.hidden_in(SHEET)
    assert rows - {0} == {4} and columns == {1, 2, 3, *range(9, 16_385)}
    assert [*_workbooks.formulas_in(SHEET)] == [("B1", None), ("A1", None), ("C1", "0"), ("D1", "")]


def test_rows_after_the_last_one_of_a_table_are_not_read(tmp_path: pathlib.Path,
                                                         monkeypatch: pytest.MonkeyPatch) -> None:
    path = book_of(tmp_path / "times.xlsx", *([f"j{at}", 1] for at in range(10_050)))
    monkeypatch.setattr(_workbooks, "text_in", text_in := mock.Mock(side_effect=str))
    assert fault_of(path) == (10_002, 0, "the table has more than 10,000 rows")
    assert text_in.call_count == 2 * 10_002


def test_a_schedule_is_shown_whole(tmp_path: pathlib.Path, office: Office) -> None:
    """Dates have room, also where the names of machines are no names of sheets. Printed, each machine has a page."""
    names = ["S\u00e4ge", "schedule", "Fr\u00e4sen/Bohren: 2", "a" * 40, "A" * 40]
    shop = pfs.Instance([[90, 60, 30, 5, 5], [0, 45, 120, 5, 5]], job_names=["A-1001 Welle", "A-1002"], unit="min",
                        machine_names=names)
    path = tmp_path / "plan.xlsx"
    shop.schedule([1, 0]).to_xlsx(path, calendar=pfs.Calendar("2026-11-30T06:00", shifts="06:00-14:00"))
    book = openpyxl.load_workbook(path)
    assert book.sheetnames == ["schedule", "machines", "jobs", "S\u00e4ge", "schedule (2)", "Fr\u00e4sen-Bohren- 2",
                               "a" * 31, "A" * 27 + " (2)"]
    assert [list(row)[:2] for row in book["S\u00e4ge"].values] == [["place", "job"], [1, "A-1001 Welle"]]
    assert [row[1] for row in book["schedule (2)"].values] == ["job", "A-1002", "A-1001 Welle"]
    assert [book["schedule"].column_dimensions[column].width for column in "ABCD"] == [15, 40, 19, 19]
    assert all((sheet.freeze_panes, sheet.auto_filter.ref, sheet.print_title_rows, sheet.page_setup.fitToHeight,
                sheet.sheet_properties.pageSetUpPr.fitToPage, sheet.oddHeader.center.text) == (
                    "A2", sheet.dimensions, "1:1", 0, True, "&A") for sheet in book)
    fonts = [[(cell.font.name, cell.font.sz, cell.font.b) for cell in row] for row in book["jobs"]["A1:C2"]]
    assert fonts == [[("Calibri", 11, is_bold)] * 3 for is_bold in (True, False)]
    text = output_of([tool("pdftotext"), "-layout", office(path, "pdf"), "-"], tmp_path)
    assert "###" not in text and text.count("\f") == 8
    assert re.findall(r"^ *1 +A-1001 Welle +(2026-11-30 06:00) +(2026-11-30 07:30)$", text, re.MULTILINE)


def test_a_schedule_shows_seconds_where_there_are_some(tmp_path: pathlib.Path) -> None:
    schedule = pfs.Instance([[90], [30]], unit="s").schedule([0, 1])
    schedule.to_xlsx(tmp_path / "plan.xlsx", calendar=pfs.Calendar("2026-11-30T06:00"))
    cells = [row[2:] for row in openpyxl.load_workbook(tmp_path / "plan.xlsx")["schedule"].iter_rows(2)]
    assert [(cell.value.second, cell.number_format) for row in cells for cell in row] == [
        (0, "yyyy-mm-dd hh:mm"), (30, "yyyy-mm-dd hh:mm:ss"), (30, "yyyy-mm-dd hh:mm:ss"), (0, "yyyy-mm-dd hh:mm")]


def test_all_schedules_are_written(tmp_path: pathlib.Path) -> None:
    book_of(tmp_path / "times.xlsx", ("job", "saw", "drill"), ("table", 3, 1), ("chair", 1, 2))
    words = ["plan", "times.xlsx", *(f"--schedule={name}" for name in ("a.xlsx", "b.csv", "\udce4.csv"))]
    status, printed, got = ended(words, tmp_path)
    assert (status, got) == (0, "")
    assert (tmp_path / "b.csv").read_bytes() == (tmp_path / "\udce4.csv").read_bytes()
    assert ended(["plan", "times.xlsx", "--order", "a.xlsx"], tmp_path) == (0, printed, "")
