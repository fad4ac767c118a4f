"""Tables of times: what is read, and that nothing is read as another plan."""
import csv
import io
import pathlib
import pickle
import sys
from typing import Any

import pfs
import pytest
from hypothesis import given
from hypothesis import strategies as st
from pfs.files import tables as _tables
from pfs.plan.orders import order_in
from support.plainly import written

MISSING = "the time is missing: write 0 where a job skips a machine (it still waits there for its turn)"
SAVE_AS = "save it as CSV UTF-8 (Excel), or as CSV with the character set Unicode (UTF-8) (LibreOffice)"
TITLE = "the machine has no name: name it, or if the row is a title, leave out all but its first cell"
NO_MACHINE = "leave the column out if it is no machine, or say which columns are machines (`machines`)"
NAMED_ROW = "the row {!r} looks like a sum or a mean: leave it out, or allow totals (`allow_totals`)"
NAMED_COLUMN = "the column {!r} looks like a sum, a mean or a quantity: leave it out, or allow totals (`allow_totals`)"
ROW_OF_SUMS = "the row '{}' has the sums of the rows above: leave it out, or allow totals (`allow_totals`)"
COLUMN_OF_SUMS = "the column '{}' has the sums of the columns before: leave it out, or allow totals (`allow_totals`)"
UNITS = "the times of '{}' are in {}, and others are in {}: use one unit"
ADD = "were missing: add it, or write `job` into the first cell of the table"
GROUPED = ("'{}' may be {}, or have decimals: leave out thousands separators, or say which decimal sign the table has "
           "(`decimal`)")
NO_NAME = "the machine has no name"
NO_ROW = f"the names of the machines are numbers, as if the row of names {ADD}"
NO_COLUMN = f"the names of the jobs are numbers, as if the column of names {ADD}"
ROUND = "round it, or say how many decimals to keep (`decimals`)"
# Ways to write one table.
TABLES = [
    "job,saw,drill\ntable,3,2\nchair,2,5\n", "job;saw;drill\ntable;3;2\nchair;2;5\n",
    '\n job , "saw",drill\r\n\r\n"table",3, 2 \r\n,,\r\nchair,2,5\r\n', "\ufeffjob,saw,drill\ntable,3,2\nchair,2,5",
    '\ufeff"job, [h]x",saw,drill\ntable,3,2\nchair,2,5', "\ufeffsep=;\njob;saw;drill\ntable;3;2\nchair;2;5\n",
    "sep=;\njob;saw;drill\ntable;3;2\nchair;2;5\n", "job,saw,drill\ntable,3.0,2.00\nchair,2,5\n"]
# And as Excel saves "Unicode text".
FILES = [*map(str.encode, TABLES), *("\ufeffjob\tsaw\tdrill\r\ntable\t3\t2\r\nchair\t2\t5\r\n".encode(encoding)
                                    for encoding in ("utf-16-le", "utf-16-be"))]

# A table, and where and why it is rejected.
BAD_TABLES: dict[str, tuple[str | bytes, int, int, str]] = {
    "nothing": ("", 1, 0, "the table is empty"),
    "one line": ("job,saw\n", 1, 0, "0 jobs: there may be 1 to 5,000"),
    "no machine": ("job\na\n", 1, 0, "0 machines: there may be 1 to 200"),
    "many machines": ("job" + "".join(f",m{at}" for at in range(201)) + "\na" + ",1" * 201, 1, 0,
                      "201 machines: there may be 1 to 200"),
    "many jobs": ("job,saw\n" + "".join(f"j{at},1\n" for at in range(5001)), 5002, 0,
                  "5001 jobs: there may be 1 to 5,000"),
    "no name": ("job,saw\n,3\n", 2, 1, "the job has no name"),
    "no name of a machine": ("job,saw,\na,3,4\n", 1, 3, TITLE),
    "a job twice": ("job,saw\na,3\nb,2\na,4\n", 4, 1, "the job 'a' is in A2 too"),
    "a machine twice": ("job,saw,saw\na,3,4\n", 1, 3, "the machine 'saw' is in B1 too"),
    "a word": ("job,saw\n\na,x\n", 3, 2, f"'x' isn't a time: {NO_MACHINE}"),
    "a date": ("job,saw\na,4.12.2026\nb,5.12.\n", 2, 2,
               f"'4.12.2026' isn't a time: {NO_MACHINE} (and 1 more cell of the column)"),
    "a digit of another script": ("job,saw\na,\u0663\n", 2, 2, "'\u0663' isn't a time"),
    "no time": ("job,saw,drill\na,3,\n", 2, 3, MISSING),
    "a short row": ("job,saw,drill\na,3\n", 2, 3, MISSING),
    "a note below": ("job,saw,drill\na,3,2\nMade by Ann\n", 3, 1,
                     "the row has no times: leave it out if it is no job, or write 0 where the job skips a machine"),
    "a long row": ("job,saw\na,3,4\n", 1, 3, TITLE),
    "a decimal comma": ('job,saw\na,"3,5"\n', 2, 2, "'3,5' isn't a time"),
    "ten decimals": ("job,saw\na,0.0123456789\n", 2, 2, f"'0.0123456789' has more than 9 decimals: {ROUND}"),
    "a time too long with decimals": ("job,saw\na,1000000000\nb,0.0001\nc,0.0003\n", 3, 2, "'0.0001' has 4 decimals, "
                                      f"in which the time in B2 is above 1,000,000,000: {ROUND}"),
    "a fault after cells of many lines": ('"job\n\n",saw\n\n"a\r\nb",3\r\n"c\n",3\nd,-1\n', 5, 2, "'-1' isn't a time"),
    "a fault after a spreadsheet's first line": ("sep=;\njob;saw\na;-1\n", 2, 2, "'-1' isn't a time"),
    "a name twice after a cell of two lines": ('job,saw\n"a\nb",3\nc,1\nc,1\n', 4, 1, "the job 'c' is in A3 too"),
    "an open quote": ('job,saw\na,"3\nb,4\nc,5\n', 4, 0, "isn't a row of a table: unexpected end of data"),
}
BAD_TABLES |= {f"the time {cell}": (f"job,saw\na,{cell}\n", 2, 2, "the time is above 1,000,000,000")
               for cell in ("1000000001", "1000000000.1", "1" + "0" * 10)}
BAD_TABLES |= {
    "an older workbook": (b"\xd0\xcf\x11\xe0\xa1\xb1\x1a\xe1", 1, 0,
                          f"is a spreadsheet's own file: {SAVE_AS}, or as .xlsx"),
    "bytes that begin like those of one": (b"\xd0\xcf\x11,saw\na,3\n", 1, 0, f"isn't text in UTF-8: {SAVE_AS}"),
    "another encoding": (b"job,saw\nb\xe4r,3\n", 2, 0, f"isn't text in UTF-8: {SAVE_AS}"),
    "a byte of no letter": (b"job,saw\nb\x81r,3\n", 2, 0, f"isn't text in UTF-8: {SAVE_AS}")}
# Tables that would be read as another plan, and where and why they are rejected; perhaps with options.

WRONG_TABLES: dict[str, tuple[Any, ...]] = {
    "thousands with points": ("job;saw;drill\na;1.000;2.500\n", 2, 2, GROUPED.format("1.000", "1000")),
    "thousands with commas": ("job\tsaw\na\t7\nb\t12,345\n", 3, 2, GROUPED.format("12,345", "12345")),
    "a million": ("job;saw\na;1.000.000\n", 2, 2, GROUPED.format("1.000.000", "1000000")),
    "both signs": ("job;saw;drill\na;1.500;2,5\n", 2, 2,
                   "'1.500' has another decimal sign than '2,5' in C2"),
    "both signs in another order": ("job;saw\na;1.5\nb;2,25\n", 3, 2,
                                    "'2,25' has another decimal sign than '1.5' in B2"),
    "a row of sums": ("job;saw;drill\na;1;2\nb;3;4\nc;4;6\n", 4, 1, ROW_OF_SUMS.format("c")),
    "the total of one job": ("job;saw\na;3\nSumme:;3\n", 3, 1, NAMED_ROW.format("Summe:")),
    "a subtotal in the middle": ("job;saw\na;1\nZwischensumme;2\nb;5\n", 3, 1, NAMED_ROW.format("Zwischensumme")),
    "a quantity with a unit": ("job,Qty (pcs),saw\na,10,5\n", 1, 2, NAMED_COLUMN.format("Qty (pcs)")),
    "a column of sums": ("job;saw;drill;all\na;1;2;3\nb;3;4;7\n", 1, 4, COLUMN_OF_SUMS.format("all")),
    "a total of one machine": ("job;saw;Total\na;3;3\n", 1, 3, NAMED_COLUMN.format("Total")),
    "another table below": ("job;saw\na;3\n\njob;drill;paint\nb;3;4\n", 1, 3, TITLE),
    "no row of names": ("a;3;12\nb;20;5\n", 1, 2, NO_ROW),
    "no column of names": ("saw;drill\n3;12\n20;5\n", 2, 1, NO_COLUMN),
    "no names of both": ("3,2\n1.5,4\n", 1, 2, NO_ROW),
    "no row of names above hours": ("a;3:00;1:12\nb;0:20;5:00\n", 1, 2, NO_ROW),
    "no row of names, and a job in brackets": ("chair (red);1;2\nb;20;5\n", 1, 2, NO_ROW),
    "minutes and seconds": ("job [min];saw\na;1:30\n", 1, 1, "times such as 1:30 may be hours and minutes, or minutes "
                            "and seconds: write [h:mm] instead of min, or numbers"),
    "hours, minutes and seconds beside others": (
        "job;saw\na;1:30\nb;1:30:10\n", 3, 2,
        "'1:30:10' isn't hours and minutes, as other times of the table are: leave out the seconds"),
    "two units": ("job;saw [min];drill [h]\na;3;2\n", 1, 3, UNITS.format("drill", "h", "min")),
    "minutes beside hours and minutes": ("job [h:mm];saw [min]\na;1:30\n", 1, 2, UNITS.format("saw", "min", "h:mm")),
    "a machine without a unit": ("job;saw [min];drill\na;3;2\n", 1, 3,
                               UNITS.format("drill", "no unit", "min")),
    "another unit than the table's": ("job [h];saw;drill [min]\na;3;2\n", 1, 3,
                                   UNITS.format("drill", "min", "h")),
    "a table turned round": ("Maschine [min];A;B\nsaw;1;2\ndrill;3;4\n", 1, 1, "'Maschine [min]' says that the rows "
                             "are machines, but a row is a job: turn the table round, or write `job` here"),
    "machines without names": ("job;;\na;1;2\nb;3;4\n", 1, 2, NO_NAME),
    "a machine without a name": ("job [h];\na;1\nb;5\n", 1, 2, NO_NAME),
    "a title, and no machines": ("Plan;;\na;1;2\nb;3;4\n", 2, 2, NO_ROW),
    "hours beside numbers": ("job;saw\na;1:30\nb;2\n", 3, 2,
                             "'2' isn't hours and minutes, as other times of the table are"),
    "no time among hours": ("job;saw;drill\na;1:30;2:00\nb;1:00;\n", 3, 3, MISSING),
    "a column without a name": ("job,saw,\na,1,x\n", 1, 0, "no column is named ' ': this row has saw (`machines`)",
                                {"machines": [" "]}),
    "no names": ("job\na\n", 1, 0, "no column is named 'x': this row has no other names (`machines`)",
                 {"machines": ["x"]}),
    "61 minutes": ("job;saw\na;1:30\nb;1:61\n", 3, 2,
                   "'1:61' isn't hours and minutes, as other times of the table are"),
    "numbers in hours and minutes": ("job [h:mm];saw\na;0\nb;2,5\n", 3, 2,
                                     "'2,5' isn't hours and minutes, as the unit says"),
    "hours in seconds": ("job [s];saw\na;1:30\n", 1, 1, "times such as 1:30 are hours and minutes, not s"),
}
WRONG_TABLES |= {f"{head} in s": (f"{head}\na;3;2\n", 1, column, why, {"unit": "s"}) for head, column, why in [
    ("job [min];saw;drill", 1, "the times are in min, and `unit` is s: use one unit"),
    ("job;saw;drill [h]", 3, "the times of 'drill' are in h, and `unit` is s: use one unit")]}
WRONG_TABLES |= {f"{cell} with {decimal}": (f"job;saw\na;{cell}\n", 2, 2, f"{cell!r} isn't a time{hint}",
                                            {"decimal": decimal}) for decimal, cell, hint in [
    (",", "1.5", ""), (".", "1,5", ""), (",", "12.3456", ""), (".", "1,0000.5", ""), (".", "1234,567", ""),
    (",", "1.000.00", f": {NO_MACHINE}"), (",", "0.500", ""),
    (",", "0.125.000", f": {NO_MACHINE}"), (",", "00.500", "")]}
# Tables that look a little like the ones above and are right: what makes them so, and their times.

RIGHT_TABLES = {
    "a name that begins like an archive": ("PK\x03;saw\na;3\n", [[3]]),
    "a semicolon in half of the lines": ('job,saw\n"a;b",3\n', [[3]]),
    "three decimals": ("job;saw;drill\na;0,125;2\nb;1,5;1,125\n", [[125, 2000], [1500, 1125]]),
    "a fraction of one": ("job;saw\na;0.125\n", [[125]]),
    "points between commas": ("job,saw\na,1.000\nb,2.500\n", [[10], [25]]),
    "two equal machines": ("job;saw;drill\na;2;2\nb;3;3\n", [[2, 2], [3, 3]]),
    "two equal jobs": ("job;saw;drill\na;2;3\nb;2;3\n", [[2, 3], [2, 3]]),
    "one machine": ("job;saw\na;1\nb;2\nc;3\n", [[1], [2], [3]]),
    "one job": ("job;saw;drill;paint\na;1;2;3\n", [[1, 2, 3]]),
    "no work": ("job;saw;drill;paint\na;0;0;0\nb;0;0;0\nc;0;0;0\n", [[0, 0, 0]] * 3),
    "names that begin like a total": ("job;saw;Summer\nQty;1;2\nMeanest;3;4\nTotally;4;7\n", [[1, 2], [3, 4], [4, 7]]),
    "numbers of orders in the US": ("Work order #,saw,drill\n4711,3,12\n4713,20,5\n", [[3, 12], [20, 5]]),
    "a date beside the title": ("Plan;;30.11.2026\nAuftrag;saw;drill\na;3;2\n", [[3, 2]]),
    "a title above some machines": ("Week;;minutes;;\nOF;saw;drill;paint\na;3;2;1\n", [[3, 2, 1]]),
    "an empty second column": ("job;;saw\na;;3\n", [[3]]),
    "empty columns": ("job;saw;;drill;\na;3;;2;\n", [[3, 2]]),
    "hours and minutes without work": ("job;saw;drill\na;1:30;0\nb;0:05:00;0,0\nc;0;0\n", [[90, 0], [5, 0], [0, 0]]),
    "counted jobs and machines below a unit": ("times [Min];1;2\n1;3;12\n2;20;5\n", [[3, 12], [20, 5]]),
    "a unit in two languages": ("job [min];saw [Minuten];drill [MIN]\na;3;12\n", [[3, 12]]),
    "an empty first cell": (";101;102\na;3;12\n", [[3, 12]]),
    "brackets that are no unit": ("job;drill (left);drill (right)\na;3;12\n", [[3, 12]]),
    "tabs": ("job\tsaw\tdrill\na\t3\t1,5\n", [[30, 15]]),
    "empty columns at the right": ("job;saw;;\na;3;;\nb;2\n;;;\n", [[3], [2]]),
    "a title above numbered machines": ("Plan\njob;1;2\na;3;2\nb;1;4\n", [[3, 2], [1, 4]]),
    "titles": ("Plan, week 48\nof the workshop;;\njob;saw;drill\na;3;2\nb;1;4\n", [[3, 2], [1, 4]]),
}


@pytest.mark.parametrize("content", FILES)
def test_tables(tmp_path: pathlib.Path, content: bytes) -> None:
    (tmp_path / "plan.csv").write_bytes(content)
    shop = pfs.read_csv(tmp_path / "plan.csv")
    assert shop.times.tolist() == [[3, 2], [2, 5]]
    assert (shop.job_names, shop.machine_names) == (("table", "chair"), ("saw", "drill"))
    assert (shop.name, shop.unit, shop.decimals) == ("plan.csv", "", 0)


@pytest.mark.parametrize("case", RIGHT_TABLES)
def test_tables_that_look_wrong_and_are_right(tmp_path: pathlib.Path, case: str) -> None:
    text, times = RIGHT_TABLES[case]
    shop = pfs.read_csv(written(tmp_path, text))
    assert shop.times.tolist() == times and (shop.unit == "h:mm") == (":" in text)


@pytest.mark.parametrize(("head", "given_unit", "unit"), [
    ("job [min];saw;drill", "", "min"), ("times ( h );saw;drill", "", "h"), ("job;saw;drill", "s", "s"),
    ("job [min];saw;drill", "Minuten", "Minuten"), ("job (week 48);saw;drill", "s", "s"),
    ("[min] job;saw;drill", "", ""), ("job [Std.];saw;drill", "", "Std."),
    ("job (Zeit in h);saw;drill", "", "Zeit in h"), ("job;saw [min];drill (min)", "", "min"),
    ("job;saw [min];drill (Min.)", "", "min"), ("job [min];saw [min];drill", "", "min"),
    ("job;saw;drill [min]", "min", "min")])
def test_units_and_decimals(tmp_path: pathlib.Path, head: str, given_unit: str, unit: str) -> None:
    path = written(tmp_path, f"{head}\ntable;3,25;2\nchair;0,5;5\n")
    shop = pfs.read_csv(path, unit=given_unit)
    assert (shop.unit, shop.decimals, shop.times.tolist()) == (unit, 2, [[325, 200], [50, 500]])
    assert shop.machine_names == ("saw", "drill")


def test_hours_and_minutes_are_minutes(tmp_path: pathlib.Path) -> None:
    for head in ("job", "job [h]", "job [h:mm]", "job [HH:MM]", "job [Std]"):
        shop = pfs.read_csv(written(tmp_path, f"{head};saw\na;100:59\n"))
        assert (shop.times.tolist(), shop.unit, shop.decimals) == ([[6059]], "h:mm", 0)
        assert str(shop.schedule([0]).to_csv()).endswith("saw,0:00,100:59\n"), "as the table has them"


@pytest.mark.parametrize(("decimal", "cells", "times"), [
    (".", ["1.000", "2.5"], [10, 25]), (",", ["1.000", "2.500"], [1000, 2500]), (",", ["1,000", "2"], [1, 2]),
    (".", ["1,000", "12,345.5"], [10000, 123455]), (",", ["1.234.567,25", "0"], [123456725, 0])])
def test_a_decimal_sign_that_is_given(tmp_path: pathlib.Path, decimal: str, cells: list[str],
                                      times: list[int]) -> None:
    """The other sign groups thousands."""
    for delimiter in ";\t,":
        quoted = [f'"{cell}"' for cell in cells]
        path = written(tmp_path, f"job{delimiter}saw{delimiter}drill\na{delimiter}{delimiter.join(quoted)}\n")
        assert pfs.read_csv(path, decimal=decimal).times.tolist() == [times]


@pytest.mark.parametrize("case", ["a row of sums", "a column of sums", "the total of one job", "a total of one machine",
                                  "a quantity with a unit"])
def test_totals_that_are_allowed(tmp_path: pathlib.Path, case: str) -> None:
    shop = pfs.read_csv(written(tmp_path, WRONG_TABLES[case][0]), allow_totals=True)
    assert shop.jobs == WRONG_TABLES[case][0].count("\n") - 1


# How many more faults these tables have.
MORE = {"thousands with points": 1, "another table below": 2, "no names of both": 1}


@pytest.mark.parametrize("case", [*BAD_TABLES, *WRONG_TABLES])
def test_tables_that_are_rejected(tmp_path: pathlib.Path, case: str) -> None:
    cases: dict[str, tuple[Any, ...]] = {**BAD_TABLES, **WRONG_TABLES}
    text, line, column, why, *words = cases[case]
    (tmp_path / "file").write_bytes(text if isinstance(text, bytes) else text.encode())
    with pytest.raises(pfs.TableFault) as fault:
        pfs.read_csv(tmp_path / "file", **dict(*words))
    assert (fault.value.line, fault.value.column, fault.value.text) == (line, column, why)
    assert (fault.value.name, fault.value.number, fault.value.place) == ("table", 0, line)
    assert bool(fault.value.head) == (line > 1 and column > 1 and case != "a title, and no machines")
    assert len(fault.value.others) == MORE.get(case, 0)
    place = f"cell {'ABCDE'[column - 1]}{line}{f', column {fault.value.head!r}' if fault.value.head else ''}: "
    assert str(fault.value).split("\n")[0] == f"{tmp_path / 'file'}: {place if column else f'line {line}, '}{why}"
    assert pickle.loads(pickle.dumps(fault.value)).text == why


@pytest.mark.parametrize(("cell", "time", "decimals"), [
    ("1000000000", 1_000_000_000, 0), ("0", 0, 0), ("1.000000000", 1, 0), ("0.999999999", 999_999_999, 9),
    ("1.00000001", 100_000_001, 8), ("00000000007", 7, 0), ("99999999.9", 999_999_999, 1)])
def test_the_least_and_the_longest_times_of_tables(tmp_path: pathlib.Path, cell: str, time: int,
                                                   decimals: int) -> None:
    shop = pfs.read_csv(written(tmp_path, f"job,saw\na,{cell}\n"))
    assert (shop.times.tolist(), shop.decimals) == ([[time]], decimals)
    with pytest.raises(ValueError, match="decimal must be '.' or ',', not 'comma'"):
        pfs.read_csv(tmp_path / "file", decimal="comma")


@pytest.mark.parametrize(("cells", "decimals", "times", "kept"), [
    (["0.833333333", "1"], 9, [833333333, 10**9], 9), (["0.833333333", "1"], 2, [83, 100], 2),
    (["0.4996", "1.25"], 2, [50, 125], 2), (["0.4996", "1.5"], 2, [5, 15], 1), (["0.5", "1.4999999999"], 0, [1, 1], 0),
    (["0.12345678901234567890", "0.99999999995"], 9, [123456789, 10**9], 9),
    (["7.05", "1000000000.4"], 0, [7, 10**9], 0)])
def test_decimals_that_are_rounded(tmp_path: pathlib.Path, cells: list[str], decimals: int, times: list[int],
                                   kept: int) -> None:
    """To the nearest one, and halves up."""
    shop = pfs.read_csv(written(tmp_path, f"job,saw,drill\na,{','.join(cells)}\n"), decimals=decimals)
    assert (shop.times.tolist(), shop.decimals) == ([times], kept)
    for wrong in (-1, 10):
        with pytest.raises(ValueError, match="decimals must be from 0 to 9"):
            pfs.read_csv(tmp_path / "file", decimals=wrong)


@pytest.mark.seconds(4)
def test_the_largest_tables(tmp_path: pathlib.Path) -> None:
    rows = ["job," + ",".join(f"m{at}" for at in range(200)), *(f"j{at}" + ",1" * 200 for at in range(5_000))]
    shop = pfs.read_csv(written(tmp_path, "\n".join(rows)))
    assert (shop.jobs, shop.machines) == (5_000, 200)


# A table as a shop has it, saved by Excel in Germany.
MESSY = """Wochenplan KW 49;;;Stand: 27.11.2026;;;;
Auftrag;Kunde;Menge;S\u00e4gen [min];Drehen [min];Fr\u00e4sen [min];Termin;Bemerkung
A-1001 Welle;Meyer;10;12,5;30;0;04.12.2026;
A-1002 Flansch;Schmidt;5;8;1.250,5;;05.12.2026;eilig
Summe;;15;20,5;1280,5;0;;
"""


def test_all_faults_of_a_table_are_reported_at_once(tmp_path: pathlib.Path) -> None:
    (tmp_path / "file").write_bytes(MESSY.encode("cp1252"))
    with pytest.raises(pfs.TableFault) as fault:
        pfs.read_csv(tmp_path / "file")
    faults = [fault.value, *fault.value.others]
    assert [(each.line, each.column, each.head) for each in faults] == [
        (2, 0, ""), (2, 3, ""), (2, 7, ""), (3, 2, "Kunde"), (4, 5, "Drehen [min]"), (4, 6, "Fr\u00e4sen [min]"),
        (4, 8, "Bemerkung"), (5, 1, "")]
    assert str(fault.value).split("\n")[3] == f"{tmp_path / 'file'}: cell B3, column 'Kunde': 'Meyer' isn't a time: " \
                                              f"{NO_MACHINE} (and 1 more cell of the column)"
    assert str(pickle.loads(pickle.dumps(fault.value))) == str(fault.value)
    for more in (0, 1):
        with pytest.raises(pfs.TableFault) as fault:
            pfs.read_csv(written(tmp_path, f"job{',m'.join(map(str, range(22 + more)))}\na{',-1' * (21 + more)}\n"))
        *lines, last = str(fault.value).split("\n")
        assert len(fault.value.others) == 20 + more == len(lines)
        assert last.endswith(": and 1 more" if more else "'-1' isn't a time")


def test_half_a_letter_of_utf_16_is_the_only_fault(tmp_path: pathlib.Path) -> None:
    """What would be read of the rest has no meaning. Neither has an order in another encoding."""
    (tmp_path / "file").write_bytes("\ufeffjob,saw\na,x\n".encode("utf-16-le") + b"j")
    with pytest.raises(pfs.TableFault, match="line 3, isn't text in UTF-8") as fault:
        pfs.read_csv(tmp_path / "file")
    assert fault.value.others == ()
    (tmp_path / "order").write_bytes(b"B\xe4r\n")
    with pytest.raises(pfs.TableFault, match="line 1, isn't text in UTF-8"):
        order_in(tmp_path / "order", pfs.Instance([[1]], job_names=["B\u00e4r"]))


def test_columns_that_are_machines(tmp_path: pathlib.Path) -> None:
    """They are found by their names in the first row that has all of them, and are machines in the given order."""
    path = written(tmp_path, MESSY.replace("1.250,5;;", "1.250,5;22;").replace("Summe", "A-1003"))
    shop = pfs.read_csv(path, machines=iter(["Fr\u00e4sen", " drehen"]), decimal=",")
    assert (shop.machine_names, shop.decimals) == (("Fr\u00e4sen", "Drehen"), 1)
    assert shop.times.tolist() == [[0, 300], [220, 12505], [0, 12805]]
    units = written(tmp_path, "job;saw [min];drill [min];qty\na;1;2;3\n", "units")
    assert pfs.read_csv(units, machines=["saw [min]", "drill"]).machine_names == ("saw", "drill")
    assert pfs.read_csv(units, machines=["qty"], unit="min").times.tolist() == [[3]], "it was chosen"
    same = written(tmp_path, "job;saw [min];Saw;SAW;drill (left);drill (right);Saw\na;1;2;3;4;5;6\n", "same")
    assert pfs.read_csv(same, machines=["SAW"]).times.tolist() == [[3]]
    for name, cells in (("saw", "BD"), ("Saw", "CG"), ("drill", "EF")):
        with pytest.raises(pfs.TableFault, match=f"cell {cells[1]}1: the machine '{name}' may be this column or "
                                                 f"{cells[0]}1: "):
            pfs.read_csv(same, machines=[name])
    with pytest.raises(pfs.TableFault) as fault:
        pfs.read_csv(path, machines=["Drehen", "Bohren"])
    assert (fault.value.line, fault.value.text) == (
        2, "no column is named 'Bohren': this row has Kunde, Menge, S\u00e4gen [min], Drehen [min], Fr\u00e4sen [min], "
        "Termin, Bemerkung (`machines`)")


def test_archives_that_are_no_workbooks(tmp_path: pathlib.Path) -> None:
    pytest.importorskip("openpyxl")
    (tmp_path / "file").write_bytes(b"PK\x03\x04\x14\0rest")
    with pytest.raises(pfs.TableFault, match="openpyxl reads .File is not a zip file.: save it as .xlsx or as CSV UTF"):
        pfs.read_csv(tmp_path / "file")


def test_workbooks_need_openpyxl(tmp_path: pathlib.Path, monkeypatch: pytest.MonkeyPatch) -> None:
    modules: Any = sys.modules
    monkeypatch.setitem(modules, "openpyxl", None)
    path = tmp_path / "plan.xlsx"
    path.write_bytes(b"PK\x03\x04")
    needed = r"needs openpyxl \(Debian: python3-openpyxl; pip install 'pfs\[workbooks\]'\)$"
    with pytest.raises(ImportError, match=needed):
        pfs.read_csv(path)
    with pytest.raises(ImportError, match=needed):
        pfs.Instance([[1]]).schedule([0]).to_xlsx(path)


@pytest.mark.parametrize("more", [0, 1])
@pytest.mark.parametrize(("line", "text"), [(3, 'job,"saw\n"\nchair,3{}\n'), (1, "job,saw{}\nchair,3\n")])
def test_a_row_may_have_as_many_cells_as_a_spreadsheet(tmp_path: pathlib.Path, more: int, line: int, text: str) -> None:
    path = written(tmp_path, text.format("," * (16_382 + more)))
    if more:
        with pytest.raises(pfs.TableFault, match=f"line {line}, the row has more than 16,384 cells"):
            pfs.read_csv(path)
    else:
        assert pfs.read_csv(path).times.tolist() == [[3]]


@given(st.text("ab,;\"\r\n", max_size=20))
def test_lines_of_a_text(text: str) -> None:
    """As Python's files have them, also the last one without an end."""
    assert [*_tables.lines_of(text)] == [*io.StringIO(text, newline="")]


@given(st.sampled_from(",;\t"), st.lists(st.tuples(*[st.text(",;\t\"\n =a", max_size=4)] * 2), min_size=1))
def test_the_delimiter_of_a_text(delimiter: str, rows: list[tuple[str, str]]) -> None:
    text = io.StringIO()
    csv.writer(text, delimiter=delimiter, quoting=csv.QUOTE_ALL).writerows(rows)
    assert _tables.delimiter_of(text.getvalue()) == delimiter
    assert _tables.delimiter_of(f"\nsep=| \r\n{text.getvalue()}") == "|"
