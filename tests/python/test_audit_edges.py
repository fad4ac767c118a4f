"""Audits of tables as people have them: workbooks, forms of orders, rows that can't be audited, and causes of wrong
makespans. Expected makespans are those of the second program of the tests."""
import io
import itertools
import pathlib
import random
import re
from collections.abc import Callable
from typing import Any

import numpy as np
import pandas
import pfs
import pytest
from pfs.audits.causes import Causes, Stated
from pfs.plan.orders import order_in
from pfs.experiments import ExperimentError
from pfs.experiments.one import order_of
from support import plainly
from support.tools import csv_rows
from test_audit import SMALL, makespan, rows_of, run

HEAD = ["instance", "method", "makespan", "order"]


def book_of(path: pathlib.Path, **sheets: list[list[Any]]) -> None:
    """Write a workbook with these sheets, which opens with the last one."""
    book = pytest.importorskip("openpyxl").Workbook()
    book.remove(book.active)
    for name, rows in sheets.items():
        sheet = book.create_sheet(name)
        for row in rows:
            sheet.append(row)
    book.active = len(sheets) - 1
    book.save(path)


# Workbooks

def test_all_sheets_that_are_tables(tmp_path: pathlib.Path, monkeypatch: pytest.MonkeyPatch,
                                    capsys: pytest.CaptureFixture[str]) -> None:
    """The first job of a method may differ from sheet to sheet."""
    monkeypatch.chdir(tmp_path)
    order, from_0 = (" ".join(map(str, range(first, first + 20))) for first in (1, 0))
    book_of(tmp_path / "a.xlsx", first=[HEAD, ["ta001", "IG", 1448, order], ["ta001", "HGA", "1.448", order]],
            notes=[["some words"]], second=[HEAD[:3], ["ta001", "IG", 1448]],
            Third=[HEAD, [], ["Ta1", "IG", 1200, from_0]], empty=[], heads=[HEAD])
    assert run("a.xlsx --csv out.csv") == 1
    *printed, last = capsys.readouterr().out.splitlines()
    assert printed[0] == "sheet first, line 3, ta001 HGA: unclear: cell C3: '1.448' isn't a makespan: a whole number"
    assert printed[1].startswith("sheet Third, line 3, Ta1 IG: wrong makespan: states 1200, takes 1448; no order takes")
    assert [line.partition(": ")[0] for line in printed[2:]] == [
        f"the sheet '{name}' is left out" for name in ("notes", "second", "empty", "heads")]
    assert "but 'some words'" in printed[2] and "no column order" in printed[3] and "is empty" in printed[4]
    assert "only its first line" in printed[5]
    assert last == "a.xlsx: 2 orders audited, 1 valid (0 optimal), 1 wrong; 1 row is unclear, and not audited"
    assert [row["sheet"] for row in csv_rows(tmp_path / "out.csv")] == ["first", "first", "Third"]
    with pytest.warns(UserWarning) as warned:
        found = pfs.audit("a.xlsx")
    assert [str(each.message) for each in warned] == printed[2:]
    assert [(each.sheet, each.row, each.valid) for each in found] == [
        ("first", 2, True), ("first", 3, False), ("Third", 3, False)]
    with pytest.raises(pfs.TableFault, match="a.xlsx, sheet first: cell C3: '1.448' isn't"):
        pfs.audit("a.xlsx", strict=True)
    book_of(tmp_path / "none.xlsx", notes=[["some words"]], empty=[])
    with pytest.raises(pfs.TableFault, match="no sheet is a table of orders: the sheet 'notes' .*; the sheet 'empty'"):
        pfs.audit("none.xlsx")


def test_which_sheet_is_read(tmp_path: pathlib.Path) -> None:
    times: list[list[Any]] = [["job [min]", "saw", "drill"], ["table", 3, 2], ["chair", 2, 5]]
    book_of(tmp_path / "a.xlsx", old=[*times, ["box", 4, 1]], plan=times)
    with pytest.warns(UserWarning, match=r"a.xlsx: the sheet 'plan' is read, and not 'old' \(`sheet`\)"):
        assert pfs.read_csv(tmp_path / "a.xlsx").jobs == 2
    assert pfs.read_csv(tmp_path / "a.xlsx", sheet="old").jobs == 3
    with pytest.raises(ValueError, match="has no sheet 'new', but 'old', 'plan'"):
        pfs.read_csv(tmp_path / "a.xlsx", sheet="new")
    (tmp_path / "a.csv").write_text("job;saw;drill\ntable;3;2\n")
    with pytest.warns(UserWarning, match="isn't a workbook, and has no sheet 'old'"):
        pfs.read_csv(tmp_path / "a.csv", sheet="old")
    book_of(tmp_path / "one.xlsx", plan=times)
    assert pfs.read_csv(tmp_path / "one.xlsx").jobs == 2


# Forms of orders

FORMS = ["2 1 3", "2,1,3", "2-1-3", "[2, 1, 3]", "(2; 1; 3)", "π = (2, 1, 3)", "σ*: 2 1 3", "J2 J1 J3",
         "job_2-job_1-job_3", "2 – 1 – 3", "2 → 1 → 3", "[2. 1. 3.]", "2,1,3,", "job-2 job-1 job-3", "Ä2, Ä1, Ä3"]
UNREADABLE = ["2 -1 3", "J2 M1 J3", "2,,3", "2 1 3 (optimal)", "2 x 3", "2.5 1 3", "2.000 1 3", "2 1 99999999999",
              "02.01.03", "[2, 1", "[[2, 1, 3]]", "n/a", "2=1 3"]


@pytest.mark.parametrize("order", FORMS)
def test_one_reader_of_orders(order: str, tmp_path: pathlib.Path) -> None:
    assert pfs.parse_order(order, first=1).tolist() == [1, 0, 2]
    [found] = pfs.audit(rows_of(order), [SMALL])
    assert found.verdict == "valid and optimal"
    assert order_of(order) == ("", ["2", "1", "3"])
    letters = re.match(r"[^\W\d]+[_-]?(?=2)", order)
    prefix = letters[0] if letters else ""
    (tmp_path / "times.csv").write_text("job;a;b\n" + "".join(
        f"{prefix}{job};{one};{other}\n" for job, (one, other) in enumerate(SMALL.times.tolist(), 1)))
    if prefix or "." not in order:
        (tmp_path / "order").write_text(order)
        shop = pfs.read_csv(tmp_path / "times.csv") if prefix else pfs.Instance(SMALL.times, job_names=["1", "2", "3"])
        assert order_in(tmp_path / "order", shop)[:2] == ([1, 0, 2], {})


@pytest.mark.parametrize("order", [[2, 1, 3], (2.0, 1.0, 3.0), np.array([2.0, 1.0, 3.0]), np.array([2, 1, 3], np.uint8),
                                   ["J2", "J1", "J3"], pandas.Series([2, 1, 3]), iter([2, 1, 3])])
def test_lists_of_jobs(order: Any) -> None:
    [found] = pfs.audit(rows_of(order), [SMALL])
    assert found[:10] == (0, "small", "", 10, 10, 10, True, "valid and optimal", "", "")


@pytest.mark.parametrize("order", [*UNREADABLE, {2, 1, 3}, {2: 1}, b"213", [2.5, 1, 3], [True, 0, 3], [[2, 1, 3]],
                                   np.array([[2, 1, 3]]), [2, None, 3], [2, float("nan"), 3], 213])
def test_what_is_not_read_as_an_order(order: Any) -> None:
    found, other = pfs.audit(rows_of(order, "2 1 3"), [SMALL])
    assert (found.verdict, found.valid, other.valid) == ("unclear", False, True)
    assert found.why.startswith("column 'order': ")
    if isinstance(order, str):
        assert any(repr(part) in found.why for part in (order, *order.replace(",", ", ").split(), "")), found.why
        with pytest.raises(ValueError, match=re.escape(found.why.partition(": ")[2])):
            pfs.parse_order(order, first=1)


@pytest.mark.parametrize("order", ["", "  ", None, float("nan"), [], pandas.NA, pandas.NaT])
def test_rows_without_an_order_are_unclear(order: Any) -> None:
    [found] = pfs.audit(rows_of(order), [SMALL])
    assert found[:10] == (0, "small", "", 10, None, 10, False, "unclear", "column 'order': there is no order", "")
    with pytest.raises(ValueError, match="row 0, column 'order': there is no order"):
        pfs.audit(rows_of(order), [SMALL], strict=True)


# Rows that can't be audited

def test_unclear_rows_are_listed_and_the_others_audited(tmp_path: pathlib.Path, monkeypatch: pytest.MonkeyPatch,
                                                        capsys: pytest.CaptureFixture[str]) -> None:
    monkeypatch.chdir(tmp_path)
    (tmp_path / "shops").mkdir()
    SMALL.write(tmp_path / "shops" / "small.txt")
    lines = ["small;IG;10;2 1 3", "small;IG;1.490;2 1 3", "small;IG;NA;2 1 3", "small;IG;;2 1 3", "small;IG;10;",
             "other;IG;x;", "small;IG;10;2;1;3", "small;HGA;11;2 1 3", "small;IG;10,0;2 1 3"]
    (tmp_path / "t.csv").write_text("\n".join([";".join(HEAD), *lines]) + "\n")
    assert run("t.csv --instances shops") == 1
    assert capsys.readouterr().out.splitlines() == [
        "line 3, small IG: unclear: cell C3: '1.490' isn't a makespan: a whole number",
        "line 4, small IG: unclear: cell C4: 'NA' isn't a makespan: a whole number",
        "line 5, small IG: unclear: cell C5: '' isn't a makespan: a whole number",
        "line 6, small IG: unclear: cell D6: there is no order",
        "line 7, other IG: unclear: cell C7: 'x' isn't a makespan: a whole number; cell A7: no instance 'other'; "
        "cell D7: there is no order",
        "line 8, small IG: unclear: 6 cells for 4 columns: quote an order that contains the separator",
        "line 9, small HGA: wrong makespan: states 11, takes 10",
        "line 10, small IG: unclear: cell C10: '10,0' isn't a makespan: a whole number",
        "t.csv: 2 orders audited, 1 valid (1 optimal), 1 wrong; 7 rows are unclear, and not audited"]
    (tmp_path / "t.csv").write_text("\n".join([";".join(HEAD), *lines[:2]]) + "\n")
    assert run("t.csv --instances shops") == 2
    assert capsys.readouterr().out.endswith("1 orders audited, 1 valid (1 optimal), 0 wrong; 1 row is unclear, and not "
                                            "audited\n")


@pytest.mark.parametrize(("stated", "is_clear"), [
    ("10", True), ("10.0", True), ("10.", True), ("10.00", True), ("10.0000", True), (10.0, True), ("10.000", False),
    ("1.010", False), ("1e1", False), ("10 min", False), ("10.5", False), ("9" * 5000, False)])
def test_three_zeros_after_a_point_may_be_thousands(stated: Any, is_clear: bool) -> None:
    [found] = pfs.audit(rows_of("2 1 3", makespan=stated), [SMALL])
    assert (found.verdict == "unclear") != is_clear and found.valid == is_clear and len(found.why) < 200


def test_missing_values_and_columns_of_frames() -> None:
    text = "instance,makespan,order,method,block\nsmall,10,2 1 3,IG,\nsmall,10,2 1 3,,\nsmall,,2 1 3,IG,\n,10,,,\n"
    frame = pandas.read_csv(io.StringIO(text))
    for each in (frame, frame.convert_dtypes()):
        assert [(row.method, row.verdict) for row in pfs.audit(each, [SMALL])] == [
            ("IG", "valid and optimal"), ("", "valid and optimal"), ("IG", "unclear"), ("", "unclear")]
    with pytest.raises(ValueError, match="the table has no column order .*, but 'instance', 'makespan'"):
        pfs.audit(frame[HEAD[::2]])
    assert pfs.audit([]) == pfs.audit(frame[:0]) == []


@pytest.mark.parametrize("head", [
    "Instance Name;Best Makespan;Best Sequence", "INSTANZ;C_max;Reihenfolge", "Problem;Best Cmax;Best Permutation"])
def test_names_of_columns(head: str, tmp_path: pathlib.Path) -> None:
    (tmp_path / "t").write_text(f"{head}\nsmall;10;2 1 3\n")
    assert pfs.audit(tmp_path / "t", [SMALL])[0].valid


@pytest.mark.parametrize("name", ["Ta1", "TA01", "ta001", "Ta001.txt", "tai20_5:1", "x/ta1"])
def test_spellings_of_taillards_names(name: str) -> None:
    row = {"instance": name, "makespan": 1448, "order": list(range(1, 21))}
    assert pfs.audit([row])[0].valid
    assert pfs.audit([row], {"TA001": pfs.taillard(1)})[0].valid


@pytest.mark.parametrize("name", ["ta0", "ta121", "ta0001", "x:" + "1" * 5000, "tai20_5:" + "0" * 5000 + "11"])
def test_names_of_no_instance(name: str) -> None:
    [found] = pfs.audit([{"instance": name, "makespan": 1448, "order": list(range(1, 21))}])
    assert found.verdict == "unclear" and "no instance " in found.why and len(found.why) < 200


def test_no_file_that_is_read_is_replaced(tmp_path: pathlib.Path, monkeypatch: pytest.MonkeyPatch) -> None:
    monkeypatch.chdir(tmp_path)
    (tmp_path / "f" / "g").mkdir(parents=True)
    SMALL.write("f/g/small.txt")
    before = pathlib.Path("f/g/small.txt").read_text()
    pathlib.Path("t.csv").write_text("instance,makespan,order\nsmall,10,2 1 3\n")
    pathlib.Path("link").symlink_to("f/g/small.txt")
    pathlib.Path("hard").hardlink_to("t.csv")
    for path in ("t.csv", "hard", "f/g/small.txt", "link"):
        with pytest.raises(ExperimentError, match=f"{path} is read, and writing would replace it: name another file"):
            run(f"t.csv --instances f --csv {path}")
    assert pathlib.Path("f/g/small.txt").read_text() == before
    assert run("t.csv --instances f --csv out.csv") == 0 and run("t.csv --instances f --csv out.csv") == 0


# Causes

ORDER = random.Random(7).sample(range(20), 20)


def told(rows: list[dict[str, Any]], shops: Any = (), at: int = 0) -> list[str]:
    """What is told of the cause of a wrong makespan."""
    found = pfs.audit(rows, shops)[at]
    assert found.verdict == "wrong makespan", found
    return found.why.split("; ")[1:]


def row(name: str, order: list[int], stated: int, method: str = "IG") -> dict[str, Any]:
    return {"instance": name, "order": [job + 1 for job in order], "makespan": stated, "method": method}


def test_causes_that_a_makespan_is_close_to() -> None:
    """No order takes less than the bound; of a square instance a cause is reported once; one off by one has none."""
    one, square = pfs.taillard(1), pfs.generate(20, 20, 5)
    assert told([row("ta001", ORDER, 1200)]) == [f"no order takes less than {one.bound()}"]
    assert not any("less than" in text for text in told([row("ta001", ORDER, one.bound())]))
    stated = plainly.makespan(square.times.T.tolist(), ORDER)
    assert told([row("sq", ORDER, stated)], {"sq": square}) == [f"with jobs and machines exchanged it takes {stated}"]
    assert told([row("ta001", ORDER, makespan(one, ORDER) + 1)]) == []


def test_rows_that_were_mistaken_for_others() -> None:
    stated = makespan(pfs.taillard(1), ORDER) + 77
    others = [{**row("Ta1", ORDER, stated, "GA"), "order": "1 2"}, row("ta003", ORDER, stated)]
    assert told([row("ta001", ORDER, stated), *others[:1]]) == ["perhaps by chance, row 1 states it for this instance"]
    assert told([row("ta001", ORDER, stated), others[0], others[0]]) == [
        "perhaps by chance, row 1 states it for this instance (as with 1 other row)"]
    other = "perhaps by chance, row 1 states it for ta003"
    assert told([row("ta001", ORDER, stated), others[1]]) == [other]
    assert other not in told([row("ta001", ORDER, stated, "HGA"), others[1]])


def test_jobs_that_were_exchanged() -> None:
    shop = pfs.taillard(1)
    spans: dict[int, list[tuple[int, int]]] = {}
    for one in range(20):
        for other in range(one + 1, 20):
            order = ORDER.copy()
            order[one], order[other] = order[other], order[one]
            spans.setdefault(makespan(shop, order), []).append((one, other))
    takes = makespan(shop, ORDER)
    texts = "perhaps by chance, with the jobs at places {} and {} exchanged it takes {}", " (as with {} other pair{})"
    checked = 0
    for span, pairs in spans.items():
        if abs(span - takes) < 2:
            continue
        one, other = min(pairs, key=lambda pair: pair[1] - pair[0])
        more = texts[1].format(len(pairs) - 1, "s" if len(pairs) > 2 else "") if len(pairs) > 1 else ""
        found = told([row("ta001", ORDER, span)])
        certain = "reversed", "places of", "best known", "machines exchanged", "without", "starts", "rounded", "digits"
        if not any(word in found[-1] for word in certain):
            assert found[-1] == texts[0].format(one + 1, other + 1, span) + more
            checked += 1
    assert checked > 20


# The rows of a table by the number of the instance and the method, and 300 of these.
Rows = dict[tuple[int, str], dict[str, Any]]
NUMBERS, METHODS = (*range(1, 26), *range(31, 56), *range(61, 86)), ["NEH", "IG", "HGA", "TS"]
# Of 17 errors how often each is made, and what is told of it; nothing of the last one, which no audit can know.
KINDS = {"of another instance": (2, "the order takes {} on {}"), "reversed": (2, "the reversed order takes {}"),
         "a digit is lost": (2, "no order takes less than"), "places": (2, "as the places of the jobs it takes {}"),
         "read job by job": (1, "with jobs and machines exchanged it takes {}"),
         "sum": (1, "that is the sum of the completion times"), "best known": (2, "that is the best known makespan"),
         "neighbours": (1, "exchanged it takes {}"),
         "two jobs": (1, "exchanged it takes {}"), "of another method": (1, "states it for this instance"),
         "of another row": (1, "states it for {1}"), "machines": (1, "no cause")}


def wrong_makespan(kind: str, rows: Rows, at: tuple[int, str], other: int, chance: random.Random) -> int:
    """A makespan that somebody states by an error of this kind, perhaps with another instance."""
    number, method = at
    shop, order = pfs.taillard(number), [job - 1 for job in rows[at]["order"]]
    one, two = sorted(chance.sample(range(shop.jobs), 2))
    two = one + 1 if kind == "neighbours" else two
    swapped = order.copy()
    swapped[one], swapped[two] = order[two], order[one]
    flat = shop.times.T.flatten().tolist()
    turned = shop.times[:, [1, 0, *range(2, shop.machines)]]
    stated: dict[str, Callable[[], int]] = {
        "of another instance": lambda: makespan(pfs.taillard(other), order),
        "reversed": lambda: makespan(shop, order[::-1]), "a digit is lost": lambda: makespan(shop, order) // 10,
        "places": lambda: makespan(shop, [order.index(job) for job in range(shop.jobs)]),
        "read job by job": lambda: plainly.makespan(np.reshape(flat, shop.times.shape).tolist(), order),
        "sum": lambda: sum(makespan(shop, order[:length]) for length in range(1, shop.jobs + 1)),
        "best known": lambda: shop.upper, "neighbours": lambda: makespan(shop, swapped),
        "two jobs": lambda: makespan(shop, swapped),
        "of another method": lambda: int(rows[number, METHODS[METHODS.index(method) - 1]]["makespan"]),
        "of another row": lambda: int(rows[other, method]["makespan"]),
        "machines": lambda: plainly.makespan(turned.tolist(), order)}
    return stated[kind]()


@pytest.mark.parametrize("seed", range(1, 4))
def test_of_17_wrong_makespans_in_300_rows_16_have_their_cause(seed: int) -> None:
    """Each second method and each second instance have no error. Of each row whose makespan is wrong we know the kind
    of the error, and what is reported of it."""
    chance, rows, wrong = random.Random(seed), Rows(), dict[tuple[int, str], tuple[str, str]]()
    for number, method in itertools.product(NUMBERS, METHODS):
        shop = pfs.taillard(number)
        order = shop.neh().order.tolist()
        for _ in range(METHODS.index(method) * 2):
            order.insert(chance.randrange(len(order)), order.pop(chance.randrange(len(order))))
        rows[number, method] = row(f"ta{number:03}", order, makespan(shop, order), method)
    free = [at for at in rows if at[0] in NUMBERS[::2] and at[1] in METHODS[1::2]]
    chance.shuffle(free)
    for kind in [kind for kind, (count, _) in KINDS.items() for _ in range(count)]:
        stated = right = 0
        while abs(stated - right) < 2:
            at = free.pop()
            other = chance.choice([each for each in NUMBERS[1::2] if (each - 1) // 10 == (at[0] - 1) // 10])
            stated, right = wrong_makespan(kind, rows, at, other, chance), rows[at]["makespan"]
        rows[at]["makespan"] = stated
        wrong[at] = kind, KINDS[kind][1].format(stated, f"ta{other:03}")
    audited = dict(zip(rows, pfs.audit(rows.values())))
    assert {at for at, each in audited.items() if not each.valid} == wrong.keys()
    told = {at: audited[at].why.split("; ")[1:] for at in wrong}
    unexplained = [kind for at, (kind, text) in wrong.items() if not any(text in hint for hint in told[at])]
    assert unexplained == ["machines"]
    others = [(kind, hint) for at, (kind, text) in wrong.items() for hint in told[at] if text not in hint]
    assert [pair for pair in others if not pair[1].startswith("perhaps by chance, ")] == []


def test_an_instance_is_named_once_whatever_its_spellings() -> None:
    stated = makespan(pfs.taillard(2), ORDER)
    others = [row(name, ORDER, stated) for name in ("Ta2", "ta002", "tai20_5:2", "TA02")]
    assert told([row("ta001", ORDER, stated), *others]) == [f"the order takes {stated} on Ta2"]
    own = [row(name, ORDER, makespan(pfs.taillard(1), ORDER)) for name in ("Ta1", "ta001")]
    assert told([row("tai20_5:1", ORDER, stated), *own, *others]) == [f"the order takes {stated} on Ta2"]


def test_orders_of_another_size_are_tried_on_instances_of_that_size() -> None:
    stated = makespan(pfs.taillard(1), ORDER)
    table = [row("ta031", ORDER, stated), row("ta001", ORDER, stated), row("ta032", ORDER, stated)]
    found = pfs.audit(table)[0]
    assert found.verdict == "wrong size"
    assert found.why == f"20 jobs, but the instance has 50; the order takes {stated} on ta001"
    assert "; the order" not in pfs.audit([row("ta031", [0] * 20, stated), table[1]], first=1)[0].why


def test_how_many_causes_are_sought() -> None:
    """Three hints, 50 other instances, 5,000 pairs of an order and 500,000 of all."""
    rows = [Stated(f"row {at}", f"i{at}", "", 60, pfs.Instance([[at], [60 - at]]), [0, 1]) for at in range(53)]
    causes = Causes(rows)
    assert causes.of(rows[0], [0, 1], 70) == [f"the order takes 60 on i{at}" for at in (1, 2, 3)]
    assert len([*causes.on_others(rows[0], [0, 1])]) == 50
    two = [Stated("", "", "", count, pfs.Instance([[1]] * count), []) for count in (100, 101)]
    assert [len(causes.pairs(row, [*range(row.makespan)])) for row in two] == [4_950, 100] and causes.orders == 495_050
