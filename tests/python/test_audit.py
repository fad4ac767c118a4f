"""Audits of published tables. Expected makespans are those of the second program of the tests."""
import csv
import pathlib
import re
import time
from collections.abc import Sequence
from typing import Any

import numpy as np
import pandas
import pfs
import pytest
from pfs.experiments import ExperimentError
from pfs.experiments.__main__ import command_line
from pfs.experiments.audit import audit
from support import plainly

def makespan(shop: pfs.Instance, order: Sequence[int]) -> int:
    return plainly.makespan(shop.times.tolist(), order)


def run(words: str) -> int:
    """Run the command, and return its status."""
    return audit(command_line().parse_args(["audit", *words.split()]))


def test_a_table_with_errors(tmp_path: pathlib.Path, monkeypatch: pytest.MonkeyPatch,
                             capsys: pytest.CaptureFixture[str]) -> None:
    """The instances are of both layouts, and one method counts jobs from 0."""
    monkeypatch.chdir(tmp_path)
    sizes = {"VFR6_3_1_Gap": 6, "VFR6_3_2_Gap": 6, "VFR8_3_1_Gap": 8}
    shops = {name: pfs.generate(jobs, 3, at) for at, (name, jobs) in enumerate(sizes.items(), 1)} | {
        "ta001": pfs.taillard(1)}
    for at, name in enumerate(sizes):
        path = tmp_path / "instances" / str(at) / f"{name.lower()}.TXT"
        path.parent.mkdir(parents=True)
        shops[name].write(path, "orlib")
    (tmp_path / "instances" / "tai20_5.txt").write_text("".join(pfs.taillard(at).to_text() for at in (1, 2)))
    (tmp_path / "instances" / "README").write_text("Instances of two benchmarks.\n")
    one = "VFR6_3_1_Gap"
    own = {name: [*range(2, shop.jobs + 1), 1] for name, shop in shops.items()}
    spans = {name: makespan(shops[name], [job - 1 for job in order]) for name, order in own.items()}
    # Instance, method, order and stated makespan, with the verdict and its reason.
    table: list[tuple[Any, ...]] = [
        *((name, "IG", " ".join(map(str, own[name])), spans[name], "valid", "") for name in shops),
        (one, "IG", own[one], spans[one] - 100, "wrong makespan", f"states {spans[one] - 100}, takes {spans[one]}"),
        (one, "IG", [2, 3, 4, 5, 2, 1], 7, "job twice", "job 2 at places 1 and 5; job 6 is missing"),
        (one, "IG", [0, 3, 4, 5, 6, 1], 7, "job out of range", "job 0 at place 1: the jobs are 1 to 6; job 2 is "),
        (one, "IG", [job - 1 for job in own[one]], spans[one], "valid, counted from 0", "others count from 1"),
        (one, "IG", [job - 1 for job in own[one]], spans[one] + 1, "counted from 0",
         f"others count from 1; counted from 0, it takes {spans[one]}, and states {spans[one] + 1}"),
        *((name, "TSM", str([f"J{job - 1}" for job in own[name]]).replace("'", ""), spans[name], "valid", "")
          for name in shops),
        (one, "TSM", [2, 3, 4, 5, 6, 99], 7, "job out of range", "job 6 at place 5: the jobs are 0 to 5; job 0 is ")]
    with open("supplement.csv", "w", newline="") as file:
        writer = csv.writer(file, delimiter=";")
        writer.writerow(["SEQUENCE", "Algorithm", "C_max", "seconds", "Instance"])
        writer.writerows([order if isinstance(order, str) else ",".join(map(str, order)), method, stated, "", name]
                         for name, method, order, stated, *_ in table)
    found = pfs.audit("supplement.csv", "instances")
    assert [each[:4] for each in found] == [(at, row[0], row[1], row[3]) for at, row in enumerate(table, 2)]
    for each, (name, _, _, stated, verdict, why) in zip(found, table):
        assert each.verdict.removesuffix(" and optimal") == verdict and why in each.why, each
        assert each.valid == verdict.startswith("valid") and (each.makespan == stated or not each.valid)
    assert [found[at].bound for at in (0, 3)] == [shop.bound() for shop in (pfs.generate(6, 3, 1), pfs.taillard(1))]
    # The command prints and writes the same.
    assert run("supplement.csv --instances instances --csv audited.csv") == 1
    *printed, last = capsys.readouterr().out.splitlines()
    assert printed == [f"line {each.row}, {each.instance} {each.method}: {each.verdict}: {each.why}"
                       for each in found if each.why]
    assert re.fullmatch(r"supplement.csv: 14 orders audited, 9 valid \(\d optimal\), 5 wrong", last)
    rows = list(csv.reader(open("audited.csv")))
    assert rows == [["line", *pfs.Audited._fields[1:]], *([str(cell) if cell is not None else "" for cell in each]
                                                          for each in found)]


# Other tables

SMALL = pfs.Instance([[3, 2], [2, 5], [4, 1]], name="small.txt")


def rows_of(*orders: Any, makespan: Any = 10) -> list[dict[str, Any]]:
    return [{"instance": "small", "makespan": makespan, "order": order} for order in orders]


def test_the_first_job_is_that_of_most_orders_of_a_method() -> None:
    rows = [{"Problem": "small", "CMAX": 11, "Permutation": order, "method": method}
            for method, order in (("a", "0 1 2"), ("b", "1 2 3"), ("b", "1 2 3"), ("b", "0 1 2"), ("a", [2, 2, 0]))]
    found = pfs.audit(rows, {"small": SMALL})
    assert [each.verdict for each in found] == ["valid", "valid", "valid", "valid, counted from 0", "job twice"]
    assert found[3].why == "others count from 1" and found[3].makespan == 11
    text = "1 orders of b count jobs from 0 and as many from 1: state"
    undecided = pfs.audit(rows[2:], [SMALL])
    assert [each.verdict for each in undecided] == ["unclear", "unclear", "job twice"]
    assert undecided[0].why.startswith(text) and undecided[0][3:7] == (11, None, 10, False)
    without = [row | {"method": ""} for row in rows[2:4]]
    assert pfs.audit(without, [SMALL])[0].why.startswith(text.replace(" of b", ""))
    with pytest.raises(ValueError, match=f"row 0: {text}"):
        pfs.audit(rows[2:], [SMALL], strict=True)
    stated = pfs.audit(rows[2:], [SMALL], first=0)
    assert [each.verdict for each in stated] == ["valid, counted from 1", "valid", "job twice"]


@pytest.mark.parametrize(("change", "said"), [
    ({"makespan": "1,278"}, "row 1, column 'makespan': '1,278' isn't a makespan"),
    ({"makespan": float("nan")}, "'' isn't a makespan"),
    ({"block": "x"}, "row 1, column 'block': 'x' isn't a block"), ({"block": 1.5}, "'1.5' isn't a block"),
    ({"makespan": True}, "'True' isn't"), ({"makespan": -10}, "'-10' isn't"), ({"makespan": "٣"}, "isn't a makespan"),
    ({"instance": "smal"}, "row 1, column 'instance': no instance 'smal'"),
    ({"instance": "ta121"}, "no instance 'ta121'"), ({"instance": ""}, "no instance ''"),
    ({"block": 2}, "no instance 'small:2'"), ({"Cmax": 10}, "row 0: the columns 'makespan' and 'Cmax' both say the"),
])
def test_tables_that_are_unclear(change: dict[str, Any], said: str) -> None:
    first, other = rows_of("2 1 3", "2 1 3")
    with pytest.raises(ValueError, match=re.escape(said)):
        pfs.audit([first, {**other, **change}], [SMALL], strict=True)


@pytest.mark.parametrize(("text", "line", "said"), [
    ("instance,makespan,order\nsmall,10,2,1\n", 2, "4 cells for 3 columns: quote an order"),
    ("instance makespan order\n", 1, "no column instance (or problem), makespan (or Cmax), order (or sequence, "),
    ("", 1, "the table is empty"), ("instance;makespan;order\n", 1, "the table has only its first line, and no orders"),
    ("instance;makespan\nsmall;10\n", 1, "no column order (or sequence, permutation, Reihenfolge), but 'instance', 'm"),
    ("instance,makespan,order\n\nsmall,x,1 2 3", 3, "'x' isn't"),
    ("instance,makespan,order\nsmall,10,\"2 1 3\n", 2, "unexpected end"),
    ("instance,makespan,order,block\nta001,10,1\nother,10,1\n", 3, "no instance 'other'")])
def test_files_that_are_unclear(text: str, line: int, said: str, tmp_path: pathlib.Path) -> None:
    (tmp_path / "table").write_text(text)
    with pytest.raises(pfs.TableFault, match=re.escape(said)) as fault:
        pfs.audit(tmp_path / "table", [SMALL], strict=True)
    assert fault.value.line == line


def test_a_frame_and_makespans_below_the_reference() -> None:
    frame = pandas.DataFrame(rows_of("2 1 3", "1 2 3"), index=["x", "y"]).assign(makespan=[10.0, 11.0])
    audited = pandas.DataFrame(pfs.audit(frame, [SMALL]))
    assert audited[["makespan", "valid"]].to_numpy().tolist() == [[10, True], [11, True]]
    with pytest.raises(TypeError, match="a DataFrame, the path of a CSV or a workbook, or a list of dicts"):
        pfs.audit([1, 2], [SMALL])
    shop = pfs.Instance(SMALL.times, name="small", upper=12)
    longer = pfs.Instance([[3, 2], [2, 5], [4, 2]], name="longer", upper=13)
    even = pfs.Instance(SMALL.times, name="even", upper=11)
    rows = [*rows_of("1 2 3", makespan=11), {"instance": "longer", "makespan": 12, "order": "1 2 3"},
            {"instance": "even", "makespan": 11, "order": "1 2 3"}]
    found = pfs.audit(rows, [shop, longer, even])
    assert [(each.valid, each.verdict, each.why) for each in found] == [
        (True, "valid and below the reference", "the reference is 12"),
        (True, "valid and below the reference", "the reference is 13"), (True, "valid", "")]


def test_names(tmp_path: pathlib.Path) -> None:
    """An instance is found by a title, by the number of a block, and by Taillard's seed; a damaged one isn't."""
    other = pfs.Instance([[1, 1], [1, 1], [1, 1]])
    (tmp_path / "two.txt").write_text(f"instance Car1\n{SMALL.to_text('orlib')}{other.to_text('orlib')}")
    (tmp_path / "best.mat").write_text("3 2\n3 2\n2 5\n4 1\n")
    (tmp_path / "a").mkdir()
    damaged = pfs.taillard(2).times.copy()
    damaged[0, 0] += 1
    blocks = [pfs.taillard(1), pfs.Instance(damaged, seed=pfs.taillard(2).seed)]
    (tmp_path / "a" / "tai20_5").write_text("".join(shop.to_text() for shop in blocks))
    rows = [{**rows_of("2 1 3")[0], "instance": name, "block": block}
            for name, block in (("CAR1", ""), ("two:1", float("nan")), ("best", None), ("x/two.TXT", 1.0),
                                ("C:\\data\\Best.mat", ""))]
    order = list(range(1, 21))
    rows += [{"instance": name, "makespan": makespan(shop, range(20)), "order": order, "block": ""} for name, shop in
             (("ta001", blocks[0]), ("tai20_5:2", blocks[1]), ("ta002", pfs.taillard(2)))]
    assert [each.valid for each in pfs.audit(rows, tmp_path)] == [True] * 8
    # Taillard's instance has its best known makespan, also where the file has none.
    pfs.Instance(pfs.taillard(1).times, seed=pfs.taillard(1).seed).write(tmp_path / "plain")
    [found] = pfs.audit([{"instance": "plain", "makespan": 1278, "order": order}], tmp_path)
    assert "that is the best known makespan" in found.why
    for name, said in (("two", "its file has 2 blocks, so write two:1"), ("two:3", "no instance 'two:3'"),
                       ("a", "no instance 'a'$")):  # which is a folder
        with pytest.raises(ValueError, match=said):
            pfs.audit([{**rows[0], "instance": name}], tmp_path, strict=True)
    with pytest.raises(ValueError, match="no instance 'best': .*size line 1 has a wrong count"):
        pfs.audit(rows[2:3], tmp_path, layout="taillard", strict=True)
    (tmp_path / "best.txt").write_text("3 2\n3 2\n2 5\n4 2\n")
    with pytest.raises(ValueError, match="'best' is the name of 2 different instances: best.mat, best.txt"):
        pfs.audit(rows[2:3], tmp_path, strict=True)


@pytest.mark.parametrize("fault", [PermissionError(13, "Permission denied"), pfs.TableFault("b", 1, 0, "no times")])
def test_one_file_that_cannot_be_read_does_not_end_the_audit_of_its_folder(fault: Exception, tmp_path: pathlib.Path,
                                                                         monkeypatch: pytest.MonkeyPatch) -> None:
    def read(path: pathlib.Path, layout: str) -> list[pfs.Instance]:
        if path.name == "b":
            raise fault
        return pfs.read_all(path, layout)

    monkeypatch.setattr("pfs.audits.shelf.read_all", read)
    monkeypatch.setattr("pfs.audits.shelf.read", read)
    for name in "abc":
        SMALL.write(tmp_path / name)
    found = pfs.audit([rows_of("2 1 3")[0] | {"instance": name} for name in "abc"], tmp_path)
    assert [each.valid for each in found] == [True, False, True] and str(fault) in found[1].why


def test_the_command(tmp_path: pathlib.Path, monkeypatch: pytest.MonkeyPatch,
                     capsys: pytest.CaptureFixture[str]) -> None:
    monkeypatch.chdir(tmp_path)
    pathlib.Path("one.csv").write_text(f'instance,Cmax,order,method\nta001,1448,"{[*range(20)]}",=IG\n')
    assert run("one.csv --csv out.csv") == 0
    assert capsys.readouterr().out == "one.csv: 1 orders audited, 1 valid (0 optimal), 0 wrong\n"
    assert pathlib.Path("out.csv").read_text() == (
        "line,instance,method,stated,makespan,bound,valid,verdict,why,sheet\n"
        "2,ta001,'=IG,1448,1448,1232,True,valid,,\n")
    assert run("one.csv --first 1") == 0
    assert capsys.readouterr().out.startswith("line 2, ta001 =IG: valid, counted from 0: others count from 1\n")
    with pytest.raises(ExperimentError, match="none is not a folder"):
        run("one.csv --instances none")


@pytest.mark.seconds(3)
def test_ten_thousand_orders(untraced: None) -> None:
    shop = pfs.taillard(81)
    orders = np.random.default_rng(1).permuted(np.tile(np.arange(100, dtype=np.uint32), (10_000, 1)), axis=1)
    spans = shop.makespans(orders).tolist()
    rows = [{"instance": "ta081", "makespan": span, "order": " ".join(map(str, order))}
            for order, span in zip((orders + 1).tolist(), spans)]
    begun = time.process_time()
    assert all(each.valid for each in pfs.audit(rows))
    assert time.process_time() - begun < 10


def test_check() -> None:
    best = SMALL.neh()
    assert SMALL.check(best) == (True, 10, 10, "") and SMALL.check([0, 1, 2]) == (True, 11, 10, "")
    assert SMALL.check(best, 11) == (False, 10, 10, "states 11, takes 10")
    faults: list[tuple[Any, str]] = [
        ([0, 1], "order has 2 jobs, but the instance has 3"), ([], "order has 0 jobs"),
        ([0, 1, 3], "3 at place 2 isn't a job"), ([0, 1, 0], "job 0 occurs twice, at places 0 and 2"),
        ("210", "must be a list of jobs"), ([0.5, 1, 2], "0.5 at place 0 isn't a whole number"),
        (pfs.Solution([0, 1, 2], 11, machines=3), "an order for 3 machines, but the instance has 2")]
    for order, fault in faults:
        found = SMALL.check(order)
        assert found[:3] == (False, None, 10) and fault in found.fault
    for wrong in (10.5, "10", True):
        with pytest.raises(TypeError, match="stated must be an integer"):
            SMALL.check(best, wrong)  # type: ignore[arg-type]


def test_shorter_orders_are_put_into_a_table(tmp_path: pathlib.Path, monkeypatch: pytest.MonkeyPatch,
                                             capsys: pytest.CaptureFixture[str]) -> None:
    """Only valid ones that are shorter, of Taillard's instances by their times, and the shortest of several. Bounds
    stay, and the table can be audited itself."""
    monkeypatch.chdir(tmp_path)
    long, by_neh = {at: [*range(20)] for at in (1, 2, 3)}, {at: pfs.taillard(at).neh() for at in (1, 2, 3)}
    spans = {at: pfs.taillard(at).makespan(order) for at, order in long.items()}
    text = "instance,makespan,bound,nodes,method,seed,rounds,order\n"
    jobs = " ".join(map(str, range(1, 21)))
    pathlib.Path("best.csv").write_text(
        text + "".join(f"ta00{at},{span},1000,5,first,1,2,{jobs}\n" for at, span in spans.items()))
    pfs.generate(20, 5, 7).write("ta003")
    rows: list[tuple[str, int, Any, str]] = [
        ("ta001", by_neh[1].makespan, by_neh[1].order, "=NEH"), ("ta001", spans[1], long[1], "later"),
        ("ta002", by_neh[2].makespan - 1, by_neh[2].order, "wrong"),
        ("ta003", pfs.generate(20, 5, 7).neh().makespan, pfs.generate(20, 5, 7).neh().order, "another instance")]
    pathlib.Path("table.csv").write_text("instance,Cmax,order,method\n" + "".join(
        f"{name},{span},{' '.join(str(job + (method != '=NEH')) for job in order)},{method}\n"
        for name, span, order, method in rows))
    assert run("table.csv --instances . --best best.csv") == 1
    assert f"best.csv: ta001: {by_neh[1].makespan}, not {spans[1]}\n" in capsys.readouterr().out
    first, *others = pathlib.Path("best.csv").read_text().splitlines()[1:]
    order = " ".join(str(job + 1) for job in by_neh[1].order)
    assert first == f"ta001,{by_neh[1].makespan},1000,,'=NEH,,,{order}"
    assert others == [f"ta00{at},{spans[at]},1000,5,first,1,2,{jobs}" for at in (2, 3)]
    pathlib.Path("ta003").unlink()
    assert run("best.csv") == 0 and "3 orders audited, 3 valid" in capsys.readouterr().out
    for damaged in ("instance,order\n", ""):
        pathlib.Path("best.csv").write_text(damaged)
        with pytest.raises(ExperimentError, match="^best.csv: the first line must be instance,makespan,bound,"):
            run("table.csv --best best.csv")
        assert pathlib.Path("best.csv").read_text() == damaged
