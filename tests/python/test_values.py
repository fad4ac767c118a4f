"""The results of the package are those of the definitions, and of the program."""
import copy
import csv
import inspect
import io
import itertools
import pathlib
import pickle
import re
import sys
from collections.abc import Callable
from typing import Any

import numpy as np
import pfs
import pytest
from hypothesis import given
from hypothesis import strategies as st
from pfs.binding.rounds import TIES
from support import plainly, second_library, second_program


@pytest.mark.quick
@given(plainly.shops_and_sequences())
def test_makespan_and_insertions(case: tuple[plainly.Table, list[int]]) -> None:
    """Of a sequence, and of each other job at each place of it."""
    times, sequence = case
    shop = pfs.Instance(times)
    assert shop.makespan(sequence) == plainly.makespan(times, sequence)
    for job in set(range(len(times))) - set(sequence):
        rows = [[*sequence[:at], job, *sequence[at:]] for at in range(len(sequence) + 1)]
        due = [plainly.makespan(times, row) for row in rows]
        for spans in (shop.places(sequence, job), shop.makespans(rows)):
            assert spans.tolist() == due and spans.dtype == np.int64
        assert shop.best_place(sequence, job) == plainly.best_place(times, sequence, job)
    assert shop.makespans([[], []]).tolist() == [0, 0] and shop.makespans(np.zeros((0, 1))).tolist() == []


@pytest.mark.quick
@given(plainly.shops(5, 5))
def test_bounds_and_neh(times: plainly.Table) -> None:
    """The bound of pairs of machines has the best order of each pair by trying all; and no order is shorter."""
    shop, machines = pfs.Instance(times), range(len(times[0]))
    pairs = [plainly.two_machine_bound(times, one, other) for one, other in itertools.combinations(machines, 2)]
    assert shop.bound() == shop.bound("machines") == plainly.bound(times)
    assert shop.bound("pairs") == max([plainly.bound(times), *pairs]) <= plainly.shortest(times)
    order, cells = plainly.neh(times), 2 * len(machines) * len(times)**2
    assert shop.neh() == pfs.Solution(order, plainly.makespan(times, order), cells, len(machines))


@given(plainly.shops_and_orders())
def test_schedule_critical_path_and_idle_times(case: tuple[plainly.Table, list[int]]) -> None:
    times, order = case
    made = pfs.Instance(times).schedule(order)
    rows = plainly.schedule(times, order)
    assert made.order.tolist() == order
    assert made.starts.tolist() == [[start for start, _ in row] for row in rows]
    assert made.ends.tolist() == [[end for _, end in row] for row in rows]
    assert made.makespan == rows[-1][-1][1]
    operations = [[job, machine, *row[machine]] for job, row in zip(order, rows) for machine in range(len(row))]
    # In a CSV only those that take time; of a job that takes none there is the first.
    worked = [[job, machine, start, end] for job, machine, start, end in operations
              if start < end or machine == 0 and not any(times[job])]
    assert list(csv.reader(io.StringIO(made.to_csv() or ""))) == [["job", "machine", "start", "end"],
                                                                  *([str(cell) for cell in row] for row in worked)]
    frame = made.to_frame()
    assert list(frame.columns) == ["job", "machine", "start", "end"]
    assert frame.to_numpy().tolist() == operations
    path = made.critical_path()
    assert path[0] == (0, 0) and path[-1] == (len(order) - 1, len(times[0]) - 1)
    steps = [(after[0] - before[0], after[1] - before[1]) for before, after in zip(path, path[1:])]
    assert set(steps) <= {(0, 1), (1, 0)}
    assert sum(times[order[place]][machine] for place, machine in path) == plainly.makespan(times, order)
    assert all(type(number) is int for operation in path for number in operation)
    due = [[start - (rows[place - 1][machine][1] if place else 0) for machine, (start, _) in enumerate(row)]
           for place, row in enumerate(rows)]
    assert made.idle().tolist() == due and made.idle().dtype == np.int64
    made.idle()[:] = 7
    assert made.starts.tolist() == [[start for start, _ in row] for row in rows], "idle times share memory with starts"


@pytest.mark.parametrize("names", [{"job_names": ["table", "chair, small"]}, {"machine_names": ["saw", "drill"]}, {}])
def test_a_schedule_has_the_names_that_there_are(names: dict[str, Any], tmp_path: pathlib.Path,
                                                 monkeypatch: pytest.MonkeyPatch) -> None:
    """And times with the decimals of the instance."""
    made = pfs.Instance([[30, 25], [20, 50]], **names, decimals=1).schedule([1, 0])
    (table, chair), (saw, drill) = (names.get(name, [0, 1]) for name in ("job_names", "machine_names"))
    due = [[chair, saw, 0.0, 2.0], [chair, drill, 2.0, 7.0], [table, saw, 2.0, 5.0], [table, drill, 7.0, 9.5]]
    assert made.to_frame().to_numpy().tolist() == due
    assert made.to_csv(tmp_path / "plan.csv") is None
    with open(tmp_path / "plan.csv", newline="") as file:
        assert list(csv.reader(file))[1:] == [list(map(str, row)) for row in due]
    assert (made.to_csv(delimiter=";") or "").splitlines()[-1] == f"{table};{drill};7,0;9,5"
    modules: dict[str, Any] = sys.modules
    monkeypatch.setitem(modules, "pandas", None)
    with pytest.raises(ImportError, match="to_frame needs pandas"):
        made.to_frame()


@pytest.mark.parametrize("delimiter", [",", ";", "\t"])
@pytest.mark.parametrize("name", ["car\rriage", "two\nlines", "both\r\n", '"quoted"', "a,b;c\td", " ", "", "=1", " =1",
                                  "-1", "+a", "@a", "\t", "\r"])
def test_a_name_is_one_cell(tmp_path: pathlib.Path, name: str, delimiter: str) -> None:
    """A reader of CSV finds the rows, with each name as it is."""
    shop = pfs.Instance([[1, 2]], job_names=[name], machine_names=["saw", f"{name}2"])
    shop.schedule([0]).to_csv(tmp_path / "plan.csv", delimiter)
    with open(tmp_path / "plan.csv", newline="", encoding="utf-8") as file:
        rows = list(csv.reader(file, delimiter=delimiter, strict=True))
    # A spreadsheet would take these for formulas.
    mark = "'" if name.strip()[:1] in tuple("=+-@") or name in ("\r", "\t") else ""
    due = [["job", "machine", "start", "end"], [mark + name, "saw", "0", "1"],
           [mark + name, f"{mark}{name}2", "1", "3"]]
    assert rows == due, f"the name {name!r} has broken a row"
    text = (tmp_path / "plan.csv").read_bytes().decode()
    # Spreadsheets end rows at a carriage return that isn't quoted.
    assert re.sub('"[^"]*"', "", text).count("\r") == 0 and text.replace('"', "").endswith("3\n")


def test_the_greatest_shops() -> None:
    shop = pfs.Instance(np.full((5000, 200), 1_000_000_000))
    assert shop.times.dtype == np.int64, "times and their differences wrap"
    assert shop.makespan(range(5000)) == shop.bound() == 5199 * 10**9
    assert shop.schedule(np.arange(5000)).makespan == 5199 * 10**9
    shop = pfs.generate(5000, 1, 1)
    assert (shop.n_jobs, shop.n_machines) == (5000, 1)
    found = shop.insert_all(range(2500), range(2500, 5000))
    assert sorted(found.jobs.tolist()) == [*range(5000)] and found.makespan == shop.makespan(found.jobs)
    assert shop.heads(range(5000))[-1, -1] == found.makespan
    # On one machine all orders take equally long.
    assert shop.places(range(1, 5000), 0).tolist() == [found.makespan] * 5000


def test_rpd() -> None:
    shop = pfs.Instance([[3, 2], [2, 5]], upper=8)
    spans: list[Any] = [8, 10, 6, np.int64(16), 0]
    assert [shop.rpd(span) for span in spans] == [0, 25, -25, 100, -100]
    assert shop.rpd(pfs.Solution([1, 0], 9)) == 12.5 and shop.rpd(9, reference=10) == -10
    assert pfs.Instance([[1]]).rpd(3, 2) == 50


def test_returned_arrays_are_read_only() -> None:
    times = np.array([[3, 2], [2, 5], [4, 1]], dtype=np.uint32)
    shop = pfs.Instance(times)
    times[:] = 9
    assert shop.times.tolist() == [[3, 2], [2, 5], [4, 1]]
    made = shop.schedule([0, 1, 2])
    kept: Any
    current = shop.solve(1, method="iterated-greedy").current
    for kept in (shop.times, shop.neh().order, made.order, made.starts, made.ends, current):
        with pytest.raises(ValueError, match="read-only"):
            kept[0] = 1
    for kept in (shop.times, shop.times.base):
        with pytest.raises((ValueError, AttributeError)):
            kept.flags.writeable = True
    for name in ("times", "jobs", "machines"):
        with pytest.raises(AttributeError):
            setattr(shop, name, getattr(shop, name))


def test_a_result_stays_as_it_is() -> None:
    """After another call on the same object, and the same call has the same result after the caller has changed it."""
    shop, one, other = pfs.taillard(1), [*range(20)], [*range(20)][::-1]
    calls: list[Callable[[list[int]], Any]] = [
        shop.heads, shop.tails, lambda own: shop.places(own[1:], own[0]), lambda own: shop.makespans([own, own[::-1]]),
        lambda own: shop.schedule(own).starts, lambda own: shop.schedule(own).ends,
        lambda own: shop.schedule(own).idle(), lambda own: shop.insert_all(own[:9], own[9:]).jobs,
        lambda own: shop.local_search(own).jobs, lambda own: shop.solve(2, start=own).order]
    for call in calls:
        found = call(one)
        before = found.tolist()
        assert call(other).tolist() != before and found.tolist() == before
        if found.flags.writeable:
            found[:] = 0
        assert call(one).tolist() == before


# Each parameter of a class whose objects are compared, with two values. The first ones make an object in which no
# attribute has its default.
INSTANCES: dict[str, tuple[Any, Any]] = {
    "times": ([[3, 2], [2, 5]], [[3, 2], [2, 6]]), "name": ("plan", "other"), "unit": ("h", "min"),
    "job_names": (("table", "chair"), ("table", "box")), "machine_names": (("saw", "drill"), ("saw", "paint")),
    "decimals": (2, 3), "seed": (7, 8), "upper": (19, 20), "lower": (11, 12)}
SOLUTIONS: dict[str, tuple[Any, Any]] = {
    "order": ([1, 0], [0, 1]), "makespan": (9, 10), "cells": (16, 17), "machines": (2, 3), "rounds": (5, 6),
    "seed": (7, 8)}
COMPARED = {pfs.Instance: INSTANCES, pfs.Solution: SOLUTIONS}


def made_of(kind: type[Any], changed: str = "") -> Any:
    """An object of the first values, but for one."""
    return kind(**{name: values[name == changed] for name, values in COMPARED[kind].items()})


@pytest.mark.parametrize("kind", COMPARED)
def test_each_parameter_is_compared(kind: type[Any]) -> None:
    """Objects of which one attribute is another are unequal."""
    assert set(inspect.signature(kind).parameters) == COMPARED[kind].keys()
    kept = kept_by(made_of(kind))
    assert {name: kept[name] for name in COMPARED[kind]} == {name: one for name, (one, _) in COMPARED[kind].items()}
    defaults = {name: parameter.default for name, parameter in inspect.signature(kind).parameters.items()}
    assert not [name for name in COMPARED[kind] if kept[name] == defaults[name]], "a default"
    for name in COMPARED[kind]:
        one, other = made_of(kind), made_of(kind, name)
        assert not one == other and one != other, f"two of another {name} are equal"
    assert (made_of(kind) == 5) is False


def kept_by(thing: Any) -> dict[str, Any]:
    """Each attribute, as a list, a text or a number."""
    names = [name for name in getattr(thing, "__slots__", None) or vars(thing) if name[0] != "_"]
    values = {name: getattr(thing, name) for name in [*names, *(["times"] if isinstance(thing, pfs.Instance) else [])]}
    return {name: value.tolist() if isinstance(value, np.ndarray) else list(map(kept_by, value)) if name == "others"
            else value for name, value in values.items()}


@pytest.mark.parametrize("protocol", [*range(pickle.HIGHEST_PROTOCOL + 1), None])
def test_a_copy_has_each_attribute(protocol: int | None) -> None:
    """Pickled by a protocol, or copied."""
    things: list[Any] = [
        *map(made_of, COMPARED), pfs.taillard(1).solve(200, history=True), made_of(pfs.Instance).schedule([1, 0]),
        pfs.FileFault("file", 24, 17, 3, 2, "a hint"), pfs.OrderFault("order", 31, 3),
        pfs.TableFault("plan.csv", 4, 2, "no time", "saw", (pfs.TableFault("plan.csv", 5, 2, "none"),)),
        pfs.Interrupted(pfs.Solution([1, 0], 9, 16, 2, 5)), pfs.InterruptedAll({(0, 1): pfs.Solution([0], 1)})]
    for one in things:
        if isinstance(one, pfs.Schedule) and protocol in (0, 1):
            continue
        other = copy.copy(one) if protocol is None else pickle.loads(pickle.dumps(one, protocol))
        assert type(other) is type(one) and str(other) == str(one)
        assert kept_by(other) == kept_by(one) != {}, "an attribute is lost"
        if type(one) in COMPARED:
            assert other == one and hash(other) == hash(one) and one != 1
    assert pfs.taillard(1).solve(200, history=True) == pfs.taillard(1).solve(200), "the history is compared"


def test_jupyter_shows_tables() -> None:
    """Of at most 20 jobs and machines, with their names, as text."""
    shop = pfs.Instance([[30, 20], [25, 5]], name="<b>", job_names=["<i>", "b"], machine_names=["saw", "&"], decimals=1)
    assert shop._repr_html_() == (
        "<p>Instance &lt;b&gt;: 2 jobs, 2 machines</p><table><tr><td></td><td>saw</td><td>&amp;</td></tr>"
        "<tr><td>&lt;i&gt;</td><td>3.0</td><td>2.0</td></tr><tr><td>b</td><td>2.5</td><td>0.5</td></tr></table>")
    for size, shown in ((20, 20), (21, 20)):
        assert pfs.generate(size, size, 1)._repr_html_().count("<td>") == (shown + 1) ** 2
    best = pfs.Solution([1, 0], 6)
    row = "<tr><td>order, from 0</td><td>1 0</td></tr></table>"
    for bound, text in ((0, "6</td></tr>"), (5, "6</td></tr><tr><td>bound</td><td>5</td></tr>"),
                        (6, "6, optimal</td></tr>")):
        best.bound = bound
        assert best._repr_html_() == f"<table><tr><td>makespan</td><td>{text}{row}"


def test_instances_and_solutions_are_shown() -> None:
    shop = pfs.taillard(1)
    assert shop != pfs.taillard(2) and shop.neh() != shop.solve(100)
    assert repr(shop) == "<Instance ta001: 20 jobs, 5 machines>"
    assert repr(pfs.Instance([[1]])) == "<Instance 1 jobs, 1 machines>"
    shown = "0, 1, 2, 3, 4, 5, 6, 7, ..., 22, 23, 24, 25, 26, 27, 28, 29"
    assert repr(pfs.Solution(range(30), 7)) == f"Solution(order=[{shown}], makespan=7)"
    assert str(pfs.Interrupted(pfs.Solution([1, 0], 9, 16, 2, 5))) == "interrupted after round 5, makespan 9"
    assert str(pfs.InterruptedAll({(0, 1): shop.neh()})) == "interrupted after 1 searches"
    assert repr(pfs.Solution(range(3), 7)) == "Solution(order=[0, 1, 2], makespan=7)"
    assert repr(shop.schedule(range(20))) == f"Schedule(20 jobs, 5 machines, makespan={shop.makespan(range(20))})"


def test_a_frame_keeps_its_names() -> None:
    pandas = pytest.importorskip("pandas")
    frame = pandas.DataFrame([[3, 2], [2, 5]], index=["table", 7], columns=["saw", "drill"])
    for shop in (pfs.Instance(frame), pfs.from_frame(frame)):
        assert shop.times.tolist() == [[3, 2], [2, 5]]
        assert shop.makespan(pandas.Series([1, 0])) == plainly.makespan([[3, 2], [2, 5]], [1, 0])
        assert (shop.job_names, shop.machine_names) == (("table", "7"), ("saw", "drill"))
    assert pfs.Instance(frame, job_names=["a", "b"]).job_names == ("a", "b")
    plain = pfs.Instance(pandas.DataFrame([[3, 2], [2, 5]]))
    assert (plain.job_names, plain.machine_names) == (None, None)
    assert pfs.Instance(frame.iloc[::-1].T).job_names == ("saw", "drill")
    with pytest.raises(ValueError, match="job_names: 'a' occurs twice"):
        pfs.Instance(pandas.DataFrame([[1], [2], [3]], index=["b", "a", "a"]))


@pytest.mark.parametrize(("times", "decimals", "due"), [
    ([[2.5, 3]], 1, [[25, 30]]), ([[0.1, 0.2, 0.3, 0.7]], 1, [[1, 2, 3, 7]]), ([[1.005, 4.35]], 3, [[1005, 4350]]),
    ([[999_999.999]], 3, [[999_999_999]]), ([[3, 2]], 2, [[300, 200]]), ([[3.0, 2.0]], 0, [[3, 2]]),
    (np.array([[99_999.9]], np.float32), 1, [[999_999]]), (np.array([[3, 2.5]], object), 1, [[30, 25]])])
def test_a_frame_of_decimal_times(times: Any, decimals: int, due: list[list[int]]) -> None:
    pandas = pytest.importorskip("pandas")
    shop = pfs.from_frame(pandas.DataFrame(times), decimals=decimals, unit="h")
    assert (shop.times.tolist(), shop.decimals, shop.unit) == (due, decimals, "h")
    for dtype in ("object", "category", "Float64"):
        frame = pandas.DataFrame({"saw": pandas.Series([2, 3], dtype=dtype), "drill": [4, 5]})
        assert pfs.from_frame(frame, decimals=1).times.tolist() == [[20, 40], [30, 50]], f"{dtype} isn't scaled"


def test_jobs_by_their_names() -> None:
    times = [[3, 2], [2, 5], [4, 1]]
    shop = pfs.Instance(times, job_names=["table", "chair", "box"])
    orders: list[Any] = [["chair", "table", "box"], ("chair", "table", "box"), np.array(["chair", "table", "box"]),
                         np.array(["chair", "table", "box"], dtype=object)]
    for order in orders:
        assert shop.makespan(order) == plainly.makespan(times, [1, 0, 2])
        assert shop.schedule(order).order.tolist() == [1, 0, 2]
        assert shop.solve(0, start=order).order.tolist() == [1, 0, 2]
    assert shop.makespan(["box"]) == 5 and shop.makespan([]) == 0
    assert shop.solve(1, hold=["box", "table"]).order.tolist() == [2, 0, 1]
    assert shop.solve(1, hold=pfs.Solution([1, 2, 0], 1)).order.tolist() == [1, 2, 0]


# Building blocks of search methods: heads and tails, construction and local search

@given(st.data(), plainly.shops_and_sequences(), st.integers(0, 3))
def test_building_blocks(data: st.DataObject, case: tuple[plainly.Table, list[int]], passes: int) -> None:
    """Heads are the ends of the schedule, and tails those of the reversed one. A pass is an improvement of at most one
    pass; without a number of passes there are up to 100. Without a rule for ties the first place is the best."""
    times, sequence = case
    shop, plain = pfs.Instance(times), second_program.instance_of(times)
    ends = [[end for _, end in row] for row in plainly.schedule(times, sequence)]
    heads = shop.heads(sequence)
    assert heads.tolist() == ends and heads.shape == (len(sequence), len(times[0])) and heads.dtype == np.int64
    backwards = plainly.schedule([row[::-1] for row in times], sequence[::-1])
    assert shop.tails(sequence).tolist() == [[end for _, end in row][::-1] for row in backwards][::-1]
    more = data.draw(st.permutations(sorted({*range(shop.jobs)} - {*sequence})))
    rules: list[tuple[int, dict[str, Any]]] = [(0, {}), *((rule, {"ties": name}) for name, rule in TIES.items())]
    for rule, words in rules:
        due = sequence
        for job in more:
            best = shop.best_place(due, job, **words)
            due = second_library.placed(plain, due, 0, job, rule)
            assert best == (due.index(job), plainly.makespan(times, due))
        order, makespan = shop.insert_all(sequence, more, **words)
        assert (order.tolist(), makespan) == (due, plainly.makespan(times, due))
        due = due if rule else sequence
        some = data.draw(st.permutations(due))[:data.draw(st.integers(0, len(due)))]
        calls: list[tuple[list[int], dict[str, Any]]] = [(some, {"jobs": some}), (sorted(due), {})]
        for jobs, more_words in calls:
            once = due
            for _ in range(passes):
                once = second_library.improved(plain, once, 0, jobs, 1, rule)
            for count, found in ((passes, once), (None, second_library.improved(plain, due, 0, jobs, 100, rule))):
                got = shop.local_search(due, passes=count, **more_words, **words)
                assert (got.jobs.tolist(), got.makespan) == (found, plainly.makespan(times, found))


def test_a_number_of_passes_is_made_in_full() -> None:
    """Of this instance the first pass gains nothing, and the second one moves jobs nevertheless."""
    shop = pfs.Instance([[0, 0], [0, 1], [1, 0], [0, 1]])
    once = shop.local_search(range(4), ties="idle")
    twice = shop.local_search(once, ties="idle")
    assert shop.makespan(range(4)) == once.makespan and once.jobs.tolist() != twice.jobs.tolist()
    assert shop.local_search(range(4), passes=2, ties="idle").jobs.tolist() == twice.jobs.tolist()
    assert shop.local_search(range(4), passes=None, ties="idle").jobs.tolist() == once.jobs.tolist()


def test_a_sequence_is_taken_where_an_order_is() -> None:
    """As the list of its jobs."""
    shop = pfs.taillard(1)
    found = shop.insert_all([], range(20))
    calls: list[Callable[[Any], object]] = [
        shop.makespan, shop.check, shop.heads, shop.tails, shop.local_search, lambda own: shop.makespans([own, own]),
        lambda own: shop.schedule(own).starts, lambda own: shop.solve(2, start=own),
        lambda own: shop.solve(2, hold=own), lambda own: shop.insert_all([], own),
        lambda own: pfs.Solution(own, found.makespan)]
    assert [repr(call(found)) for call in calls] == [repr(call(found.jobs.tolist())) for call in calls]
    assert shop.check(found).valid and not shop.check(found._replace(makespan=1)).valid
    assert shop.rpd(found) == shop.rpd(found.makespan)
    others = pfs.Sequence(found.jobs[1:], 0)
    assert shop.best_place(others, int(found.jobs[0])) == shop.best_place(others.jobs, int(found.jobs[0]))
    assert (shop.places(others, int(found.jobs[0])) == shop.places(others.jobs, int(found.jobs[0]))).all()
