"""Validation of arguments: arrays of all kinds are read correctly or rejected, with the cause and the position. Nothing
is read out of bounds."""
import functools
import io
from collections.abc import Callable
from typing import Any

import numpy as np
import numpy.typing as npt
import pfs
import pytest
from hypothesis import given
from hypothesis import strategies as st
from hypothesis.extra import numpy as arrays
from pfs.shops import instance as _instance
from pfs.binding import library as _library, validate as _validate
from support import plainly

TIMES = [[3, 2], [2, 5], [4, 1]]
KINDS = ["<u1", "<i1", "<u2", ">u2", "<i4", ">i4", "<u4", ">u4", "<i8", ">i8", "<u8", ">u8", "<f2", ">f4", "<f8", ">f8"]


def makes(values: npt.ArrayLike, kind: str) -> list[npt.NDArray[Any]]:
    """The same array with strides, in both directions, by columns, and read-only."""
    plain = np.array(values, dtype=kind)
    wide = np.zeros(tuple(2 * size for size in plain.shape), dtype=kind)
    wide[tuple(slice(None, None, 2) for _ in plain.shape)] = plain
    turned = np.array(plain[tuple(slice(None, None, -1) for _ in plain.shape)])
    fixed = plain.copy()
    fixed.flags.writeable = False
    return [plain, wide[tuple(slice(None, None, 2) for _ in plain.shape)],
            turned[tuple(slice(None, None, -1) for _ in plain.shape)], np.asfortranarray(plain), fixed]


@pytest.mark.parametrize("kind", KINDS)
def test_arrays_of_each_make(kind: str) -> None:
    """What is validated is a copy, so nothing that another thread writes afterwards counts."""
    for times in makes(TIMES, kind):
        assert pfs.Instance(times).times.tolist() == TIMES
        assert not np.shares_memory(_validate.array_copy(times, "times"), times)
    shop = pfs.Instance(TIMES)
    for order in makes([1, 0, 2], kind):
        assert shop.makespan(order) == plainly.makespan(TIMES, [1, 0, 2])
        assert shop.schedule(order).order.tolist() == [1, 0, 2]
        assert shop.solve(0, start=order).order.tolist() == [1, 0, 2]
        assert shop.best_place(order[:2], 2) == plainly.best_place(TIMES, [1, 0], 2)
        assert pfs.Solution(order, 1).order.tolist() == [1, 0, 2]


def test_lists_of_each_make() -> None:
    shop = pfs.Instance(tuple(tuple(row) for row in TIMES))
    assert shop == pfs.Instance(np.array(TIMES, dtype=object))
    span = plainly.makespan(TIMES, [1, 0, 2])
    orders: list[Any] = [
        (1, 0, 2), [np.uint8(1), 0, np.int64(2)], np.array([1, 0, 2], dtype=object), [1.0, 0.0, 2.0],
        pfs.Solution([1, 0, 2], 0)]
    for order in orders:
        assert shop.makespan(order) == span
    assert shop.makespan(range(3)) == plainly.makespan(TIMES, [0, 1, 2])
    assert shop.makespan([]) == shop.makespan(np.array([])) == shop.makespan(()) == 0
    large = pfs.generate(400, 2, 3)
    for kind in ("<i8", "<u4", ">u2", "<f8"):
        falling = np.arange(400, dtype=kind)[::-1]
        assert large.makespan(falling) == plainly.makespan(large.times.tolist(), list(range(399, -1, -1)))


SHOP, NAMED = pfs.Instance(TIMES), pfs.Instance(TIMES, job_names=["table", "chair", "box"])
NAMES: list[tuple[Any, type[Exception], str]] = [
    (["chair", "bed", "box"], ValueError, "^(order|start): 'bed' at place 1 isn't the name of a job"),
    (["chair", 0, "box"], TypeError, "^(order|start): 0 at place 1 isn't a name, but others are"),
    (["chair", "table", "chair"], ValueError, "job 1 occurs twice, at places 0 and 2"),
    ([0, "table", "box"], TypeError, "^(order|start) must be whole numbers")]
INSERTIONS: list[tuple[Any, type[Exception], str]] = [
    (([0, 1], 3), ValueError, "job must be from 0 to 2, not 3"),
    (([0, 1], -1), ValueError, "job must be from .*, not -1"),
    (([0, 1], 1), ValueError, "job 1 is already in the sequence"),
    (([0, 0], 1), ValueError, "sequence: job 0 occurs twice, at places 0 and 1"),
    (([0, 7], 1), ValueError, "sequence: 7 at place 1 isn't a job"),
    ((["0"], 1), TypeError, "sequence has names, which this method doesn't take: use numbers from 0"),
    (([0, 1, 2, 0, 1], 1), ValueError, "sequence: job 0 occurs twice, at places 0 and 3"),
    (([0, 1], 2.0), TypeError, "job must be an integer, not 2.0"),
    (([0, 1], 2**64 + 2), ValueError, "job must be from .*, not 18446744073709551618")]
REJECTED: dict[Callable[[Any], object], list[tuple[Any, type[Exception], str]]] = {
    pfs.Instance: [
        ([3, 2], ValueError, r"a row for each job and a column for each machine, not the shape \(2,\)"),
        ([[1, 2], [3]], ValueError, "times can't be converted to an array: setting an array element with a sequence"),
        (np.zeros((0, 2)), ValueError, "times has 0 jobs and 2 machines"),
        (np.zeros((2, 0)), ValueError, "times has 2 jobs and 0 machines"),
        (np.zeros((5001, 1)), ValueError, "times has 5,001 jobs and 1 machines"),
        (np.zeros((1, 201)), ValueError, "times has 1 jobs and 201 machines"),
        ([[1, 2], [3, 2.5]], ValueError, "times: 2.5 at job 1, machine 1 isn't a whole number"),
        ([[1, float("inf")]], ValueError, "times: inf at job 0, machine 1 isn't a whole number"),
        (np.array([[-1]], dtype=np.int8), ValueError, "times: -1 at job 0, machine 0 isn't from 0 to"),
        ([[1, 1_000_000_001]], ValueError, "times: 1000000001 at job 0, machine 1 isn't from 0 to 1,000,000,000"),
        ([[1, 2**70]], ValueError, "times: 1180591620717411303424 at job 0, machine 1 isn't from 0 to"),
        ([[1, None]], TypeError, "times: None at job 0, machine 1 isn't a whole number"),
        (np.array([[2**32]], dtype=np.float32), ValueError, "times: 42949[.0-9]+ at job 0, machine 0 isn't from 0 to"),
        (np.array([[2**63]], dtype=np.uint64), ValueError, "times: 9223372036854775808 at job 0"),
        ([["1", "2"]], TypeError, "times must be whole numbers, not of dtype <U1"),
        ([[True, 2], [3, 4]], TypeError, "times must be whole numbers, not of dtype bool"),
        ([[1, 2], (3, np.False_)], TypeError, "times must be whole numbers, not of dtype bool"),
        (np.array([[1, np.True_]], dtype=object), TypeError, "times: True at job 0, machine 1 isn't a whole number"),
        (np.array([[1]], dtype="M8[s]"), TypeError, "not of dtype datetime"),
        (np.ma.masked_array([[1, 2]], mask=[[False, True]]),  # type: ignore[no-untyped-call]
         TypeError, "masked"),
        ([[3, 4], np.ma.masked_array([1, 2], mask=[False, True])],  # type: ignore[no-untyped-call]
         TypeError, "masked"),
        (None, ValueError, r"not the shape \(\)"),
    ],
    SHOP.makespan: [
        ([0, 3], ValueError, "order: 3 at place 1 isn't a job: jobs are 0 to 2"),
        ([1, 0, 1], ValueError, "order: job 1 occurs twice, at places 0 and 2"),
        ([0, -1], ValueError, "order: -1 at place 1 isn't a job"),
        (np.array([0, 2**63], dtype=np.uint64), ValueError, "order: 9223372036854775808 at place 1 isn't a job"),
        ([0, 0.5], ValueError, "order: 0.5 at place 1 isn't a whole number"),
        ([0, "1"], TypeError, "order must be whole numbers"),
        (["table"], TypeError, "^order has names, but the jobs of the instance have none"),
        ([0, None], TypeError, "order: None at place 1 isn't a whole number"),
        ([True, False], TypeError, "order must be whole numbers, not of dtype bool"),
        (np.array([True, False]), TypeError, "order must be whole numbers, not of dtype bool"),
        ([2, np.True_, 0], TypeError, "order must be whole numbers, not of dtype bool"),
        (np.array([2, True, 0], dtype=object), TypeError, "order: True at place 1 isn't a whole number"),
        (np.array([1, 2**32], dtype=np.longdouble), ValueError, "order: 42949[.0-9]+ at place 1 isn't a job"),
        (np.array([0, 200], dtype=np.uint8), ValueError, "order: 200 at place 1 isn't a job: jobs are 0 to 2"),
        (np.array([np.int8(-1)], dtype=object), ValueError, "order: -1 at place 0 isn't a job"),
        ([[0, 1, 2]], ValueError, r"order must be a list of jobs, not of the shape \(1, 3\)"),
        (None, ValueError, r"not of the shape \(\)"),
        ([0, [1]], ValueError, "order can't be converted to an array"),
        (np.zeros(100_000, dtype=np.uint32), ValueError, "order: job 0 occurs twice, at places 0 and 1"),
    ],
    SHOP.schedule: [
        ([0, 1], ValueError, "order has 2 jobs, but the instance has 3"),
        ([0, 1, 2, 0], ValueError, "order has 4 jobs, but"), ([], ValueError, "order has 0 jobs, but"),
        (pfs.Solution([0, 1, 2], 11, 0, 3), ValueError, "^order is an order for 3 machines, but the instance has 2$"),
        ([0, 1, 0], ValueError, "order: job 0 occurs twice, at places 0 and 2")],
    NAMED.makespan: NAMES, NAMED.schedule: NAMES, lambda start: NAMED.solve(0, start=start): NAMES,
    lambda given: SHOP.places(*given): INSERTIONS, lambda given: SHOP.best_place(*given): INSERTIONS,
    SHOP.makespans: [
        ([0, 1], ValueError, r"orders must have a row for each sequence of jobs, not the shape \(2,\)"),
        ([[0, 1], [0]], ValueError, "orders can't be converted to an array"),
        ([[0, 1], [1, 3]], ValueError, "orders, row 1: 3 at place 1 isn't a job: jobs are 0 to 2"),
        ([[0, 1], [2, 2]], ValueError, "orders, row 1: job 2 occurs twice, at places 0 and 1"),
        ([[0, -1]], ValueError, "orders: -1 at row 0, place 1 isn't a job"),
        ([[0, 2**32]], ValueError, "orders: 4294967296 at row 0, place 1 isn't a job"),
        ([[0, 0.5]], ValueError, "orders: 0.5 at row 0, place 1 isn't a whole number"),
        ([[True, False]], TypeError, "orders must be whole numbers, not of dtype bool"),
        ([["a"]], TypeError, "orders must be whole numbers"), (None, ValueError, "orders must have a row"),
        (np.zeros((2, 100_000), dtype=np.uint32), ValueError, "orders, row 0: job 0 occurs twice")],
    lambda words: pfs.generate(*words): [
        ((0, 1, 1), ValueError, "jobs must be from 1 to 5,000, not 0"),
        ((5001, 1, 1), ValueError, "jobs must be from .*, not 5001"),
        ((1, 201, 1), ValueError, "machines must be from 1 to 200, not 201"),
        ((1, 1, 0), ValueError, "seed must be from 1 to 2,147,483,646, not 0"),
        ((1, 1, 2**31 - 1), ValueError, "seed must be from .*, not 2147483647"),
        ((1.0, 1, 1), TypeError, "jobs must be an integer, not 1.0"),
    ],
    SHOP.bound: [(method, kind, "method must be 'machines' or 'pairs', not ") for method, kind in
                 (("johnson", ValueError), ("", ValueError), (None, TypeError), (b"pairs", TypeError))],
    lambda words: SHOP.rpd(*words): [
        ((9,), ValueError, "rpd needs a reference, since `upper` of the instance is 0"),
        ((-1, 5), ValueError, "makespan must be from 0 to [0-9,]+, not -1"),
        ((9, 0), ValueError, "reference must be from 1 to [0-9,]+, not 0"),
        ((9.5, 5), TypeError, "makespan must be an integer, not 9.5"), ((True, 5), TypeError, "makespan must be"),
        ((9, True), TypeError, "reference must be"), (([1, 0], 5), TypeError, "makespan must be an integer"),
        ((2**64, 5), ValueError, "makespan must be from .*, not 18446744073709551616")],
    lambda given: getattr(SHOP, given[0])(given[1]): [
        (("heads", [0, 0]), ValueError, "sequence: job 0 occurs twice, at places 0 and 1"),
        (("tails", [3]), ValueError, "sequence: 3 at place 0 isn't a job: jobs are 0 to 2"),
        (("heads", [0, 1, 2, 0]), ValueError, "sequence: job 0 occurs twice, at places 0 and 3"),
        (("heads", "0"), ValueError, "sequence must be a list of jobs"),
        (("local_search", [0, 4]), ValueError, "sequence: 4 at place 1 isn't a job")],
    lambda given: SHOP.insert_all(*given): [
        (([0, 0], [1]), ValueError, "sequence: job 0 occurs twice"),
        (([0], [1, 1]), ValueError, "jobs: job 1 occurs twice"),
        (([0], [1, 7]), ValueError, "jobs: 7 at place 1 isn't a job"), (([0], [1.5]), ValueError, "jobs: 1.5"),
        (([2, 0], [1, 0]), ValueError, "^job 0 is already in the sequence"),
        (([0, 1, 2], range(9000)), ValueError, "jobs: 3 at place 3 isn't a job"),
        (([0, 1, 2], [*range(3), *[0] * 20_000]), ValueError, "jobs: job 0 occurs twice, at places 0 and 3")],
    lambda given: SHOP.local_search([0, 1], *given[:-1], **given[-1]): [
        (([2], {}), ValueError, "^job 2 is not in the sequence"),
        (([1, 1], {}), ValueError, "jobs: job 1 occurs twice"),
        (({"passes": 101},), ValueError, "passes must be from 0 to 100"), (([0], 1, {}), TypeError, "positional"),
        (({"passes": True},), TypeError, "passes must be an integer"),
        (({"ties": "none"},), ValueError, "ties must be 'first' or 'idle', not 'none'"),
        (({"ties": 1},), TypeError, "ties must be")],
    lambda given: [SHOP.best_place([0], 1, ties=given), SHOP.insert_all([0], [1], ties=given)]: [
        ("none", ValueError, "ties must be 'first' or 'idle', not 'none'"), (None, TypeError, "ties must be")],
    pfs.from_frame: [(frame, TypeError, "frame must be a pandas DataFrame, not ") for frame in ([[1]], None)],
    lambda given: pfs.from_frame(pytest.importorskip("pandas").DataFrame(given[0]), decimals=given[1]): [
        (([[2.55]], 1), ValueError, "times: 25.5 at job 0, machine 0 isn't a whole number"),
        (([[2.5]], 0), ValueError, "times: 2.5 at job 0"), (([[1.0, float("nan")]], 1), ValueError, "nan at job 0"),
        (([[float("inf")]], 2), ValueError, "times: inf at job 0"), (([[-0.5]], 1), ValueError, "times: -5 at job 0"),
        (([[2.50000009]], 1), ValueError, "isn't a whole number"), (([[1e9]], 1), ValueError, "isn't from 0 to"),
        (([[1_000_000_001]], 0), ValueError, "isn't from 0 to 1,000,000,000"), (([[True]], 1), TypeError, "bool"),
        (([["x"]], 1), TypeError, "times: x at job 0, machine 0 isn't a whole number"),
        (([[1]], 10), ValueError, "decimals must be from 0 to 9, not 10"), (([[1]], True), TypeError, "decimals must")],
    SHOP.to_text: [("csv", ValueError, "layout must be 'taillard' or 'orlib', not 'csv'")],
    lambda words: pfs.read("x", *words): [
        ((0,), TypeError, "layout must be 'taillard', 'orlib' or 'matrix', not 0"),
        *((("orlib", block), ValueError, f"block must be from 1 to 1,000, not {block}") for block in (0, 1001))],
    lambda given: pfs.Solution(*given).to_text(): [
        (([0, 2], 1), ValueError, "order: 2 at place 1 isn't a job: jobs are 0 to 1"),
        (([1, 0, 1], 1), ValueError, "order: job 1 occurs twice, at places 0 and 2"),
        (([], 1), ValueError, "out of its limits"), (([0], 10**18), ValueError, "more than 18 digits")],
    lambda words: pfs.audit([{"instance": "a", "makespan": 1, "order": "1"}], **words): [
        ({"layout": "csv"}, ValueError, "^layout must be 'taillard', 'orlib', 'matrix', not 'csv'"),
        *(({"shops": shops}, TypeError, "shops must be instances by their names")
          for shops in ([1], {"a": 1}, {1: SHOP}))],
    lambda calendar: pfs.Instance([[1]], unit="h").schedule([0]).to_csv(calendar=calendar): [
        ("2026-11-30", TypeError, "calendar must be a Calendar, not '2026-11-30'")],
    lambda words: SHOP.solve(1, **words): [
        *(({"prove": value}, kind, f"^prove must be {why}$") for value, kind, why in (
            (-1, ValueError, "0 or more seconds, not -1.0"), (float("nan"), ValueError, "0 or more seconds, not nan"),
            ("1", TypeError, "a number of seconds, not '1'"), (True, TypeError, "a number of seconds, not True"))),
        *(({"prove": 1, name: [0]}, ValueError, "^prove needs a search without hold and move$")
          for name in ("hold", "move"))],
    SHOP.optimum: [(-1, ValueError, "^seconds must be 0 or more seconds, not -1.0$"),
                   ("1", TypeError, "^seconds must be a number of seconds, not '1'$")],
    lambda words: SHOP.optimum(1, **words): [
        *(({name: value}, kind, f"^{name} must be {why}")
          for name, least in (("nodes", 0), ("threads", 1), ("limit", 0))
          for value, kind, why in (
              (least - 1, ValueError, f"from {least} to "), (2**64, ValueError, f"from {least} to"),
              (1.5, TypeError, "an integer, not 1.5"), (True, TypeError, "an integer, not True"))),
        ({"threads": 1001}, ValueError, "^threads must be from 1 to 1,000, not 1001$"),
        ({"stop": 1}, TypeError, "^stop must be an event with `is_set`"),
        ({"start": [0, 1]}, ValueError, "^start has 2 jobs, but the instance has 3$")],
    pfs.taillard: [(at, ValueError, f"number must be from 1 to 120, not {at}") for at in (0, 121)],
    lambda words: pfs.Instance(TIMES, **words): [
        ({"job_names": ["a"]}, ValueError, "^job_names has 1 names, but 3 are needed$"),
        ({"machine_names": ["a", "a"]}, ValueError, "^machine_names: 'a' occurs twice$"),
        ({"decimals": 10}, ValueError, "decimals must be from .*, not 10"),
        ({"decimals": 1, "unit": "h:mm"}, ValueError, "decimals must be 0, not 1: times with the unit 'h:mm' are "),
        ({"seed": 2**32}, ValueError, "seed must be from .*, not 4294967296"),
        ({"job_names": "abc"}, TypeError, "^job_names must be a list of names, not 'abc'$"),
        ({"job_names": ["a", 1, "b"]}, TypeError, "^job_names: 1 at place 1 isn't a str$")],
}


@pytest.mark.parametrize(("call", "given", "kind", "why"), [(call, *row) for call, each in REJECTED.items()
                                                            for row in each])
def test_what_is_rejected(call: Callable[[Any], object], given: Any, kind: type[Exception], why: str) -> None:
    with pytest.raises(kind, match=why):
        call(given)


@pytest.mark.parametrize("truth", [True, np.True_])
def test_truth_values_are_no_numbers(truth: Any) -> None:
    shop = pfs.Instance(TIMES)
    calls: dict[str, Callable[[], Any]] = {
        "target": lambda: shop.solve(1, target=truth),
        "rounds": lambda: shop.solve(truth), "take": lambda: shop.solve(1, take=truth),
        "passes": lambda: shop.solve(1, passes=truth), "seed": lambda: shop.solve(1, seed=truth),
        "first": lambda: shop.solve(1, first=truth), "time_limit": lambda: shop.solve(1, time_limit=truth),
        "job": lambda: shop.best_place([0], truth), "number": lambda: pfs.taillard(truth),
        "jobs": lambda: pfs.generate(truth, 1, 1), "machines": lambda: pfs.generate(1, truth, 1),
        "seed of a generator": lambda: pfs.generate(1, 1, truth),
        **{f"{name} of an instance": functools.partial(pfs.Instance, TIMES, **{name: truth})
           for name in ("decimals", "seed", "upper", "lower")},
        **{f"{name} of a solution": functools.partial(pfs.Solution, [0], **({"makespan": 1} | {name: truth}))
           for name in ("makespan", "cells", "machines", "rounds")},
        "block": lambda: pfs.read(io.BytesIO(b""), "orlib", truth),
        "order": lambda: pfs.Solution([truth], 1), "start": lambda: shop.solve(1, start=[0, truth, 2]),
        "sequence": lambda: shop.best_place([truth], 0)}
    for name, call in calls.items():
        with pytest.raises(TypeError, match=rf"^{name.split()[0]} must be .*, not ({truth!r}|of dtype bool)$"):
            pytest.fail(f"{name} is {call()!r} for {truth!r}")


# Names of the functions that are called without types.
QUICK = ("quick_makespan", "quick_insert", "quick_insertions")
SCALARS = (arrays.integer_dtypes() | arrays.unsigned_integer_dtypes() | arrays.floating_dtypes()
           | arrays.boolean_dtypes() | arrays.complex_number_dtypes() | arrays.unicode_string_dtypes()
           | arrays.byte_string_dtypes() | arrays.datetime64_dtypes())
ANYTHING = st.recursive(st.none() | st.booleans() | st.integers() | st.floats() | st.text() | st.binary(),
                        lambda some: st.lists(some) | st.dictionaries(st.text(), some) | st.tuples(some), max_leaves=8)
ARRAYS = arrays.arrays(SCALARS, arrays.array_shapes(min_dims=0, max_dims=3, min_side=0, max_side=4))


@given(ANYTHING | ARRAYS)
def test_anything_as_times(times: Any) -> None:
    """It is an instance of what numpy says that it is, or rejected."""
    try:
        shop = pfs.Instance(times)
    except (TypeError, ValueError):
        return
    assert np.array_equal(shop.times, np.array(times))
    assert shop.neh().makespan >= shop.bound()


@given(ANYTHING | ARRAYS | arrays.arrays(np.int64, st.integers(0, 6), elements=st.integers(-1, 5)))
def test_anything_as_an_order(order: Any) -> None:
    shop = pfs.generate(5, 3, 1)
    calls: list[Callable[[], int]] = [
        lambda: shop.makespan(order), lambda: shop.schedule(order).makespan, lambda: shop.best_place(order, 4).place,
        lambda: shop.solve(1, start=order).makespan if order is not None else 0]
    for call in calls:
        try:
            assert call() >= 0
        except (TypeError, ValueError):
            pass


@pytest.mark.parametrize("kind", [np.uint32, np.int64])
@pytest.mark.parametrize("jobs", [3, 300])
def test_an_order_that_changes_while_it_is_used_is_validated_as_a_copy(monkeypatch: pytest.MonkeyPatch, jobs: int,
                                                                      kind: Any) -> None:
    """What the library is called with isn't the caller's memory, however long the order is."""
    shop = pfs.generate(jobs, 2, 1)
    order = np.arange(jobs, dtype=kind)
    seen: list[tuple[object, ...]] = []

    def noting(real: Callable[..., int]) -> Callable[..., int]:
        def call(*words: object) -> int:
            seen.append(words)
            return real(*words)

        return call

    for name in ("pfs_makespan", "pfs_table", "pfs_rounds"):
        monkeypatch.setattr(_library.library, name, noting(getattr(_library.library, name)))
    for name in QUICK:
        monkeypatch.setattr(_instance, name, noting(getattr(_instance, name)))
    calls: list[Callable[[], object]] = [
        lambda: shop.makespan(order), lambda: shop.schedule(order), lambda: shop.solve(1, start=order),
        lambda: shop.best_place(order[:-1], jobs - 1)]
    for each in calls:
        each()
    own = {order.ctypes.data, id(order)}
    assert len(seen) >= 4
    assert not [words for words in seen if not own.isdisjoint(map(id, words)) or not own.isdisjoint(
        word for word in words if isinstance(word, int))], "the library reads the caller's memory"


# A call of each function of the library.
CALLS: dict[str, Callable[[], Any]] = {
    "pfs_prepare": lambda: pfs.Instance(TIMES).bound(), "pfs_makespan": lambda: SHOP.makespan([0, 1, 2]),
    "pfs_bound": SHOP.bound, "pfs_pairs_bound": lambda: SHOP.bound("pairs"), "pfs_neh": SHOP.neh,
    "pfs_table": lambda: SHOP.schedule([0, 1, 2]), "pfs_rounds": lambda: SHOP.solve(1, start=[0, 1, 2]),
    "pfs_prove_parts": lambda: SHOP.optimum(start=[0, 1, 2]),
    "pfs_insert_ties": lambda: SHOP.best_place([0, 1], 2, ties="idle"),
    "pfs_construct_ties": lambda: SHOP.insert_all([0], [1], ties="idle"),
    "pfs_local_search_ties": lambda: SHOP.local_search([0, 1], ties="idle"),
    "pfs_insert": lambda: SHOP.best_place([0, 1], 2), "pfs_generate": lambda: pfs.generate(2, 2, 1),
    "pfs_read": lambda: pfs.read(io.BytesIO(b"1 1 0 0 0\n1\n"), "taillard"), "pfs_write": SHOP.to_text,
    "pfs_insertions": lambda: SHOP.places([0, 1], 2), "pfs_makespans": lambda: SHOP.makespans([[0, 1, 2]]),
    "pfs_read_order": lambda: pfs.read_order(io.BytesIO(b"order 1\n1\nmakespan 1\n")),
    "pfs_write_order": lambda: pfs.Solution([0], 1).to_text()}
# Nothing of the package calls these.
UNCALLED = {"pfs_release", "pfs_construct", "pfs_heads_tails", "pfs_iterate", "pfs_local_search", "pfs_prove",
            "pfs_random", "pfs_sizes", "pfs_faulty_job"}
CALLED = [name for name in _library.PROTOTYPES if name not in UNCALLED]


@pytest.mark.parametrize(("number", "kind", "why"), [
    (_library.MEMORY, MemoryError, "pfs: memory allocation failed"),
    (12, ValueError, "the block isn't from 1 to 1000")])
@pytest.mark.parametrize("name", CALLED)
def test_other_numbers_of_the_library_are_reported(monkeypatch: pytest.MonkeyPatch, name: str, number: int,
                                                   kind: type[Exception], why: str) -> None:
    """Memory that runs out, and by its text a fault that no argument explains."""
    assert CALLS[name]() is not None
    monkeypatch.setattr(_library.library, name, lambda *_: number)
    for each in QUICK:
        monkeypatch.setattr(_instance, each, lambda *_: number)
    with pytest.raises(kind, match=f"^{why}$"):
        CALLS[name]()
