"""What reads, writes and audits against models of a few lines, on tables and orders that Hypothesis draws."""
import pathlib
from fractions import Fraction
from typing import Any

import numpy as np
import pfs
import pytest
from hypothesis import given, settings
from hypothesis import strategies as st
from pfs.base.order_text import numbers_in
from pfs.plan.orders import order_in
from pfs.files.tables import table_of, write_table
from support import plainly

# Of names: capitals, blanks, letters outside ASCII, separators, quotes and line ends. Some could be formulas.
SIGNS = st.text("aBß Äé1.,;\t\r\n\"'=-/#@", max_size=8)
NAMES = st.builds(lambda first, rest: f"{first}{rest}".strip(), st.sampled_from("xYÖñ=+-@"), SIGNS)
NAMES |= st.integers(1, 9).map(str)


@st.composite
def tables(draw: st.DrawFn) -> pfs.Instance:
    """An instance with names, a unit and decimals."""
    jobs, machines = draw(st.integers(1, 5)), draw(st.integers(1, 4))
    times = st.lists(st.one_of(*(st.integers(0, most) for most in (5_000, 9, 0))), min_size=machines, max_size=machines)
    unit = draw(st.sampled_from(["", "min", "h", "s", "h:mm"]))
    job_names, machine_names = (draw(st.lists(NAMES, min_size=count, max_size=count, unique=True))
                                for count in (jobs, machines))
    return pfs.Instance(draw(st.lists(times, min_size=jobs, max_size=jobs)), unit=unit, job_names=job_names,
                        machine_names=machine_names, decimals=0 if unit == "h:mm" else draw(st.integers(0, 5)))


def values(shop: pfs.Instance) -> list[list[Fraction]]:
    return [[Fraction(time, 10**shop.decimals) for time in row] for row in shop.times.tolist()]


def assert_is_read_again(path: pathlib.Path, shop: pfs.Instance, delimiter: str, mark: bool) -> None:
    write_table(str(path), shop, delimiter, mark)
    read = table_of(path, "", None, allow_totals=True)
    assert (read.shop.job_names, read.shop.machine_names, values(read.shop)) == (
        shop.job_names, shop.machine_names, values(shop))
    assert read.shop.unit == shop.unit or not shop.times.any()
    assert (read.delimiter, read.has_mark) == (delimiter, mark)


@given(tables(), st.sampled_from(";,\t"), st.booleans())
def test_a_table_that_is_written_is_read_again(folder: pathlib.Path, shop: pfs.Instance, delimiter: str,
                                               mark: bool) -> None:
    """With its names, its unit and its times. It is read as its order too, and a schedule of it."""
    assert_is_read_again(folder / "table", shop, delimiter, mark)
    assert order_in(folder / "table", shop)[:2] == ([*range(shop.jobs)], {})
    order = [*range(shop.jobs)][::-1]
    shop.schedule(order).to_csv(folder / "order", delimiter, mark=mark)
    assert order_in(folder / "order", shop)[:2] == (order, {})


@pytest.mark.parametrize("delimiter", ";,\t")
def test_three_decimals_are_read_again(folder: pathlib.Path, delimiter: str) -> None:
    """Also where no time has fewer, so that the sign before them could separate thousands."""
    shop = pfs.Instance([[1125, 2375], [3625, 1001]], job_names=["a", "b"], machine_names=["x", "y"], decimals=3)
    assert_is_read_again(folder / "table", shop, delimiter, False)


@settings(max_examples=20)
@given(tables())
def test_a_workbook_that_is_written_is_read_again(folder: pathlib.Path, shop: pfs.Instance) -> None:
    pytest.importorskip("openpyxl")
    assert_is_read_again(folder / "table.xlsx", shop, ",", False)
    assert (folder / "table.xlsx").read_bytes().startswith(b"PK")


@st.composite
def spelled(draw: st.DrawFn, numbers: list[int]) -> Any:
    """An order as people write it."""
    if draw(st.integers(0, 3)) == 0:
        return draw(st.sampled_from([numbers, tuple(numbers), np.array(numbers)]))
    letters, zeros = draw(st.sampled_from(["", "J", "job_", "Job-", "Ä."])), draw(st.sampled_from(["", ".0", ".00"]))
    between = draw(st.sampled_from([" ", ", ", ",", ";", " ; ", "-", " - ", "\n", " -> ", "\u2192", "\t", "\u2013"]))
    words = between.join(f"{letters}{number}{zeros}" for number in numbers)
    brackets = draw(st.sampled_from(["{}", "[{}]", "({})", "{{{}}}", " [ {} ] ", "\u03c0 = ({})", "S*: {}"]))
    return brackets.format(words + draw(st.sampled_from(["", ",", ";", " "])))


@st.composite
def published(draw: st.DrawFn) -> tuple[list[int], int]:
    """The numbers of an order of some jobs, and the number of jobs: an order, or one with an error."""
    jobs = draw(st.integers(1, 5))
    numbers = list(draw(st.permutations(range(draw(st.integers(0, 1)), jobs + 1))))[:jobs]
    for _ in range(draw(st.integers(0, 2))):
        place = draw(st.integers(0, len(numbers)))
        numbers[place:place + draw(st.integers(0, 1))] = draw(st.lists(st.integers(0, jobs + 1), max_size=1))
    return numbers or [1], jobs


@given(st.data(), published())
def test_orders_in_all_spellings(data: st.DataObject, case: tuple[list[int], int]) -> None:
    numbers, _ = case
    assert numbers_in(data.draw(spelled(numbers))) == numbers


def verdict_on(times: plainly.Table, numbers: list[int], stated: int, first: int, upper: int) -> tuple[Any, str]:
    """The makespan of an order and the verdict, with the jobs and places that it names."""
    jobs, count = [number - first for number in numbers], len(times)
    if sorted(jobs) == [*range(count)]:
        takes = plainly.makespan(times, jobs)
        reference = "valid and below the reference" if stated < upper else "valid"
        right = "valid and optimal" if takes == plainly.bound(times) else reference
        return takes, right if stated == takes else f"wrong makespan: states {stated}, takes {takes}"
    if sorted(numbers) == [*range(1 - first, 1 - first + count)]:
        takes = plainly.makespan(times, [number - 1 + first for number in numbers])
        return (takes, f"valid, counted from {1 - first}") if takes == stated else (None, f"counted from {1 - first}")
    for inside in (numbers[1:], numbers[:-1], numbers[1:-1]):
        if first == 1 and sorted(inside) == [*range(1, count + 1)] and {*numbers} == {0, *inside}:
            return None, f"wrong size: {len(jobs)} jobs, but the instance has {count}; without the 0 at the "
    if abs(len(jobs) - count) > 1:
        return None, f"wrong size: {len(jobs)} jobs, but the instance has {count}"
    for place, job in enumerate(jobs):
        if not 0 <= job < count:
            return None, f"job out of range: job {job + first} at place {place + 1}"
        if job in jobs[:place]:
            return None, f"job twice: job {job + first} at places {jobs.index(job) + 1} and {place + 1}"
    return None, f"job missing: job {min({*range(count)} - {*jobs}) + first} is missing"


@given(st.data(), published(), st.integers(0, 1), st.sampled_from([0, 1, 7]))
def test_an_audit_is_that_of_a_plain_auditor(data: st.DataObject, case: tuple[list[int], int], first: int,
                                             upper: int) -> None:
    numbers, count = case
    times = [[data.draw(st.sampled_from([0, 1, 2, 3, 10**9])) for _ in range(2)] for _ in range(count)]
    jobs = [number - first for number in numbers]
    right = plainly.makespan(times, jobs) if sorted(jobs) == [*range(count)] else 5
    stated = max(0, right + data.draw(st.sampled_from([0, 0, 1, -1, 3])))
    row = {"Instance": data.draw(st.sampled_from(["a b", "A B", "x/a B.txt"])), "best Cmax": stated,
           "Sequence": data.draw(spelled(numbers))}
    [found] = pfs.audit([row], {"A b": pfs.Instance(times, upper=upper)}, first=first)
    makespan, verdict = verdict_on(times, numbers, stated, first, upper)
    assert (found.stated, found.makespan, found.bound) == (stated, makespan, plainly.bound(times))
    assert f"{found.verdict}: {found.why}".startswith(verdict) and found.valid == verdict.startswith("valid")
