"""Reports of plans: by hand, against the schedule, in workbooks and in print; and the jobs that have moved."""
import itertools
import pathlib

import pfs
import pytest
from hypothesis import given, strategies as st
from pfs.plan.orders import moved
from support import plainly
from support.commands import ended

TABLE = "job [min];saw;drill;paint\ntable;30;20;0\nchair;0;50;15\nlamp;10;5;30\n"
# In the order table, chair, lamp: the saw works up to 30 and 40, the drill from 30 to 50, 100 and 105, and paint from
# 100 to 115 and 145.
MACHINES = [("saw", 40, 27.6, 0, 0, 105, 20.7), ("drill", 75, 51.7, 30, 0, 40, 48.3),
            ("paint", 45, 31.0, 100, 0, 0, 31.0)]
JOBS = [("table", 0, 50), ("chair", 50, 115), ("lamp", 30, 145)]


@pytest.fixture
def folder(tmp_path: pathlib.Path) -> pathlib.Path:
    (tmp_path / "times.csv").write_text(TABLE)
    (tmp_path / "order").write_text("table\nchair\nlamp\n")
    return tmp_path


def test_a_job_without_work_starts_and_ends_after_the_one_before() -> None:
    assert pfs.Instance([[3, 2], [0, 0]]).schedule([0, 1]).report().jobs[1] == ("1", 3, 3)


@given(plainly.shops_and_orders())
def test_all_time_of_a_machine_is_reported(drawn: tuple[plainly.Table, list[int]]) -> None:
    times, order = drawn
    report = pfs.Instance(times).schedule(order).report()
    makespan = plainly.makespan(times, order)
    for machine, each in enumerate(report.machines):
        assert each.work == sum(row[machine] for row in times)
        assert each.before + each.work + each.between + each.after == makespan
        assert min(each.before, each.between, each.after) >= 0
    shares = [sum(each.critical for each in report.machines), *(each.utilisation for each in report.machines)]
    assert makespan == 0 or abs(shares[0] - 100) < 1 and max(shares) <= 101
    assert [each.name for each in report.jobs] == [str(job) for job in order]


def test_a_report_is_printed_after_the_order(folder: pathlib.Path) -> None:
    words = ["plan", "times.csv", "--order", "order"]
    plan = ended(words, folder)[1]
    status, printed, got = ended([*words, "--report"], folder)
    assert (status, got) == (0, "") and printed == plan + """---
machine  work  utilisation %  idle before  idle between  idle after  critical %
saw        40           27.6            0             0         105        20.7
drill      75           51.7           30             0          40        48.3
paint      45           31.0          100             0           0        31.0

bottleneck drill

job    start  end
table      0   50
chair     50  115
lamp      30  145
"""
    (folder / "printed").write_text(printed)
    assert ended(["plan", "times.csv", "--order", "printed"], folder) == (0, plan, ""), "it is an order all the same"
    dated = ended([*words, "--report", "--begin", "2026-11-30T06:00"], folder)[1]
    assert dated.endswith("lamp   2026-11-30 06:30  2026-11-30 08:25\n")


@pytest.mark.parametrize(("least", "ends"), [
    ("1", ["10:02", "06:01", "10:02"]), ("0.99", ["10:01:34.8", "06:00:59.4", "10:01:34.8"])])
def test_people_read_minutes(folder: pathlib.Path, least: str, ends: list[str]) -> None:
    """Where each operation takes one or more. The schedule is exact."""
    (folder / "times.csv").write_text(f"job [min],saw\na,{least}\nb,240.59\n")
    words = ["plan", "times.csv", "--begin", "2026-11-30T06:00", "--report", "--schedule", "plan.csv", "--order",
             "order"]
    (folder / "order").write_text("a\nb\n")
    printed = ended(words, folder)[1]
    assert f"\nend 2026-11-30 {ends[0]}\n" in printed
    assert [line.split()[-1] for line in printed.splitlines()[-2:]] == ends[1:]
    assert "2026-11-30 10:01:3" in (folder / "plan.csv").read_text()


def test_a_workbook_has_the_report(folder: pathlib.Path) -> None:
    openpyxl = pytest.importorskip("openpyxl")
    assert ended(["plan", "times.csv", "--order", "order", "--schedule", "plan.xlsx"], folder)[0] == 0
    book = openpyxl.load_workbook(folder / "plan.xlsx")
    assert [*book["machines"].values][1:] == MACHINES and [*book["jobs"].values] == [("job", "start", "end"), *JOBS]
    assert [*book["saw"].values] == [("place", "job", "start", "end"), (1, "table", 0, 30), (2, "lamp", 30, 40)]
    pfs.Instance([[90, 5]], unit="h:mm").schedule([0]).to_xlsx(folder / "plan.xlsx")
    assert openpyxl.load_workbook(folder / "plan.xlsx")["machines"]["B2"].number_format == "[h]:mm"


@given(st.permutations("abcdef"), st.lists(st.sampled_from("abcdefgh"), unique=True))
def test_as_few_jobs_as_possible_have_moved(order: list[str], other: list[str]) -> None:
    """All others are in both orders one after the other, and no more jobs are so."""
    def both(jobs: set[str]) -> bool:
        return [job for job in order if job in jobs] == [job for job in other if job in jobs]

    found, common = moved(order, other), {*order} & {*other}
    assert {*found} <= common and both(common - {*found})
    assert not any(both({*jobs}) for jobs in itertools.combinations(common, len(common) - len(found) + 1))
