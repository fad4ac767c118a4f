"""Jobs that skip a machine that is down may pass it, if they come before those that wait for it."""
from __future__ import annotations

from collections.abc import Iterator, Sequence

from pfs.schedules.rest import Left, Row, shop_of, with_pauses
from pfs.shops.instance import Instance
from pfs.shops.solution import Solution

# The most numbers of jobs that are tried for each order of them, and the rounds of a search times its jobs.
MOST_WAYS, ROUNDS = 8, 300


def arranged(shop: Instance, left: Left, first: Sequence[str], is_kept: bool) -> tuple[list[Row], int, list[str]]:
    """The jobs that are left, with those of machines that are down, how many of them are held, and which of these pass
    such a machine: after those that are to be first, unless the order is kept."""
    passing = 0
    if left.free:
        own = [row for name in dict.fromkeys(first) for row in left.rows[left.held:] if row.name == name]
        others = [row for row in left.rows[left.held:] if row.name not in first]
        left = left._replace(rows=[*left.rows[:left.held], *own, *others], held=left.held + len(own))
        if not is_kept:
            rows, passing = let_pass(shop, left)
            left = left._replace(rows=rows, held=left.held + passing)
    return *with_pauses(shop, left.rows, left.held, left.free), [
        row.name for row in left.rows[left.held - passing:left.held]]


def let_pass(shop: Instance, left: Left) -> tuple[list[Row], int]:
    """The jobs that are left, with those first after the held ones that pass the machines that are down, if a plan is
    shorter so; and how many these are. The others are searched for a moment for each way."""
    waiting = [machine for machine in left.free if not any(row.left[machine] for row in left.rows[:left.held])]
    best, found = -1, (left.rows, 0)
    for passing in ways(shop, left, waiting) if waiting else ():
        names = {row.name for row in passing}
        held = [*left.rows[:left.held], *passing]
        rows = [*held, *(row for row in left.rows[left.held:] if row.name not in names)]
        made, count = with_pauses(shop, rows, len(held), left.free)
        span = searched(shop_of(shop, made), count).makespan
        if best < 0 or span < best:
            best, found = span, (rows, len(passing))
    return found


def ways(shop: Instance, left: Left, waiting: list[int]) -> Iterator[list[Row]]:
    """Which jobs may pass, one after the other: none, and then some of those that skip these machines or one of them,
    in the order in which they alone are finished early, or after their times before and after the last machine to be
    free."""
    yield []
    held = left.rows[:left.held]
    for skipped in dict.fromkeys([(*waiting,), *((machine,) for machine in waiting)]):
        rows = [row for row in left.rows[left.held:] if not any(row.left[machine] for machine in skipped)]
        if rows:
            both, last = [*held, *rows], max(skipped, key=left.free.__getitem__)
            early = searched(shop_of(shop, both), len(held)).order
            by_times = sorted(rows, key=lambda row: int(row.left[:last].sum() - row.left[last + 1:].sum()))
            for order in ([both[job] for job in early.tolist()[len(held):]], by_times):
                for count in sorted({-(-len(rows) * part // MOST_WAYS) for part in range(1, MOST_WAYS + 1)}):
                    yield order[:count]


def searched(shop: Instance, held: int) -> Solution:
    """The order of a short search that holds the first jobs."""
    return shop.solve(ROUNDS // shop.jobs, method="iterated-greedy", hold=range(held))
