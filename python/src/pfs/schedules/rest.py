"""What is left of a schedule at a time."""
from __future__ import annotations

from collections.abc import Mapping, Sequence
from itertools import count
from typing import TYPE_CHECKING, NamedTuple

import numpy as np

from pfs.binding.validate import Order

if TYPE_CHECKING:
    from pfs.shops.instance import Instance


class Rest(NamedTuple):
    """What is left of a schedule at a time.

    Attributes
    ----------
    instance : Instance
        The jobs that aren't finished, in the schedule's order, with the times that are left. A machine that is down
        while no job is on it is a job with the time until then, such as ``(drill is down)``.
    held : int
        How many jobs at the front have begun, or come before one that has, or are machines that are down. A plan from
        then on begins with them, in this order.
    done : tuple of str
        The names of the jobs that are finished.
    """

    instance: Instance
    held: int
    done: tuple[str, ...]


class Row(NamedTuple):
    """A job, and its times that are left."""

    name: str
    left: Order


def spans_of(shop: Instance, order: Sequence[int]) -> tuple[Order, Order]:
    """When each operation of a sequence starts and ends."""
    ends = shop.heads(order)
    return ends - shop.times[list(order)], ends


def begun(starts: Order, ends: Order, at: int) -> Order:
    """Which jobs have begun, or are finished."""
    result: Order = ((starts < at) & (starts < ends)).any(axis=1)
    return result


class Left(NamedTuple):
    """The jobs that are left at a time, of which the first `held` are held, and the names of those that are finished.
    `free` says in how much time machines are free that are down, and on which no job is."""

    rows: list[Row]
    held: int
    done: tuple[str, ...]
    free: dict[int, int]


def rest_of(shop: Instance, order: Sequence[int], at: int, down: Mapping[int, int]) -> Rest:
    """Return what is left of a sequence at a time. `down` says until when machines are down from then on."""
    left = left_of(shop, order, *spans_of(shop, order), at, down)
    rows, held = with_pauses(shop, left.rows, left.held, left.free)
    return Rest(shop_of(shop, rows), held, left.done)


def left_of(shop: Instance, order: Sequence[int], starts: Order, ends: Order, at: int, down: Mapping[int, int],
            new: Sequence[int] = ()) -> Left:
    """Return what is left of a sequence at a time, and after it the jobs `new`. Operations have started and ended, or
    start and end, at these times.

    Each operation that starts after `at` waits for one that ends after `at`, so the times that are left have the ends
    of the schedule less `at`."""
    # All that takes time is done, also if the job would still pass machines.
    is_done = (ends[:, -1] <= at) | (begun(starts, ends, at) & ((ends <= at) | (starts == ends)).all(axis=1))
    last = int(np.flatnonzero(begun(starts, ends, at)).max(initial=-1))
    places = np.flatnonzero(~is_done).tolist()
    rows = [Row(shop.job_name(order[place]), np.clip(ends[place] - at, 0, ends[place] - starts[place]))
            for place in places]
    running = {machine: row for place, row in zip(places, rows)
               for machine in np.flatnonzero((starts[place] < at) & (at < ends[place])).tolist()}
    for machine in running.keys() & down.keys():
        running[machine].left[machine] += down[machine] - at
    rows += [Row(shop.job_name(job), shop.times[job].copy()) for job in new]
    if not rows:
        raise ValueError("all jobs are finished by then")
    free = {machine: until - at for machine, until in down.items() if machine not in running
            and any(row.left[machine] for row in rows)}
    done = tuple(shop.job_name(order[place]) for place in np.flatnonzero(is_done).tolist())
    return Left(rows, sum(place <= last for place in places), done, free)


def shop_of(shop: Instance, rows: Sequence[Row]) -> Instance:
    """A shop with these jobs."""
    return type(shop)(np.array([row.left for row in rows]), name=shop.name, job_names=[row.name for row in rows],
                      machine_names=shop.machine_names, unit=shop.unit, decimals=shop.decimals)


def with_pauses(shop: Instance, rows: list[Row], held: int, free: Mapping[int, int]) -> tuple[list[Row], int]:
    """Insert a job for each machine that is free from a time on only: before the first of the held jobs that needs it,
    or else after them. It takes as long as the machine would be free before. Jobs before it that skip the machine pass
    it, and for those after it that changes nothing, since they wait for one that needs it. Return the jobs, and how
    many are held."""
    names, made, count_before = {row.name for row in rows}, list[Row](), 0
    places = {machine: next((at for at, row in enumerate(rows[:held]) if row.left[machine]), held) for machine in free}
    for machine in sorted(free, key=lambda each: (places[each], -each)):
        made, count_before = [*made, *rows[count_before:places[machine]]], places[machine]
        before = shop_of(shop, made).heads(range(len(made)))[-1, machine] if made else 0
        if before < free[machine]:
            text = f"({shop.machine_name(machine)} is down)"
            name = next(each for number in count(1) if (each := text if number == 1 else f"{text} {number}")
                        not in names)
            made.append(Row(name, np.where(np.arange(shop.machines) == machine, free[machine] - before, 0)))
    return [*made, *rows[count_before:]], held + len(made) - count_before


def down_of(shop: Instance, down: Mapping[int | str, int], at: int) -> dict[int, int]:
    """Return until when each machine is down, by its number. One that is up again by then is left out."""
    numbers = {name: machine for machine in range(shop.machines) for name in (machine, shop.machine_name(machine))}
    for machine in down:
        if machine not in numbers:
            raise ValueError(f"down: {machine!r} isn't a machine")
    own = [numbers[machine] for machine in down]
    twice = next((machine for machine in range(shop.machines) if own.count(machine) > 1), None)
    if twice is not None:
        raise ValueError(f"down: the machine {shop.machine_name(twice)!r} is there by its number and by its name")
    return {numbers[machine]: until for machine, until in down.items() if until > at}
