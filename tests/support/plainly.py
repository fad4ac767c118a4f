"""What the package returns, over lists: computed by the second program of the tests of pfs (tests/support), or from the
definitions. For small instances only. And strategies that draw instances and orders."""
import itertools
import math
import os
import pathlib
import subprocess
import sys
from collections.abc import Collection, Sequence

import pfs
from hypothesis import strategies as st
from pfs.binding.rounds import TIES
from support import second_library, second_program
from support.second_program import instance_of

Table = list[list[int]]

# Usual times, small ones, which often give ties, and the greatest.
TIMES = st.one_of(st.integers(0, 3), st.integers(0, 99), st.sampled_from([0, 1, 999_999_999, 1_000_000_000]))


@st.composite
def shops(draw: st.DrawFn, most_jobs: int = 6, most_machines: int = 4) -> Table:
    """The times of an instance of at most this size."""
    jobs, machines = draw(st.integers(1, most_jobs)), draw(st.integers(1, most_machines))
    return draw(st.lists(st.lists(TIMES, min_size=machines, max_size=machines), min_size=jobs, max_size=jobs))


@st.composite
def shops_and_orders(draw: st.DrawFn, most_jobs: int = 6) -> tuple[Table, list[int]]:
    """Times, and an order of all jobs."""
    times = draw(shops(most_jobs))
    return times, draw(st.permutations(range(len(times))))


@st.composite
def shops_and_sequences(draw: st.DrawFn, most_jobs: int = 6) -> tuple[Table, list[int]]:
    """Times, and a sequence of some jobs."""
    times, order = draw(shops_and_orders(most_jobs))
    return times, order[:draw(st.integers(0, len(order)))]


def schedule(times: Table, order: Sequence[int]) -> list[list[tuple[int, int]]]:
    """Start and end of each operation, by place and machine."""
    return second_program.spans_of(instance_of(times), order)


def makespan(times: Table, order: Sequence[int]) -> int:
    return second_program.makespan(instance_of(times), order)


def shortest(times: Table) -> int:
    """The least makespan of all orders."""
    return min(makespan(times, order) for order in itertools.permutations(range(len(times))))


def bound(times: Table) -> int:
    return second_program.lower_bound(instance_of(times))


def two_machine_bound(times: Table, one: int, other: int) -> int:
    """The least makespan of two machines over all orders, where a job takes its times between them as a lag and all
    others may be on the machines between at once; with the least times before and after the two."""
    spans = []
    for order in itertools.permutations(times):
        first = last = 0
        for row in order:
            first += row[one]
            last = max(last, first + sum(row[one + 1:other])) + row[other]
        spans.append(last)
    return min(sum(row[:one]) for row in times) + min(spans) + min(sum(row[other + 1:]) for row in times)


def best_place(times: Table, sequence: list[int], job: int) -> tuple[int, int]:
    """The first place that gives the least makespan, and that makespan."""
    order = second_program.inserted(instance_of(times), sequence, job)
    return order.index(job), makespan(times, order)


def neh(times: Table) -> list[int]:
    return second_program.by_totals(instance_of(times))


def iterated(times: Table, orders: tuple[list[int], list[int]], rounds: range, *, held: int, take: int, partial: int,
             passes: int, ties: str, temperature: float, seed: int, staying: Collection[int] = ()
             ) -> tuple[list[int], list[int]]:
    """The current and the best order after some rounds of the search that also accepts longer orders. Some jobs stay in
    their order."""
    heat = temperature * sum(sum(row) for row in times) / (10 * len(times) * len(times[0]))

    def is_accepted(longer: int, word: int) -> bool:
        return longer <= 0 or heat > 0 and word < math.floor(2**32 * math.exp(-longer / heat))

    options = seed, take, held, rounds.start, len(rounds), partial, passes, TIES[ties]
    return second_library.iterated(instance_of(times), *orders, options, is_accepted, staying)


def order_file(order: Sequence[int], machines: int | None, span: int) -> str:
    """The order file, of version 1 if it states no machines."""
    return second_program.order_text(order, machines, span).decode()


def written(folder: pathlib.Path, text: str, name: str = "file") -> pathlib.Path:
    (folder / name).write_bytes(text.encode())
    return folder / name


def run(words: list[str], status: int = 0) -> str:
    """The output of a program, or, for another status, its errors."""
    done = subprocess.run(words, capture_output=True, text=True, timeout=60, stdin=subprocess.DEVNULL)
    assert done.returncode == status, done
    return done.stdout if status == 0 else done.stderr


def environment(**more: str) -> dict[str, str]:
    """What a child needs to find the package."""
    found = {"PYTHONPATH": str(pathlib.Path(pfs.__file__).parents[1]), "PYTHONDONTWRITEBYTECODE": "1"}
    return os.environ | found | more


def python(*words: str | pathlib.Path, cwd: pathlib.Path, **more: str) -> subprocess.CompletedProcess[str]:
    """Runs Python with the package, and with more variables."""
    return subprocess.run([sys.executable, *words], cwd=cwd, env=environment(**more), capture_output=True, text=True,
                          timeout=300)
