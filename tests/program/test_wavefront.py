"""Instances at the limits of a wavefront's lanes. A step has 1, 2, 3, 5, 8, 13 or 26 vectors of 8
lanes, the fewest with a lane for each machine. The product of the longest time and the number of operations on a path
is less than 65,535 with lanes of 16 bits, less than 2^32 - 1 with lanes of 32 bits, and greater with lanes of 64 bits.
Searches are compared with those of the second program, and those of the program that LLVM builds with those of the one
that Rattle's own compiler does."""
import pathlib
from random import Random

import pytest
from support import second_program
from support.program import Program, Ran
from support.second_program import Instance

# The most cubes of jobs on all machines of a shop whose search has three rounds. The second program takes seconds for
# three rounds of a larger one, so its search has one. A round inserts each job, so it uses all tables again and again.
MOST_CUBES = 1_000_000


def shop_of(jobs: int, machines: int, times: list[int]) -> Instance:
    """An instance with these times, machine by machine."""
    shop = Instance(jobs, machines, [0, 0, 0])
    shop.times = [times[jobs * machine:jobs * (machine + 1)] for machine in range(machines)]
    return shop


def drawn(jobs: int, machines: int, most: int) -> Instance:
    """An instance of random times, the same for the same arguments."""
    random = Random(f"{jobs} {machines} {most}")
    return shop_of(jobs, machines, [random.randint(0, most) for _ in range(jobs * machines)])


def equal(jobs: int, machines: int, time: int) -> Instance:
    return shop_of(jobs, machines, [time] * (jobs * machines))


def with_long_job(jobs: int, machines: int, time: int) -> Instance:
    """An instance whose fourth job takes this time on each machine. All other times are at most 9."""
    shop = drawn(jobs, machines, 9)
    for row in shop.times:
        row[3] = time
    return shop


def with_one_long_time(jobs: int, machines: int, time: int) -> Instance:
    shop = drawn(jobs, machines, 9)
    shop.times[machines // 2][2] = time
    return shop


SHOPS: dict[str, Instance] = {
    **{f"{jobs} jobs on {machines} machines, times to {most}": drawn(jobs, machines, most)
       for jobs in (1, 2, 3, 7, 8, 9) for machines in (1, 7, 8, 9, 15, 16, 17, 23, 24, 25) for most in (2, 99)},
    **{f"{jobs} jobs on {machines} machines, times to {most}": drawn(jobs, machines, most) for most in (99, 100_000)
       for jobs, machines in ((46, 25), (19, 40), (20, 41), (12, 64), (13, 65), (40, 104), (9, 105), (8, 200))},
    "times of 0": equal(9, 5, 0),
    "a longest path of 65,534": equal(8, 7, 4_681),
    "a longest path of 65,535 with 16 jobs": equal(16, 2, 3_855),
    "a longest path of 65,535 with few jobs": equal(8, 8, 4_369),
    "a longest path of 65,536 with 16 jobs": equal(16, 1, 4_096),
    "a longest path of 65,536 with few jobs": equal(9, 8, 4_096),
    "a longest path of 65,536 on 15 machines": equal(50, 15, 1_024),
    "31 times of 2,114 are 65,534": with_long_job(8, 24, 2_114),
    "32 times of 2,048 are 65,536": with_long_job(9, 24, 2_048),
    "a long job": with_long_job(12, 12, 2_849),
    "a long time": with_one_long_time(20, 24, 1_523),
    "a time that is too long for 16 bits": with_one_long_time(20, 24, 1_525),
    "71 times of 924 are 65,604": with_one_long_time(48, 24, 924),
    "71 times of 60,492,497 are 2^32 - 9": with_one_long_time(48, 24, 60_492_497),
    "a time that is too long for 32 bits": with_one_long_time(48, 24, 60_492_498),
    "a longest path of 2^31": equal(16, 1, 134_217_728),
    # Half of 2^32 - 2 is prime, so no instance has a longest path of it.
    "a longest path of 2^32 - 4": equal(16, 3, 238_609_294),
    "a longest path of 2^32 - 1": equal(16, 2, 252_645_135),
    "a longest path of 2^32": equal(16, 1, 268_435_456),
    # Few jobs, and lanes of 64 bits with each number of vectors, with the longest times.
    **{f"{jobs} jobs on {machines} machines, times to {most}": drawn(jobs, machines, most)
       for jobs in (1, 2, 4, 6) for machines in (1, 3, 8, 26, 200) for most in (100_000, 1_000_000_000)},
    **{f"{jobs} jobs on {machines} machines, times to 10^9": drawn(jobs, machines, 1_000_000_000)
       for jobs, machines in ((30, 1), (40, 8), (25, 9), (20, 24), (46, 25), (20, 41), (13, 65), (9, 105), (8, 200))},
    **{f"{jobs} jobs on {machines} machines, all times 10^9": equal(jobs, machines, 1_000_000_000)
       for jobs, machines in ((1, 1), (1, 200), (3, 1), (9, 5), (20, 30))},
    "lanes of 32 bits on 5 machines": drawn(15, 5, 1_000_000),
    "lanes of 32 bits on 12 machines": drawn(32, 12, 1_000_000),
    "one time of 10^9": with_one_long_time(9, 5, 1_000_000_000),
    "16 jobs, in all 65,534": shop_of(16, 1, [4_096] * 14 + [4_095] * 2),
    "16 jobs, in all 65,535": shop_of(16, 1, [4_096] * 15 + [4_095]),
    "makespans from 5,000 to 100,000": drawn(24, 3, 8_000),
    "makespans to 70,000 on 9 machines": drawn(40, 9, 3_000),
    "a long job in lanes of 32 bits": with_long_job(24, 8, 6_000),
    # A search in lanes of 32 bits also has lanes of 16 bits where no time is above 65,535.
    "a time of 65,535": with_one_long_time(20, 5, 65_535),
    "a time of 65,536": with_one_long_time(20, 5, 65_536),
    "equal times of 24,576 on one machine": equal(20, 1, 24_576),
    "40 jobs": drawn(40, 6, 30),
    "21 jobs on 11 machines": drawn(21, 11, 500),
    "22 jobs on 20 machines": drawn(22, 20, 1_000),
}

# Sizes for each number of vectors from 8 on, which are too large for the second program.
LARGE = [(70, 41), (119, 65), (405, 105), (111, 200)]


def cubes_of(shop: Instance) -> int:
    return shop.jobs**3 * shop.machines


# The second program takes about a tenth of a microsecond for each cube of the jobs on each machine.
@pytest.mark.parametrize("name", [pytest.param(name, marks=pytest.mark.seconds(cubes_of(shop) // 5_000_000))
                                  for name, shop in SHOPS.items()])
def test_solve_prints_what_the_second_program_does(pfs: Program, folder: pathlib.Path, name: str) -> None:
    shop = SHOPS[name]
    rounds = 3 if cubes_of(shop) <= MOST_CUBES else 1
    (folder / "shop").write_bytes(second_program.canonical(shop, b"taillard"))
    take = min(3, shop.jobs)
    options = {b"--take": take, b"--rounds": rounds, b"--seed": 1, b"--passes": 1, b"--cells": True}
    line = f"solve --layout taillard --take {take} --rounds {rounds} --seed 1 --passes 1 --cells shop"
    assert pfs.run(line, folder) == Ran(second_program.solved(shop, options), b"", 0)


@pytest.mark.parametrize("most", [99, 100_000])
@pytest.mark.parametrize(("jobs", "machines"), LARGE)
def test_a_large_search_has_the_makespan_of_its_order(pfs: Program, folder: pathlib.Path, jobs: int, machines: int,
                                                      most: int) -> None:
    (folder / "shop").write_bytes(second_program.canonical(drawn(jobs, machines, most), b"taillard"))
    (folder / "order").write_bytes(pfs.run("solve --layout taillard --rounds 2 --passes 1 shop", folder).stdout)
    assert pfs.run("check --layout taillard shop order", folder).stdout.startswith(b"valid\n")


# The most machines of each number of vectors.
MOST_MACHINES = [8, 16, 24, 40, 64, 104, 200]


def around_limits(jobs: int, machines: int) -> list[Instance]:
    """Instances whose longest possible path is just below and just above what lanes of 16 and of 32 bits hold, whose
    longest time is just below and just above what is stored in 16 bits, and one of the longest times of all. They have
    the shortest and the longest times, so that some paths weigh nearly as much as any can."""
    path, random = jobs + machines - 1, Random(f"{jobs} {machines}")
    return [shop_of(jobs, machines, [most, *random.choices([0, 1, most - 1, most], k=jobs * machines - 1)])
            for most in (65_534 // path, 65_535 // path + 1, 65_535, 65_536, (2**32 - 2) // path, 2**32 // path + 1,
                         1_000_000_000)]


@pytest.mark.seconds(10)
@pytest.mark.parametrize("machines", MOST_MACHINES)
def test_what_both_compilers_build_prints_what_the_second_program_does(pfs: Program, pfs_by_rattle: Program,
                                                                       folder: pathlib.Path, machines: int) -> None:
    """And both the same of instances that are too large for that."""
    for shop in [*around_limits(9, machines), *around_limits(60, machines)]:
        rounds = 3 if shop.jobs == 9 else 20
        options = {b"--take": 3, b"--rounds": rounds, b"--seed": 7, b"--passes": 1, b"--cells": True}
        (folder / "shop").write_bytes(second_program.canonical(shop, b"taillard"))
        line = f"solve --layout taillard --take 3 --rounds {rounds} --seed 7 --passes 1 --cells shop"
        ran = pfs.run(line, folder)
        assert ran.status == 0 and pfs_by_rattle.run(line, folder) == ran
        assert shop.jobs > 9 or ran.stdout == second_program.solved(shop, options)
