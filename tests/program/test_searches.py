"""Searches of small random instances, compared with those of a plain program in C++, and the published makespans of
NEH."""
import pathlib
import subprocess
from collections.abc import Sequence
from random import Random

import pytest
from support import second_program
from support.needs import tool
from support.program import Program
from support.second_program import Instance

CASES = 50
# Usual times, some that are often equal, and some of 0 or of a million.
TIMES: list[Sequence[int]] = [range(1, 100), range(4), [0, 1, 1_000_000]]


@pytest.fixture(scope="session")
def plain(top: pathlib.Path, tmp_path_factory: pytest.TempPathFactory) -> Program:
    """The plain program."""
    program = tmp_path_factory.mktemp("plain") / "plain"
    subprocess.run([tool("g++"), "-o", program, top / "bench" / "plain.cpp"], check=True)
    return Program(program)


@pytest.mark.quick
@pytest.mark.xdist_group("plain")
@pytest.mark.parametrize("case", range(CASES))
def test_a_search_has_the_result_of_the_plain_program(pfs: Program, plain: Program, folder: pathlib.Path,
                                                      case: int) -> None:
    random = Random(case)
    shop = Instance(random.randint(2, 14), random.randint(1, 7), [0, 0, 0])
    times = random.choice(TIMES)
    shop.times = [random.choices(times, k=shop.jobs) for _ in range(shop.machines)]
    rounds, take = random.choice([0, 1, 3, 12, 60]), random.randint(1, shop.jobs)
    seed = random.choice([0, 1, 7, random.randrange(2**64), 2**64 - 1])
    passes = random.choice([0, 0, 0, 1, 2, 3, 7])
    (folder / "shop").write_bytes(second_program.canonical(shop, b"taillard"))
    due = plain.run(f"solve64 taillard 1 shop {rounds} {take} {seed} {passes}", folder)
    line = f"solve --layout taillard --rounds {rounds} --take {take} --seed {seed} --passes {passes} --cells shop"
    assert due.status == 0 and pfs.run(line, folder) == due, line


# The seeds of Taillard's instances of 20 jobs on 5 machines, and the published makespans of NEH.
PUBLISHED = {873654221: 1286, 379008056: 1365, 1866992158: 1159, 216771124: 1325, 495070989: 1305, 402959317: 1228,
             1369363414: 1278, 2021925980: 1223, 573109518: 1291, 88325120: 1151}


@pytest.mark.parametrize("seed", PUBLISHED)
def test_neh_has_the_published_makespan(pfs: Program, folder: pathlib.Path, seed: int) -> None:
    (folder / "shop").write_bytes(pfs.run(f"generate 20 5 {seed}", folder).stdout)
    ran = pfs.run("solve --layout taillard shop", folder)
    assert (ran.stdout.splitlines()[-1], ran.status) == (b"makespan %d" % PUBLISHED[seed], 0)
