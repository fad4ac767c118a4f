"""The names of instances, and the tables of Taillard's benchmark. This module needs no library."""
from __future__ import annotations

import csv
import functools
import importlib.resources
import re
from typing import NamedTuple

# A file's name, its ending, and the number of a block.
NAME = re.compile(r"(.*?)(?:\.[a-z][a-z0-9]*)?(?:[: ]([0-9]+))?", re.DOTALL)
# The instances of Vallada, Ruiz and Framinan (2015), whose files are named in several ways.
VFR = re.compile(r"(?:vfr|vrf)([0-9]+_[0-9]+_[0-9]+)(?:_gap)?")
TAILLARD = re.compile(r"ta[ _.:-]?([0-9]{1,3})|tai[ _.:-]?([0-9]{3})")
TAILLARD_BLOCK = re.compile("tai([0-9]{1,3})_([0-9]{1,2}):([0-9]{1,2})")
# A benchmark, the numbers of jobs and machines, and the number of the instance, as in 20x5-1 and VFR20-5-1.
SIZED = re.compile(r"([a-z]*)[ _.-]?([0-9]{1,4}) ?[x\u00d7_-] ?([0-9]{1,3}) ?[_.:-][-: ]{0,2}0*([0-9]{1,4})")


def key_of(name: str, block: str = "") -> str:
    """Return the name of an instance without folder, ending and case, and with the number of its block.

    >>> key_of("a/VFR10_5_1_Gap.txt"), key_of("tai20_5.txt 3"), key_of("tai20_5", "3"), key_of("Ta1")
    ('vfr10_5_1', 'tai20_5:3', 'tai20_5:3', 'ta001')
    >>> key_of("Ta 001"), key_of("tai001"), key_of("C:\\\\set\\\\TA-12.txt"), key_of("tai20")
    ('ta001', 'ta001', 'ta012', 'tai20')
    """
    text = name.strip().replace("\\", "/").rpartition("/")[2].casefold()
    match, whole = NAME.fullmatch(text), TAILLARD.fullmatch(re.sub(r"\.[a-z][a-z0-9]*$", "", text))
    assert match is not None
    taillard = whole or TAILLARD.fullmatch(match[1])
    number = block.strip() or (match[2] or "") * (whole is None)
    key = VFR.sub(r"vfr\1", match[1]) if VFR.fullmatch(match[1]) else match[1]
    if taillard:
        key = f"ta{int(taillard[1] or taillard[2]):03}"
    # A number may be too long for `int`.
    return f"{key}:{number.lstrip('0') or 0}" if number and number.isdecimal() else key


def taillard_number(key: str) -> int:
    """Return the number of Taillard's instance that is named so, or as a block of his files; 0 if there is none.

    >>> taillard_number("ta120"), taillard_number("tai20_5:10"), taillard_number("tai20_5:11"), taillard_number("ta121")
    (120, 10, 0, 0)
    """
    if match := TAILLARD.fullmatch(key):
        number = int(match[1] or match[2])
        return number if number <= 120 else 0
    if match := TAILLARD_BLOCK.fullmatch(key):
        jobs, machines, block = map(int, match.groups())
        numbers = [number for number, row in enumerate(taillard_rows(), 1) if row[1:3] == (jobs, machines)]
        return numbers[block - 1] if 1 <= block <= len(numbers) else 0
    return 0


def sized(key: str) -> tuple[str, int, int, int] | None:
    """Return the benchmark, jobs, machines and number that a name gives, or None.

    >>> sized("vfr20_5_1"), sized("20x5-01"), sized("vfr20"), sized("20x5:3")
    (('vfr', 20, 5, 1), ('', 20, 5, 1), None, ('', 20, 5, 3))
    """
    match = SIZED.fullmatch(key.removesuffix("_gap"))
    return (match[1], int(match[2]), int(match[3]), int(match[4])) if match else None


def canonical(name: str) -> str:
    """Return the name by which results of an instance are compared.

    >>> canonical("out/Ta001"), canonical("tai20_5.txt:1"), canonical("VRF10_5_1_Gap.txt")
    ('ta001', 'ta001', 'vfr10_5_1')
    """
    key = key_of(name)
    number = taillard_number(key)
    return f"ta{number:03}" if number else key


@functools.cache
def taillard_rows() -> tuple[tuple[str, int, int, int, int, int], ...]:
    """Return the name, jobs, machines, seed, published lower bound and best known makespan of each of Taillard's
    instances."""
    text = importlib.resources.files("pfs").joinpath("taillard.csv").read_text("utf-8")
    return tuple((name, int(jobs), int(machines), int(seed), int(lower), int(upper))
                 for name, jobs, machines, seed, lower, upper, _ in list(csv.reader(text.splitlines()))[1:])


class Best(NamedTuple):
    """The shortest order known to pfs of one of Taillard's instances: its makespan, a proved bound, the nodes of the
    proof from this order, the method, seed and rounds that found it, as far as they are known, and the jobs, counted
    from 1."""

    instance: str
    makespan: str
    bound: str
    nodes: str
    method: str
    seed: str
    rounds: str
    order: str


def best_in(text: str) -> list[Best]:
    """Return the rows of a table of orders."""
    first, *rows = [*csv.reader(text.splitlines())] or [[]]
    if tuple(first) != Best._fields:
        raise ValueError(f"the first line must be {','.join(Best._fields)}")
    return [Best(*row) for row in rows]


@functools.cache
def taillard_best() -> dict[str, Best]:
    """Return the shortest orders known to pfs, by the instances' names."""
    text = importlib.resources.files("pfs").joinpath("taillard_orders.csv").read_text("utf-8")
    return {row.instance: row for row in best_in(text)}
