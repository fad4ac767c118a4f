#!/usr/bin/env python3
"""Iterated greedy with temperature, as Ruiz and Stützle (2007) published it, for SECONDS seconds of processor time. A
round removes 4 random jobs, inserts each at its best place, and then moves each job to its best place until the
makespan doesn't decrease any more. A longer order is accepted with a probability. Prints the best order.

usage: ig_temperature.py INSTANCE SEED SECONDS    (Taillard's layout; prints an order file)"""
import math
import sys
import time
from collections.abc import Iterator

import numpy as np
import numpy.typing as npt

import pfs

TAKE, TEMPERATURE = 4, 0.4
Shuffled = Iterator[npt.NDArray[np.uint32]]


def shuffles(jobs: int, chance: np.random.Generator) -> Shuffled:
    """Yield random permutations, drawn 100 at a time. The library takes arrays of uint32 as they are."""
    many = np.tile(np.arange(jobs, dtype=np.uint32), (100, 1))
    while True:
        yield from chance.permuted(many, axis=1)


def local_search(shop: pfs.Instance, found: pfs.Sequence, shuffled: Shuffled) -> pfs.Sequence:
    """Insert each job, in random order, at its best place, until the makespan doesn't decrease any more."""
    while True:
        before = found.makespan
        found = shop.local_search(found.jobs.astype(np.uint32), next(shuffled))
        if found.makespan == before:
            return found


def reconstruct(shop: pfs.Instance, now: pfs.Sequence, shuffled: Shuffled) -> pfs.Sequence:
    """Remove some random jobs, and insert each at its best place."""
    jobs, places = now.jobs.astype(np.uint32), next(shuffled)
    return shop.insert_all(jobs[np.sort(places[TAKE:])], jobs[places[:TAKE]])


def search(shop: pfs.Instance, seed: int, seconds: float) -> pfs.Sequence:
    """Search until the process has used these seconds."""
    chance, temperature = np.random.default_rng(seed), TEMPERATURE * float(shop.times.mean()) / 10
    first, shuffled = shop.neh(), shuffles(shop.jobs, chance)
    now = best = local_search(shop, pfs.Sequence(first.order, first.makespan), shuffled)
    while time.process_time() < seconds:
        found = local_search(shop, reconstruct(shop, now, shuffled), shuffled)
        more = found.makespan - now.makespan
        if more <= 0 or chance.random() < math.exp(-more / temperature):
            now = found
        if now.makespan < best.makespan:
            best = now
    return best


def main() -> None:
    """Print the best order."""
    if len(sys.argv) != 4:
        sys.exit("usage: ig_temperature.py INSTANCE SEED SECONDS")
    shop = pfs.read(sys.argv[1], "taillard")
    best = search(shop, int(sys.argv[2]), float(sys.argv[3]))
    print(pfs.Solution(best.jobs, best.makespan, machines=shop.machines).to_text(), end="")


if __name__ == "__main__":
    main()
