#!/usr/bin/env python3
"""Runs your own method, NEH and iterated greedy on ten of Taillard's instances, and prints a CSV of their makespans,
which `pfs-experiments report` compares and draws. A starting point for a study.

usage: compare.py > compare.csv && pfs-experiments report compare.csv report"""
import random
from collections.abc import Callable

import pfs

ROUNDS = 1_000


def random_insertions(shop: pfs.Instance) -> pfs.Solution:
    """Improve NEH's order: remove a random job and insert it at its best place, as many times as 1,000 rounds with four
    jobs each do. Replace this by your own method."""
    chance = random.Random(1)
    best = shop.neh()
    order, makespan = best.order.tolist(), best.makespan
    for _ in range(4 * ROUNDS):
        job = chance.choice(order)
        others = [other for other in order if other != job]
        place, found = shop.best_place(others, job)
        if found <= makespan:
            others.insert(place, job)
            order, makespan = others, found
    return pfs.Solution(order, makespan, machines=shop.machines)


METHODS: dict[str, Callable[[pfs.Instance], pfs.Solution]] = {
    "NEH": pfs.Instance.neh,
    "random insertions": random_insertions,
    "iterated greedy": lambda shop: shop.solve(ROUNDS, seed=1),
}


def main() -> None:
    """Print the makespan of each instance and method."""
    print("instance,method,makespan")
    for shop in map(pfs.taillard, range(1, 11)):
        for name, method in METHODS.items():
            found = method(shop)
            # Never trust the makespan that a method claims.
            assert shop.makespan(found.order) == found.makespan
            print(f"{shop.name},{name},{found.makespan}")


if __name__ == "__main__":
    main()
