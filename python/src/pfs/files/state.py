"""State files, from which searches continue. They are written atomically, and one search at a time uses a file."""
from __future__ import annotations

import contextlib
import hashlib
import json
import os
from typing import Any

from pfs.base.atomic import atomic_write
from pfs.base.locks import StateFault, StateInUse, lock_name, lock_of
from pfs.binding import library as c
from pfs.files.instances import bytes_of
from pfs.shops.instance import Instance, digest_of
from pfs.shops.search import Search
from pfs.shops.solution import Solution

VERSION = "pfs search 2"


class State:
    """The state file of a search, locked inside a `with` block. Without a path nothing is stored."""

    def __init__(self, path: str | None, shop: Instance, search: Search) -> None:
        self.path = path
        self.shop = shop
        # Only a search with the same inputs may continue from its state.
        self.identity = {
            "instance": digest_of(shop),
            "start": "NEH" if search.start is None else hashlib.sha256(search.start).hexdigest(),
            "take": search.take, "passes": search.passes, "seed": search.seed}
        self.cells = 0
        self.lock: int | None = None
        self.fault: OSError | None = None

    def __enter__(self) -> State:
        if self.path is not None:
            try:
                self.lock = lock_of(self.path)
            except StateInUse:
                raise
            except OSError as fault:
                # The first `write` raises it. Then the order found so far isn't lost.
                self.fault = fault
        return self

    def __exit__(self, *_: object) -> None:
        if self.lock is not None:
            with contextlib.suppress(OSError):
                os.unlink(lock_name(str(self.path)))
            os.close(self.lock)

    def read(self, rounds: int) -> Solution | None:
        """Return the stored order, or None if there is no file."""
        before = None if self.path is None else read_state(self.path, self.shop, self.identity)
        if before is not None and before.rounds > rounds:
            raise StateFault(f"{self.path}: the search has already made {before.rounds:,} rounds, more than {rounds:,}")
        self.cells = before.cells if before else 0
        return before

    def write(self, best: Solution) -> None:
        """Store the best order so far."""
        if self.fault is not None:
            raise self.fault
        if self.path is not None:
            state = {"state": VERSION, **self.identity, "rounds": best.rounds, "makespan": best.makespan,
                     "cells": self.cells + best.cells, "order": [job + 1 for job in best.order.tolist()]}
            text = json.dumps(state | {"sum": checksum(state)}) + "\n"
            atomic_write(self.path, text.encode(), f"{os.path.realpath(self.path)}.new")


def checksum(state: dict[str, Any]) -> str:
    """Return the checksum of a state."""
    return hashlib.sha256(json.dumps(state, sort_keys=True).encode()).hexdigest()


def read_state(path: str, shop: Instance, identity: dict[str, Any]) -> Solution | None:
    """Return the order of a state file, with its rounds and cells, or None if there is no file."""
    try:
        text, _ = bytes_of(path, c.LONGEST_INPUT)
    except FileNotFoundError:
        return None
    if len(text) > c.LONGEST_INPUT:
        raise StateFault(f"{path}: not the state of a search: longer than {c.LONGEST_INPUT:,} bytes")
    try:
        state = json.loads(text)
    except (ValueError, RecursionError):
        state = None
    version = str(state.get("state")) if isinstance(state, dict) else ""
    if not version.startswith("pfs search "):
        raise StateFault(f"{path}: not the state of a search")
    if version != VERSION:
        raise StateFault(f"{path}: the state of a search by another version of pfs")
    if state.pop("sum", None) != checksum(state):
        raise StateFault(f"{path}: the state of a search, but damaged: its checksum is wrong")
    for name, value in identity.items():
        if state.get(name) != value:
            is_shown = name in ("take", "passes", "seed")
            other = f"{name} {state.get(name)}, not {value}" if is_shown else f"another {name}"
            raise StateFault(f"{path}: the state of a search with {other}")
    try:
        order = [job - 1 for job in state["order"]]
        best = Solution(order, state["makespan"], state["cells"], shop.machines, state["rounds"])
        is_right = len(order) == shop.jobs and shop.makespan(order) == best.makespan
    except (KeyError, TypeError, ValueError):
        is_right = False
    if not is_right:
        raise StateFault(f"{path}: the state of a search, but its order doesn't fit the instance")
    return best
