"""The searches of all planners. Each has a thread while it runs. Of those that wait, each address has one in turn."""
from __future__ import annotations

import logging
import secrets
import threading
import time
from collections import Counter
from typing import Any

from pfs.plan.plan import Limits, Plan
from pfs.web.apart import Wrong
from pfs.web.plans import field, placed, quality, shop_from, texts

# Seconds without a question after which a search ends, for which its result is kept then, of the longest search, and of
# a proof after a search.
FORGET, KEPT, MOST_SECONDS, PROOF = 120.0, 600.0, 600, 1.0
# How many searches wait at most, how many of one address wait or run, and how many results are kept.
MOST_WAITING, MOST_OF_ONE, MOST_KEPT = 16, 8, 100


class Run:
    """A search of a planner."""

    def __init__(self, given: dict[str, Any], client: str) -> None:
        self.plan, self.client = Plan(shop := shop_from(given)), client
        self.names = texts(field(given, "order", list, []))
        self.held, self.seed = field(given, "held", int, 0, shop.jobs), field(given, "seed", int, 0, 2**53)
        self.seconds = min(MOST_SECONDS, field(given, "seconds", int, 0, 10**6))
        self.ended, self.asked, self.begun, self.took = threading.Event(), time.monotonic(), 0.0, 0.0
        self.state, self.is_cut, self.rounds = "waiting", False, 0
        # What is said of the best order so far, once there is one.
        self.said: dict[str, Any] = {"makespan": "", "bound": self.plan.span(shop.bound())}
        self.fault: Exception | None = None

    def is_left(self) -> bool:
        """Whether nobody asks for it any more."""
        return time.monotonic() - self.asked > (KEPT if self.state == "done" else FORGET)

    def is_set(self) -> bool:
        """Whether the search has to end."""
        self.is_cut = self.is_cut or self.is_left()
        return self.is_cut or self.ended.is_set()

    def keep(self, plan: Plan) -> None:
        """Keep what is said of the order of a plan."""
        order = [plan.shop.job_name(job) for job in plan.order]
        self.said = {**quality(plan), "order": order, "least": plan.best.bound}

    def search(self) -> None:
        """Search in a thread, and try to prove that the order is optimal where no job is held. An error is kept."""
        plan, shop = self.plan, self.plan.shop
        try:
            if self.names:
                placed(plan, self.names, self.held)
            search = plan.search(self.seed)

            def progress(rounds: int, _: int) -> None:
                self.rounds = rounds
                plan.keep(search.solution())
                self.keep(plan)

            plan.solve(search, Limits(None, self.seconds, PROOF), progress, self)
            self.keep(plan)
        except Exception as error:
            self.fault = error
        self.took, self.state = time.monotonic() - self.begun, "done"
        # Its result needs no table.
        del self.plan
        logging.info("search: %d jobs, %d machines, %d rounds", shop.jobs, shop.machines, self.rounds)

    def told(self, place: int) -> dict[str, Any]:
        """How far it is, with its best order so far. `place` is that in the queue."""
        if self.fault is not None:
            raise self.fault
        seconds = self.took or (time.monotonic() - self.begun if self.begun else 0.0)
        return {"state": self.state, "place": place, "rounds": self.rounds, "limit": self.seconds,
                "seconds": round(seconds, 1), "isCut": self.is_cut, **self.said}


class Searches:
    """Runs as many searches at once as there are slots."""

    def __init__(self, slots: int) -> None:
        self.slots, self.lock, self.runs = slots, threading.Condition(), dict[str, Run]()
        for _ in range(slots):
            threading.Thread(target=self.serve, daemon=True).start()

    def serve(self) -> None:
        while True:
            with self.lock:
                while not (waiting := self.waiting()):
                    self.lock.wait()
                run = waiting[0]
                run.state, run.begun = "searching", time.monotonic()
            # It would keep those that are ended meanwhile.
            del waiting
            run.search()

    def drop(self) -> None:
        """Drop the searches that wait and are ended or left, and the results that are left or too many."""
        self.runs = {name: run for name, run in self.runs.items() if run.state == "searching" or not run.is_left()
                     and (run.state == "done" or not run.ended.is_set())}
        done = [name for name, run in self.runs.items() if run.state == "done"]
        for name in sorted(done, key=lambda each: self.runs[each].asked)[:-MOST_KEPT]:
            del self.runs[name]

    def waiting(self) -> list[Run]:
        """The searches that wait, the next one first: the first one of each address before the second ones, and those
        of addresses of which none has begun, or not for longest, before others."""
        self.drop()
        begun, before, turns = dict[str, float](), Counter[str](), dict[Run, tuple[int, float]]()
        for run in self.runs.values():
            begun[run.client] = max(begun.get(run.client, 0.0), run.begun)
        for run in self.runs.values():
            if run.state == "waiting":
                turns[run] = before[run.client], begun[run.client]
                before[run.client] += 1
        return sorted(turns, key=turns.__getitem__)

    def add(self, given: dict[str, Any], client: str) -> dict[str, str]:
        """Let a search wait, and return its name, which nobody can guess."""
        run, name = Run(given, client), secrets.token_urlsafe(18)
        with self.lock:
            self.drop()
            active = [each for each in self.runs.values() if each.state != "done"]
            if sum(each.client == client for each in active) >= MOST_OF_ONE:
                raise Wrong(f"{MOST_OF_ONE} searches of this address run or wait: end one of them", 429)
            if len(active) >= self.slots + MOST_WAITING:
                raise Wrong("too many searches wait: try again in a minute", 503)
            self.runs[name] = run
            self.lock.notify()
        return {"search": name}

    def told(self, name: str) -> dict[str, Any]:
        """How far the search of this name is."""
        with self.lock:
            run = self.runs.get(name)
            if run is None:
                raise Wrong("this search is over", 404)
            run.asked, waiting = time.monotonic(), self.waiting()
            free = self.slots - sum(each.state == "searching" for each in self.runs.values())
            return run.told(max(0, waiting.index(run) + 1 - free) if run in waiting else 0)

    def end(self, name: str) -> dict[str, str]:
        """End a search. One that runs is done within a tenth of a second, and has its best order so far."""
        with self.lock:
            if name in self.runs:
                self.runs[name].ended.set()
            self.drop()
        return {}

    def end_all(self) -> None:
        with self.lock:
            for run in self.runs.values():
                run.ended.set()
