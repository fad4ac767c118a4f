"""Reads a proof file by its grammar alone, and searches what it lists again, without pfs. For small instances."""
import hashlib
import re
from collections.abc import Iterator
from typing import NamedTuple

Table = list[list[int]]


class Part(NamedTuple):
    """The first jobs and the last ones, and a bound."""
    first: tuple[int, ...]
    last: tuple[int, ...]
    bound: int

    def has(self, order: tuple[int, ...]) -> bool:
        return order[:len(self.first)] == self.first and order[len(order) - len(self.last):] == self.last


class Step(NamedTuple):
    """Its depth, its nodes, which are 0 if it is open, and its parts."""
    depth: int
    nodes: int
    parts: list[Part]


class Certificate(NamedTuple):
    """What a file says."""
    head: dict[str, list[str]]
    steps: list[Step]

    @property
    def goal(self) -> int:
        limit, best = self.head["limit"][0], int(self.head["best"][0])
        return best if limit == "none" else min(best, int(limit))

    def open(self) -> list[Part]:
        return [part for step in self.steps if not step.nodes for part in step.parts if part.bound < self.goal]


def certificate_in(text: str) -> Certificate:
    """What a file says, if its checksum is right."""
    body, last = re.fullmatch(r"((?:.*\n)*)sum ([0-9a-f]{64})\n", text).groups()  # type: ignore[union-attr]
    assert hashlib.sha256(body.encode()).hexdigest() == last
    form, *lines = body.splitlines()
    assert form == "pfs proof 1"
    names = ["version", "instance", "limit", "start", "best", "seconds"]
    head = {line.split()[0]: line.split()[1:] for line in lines[:6]}
    assert [*head] == names
    steps: list[Step] = []
    first, last_jobs = list[int](), list[int]()
    for words in (line.split() for line in lines[6:]):
        if words[0].isdigit():
            steps.append(Step(int(words[0]), int(words[2]) if words[1] == "step" else 0, []))
            first, last_jobs = [], []
        elif words[0] == "*":
            steps[-1].parts.append(Part((), (), int("".join(words[1:])[1:] or 0)))
        else:
            bar, colon = words.index("|"), words.index(":")
            front, back = [[int(word) for word in part] for part in (words[1:bar], words[bar + 1:colon])]
            first = first[:front[0]] + front[1:]
            last_jobs = back[1:] + last_jobs[len(last_jobs) - back[0]:]
            bound = 0
            for word in words[colon + 1:]:
                if word.startswith("/"):
                    bound = int(word[1:])
                elif words[0] == ">":
                    steps[-1].parts.append(Part((*first, int(word)), tuple(last_jobs), bound))
                else:
                    steps[-1].parts.append(Part(tuple(first), (int(word), *last_jobs), bound))
    return Certificate(head, steps)


def digest_of(times: Table) -> str:
    """The digest of an instance: of its text in OR-Library's layout."""
    rows = ["flow shop instance", f"{len(times)} {len(times[0])}",
            *(" ".join(f"{machine} {time}" for machine, time in enumerate(row)) for row in times)]
    return hashlib.sha256("".join(f"{row}\n" for row in rows).encode()).hexdigest()


def shorter(times: Table, part: Part, goal: int) -> Iterator[tuple[int, ...]]:
    """The orders of a part with a makespan below a number, jobs counted from 1: all that begin with its first jobs, as
    long as their last machine is free before that number."""
    def from_ends(order: tuple[int, ...], ends: list[int]) -> Iterator[tuple[int, ...]]:
        if ends[-1] >= goal:
            return
        if len(order) == len(times):
            yield order
        rest = {*range(1, len(times) + 1)} - {*order} - {*part.last}
        for job in sorted(rest) if rest else part.last[len(order) - len(times):][:1]:
            new = [0]
            for time, end in zip(times[job - 1], ends):
                new.append(max(new[-1], end) + time)
            yield from from_ends((*order, job), new[1:])

    ends = [0] * len(times[0])
    for job in part.first:
        end = 0
        for machine, time in enumerate(times[job - 1]):
            ends[machine] = end = max(end, ends[machine]) + time
    return from_ends(part.first, ends)


def faults_of(certificate: Certificate, times: Table) -> list[str]:
    """What is wrong: a part of a step with a shorter order that is in no open part, or orders that no part has."""
    jobs, machines, digest = certificate.head["instance"]
    assert (int(jobs), int(machines), digest) == (len(times), len(times[0]), digest_of(times))
    found, open_ = list[str](), certificate.open()
    for step in certificate.steps:
        for part in step.parts if step.nodes else ():
            found += [f"{order} is shorter" for order in shorter(times, part, certificate.goal)
                      if not any(other.has(order) for other in open_)]
    listed = [part for step in certificate.steps for part in step.parts]
    found += [f"{order} is in no part" for order in shorter(times, Part((), (), 0), certificate.goal)
              if not any(part.has(order) for part in listed)]
    return found
