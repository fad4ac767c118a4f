"""Proof files: how far a proof has come, from which it continues, and which nodes have searched which orders, so
that others can search them again. docs/FORMATS.md has the grammar."""
from __future__ import annotations

import contextlib
import hashlib
import os
import re
import time
from collections.abc import Iterator
from typing import TYPE_CHECKING

from pfs.base.atomic import atomic_write
from pfs.base.locks import StateFault, lock_name, lock_of
from pfs.base.version import VERSION
from pfs.shops.proof import MOST, OPEN, Part, Proof, Step, part_of
from pfs.shops.solution import Solution

if TYPE_CHECKING:
    from pfs.shops.instance import Instance

FORM = "pfs proof 1"
# A step, the part of all orders, or parts that differ in the last job at one end.
LINE = re.compile(r"([0-9]+) (?:step ([1-9][0-9]*)|open)|\*(?: /([0-9]+))?"
                  r"|([<>]) ([0-9]+(?: [0-9]+)*) \| ([0-9]+(?: [0-9]+)*) :((?: /?[0-9]+)+)")
# Seconds between two writes, and the length of a file in bytes above which steps that are closed become one.
EVERY, MOST_BYTES = 0.5, 1_000_000


class ProofFault(StateFault, ValueError):
    """A file isn't the proof that is asked for."""


class ProofFile:
    """The file of a proof, locked inside a `with` block. Without a path nothing is stored."""

    def __init__(self, path: str | os.PathLike[str] | None, shop: Instance, limit: int | None) -> None:
        self.path, self.shop, self.limit = None if path is None else os.fspath(path), shop, limit
        self.lock: int | None = None
        self.proof: Proof | None = None
        self.written, self.lines = 0.0, dict[int, tuple[list[Part], list[str]]]()

    def __enter__(self) -> ProofFile:
        self.lock = None if self.path is None else lock_of(self.path)
        return self

    def __exit__(self, *_: object) -> None:
        if self.lock is not None:
            os.unlink(lock_name(str(self.path)))
            os.close(self.lock)

    def read(self) -> Proof | None:
        """Return the stored proof, or None if the file is missing."""
        if self.path is not None:
            with contextlib.suppress(FileNotFoundError):
                self.proof = read_proof(self.path, self.shop)
                if self.proof.limit != (MOST if self.limit is None else self.limit):
                    raise ProofFault(f"{self.path}: a proof with {limit_text(self.proof.limit)}, not with "
                                     f"{limit_text(self.limit)}")
        return self.proof

    def begin(self, start: Solution) -> Proof:
        """Return the stored proof, or one that begins with an order, which takes the place of a longer one."""
        if self.proof is None:
            self.proof = Proof(self.shop, start, self.limit)
        elif start.makespan < self.proof.best.makespan:
            self.proof.best = start
        return self.proof

    def save(self, is_due: bool = False) -> None:
        """Store the proof, unless that was done a moment ago."""
        if self.path is None or self.proof is None or not (is_due or time.monotonic() > self.written + EVERY):
            return
        data = self.data(self.proof)
        while len(data) > MOST_BYTES and self.proof.grain < MOST:
            self.proof.coarsen()
            data = self.data(self.proof)
        atomic_write(self.path, data, f"{os.path.realpath(self.path)}.new")
        self.written = time.monotonic()

    def data(self, proof: Proof) -> bytes:
        """Return the content of the file."""
        with proof.lock:
            best, seconds, is_open = proof.best, proof.seconds, proof.floor < proof.goal
            steps = [entry for entry in entries(proof.root) if is_open or entry[1]]
        lines = head(self.shop, proof, best, seconds)
        # The lines of each list of parts, which never changes.
        known = {id(parts): self.lines.get(id(parts)) or (parts, lines_of(parts, not nodes))
                 for _, nodes, parts in steps}
        for depth, nodes, parts in steps:
            lines += [f"{depth} {f'step {nodes}' if nodes else 'open'}", *known[id(parts)][1]]
        self.lines = known
        text = "".join(f"{line}\n" for line in lines)
        return f"{text}{sum_of(text)}\n".encode()


def sum_of(text: str) -> str:
    """Return the last line of a file."""
    return f"sum {hashlib.sha256(text.encode()).hexdigest()}"


def digest_of(shop: Instance) -> str:
    """Return the SHA-256 of the times of an instance, as `pfs convert --to orlib` prints them."""
    return hashlib.sha256(shop.to_text("orlib").encode()).hexdigest()


def limit_text(limit: int | None) -> str:
    return f"limit {'none' if limit in (None, MOST) else limit}"


def head(shop: Instance, proof: Proof, best: Solution, seconds: float) -> list[str]:
    """Return the first lines of a file."""
    def order(name: str, found: Solution) -> str:
        return f"{name} {found.makespan} {' '.join(str(job + 1) for job in found.order.tolist())}"

    return [FORM, f"version {VERSION}", f"instance {shop.jobs} {shop.machines} {digest_of(shop)}",
            limit_text(proof.limit), order("start", proof.start), order("best", best),
            f"seconds {seconds:.3f}"]


def entries(root: Step) -> Iterator[tuple[int, int, list[Part]]]:
    """Yield the depth, the nodes and the parts of each step, as if those under way had ended. Steps that have not begun
    have no nodes."""
    steps = [(-1, root)]
    while steps:
        depth, step = steps.pop()
        for at, nodes, parts in ((depth, step.nodes, step.done), (depth + 1, 0, step.left), (depth, 0, step.rest)):
            if parts:
                yield at, nodes, parts
        steps += [(depth + 1, each) for each in reversed(step.more)]


# The parts of a step

def lines_of(parts: list[Part], is_open: bool) -> list[str]:
    """Return the lines of some parts: those that differ in the last job at one end share a line."""
    lines, front, back, at = list[str](), list[int](), list[int](), 0
    while at < len(parts):
        sign, count = siblings(parts, at)
        first, last = parts[at].ends()
        if sign == "*":
            lines.append(f"* /{parts[at].bound}" if is_open else "*")
        else:
            path, end = (first[:-1], last) if sign == ">" else (first, last[1:])
            kept, kept_last = common(front, path), common(back[::-1], end[::-1])
            ends = [kept, *(job + 1 for job in path[kept:]), "|", kept_last,
                    *(job + 1 for job in end[:len(end) - kept_last])]
            lines.append(" ".join(map(str, [sign, *ends, ":", *own_jobs(parts[at:at + count], sign, is_open)])))
            front, back = path, end
        at += count
    return lines


def own_jobs(parts: list[Part], sign: str, is_open: bool) -> Iterator[str]:
    """Yield the last job at one end of each part, after its bound where that is another one."""
    bound = -1
    for part in parts:
        first, last = part.ends()
        if is_open and part.bound != bound:
            yield f"/{(bound := part.bound)}"
        yield str((first[-1] if sign == ">" else last[0]) + 1)


def siblings(parts: list[Part], at: int) -> tuple[str, int]:
    """Return the end at which parts from a place on differ in one job, and how many do. The part of all orders has no
    end."""
    found = "*", 1
    for sign in "><":
        key, end = parent(parts[at], sign), at
        while key is not None and end < len(parts) and parent(parts[end], sign) == key:
            end += 1
        if key is not None and (found[0] == "*" or end - at > found[1]):
            found = sign, end - at
    return found


def parent(part: Part, sign: str) -> bytes | None:
    """Return the row of a part without the last job at one end, or None if there is none."""
    first, last = part.gap()
    at = first - 4 if sign == ">" else last
    return part.row[:at] + OPEN + part.row[at + 4:] if 0 <= at < len(part.row) else None


def common(one: list[int], other: list[int]) -> int:
    """Return how many items both lists begin with."""
    pairs = enumerate(zip(one, other))
    return next((at for at, (a, b) in pairs if a != b), min(len(one), len(other)))


# Reading

def read_proof(path: str, shop: Instance) -> Proof:
    """Return the proof of a file, which must be one of an instance."""
    lines = lines_in(path)
    try:
        jobs, machines, digest = instance_of(lines)
        if (jobs, machines, digest) != (shop.jobs, shop.machines, digest_of(shop)):
            raise ProofFault(f"{path}: the proof of another instance, of {jobs} jobs and {machines} machines")
        return proof_in(lines, shop)
    except (ValueError, LookupError, ArithmeticError) as error:
        if isinstance(error, ProofFault):
            raise
        raise ProofFault(f"{path}: a proof file, but its lines make no sense") from None


def lines_in(path: str) -> list[str]:
    """Return the lines of a file without its checksum, which must be right."""
    with open(path, "rb") as file:
        text = file.read().decode(errors="replace")
    if not text.startswith("pfs proof "):
        raise ProofFault(f"{path}: not a proof file")
    if not text.startswith(f"{FORM}\n"):
        raise ProofFault(f"{path}: a proof file of another version of pfs: {text.splitlines()[0]!r}")
    body, _, last = text.removesuffix("\n").rpartition("\n")
    if last != sum_of(f"{body}\n"):
        raise ProofFault(f"{path}: a proof file, but damaged: its checksum is wrong")
    return body.split("\n")


def instance_of(lines: list[str]) -> tuple[int, int, str]:
    """Return the numbers of jobs and machines and the digest of a file's instance."""
    _, jobs, machines, digest = lines[2].split()
    return int(jobs), int(machines), digest


def proof_in(lines: list[str], shop: Instance) -> Proof:
    """Return the proof of the lines of a file."""
    given = dict(line.partition(" ")[::2] for line in lines[1:7])
    start, best = (order_in(given[name], shop) for name in ("start", "best"))
    proof = Proof(shop, start, None if given["limit"] == "none" else int(given["limit"]))
    proof.best, proof.seconds, proof.root.more = best, float(given["seconds"]), []
    read_steps(proof, lines[7:])
    return proof


def order_in(text: str, shop: Instance) -> Solution:
    """Return the order of a line, which must have the makespan that is stated."""
    makespan, *jobs = map(int, text.split())
    best = Solution([job - 1 for job in jobs], makespan, machines=shop.machines)
    best.bound = shop.bound()
    if not shop.check(best).valid:
        raise ValueError("a wrong makespan")
    return best


def read_steps(proof: Proof, lines: list[str]) -> None:
    """Read the steps of a file into a proof."""
    above, step, front, back = [proof.root], proof.root, list[int](), list[int]()
    for line in lines:
        match = LINE.fullmatch(line)
        if match is None:
            raise ValueError(line)
        depth, nodes, bound, sign, first, last, own = match.groups()
        if depth:
            step, front, back = Step(above[int(depth)], []), [], []
            step.nodes = int(nodes or 0)
            above[int(depth)].more.append(step)
            above[int(depth) + 1:] = [step]
            proof.nodes += step.nodes
            continue
        parts = [part_of(proof.shop.jobs, bound=int(bound or 0))]
        if sign:
            (kept, *jobs), (kept_last, *last_jobs) = ([int(word) for word in half.split()] for half in (first, last))
            front = front[:kept] + [job - 1 for job in jobs]
            back = [job - 1 for job in last_jobs] + back[len(back) - kept_last:]
            parts = [*parts_in(own, sign, front, back, proof.shop.jobs)]
            if len({*front, *back}) < len(front) + len(back):
                raise ValueError(line)
        if step.nodes:
            step.done = step.done + parts
        else:
            step.rest = step.rest + parts


def parts_in(text: str, sign: str, front: list[int], back: list[int], jobs: int) -> Iterator[Part]:
    """Yield the parts of a line, each with the last bound before it."""
    bound, free = 0, {*range(jobs)} - {*front, *back}
    for word in text.split():
        if word[0] == "/":
            bound = int(word[1:])
            continue
        free.remove(job := int(word) - 1)
        yield part_of(jobs, [*front, job], back, bound) if sign == ">" else part_of(jobs, front, [job, *back], bound)
