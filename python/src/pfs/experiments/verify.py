"""Searches what a proof file says to be searched again, and looks whether it leaves nothing else."""
from __future__ import annotations

import pathlib
import sys
from collections.abc import Iterator
from concurrent.futures import ThreadPoolExecutor

import numpy as np

import pfs
from pfs.audits.shelf import Shelf
from pfs.base.benchmarks import taillard_rows
from pfs.experiments import ExperimentError, Options, plain
from pfs.experiments.audit import shops_of
from pfs.shops.instance import Instance
from pfs.shops.proof import Caller, Part, Proof, Step, part_of
from pfs.shops.proof_file import digest_of, instance_of, lines_in, read_proof


def verify(args: Options) -> int:
    """Searches the steps of a proof file again, or a share of them."""
    try:
        shop = shop_of(args.verify, args.instances)
        proof = read_proof(args.verify, shop)
    except ValueError as error:
        raise ExperimentError(str(error)) from None
    steps = [step for step in proof.root.all() if step.done]
    own = steps[args.share[0] - 1::args.share[1]]
    listed = {part.row: part for step in proof.root.all() for part in (*step.done, *step.rest)}
    with ThreadPoolExecutor(args.jobs or 1) as pool:
        faults = [*filter(None, pool.map(lambda step: wrong(proof, listed, step), own))]
    root, goal = part_of(shop.jobs), proof.goal
    if root.row not in listed and shop.bound("pairs") < goal:
        faults.append("the part of all orders is not listed")
    for fault in faults:
        print(plain(f"{args.verify}: {fault}"))
    parts = len(proof.open())
    text = f"{sum(step.nodes for step in own)} nodes of {len(own)} of {len(steps)} steps searched again"
    said = (f"{len(faults)} faults" if faults else f"below {goal} {parts} parts are open" if parts else
            f"no order takes less than {goal}" if own == steps else
            f"the others prove that none takes less than {goal}")
    print(plain(f"{args.verify}: {text}: {said}"), file=sys.stderr)
    return 1 if faults else 0


def wrong(proof: Proof, listed: dict[bytes, Part], step: Step) -> str:
    """Returns what is wrong with a step, or an empty text. Where the best order is better now than it was when the step
    was searched, each of its parts may take a node more, since the library doesn't know the bounds."""
    return fault_of(proof, listed, step, step.nodes) and fault_of(proof, listed, step, step.nodes + len(step.done))


def fault_of(proof: Proof, listed: dict[bytes, Part], step: Step, nodes: int) -> str:
    """Returns what a search of a step by some nodes finds wrong. With more nodes than the step had it may find an order
    below the goal, in a part that is open."""
    caller, order = Caller(proof.shop, len(step.done)), proof.best.order.astype(np.uint32).tobytes()
    found = caller.call(step.done, order, proof.limit, nodes)
    if found.makespan < proof.goal and not any(part.has(Part(found.order, 0)) for part in proof.open()):
        return f"an order takes {found.makespan}"
    if found.reached < len(step.done):
        return f"{step.nodes} nodes don't search {len(step.done)} parts"
    for part in found.left:
        least = next(own.placed() for own in step.done if own.has(part))
        if part.row not in listed and not any(own.has(part) and own.placed() > least for own in listed.values()):
            first, last = ([job + 1 for job in jobs] for jobs in part.ends())
            return f"the orders that begin with {first} and end with {last} are left, and not listed"
    return ""


def shop_of(path: str, folder: pathlib.Path | None) -> Instance:
    """Returns the instance of a proof file, by its digest: from a folder, from the experiment of the file, or
    Taillard's."""
    jobs, machines, digest = instance_of(lines_in(path))
    for shop in candidates(path, folder):
        if (shop.jobs, shop.machines) == (jobs, machines) and digest_of(shop) == digest:
            return shop
    sizes = [number for number, row in enumerate(taillard_rows(), 1) if row[1:3] == (jobs, machines)]
    for number in sizes:
        if digest_of(pfs.taillard(number)) == digest:
            return pfs.taillard(number)
    raise ExperimentError(f"{path}: its instance, of {jobs} jobs and {machines} machines, is not at hand: name its "
                          "folder by --instances")


def candidates(path: str, folder: pathlib.Path | None) -> Iterator[Instance]:
    """Yields the instances of a folder and of the experiment that a file is of."""
    for known in Shelf(folder, None).found.values() if folder else ():
        yield from (shop for shop, _ in known)
    experiment = pathlib.Path(path).resolve().parent.parent
    if experiment.name.endswith(".d"):
        yield from shops_of(str(experiment.with_name(experiment.name.removesuffix(".d")))).values()
