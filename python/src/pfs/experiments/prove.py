"""Bounds that the library proves for the instances of a CSV, from the best order of each, and shorter orders."""
from __future__ import annotations

import hashlib
import json
import pathlib
import sys
from typing import NamedTuple

import pfs
from pfs.base.faults import Fault
from pfs.base.version import VERSION
from pfs.experiments import ExperimentError, Options, folders, plain, run, shares, verify
from pfs.experiments.plan import Row, reference_for, reference_of, rows_of
from pfs.shops.solution import Solution


class Known(NamedTuple):
    """An instance, its best row of the CSV, its run there, what was proved of it, and what is searched."""
    name: str
    row: Row
    own: Row
    before: run.Proof | None
    case: shares.Case


def prove(args: Options) -> int:
    """Proves a bound for each instance of a CSV, and adds the column `proved_bound` to it; or searches a proof file
    again. What is proved is kept in proofs.json next to the CSV, the proofs in the folder `proofs`, from which a later
    call continues, and an order that is shorter than all of the CSV next to the order files."""
    if args.verify:
        return verify.verify(args)
    experiment = folders.started(args.csv)
    known = [*known_of(args, experiment)]
    (experiment.folder / "proofs").mkdir(exist_ok=True)
    is_stopped = bool(args.jobs) and shares.search(args, experiment, [each.case for each in known])
    found, count = run.proofs_of(experiment.folder), 0
    for each in known:
        proof = found[each.own["instance"]] = proved(args, experiment, each)
        folders.write_text(experiment.folder / run.PROOFS, json.dumps(found, indent=1))
        count += proof["makespan"] == proof["bound"]
        said = said_of(run.whole(args.csv, each.row, "makespan"), proof, each.case.limit)
        print(plain(f"{each.name}: {said}"), flush=True)
    print(f"{args.csv}: the shortest makespan of {count} of {len(known)} instances is known", file=sys.stderr)
    return 1 if any(run.gather(experiment, args.csv)) or is_stopped else 0


def known_of(args: Options, experiment: folders.Experiment) -> list[Known]:
    """Returns the instances whose runs have succeeded, each with the best order, which is audited."""
    copies = {run.path_cell(each["instance"]): each for each in experiment.runs}
    proofs, best = run.proofs_of(experiment.folder), dict[str, Row]()
    reference = reference_of(args.reference) if args.reference else {}
    for row in rows_of(args.csv, run.NEEDED):
        if row["status"] == "ok" and row["order"] and row["instance"] in copies:
            before = best.get(row["instance"], row)
            best[row["instance"]] = min(before, row, key=lambda each: run.whole(args.csv, each, "makespan"))
    return [Known(name, row, copies[name], before, case_of(args, experiment, copies[name], row, before,
                                                           reference_for(reference, copies[name]["instance"])))
            for name, row in best.items() for before in [proofs.get(copies[name]["instance"])]]


def said_of(makespan: int, proof: run.Proof, limit: int | None = None) -> str:
    """Returns what is proved of the best order of an instance, and of the reference that is the limit.

    >>> [said_of(3025, {"makespan": span, "bound": 2991, "order": ""}) for span in (2991, 3000, 3025)]
    ['3025; optimal is 2991', '3025; 3000 is possible, no order is below 2991', '3025, no order is below 2991']
    >>> [said_of(3025, {"makespan": span, "bound": 2991, "order": ""}, limit) for span, limit in ((3025, 2991),
    ...                                                                                           (2991, 2995))]
    ['3025, no order is below the reference 2991', '3025; optimal is 2991, below the reference 2995']
    """
    below = f", below the reference {limit}" if limit and proof["makespan"] < limit else ""
    if makespan == proof["bound"]:
        return f"{makespan}, optimal{below}"
    if proof["makespan"] == proof["bound"]:
        return f"{makespan}; optimal is {proof['bound']}{below}"
    possible = f"; {proof['makespan']} is possible{below}" if proof["makespan"] < makespan else ""
    reference = "the reference " * (limit == proof["bound"])
    return f"{makespan}{possible}, no order is below {reference}{proof['bound']}"


def case_of(args: Options, experiment: folders.Experiment, own: Row, row: Row, known: run.Proof | None,
            reference: tuple[int, str] | None) -> shares.Case:
    """Returns what is searched of an instance: below the reference if that is below the best order known. The orders
    are audited first."""
    file = experiment.folder / experiment.stage / own["file"]
    given = {"file": str(file), "layout": own["layout"], "block": int(own["block"])}
    try:
        shop = pfs.read(file, own["layout"], int(own["block"]))
        start = pfs.read_order(experiment.folder.parent / row["order"])
        if known and known["order"]:
            better = pfs.read_order(experiment.folder / known["order"])
            if not shop.check(better, known["makespan"]).valid:
                raise ExperimentError(f"{experiment.folder / known['order']} doesn't take {known['makespan']}")
    except (Fault, OSError) as error:
        raise ExperimentError(f"{args.csv}: {error}") from None
    makespan, check = run.whole(args.csv, row, "makespan"), shop.check(start)
    if not check.valid or check.makespan != makespan or start.makespan != makespan:
        raise ExperimentError(f"{args.csv}: {row['instance']}: wrong makespan: states {makespan}, takes "
                              f"{check.makespan or check.fault}")
    first = better if known and known["order"] and better.makespan < makespan else start
    limit = reference[0] if reference and reference[0] < first.makespan else None
    name = run.order_name(own) + (f"-below-{limit}" if limit else "")
    return shares.Case(shop, given, first, limit, experiment.folder / "proofs" / name)


def proved(args: Options, experiment: folders.Experiment, each: Known) -> run.Proof:
    """Returns what is proved of an instance, with what was known."""
    shop, _, start, limit, path = each.case
    made: Solution = shop.optimum(0 if args.jobs else args.seconds, start=start, limit=limit, state=path)
    bound = max(made.bound, each.before["bound"] if each.before else 0)
    if bound > made.makespan:
        raise ExperimentError(f"{experiment.folder / run.PROOFS}: the bound {bound} of {each.own['instance']} is above "
                              f"the makespan {made.makespan} of an order: delete it, and prove again")
    order = ""
    if made.makespan < run.whole(args.csv, each.row, "makespan"):
        order = f"orders/{run.order_name(each.own)}-shortest"
        folders.write_text(experiment.folder / order, made.to_text())
    assert made.proof is not None
    stage = experiment.folder / experiment.stage
    return {"bound": bound, "makespan": made.makespan, "order": order, "start": each.row["order"],
            "seed": each.row["seed"], "nodes": made.proof.nodes, "seconds": round(made.proof.seconds, 3),
            "open": made.proof.open, "proof": f"proofs/{path.name}", "version": VERSION,
            "program": digest_of(stage / "pfs"), "library": digest_of(pathlib.Path(folders.library())),
            "instance": digest_of(stage / each.own["file"])}


def digest_of(path: pathlib.Path) -> str:
    """Returns the SHA-256 of a file."""
    return hashlib.sha256(path.read_bytes()).hexdigest()
