"""Proofs by many processes, in rounds: each task of a round searches a share of what is open, with GNU parallel or on a
Slurm cluster. A task writes its share as a proof file, twice a second, so one that is lost loses nothing else."""
from __future__ import annotations

import contextlib
import json
import os
import pathlib
import secrets
import shlex
import shutil
import signal
import sys
from collections.abc import Mapping, Sequence
from typing import Any, NamedTuple

import pfs
from pfs.binding.library import PATH
from pfs.experiments import Options, folders
from pfs.experiments.folders import Experiment
from pfs.experiments.run import parallel, submit
from pfs.shops.proof import Proof, proved
from pfs.shops.proof_file import ProofFile, read_proof
from pfs.shops.instance import Instance
from pfs.shops.solution import Solution

# For how many seconds the process that deals searches first, where there are fewer parts than tasks.
EXPAND = 0.2


class Case(NamedTuple):
    """An instance with how its copy is read, the order to begin with, only below what makespan it is searched, and the
    proof file."""
    shop: Instance
    read: dict[str, Any]
    start: Solution
    limit: int | None
    path: pathlib.Path


def search(args: Options, experiment: Experiment, cases: Sequence[Case]) -> bool:
    """Searches what is open of some proofs, in rounds, until nothing is, or each has had its seconds. Returns whether
    it was interrupted."""
    folder = experiment.folder / "proofs"
    with contextlib.ExitStack() as stack:
        files: dict[str, ProofFile] = {}
        for case in cases:
            files[case.path.name] = file = stack.enter_context(ProofFile(case.path, case.shop, case.limit))
            file.read()
            file.begin(case.start)
        for old in folder.glob("round-*"):
            collect(old, files)
        left = {case.path.name: float(args.seconds) for case in cases}
        while begun := deal(args, folder, cases, files, left):
            is_stopped = run(args, experiment, begun)
            collect(begun, files)
            if is_stopped:
                return True
    return False


def deal(args: Options, folder: pathlib.Path, cases: Sequence[Case], files: Mapping[str, ProofFile],
         left: dict[str, float]) -> pathlib.Path | None:
    """Writes the shares of a round into a new folder, with the numbers of the tasks in the file `tasks`. Returns the
    folder, or None if nothing is left to do."""
    open_ = [case for case in cases if left[case.path.name] > 0.01 and proof_of(files, case).open()]
    begun, number = folder / f"round-{secrets.token_hex(4)}", 0
    if not open_:
        return None
    begun.mkdir()
    for case in open_:
        proof, count = proof_of(files, case), max(1, args.jobs // len(open_))
        if len(proof.open()) < count:
            proof.run(EXPAND, bool)
        shares = proof.deal(count)
        files[case.path.name].save(True)
        seconds = min(args.round, left[case.path.name] / max(1, len(shares)))
        left[case.path.name] -= seconds * max(1, len(shares))
        for share in shares:
            number += 1
            file = ProofFile(begun / str(number), case.shop, case.limit)
            file.proof = share
            file.save(True)
            folders.write_text(begun / f"{number}.json", json.dumps(
                case.read | {"seconds": seconds, "limit": case.limit, "proof": case.path.name}))
    folders.write_text(begun / "tasks", "".join(f"{each}\n" for each in range(1, number + 1)))
    return begun


def proof_of(files: Mapping[str, ProofFile], case: Case) -> Proof:
    proof = files[case.path.name].proof
    assert proof is not None
    return proof


def run(args: Options, experiment: Experiment, begun: pathlib.Path) -> bool:
    """Runs the tasks of a round. Returns whether they were interrupted."""
    name = str(begun.relative_to(experiment.folder))
    words = [sys.executable, "-m", "pfs.experiments.shares", name]
    count = (begun / "tasks").read_text().count("\n")
    if not count:
        return False
    if args.slurm:
        (experiment.folder / "slurm").mkdir(exist_ok=True)
        name_of_job = f"{experiment.stage}-proofs"
        submit(["sbatch", "--wait", f"--array=1-{count}", f"--job-name={name_of_job}", "--dependency=singleton",
                "--output=slurm/%A-%a.log", *args.options, "--wrap", f"exec {shlex.join(words)} $SLURM_ARRAY_TASK_ID"],
               experiment.folder, name_of_job, environment())
        return False
    status = parallel(experiment.folder, ["parallel", "--plain", "--will-cite", "--jobs", str(args.jobs), "--arg-file",
                                          f"{name}/tasks", *args.options, *words], environment())
    return status not in range(0, 102)


def environment() -> dict[str, str]:
    """Returns the variables with which a task finds this package and its library."""
    package = str(pathlib.Path(pfs.__file__).parents[1])
    paths = [package, *filter(None, [os.environ.get("PYTHONPATH")])]
    library = {"PFS_LIBRARY": os.path.abspath(PATH)} if "/" in PATH else {}
    return os.environ | library | {"PYTHONPATH": os.pathsep.join(paths)}


def collect(begun: pathlib.Path, files: Mapping[str, ProofFile]) -> None:
    """Takes over what the tasks of a round have searched, and removes the round. What a task has not written is still
    open."""
    for path in sorted(begun.glob("*.json"), key=lambda path: int(path.stem)):
        with contextlib.suppress(ValueError, OSError, LookupError):
            file = files[json.loads(path.read_bytes())["proof"]]
            if file.proof is not None:
                file.proof.merge(read_proof(str(path.with_suffix("")), file.shop))
    for file in files.values():
        file.save(True)
    shutil.rmtree(begun)


def main(folder: str, number: str) -> None:
    """Searches a share."""
    signal.signal(signal.SIGTERM, lambda *_: sys.exit(1))
    given = json.loads((pathlib.Path(folder) / f"{number}.json").read_bytes())
    shop = pfs.read(given["file"], given["layout"], given["block"])
    with ProofFile(pathlib.Path(folder) / number, shop, given["limit"]) as file:
        if (proof := file.read()) is not None:
            proved(proof, given["seconds"], bool, save=file.save)


if __name__ == "__main__":
    main(*sys.argv[1:])
