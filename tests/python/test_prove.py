"""`pfs-experiments prove`: published makespans, proof files that are searched again, and proofs by many processes, of
which some are lost."""
import json
import os
import pathlib
import re
import signal
import subprocess
from collections.abc import Callable
from typing import Any

import pfs
import pytest
from pfs.shops import proof as _proof, proof_file as _file
from support import plainly
from support.experiments import Experiment
from support.proof_reader import certificate_in
from support.servers import Cluster
from support.tools import Done, csv_rows, run_tool, wait_until

# Taillard's ta030, its least makespan, and the nodes of a search below it, by another program.
TA030, SPAN, NODES = 30, 2178, 2_734_238


def begun(experiment: Experiment, shop: pfs.Instance, reference: int | None = None) -> list[str]:
    """The options of a proof, of which the order of NEH is made."""
    shop.write(experiment.folder / "shops" / "own")
    assert experiment.plan('instances = ["shops/own"]\nrounds = [0]\nseeds = [7]\n').run().status == 0
    (experiment.folder / "published.csv").write_text(f"instance,makespan\nown,{reference}\n")
    return ["out.csv", *(["--reference", "published.csv"] if reference is not None else [])]


def kept(experiment: Experiment) -> dict[str, Any]:
    proofs: dict[str, Any] = json.loads((experiment.runs / "proofs.json").read_text())
    return proofs["shops/own"]  # type: ignore[no-any-return]


@pytest.mark.parametrize(("more", "said"), [
    (-1, "{neh}, no order is below the reference {reference}"),
    (0, "{neh}, no order is below the reference {reference}"),
    (1, "{neh}; optimal is {least}, below the reference {reference}"), (9_999, "{neh}; optimal is {least}")])
def test_a_published_makespan_is_proved_or_beaten(experiment: Experiment, more: int, said: str) -> None:
    """Without its order. One that isn't below the order of the runs changes nothing."""
    shop = pfs.generate(6, 4, 4)
    least = plainly.shortest(shop.times.tolist())
    words = begun(experiment, shop, least + more)
    got = experiment.script("prove", *words, "--seconds", "60")
    neh = shop.neh().makespan
    assert got.stdout == f"shops/own: {said.format(neh=neh, least=least, reference=least + more)}\n", got
    bound = kept(experiment)["bound"]
    assert bound == least if more >= 0 else least - 1 <= bound <= least
    assert [row["proved_bound"] for row in csv_rows(experiment.folder / "out.csv")] == [str(bound)]


def test_what_is_kept_of_a_proof(experiment: Experiment) -> None:
    """Its nodes add up over calls, and its file is searched again by whoever has the instance."""
    words = begun(experiment, pfs.taillard(11), 1582)
    assert experiment.script("prove", *words, "--seconds", "60").status == 0
    found = kept(experiment)
    assert (found["nodes"], found["open"], found["seed"], found["version"]) == (147_590, 0, "7", pfs.__version__)
    assert 0 < found["seconds"] < 60
    assert [len(found[name]) for name in ("program", "library", "instance")] == [64] * 3
    assert experiment.script("prove", *words, "--seconds", "60").status == 0
    assert kept(experiment)["nodes"] == 147_590
    file = experiment.runs / found["proof"]
    said = "147590 nodes of 1 of 1 steps searched again: no order takes less than 1582\n"
    options: list[list[str]] = [[], ["--jobs", "3"], ["--share", "1/1"]]
    for more in options:
        assert experiment.script("prove", "--verify", str(file), *more) == Done(0, "", f"{file}: {said}")
    file.rename(experiment.folder / "elsewhere")
    assert experiment.script("prove", "--verify", "elsewhere") == Done(0, "", f"elsewhere: {said}"), "Taillard's"


@pytest.fixture(name="steps")
def file_of_steps(folder: pathlib.Path, monkeypatch: pytest.MonkeyPatch) -> pathlib.Path:
    """The proof of an instance that isn't Taillard's, in many steps."""
    for name, value in (("FIRST", 20), ("GRAIN", 200), ("CALL", 0.001)):
        monkeypatch.setattr(_proof, name, value)
    shop = pfs.generate(10, 10, 2)
    (folder / "mine").mkdir()
    shop.write(folder / "mine" / "shop")
    best = shop.optimum(60, state=folder / "proof", start=shop.neh(), threads=2)
    assert best.optimal and best.proof and best.proof.nodes > 400
    return folder / "proof"


def test_a_file_is_searched_again_in_shares(scripts: pathlib.Path, steps: pathlib.Path) -> None:
    words: list[str | pathlib.Path] = [scripts / "pfs-experiments", "prove", "--verify", "proof", "--instances", "mine"]
    read = certificate_in(steps.read_text())
    count, goal = len(read.steps), read.goal
    assert count > 3
    total = 0
    for share in range(1, 4):
        got = run_tool([*words, "--share", f"{share}/3"], steps.parent)
        match = re.fullmatch(rf"proof: (\d+) nodes of \d+ of {count} steps searched again: the others prove that none "
                             rf"takes less than {goal}\n", got.stderr)
        assert got.status == 0 and match, got
        total += int(match[1])
    assert total == sum(step.nodes for step in read.steps)
    got = run_tool(words[:-2], steps.parent)
    said = "proof: its instance, of 10 jobs and 10 machines, is not at hand: name its folder by --instances\n"
    assert got.status == 2 and got.stderr.endswith(said)


FORGED: dict[str, tuple[Callable[[str], str], str]] = {
    "a step less": (lambda text: re.sub(r"\n\d+ step \d+\n(?:[^0-9].*\n)+$", "\n", text), "are left, and not listed"),
    "fewer nodes": (lambda text: re.sub(r"step \d+", "step 1", text), "are left, and not listed|1 nodes don't search"),
    "no steps": (lambda text: re.sub(r"\n0 step(.*\n)+", "\n", text), "the part of all orders is not listed"),
    "an order that is too long": (lambda text: text, "an order takes"),
}


@pytest.mark.parametrize("name", FORGED)
def test_a_forged_file_is_found(name: str, scripts: pathlib.Path, steps: pathlib.Path) -> None:
    change, said = FORGED[name]
    body = steps.read_text().rpartition("sum ")[0]
    if name == "an order that is too long":
        shop = pfs.generate(10, 10, 2)
        jobs = " ".join(str(job + 1) for job in shop.neh().order)
        body = re.sub(r"best .*", f"best {shop.neh().makespan} {jobs}", body)
    body = change(body)
    steps.write_text(f"{body}{_file.sum_of(body)}\n")
    got = run_tool([scripts / "pfs-experiments", "prove", "--verify", "proof", "--instances", "mine"], steps.parent)
    assert got.status == 1 and re.search(said, got.stdout) and " faults\n" in got.stderr, got


@pytest.mark.parametrize(("words", "status", "said"), [
    ([], 3, "name a CSV, or a proof file by --verify"), (["a.csv", "--verify", "b"], 3, "name a CSV, or a proof file"),
    (["--verify", "none"], 4, "none: No such file or directory"), (["--verify", "x"], 2, "x: not a proof file"),
    *((["--verify", "x", "--share", text], 3, f"{text!r} must be I/N, with I from 1 to N")
      for text in ("0/2", "3/2", "2", "1/", "a/b", "1/2/3")),
    (["out.csv", "--tmpdir", "x"], 3, "unrecognized arguments: --tmpdir x"),
    (["out.csv", "--jobs", "0"], 3, "from 1 to")])
def test_what_is_refused(folder: pathlib.Path, scripts: pathlib.Path, words: list[str], status: int, said: str) -> None:
    (folder / "x").write_text("x")
    got = run_tool([scripts / "pfs-experiments", "prove", *words], folder)
    assert got.status == status and said in got.stderr and got.stderr.count("\n") == 1, got


# Many processes

def assert_proved(experiment: Experiment) -> None:
    """With the nodes of one search, and no more files."""
    found = kept(experiment)
    assert (found["bound"], found["nodes"], found["open"]) == (SPAN, NODES, 0)
    assert os.listdir(experiment.runs / "proofs") == [pathlib.Path(found["proof"]).name]
    got = experiment.script("prove", "--verify", str(experiment.runs / found["proof"]), "--jobs", "2")
    assert got.status == 0 and got.stderr.endswith(f"searched again: no order takes less than {SPAN}\n")


def test_by_many_processes(experiment: Experiment) -> None:
    """In rounds of a second. The first task of the first round is never started, and the second one is killed."""
    words = begun(experiment, pfs.taillard(TA030), SPAN)
    lose = experiment.parallel('for word; do case $word in */tasks) [ -e lost ] || { touch lost; sed -i 1d "$word"; '
                               'echo 99 >> "$word"; };; esac; done\nexec /usr/bin/parallel "$@"')
    got = experiment.script("prove", *words, "--seconds", "100", "--jobs", "3", "--round", "1", env=lose)
    assert got.status == 0 and f"no order is below the reference {SPAN}\n" in got.stdout, got
    assert (experiment.runs / "lost").exists()
    assert_proved(experiment)


@pytest.mark.parametrize("number", [signal.SIGINT, signal.SIGKILL])
def test_after_an_interruption_the_same_line_goes_on(experiment: Experiment, number: signal.Signals) -> None:
    """What the tasks had written then is not searched again."""
    words = ["prove", *begun(experiment, pfs.taillard(TA030), SPAN), "--seconds", "100", "--jobs", "2"]
    process = subprocess.Popen(experiment.words(*words), cwd=experiment.folder, stdin=subprocess.DEVNULL,
                               stdout=subprocess.DEVNULL, stderr=subprocess.DEVNULL, start_new_session=True)
    wait_until(lambda: any("step" in path.read_text() for path in experiment.runs.glob("proofs/round-*/2")),
               "a task has written")
    os.killpg(process.pid, number)
    assert process.wait(60) == (1 if number == signal.SIGINT else -number)
    wait_until(lambda: experiment.left() == [], "its tasks have ended")
    assert experiment.script(*words).status == 0
    assert_proved(experiment)


@pytest.mark.xdist_group("slurm")
def test_on_slurm(experiment: Experiment, slurm: Cluster) -> None:
    words = begun(experiment, pfs.taillard(TA030), SPAN)
    got = experiment.script("prove", *words, "--seconds", "100", "--jobs", "2", "--slurm", "--round", "1", "--time=5",
                            env=slurm.env)
    assert got.status == 0, got
    assert len([*(experiment.runs / "slurm").glob("*.log")]) >= 2
    assert_proved(experiment)
