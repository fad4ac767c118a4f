"""Proof files: what is in them by a reader without pfs, how a proof goes on from them, also after a kill, and what is
refused."""
import json
import os
import pathlib
import re
import signal
import subprocess
import sys
import threading
import time
from collections.abc import Callable
from typing import Any

import pfs
import pytest
from hypothesis import given
from hypothesis import strategies as st
from pfs.base.locks import StateFault, StateInUse
from pfs.experiments.verify import wrong
from pfs.shops import proof as _proof, proof_file as _file
from support import plainly
from support.proof_reader import certificate_in, digest_of, faults_of

# The nodes of a search below its least makespan, by another program.
SPAN, NODES = 1582, 147_590


def cut(patch: pytest.MonkeyPatch, first: int, most: int, grain: int) -> None:
    """Let calls begin with few nodes, have few parts, and steps end after few nodes; and write often."""
    for name, value in (("FIRST", first), ("MOST_PARTS", most), ("GRAIN", grain), ("CALL", 1e-9)):
        patch.setattr(_proof, name, value)
    patch.setattr(_file, "EVERY", 0)


@given(plainly.shops_and_orders(), st.integers(1, 5), st.integers(1, 3), st.integers(1, 9), st.sampled_from([1, 2, 4]),
       st.lists(st.integers(0, 30), max_size=4), st.none() | st.integers(-1, 2))
def test_a_proof_goes_on(case: tuple[plainly.Table, list[int]], first: int, most: int, grain: int, threads: int,
                         budgets: list[int], more: int | None) -> None:
    """After each part of the nodes the file lists all that is left, as another reader says, and a search of each of its
    steps again leaves nothing else. In the end, one thread has had the nodes of a call without a break."""
    times, order = case
    shop, least = pfs.Instance(times), plainly.shortest(times)
    limit = None if more is None else max(0, least + more)
    whole = shop.optimum(nodes=10**6, start=order, limit=limit)
    with pytest.MonkeyPatch.context() as patch:
        cut(patch, first, most, grain)
        path = pathlib.Path(os.environ["PYTEST_TMP"]) / f"{threading.get_ident()}-{os.getpid()}"
        path.unlink(missing_ok=True)
        for nodes in (*budgets, 10**6):
            best = shop.optimum(nodes=nodes, threads=threads, state=path, limit=limit, start=order)
            text = path.read_text()
            read = certificate_in(text)
            assert faults_of(read, times) == [] or best.bound == shop.bound("pairs") >= read.goal
            assert best.proof and (len(read.open()) == best.proof.open) and best.bound <= least
            assert sum(step.nodes for step in read.steps) == best.proof.nodes
            again = _file.read_proof(str(path), shop)
            listed = {part.row: part for step in again.root.all() for part in (*step.done, *step.rest)}
            assert [wrong(again, listed, step) for step in again.root.all() if step.done] == [""] * sum(
                step.nodes > 0 for step in read.steps)
        assert best.proof and (best.bound, best.proof.open) == (whole.bound, 0)
        assert os.listdir(path.parent) == [path.name]
        assert threads > 1 or (best.proof.nodes, best.order.tolist()) == (
            whole.proof and whole.proof.nodes, whole.order.tolist())


@pytest.fixture(autouse=True)
def folder(tmp_path: pathlib.Path, monkeypatch: pytest.MonkeyPatch) -> pathlib.Path:
    monkeypatch.setenv("PYTEST_TMP", str(tmp_path))
    return tmp_path


@pytest.mark.parametrize("threads", [1, 2])
def test_after_a_kill_the_same_line_goes_on(folder: pathlib.Path, threads: int) -> None:
    """At any time. The nodes that count are those of a search without a break."""
    text = ("import sys, pfs; from pfs.shops import proof, proof_file\n"
            "if sys.argv[1] == 'slow': proof.FIRST, proof.CALL, proof_file.EVERY = 5, 0.0003, 0\n"
            f"best = pfs.taillard(11).optimum(600, start=range(20), limit={SPAN}, threads={threads}, state='state')\n"
            "print(best.bound, best.proof.open, best.proof.nodes)\n")
    for least in (1, 20_000, 60_000):
        with subprocess.Popen([sys.executable, "-c", text, "slow"], cwd=folder, env=plainly.environment()) as process:
            end, nodes = time.monotonic() + 100, 0
            while nodes < least and time.monotonic() < end and process.poll() is None:
                if (folder / "state").exists():
                    nodes = sum(map(int, re.findall(r"step (\d+)", (folder / "state").read_text())))
            process.kill()
            assert process.wait() == -signal.SIGKILL, "it had ended"
    assert plainly.python("-c", text, "fast", cwd=folder).stdout == f"{SPAN} 0 {NODES}\n"
    read = certificate_in((folder / "state").read_text())
    assert sum(step.nodes for step in read.steps) == NODES and read.open() == []
    assert read.head["instance"] == ["20", "10", digest_of(pfs.taillard(11).times.tolist())]


def damaged(change: Callable[[str], str]) -> Callable[[str], str]:
    """A change of a file's text before its checksum, which is made right again."""
    def changed(text: str) -> str:
        body = change(text.rpartition("sum ")[0])
        return f"{body}{_file.sum_of(body)}\n"

    return changed


DAMAGED = "state: a proof file, but damaged: its checksum is wrong"
SENSELESS = "state: a proof file, but its lines make no sense"
WRONG: dict[str, tuple[Callable[[str], str], str]] = {
    "empty": (lambda text: "", "state: not a proof file"),
    "other": (lambda text: json.dumps({"state": "pfs search 2"}), "state: not a proof file"),
    "version": (lambda text: text.replace("pfs proof 1", "pfs proof 2"),
                "state: a proof file of another version of pfs: 'pfs proof 2'"),
    "half": (lambda text: text[:len(text) // 2], DAMAGED),
    "a digit": (lambda text: text.replace("step ", "step 9", 1), DAMAGED),
    "a line less": (lambda text: "".join(text.splitlines(keepends=True)[:-1]), DAMAGED),
    "no end": (lambda text: text[:-2], DAMAGED),
    "bytes": (lambda text: text.replace("version", "\udcff"), DAMAGED),
    "makespan": (damaged(lambda text: re.sub(r"best \d+", "best 5", text)), SENSELESS),
    "start": (damaged(lambda text: text.replace("start ", "start 1 ")), SENSELESS),
    "no head": (damaged(lambda text: "pfs proof 1\n"), SENSELESS),
    "a depth": (damaged(lambda text: re.sub(r"\n0 step", "\n9 step", text)), SENSELESS),
    "a word": (damaged(lambda text: text.replace(" | ", " x ")), SENSELESS),
    "a job": (damaged(lambda text: text + "0 open\n> 0 | 0 : 99\n"), SENSELESS),
    "a job twice": (damaged(lambda text: text + "0 open\n> 0 2 | 0 : 2\n"), SENSELESS),
    "instance": (lambda text: text, "state: the proof of another instance, of 20 jobs and 10 machines"),
    "limit": (lambda text: text, "state: a proof with limit none, not with limit 1582"),
}


@pytest.mark.parametrize("name", WRONG)
def test_what_is_refused(name: str, folder: pathlib.Path) -> None:
    """By its name, and the file stays as it is."""
    change, said = WRONG[name]
    path = folder / "state"
    pfs.taillard(11).optimum(nodes=5000, state=path)
    path.write_bytes(change(path.read_text()).encode(errors="surrogateescape"))
    before, shop = path.read_bytes(), pfs.taillard(12 if name == "instance" else 11)
    with pytest.raises(ValueError, match=f"/{re.escape(said)}$") as error:
        shop.optimum(1, state=path, limit=SPAN if name == "limit" else None)
    assert isinstance(error.value, StateFault) and path.read_bytes() == before
    assert os.listdir(folder) == ["state"]


def test_names_and_notes_are_no_part_of_the_instance(folder: pathlib.Path) -> None:
    shop = pfs.taillard(11)
    other = pfs.Instance(shop.times, name="x", job_names=[f"J{job}" for job in range(20)], unit="min")
    first = shop.optimum(nodes=5000, state=folder / "state", start=range(20))
    again = other.optimum(nodes=0, state=folder / "state").proof
    assert first.proof and again and again[0] == 5000 and again[2:] == first.proof[2:]


def test_one_process_has_a_file(folder: pathlib.Path) -> None:
    """And two files have two proofs at once."""
    shop, stop = pfs.taillard(51), threading.Event()
    thread = threading.Thread(target=lambda: shop.optimum(100, state=folder / "a", stop=stop))
    thread.start()
    while not (folder / "a").exists():
        time.sleep(0.01)
    with pytest.raises(StateInUse, match="a: another search is using this state"):
        shop.optimum(1, state=folder / "a")
    assert shop.optimum(nodes=100, state=folder / "b", threads=2).proof is not None
    stop.set()
    thread.join()
    before = (folder / "a").read_bytes()
    assert shop.optimum(1, state=folder / "a", stop=stop).proof is not None and (folder / "a").read_bytes() != b""
    assert sorted(os.listdir(folder)) == ["a", "b"] and certificate_in(before.decode()).open() != []


def test_a_shorter_start_is_taken_over_and_a_longer_one_is_not(folder: pathlib.Path) -> None:
    shop, path = pfs.taillard(11), folder / "state"
    longer = shop.optimum(nodes=1000, state=path, start=range(20)).makespan
    best = shop.optimum(60)
    assert shop.optimum(nodes=0, state=path, start=best).makespan == best.makespan < longer
    assert shop.optimum(nodes=0, state=path, start=range(20)).makespan == best.makespan
    read = certificate_in(path.read_text())
    assert int(read.head["start"][0]) == shop.makespan(range(20)) and int(read.head["best"][0]) == best.makespan


def test_a_file_that_cant_be_written_loses_no_order(folder: pathlib.Path, monkeypatch: pytest.MonkeyPatch) -> None:
    """At once where there is no room for it, and with the best order where writing fails later."""
    shop = pfs.taillard(51)
    with pytest.raises(OSError, match="No such file"):
        shop.optimum(1, state=folder / "none" / "state")
    monkeypatch.setattr(_file, "atomic_write", lambda *given: (_ for _ in ()).throw(OSError(28, "No space left")))
    with pytest.raises(OSError, match="No space left") as error:
        shop.optimum(60, state=folder / "state")
    best: Any = error.value
    assert best.solution.makespan == shop.makespan(best.solution) and best.solution.proof.open > 0
    assert os.listdir(folder) == []


def test_an_interruption_keeps_the_file(folder: pathlib.Path) -> None:
    shop = pfs.taillard(51)
    timer = threading.Timer(1, os.kill, (os.getpid(), signal.SIGINT))
    timer.start()
    with pytest.raises(pfs.Interrupted) as stop:
        shop.optimum(120, state=folder / "state", threads=2)
    timer.join()
    best, read = stop.value.solution, certificate_in((folder / "state").read_text())
    assert best.proof and best.proof.nodes == sum(step.nodes for step in read.steps) > 0
    assert best.proof.open == len(read.open()) > 0


def test_a_long_proof_stays_short(folder: pathlib.Path, monkeypatch: pytest.MonkeyPatch) -> None:
    """Steps that are closed become one, and the nodes stay."""
    monkeypatch.setattr(_file, "MOST_BYTES", 3_000)
    cut(monkeypatch, 50, 8, 100)
    best = pfs.taillard(11).optimum(600, start=range(20), limit=SPAN, state=folder / "state", threads=2)
    text = (folder / "state").read_text()
    assert len(text) <= 3_000 and best.proof and best.proof.nodes == NODES
    assert sum(step.nodes for step in certificate_in(text).steps) == NODES
