"""The command line that SECURITY.md gives for untrusted files: it changes no result, and stops a run that takes too
long or needs too much memory."""
import pathlib
import re
import shutil
import subprocess

import pytest
from support.files import BEST2, THREE_JOBS
from support.lines import VALID, WRONG_MAKESPAN
from support.needs import missing, tool
from support.program import Program
from support.tools import TOP, Done, run_tool, with_path


def line() -> str:
    """The line, in which FILE and ORDER are names."""
    found = re.findall(r"^timeout .*$", (TOP / "SECURITY.md").read_text(), re.MULTILINE)
    assert len(found) == 1
    return str(found[0])


@pytest.fixture
def place(folder: pathlib.Path, pfs: Program) -> pathlib.Path:
    """A folder with the program, an instance, an order and the largest instance."""
    for command in ("prlimit", "setpriv", "timeout", "unshare"):
        tool(command)
    if subprocess.run(["unshare", "--user", "--net", "--ipc", "true"], capture_output=True).returncode != 0:
        missing("this system allows no user namespaces")
    (folder / "bin").mkdir()
    shutil.copy(pfs.path, folder / "bin" / "pfs")
    (folder / "FILE").write_bytes(THREE_JOBS)
    (folder / "ORDER").write_bytes(BEST2)
    return folder


def run(text: str, place: pathlib.Path) -> Done:
    return run_tool(["bash", "-c", text], place, env=with_path(place / "bin"))


def test_the_line_changes_no_result(place: pathlib.Path) -> None:
    assert run(line(), place) == Done(0, VALID.decode(), "")
    (place / "ORDER").write_bytes(BEST2.replace(b"10", b"9"))
    assert run(line(), place).stdout == WRONG_MAKESPAN.decode()


@pytest.mark.parametrize("name", ["/dev/zero", "/dev/urandom"])
def test_a_file_without_an_end_is_rejected(name: str, place: pathlib.Path) -> None:
    got = run(line().replace("FILE", name), place)
    assert (got.status, got.stdout) == (2, "") and got.stderr.count("\n") == 1


@pytest.mark.seconds(5)
def test_the_largest_instance_has_enough_memory_and_a_search_of_it_ends_in_time(place: pathlib.Path) -> None:
    (place / "FILE").write_text(run("pfs generate 5000 200 1", place).stdout)
    checked = line().replace("check --layout taillard FILE ORDER", "value --layout taillard FILE")
    assert "value" in checked and run(checked, place).status == 0
    searched = line().replace("check --layout taillard FILE ORDER", "solve --layout taillard --rounds 1000000 FILE")
    assert "60" in searched and run(searched.replace("timeout 60", "timeout 1"), place) == Done(124, "", "")
    smaller = re.sub(r"--as=\d+", "--as=16000000", searched)
    assert run(smaller, place) == Done(4, "", "pfs: no memory\n")


def test_the_program_has_no_network_and_gets_no_privileges(place: pathlib.Path) -> None:
    """By what another program sees in its place."""
    looking = line().replace("pfs check --layout taillard FILE ORDER",
                             "sh -c 'cat /proc/net/dev | tail -n +3 | cut -d: -f1; grep NoNewPrivs /proc/self/status'")
    got = run(re.sub(r"--as=\d+", "--as=1000000000", looking), place)
    assert got.stdout.split() == ["lo", "NoNewPrivs:", "1"], got
