"""The examples of the README, of the docstrings and of the folder `examples`."""
import doctest
import importlib
import inspect
import io
import os
import pathlib
import pkgutil
import re
import shlex
import subprocess
import sys

import pfs
import pytest
from support import plainly
from support.tools import TOP

PAGE = TOP / "python" / "README.md"
PLAN = TOP / "docs" / "PLAN.md"
MODULES = sorted(module.name for module in pkgutil.walk_packages(pfs.__path__, "pfs.")
                 if not module.name.startswith(("pfs.web", "pfs.experiments", "pfs.__main__")))


@pytest.mark.parametrize("name", ["pfs", *MODULES])
def test_docstrings(name: str) -> None:
    assert doctest.testmod(importlib.import_module(name), extraglobs={"pfs": pfs}).failed == 0


def public() -> dict[str, object]:
    """What users call or read: the package's names and the public methods of its classes."""
    found: dict[str, object] = {}
    for name in pfs.__all__:
        thing = getattr(pfs, name)
        if inspect.isclass(thing) or inspect.isfunction(thing):
            found[name] = thing
        if inspect.isclass(thing):
            found |= {f"{name}.{each}": method for each, method in vars(thing).items()
                      if inspect.isfunction(method) and not each.startswith("_")}
    return found


@pytest.mark.parametrize("name", public())
def test_each_public_name_is_described(name: str) -> None:
    """Each parameter on a separate line, unless there is one and a paragraph, and each attribute."""
    thing = public()[name]
    text = inspect.getdoc(thing) or ""
    assert re.match(r"[A-Z][^\n]+", text), f"{name} has no docstring"
    parameters = [each for each in inspect.signature(thing).parameters if each != "self"]  # type: ignore[arg-type]
    described = {each for line in re.findall(r"^([\w, ]+) : ", text, re.MULTILINE) for each in line.split(", ")}
    if inspect.isfunction(thing):
        assert len(parameters) + ("\n\n" in text) < 2 or set(parameters) <= described, f"parameters of {name}"
    kept = [each for each in getattr(thing, "__slots__", ()) if not each.startswith("_")]
    assert set(kept) <= described, f"attributes of {name}"


def test_the_defaults_of_docstrings_are_the_packages() -> None:
    """The limits are in test_limits.py."""
    texts = {name: " ".join((inspect.getdoc(public()[name]) or "").split())
             for name in ("Instance.solve", "Instance", "taillard")}
    for name, text in (("Instance.solve", "The default is 1,000"), ("Instance.solve", "The default is 4"),
                       ("Instance", "0 to 9"), ("taillard", "1 to 120")):
        assert text in texts[name], f"the docstring of {name} tells another number than {text!r}"
    shop = pfs.Instance([[at, 9 - at] for at in range(9)], decimals=9)
    assert shop.solve() == shop.solve(1_000, take=4) and pfs.taillard(120).jobs == 500


def test_the_names_that_readme_states_are_the_packages() -> None:
    """Names of the package, and the attributes of what is raised for a file."""
    text = PAGE.read_text()
    named = set(re.findall(r"`pfs\.(\w+)", text)) | set(re.findall(r"\bpfs\.(\w+)\(", text))
    assert len(named) > 8 and sorted(named - set(pfs.__all__)) == []
    raised: dict[str, ValueError] = {"FileFault": pfs.FileFault("f", 24, 17, 3, 2, ""),
                                     "OrderFault": pfs.OrderFault("f", 31, 3),
                                     "TableFault": pfs.TableFault("f", 4, 2, "x")}
    rows = dict(re.findall(r"^\| (.*?) \| `pfs\.(\w+)`", text, re.MULTILINE))
    assert list(rows.values()) == list(raised)
    assert [name for what, name in rows.items() if "order" in what] == ["OrderFault"]
    assert [name for what, name in rows.items() if "table" in what] == ["TableFault"]
    for name, attributes in re.findall(r"\| `pfs\.(\w+)`: (.*) \|$", text, re.MULTILINE):
        got = re.findall(r"`(\w+)`(?! prints)", attributes)
        assert len(got) > 2 and [each for each in got if each not in vars(raised[name])] == [], name


# What ends with which status, in README's words.
STATUSES = {"a file that is invalid": "search wrong --layout taillard", "a command line that is invalid": "search",
            "the system's errors": "search none --layout taillard"}


@pytest.mark.parametrize("what", STATUSES)
def test_a_status_that_readme_states_is_the_commands(tmp_path: pathlib.Path, what: str) -> None:
    (tmp_path / "wrong").write_text("no instance\n")
    [sentence] = re.findall(r"Other statuses are those of `pfs`: (.*?)\.\s", PAGE.read_text())
    got = dict(re.findall(r"(\d) for ([\w' ]+)", sentence))
    assert sorted(got.values()) == sorted(STATUSES) and len(got) == 3
    status, = [int(number) for number, text in got.items() if text == what]
    done = plainly.python("-m", "pfs", *STATUSES[what].split(), cwd=tmp_path)
    assert done.returncode == status, f"README tells status {status} for {what}: {done.stderr}"
    text = PAGE.read_text()
    assert "after a signal the exit status is 128 and the signal's number" in text
    assert "the order is never lost, and the status is 4" in text


@pytest.fixture
def files(tmp_path: pathlib.Path, monkeypatch: pytest.MonkeyPatch) -> pathlib.Path:
    """The folder in which the pages' examples run, with the files that they read."""
    monkeypatch.chdir(tmp_path)
    pfs.taillard(1).write("ta001")
    table, = re.findall(r"^\$ cat times.csv\n(.*?)^\$ ", PLAN.read_text(), re.MULTILINE | re.DOTALL)
    (tmp_path / "times.csv").write_text(table)
    return tmp_path


@pytest.mark.parametrize("page", [PAGE, PLAN], ids=["README.md", "PLAN.md"])
def test_a_page_in_python(page: pathlib.Path, files: pathlib.Path) -> None:
    pytest.importorskip("pandas")
    tests = doctest.testfile(str(page), module_relative=False, encoding="utf-8")
    assert tests.failed == 0 and tests.attempted > 5


@pytest.mark.parametrize("page", [PAGE, PLAN], ids=["README.md", "PLAN.md"])
def test_the_command_lines_of_a_page(page: pathlib.Path, files: pathlib.Path, program: str) -> None:
    """Each console block prints what the page shows."""
    for name, words in (("python3", ""), ("pfs-plan", "-m pfs plan")):
        (files / name).write_text(f'#!/bin/sh\nexec {shlex.quote(sys.executable)} {words} "$@"\n')
        (files / name).chmod(0o755)
    env = plainly.environment(PATH=f"{files}:{pathlib.Path(program).parent}:{os.environ['PATH']}")
    blocks = re.findall(r"```console\n(.*?)```", page.read_text(), re.DOTALL)
    assert blocks
    for block in blocks:
        lines = [line[2:] for line in block.splitlines() if line.startswith("$ ")]
        due = "".join(line + "\n" for line in block.splitlines() if not line.startswith("$ "))
        done = subprocess.run(["sh", "-e", "-c", "\n".join(lines)], cwd=files, env=env, text=True,
                              stdout=subprocess.PIPE, stderr=subprocess.STDOUT)
        assert (done.returncode, done.stdout) == (0, due)


@pytest.mark.seconds(15)
def test_the_examples(tmp_path: pathlib.Path) -> None:
    done = plainly.python(TOP / "python" / "examples" / "compare.py", cwd=tmp_path)
    assert (done.returncode, done.stderr) == (0, "")
    rows = [line.split(",") for line in done.stdout.splitlines()]
    assert rows[0] == ["instance", "method", "makespan"] and len(rows) == 31
    for name, method, makespan in rows[1:]:
        shop = pfs.taillard(int(name[2:]))
        if method == "NEH":
            assert int(makespan) == shop.neh().makespan
        assert shop.neh().makespan >= int(makespan) >= shop.bound()
    script, shop = TOP / "python" / "examples" / "ig_temperature.py", pfs.taillard(1)
    shop.write(tmp_path / "ta001")
    done = plainly.python(script, "ta001", "1", "0", cwd=tmp_path)
    assert (done.returncode, done.stderr) == (0, "")
    check = shop.check(pfs.read_order(io.BytesIO(done.stdout.encode())))
    assert check.valid and check.makespan is not None and check.makespan <= shop.neh().makespan
    done = plainly.python(script, "ta001", cwd=tmp_path)
    assert (done.returncode, done.stderr) == (1, "usage: ig_temperature.py INSTANCE SEED SECONDS\n")
