"""Runs of scripts, and what they need; the files of the repository."""
import contextlib
import csv
import importlib.machinery
import importlib.util
import io
import os
import pathlib
import subprocess
import sys
import time
import tomllib
from collections.abc import Callable, Iterator, Sequence
from typing import Any, NamedTuple
from unittest import mock

import pytest
from support.needs import not_installed

TOP = pathlib.Path(__file__).resolve().parents[2]
# Folders of what is made.
MADE = ("out", "dist", "__pycache__")
# A script that takes longer hangs.
MOST_SECONDS = 120.0


def files_below(folder: pathlib.Path, *passed_over: str) -> Iterator[pathlib.Path]:
    """The files below a folder, but for what is made, hidden folders and those of these names."""
    for path in folder.iterdir():
        if path.is_file():
            yield path
        elif path.name not in (*MADE, *passed_over) and (path.name[0] != "." or path.name == ".ci") and path.is_dir():
            yield from files_below(path, *passed_over)


class Done(NamedTuple):
    """The result of a script: its exit status and its outputs."""
    status: int
    stdout: str
    stderr: str


def run_tool(words: Sequence[str | pathlib.Path], cwd: pathlib.Path, **how: Any) -> Done:
    """Run a script in a folder. By default its input is empty; `how` has other arguments of `subprocess.run`."""
    how = {"stdin": subprocess.DEVNULL} | how
    done = subprocess.run([str(word) for word in words], cwd=cwd, capture_output=True, text=True, timeout=MOST_SECONDS,
                          **how)
    return Done(done.returncode, done.stdout, done.stderr)


def run_main(main: Callable[[], int], words: Sequence[str], cwd: pathlib.Path) -> Done:
    """Run the function of a script with these words in this process, which is faster than a new one."""
    out, got = io.StringIO(), io.StringIO()
    with (mock.patch("sys.argv", [*words]), contextlib.chdir(cwd), contextlib.redirect_stdout(out),
          contextlib.redirect_stderr(got)):
        try:
            status = main()
        except SystemExit as end:
            status = int(end.code or 0)
    return Done(status, out.getvalue(), got.getvalue())


def output_of(words: Sequence[str | pathlib.Path], cwd: pathlib.Path, **how: Any) -> str:
    """Run a script that has to succeed, and return its output."""
    got = run_tool(words, cwd, **how)
    assert got.status == 0, f"{words}: {got}"
    return got.stdout


def csv_rows(path: pathlib.Path) -> list[dict[str, str]]:
    """The rows of a CSV, by its columns."""
    with open(path, newline="") as file:
        return list(csv.DictReader(file))


def write_script(path: pathlib.Path, text: str) -> pathlib.Path:
    """Writes a script that can be run, and the folder that it is in."""
    path.parent.mkdir(parents=True, exist_ok=True)
    path.write_text(text)
    path.chmod(0o755)
    return path


def imported(path: pathlib.Path) -> Any:
    """A script as a module, also one whose name has no ending."""
    loader = importlib.machinery.SourceFileLoader(f"script_{path.stem}", str(path))
    spec = importlib.util.spec_from_loader(loader.name, loader)
    assert spec is not None
    module = importlib.util.module_from_spec(spec)
    before, sys.dont_write_bytecode = sys.dont_write_bytecode, True
    try:
        loader.exec_module(module)
    finally:
        sys.dont_write_bytecode = before
    return module


def wait_until(has_come: Callable[[], bool], what: str, seconds: float = 60.0) -> None:
    """Wait until a condition holds that depends on another process. If it takes too long, the test fails."""
    end = time.monotonic() + seconds
    while not has_come():
        assert time.monotonic() < end, f"after {seconds:g} s still false: {what}"
        time.sleep(0.01)


def stop(process: subprocess.Popen[Any]) -> None:
    """Ends a server."""
    process.terminate()
    try:
        process.wait(20)
    except subprocess.TimeoutExpired:
        process.kill()
        process.wait()


def with_path(folder: pathlib.Path) -> dict[str, str]:
    """The environment with this folder first in PATH."""
    return dict(os.environ, PATH=f"{folder}:{os.environ['PATH']}")


LAUNCHER = """#!/usr/bin/python3 -B
import sys
sys.path.insert(0, "{sources}")
from {module} import {function}
if __name__ == "__main__":
    sys.exit({function}())
"""


@pytest.fixture(scope="session")
def scripts(tmp_path_factory: pytest.TempPathFactory) -> pathlib.Path:
    """A folder with the console scripts of the package, as pip makes them."""
    folder = tmp_path_factory.mktemp("scripts")
    settings = tomllib.loads((TOP / "python" / "pyproject.toml").read_text())
    for name, entry in settings["project"]["scripts"].items():
        module, function = entry.split(":")
        write_script(folder / name, LAUNCHER.format(sources=TOP / "python" / "src", module=module, function=function))
    return folder


@pytest.fixture(scope="session")
def matplotlib() -> None:
    """Matplotlib of Debian's Python, which the scripts name, and which may not be the Python of the tests."""
    require_debian_module("matplotlib")


@pytest.fixture(scope="session")
def scipy(matplotlib: None) -> None:
    """SciPy of Debian's Python."""
    require_debian_module("scipy")


def require_debian_module(module: str) -> None:
    """Skips the test where Debian's Python has no such module."""
    try:
        done = subprocess.run(["/usr/bin/python3", "-c", f"import {module}"], stderr=subprocess.DEVNULL)
    except FileNotFoundError:
        not_installed(module)
    if done.returncode != 0:
        not_installed(module)
