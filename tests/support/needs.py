"""What a test needs besides the built program. If it is missing, the test is skipped, with the package to install as
the reason. In CI (with the variable CI set to `true`) nothing may be missing: any skip is a failure. A plugin of
pytest, which conftest.py names."""
import functools
import importlib.util
import os
import pathlib
import shutil
from collections.abc import Generator
from typing import Any, NamedTuple, NoReturn

import pytest

# The Debian packages.
LIST = pathlib.Path(__file__).resolve().parents[2] / "tools" / "packages"


class Package(NamedTuple):
    """A package, and the commands, modules or files that it provides."""
    name: str
    kind: str
    provides: list[str]


@functools.cache
def packages() -> list[Package]:
    """Each package of the list."""
    lines = [line.split() for line in LIST.read_text().splitlines() if line and line[0] not in "#="]
    return [Package(name, kind, provides) for name, kind, *provides in lines]


def package_of(name: str) -> str | None:
    """The package that provides this command or module, or None for a name that the list doesn't have."""
    return next((package.name for package in packages() if name in package.provides), None)


def tool(command: str) -> str:
    """The path of a command, without which the test is skipped. No browser starts while changes are tried."""
    path = shutil.which(command)
    if command == "chromium" and "PFS_MUTANT" in os.environ:
        missing("tests/mutants.py starts no browser")
    return not_installed(command) if path is None else path


def require_module(name: str) -> None:
    """Skips the test where Python has no module of this name."""
    if importlib.util.find_spec(name) is None:
        not_installed(name)


def not_installed(name: str) -> NoReturn:
    """Skips the test, with the package of this command or module as the reason."""
    package = package_of(name)
    missing(f"{name} isn't installed" + (f": `tools/setup all` installs it (Debian: {package})" if package else ""))


def missing(why: str) -> NoReturn:
    """Skips the test, for this reason."""
    pytest.skip(why)


@pytest.hookimpl(hookwrapper=True)  # type: ignore[misc]  # pluggy has no types
def pytest_runtest_makereport() -> Generator[None, Any, None]:
    """A test that is skipped in CI has failed."""
    outcome = yield
    refuse_skip(outcome.get_result())


@pytest.hookimpl(hookwrapper=True)  # type: ignore[misc]  # pluggy has no types
def pytest_make_collect_report() -> Generator[None, Any, None]:
    """So has a file that is skipped as a whole."""
    outcome = yield
    refuse_skip(outcome.get_result())


def refuse_skip(report: pytest.TestReport | pytest.CollectReport) -> None:
    """Makes a failure of a skip in CI, with the skip's reason."""
    if report.skipped and os.environ.get("CI") == "true" and not hasattr(report, "wasxfail"):
        why = report.longrepr[2] if isinstance(report.longrepr, tuple) else str(report.longrepr)
        report.outcome = "failed"
        report.longrepr = f"no test is skipped in CI: {why.removeprefix('Skipped: ')}"
