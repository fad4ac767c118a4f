"""The options and the fixtures of all tests."""
import itertools
import os
import pathlib
import re
import shutil
import signal
import sys
from collections.abc import Iterator

import pytest
from _pytest.assertion import truncate
from hypothesis import HealthCheck, settings

pytest.register_assert_rewrite("support")
from support.files import make_files
from support.library import Library
from support.needs import missing, tool
from support.program import Program
from support.tools import TOP

pytest_plugins = ["support.needs", "support.tools", "support.servers",
                  "support.experiments", "support.growths", "support.office", "support.installed"]

PACKAGE = TOP / "tests" / "python"
# Examples are the same in each run, and none is too slow for a machine that runs other programs too.
settings.register_profile("pfs", deadline=None, derandomize=True, max_examples=60, database=None,
                          suppress_health_check=[HealthCheck.function_scoped_fixture, HealthCheck.too_slow])
# For runs that repeat tests under other conditions, where each example makes the same calls.
settings.register_profile("few", settings.get_profile("pfs"), max_examples=15)
settings.load_profile("pfs")
# The folders of tests so far.
NUMBERS = itertools.count()
# The fixtures of what is proved and built.
BUILT = {"pfs", "pfs_by_rattle", "pfs_calls", "libpfs"}
# Those that only `rt ci` leaves.
LEFT_BY_CI = {"pfs_by_rattle", "pfs_calls"}


def pytest_addoption(parser: pytest.Parser) -> None:
    for name, file in (("pfs", "pfs/out/pfs"), ("pfs_by_rattle", "pfs/out/pfs.by-rattle"),
                       ("pfs_calls", "pfs_calls/out/pfs_calls")):
        built = TOP / "crates" / file
        parser.addoption(f"--{name.replace('_', '-')}", type=pathlib.Path, default=built, metavar="PATH",
                         help=f"the built program {name} that is tested (default: {built})")
    library = os.environ.get("PFS_LIBRARY") or TOP / "lib" / "out" / "libpfs.so.1"
    parser.addoption("--libpfs", type=pathlib.Path, default=library, metavar="PATH",
                     help=f"the library for C and Python that is tested, with libpfs.a beside it (default: {library})")


def pytest_configure(config: pytest.Config) -> None:
    # What a failing assertion says is cut off after 8 lines otherwise. Since pytest 8.4 there is a setting for it.
    truncate.DEFAULT_MAX_LINES, truncate.DEFAULT_MAX_CHARS = 60, 6_000
    # What runs in the background of a shell ignores it, and so would all that the tests start.
    if signal.getsignal(signal.SIGINT) == signal.SIG_IGN:
        signal.signal(signal.SIGINT, signal.default_int_handler)
    # It would hide that a script doesn't flush what it prints.
    os.environ.pop("PYTHONUNBUFFERED", None)
    # Scripts begin with `env python3`: Debian's Python has the packages that they need, and starts fast.
    os.environ["PATH"] = f"/usr/bin:{os.environ['PATH']}"
    library = pathlib.Path(config.getoption("libpfs")).resolve()
    if library.is_file():
        os.environ["PFS_LIBRARY"] = str(library)
    if config.option.collectonly or config.option.markexpr == "check":
        return
    path = config.getoption("pfs").resolve()
    if not path.is_file():
        raise pytest.UsageError(f"no program {path}: `make run` proves and builds it, or --pfs=PATH names another one")


def pytest_ignore_collect(collection_path: pathlib.Path, config: pytest.Config) -> bool | None:
    """The package for Python loads the library, so `make check` leaves its tests out."""
    return config.option.markexpr == "check" and collection_path.is_relative_to(PACKAGE) or None


@pytest.hookimpl(optionalhook=True)  # type: ignore[misc]  # pluggy has no types
def pytest_xdist_auto_num_workers() -> int | None:
    """For `-n auto` one more than there are processors: some tests wait for servers, for terminals or for a time."""
    return None if os.environ.get("PYTEST_XDIST_AUTO_NUM_WORKERS") else len(os.sched_getaffinity(0)) + 1


@pytest.hookimpl(tryfirst=True)  # type: ignore[misc]  # pluggy has no types
def pytest_collection_modifyitems(items: list[pytest.Item]) -> None:
    """Marks the tests that `make check` runs and those of what `rt ci` leaves, and puts the longest tests first."""
    for item in items:
        if LEFT_BY_CI.intersection(getattr(item, "fixturenames", ())):
            item.add_marker("calls")
        if needs_nothing_built(item) and item.get_closest_marker("long") is None:
            item.add_marker("check")
    if "PFS_MUTANT" not in os.environ:  # whose tests come in the order of the command line
        items.sort(key=seconds_of, reverse=True)


def needs_nothing_built(item: pytest.Item) -> bool:
    """Whether this test uses no program or library."""
    return not (item.path.is_relative_to(PACKAGE) or BUILT.intersection(getattr(item, "fixturenames", ())))


def seconds_of(item: pytest.Item) -> float:
    marker = item.get_closest_marker("seconds")
    return float(marker.args[0]) if marker else 0.0


def pytest_assertrepr_compare(op: str, left: object, right: object) -> list[str] | None:
    """What differs of two solutions or instances, whose texts leave most of it out."""
    kind = type(left).__name__
    if op != "==" or type(left) is not type(right) or kind not in ("Solution", "Instance"):
        return None
    names = [name for name in ("times", *getattr(left, "__slots__")) if name[0] != "_" and hasattr(left, name)]
    pairs = {name: (getattr(left, name), getattr(right, name)) for name in names}
    lists = {name: [value.tolist() if hasattr(value, "tolist") else value for value in pair]
             for name, pair in pairs.items()}
    return [f"{kind} == {kind}", *(f"{name}: {one} != {other}" for name, (one, other) in lists.items() if one != other)]


@pytest.fixture(scope="session")
def top() -> pathlib.Path:
    """The repository's root."""
    return TOP


@pytest.fixture(scope="session")
def pfs(pytestconfig: pytest.Config) -> Program:
    """The built program."""
    return Program(pytestconfig.getoption("pfs").resolve())


@pytest.fixture(scope="session")
def program(pfs: Program) -> str:
    """Its path, for modules that import the package, whose name is the program's."""
    return str(pfs.path)


@pytest.fixture(scope="session")
def pfs_by_rattle(pytestconfig: pytest.Config) -> Program:
    """The program as Rattle's own compiler builds it."""
    return left_by_ci(pytestconfig, "pfs_by_rattle")


@pytest.fixture(scope="session")
def pfs_calls(pytestconfig: pytest.Config) -> Program:
    """The built test program."""
    return left_by_ci(pytestconfig, "pfs_calls")


def left_by_ci(config: pytest.Config, option: str) -> Program:
    path = config.getoption(option).resolve()
    return Program(path) if path.is_file() else missing(f"no program {path}: `rt ci` builds it")


@pytest.fixture(scope="session")
def libpfs(pytestconfig: pytest.Config) -> Library:
    """The built library for C."""
    path: pathlib.Path = pytestconfig.getoption("libpfs").resolve()
    return Library(path) if path.is_file() else missing(f"no library {path}: `make lib` proves and builds it")


@pytest.fixture(scope="session")
def chromium() -> str:
    """A browser."""
    return tool("chromium")


@pytest.fixture
def tmp_path(request: pytest.FixtureRequest, tmp_path_factory: pytest.TempPathFactory) -> pathlib.Path:
    """An empty folder, in the place of pytest's own fixture. That one looks for a free number among the folders of all
    tests before, which takes longer from test to test. Pytest removes it with the folders of older runs."""
    name = re.sub(r"\W", "_", request.node.name)[:30]
    made = tmp_path_factory.getbasetemp() / f"{name}{next(NUMBERS)}"
    made.mkdir(mode=0o700)
    return made


@pytest.fixture
def folder(tmp_path: pathlib.Path) -> pathlib.Path:
    """An empty folder."""
    return tmp_path


@pytest.fixture
def untraced() -> Iterator[None]:
    """Nothing notes which lines run, for a test of times."""
    noting = sys.gettrace()
    sys.settrace(None)
    yield
    sys.settrace(noting)


@pytest.fixture(scope="session")
def worked_once(tmp_path_factory: pytest.TempPathFactory) -> pathlib.Path:
    """The same as `worked`, for tests that write nothing into their folder. Writing the files takes as long as a run of
    the program."""
    made = tmp_path_factory.mktemp("worked")
    make_files(made)
    return made


@pytest.fixture
def worked(tmp_path: pathlib.Path) -> Iterator[pathlib.Path]:
    """A folder with the worked files, and the folder `folder` in it."""
    made = tmp_path / "worked"
    made.mkdir()
    make_files(made)
    yield made
    shutil.rmtree(made)
