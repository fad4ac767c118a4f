"""Which library is loaded, and the error for one that can't be used. An instance is prepared by the library once, on
its first call, and released with the object. Copies, pickled ones, forked processes and calls at the same time in
several threads prepare their own."""
import copy
import gc
import os
import pathlib
import pickle
import re
import shutil
import subprocess
import sys
import threading
import time
import timeit
from collections.abc import Callable
from concurrent.futures import ThreadPoolExecutor
from typing import Any
from unittest import mock

import numpy as np
import pfs
import pytest
from pfs.binding import library as _library
from pfs.base.faults import INSTANCE_FAULTS
from support import plainly
from support.needs import tool
from support.tools import TOP

# The numbers of preparations and of releases so far.
Counts = Callable[[], list[int]]
MAJOR = int(pfs.__version__.split(".")[0])
LOADING = "import pfs, pfs.binding.library; print(pfs.binding.library.PATH, pfs.__version__)"


def library_of(version: str, folder: pathlib.Path, without: str = "") -> pathlib.Path:
    """A library of this version whose functions do nothing; one of them is missing."""
    text = (TOP / "lib" / "pfs.h").read_text()
    header, count = re.subn(r'(?m)^#define PFS_VERSION ".*"$', f'#define PFS_VERSION "{version}"', text)
    assert count == 1
    (folder / "pfs.h").write_text(header)
    shutil.copy(TOP / "lib" / "pfs_text.c", folder)
    names = [name for name in _library.PROTOTYPES if name != without]
    (folder / "nothing.c").write_text("".join(f"int {name}(void) {{ return 0; }}\n" for name in names))
    sources = [folder / name for name in ("pfs_text.c", "nothing.c")]
    subprocess.run([tool("gcc"), "-shared", "-fPIC", f"-I{folder}", "-o", folder / "libpfs.so.1", *sources], check=True)
    return folder / "libpfs.so.1"


def loaded(library: pathlib.Path | str, folder: pathlib.Path) -> subprocess.CompletedProcess[str]:
    """What Python says that imports the package with this library."""
    return plainly.python("-c", LOADING, cwd=folder, PFS_LIBRARY=str(library))


@pytest.mark.parametrize(("version", "fits"), [
    (f"{MAJOR}.0.0", True), (f"{MAJOR}.7.3", True), (f"{MAJOR}", True), (f"{MAJOR + 1}.0.0", False),
    (f"{MAJOR}0.0.0", False), (f"{MAJOR - 1}.9.9", False), (f"{MAJOR + 1}", False)])
def test_a_library_of_another_version_is_rejected(tmp_path: pathlib.Path, version: str, fits: bool) -> None:
    library = library_of(version, tmp_path)
    done = loaded(library, tmp_path)
    got = f"ImportError: the library {library} has version {version}, but this package needs {pfs.__version__}"
    assert (done.stdout, done.stderr.splitlines()[-1:]) == (
        (f"{library} {pfs.__version__}\n", []) if fits else ("", [got])), f"a library of version {version}"


@pytest.mark.parametrize("what", ["pfs_prepare", "pfs_write_order", None, b"", b"no library"])
def test_a_library_without_a_function_and_a_file_that_is_none_are_rejected(tmp_path: pathlib.Path,
                                                                           what: str | bytes | None) -> None:
    """When it is loaded, and not when the function is called."""
    library = library_of(pfs.__version__, tmp_path, what) if isinstance(what, str) else tmp_path / "libpfs.so.1"
    if isinstance(what, bytes):
        library.write_bytes(what)
    got = loaded(library, tmp_path).stderr.splitlines()[-1]
    assert got.startswith(f"ImportError: pfs can't load its library {library} (")
    assert not isinstance(what, str) or f"undefined symbol: {what}" in got
    assert got.endswith("): PFS_LIBRARY names it")


def test_the_library_that_the_variable_names_goes_before_the_packages(monkeypatch: pytest.MonkeyPatch,
                                                                     tmp_path: pathlib.Path) -> None:
    """Then the one in the package, as a wheel has it, and then the system's."""
    monkeypatch.setattr(_library, "__file__", str(tmp_path / "binding" / "library.py"))
    monkeypatch.delenv("PFS_LIBRARY", raising=False)
    assert _library.path_of_library() == "libpfs.so.1"
    with pytest.raises(ImportError, match="set PFS_LIBRARY to the path of"):
        _library.load(str(tmp_path / "none"))
    (tmp_path / "libpfs.so.1").touch()
    assert _library.path_of_library() == str(tmp_path / "libpfs.so.1")
    monkeypatch.setenv("PFS_LIBRARY", "")
    assert _library.path_of_library() == str(tmp_path / "libpfs.so.1")
    monkeypatch.setenv("PFS_LIBRARY", "/elsewhere/libpfs.so.1")
    assert _library.path_of_library() == "/elsewhere/libpfs.so.1", "the package's library goes before the named one"


def test_the_numbers_limits_and_functions_are_those_of_the_header() -> None:
    text = (TOP / "lib" / "pfs.h").read_text()
    defined = {name: int(value) for name, value in
               re.findall(r"^#define PFS_(\w+) (?:UINT64_C\()?(\d+)\b", text, re.MULTILINE)}
    own = {name: value for name, value in vars(_library).items() if isinstance(value, int) and name in defined}
    assert len(own) > 12 and own == {name: defined[name] for name in own}
    errors = [number for number in own.values() if isinstance(_library.error_of(number), MemoryError)]
    assert errors == [defined["MEMORY"]]
    names = {number: name.replace("_", " ").lower() for name, number in defined.items()}
    assert {number: name for number, (name, _) in INSTANCE_FAULTS.items()} == {at: names[at] for at in range(20, 29)}
    assert _library.LAYOUTS == {"taillard": defined["TAILLARD"], "orlib": defined["ORLIB"]}
    assert (_library.MOST_NOTE, _library.MOST_SEED) == (2**32 - 1, 2**64 - 1)
    types = {"size_t": "c_ulong", "uint32_t": "c_uint", "uint64_t": "c_ulong", "int": "c_int"}
    header = re.sub(r"/\*.*?\*/", "", (TOP / "lib" / "pfs.h").read_text(), flags=re.DOTALL)
    declared = dict(re.findall(r"^(?:int|void) (pfs_\w+)\((.*?)\)(?: PFS_CHECKED)?;", header,
                               re.MULTILINE | re.DOTALL))
    assert declared.keys() - {"pfs_version_number"} == _library.PROTOTYPES.keys()
    for name in _library.PROTOTYPES:
        parameters = declared[name]
        due = ["c_void_p" if "*" in each else types[each.split()[-2]] for each in parameters.split(",")]
        assert [kind.__name__ for kind in _library.PROTOTYPES[name]] == due, f"the types of {name}"
        assert [kind.__name__ for kind in getattr(_library.library, name).argtypes] == due


def test_modules_that_need_no_library_are_imported_without_one(tmp_path: pathlib.Path) -> None:
    """Those that draw a time table, and those of experiments. A name of the package says what is missing."""
    code = ("import pfs, pfs.commands.gantt, pfs.experiments.__main__\n"
            "from pfs.experiments import plan, run\nprint(pfs.__version__)\npfs.Instance\n")
    done = plainly.python("-c", code, cwd=tmp_path, PFS_LIBRARY="/none")
    assert done.stdout == f"{pfs.__version__}\n", done.stderr
    assert done.stderr.splitlines()[-1].startswith("ImportError: pfs can't load its library /none")


# Instances that the library has prepared

@pytest.fixture
def counted(monkeypatch: pytest.MonkeyPatch) -> Counts:
    """Instances of earlier tests are released before."""
    gc.collect()
    calls = {name: mock.Mock(wraps=getattr(_library.library, name)) for name in ("pfs_prepare", "pfs_release")}
    for name, call in calls.items():
        monkeypatch.setattr(_library.library, name, call)
    return lambda: [call.call_count for call in calls.values()]


def test_an_instance_is_prepared_once_and_released_with_it(counted: Counts) -> None:
    shop = pfs.generate(12, 4, 1)
    assert counted() == [0, 0], "before the first call"
    order = shop.neh()
    shop.makespan(order), shop.best_place(range(11), 11), shop.bound(), shop.schedule(order), shop.to_text()
    shop.places([0, 1], 2), shop.makespans([[0, 1]]), shop.insert_all([0], [1]), shop.local_search([1, 0])
    shop.solve(50)
    assert counted() == [1, 0]
    del shop
    gc.collect()
    assert counted() == [1, 1]


@pytest.mark.parametrize("name", ["Handle", "c_size_t", "byref", "np", "c_void_p", "done"])
def test_an_interruption_of_the_preparation_leaves_nothing_to_release(name: str,
                                                                      monkeypatch: pytest.MonkeyPatch) -> None:
    """Wherever in it; an exception in `__del__` would be printed."""
    caught: list[object] = []
    monkeypatch.setattr(sys, "unraisablehook", caught.append)
    stop = mock.MagicMock(side_effect=KeyboardInterrupt)
    stop.empty = stop
    with mock.patch.object(_library, name, stop), pytest.raises(KeyboardInterrupt):
        pfs.generate(5, 2, 1).makespan([0])
    gc.collect()
    assert pfs.generate(5, 2, 1).makespan([0]) > 0 and caught == []


@pytest.mark.parametrize("again", [copy.copy, copy.deepcopy, lambda shop: pickle.loads(pickle.dumps(shop))])
def test_a_copy_prepares_its_own(counted: Counts, again: Callable[[pfs.Instance], pfs.Instance]) -> None:
    shop = pfs.generate(12, 4, 1)
    due = shop.makespan(range(12))
    other = again(shop)
    assert counted()[0] == 1
    del shop
    gc.collect()
    assert other.makespan(range(12)) == due and counted() == [2, 1]


def test_threads_share_no_result() -> None:
    """Each has orders of its own for one instance, also in its first call."""
    shop, other = pfs.generate(30, 5, 1), pfs.generate(30, 5, 1)
    orders = [[*range(at, 30), *range(at)] for at in range(8)]
    due = [(other.makespan(order), other.best_place(order[1:], order[0]), other.solve(20, start=order))
           for order in orders]

    def many(at: int) -> bool:
        order, (makespan, place, found) = orders[at], due[at]
        return all(shop.makespan(order) == makespan and shop.best_place(order[1:], order[0]) == place
                   and (turn % 50 or shop.solve(20, start=order) == found) for turn in range(400))

    with ThreadPoolExecutor(8) as threads:
        assert all(threads.map(many, range(8)))


RESULTS: dict[str, Callable[[pfs.Instance], object]] = {
    "makespan": lambda shop: shop.makespan(range(12)), "best_place": lambda shop: shop.best_place(range(11), 11),
    "ties": lambda shop: shop.best_place(range(11), 11, ties="idle"), "bound": lambda shop: shop.bound(),
    "places": lambda shop: shop.places(range(11), 11).tolist(), "makespans": lambda shop: [
        *shop.makespans([[*range(12)], [*range(11, -1, -1)]])], "insert_all": lambda shop: [
        *shop.insert_all([0, 1], [2, 3]).jobs],
    "schedule": lambda shop: shop.schedule(range(12)).ends.tolist(),
    "solve": lambda shop: shop.solve(20).order.tolist(),
    "local_search": lambda shop: [*shop.local_search(range(12)).jobs]}


@pytest.mark.parametrize("call", RESULTS.values(), ids=RESULTS)
def test_what_is_given_back_is_used_at_once_by_another_call(call: Callable[[pfs.Instance], object]) -> None:
    """As that of another thread may. The results of the first call are read before."""
    shop, due = pfs.generate(12, 4, 1), call(pfs.generate(12, 4, 1))
    others: list[Callable[[], object]] = [
        lambda: shop.makespan([3]), lambda: shop.best_place([5, 6, 7], 2), lambda: shop.places(range(11), 11)]

    class Given(list[Any]):
        def append(self, prepared: Any) -> None:
            super().append(prepared)
            while others:
                others.pop()()

    shop._prepared = Given()
    assert call(shop) == due and others == []


def test_threads_on_one_instance_do_not_wait_for_each_other(counted: Counts,
                                                            monkeypatch: pytest.MonkeyPatch) -> None:
    """A call returns while another one is made, for which it prepares the instance once more."""
    shop, begun, ended = pfs.generate(12, 4, 1), threading.Event(), threading.Event()
    due, real = shop.makespan(range(12)), _library.library.pfs_rounds

    def waiting(*given: Any) -> int:
        begun.set()
        assert ended.wait(30)
        return int(real(*given))

    monkeypatch.setattr(_library.library, "pfs_rounds", waiting)
    with ThreadPoolExecutor(1) as threads:
        found = threads.submit(shop.solve, 1)
        assert begun.wait(30)
        assert [shop.makespan(range(12)) for _ in range(3)] == [due] * 3 and counted()[0] == 2
        ended.set()
        assert found.result().rounds == 1
    assert shop.makespan(range(12)) == due and counted()[0] == 2


@pytest.mark.skipif(not hasattr(os, "fork"), reason="needs fork")
@pytest.mark.filterwarnings("ignore:This process.*multi-threaded:DeprecationWarning")
def test_a_forked_process_prepares_its_own_instance() -> None:
    """Also while another thread makes a call. It releases none of those that were prepared before."""
    shop, stop = pfs.generate(200, 20, 1), threading.Event()
    due = shop.makespan(range(200))
    search = threading.Thread(target=lambda: shop.solve(100_000, stop=stop))
    search.start()
    time.sleep(0.3)
    assert shop.makespan(range(200)) == due
    before = {prepared.handle.at for prepared in shop._prepared}
    child = os.fork()
    if child == 0:
        released = list[int]()
        setattr(_library.library, "pfs_release", lambda address: released.append(address._obj.at))
        is_right = shop.makespan(range(200)) == due and shop.solve(1).rounds == 1
        own = {prepared.handle.at for prepared in shop._prepared}
        os._exit(0 if is_right and own and not before & {*own, *released} else 1)
    deadline = time.monotonic() + 30
    while (ended := os.waitpid(child, os.WNOHANG))[0] == 0 and time.monotonic() < deadline:
        time.sleep(0.01)
    stop.set()
    search.join()
    assert ended == (child, 0), "the child waits, or has another result"


def test_nothing_is_printed_when_python_ends_with_an_instance(tmp_path: pathlib.Path) -> None:
    """Also where the names of the module are gone before."""
    script = "import pfs; shop = pfs.taillard(1); pfs.kept = [shop, shop.solve(1)]; print(shop.bound()); " \
             "import pfs.binding.library as own; own.Prepared = own.library = None"
    done = plainly.python("-c", script, cwd=tmp_path)
    assert (done.stdout, done.stderr, done.returncode) == ("1232\n", "", 0)


def test_sequences_that_are_just_short_or_long() -> None:
    shop = pfs.Instance([[1]] * 300)
    for count in range(_library.SHORT - 3, _library.SHORT + 3):
        jobs = range(count)
        assert shop.makespan(jobs) == count and shop.best_place(jobs, 299) == (0, count + 1)
        assert shop.places(jobs, 299).tolist() == [count + 1] * (count + 1)


# A call from Python costs little more than what it computes

@pytest.mark.parametrize("kind", ["list", "int64", "uint32"])
def test_a_call_for_20_jobs_on_5_machines(kind: str, untraced: None) -> None:
    """3 microseconds on a machine that does nothing else. The best of many short runs, since other programs run."""
    shop = pfs.taillard(1)
    order = shop.neh().order
    given = order.tolist() if kind == "list" else np.array(order, dtype=kind)
    others, job = given[1:], int(order[0])
    calls: dict[str, Callable[[], object]] = {
        "makespan": lambda: shop.makespan(given), "best_place": lambda: shop.best_place(others, job)}
    for name, call in calls.items():
        took = min(timeit.repeat(call, number=50, repeat=100)) / 50 * 1e6
        assert took < 8, f"{name}: {took:.1f} microseconds"


def test_many_orders_and_places_cost_little_more_than_the_library(untraced: None) -> None:
    """Of 1,000 orders nearly all of the time is the library's; all places take little longer than the best one."""
    large, orders = pfs.taillard(41), np.array([np.roll(range(50), at) for at in range(1000)], dtype=np.uint32)
    shop, spans, others = pfs.taillard(1), np.empty(1000, dtype=np.int64), np.arange(1, 20, dtype=np.uint32)
    words = orders.ctypes.data, orders.size, 50, spans.ctypes.data, spans.size
    calls: list[tuple[float, int, Callable[[], object], Callable[[], object]]] = [
        (1.2, 1, lambda: large.makespans(orders), lambda: large._call("pfs_makespans", *words)),
        (1.7, 50, lambda: shop.places(others, 0), lambda: shop.best_place(others, 0))]
    for most, number, *both in calls:
        # The least of ten ratios, since other programs run too.
        turns = ([min(timeit.repeat(call, number=number, repeat=50)) for call in both] for _ in range(10))
        assert (ratio := min(took / base for took, base in turns)) < most, f"{ratio:.2f} times as long"
