"""An installation has the program, the manual page and the completions where each is looked for, runs, and is removed
again. It builds first what is missing or older than a source. All of it happens in a copy of the repository
(support/installed.py)."""
import os
import pathlib
import re

import pytest
from support.installed import (LIBRARY, NEW, OLD, PLACES, PROGRAM, SHARED, VERSION, VERSIONED, Copy,
                               assert_completions_are_found, assert_runs, assert_same_files, assert_usual_modes,
                               contents_of)
from support.library import Library
from support.needs import tool
from support.program import Program
from support.tools import Done, output_of, run_tool, write_script

# so that the copy is made once
pytestmark = [pytest.mark.xdist_group("installing"), pytest.mark.seconds(30)]


PAGE = ("pfs-plan, pfs-web, pfs-gantt and pfs-experiments are in the package for Python: `make wheel`, and then "
        "python/README.md says how pip installs it\n")


def make(copy: Copy, goal: str, *variables: str, printed: str = "") -> None:
    """Under a mask that leaves nothing to others: modes are the usual ones whoever installs."""
    old = os.umask(0o077)
    try:
        got = copy.make(goal, *variables)
    finally:
        os.umask(old)
    assert got == Done(0, printed, "")


@pytest.mark.parametrize(("prefix", "goal"), [("/usr/local", "install"), ("/opt/pfs", "install"),
                                              ("/opt/pfs", "install-lib")])
def test_what_is_installed_runs_and_is_removed(prefix: str, goal: str, copy: Copy, folder: pathlib.Path) -> None:
    """What others have installed stays, and folders that others use too. What was left half-way is replaced."""
    root, place = folder / "a place", folder / "a place" / prefix[1:]
    mine = {"share/man/man1/other.1", "share/doc/pfs/other"}
    for name in (*mine, "lib/libpfs.so.new"):
        (place / name).parent.mkdir(parents=True)
        (place / name).symlink_to("nowhere") if "new" in name else (place / name).touch()
    variables = [f"DESTDIR={root}"] + ([f"PREFIX={prefix}"] if prefix != "/usr/local" else [])
    for _ in range(2):
        make(copy, goal, *variables)
    found = {name: text for name, text in contents_of(place).items() if name not in mine}
    config, version = (found.pop(name).decode() for name in VERSIONED)
    assert config.startswith(f"prefix={prefix}\n") and f"\nVersion: {VERSION}\n" in config and "@" not in config
    assert f'(PACKAGE_VERSION "{VERSION}")\n' in version
    wanted = LIBRARY | (PLACES if goal == "install" else {})
    assert_same_files(found, {name: (copy.top / file).read_bytes() for name, file in wanted.items()})
    assert os.readlink(place / "lib" / "libpfs.so") == SHARED
    assert_usual_modes(place)
    if goal == "install":
        assert_runs(place / "bin" / "pfs", folder)
    if prefix == "/usr/local":
        assert_completions_are_found(root, place, folder)
    make(copy, "uninstall", *variables)
    make(copy, "uninstall", *variables)
    assert set(contents_of(place)) == mine
    left = [path for path in place.rglob("*") if path.is_symlink() or "pfs" in path.name]
    assert left == [place / "share" / "doc" / "pfs"]


def test_without_the_library_the_program_is_installed_alone(copy: Copy, folder: pathlib.Path) -> None:
    make(copy, "install", f"PREFIX={folder}", "LIBRARY=none", printed=PAGE)
    assert contents_of(folder).keys() == PLACES.keys()


@pytest.mark.parametrize(("prefix", "lib"), [
    ("opt", "lib"), ("/opt/a b", "lib"), ("/opt/a\\1b", "lib"), ("/opt/a$b", "lib"), ("/opt/a\nb", "lib"),
    ("/opt/a#b", "lib"), ("/opt/a'b", "lib"), ("/opt/a\"b", "lib"), ("/opt/a\ab", "lib"), ("/opt/a&b", "lib"),
    ("/opt/a|b", "lib"), ("/opt/R", "lib x")])
def test_a_prefix_that_pkg_config_cannot_read_is_rejected(prefix: str, lib: str, top: pathlib.Path,
                                                          folder: pathlib.Path) -> None:
    """Before anything is written."""
    got = run_tool([top / "tools" / "install", "put", folder / "root", prefix, lib], top, stdin=None,
                   input="lib/pfs.pc.in lib/pkgconfig/pfs.pc\n")
    assert (got.status, got.stdout) == (2, "") and "PREFIX" in got.stderr, got
    assert list(folder.iterdir()) == [], "what was written"


@pytest.mark.parametrize("name", ["bin/pfs", "lib/libpfs.so", "lib/pkgconfig/pfs.pc"])
def test_a_folder_in_the_place_of_a_file_is_reported(name: str, copy: Copy, folder: pathlib.Path) -> None:
    """Nothing is put into it."""
    (folder / name).mkdir(parents=True)
    got = copy.make("install", f"PREFIX={folder}")
    assert got.status != 0 and f"{folder}/{name}" in got.stderr
    assert list((folder / name).iterdir()) == [] and list(folder.rglob("*.new")) == []


@pytest.mark.parametrize("ends", ["KILL $$", "HUP $PPID", "INT $PPID", "TERM $PPID"])
def test_an_installation_that_ends_half_way_leaves_no_half_file(ends: str, copy: Copy, folder: pathlib.Path) -> None:
    """Here the copying is replaced: it writes half of the program, and then it or tools/install is killed."""
    (folder / "bin").mkdir()
    (folder / "bin" / "pfs").write_text("the program of an earlier version\n")
    write_script(folder / "path" / "install", f'#!/bin/sh\nfor last; do :; done\necho half > "$last"\nkill -{ends}\n')
    got = copy.make("install", f"PREFIX={folder}", PATH=f"{folder / 'path'}:{copy.env['PATH']}")
    assert got.status != 0 and contents_of(folder / "bin") == {"pfs": b"the program of an earlier version\n"}


def test_files_of_version_1_are_named(top: pathlib.Path, folder: pathlib.Path) -> None:
    def put() -> str:
        got = run_tool(["tools/install", "put", "", folder, "lib"], top, stdin=None, input="VERSION share/VERSION\n")
        assert got.status == 0
        return got.stderr

    assert put() == ""
    write_script(folder / "bin" / "pfs-experiments", "#!/usr/bin/python3\nfrom pfs.experiments import main\n")
    assert put() == "", "what pip has installed"
    for name in ("pfs-experiments", "pfs-gantt"):
        (folder / "bin" / name).write_text(f"#!/bin/sh\nexec {folder}/libexec/pfs/{name}\n")
    for name in ("libexec/pfs", "lib"):
        (folder / name).mkdir(parents=True)
    (folder / "lib" / "libpfs.so.0").touch()
    places = [folder / place for place in ("bin/pfs-experiments", "bin/pfs-gantt", "libexec/pfs", "lib/libpfs.so.0")]
    assert put() == (f"install: version 1 has left {' '.join(map(str, places))}: remove them, or run its "
                     "`make uninstall`\n")
    assert run_tool(["tools/install", "take", "", folder, "lib"], top) == Done(0, "", ""), "a removal names nothing"


# The library for C

CALLER = """#include <pfs.h>
#include <stdio.h>
int main(void) { return printf("%s %s\\n", pfs_version(), PFS_VERSION) < 0; }
"""
CMAKE = """cmake_minimum_required(VERSION 3.13)
project(caller C)
find_package(pfs {wanted} REQUIRED)
find_package(pfs {wanted} REQUIRED)  # as two parts of a project do
foreach(target pfs pfs_static)
    add_executable(${{target}}_caller caller.c)
    target_link_libraries(${{target}}_caller pfs::${{target}})
endforeach()
"""


@pytest.fixture(scope="module", params=["lib", "lib/x86_64-linux-gnu"])
def prefix(request: pytest.FixtureRequest, copy: Copy, tmp_path_factory: pytest.TempPathFactory) -> pathlib.Path:
    """The prefix of an installed library, which may be in the folder that Debian has for it. No test changes it."""
    place = tmp_path_factory.mktemp("library") / "usr"
    make(copy, "install-lib", f"PREFIX={place}", f"LIB={request.param}")
    return place


def test_a_program_is_built_by_pkg_config_and_by_cmake(prefix: pathlib.Path, folder: pathlib.Path) -> None:
    [library] = prefix.rglob("libpfs.so")
    (folder / "caller.c").write_text(CALLER)
    env = dict(os.environ, PKG_CONFIG_PATH=str(library.with_name("pkgconfig")), LD_LIBRARY_PATH=str(library.parent))
    flags = output_of([tool("pkg-config"), "--cflags", "--libs", "pfs"], folder, env=env)
    for each in (flags, flags.replace("-lpfs", "-l:libpfs.a")):
        output_of(["cc", "caller.c", "-o", "caller", *each.split()], folder)
        assert output_of(["./caller"], folder, env=env) == f"{VERSION} {VERSION}\n"
    words = [tool("cmake"), "-S", ".", "-B", "made", f"-DCMAKE_PREFIX_PATH={prefix}"]
    (folder / "CMakeLists.txt").write_text(CMAKE.format(wanted="99.0"))
    assert f"version: {VERSION}" in run_tool(words, folder).stderr
    (folder / "CMakeLists.txt").write_text(CMAKE.format(wanted=VERSION))
    output_of(words, folder)
    output_of(["cmake", "--build", "made"], folder)
    for target in ("pfs", "pfs_static"):
        assert output_of([f"made/{target}_caller"], folder) == f"{VERSION} {VERSION}\n"


# For version 2.3.4, requests and whether it serves them. Version 1 is another library, libpfs.so.0.
REQUESTS = {"": True, "2": True, "2.0": True, "2.3.4": True, "2.3.4 EXACT": True, "2.3.5": False, "2.4": False,
            "3": False, "1": False, "1.1": False, "1.1 EXACT": False, "0.9": False, "2.3 EXACT": False,
            "2.0...<3": True, "2...2.3.4": True, "2...<2.3.4": False, "1.0...<2": False, "1.0...1.9": False,
            "1.0...2.9": True, "1...<3": True, "2.3.4...2.9": True, "2.3.5...3": False, "3...<4": False}


@pytest.mark.parametrize(("request_", "is_served"), REQUESTS.items())
def test_versions_that_cmake_accepts(request_: str, is_served: bool, top: pathlib.Path, folder: pathlib.Path) -> None:
    text = (top / "lib" / "pfsConfigVersion.cmake.in").read_text().replace("@VERSION@", "2.3.4")
    (folder / "pfsConfigVersion.cmake").write_text(text)
    (folder / "pfsConfig.cmake").write_text("")
    (folder / "find.cmake").write_text(f"find_package(pfs {request_} QUIET CONFIG PATHS {folder} NO_DEFAULT_PATH)\n"
                                       "message(STATUS \"found=${pfs_FOUND} ${pfs_VERSION}\")\n")
    printed = output_of([tool("cmake"), "-P", "find.cmake"], folder)
    assert printed.split("=")[1].split()[0] == ("1" if is_served else "0"), printed


# Building before that

BUILT_LIBRARY = f"lib/out/{SHARED}"
# What is older than which files.
OLDER = [
    ([PROGRAM, BUILT_LIBRARY], ["crates.txt", "crates/pfs_base/src/lib.rt", "crates/pfs_layout/specs/Block.antt",
                                "crates/pfs_layout/proofs/Computing.antt"]),
    ([PROGRAM], ["crates/pfs/stdin", "crates/pfs/src/main.rt", "crates/pfs_desk/src/lib.rt",
                 "crates/pfs_words/src/lib.rt"]),
    ([BUILT_LIBRARY], ["crates/pfs_c/src/lib.rt", "lib/pfs_text.c", "lib/pfs.h"]),
    ([], ["crates/pfs_calls/src/main.rt", "crates/pfs_tests/src/lib.rt", "crates/pfs_base/out/build.log",
          "crates/pfs_base/must-fail/a.edit", "share/pfs.1", "README.md"])]


def test_what_is_older_than_a_source_would_be_built(copy: Copy) -> None:
    for goals, names in OLDER:
        for path in map(copy.top.joinpath, names):
            is_new = not path.exists()
            path.parent.mkdir(exist_ok=True)
            path.touch()
            got = copy.make(PROGRAM, BUILT_LIBRARY, "-n")
            path.unlink() if is_new else os.utime(path, (OLD, OLD))
            assert re.findall(r"^touch (\S+)", got.stdout, re.MULTILINE) == goals, path


def test_each_crate_below_what_is_built_makes_it_older(copy: Copy) -> None:
    """By crates.txt, and what make says that they are made of."""
    below = {kind.split()[0]: [kind.split()[0], *crates.split()] for kind, _, crates in
             (line.partition(":") for line in (copy.top / "crates.txt").read_text().splitlines())}
    printed = copy.make(PROGRAM, "-n", "-p").stdout
    for goal, crates in ((PROGRAM, below["pfs"] + below["pfs_desk"]), (BUILT_LIBRARY, below["pfs_c"])):
        [needed] = re.findall(rf"^{re.escape(goal)}: (.*)$", printed, re.MULTILINE)
        own = {crate for crate in crates if (copy.top / "crates" / crate).exists()}
        assert len(own) > 6 and own <= set(re.findall(r"crates/(\w+)/src/\w+\.rt", needed)), goal


@pytest.mark.parametrize("name", ["crates.txt", PROGRAM])
def test_a_program_that_is_older_than_a_source_or_missing_is_built_once(name: str, copy: Copy,
                                                                        folder: pathlib.Path) -> None:
    path, library = copy.top / name, copy.top / "lib" / "out" / SHARED
    copy.built()
    try:
        os.utime(library, (NEW + 2, NEW + 2))
        path.unlink() if name == PROGRAM else os.utime(path, (NEW + 1, NEW + 1))
        for built in (["pfs"], []):
            assert copy.make("install", f"DESTDIR={folder}").status == 0
            assert copy.built() == built
    finally:
        os.utime(path, (OLD, OLD))
        for made in (copy.top / PROGRAM, library):
            os.utime(made, (NEW, NEW))


# What the program needs

def test_the_pages_name_the_c_library_that_is_needed(top: pathlib.Path, pfs: Program, libpfs: Library,
                                                     folder: pathlib.Path) -> None:
    """Its newest version of which the program or the library needs a symbol, and the program's libraries."""
    for name, built in (("INSTALL.md", pfs.path), ("LIBRARY.md", libpfs.path)):
        versions = [list(map(int, found.decode().split("."))) for found in
                    re.findall(rb"GLIBC_([0-9.]+)", built.read_bytes())]
        page = (top / "docs" / name).read_text()
        assert re.findall(r"the GNU C library ([0-9.]+) or newer", page) == [".".join(map(str, max(versions)))], name
    assert re.findall(r"of which it takes `([^`]+)` alone", (top / "docs" / "INSTALL.md").read_text()) \
        == re.findall(r"(\S+) => /", output_of(["ldd", pfs.path], folder))


# One version

STATED = {"CHANGELOG.md": r"^## \[(\d.*?)\]", "CITATION.cff": r"^version: (.*)$",
          "lib/pfs.h": r'^#define PFS_VERSION "(.*)"$', "python/src/pfs/base/version.py": r'^VERSION\b.* = "(.*)"$'}
STATED |= dict.fromkeys(("share/pfs.1", "share/pfs.3", "python/pfs-experiments.1", "python/pfs-gantt.1",
                         "python/pfs-plan.1", "python/pfs-web.1"), r"^\.Os pfs (.*)$")


def test_all_that_states_the_version_or_the_date_states_the_same(top: pathlib.Path) -> None:
    """The date is in the changelog and in the citation."""
    texts = {name: (top / name).read_text() for name in STATED}
    found = {name: re.findall(pattern, texts[name], re.MULTILINE)[:1] for name, pattern in STATED.items()}
    assert found == dict.fromkeys(STATED, [VERSION])
    pattern = rf"^## \[{re.escape(VERSION)}\] - (\d{{4}}-\d\d-\d\d)$"
    dates = re.findall(pattern, texts["CHANGELOG.md"], re.MULTILINE)
    assert len(dates) == 1
    assert re.findall(r'^date-released: "(.*)"$', texts["CITATION.cff"], re.MULTILINE) == dates
