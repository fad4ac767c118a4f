"""A copy of the repository with its own git, in which pfs is installed and its packages are made, and what an
installation has. A script in place of the kit prints a version and notes its calls."""
import os
import pathlib
import re
import shutil
from typing import NamedTuple

import pytest
from support.files import THREE_JOBS
from support.library import Library
from support.lines import ANSWERS, VALUE
from support.needs import missing, tool
from support.program import Program
from support.tools import TOP, Done, output_of, run_tool, with_path, write_script

VERSION = (TOP / "VERSION").read_text().strip()
PROGRAM, SHARED = "crates/pfs/out/pfs", "libpfs.so.1"
# What of a page's table of contents is installed: patterns of files that keep their paths.
PAGES = ["*.md", "CITATION.cff", "LICENSE-*", "docs/**/*.*", "examples/*", "experiments/*.*", "lib/pfs.h",
         "python/README.md", "python/examples/*.py"]
# Where each file goes below the prefix, and which one it is.
PLACES = {
    "bin/pfs": PROGRAM,
    "share/man/man1/pfs.1": "share/pfs.1",
    "share/zsh/site-functions/_pfs": "share/pfs.bash",
    **{f"share/bash-completion/completions/pfs{name}": "share/pfs.bash"
       for name in ("", "-experiments", "-gantt", "-plan", "-web")},
    **{f"share/doc/pfs/{page}": page for pattern in PAGES
       for page in sorted(str(path.relative_to(TOP)) for path in TOP.glob(pattern) if path.is_file())},
}
# What the library's installation has besides two files that name the version.
LIBRARY = {"lib/libpfs.a": "lib/out/libpfs.a", **{f"lib/{name}": f"lib/out/{SHARED}" for name in (SHARED, "libpfs.so")},
           "include/pfs.h": "lib/pfs.h", "lib/cmake/pfs/pfsConfig.cmake": "lib/pfsConfig.cmake",
           "share/man/man3/pfs.3": "share/pfs.3"}
VERSIONED = ["lib/pkgconfig/pfs.pc", "lib/cmake/pfs/pfsConfigVersion.cmake"]
RT = """#!/bin/sh
case $1 in
version) echo "$RT_VERSION" ;;
lib) ;;
run) echo "$PWD" >> "$RT_NOTES"; test -e out/pfs || cp "$RT_PROGRAM" out/pfs ;;
*) exit 9 ;;
esac
"""
# When the sources were committed and changed, and when the program was built; and the version between releases.
OLD, NEW = 1_000_000_000, 1_100_000_000
BETWEEN = f"{VERSION}+20010909.014640"


class Copy(NamedTuple):
    """A copy of the repository, and what its tools are run with."""
    top: pathlib.Path
    env: dict[str, str]

    def make(self, goal: str, *variables: str, **env: str) -> Done:
        return run_tool(["make", "-s", goal, *variables], self.top, env=self.env | env)

    def git(self, *words: str) -> str:
        return output_of(["git", *words], self.top, env=self.env).strip()

    def built(self) -> list[str]:
        """Which crates the kit has built since this was asked last."""
        notes = pathlib.Path(self.env["RT_NOTES"])
        lines = notes.read_text().splitlines() if notes.exists() else []
        notes.unlink(missing_ok=True)
        return [pathlib.Path(line).name for line in lines]


def environment(folder: pathlib.Path, pfs: Program) -> dict[str, str]:
    """What the tools of a copy are run with: the kit's version is that of the program, and git knows no other
    configuration than this."""
    logic = re.search(rb"rattle logic=([0-9a-f]{16})", pfs.path.read_bytes())
    assert logic, "the program doesn't contain the version of the kit that built it"
    git = {"user.name": "A Tester", "user.email": "tester@example.org", "safe.directory": "*"}
    env = {"RT_VERSION": f"rattle-kit-7x logic {logic[1].decode()}", "RT_NOTES": str(folder / "notes"),
           "RT_PROGRAM": str(pfs.path), "GIT_CONFIG_GLOBAL": os.devnull, "GIT_CONFIG_NOSYSTEM": "1",
           "GIT_CEILING_DIRECTORIES": str(folder), "GIT_CONFIG_COUNT": str(len(git)),
           "GIT_COMMITTER_DATE": f"{OLD} +0900"}
    for number, (key, value) in enumerate(git.items()):
        env |= {f"GIT_CONFIG_KEY_{number}": key, f"GIT_CONFIG_VALUE_{number}": value}
    write_script(folder / "bin" / "rt", RT)
    return {name: value for name, value in with_path(folder / "bin").items()
            if name not in ("MAKEFLAGS", "MFLAGS", "MAKELEVEL", "SOURCE_DATE_EPOCH", "MAINTAINER", "SIGN")} | env


@pytest.fixture(scope="module")
def copy(top: pathlib.Path, pfs: Program, libpfs: Library, tmp_path_factory: pytest.TempPathFactory) -> Copy:
    """The copy, whose program and library are newer than its sources, as after `git clone` by somebody whose files
    nobody else can read. Some are older than the commit, and there is what a run from there leaves."""
    for command in ("git", "make"):
        tool(command)
    folder = tmp_path_factory.mktemp("copy")
    made = Copy(folder / "the répository", environment(folder, pfs))
    shutil.copytree(top, made.top, ignore=shutil.ignore_patterns("out", "__pycache__", ".git"))
    made.git("init", "-q")
    (made.top / ".git" / "info" / "exclude").write_text(f"/python/src/pfs/{SHARED}\n")
    for left in (f"src/pfs/{SHARED}", "src/pfs/__pycache__/left.py"):
        (made.top / "python" / left).parent.mkdir(exist_ok=True)
        (made.top / "python" / left).touch()
    made.git("add", ".")
    made.git("commit", "-q", "-m", "All that is there")
    for path in made.top.rglob("*"):
        path.chmod(path.stat().st_mode & 0o700)
        os.utime(path, (OLD, OLD - path.name.startswith("p")))
    for built, place in ((pfs.path, PROGRAM), (libpfs.path, f"lib/out/{SHARED}"),
                         (libpfs.path.with_name("libpfs.a"), "lib/out/libpfs.a")):
        (made.top / place).parent.mkdir(exist_ok=True)
        shutil.copy(built, made.top / place)
        os.utime(made.top / place, (NEW, NEW))
    return made


def contents_of(folder: pathlib.Path) -> dict[str, bytes]:
    """Each file below a folder, by its path from there, with its bytes."""
    return {str(path.relative_to(folder)): path.read_bytes() for path in folder.rglob("*") if path.is_file()}


def assert_same_files(found: dict[str, bytes], wanted: dict[str, bytes]) -> None:
    assert "\n".join(sorted(found)) == "\n".join(sorted(wanted))
    assert [path for path in wanted if found[path] != wanted[path]] == [], "files with other bytes"


def assert_usual_modes(folder: pathlib.Path) -> None:
    """Programs are run by all, as may be scripts among the examples, and all else is read by all."""
    wrong = {}
    for path in (path for path in folder.rglob("*") if not path.is_symlink()):
        mode = path.stat().st_mode & 0o7777
        is_example = path.parent.name == "examples" and mode & 0o100 and path.read_bytes().startswith(b"#!")
        if mode != (0o755 if path.is_dir() or path.parent.name == "bin" or is_example else 0o644):
            wrong[str(path)] = oct(mode)
    assert wrong == {}, "modes that aren't the usual ones"


def assert_runs(program: pathlib.Path, folder: pathlib.Path) -> None:
    (folder / "three").write_bytes(THREE_JOBS)
    assert Program(program).run(VALUE, folder) == ANSWERS[VALUE]


def assert_completions_are_found(root: pathlib.Path, prefix: pathlib.Path, folder: pathlib.Path) -> None:
    """By bash below the prefix, and by zsh in its own folders, which are sought below the root here."""
    loader = pathlib.Path("/usr/share/bash-completion/bash_completion")
    if not loader.exists():
        missing(f"there is no {loader} (Debian: bash-completion)")
    for name in ("pfs", "pfs-plan", "pfs-gantt", "pfs-experiments", "pfs-web"):
        line = f"source {loader}; __load_completion {name}; complete -p {name}"
        got = output_of(["bash", "--norc", "-c", line], folder,
                        env=dict(os.environ, XDG_DATA_DIRS=f"{prefix}/share", HOME=str(folder)))
        assert got == f"complete -o default -F _pfs {name}\n"
    line = "fpath+=($ROOT$^fpath(N)); autoload -Uz compinit; compinit -u -D; print -- $_comps[pfs-plan]"
    got = output_of([tool("zsh"), "-f", "-c", line], folder, env=dict(os.environ, ROOT=str(root), HOME=str(folder)))
    assert got == "_pfs\n", "zsh finds _pfs in one of the folders that it reads"
