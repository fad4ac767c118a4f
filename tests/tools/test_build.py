"""tools/build, with a program in place of `rt`: which crates it builds, and what it says of them. What other scripts
and the goals of `make` call and print. And tools/setup: the packages of its lists, and how it installs them."""
import functools
import os
import pathlib
import re
import shutil
import sys
from collections.abc import Callable
from typing import Any

import pytest
from support.needs import package_of, packages
from support.tools import Done, output_of, run_tool, with_path, write_script

# It locks its folders as `rt` does, notes its crate, proves `low` and `pfs`, and fails in `bad` and `left`. `one` ends
# once `two` has begun. `low` is proved once, and `right` needs what that made.
RT = """#!/bin/bash
crate=${PWD##*/}
for folder in $(sed 's/[ :].*//' ../../crates.txt); do
    exec {held}< "../$folder" && flock -n $held || echo "waits in $folder" >> "$NOTES"
done
wait_for() { until grep -q "^$1" "$NOTES"; do sleep 0.01; done; }
case $crate in one) wait_for low ;; two) wait_for one ;; free) wait_for bad ;; esac
echo "$crate $1" >> "$NOTES"
case $crate in
low) mkdir -p out/part
    [ -e out/part/made ] || { echo 'goals=3'; echo 'logic=proved'; echo 'status=0'; } | tee out/part/made ;;
right) [ -e ../low/out/part/made ] && echo 'no logic=proved' ;;
stopped) kill -INT $PPID; sleep 1 ;;
pfs) cat; echo 'logic=proved' >&2 ;;
left) printf 'goal left \\377 open\\n'; exit 7 ;;
one) wait_for two ;;
bad) exit 7 ;;
free) sleep 2 ;;
esac
"""


@pytest.mark.parametrize(("targets", "status", "notes", "stdout", "said"), [
    ("", 0, "low lib, right lib, pfs run", "the stored input\n",
     "low: proved and built in 0:00:00, 2 left\npfs: proved and built in 0:00:00, 0 left\n"),
    ("one two", 0, "low lib, one lib, two lib", "", "low: proved and built in 0:00:00, 2 left\n"),
    ("above", 7, "low lib, left lib", "",
     "low: proved and built in 0:00:00, 2 left\ngoal left \ufffd open\n"
     "build: left failed with status 7; see the output above or {0}/crates/left/out/build.log\n"),
    ("bad free third", 7, "bad lib, free lib", "",
     "build: bad failed with status 7; see the output above or {0}/crates/bad/out/build.log\n"),
    ("none", 1, "", "", "build: no crate none in crates.txt\n"), ("stopped", 130, "stopped lib", "", ""),
])
def test_each_crate_is_built_once_after_those_below_it(targets: str, status: int, notes: str, stdout: str, said: str,
                                                       top: pathlib.Path, folder: pathlib.Path) -> None:
    """And none after one that fails. What a log had before is left out. A second run proves nothing again. No copy is
    left, but a link in its place."""
    copies = folder / (".git" if targets else "out") / "build"
    if targets:
        copies.mkdir(parents=True)
    (folder / "crates.txt").write_text("pfs: right low other\nright: low\nlow:\nabove: left\nleft: low\n"
                                       "one staticlib: low\ntwo: low\nstopped:\nbad:\nfree:\nthird:\n")
    for crate in ("pfs", "right", "low", "above", "left", "one", "two", "stopped", "bad", "free", "third"):
        (folder / "crates" / crate / "src").mkdir(parents=True)
    (folder / "crates" / "right" / "out").mkdir()
    (folder / "crates" / "right" / "out" / "build.log").write_text("logic=proved\n")
    (folder / "crates" / "pfs" / "src" / "main.rt").touch()
    (folder / "crates" / "pfs" / "stdin").write_text("the stored input\n")
    (folder / "tools").mkdir()
    build = shutil.copy(top / "tools" / "build", folder / "tools")
    (folder / "notes").touch()
    env = {"PATH": f"{folder}/bin:/usr/bin:/bin", "NOTES": str(folder / "notes")}
    assert run_tool([build], folder, env=env) == Done(1, "", "build: rt, the command of the kit, isn't on the path\n")
    write_script(folder / "bin" / "rt", RT)
    got = run_tool([build, *targets.split()], folder, env=env)
    assert got._replace(stderr=re.sub(r"(?<=0:00:0)\d", "0", got.stderr)) == Done(status, stdout, said.format(folder))
    assert ", ".join((folder / "notes").read_text().splitlines()) == notes
    assert status == 1 or {path.readlink() for path in copies.glob("*/*")} == {folder / "crates"}
    assert "low lib" not in notes or run_tool([build, "right"], folder, env=env).stderr == ""


# What others call: here each call is noted with the variables that it is given, and makes its files. It fails if it is
# the one with this number.

NOTE = """#!/bin/sh
set -- "${0#"$TOP/bin/"}" "$@"
(IFS='|'; echo "$*${GIT_DIR:+ in $GIT_DIR}${COVERAGE_FILE:+ into $COVERAGE_FILE}${PYTHONPATH:+ with $PYTHONPATH}") \\
    | sed "s:$TOP/\\|making\\.[^/]*/::g" >> "$TOP/notes"
for word in "$@" "$COVERAGE_FILE"; do case $word in lib/out/* | */out/lines) echo made > "$word" ;; esac; done
[ "$1" != rt ] || cat
[ "$(grep -c . "$TOP/notes")" != "$FAILS" ] || exit "${STATUS:-7}"
"""
CALLED = ["tools/build", "tools/dist", "tools/install", "tools/library", "tools/setup", "tools/site/build",
          "tools/test", "tools/try", "tests/fuzz.py", "tests/mutants.py", "bin/ar", "bin/cc", "bin/ld", "bin/make",
          "bin/my-cc", "bin/objcopy", "bin/python3", "bin/rt", "a kit/bin/rattle"]


def calls_of(words: list[str], top: pathlib.Path, folder: pathlib.Path, fails: int = 0, given: str = "",
             **env: str) -> tuple[Done, list[str]]:
    """What a script says, and what it calls. Its repository is in a folder of an unusual name, and it is run in another
    one; `make` and a hook are run in that of the repository."""
    place = folder / "ä b"
    for name in ("lib/out", "crates/pfs/out", "crates/pfs_c/out"):
        (place / name).mkdir(parents=True, exist_ok=True)
    for name, text in {"crates/pfs/stdin": "the stored input\n", "crates/pfs_c/out/libpfs_c.a": "",
                       "crates.txt": "pfs:\npfs_c staticlib: pfs core\n", "notes": ""}.items():
        (place / name).write_text(text)
    for name in CALLED:
        write_script(place / name, NOTE)
    for name in {"Makefile", words[0]} - {"/bin/sh"}:
        write_script(place / name, (top / name).read_text().replace("/usr/bin/python3", "python3"))
    env = {"FAILS": str(fails), "TOP": str(place), "COVERAGE_FILE": "", "PYTHONPATH": "", "SECONDS": "4000"} | env
    is_there = words[0] in ("/bin/sh", "tools/hooks/pre-commit")
    how: dict[str, Any] = {"stdin": None, "input": given, "env": with_path(place / "bin") | env}
    got = run_tool([place / words[0], *words[1:]], place if is_there else place / "crates", **how)
    return got, (place / "notes").read_text().splitlines()


PYTEST = "python3|-m|pytest|-n|auto|-q|"
COVERED = "--cov=python/src/pfs|--cov-branch|--cov-context=test|"
MINUTES = {"packages": 1, "layout, types, scripts and pages": 1, "proofs of the program and of the library": 20,
           "tests of what is built": 7, "changes of the package for Python": 2}
# For each script what it calls, and what it prints, with points in place of times.
SCRIPTS = {
    "tools/test": (
        ["tools/setup|test", f"{PYTEST}-m|check",
         "tools/build|pfs|pfs_c", "tools/library", "make|-s|crates/pfs/out/pfs|lib/out/libpfs.so.1",
         f"{PYTEST}{COVERED}--cov-report=|--junitxml=out/tests.xml|-m|not check and not calls into out/lines",
         "tests/mutants.py|--least|75|40"],
        "".join(f"== {number} of 5: {what} (on two processors {minutes} minutes)\n"
                for number, (what, minutes) in enumerate(MINUTES.items(), 1))
        + "== minutes\n" + "".join(f"  0:0.  {what}\n" for what in MINUTES) + " 66:4.  in all\n"),
    "tools/try": (["tools/setup|try", "rt|try"], """the stored input
pfs on the stored instance, compiled with checks but not proved; this takes up to a minute:
makespan 11: in the order of the file, the last job leaves the last machine at time 11.
To prove every crate and leave a fast program in crates/pfs/out/pfs: make run
"""),
    ".ci/run": (["tools/setup|all", "rt|ci", "tools/library|--prove", "tools/test", f"{PYTEST}-m|calls"],
                "== . tools/setup all\n== . rt ci\n== . tools/library --prove\n== . tools/test\n"
                "== . python3 -m pytest -n auto -q -m calls\n"),
    "tools/hooks/pre-commit": (["make|-s|check"], ""),
}


@pytest.mark.parametrize("script", SCRIPTS)
def test_a_script_ends_where_a_step_fails(script: str, top: pathlib.Path, folder: pathlib.Path) -> None:
    """In a hook the tests' own git works as outside of the commit, and not on this repository."""
    steps, printed = SCRIPTS[script]
    git = {"GIT_DIR": "nowhere"} if "hooks" in script else {}
    for fails in range(len(steps) + 1):
        got, calls = calls_of([script], top, folder, fails, **git)
        assert (got.status, calls) == (7 if fails else 0, steps[:fails or None])
        told = re.sub(r"(?m)^== \d\d:\d\d:\d\d ", "== . ", got.stdout + got.stderr)
        told = re.sub(r":[45]\d(?=  )", ":4.", re.sub(r":[01]\d(?=  )", ":0.", told))
        assert fails or told == printed
        assert script != "tools/test" or told.count(": failed with status 7\n") == bool(fails), told
    (folder / "ä b" / "crates" / "pfs" / "out" / "pfs").touch()
    assert "tools/build|pfs|pfs_c" not in calls_of([script], top, folder, 0, **git)[1], "the program is there"


LIB = "tools/build|pfs_c; tools/library"
COVER = f"{PYTEST}{COVERED}--junitxml=out/tests.xml|--ignore=tests/python/test_web_page.py|" \
        "--ignore=tests/python/test_web_state.py|tests/python into out/lines"
TAILLARD = "python3|-B|-m|pfs.experiments|taillard|--pfs|crates/pfs/out/pfs|experiments/out/taillard with python/src"
# What each goal of `make` calls, and what it calls again a second time, with its variables.
GOALS = [
    ("try", "tools/try", "tools/try"), ("run", "tools/build", "tools/build"), ("lib", LIB, ""),
    ("check", f"{PYTEST}-m|check", f"{PYTEST}-m|check"), ("test", "tools/test", "tools/test"),
    *((f"fuzz{given}", *[f"tools/build; tests/fuzz.py|--seconds|{seconds}"] * 2)
      for given, seconds in (("", 300), ("|MINUTES=2", 120))),
    *((f"mutants{given}", f"tools/build; {LIB}; {COVER}; tests/mutants.py|{count}", f"tests/mutants.py|{count}")
      for given, count in (("", 300), ("|COUNT=7", 7))),
    *((f"{goal}|LIB=l|PREFIX=/p|DESTDIR=a b", f"{built}tools/install|{what}|a b|/p|l", f"tools/install|{what}|a b|/p|l")
      for goal, built, what in (("install", "tools/build; ", "put"), ("install-lib", f"{LIB}; ", "put"),
                                ("uninstall", "", "take"))),
    ("docs", "tools/site/build", "tools/site/build"),
    *((f"dist{given}", f"tools/build; {LIB}; tools/dist|{to}", f"tools/dist|{to}")
      for given, to in (("", "dist"), ("|DIST=a b", "a b"))),
    ("wheel|DIST=a b", f"{LIB}; tools/dist|wheel|a b", "tools/dist|wheel|a b"),
    ("taillard", f"tools/build; {TAILLARD}", TAILLARD),
]
TWICE = ["/bin/sh", "-c", '/usr/bin/make "$@" && echo again >> notes && /usr/bin/make "$@"', "sh"]


@pytest.mark.parametrize(("words", "calls", "again"), GOALS, ids=[words for words, *_ in GOALS])
def test_a_goal_of_make_calls_its_script(words: str, calls: str, again: str, top: pathlib.Path,
                                         folder: pathlib.Path) -> None:
    """Also if there is a file of its name."""
    goal, *variables = words.split("|")
    if goal != "lib":
        write_script(folder / "ä b" / goal, "")
    got, noted = calls_of([*TWICE, goal, *variables], top, folder)
    assert (got.status, "; ".join(noted)) == (0, "; ".join(filter(None, [calls, "again", again]))), got


def test_the_help_lists_the_goals(top: pathlib.Path, folder: pathlib.Path) -> None:
    got, _ = calls_of(["/bin/sh", "-c", "/usr/bin/make"], top, folder)
    assert {*re.findall("^make ([a-z-]+) +", got.stdout, re.MULTILINE)} == {"help"} | {
        words.split("|")[0] for words, *_ in GOALS}


def test_changes_are_tried_where_tests_fail_without_them(top: pathlib.Path, folder: pathlib.Path) -> None:
    """But not where the tests didn't run."""
    for status, last in (("1", "tests/mutants.py|300"), ("2", COVER)):
        got, calls = calls_of(["/bin/sh", "-c", "/usr/bin/make mutants"], top, folder, 4, STATUS=status)
        assert (got.status == 0, calls[-1]) == (status == "1", last)
        (folder / "ä b" / "out" / "lines").unlink()


def test_the_library_is_made_by_the_compiler_that_is_named(top: pathlib.Path, folder: pathlib.Path) -> None:
    """If a step fails, the one of before stays; and nothing else is left. What it is made of is in test_library.py."""
    made, mine = folder / "ä b" / "lib" / "out", {"CC": "my-cc", "CFLAGS": "-g -Og"}
    for fails in (0, *range(2, 9)):
        made.mkdir(parents=True, exist_ok=True)
        for name in ("libpfs.a", "libpfs.so.1"):
            (made / name).write_text("old\n")
        got, calls = calls_of(["tools/library"], top, folder, fails, "a kit/START-HERE.md\n", **mine)
        assert (got, len(calls)) == (Done(7 if fails else 0, "", ""), fails or 8)
        assert {path.name: path.read_text() for path in made.iterdir()} == dict.fromkeys(
            ("libpfs.a", "libpfs.so.1"), "old\n" if fails else "made\n")
        own = [call for call in calls if call.startswith("my-cc|")]
        assert fails or [call.partition("-O2|-fPIC|-g|-Og|-c|")[1] != "" for call in own] == [True, True, False]
    _, usual = calls_of(["tools/library"], top, folder, given="a kit/START-HERE.md\n")
    assert usual[4].endswith("|a kit/c/liblibc_c.a") and [call.partition("|")[0] for call in usual].count("cc") == 3
    (folder / "ä b" / "crates" / "pfs_c" / "out" / "libpfs_c.a").unlink()
    got = run_tool([folder / "ä b" / "tools" / "library"], folder)
    missing = "crates/pfs_c/out/libpfs_c.a is missing: run tools/build pfs_c"
    assert got == Done(1, "", f"library: {missing}\n")


def test_the_library_is_proved_over_what_rt_ci_left(top: pathlib.Path, folder: pathlib.Path) -> None:
    kit = f"{folder}/ä b/a kit/START-HERE.md\n"
    got, calls = calls_of(["tools/library", "--prove"], top, folder, given=kit)
    assert (got, len(calls)) == (Done(0, "", ""), 9)
    words = calls[1].split("|")
    assert words[:2] == ["a kit/bin/rattle", "build"] and words[-2:] == ["-o", "out/libpfs_c.a"]
    assert {word for word in words if "rlib" in word} == {
        "pfs=../pfs/out/rlib/pfs.rlib", "dependency=../pfs/out/rlib", "core=a kit/rlibs/core.rlib",
        "std=a kit/rlibs/std.rlib", "dependency=a kit/rlibs"}
    got, calls = calls_of(["tools/library", "--prove"], top, folder, 2, kit)
    assert (got.status, len(calls)) == (7, 2)


# Packages

def test_what_is_missing_is_what_python_does_not_find(top: pathlib.Path, folder: pathlib.Path) -> None:
    """Each list adds to those before. Here, and where no command is found but those that tools/setup calls."""
    for name in ("awk", "dirname", "echo", "find", "grep", "id", "ls", "sh", "tr", "xargs"):
        os.symlink(shutil.which(name) or "", folder / name)
    asked = [name for package in packages() if package.kind == "module" for name in package.provides]
    code = ("import sys; from importlib.util import find_spec; sys.path = [it for it in sys.path if '/usr/lib/' in it]"
            "; print(*[each for each in sys.argv[1:] if find_spec(each)])")
    modules = output_of(["/usr/bin/python3", "-c", code, *asked], folder).split()
    for path in (os.environ["PATH"], str(folder)):
        found: dict[str, Callable[[str], Any]] = {
            "command": functools.partial(shutil.which, path=f"{path}:/usr/sbin:/sbin"), "file": os.path.exists,
            "module": modules.__contains__}
        wanted = list[str]()
        for text in re.split("^== ", (top / "tools" / "packages").read_text(), flags=re.MULTILINE)[1:]:
            names = re.findall("^[a-z][^ ]*", text.partition("\n")[2], re.MULTILINE)
            wanted += [package.name for package in packages()
                       if package.name in names and not all(map(found[package.kind], package.provides))]
            printed = output_of([top / "tools" / "setup", "--missing", text.split(":")[0]], folder, env={"PATH": path})
            assert printed == " ".join(wanted) + "\n"
    got = run_tool([top / "tools" / "setup", "try"], folder, env={"PATH": str(folder)})
    assert got == Done(1, "", "setup: packages are missing, and only root can install them:\n"
                              "apt-get install --no-install-recommends make gcc binutils\n")


# What tools/setup calls: the identity of a user, a `sudo` that may do nothing, and an apt that installs one command.
STAND_INS = {"id": 'echo "$USER_ID"', "sudo": """echo "$*" >> "$TOP/notes"
[ "$USER_ID" != 2 ] || exit 1
shift
exec "$@"
""", "apt-get": """case $* in
*' update') echo "update $*"; exit 100 ;;
*assume-no*) echo "$LC_ALL $*" >&2; cat "$TOP/told"; exit 1 ;;
esac
echo "$DEBIAN_FRONTEND $*"
"$TOP/policy"
echo "policy $?"
seq 25
eval "$ENDS"
"""}
TOLD = "0 upgraded, 55 newly installed, 0 to remove and 3 not upgraded.\nNeed to get 60.5 MB of archives.\n"
NAMES = "nosuch munge openssh-server slurm-wlm"
SAID = f"setup: installing 55 packages, 60.5 MB for {NAMES} (what apt says is in LOG)\n"
SERVERS = "".join(f"setup: the server of {name} isn't started now, but enabled: Debian starts it at the next boot, "
                  "unless you disable it by systemctl\n" for name in NAMES.split()[1:])


@pytest.mark.parametrize(("ends", "status", "user", "told", "said"), [
    ("true", 1, 1000, TOLD, f"{SAID}{SERVERS}setup: these packages are still incomplete: {NAMES}\n"),
    ('ln -s /bin/true "$TOP/nosuch"', 0, 0, "", SAID.replace("55 packages, 60.5 MB", "packages") + SERVERS),
    ("exit 100", 1, 0, TOLD, SAID + "".join(f"{number}\n" for number in range(6, 26))),
    *((f"kill -{name} $PPID", 1, 0, TOLD, SAID) for name in ("INT", "TERM", "HUP")),
    ("", 1, 2, "", "setup: packages are missing, and only root can install them:\n"
                   f"apt-get install --no-install-recommends {NAMES}\n")])
def test_packages_are_installed_and_servers_not_started(ends: str, status: int, user: int, told: str, said: str,
                                                        top: pathlib.Path, folder: pathlib.Path) -> None:
    """By root, or with sudo, which is noted. A policy of somebody else stays. A second time nothing is missing."""
    policy = folder / "policy"
    script = (top / "tools" / "setup").read_text().replace("/usr/sbin/policy-rc.d", str(policy))
    write_script(folder / "tools" / "setup", script)
    lines = [f"{name}  command nosuch{' sh' * (name == 'munge')}\n" for name in NAMES.split()]
    (folder / "tools" / "packages").write_text("== try: nothing\n" + "".join(lines))
    for name, text in STAND_INS.items():
        write_script(folder / name, f"#!/bin/sh\n{text}")
    (folder / "told").write_text(told)
    if is_mine := "exit" in ends:
        write_script(policy, "#!/bin/sh\nexit 5\n")
    env = {"PATH": f"{folder}:/usr/bin:/bin", "TMPDIR": str(folder), "TOP": str(folder), "USER_ID": str(user),
           "ENDS": ends}
    got = run_tool([folder / "tools" / "setup", "try"], folder, env=env)
    assert got._replace(stderr=re.sub(r"\S+/tmp\.\w+", "LOG", got.stderr)) == Done(status, "", said)
    assert [path.read_text() for path in folder.glob("tmp.*")] == [
        f"update -q update\nC -q install --assume-no --no-install-recommends {NAMES}\n"
        f"noninteractive -q install -y --no-install-recommends {NAMES}\npolicy {5 if is_mine else 101}\n"
        + "".join(f"{number}\n" for number in range(1, 26))] * (user != 2)
    noted = (folder / "notes").read_text() if user else ""
    assert re.findall(r"^-n ([\w-]+)", noted, re.MULTILINE) == {0: [], 2: ["true"]}.get(
        user, ["true", "tee", "chmod", "apt-get", "env", "env", "rm"])
    assert policy.exists() == is_mine
    assert status or run_tool([folder / "tools" / "setup", "try"], folder, env=env | {"USER_ID": "2"}) == (0, "", "")


@pytest.mark.parametrize("words", ["", "none", "try test", "--missing", "--missing a try", "tryall"])
def test_setup_takes_one_list(words: str, top: pathlib.Path) -> None:
    assert run_tool([top / "tools" / "setup", *words.split()], top) \
        == Done(2, "", "usage: tools/setup [--missing] try|test|all\n")


def test_what_is_needed_is_in_a_package(top: pathlib.Path) -> None:
    """Every command and module that a test looks for, what is imported, and what Debian's packages are built with."""
    paths = [path for name in ("tests", "python", "examples") for path in (top / name).rglob("*.py")]
    text = "\n".join(path.read_text() for path in paths)
    asked = re.findall(r"\b(?:tool|require_module|require_debian_module|which)\((\"[\w+-]+\")\)", text) \
        + re.findall(r"\bfor (?:command|module) in \((.*?)\)", text)
    own = {"fuzz", "pfs", "support", *(path.stem for path in paths), "werkzeug", "_pytest"}
    imported = {*re.findall(r"^ *(?:import|from) ([a-z_]\w*)[\w.]*(?: as \w+| import .*)?$", text, re.MULTILINE)} \
        - {*sys.stdlib_module_names} - own
    names = {*re.findall(r"\"([\w+-]+)\"", " ".join(asked))} | imported
    assert len(names) > 50 and {name for name in names if package_of(name) is None} == {"timeout"}
    listed = [package.name for package in packages()]
    built = re.findall("^Build-Depends: (.*)$", (top / "debian" / "control").read_text(), re.MULTILINE)[0]
    assert {*re.sub(r"-compat| \(.*?\)", "", built).split(", ")} <= {*listed} and len(listed) == len({*listed})
