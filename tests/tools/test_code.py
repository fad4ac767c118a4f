"""The texts of the repository. Python is typed, and neither pyflakes nor shellcheck finds anything wrong in a script,
also in one whose name has no ending. C and C++ is formatted by clang-format. All files follow .editorconfig."""
import ast
import functools
import pathlib
import re
import subprocess

import pytest
from support.needs import tool
from support.tools import TOP, files_below

# By what their first lines name, or by the endings of their names.
KINDS = {"python3": "python", "sh": "shell", "bash": "shell"}
ENDINGS = {".py": "python", ".bash": "shell"}


@functools.cache
def scripts(kind: str) -> list[str]:
    """The scripts of a kind, by their paths."""
    return sorted(str(path.relative_to(TOP)) for path in files_below(TOP, "crates", "docs") if kind_of(path) == kind)


def kind_of(path: pathlib.Path) -> str:
    with open(path, "rb") as file:
        first = file.readline(200).decode(errors="replace")
    called = re.match(r"#!\S*/(?:env )?(\w+)\n", first)
    return KINDS.get(called[1], "") if called else ENDINGS.get(path.suffix, "")


def assert_silent(words: list[str], cwd: pathlib.Path = TOP) -> None:
    """The checker succeeds and prints nothing."""
    done = subprocess.run(words, cwd=cwd, stdout=subprocess.PIPE, stderr=subprocess.STDOUT, text=True)
    assert done.stdout == "", f"what {words[0]} says"
    assert done.returncode == 0


def test_scripts_are_found_by_their_first_lines() -> None:
    assert {"python/src/pfs/commands/gantt.py", "tests/fuzz.py", "tools/build"} <= set(scripts("python"))
    assert {".ci/run", "share/pfs.bash", "tools/install"} <= set(scripts("shell"))


@pytest.mark.seconds(20)
def test_python_is_typed() -> None:
    """But for the example in cffi, whose types Debian doesn't have."""
    typed = [path for path in scripts("python") if not path.startswith("examples/")]
    assert_silent([tool("mypy"), "--no-error-summary", f"--cache-dir={TOP}/out/mypy", *typed])


@pytest.mark.seconds(20)
def test_nothing_is_used_that_the_oldest_python_lacks() -> None:
    """Of what is installed, by mypy: Debian 12 has no interpreter of that version."""
    settings = (TOP / "python" / "pyproject.toml").read_text()
    [version] = re.findall(r'^requires-python = ">=(.*)"$', settings, re.MULTILINE)
    needed = re.findall(r"^X-Python3-Version: >= ([\d.]+)$", (TOP / "debian" / "control").read_text(), re.MULTILINE)
    assert needed == [version], "Debian's packages need the same version as the wheel"
    assert_silent([tool("mypy"), "--no-error-summary", f"--python-version={version}",
                   f"--cache-dir={TOP}/out/mypy-oldest", "python/src"])


def test_pyflakes_finds_nothing() -> None:
    assert_silent([tool("pyflakes3"), *scripts("python")])


@pytest.mark.parametrize("path", scripts("shell"))
def test_shellcheck_finds_nothing(path: str) -> None:
    assert_silent([tool("shellcheck"), path])


# The package for Python

PACKAGE = TOP / "python" / "src" / "pfs"
# Each folder with those that it may import, and the types that a module of a lower folder names.
LAYERS = {folder: set(re.findall(r"`(\w+)/`", uses)) for folder, uses in re.findall(
    r"^\| `(\w+)/` \|.*\|([^|]*)\|$", (TOP / "docs/ARCHITECTURE.md").read_text().partition("## The package for Python")
    [2].partition("\n## ")[0], re.MULTILINE)}
TYPES = {("schedules/rest.py", "pfs.shops.instance"), ("schedules/schedule.py", "pfs.shops.instance")}


def imports_of(path: str) -> set[tuple[str, str]]:
    """The modules that a module imports, at any time, each with a name that it takes from it."""
    found = set()
    for node in ast.walk(ast.parse((PACKAGE / path).read_text())):
        if isinstance(node, ast.Import):
            found |= {(each.name, "") for each in node.names}
        elif isinstance(node, ast.ImportFrom):
            base = node.module or ""
            found |= {(f"{base}.{each.name}", "") if (PACKAGE.parent / base.replace(".", "/")).is_dir()
                      else (base, each.name) for each in node.names}
    return found


@pytest.mark.parametrize("path", sorted(str(path.relative_to(PACKAGE)) for path in PACKAGE.glob("*/**/*.py")))
def test_imports_go_down(path: str) -> None:
    """As ARCHITECTURE.md says, with lazy imports and those for types. No name with an underscore is taken, and only
    command lines import argparse and each other."""
    own, above = path.split("/")[0], [*LAYERS]
    for module, name in imports_of(path):
        folder = module.split(".")[1] if module.startswith("pfs.") else ""
        is_command = own == "commands" or path.endswith("__main__.py")
        assert module != "argparse" and folder != "commands" or is_command, f"{path} imports {module}"
        if folder and folder != own and (path, module) not in TYPES:
            assert folder in LAYERS[own] and above.index(folder) < above.index(own), f"{path} imports {module}"
            assert name[:1] != "_", f"{path} imports {name}"


def test_each_folder_of_the_package_is_described_and_uses_what_it_may() -> None:
    assert LAYERS.keys() == {path.parent.name for path in PACKAGE.glob("*/__init__.py")}
    used = {(path.parent.name, module.split(".")[1]) for path in PACKAGE.glob("*/*.py")
            for module, _ in imports_of(str(path.relative_to(PACKAGE))) if module.startswith("pfs.")}
    assert {(own, other) for own, others in LAYERS.items() for other in others} <= used, "what is never imported"
    assert TYPES <= {(path, module) for path, _ in TYPES for module, _ in imports_of(path)}


# The rules of the editors

# The files that .clang-format is for.
C_FILES = sorted(str(path.relative_to(TOP)) for folder in ("lib", "examples", "bench")
                 for path in (TOP / folder).iterdir() if path.suffix in (".c", ".cpp", ".h", ".hpp"))


def text_of(node: ast.JoinedStr | ast.Constant) -> str:
    """A text of Python, with a zero byte in the place of each value."""
    parts = node.values if isinstance(node, ast.JoinedStr) else [node]
    return "".join(str(part.value) if isinstance(part, ast.Constant) else "\0" for part in parts)


def test_each_value_of_a_fault_is_in_an_expected_text() -> None:
    """With some letters of the message before or after it, if there are as many. Commands name an option --so, and the
    package `so`."""
    expected = "\n".join({re.sub(r"\\(?=[^\w\s])", "", text_of(node)) for path in (TOP / "tests").rglob("*.py")
                          for node in ast.walk(ast.parse(path.read_text()))
                          if isinstance(node, ast.JoinedStr) or isinstance(node, ast.Constant) and node.value != ""
                          and isinstance(node.value, str)})
    expected += re.sub(r"--(\w+): ", r"`\1`: ", expected)
    messages = [(path, text_of(node)) for path in PACKAGE.rglob("*.py") for fault in
                ast.walk(ast.parse(path.read_text())) if isinstance(fault, ast.Raise) and fault.exc
                for node in ast.walk(fault.exc) if isinstance(node, ast.JoinedStr)]
    missing = []
    for path, message in messages:
        parts = message.split("\0")
        for at, (before, after) in enumerate(zip(parts, parts[1:])):
            first, last = re.escape(before[-7:]), re.escape(after[:7])
            ways = [rf"{first}(?!\.\*)[^\n]+?(?:{last}|$)"] * (len(before) > 2) + [rf"^.*\S{last}"] * (len(after) > 2)
            if ways and not any(re.search(way, expected, re.MULTILINE) for way in ways):
                missing.append((path.name, at, message))
    assert len(messages) > 200 and missing == []


@pytest.mark.parametrize("path", C_FILES)
def test_clang_format_changes_nothing(path: str) -> None:
    assert_silent([tool("clang-format"), "--dry-run", "--Werror", "--style=file", path])


def faults_of(path: pathlib.Path) -> list[str]:
    """What of a file is against .editorconfig, line by line. `rt fmt` lays out what is in crates/."""
    try:
        text = path.read_bytes().decode()
    except UnicodeDecodeError:
        return ["no UTF-8"] if path.suffix != ".png" else []
    names = ("crates.txt", "words.de.txt", "taillard_orders.csv")
    is_long = path.suffix in (".json", ".md") or path.name in names or "crates" in path.parts
    rules = {"more than 120 columns": r".{121}" if not is_long else r"(?!)",
             "a blank or a carriage return at the end": r".*\s$",
             "a tab": r".*\t" if path.name not in ("Makefile", "rules") else r"(?!)"}
    faults = [f"{number}: {fault}" for number, line in enumerate(text.split("\n"), 1)
              for fault, pattern in rules.items() if re.match(pattern, line)]
    return faults + ["no line end at the end"] * (text != "" and not text.endswith("\n"))


def test_each_file_keeps_the_rules_of_editorconfig() -> None:
    faults = {str(path.relative_to(TOP)): faults_of(path) for path in files_below(TOP)}
    assert len(faults) > 500
    assert {path: found for path, found in faults.items() if found} == {}


# What a count of cells rests on

# How often each source file makes a bench, and uses a permit. A bench whose count is dropped makes work free.
COUNTING = {
    "pfs_audit/src/bounds.rt": ["metered"],  # totals, which count nothing
    "pfs_audit/src/verdicts.rt": ["metered"],
    "pfs_base/src/permit.rt": ["spend"],  # in `pay`
    "pfs_c/src/kept.rt": ["metered"] * 6,  # each call's own
    "pfs_desk/src/engines/value.rt": ["metered"],
    "pfs_iterate/src/places.rt": ["metered"],  # a search that counts nothing
    "pfs_search/src/search.rt": ["metered", "pay"],  # in `new`, which computes nothing, and in `start`
    "pfs_search/src/solution.rt": ["metered"] * 3,  # of `solve`, of `improve`, and of the makespan that it begins with
    "pfs_wave/src/sums.rt": ["pay"],
    "pfs_wave/src/tails.rt": ["spend"],
}


def test_benches_are_made_and_permits_used_in_known_places() -> None:
    found = {str(path.relative_to(TOP / "crates")): re.findall(r"\.(metered|spend|pay)\(\)", path.read_text())
             for path in TOP.glob("crates/*/src/**/*.rt") if path.parts[-3] not in ("pfs_tests", "pfs_calls")}
    assert {path: calls for path, calls in found.items() if calls} == COUNTING


# Mutants

FUNCTION = re.compile(r"^( *)(?:pub(?:\(\w+\))? )?(?:unsafe )?(?:extern \"C\" )?fn (\w+)", re.MULTILINE)
CLAUSE = re.compile(r"^ *(?:ensures(?: (\w+))? \{|ghost (from_gives) =)", re.MULTILINE)
CONDITION = re.compile(r"^ *requires (\w+) \{", re.MULTILINE)
MUTANTS = {f"{path.parts[-3]}/{path.stem}": path for path in sorted(TOP.glob("crates/*/must-fail/*.edit"))}


@functools.cache
def contracts(clauses: re.Pattern[str]) -> dict[str, set[str]]:
    """The functions of all crates by their names, with the names of their clauses; `ensures` is one without a name."""
    found: dict[str, set[str]] = {}
    for source in TOP.glob("crates/*/src/**/*.rt"):
        _, *parts = FUNCTION.split(source.read_text())
        for name, text in zip(parts[1::3], parts[2::3], strict=True):
            found.setdefault(name, set()).update("".join(names) or "ensures" for names in clauses.findall(text))
    return found


@pytest.mark.parametrize("mutant", MUTANTS)
def test_a_mutant_is_named_after_the_function_that_it_edits_and_a_clause_of_it(mutant: str) -> None:
    """FUNCTION.CLAUSE.edit, where FUNCTION may begin with the name of a type. The clause is one that the function
    ensures, the `invariant` of the type that it returns, or a condition of a function that it calls. A mutant of a line
    outside of functions is named after one that it changes."""
    path = MUTANTS[mutant]
    name, clause = path.name.split(".")[:2]
    text = path.read_text()
    file, line = re.findall(r"^(?:file|old): (.*)$", text, re.MULTILINE)[:2]
    before, _ = (path.parent.parent / file).read_text().split(line)
    [*_, edited] = [None, *FUNCTION.finditer(before)]
    if edited and f"\n{edited[1]}}}\n" not in before[edited.end():]:
        assert f"_{name}".endswith(f"_{edited[2]}")
    ensured = [names for function, names in contracts(CLAUSE).items() if f"_{name}".endswith(f"_{function}")]
    called = [names for function, names in contracts(CONDITION).items() if re.search(rf"\b{function}\(", text)]
    assert ensured and clause in {"invariant"}.union(*ensured, *called)
