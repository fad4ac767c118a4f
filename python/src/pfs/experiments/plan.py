"""Plans of experiments, which are TOML files, and the CSVs of references and of runs, read without pandas."""
from __future__ import annotations

import csv
import glob
import importlib
import itertools
import os
import re
import shlex
import sys
from collections.abc import Callable, Iterable, Iterator
from typing import Any, TypeAlias, cast

from pfs.base.benchmarks import canonical
from pfs.binding.rounds import MOST_PASSES, MOST_ROUNDS, MOST_TEMPERATURE, TIES, USUAL, Usual
from pfs.experiments import ExperimentError

# The greatest makespan that an order file can state.
MOST_MAKESPAN = 10 ** 18 - 1


def list_of(least: float, most: float, *types: type[Any]) -> tuple[str, Callable[[Any], bool]]:
    """Returns what a list of numbers of these types must be, and the test of it."""
    what = "whole numbers" if types == (int,) else "numbers"
    return f"a list of {what} from {least} to {most:,}", lambda given: isinstance(given, list) and given != [] and all(
        type(each) in types and least <= each <= most for each in given)


def one_of(names: Iterable[str]) -> tuple[str, Callable[[Any], bool]]:
    """Returns what one of these names must be, and the test of it."""
    return " or ".join(f'"{name}"' for name in names), lambda given: given in [*names]


# What the value of each key must be, and the test of it.
VALUES: dict[str, tuple[str, Callable[[Any], bool]]] = {
    "blocks": list_of(1, 1000, int), "rounds": list_of(0, MOST_ROUNDS, int), "takes": list_of(1, 5000, int),
    "passes": list_of(0, MOST_PASSES, int), "seeds": list_of(0, 2 ** 64 - 1, int),
    "time_factors": list_of(0.001, 10_000, int, float),
    "repetitions": ("a whole number from 1", lambda given: type(given) is int and 1 <= given <= MOST_MAKESPAN),
    "layout": one_of(["taillard", "orlib"]),
    "reference": ("the path of a CSV", lambda given: isinstance(given, str) and "\0" not in given),
    "search": one_of(USUAL),
    "partial": (f"a whole number from 0 to {MOST_PASSES}",
                lambda given: type(given) is int and 0 <= given <= MOST_PASSES),
    "ties": one_of(TIES),
    "temperature": (f"a number from 0 to {MOST_TEMPERATURE:,}",
                    lambda given: type(given) in (int, float) and 0 <= given <= MOST_TEMPERATURE),
    "command": ("a command", lambda given: isinstance(given, str) and "\0" not in given),
    "anytime": ("true or false", lambda given: type(given) is bool),
    "method": ("a name without control characters",
               lambda given: isinstance(given, str) and given != "" and given.isprintable())}
# The defaults of lists of numbers.
NUMBERS = {"blocks": [1], "rounds": [0], "takes": None, "passes": [USUAL["solve"].passes], "seeds": [0]}
# What a method may have that a plan lists in `methods`, and what is for the whole plan.
OF_METHOD = {"rounds", "takes", "passes", "seeds", "repetitions", "time_factors", "search", "partial", "ties",
             "temperature", "command", "method", "files", "grid", "anytime"}
KEYS = {*VALUES, "files", "grid", "instances", "methods"}
# Keys of the search that also accepts longer orders, keys that a command can't have, and what it may have in braces.
OF_ITERATED = ("partial", "ties", "temperature")
OF_PFS = ("rounds", "takes", "passes", "search")
OF_COMMAND = {"instance", "name", "jobs", "machines", "block", "seed", "seconds"}

Row: TypeAlias = dict[str, str]
# Of each instance a makespan and its source.
Reference: TypeAlias = dict[str, tuple[int, str]]


def parse_toml(path: str) -> dict[str, Any]:
    """Returns the keys and values of a TOML file."""
    toml: Any = importlib.import_module("tomllib" if sys.version_info >= (3, 11) else "tomli")
    try:
        with open(path, "rb") as file:
            return cast("dict[str, Any]", toml.load(file))
    except (ValueError, RecursionError) as error:
        what = error if isinstance(error, ValueError) else "the values are nested too deeply"
        raise ExperimentError(f"{path}: {what}") from None


def require(is_right: object, path: str, message: str) -> None:
    """Raises an error unless a plan is right."""
    if not is_right:
        raise ExperimentError(f"{path}: {message}")


def read_plan(path: str) -> dict[str, Any]:
    """Reads a plan and adds the defaults. Patterns are replaced by the files that they match. A plan without `methods`
    has one, whose keys are those of the plan."""
    plan = parse_toml(path)
    listed = plan.pop("methods", [{}])
    require(isinstance(listed, list) and listed and all(isinstance(each, dict) for each in listed), path,
            "methods must be tables: write [[methods]] before the keys of each")
    require(plan.keys() <= KEYS, path, f"unknown key {min(plan.keys() - KEYS, default='')!r}")
    for each in listed:
        require(each.keys() <= OF_METHOD, path, f"unknown key {min(each.keys() - OF_METHOD, default='')!r} of methods")
    methods = [method_of(path, each) for given in listed for each in of_grid(path, plan | given)]
    require(len({method["method"] for method in methods}) == len(methods), path,
            "each of methods needs method, a name that no other one has")
    return {"layout": plan.get("layout", "taillard"), "blocks": plan.get("blocks", [1]),
            "reference": plan.get("reference"), "instances": matches(path, "instances", plan.get("instances")),
            "methods": methods}


def of_grid(path: str, method: dict[str, Any]) -> Iterator[dict[str, Any]]:
    """Yields a method for each combination of the values of its grid, which replace `{name}` in the command, and which
    its name has."""
    grid = method.pop("grid", None)
    if grid is None:
        yield method
        return
    is_right = isinstance(grid, dict) and grid and all(map(is_values, grid.values()))
    require(is_right, path, "grid must be a table of lists, of different numbers or texts, by the names in the command")
    for name in grid:
        require(name not in OF_COMMAND and re.fullmatch(r"\w+", name) and f"{{{name}}}" in str(method.get("command")),
                path, f"grid has {name}, so the command must contain {{{name}}}, which has no other meaning")
    for values in itertools.product(*grid.values()):
        texts = dict(zip(grid, map(str, values)))
        name = ", ".join([str(method.get("method")), *(f"{name} {text}" for name, text in texts.items())])
        yield {**method, **({"method": name} if "method" in method else {}), "texts": texts}


def is_values(given: object) -> bool:
    """Whether the values of a name in a grid are different numbers or texts."""
    return isinstance(given, list) and 0 < len(given) == len({*map(str, given)}) and all(
        type(each) in (int, float, str) and str(each).isprintable() for each in given)


def method_of(path: str, plan: dict[str, Any]) -> dict[str, Any]:
    """Returns the settings of a method, whose keys and those of the plan these are. `time_factors`, `command` and
    `files` have no defaults."""
    for key, (what, is_right) in VALUES.items():
        require(key not in plan or is_right(plan[key]), path, f"{key} must be {what}")
    full: dict[str, Any] = {"repetitions": 1, "method": "", **NUMBERS, **plan}
    if "passes" not in plan:
        full["passes"] = [usual_of(plan).passes]
    for key in OF_ITERATED:
        require(key not in plan or is_iterated(plan), path, f'{key} needs search = "iterated-greedy"')
    if "time_factors" in plan:
        full["rounds"] = plan.get("rounds", [])
    if "command" in plan or "files" in plan:
        full |= command_of(path, plan)
    require(not plan.get("anytime") or ("command" in plan and "time_factors" in plan), path,
            "anytime is for a command with time_factors")
    return {key: full[key] for key in full.keys() & OF_METHOD}


def is_iterated(method: dict[str, Any]) -> bool:
    """Whether a method is the search of the library that also accepts longer orders."""
    return method.get("search") == "iterated-greedy"


def usual_of(method: dict[str, Any]) -> Usual:
    """Returns the defaults of a method."""
    return USUAL[method.get("search", "solve")]


def command_of(path: str, plan: dict[str, Any]) -> dict[str, Any]:
    """Returns a command, word by word, and the files that it needs, as paths from the plan's folder, with the program
    if it is one."""
    require(plan.get("command") and "method" in plan, path,
            "command needs method, the name of the program, and files needs command")
    for key in OF_PFS:
        require(key not in plan, path, f"{key} is for pfs, not for a command")
    try:
        words = shlex.split(plan["command"])
    except ValueError as error:
        raise ExperimentError(f"{path}: command: {error}") from None
    texts: dict[str, str] = plan.get("texts", {})
    words = [re.sub(r"\{(\w+)\}", lambda name: texts.get(str(name[1]), str(name[0])), word) for word in words]
    used = {name for word in words for name in re.findall(r"\{(\w*)\}", word)}
    for name in ("instance", *(["block"] if plan.get("blocks", [1]) != [1] else [])):
        require(name in used, path, f"command must contain {{{name}}}")
    for name in sorted(used - OF_COMMAND):
        there = ", ".join(f"{{{each}}}" for each in sorted(OF_COMMAND))
        raise ExperimentError(f"{path}: command contains {{{name}}}, but there are only {there}")
    require("seconds" not in used or "time_factors" in plan, path,
            "command contains {seconds}, which needs time_factors")
    files = [os.path.normpath(name) for name in matches(path, "files", plan["files"])] if "files" in plan else []
    program = os.path.normpath(words[0])
    if "/" in words[0] and not os.path.isabs(program) and program not in files:
        files += matches(path, "command", [glob.escape(program)])
    for name in files:
        require(not os.path.isabs(name) and not name.startswith(".."), path, f"{name} is not in the plan's folder")
    return {"command": words, "files": files, "rounds": []}


def matches(path: str, key: str, patterns: object) -> list[str]:
    """Returns the files that the patterns match, each once, as paths from the plan's folder."""
    require(isinstance(patterns, list) and patterns and all(isinstance(each, str) for each in patterns), path,
            f"{key} must be a list of paths")
    found: dict[str, None] = {}
    top = os.path.dirname(path)
    for pattern in cast("list[str]", patterns):
        names = sorted(glob.glob(pattern, root_dir=top)) if "\0" not in pattern else []
        require(names, path, f"no file matches {pattern}")
        found.update(dict.fromkeys(names))
    for name in found:
        require(os.path.isfile(os.path.join(top, name)), path, f"{name} is not a file")
        require(not set(name) & set("\t\r\n"), path, f"the name {name!r} contains a tab or a line end")
        require(not re.search("[\udc80-\udcff]", name), path, f"the name {os.fsencode(name)!r} is not UTF-8")
    return list(found)


# CSVs

def rows_of(path: str | os.PathLike[str], needed: Iterable[str]) -> list[Row]:
    """Returns the rows of a CSV, which must have these columns. Missing cells at the end of a row are empty."""
    try:
        with open(path, newline="", encoding="utf-8-sig") as file:
            reader = csv.DictReader(file, restval="")
            columns, rows = reader.fieldnames or [], list(reader)
    except (ValueError, csv.Error) as error:
        raise ExperimentError(f"{path}: {error}") from None
    twice = next((column for column in columns if column and columns.count(column) > 1), None)
    if twice is not None:
        raise ExperimentError(f"{path}: two columns are named {twice!r}")
    missing = [column for column in needed if column not in columns]
    if missing:
        raise ExperimentError(f"{path}: no column {', '.join(missing)}")
    if not rows or any(None in row for row in rows):
        raise ExperimentError(f"{path}: {'a row has more cells than the first line' if rows else 'no rows'}")
    return rows


def reference_of(path: str | os.PathLike[str]) -> Reference:
    """Returns the reference of each instance in a CSV, by its name and, if that is clear, by its canonical name."""
    found: Reference = {}
    for row in rows_of(path, ["instance", "makespan"]):
        whole = re.fullmatch(r" *([0-9]{1,18})(?:\.(?!000 *\Z)0*)? *", row["makespan"])
        if not whole:
            raise ExperimentError(f"{path}: {row['makespan'][:40]!r} is not a whole number of at most 18 digits")
        entry = int(whole[1]), row.get("source", "")
        if found.setdefault(row["instance"], entry) != entry:
            raise ExperimentError(f"{path}: {row['instance']} has two makespans")
    same: dict[str, set[tuple[int, str]]] = {}
    for name, entry in found.items():
        same.setdefault(canonical(name), set()).add(entry)
    return {key: entries.pop() for key, entries in same.items() if len(entries) == 1} | found


def reference_for(reference: Reference, instance: str) -> tuple[int, str] | None:
    """Returns the reference of an instance, by its name, the last part of its path, or its canonical name."""
    return (reference.get(instance) or reference.get(instance.rpartition("/")[2])
            or reference.get(canonical(instance)))
