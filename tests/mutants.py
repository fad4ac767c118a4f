#!/usr/bin/python3
"""Changes one place of the package for Python at a time, in a copy of the checkout, and runs the tests that run this
place, the quickest first: does one fail, and pass without the change? Prints the changes that no test finds, and the
share that is found by module. tests/equivalent.txt lists changes that mean the same, each with its reason; they aren't
tried. `make mutants` notes first which test runs which lines."""
import argparse
import ast
import concurrent.futures
import difflib
import functools
import itertools
import os
import pathlib
import random
import re
import subprocess
import sys
import tempfile
from collections import Counter, defaultdict
from collections.abc import Iterator
from typing import Any, NamedTuple
from xml.etree import ElementTree

import coverage

TOP = pathlib.Path(__file__).resolve().parents[1]
PACKAGE = TOP / "python" / "src" / "pfs"
REST = re.compile(r"(@[^]|]*)?(\|\w+)?$")  # what follows the name of a test: its group, and what is run of it
SHARE = 0.1  # of the time of all tests, which those of a change take at most
# All processes end with the first one, where the system permits that, and that one after five minutes.
APART = ["unshare", "--pid", "--fork", "--kill-child", "--mount-proc", "sh", "-c", '"$@"; exit $?', "sh"]
PYTEST = [*(APART if subprocess.run([*APART, "true"], capture_output=True).returncode == 0 else []),
          "timeout", "-sKILL", "300", "prlimit", "--cpu=120", f"--as={12 << 30}", "/usr/bin/python3", "-m", "pytest",
          "-q", "-x", "-n0", "--timeout=60", f"--pfs={TOP}/crates/pfs/out/pfs", f"--libpfs={TOP}/lib/out/libpfs.so.1"]
SIGNS = [getattr(ast, name) for name in ("Lt LtE Gt GtE Eq NotEq In NotIn Is IsNot And Or Add Sub Mult FloorDiv Div "
                                         "Mod BitOr BitAnd").split()]  # each two may be confused
EXCHANGED = (ast.Expr, ast.Assign, ast.AugAssign, ast.If, ast.With, ast.For)
CODECS = {"utf-8": "latin-1", "utf-8-sig": "utf-8", "latin-1": "utf-8", "ascii": "utf-8", "cp1252": "utf-8"}
# Of each exception a wider one, and of some a narrower one.
WIDER = {"FileNotFoundError": "OSError", "PermissionError": "OSError", "BlockingIOError": "OSError",
         "OSError": "Exception", "KeyError": "LookupError", "IndexError": "LookupError",
         "UnicodeDecodeError": "ValueError", "ValueError": "Exception", "TypeError": "Exception",
         "ImportError": "Exception", "LookupError": "Exception"}
NARROWER = {"OSError": "FileNotFoundError", "ValueError": "UnicodeDecodeError", "LookupError": "KeyError",
            "ImportError": "ModuleNotFoundError", "Exception": "ValueError"}


class Change(NamedTuple):
    """What is in the place of the last of these nodes, each of which is in the one before: none if it is None, and
    of a tuple of two statements those that are in the place of both."""
    module: str
    nodes: tuple[Any, ...]
    field: str
    at: int
    new: Any

    @functools.cache
    def text(self) -> str:
        """The module with this change, or nothing if that isn't a program."""
        parent, before, new = self.nodes[-2], getattr(self.nodes[-2], self.field), self.new
        if isinstance(before, list):
            several = new if isinstance(new, tuple) else (new,) if new else ()
            new = [*before[:self.at], *several, *before[self.at + max(1, len(several)):]]
        setattr(parent, self.field, new)
        try:
            compile(text := ast.unparse(self.nodes[0]), self.module, "exec")
        except (SyntaxError, ValueError):
            text = ""
        setattr(parent, self.field, before)
        return text

    def shown(self) -> str:
        """As equivalent.txt has it: the function, and the lines before and after."""
        names = [each.name for each in self.nodes if isinstance(each, ast.FunctionDef | ast.ClassDef)]
        lines = difflib.ndiff(ast.unparse(self.nodes[0]).splitlines(), self.text().splitlines())
        return "\n".join([".".join([self.module[:-3], *names]), *(line for line in lines if line[0] in "-+")])

    def place(self) -> tuple[str, int, bool]:
        """Its module, the first line of its statement, and whether this is in a function."""
        *outer, statement = (each for each in self.nodes if isinstance(each, ast.stmt | ast.ExceptHandler))
        return self.module, statement.lineno, any(isinstance(each, ast.FunctionDef) for each in outer)


def changes(module: str, nodes: tuple[Any, ...], field: str = "", at: int = 0) -> Iterator[Change]:
    """The changes of the last of these nodes and of those in it, but for types and docstrings."""
    match nodes[-1]:
        case ast.Expr(ast.Constant()) | ast.If(ast.Name("TYPE_CHECKING")) | ast.AnnAssign(_, ast.Name("TypeAlias")):
            return
    for new in itertools.chain(others(nodes, field, at), left_out(nodes, field, at), confused(nodes, field, at)):
        yield Change(module, nodes, field, at, new)
    for field, value in ast.iter_fields(nodes[-1]):
        for at, node in enumerate(value if isinstance(value, list) else [value]):
            if isinstance(node, ast.AST) and field not in ("annotation", "returns"):
                yield from changes(module, (*nodes, node), field, at)


def others(nodes: tuple[Any, ...], field: str, at: int) -> Iterator[ast.AST | None]:
    """What may be in the place of the last of these nodes, which is in this field of the one before."""
    match [*nodes[-2:], field]:
        case [_, node, "test" | "ifs"]:
            yield ast.UnaryOp(ast.Not(), node)
        case [ast.Slice(), node, _] | [ast.Call(ast.Name("range")), node, "args"]:
            yield from (ast.BinOp(node, sign(), ast.Constant(1)) for sign in (ast.Add, ast.Sub))
        case [ast.Call(), _, "args" | "keywords"] if at > 0 or field == "keywords":
            yield None
        case [ast.Return(), _, _]:
            function = [each for each in nodes if isinstance(each, ast.FunctionDef)][-1]
            yield from [None, *(each.value for each in ast.walk(function) if isinstance(each, ast.Return))]
    match nodes[-1]:
        case node if type(node) in SIGNS:
            yield SIGNS[SIGNS.index(type(node)) ^ 1]()
        case ast.Constant(bool(value)):
            yield ast.Constant(not value)
        case ast.Constant(int(value) | float(value)):
            yield from (ast.Constant(value + step) for step in (1, -1))
        case ast.Constant(str(value) | bytes(value)):
            yield ast.Constant(value[:-1] or "x")
        case ast.ExceptHandler(kind, name, [first, *_]) if not isinstance(first, ast.Expr):
            yield ast.ExceptHandler(kind, name, [ast.Pass()])
        case ast.Expr() | ast.Assign() | ast.AugAssign() | ast.Raise() | ast.Break() | ast.Continue():
            yield ast.Pass()
        case (ast.UnaryOp(_, inner) | ast.Call(ast.Attribute(inner, "copy"), [])
              | ast.Call(ast.Name("list" | "tuple" | "dict" | "set" | "sorted"), [inner], [])):
            yield inner
        case ast.Call(call, [one, other, *rest], words) if ast.unparse(call) not in ("max", "min", "math.gcd"):
            yield ast.Call(call, [other, one, *rest], words)


def left_out(nodes: tuple[Any, ...], field: str, at: int) -> Iterator[ast.AST | None]:
    """What is in the place of the last of these nodes if a part of it, which may be there for a second case, is left
    out: a member, an operand, a call around a value, or the return of a guard."""
    match [*nodes[-2:], field]:
        case [ast.Tuple(members) | ast.List(members) | ast.Set(members), _, "elts"] if len(members) > 1 and all(
                isinstance(each, ast.Constant | ast.Name | ast.Attribute) for each in members) and isinstance(
                    getattr(nodes[-2], "ctx", ast.Load()), ast.Load):
            yield None
    match nodes[-1]:
        case ast.BoolOp(sign, [*values]):
            yield from (values[1 - out] if len(values) == 2 else ast.BoolOp(sign, values[:out] + values[out + 1:])
                        for out in range(len(values)))
        case ast.Call(ast.Name(), [inner], []) if not isinstance(inner, ast.Starred | ast.GeneratorExp):
            yield inner
        case ast.Call(ast.Attribute(ast.expr() as inner), _, _) if not (
                isinstance(inner, ast.Name) and inner.id in imported(nodes[0])):
            yield inner
        case ast.If(_, [*_, ast.Return() | ast.Continue() | ast.Break()], []) if field in ("body", "orelse"):
            yield ast.Pass()


def confused(nodes: tuple[Any, ...], field: str, at: int) -> Iterator[Any]:
    """What is in the place of the last of these nodes if it is taken for another: an encoding, a variable of the same
    type, an exception, two arguments, or two statements."""
    before, node = nodes[-2] if len(nodes) > 1 else None, nodes[-1]
    match node:
        case ast.Constant(str(value)) if value.lower() in CODECS:
            yield ast.Constant(CODECS[value.lower()])
        case ast.Call(ast.Attribute(_, "decode" | "encode"), [], []):
            yield ast.Call(node.func, [ast.Constant("latin-1")], [])
        case ast.Name(name, ast.Load()):
            if any(isinstance(each, ast.ExceptHandler) and part is each.type for each, part in zip(nodes, nodes[1:])):
                yield from (ast.Name(each[name], ast.Load()) for each in (WIDER, NARROWER) if name in each)
            else:
                yield from (ast.Name(each, ast.Load()) for each in alike(nodes, name))
        case ast.Call(call, [*given], words):
            for first in range(len(given) - 1):
                if first or ast.unparse(call) in ("max", "min", "math.gcd"):  # the first two are exchanged anyway
                    yield ast.Call(call, [*given[:first], given[first + 1], given[first], *given[first + 2:]], words)
        case ast.stmt() if before is not None and isinstance(block := getattr(before, field), list):
            after = block[at + 1] if at + 1 < len(block) else None
            if isinstance(node, EXCHANGED) and isinstance(after, EXCHANGED):
                yield after, node


@functools.cache
def imported(module: ast.Module) -> set[str]:
    """The names of modules and of what is imported from them, of which no call is a method of a value."""
    return {(each.asname or each.name).partition(".")[0] for node in ast.walk(module)
            if isinstance(node, ast.Import | ast.ImportFrom) for each in node.names}


def alike(nodes: tuple[Any, ...], name: str) -> list[str]:
    """The other variables of the same type in the function."""
    kinds = kinds_of([each for each in nodes if isinstance(each, ast.FunctionDef | ast.Module)][-1])
    return [other for other, kind in kinds.items() if other != name and kind == kinds.get(name)]


@functools.cache
def kinds_of(function: ast.FunctionDef | ast.Module) -> dict[str, str]:
    """The types of arguments and variables, or else the calls that make them."""
    kinds: dict[str, str] = {}
    for node in ast.walk(function) if isinstance(function, ast.FunctionDef) else ():
        match node:
            case ast.arg(own, ast.expr() as kind) | ast.AnnAssign(ast.Name(own), kind):
                kinds[own] = ast.unparse(kind)
            case ast.Assign([ast.Name(own)], ast.Call(call)):
                kinds[own] = f"{ast.unparse(call)}()"
            case ast.Assign([ast.Tuple([*targets])]):
                kinds |= {each.id: f"{node.lineno}" for each in targets if isinstance(each, ast.Name)}
    return kinds


class Noted:
    """Which tests of the package run a line, and how many seconds each takes."""

    def __init__(self) -> None:
        data, cases = coverage.CoverageData(str(TOP / "out/lines")), ElementTree.parse(TOP / "out/tests.xml")
        data.read()
        self.lines = {str(pathlib.Path(file).relative_to(PACKAGE)): data.contexts_by_lineno(file)
                      for file in data.measured_files()}
        self.seconds = {REST.sub("", f"{case['classname'].replace('.', '/')}.py::{case['name']}"): float(case["time"])
                        for case in (each.attrib for each in cases.iter("testcase") if len(each) == 0)
                        if ".python." in case["classname"]}

    def tests_of(self, change: Change) -> list[str]:
        """Those that run its line, or if none is noted those that run other lines of its module, the quickest first."""
        (_, line, in_function), lines = change.place(), self.lines.get(change.module, {})
        for contexts in ([lines.get(line, [])] * in_function, lines.values()):
            if found := {REST.sub("", each) for each in {*itertools.chain(*contexts)}} & self.seconds.keys():
                break
        tests = sorted(found, key=lambda test: (self.seconds[test], test))
        before = itertools.accumulate((self.seconds[test] for test in tests), initial=0.0)
        return [test for test, seconds in zip(tests, before) if seconds < SHARE * sum(self.seconds.values())]


@functools.cache
def failing(module: str, text: str, *tests: str) -> list[str]:
    """The first test that fails in a copy with this text of a module, or all if pytest names none; [] if none fails."""
    with tempfile.TemporaryDirectory(prefix="pfs-mutants-") as folder:
        copy = pathlib.Path(folder, "pfs")
        subprocess.run(["rsync", "-a", "-f- /.git", "-f- /crates", "-f- out/", f"{TOP}/", copy], check=True)
        (copy / PACKAGE.relative_to(TOP) / module).write_text(text)
        env = os.environ | {"PYTHONDONTWRITEBYTECODE": "1", "TMPDIR": folder, "CI": "false", "PFS_MUTANT": "1"}
        done = subprocess.run([*PYTEST, f"--basetemp={folder}/pytest", *tests], cwd=copy, env=env, text=True,
                              errors="replace", stdin=subprocess.DEVNULL, capture_output=True, start_new_session=True)
    lines = [f"{line} " for line in re.findall(r"^(?:FAILED|ERROR) (\S+\.py.*)", done.stdout, re.MULTILINE)]
    named = [test for test in tests for line in lines if line.startswith((f"{test} ", f"{test.split('::')[0]} "))]
    return [] if done.returncode in (0, 5) else named[:1] or [*tests]  # 5: no test


def is_found(change: Change, tests: list[str]) -> bool:
    """Whether a test fails by a change and passes without it."""
    while tests and (failed := failing(change.module, change.text(), *tests)):
        if not failing(change.module, ast.unparse(change.nodes[0]), *failed):
            return True
        tests = [test for test in tests if test not in failed]
    return False


def chosen(modules: list[str], seed: int) -> Iterator[Change]:
    """Changes of different statements, drawn at random."""
    same = {block.partition("\n# ")[0] for block in (TOP / "tests/equivalent.txt").read_text().split("\n\n")[1:]}
    rng, places = random.Random(seed), defaultdict(list)
    for module in modules:
        for change in changes(module, (ast.parse((PACKAGE / module).read_bytes()),)):
            places[change.place()].append(change)
    drawn = (rng.choice(places[place]) for place in rng.sample(sorted(places), len(places)))
    return (each for each in drawn if each.text() not in ("", ast.unparse(each.nodes[0])) and each.shown() not in same)


def main() -> int:
    parser = argparse.ArgumentParser(description=__doc__)
    parser.add_argument("count", nargs="?", type=int, default=300)
    commits = subprocess.run(["git", "-C", TOP, "rev-list", "--count", "HEAD"], capture_output=True).stdout
    for name, default in (("seed", int(commits or 1)), ("jobs", len(os.sched_getaffinity(0))), ("least", 0)):
        parser.add_argument(f"--{name}", type=int, default=default)
    parser.add_argument("--only", default="")
    given = parser.parse_args()
    if not (TOP / "out/lines").exists():
        parser.error("no out/lines: `make mutants` writes it")
    modules = [name for path in sorted(PACKAGE.rglob("*.py")) if given.only in (name := str(path.relative_to(PACKAGE)))]
    drawn, noted = list(itertools.islice(chosen(modules, given.seed), given.count)), Noted()
    tried, seen = Counter(change.module for change in drawn), Counter[str]()
    with concurrent.futures.ThreadPoolExecutor(given.jobs) as workers:
        for change, found in zip(drawn, workers.map(is_found, drawn, map(noted.tests_of, drawn))):
            seen[change.module] += found
            if not found:
                print(f"not found, line {change.place()[1]} of {change.shown()}\n", flush=True)
    print("\n".join(f"{seen[name]:4} of {count:4}  {name}" for name, count in sorted(tried.items())))
    share = 100 * seen.total() / max(1, len(drawn))
    print(f"{seen.total():4} of {len(drawn):4}  in all: {share:.1f} %, seed {given.seed}")
    return int(share < given.least)


if __name__ == "__main__":
    sys.exit(main())
