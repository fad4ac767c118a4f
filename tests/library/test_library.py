"""The library for C: its header, its manual page, where it runs, and the symbols of its files; each function on each
invalid argument (support/library_calls.c), also with failing allocations, under valgrind and with gcc's sanitizers; and
on random instances and files against a second implementation (support/second_library.py)."""
import ctypes
import itertools
import pathlib
import re
import subprocess
import threading
from collections.abc import Sequence
from random import Random
from typing import Any

import fuzz
import pytest
from pfs.binding.rounds import TIES
from support import second_library, second_program
from support.growths import Shim
from support.library import (HEADER, SUPPORT, Library, Memory, Number, compile_quietly, compiled, list32,
                             list64, read32, text, u32s, u64s)
from support.needs import tool
from support.program import Program, Ran
from support.second_library import ITERATE_OPTIONS, OPEN, OPTIONS, PROOF, by_job
from support.second_program import Instance, generated, makespan
from support.tools import TOP, csv_rows, output_of, run_tool

CALLS = SUPPORT / "library_calls.c"
# The functions that allocate nothing once their instance is prepared, those that do, and those that need none.
QUIET = ["sizes", "faulty_job", "makespan", "makespans", "bound", "neh", "rounds", "iterate", "insert", "insert_ties",
         "insertions", "heads_tails", "construct", "construct_ties", "local_search", "local_search_ties"]
LOUD = ["pairs_bound", "table", "prove", "prove_parts", "write"]
OTHERS = ["random", "generate", "read", "read_order", "write_order"]
FUNCTIONS = [*QUIET, *LOUD, *OTHERS, "prepare", "release"]
TEXTS = {"pfs_message", "pfs_version", "pfs_version_number"}
NAMES = {f"pfs_{name}" for name in FUNCTIONS} | TEXTS
# The arguments of library_calls: the functions, and calls on a larger instance.
NAMED = [*QUIET, *LOUD, *OTHERS, "prepare", "prepare_again", "prepare_large", "insert_large", "makespans_large",
         "search_large"]
ALL_CALLS = Ran(b"247 calls, 0 failures\n", b"", 0)
# No call makes as many allocations.
MOST_GROWTHS = 200
SHOPS = 200
FILES = 1_000
# The greatest work of rounds that the second library does in a test, roughly in table cells.
MOST_WORK = 500_000
PATTERN = 0xA5A5A5A5


# The header

def defined() -> dict[str, int]:
    """The macros of pfs.h with their numbers."""
    found = re.findall(r"^#define (PFS_\w+) (?:UINT64_C\()?(\d+)\b", HEADER.read_text(), re.MULTILINE)
    return {name: int(value) for name, value in found}


# The rules for equally good places.
RULES = {name.removeprefix("PFS_TIES_").lower(): value for name, value in defined().items() if "_TIES_" in name}


def test_the_numbers_are_those_of_the_crate(top: pathlib.Path) -> None:
    """The limits are in test_limits.py."""
    source = (top / "crates" / "pfs_c" / "src" / "numbers.rt").read_text()
    numbers = {name: int(value) for name, value in re.findall(r"^pub const (\w+): i32 = (\d+);", source, re.MULTILINE)}
    for name, value in re.findall(r"^    (\w+) = (\d+),$", source, re.MULTILINE):
        macro = "PFS" + re.sub("([A-Z])", r"_\1", name).upper()
        assert numbers.setdefault(macro, int(value)) == int(value), macro
    assert RULES == TIES, "the rules of the package"
    answered = {name: value for name, value in defined().items()
                if not re.match("PFS_(MOST|LONGEST)_|PFS_(TAILLARD|ORLIB|TIES_[A-Z]+|VERSION_NUMBER)$", name)}
    assert answered == numbers
    assert sorted(answered.values()) == [*range(18), *range(20, 29), *range(30, 34)]


def test_the_header_names_the_parameters_as_the_functions_do(top: pathlib.Path) -> None:
    """In the same order, since two of them may have the same type. A slice is a pointer and a length in C. Each returns
    a number, or nothing."""
    source = "\n".join(path.read_text() for path in sorted((top / "crates" / "pfs_c" / "src").rglob("*.rt")))
    others = {"span": "makespan", "current_span": "current_makespan", "best_span": "best_makespan", "least": "bound",
              "len": "length"}
    header = re.sub(r"/\*.*?\*/", "", HEADER.read_text(), flags=re.DOTALL)
    declared = re.findall(r"^(int|void) (pfs_\w+)\(([^)]*)\)( PFS_CHECKED)?;", header, re.MULTILINE)
    declared = [each for each in declared if each[1] not in TEXTS]
    assert {name for _, name, *_ in declared} == NAMES - TEXTS
    for kind, name, parameters, checked in declared:
        got = [re.findall(r"\w+", each)[-1] for each in parameters.split(",")]
        proved = re.search(rf'^pub extern "C" fn {name}\(([^)]*)\)( -> i32)?$', source, re.MULTILINE)
        assert proved and (kind, checked) == (("int", " PFS_CHECKED") if proved[2] else ("void", "")), name
        due = []
        for parameter, type_name in re.findall(r"(\w+): ([^,]*)", proved[1]):
            if parameter != "alloc":
                due.append(others.get(parameter, parameter))
            if "[" in type_name:
                due.append("room" if got[len(due):len(due) + 1] == ["room"] else f"{due[-1]}_length")
        assert got == due, f"the parameters of {name}"


def test_the_version_number_is_that_of_the_version() -> None:
    [version] = re.findall(r'^#define PFS_VERSION "(.*)"$', HEADER.read_text(), re.MULTILINE)
    major, minor, patch = map(int, version.split("."))
    assert defined()["PFS_VERSION_NUMBER"] == 10_000 * major + 100 * minor + patch


@pytest.mark.parametrize("compiler", ["gcc", "clang"])
def test_a_compiler_warns_if_a_program_ignores_the_number(folder: pathlib.Path, compiler: str) -> None:
    (folder / "ignores.c").write_text('#include "pfs.h"\nvoid f(uint64_t *b) { pfs_bound(0, b); }\n')
    words = [tool(compiler), "-std=c99", f"-I{HEADER.parent}", "-c", "ignores.c"]
    got = subprocess.run(words, cwd=folder, capture_output=True, text=True)
    assert got.returncode == 0 and "unused-result" in got.stderr


# A few words of the text of each number, which no other text has.
MEANT = {
    0: "done", 1: "memory", 2: "number of jobs or of machines", 3: "list", 4: "^a time is greater",
    5: "^a job isn't below", 6: "^a job occurs twice", 7: "destruction size", 8: "passes", 9: "rounds", 10: "seed",
    11: "layout", 12: "block isn't from 1", 13: "makespan", 14: "room", 15: "prepared", 16: "held jobs",
    17: "rule",
    20: "ends before the block", 21: "too few or too many", 22: "number of a size line is out", 23: "and a word",
    24: "time of the file is greater", 25: "machine number", 26: "follows the last time", 27: "ends inside a block",
    28: "doesn't end within", 30: "not an order file", 31: "0 or greater than the number of jobs",
    32: "job of the order file occurs twice", 33: "order file of more than"}
LIMITS_TOLD = {4: ["LONGEST_TIME"], 8: ["MOST_PASSES"], 9: ["MOST_ROUNDS"], 12: ["MOST_BLOCKS"], 24: ["LONGEST_TIME"],
               28: ["LONGEST_INPUT"], 33: ["LONGEST_ORDER_FILE"]}


@pytest.fixture(scope="session")
def texts(tmp_path_factory: pytest.TempPathFactory) -> dict[int, str]:
    """The text of each number from -2 to 99."""
    path = tmp_path_factory.mktemp("texts") / "libtexts.so"
    compile_quietly([tool("gcc"), "-std=c99", "-Wall", "-Wextra", "-Werror", "-fPIC", "-shared", "-o", path,
                     HEADER.with_name("pfs_text.c")])
    library = ctypes.CDLL(str(path))
    assert library.pfs_version_number() == defined()["PFS_VERSION_NUMBER"]
    message = library.pfs_message
    message.restype = ctypes.c_char_p
    return {number: message(number).decode() for number in range(-2, 100)}


@pytest.mark.parametrize("number", MEANT)
def test_a_number_has_its_own_text(texts: dict[int, str], number: int) -> None:
    assert re.search(MEANT[number], texts[number]), f"the text of {number} is {texts[number]!r}"
    assert [other for other, text in texts.items() if re.search(MEANT[number], text)] == [number]
    limits = [str(defined()[f"PFS_{name}"]) for name in LIMITS_TOLD.get(number, [])]
    assert [limit for limit in limits if limit not in texts[number]] == [], "the limit that the text tells"


def test_other_numbers_have_no_text(texts: dict[int, str]) -> None:
    numbers = {value for name, value in defined().items() if not re.match("PFS_(MOST|LONGEST|VERSION)_", name)}
    assert MEANT.keys() == numbers
    assert {text for number, text in texts.items() if number not in MEANT} == {"unknown number"}


# The pages

def test_the_pages_have_each_function() -> None:
    assert set(re.findall(r"^\.Fn (\w+)", (TOP / "share" / "pfs.3").read_text(), re.MULTILINE)) == NAMES
    table = (TOP / "docs" / "LIBRARY.md").read_text().partition("| Function |")[2].partition("\n\n")[0]
    assert set(re.findall(r"`(pfs_\w+)`", table)) == NAMES


def example(libpfs: Library, folder: pathlib.Path, *words: str, **how: Any) -> Program:
    """The example of the page."""
    page = (TOP / "docs" / "LIBRARY.md").read_text()
    (folder / "example.c").write_text(re.findall(r"^```c\n(.*?)^```$", page, re.MULTILINE | re.DOTALL)[0])
    return compiled(folder / "example", [folder / "example.c"], libpfs, *words, **how)


@pytest.mark.parametrize(("compiler", "is_static", "words"), [
    ("gcc", False, []), ("musl-gcc", False, []), ("musl-gcc", True, []), ("musl-gcc", True, ["-static"])])
def test_the_example_of_the_page_prints_its_makespan(libpfs: Library, folder: pathlib.Path, compiler: str,
                                                     is_static: bool, words: list[str]) -> None:
    program = example(libpfs, folder, *words, compiler=compiler, is_static=is_static)
    assert program.run([], folder) == Ran(b"makespan 10\n", b"", 0)


@pytest.mark.parametrize("is_static", [False, True])
def test_an_old_processor_is_reported(libpfs: Library, folder: pathlib.Path, is_static: bool) -> None:
    """The page says so: an emulated processor without the instructions of x86-64-v2, and one with them."""
    made = example(libpfs, folder, is_static=is_static).path
    assert output_of([tool("qemu-x86_64"), "-cpu", "Nehalem", made], folder) == "makespan 10\n"
    old = run_tool([tool("qemu-x86_64"), "-cpu", "qemu64", made], folder)
    assert (old.status, old.stdout) == (127, "") and "CPU ISA level is lower than required" in old.stderr


# The files

def test_the_library_exports_only_the_names_of_the_header(libpfs: Library) -> None:
    static = libpfs.path.with_name("libpfs.a")
    for path, how in ((libpfs.path, "--dynamic"), (static, "--extern-only")):
        printed = output_of([tool("nm"), how, "--defined-only", "--format=posix", path], path.parent)
        lines = [line.split() for line in printed.splitlines() if not line.endswith(":")]
        names = {name for name, kind, *_ in lines if kind != "A"}
        assert names == ({f"{name}@@PFS_1" for name in NAMES} if path == libpfs.path else NAMES), path


def test_the_library_needs_only_the_c_library(libpfs: Library) -> None:
    """It has no executable stack, and its tables aren't written once it is loaded."""
    got = output_of([tool("readelf"), "--dynamic", "--segments", "--wide", libpfs.path], libpfs.path.parent)
    assert re.findall(r"^ *(GNU_RELRO)", got, re.MULTILINE) == ["GNU_RELRO"]
    assert re.findall(r"^ *GNU_STACK(?: +0x\w+){5} +([RWE]+)", got, re.MULTILINE) == ["RW"]
    assert re.findall(r"\(NEEDED\).*\[(.*)\]", got) == ["libc.so.6"]
    assert re.findall(r"\(SONAME\).*\[(.*)\]", got) == ["libpfs.so.1"]
    assert "TEXTREL" not in got
    assert re.findall(r"\(FLAGS\) +(.*)", got) == ["BIND_NOW"]
    wanted = output_of([tool("nm"), "--dynamic", "--undefined-only", libpfs.path], libpfs.path.parent)
    names = {line.split()[1].split("@")[0] for line in wanted.splitlines() if line.split()[0] == "U"}
    assert names <= {"malloc", "realloc", "free", "memcpy", "memmove", "memset", "memcmp", "bcmp"}


# Each function on each invalid argument

# so that the program that calls each function is compiled once
OF_CALLS = pytest.mark.xdist_group("library calls")


@pytest.fixture(scope="session")
def calls(libpfs: Library, tmp_path_factory: pytest.TempPathFactory) -> Program:
    """The program that calls each function."""
    return compiled(tmp_path_factory.mktemp("calls") / "library_calls", [CALLS], libpfs)


@pytest.mark.quick
@pytest.mark.parametrize("compiler", ["gcc", "clang"])
@pytest.mark.parametrize("is_static", [False, True], ids=["shared", "static"])
def test_each_call_has_the_due_number_and_outputs(libpfs: Library, folder: pathlib.Path, compiler: str,
                                                  is_static: bool) -> None:
    program = compiled(folder / "calls", [CALLS], libpfs, compiler=compiler, is_static=is_static)
    assert program.run("all", folder) == ALL_CALLS


@OF_CALLS
def test_four_threads_with_an_instance_each_have_the_same_results(calls: Program, folder: pathlib.Path) -> None:
    assert calls.run("threads", folder) == Ran(b"the same\n", b"", 0)


def test_the_sanitizers_find_nothing_in_any_call(libpfs: Library, folder: pathlib.Path) -> None:
    checks = ["-fsanitize=address,undefined", "-fno-sanitize-recover=all"]
    program = compiled(folder / "calls", [CALLS], libpfs, *checks, is_static=True)
    assert program.run("all", folder) == ALL_CALLS


@OF_CALLS
@pytest.mark.seconds(3)
@pytest.mark.parametrize(("words", "printed"), [
    (["all"], ALL_CALLS.stdout), (NAMED, b"right\nright\n" * len(NAMED))], ids=["all", "each function"])
def test_valgrind_finds_nothing_in_any_call(calls: Program, folder: pathlib.Path, words: list[str],
                                            printed: bytes) -> None:
    """One start of valgrind takes longer than the calls of a function. It reports with each error in which call it
    is."""
    valgrind = ["-q", "--error-exitcode=9", "--leak-check=full", "--show-leak-kinds=all", "--errors-for-leak-kinds=all"]
    ran = Program(pathlib.Path(tool("valgrind"))).run([*valgrind, str(calls.path), *words], folder)
    assert ran == Ran(printed, b"", 0)


@OF_CALLS
@pytest.mark.parametrize("name", NAMED)
def test_a_failed_allocation_leaves_every_output_unchanged(calls: Program, shim: Shim, folder: pathlib.Path,
                                                           name: str) -> None:
    """Of two calls, the one whose allocation fails returns PFS_MEMORY and leaves every output unchanged. The other one
    is right. Functions that need no allocation make none besides those of pfs_prepare, also on a large instance."""
    made = allocations(calls, shim, folder, name)
    prepared = allocations(calls, shim, folder, "prepare_large" if name.endswith("_large") else "prepare")
    assert prepared > 0 and (made > prepared) == (name in ["prepare_again", *LOUD, *OTHERS[1:]])


def allocations(calls: Program, shim: Shim, folder: pathlib.Path, name: str) -> int:
    """The number of allocations of a call, each of which was made to fail in the first and in the second of two."""
    got = []
    for growth in range(1, MOST_GROWTHS):
        ran, is_refused = shim.run_refused(calls, [name], folder, b"", growth)
        if not is_refused:
            break
        assert (ran.stderr, ran.status) == (b"", 0), f"allocation {growth} fails: {ran}"
        got.append(ran.stdout)
    assert ran == Ran(b"right\nright\n", b"", 0), "the last allocation is too late to fail"
    half = len(got) // 2
    assert got == [b"memory\nright\n"] * half + [b"right\nmemory\n"] * half
    return half


# Against the program and the second implementation

Arguments = list[Number | Memory]
Call = tuple[str, Arguments]


def shop_of(random: Random) -> Instance:
    """A random instance, often one with many equal sums."""
    writer = fuzz.Writer(random)
    writer.is_great = False
    return writer.shop()


def given(shop: Instance) -> Arguments:
    return [*list32(by_job(shop)), Number(shop.jobs), Number(shop.machines)]


def out32(count: int) -> Memory:
    return u32s([PATTERN] * count)


def out64() -> Memory:
    return u64s([PATTERN << 32 | PATTERN])


def searches(random: Random, shop: Instance) -> list[Call]:
    """Valid calls of the functions that compute."""
    jobs = list(range(shop.jobs))
    random.shuffle(jobs)
    some = jobs[:random.randint(0, shop.jobs - 1)]
    held = random.choice([0, len(some)])
    moving = random.sample(jobs[held:], random.randint(1, shop.jobs - held))
    stay = random.choice([b"", bytes(random.choice([1, 255]) * (job not in moving) for job in range(shop.jobs))])
    size = shop.jobs * shop.machines
    first = random.choice([0, 0, 1, 7, second_program.MOST_JOBS])
    count, length = random.choice([0, 1, 2, 8, 9, 33]), random.randint(0, shop.jobs)
    sequences = [job for _ in range(count) for job in random.sample(jobs, length)]
    ties = Number(random.choice([*RULES.values()]), 32)
    return [
        ("pfs_sizes", [*given(shop), out64(), out64()]),
        ("pfs_faulty_job", [*given(shop), *list32(some), out64()]),
        ("pfs_makespan", [*given(shop), *list32(some), out64()]),
        ("pfs_makespans", [*given(shop), *list32(sequences), Number(length), *list64([PATTERN] * count)]),
        ("pfs_bound", [*given(shop), out64()]),
        ("pfs_pairs_bound", [*given(shop), out64()]),
        ("pfs_table", [*given(shop), *list32(jobs), *list64([PATTERN] * size), *list64([PATTERN] * size)]),
        ("pfs_neh", [*given(shop), out32(shop.jobs), Number(shop.jobs, is_length=True), out64(), out64()]),
        ("pfs_rounds", [*given(shop), Memory(OPTIONS.pack(random.choice(fuzz.SEEDS[:-1]), random.randint(1, shop.jobs),
                                                          first, random.randint(0, 4), random.randint(0, 2))),
                        *list32(jobs), out64(), out64()]),
        ("pfs_prove", [*given(shop), *list32(jobs), Number(random.choice([0, 1, 50])), out64(), out64(), out64()]),
        ("pfs_prove_parts", of_parts(random, shop, jobs)),
        ("pfs_iterate", [*given(shop), Memory(ITERATE_OPTIONS.pack(
            random.choice(fuzz.SEEDS[:-1]), random.choice([1, len(moving)]), held, first, random.randint(0, 4),
            random.choice([0, 1, 2, 100]), random.choice([0, 1, 2, 100]), ties.value)),
                         *list32([random.getrandbits(32) for _ in range(random.choice([0, 1, 2, 9]))]), *text(stay),
                         *list32(jobs), out64(), *list32(jobs[:held] + jobs[held:][::-1]), out64()]),
        ("pfs_insert", [*given(shop), *list32(some), Number(jobs[-1], 32), out64(), out64()]),
        ("pfs_insert_ties", [*given(shop), ties, *list32(some), Number(jobs[-1], 32), out64(), out64()]),
        ("pfs_insertions", [*given(shop), *list32(some), Number(jobs[-1], 32), *list64([PATTERN] * (len(some) + 1))]),
        ("pfs_heads_tails", [*given(shop), *list32(some), *list64([PATTERN] * (len(some) * shop.machines)),
                             *list64([PATTERN] * (len(some) * shop.machines))]),
        ("pfs_construct", [*given(shop), *list32(some), *list32(jobs[len(some):]), *list32([PATTERN] * shop.jobs),
                           out64()]),
        ("pfs_local_search", [*given(shop), *list32(random.sample(jobs, length)), Number(random.randint(0, 2), 32),
                              *list32(jobs), out64()]),
        ("pfs_construct_ties", [*given(shop), ties, *list32(jobs[len(some):]),
                                *list32(some + [PATTERN] * (shop.jobs - len(some))), out64()]),
        ("pfs_local_search_ties", [*given(shop), ties, *list32(random.sample(jobs, length)),
                                   Number(random.choice([0, 1, 2, 100]), 32), *list32(jobs), out64()]),
        ("pfs_random", [Number(random.choice(fuzz.SEEDS[:-1])), Number(random.randint(0, 9)),
                        *list32([PATTERN] * count)]),
    ]


def of_parts(random: Random, shop: Instance, order: list[int]) -> Arguments:
    """The arguments of a search of a few random parts."""
    limit = random.choice([2**64 - 1, makespan(shop, order), second_program.lower_bound(shop) + 1, 0])
    return [*given(shop), *list32(order), *parts_in(shop, random_parts(random, shop.jobs), limit,
                                                    random.choice([0, 1, 2, 9, 200]))]


def random_parts(random: Random, jobs: int) -> list[list[int]]:
    rows = list[list[int]]()
    for _ in range(random.choice([0, 1, 1, 3])):
        first, last = sorted(random.choices(range(jobs + 1), k=2))
        order = random.sample(range(jobs), jobs)
        rows.append(random.choice([order[:first] + [OPEN] * (last - first) + order[last:], [OPEN] * jobs]))
    return rows


def parts_in(shop: Instance, parts: list[list[int]], limit: int, nodes: int) -> Arguments:
    """The rows of parts, their bounds and a `struct pfs_proof`."""
    room = len(parts) + shop.jobs * (shop.jobs + 1) // 2
    rows = [*itertools.chain(*parts), *[PATTERN] * ((room - len(parts)) * shop.jobs)]
    asked = PROOF.pack(limit, nodes, len(parts), *[PATTERN] * 3)
    return [*list32(rows), *list64([PATTERN] * room), Memory(asked)]


def files(random: Random, shop: Instance) -> list[Call]:
    """Valid calls that draw, read and write. The files that are read may be wrong."""
    writer = fuzz.Writer(random)
    file, order = writer.file([shop_of(random), shop]), writer.order(shop)
    if random.random() < 0.5:
        file, order = fuzz.mutated(random, file), fuzz.mutated(random, order)
    size, layout = shop.jobs * shop.machines, 0 if writer.layout == b"taillard" else 1
    notes = u32s(shop.notes)
    jobs = list(range(shop.jobs))
    random.shuffle(jobs)
    return [
        ("pfs_generate", [Number(shop.jobs), Number(shop.machines), Number(random.randint(1, 2_147_483_646)),
                          *list32([PATTERN] * size)]),
        ("pfs_read", [*text(file), Number(layout, 32), Number(random.randint(1, 2)), out32(8),
                      *list32([PATTERN] * 50), out64()]),
        ("pfs_write", [*given(shop), notes, Number(random.randint(0, 1), 32), *text(b"\xa5" * 1_500), out64()]),
        ("pfs_read_order", [*text(order), *list32([PATTERN] * 12), out64(), out64(), out64(), out64()]),
        ("pfs_write_order", [*list32(jobs), Number(random.choice([0, shop.machines])), Number(random.getrandbits(62)),
                             *text(b"\xa5" * 100), out64()]),
    ]


def spoilt(random: Random, arguments: Arguments) -> Arguments:
    """The arguments with one or two numbers changed, or one or two in a list that is read."""
    arguments = list(arguments)
    for _ in range(random.randint(1, 2)):
        place = random.randrange(len(arguments))
        argument = arguments[place]
        if isinstance(argument, Memory):
            if len(argument.content) % 4 == 0 and len(argument.content) >= 12:
                numbers = read32(argument.content)
                one, other = random.randrange(len(numbers)), random.randrange(len(numbers))
                numbers[one], numbers[other] = numbers[other], numbers[one]
                if random.random() < 0.7:
                    numbers[one] = random.choice([0, 1, 9, 1_000_000_000, 1_000_000_001, 2**32 - 1])
                arguments[place] = u32s(numbers)
        elif argument.is_length:
            arguments[place] = argument._replace(value=random.randint(0, argument.value))
        else:
            most = 2**argument.bits
            value = random.choice([0, 1, 2, 100, 101, 200, 201, 5_000, 5_001, 1_000_000, most - 1, most // 2,
                                   argument.value + 1, max(0, argument.value - 1)])
            arguments[place] = argument._replace(value=value % most)
    return arguments


def is_quick(name: str, arguments: Arguments) -> bool:
    """Whether the second library is fast on this call. It draws all random words before the first one that is used, and
    evaluates every order from scratch."""
    numbers = [argument.value for argument in arguments if isinstance(argument, Number)]
    if name == "pfs_random":
        return numbers[1] <= 10_000
    if name == "pfs_prove":
        return numbers[4] <= 200
    memory = [argument.content for argument in arguments if isinstance(argument, Memory)]
    if name == "pfs_prove_parts":
        return bool(PROOF.unpack(memory[-1])[1] <= 200)
    if name == "pfs_rounds":
        _, take, first, count, passes = OPTIONS.unpack(memory[1])
    elif name == "pfs_iterate":
        _, take, _, first, count, *each, _ = ITERATE_OPTIONS.unpack(memory[1])
        take, passes = take + numbers[1], sum(each)
    elif name in ("pfs_local_search", "pfs_local_search_ties"):
        take, first, count, passes = 1, 0, 1, numbers[5 if name.endswith("ties") else 4]
    else:
        return True
    if max(first + count, take, passes) > second_library.MOST_ROUNDS:
        return True
    return bool(first * take <= 10_000 and count <= 20 and count * passes * numbers[1]**3 * numbers[2] <= MOST_WORK)


def assert_same(libpfs: Library, name: str, arguments: Arguments) -> int:
    """Both libraries return the same number and leave the same bytes in all memory, but for the bytes after the last
    field of a `struct pfs_block`. Returns the number."""
    answer, due = libpfs.call(name, *arguments), second_library.call(name, *arguments)
    if name == "pfs_read":
        answer.memory[1], due.memory[1] = answer.memory[1][:28], due.memory[1][:28]
    assert answer == due, (name, arguments)
    return answer.number


@pytest.mark.quick
@pytest.mark.seconds(10)
def test_two_libraries_agree_on_random_instances(libpfs: Library) -> None:
    random = Random(1)
    numbers = set[int]()
    for _ in range(SHOPS):
        for name, arguments in searches(random, shop_of(random)):
            assert assert_same(libpfs, name, arguments) == 0, (name, arguments)
            for wrong in [spoilt(random, arguments) for _ in range(9)]:
                if is_quick(name, wrong):
                    numbers.add(assert_same(libpfs, name, wrong))
    assert numbers == {0, *range(2, 10), 14, 16, 17}


@pytest.mark.seconds(10)
def test_two_libraries_agree_on_random_files(libpfs: Library) -> None:
    random = Random(2)
    numbers = set[int]()
    for _ in range(FILES):
        for name, arguments in files(random, shop_of(random)):
            numbers.add(assert_same(libpfs, name, arguments))
            numbers.add(assert_same(libpfs, name, spoilt(random, arguments)))
    assert numbers == {0, 2, 3, 4, 5, 6, *range(10, 15), *range(20, 28), 30, 31, 32}


@pytest.mark.parametrize(("more", "numbers"), [(0, [20, 30]), (1, [28, 33])])
def test_a_file_of_one_byte_more_is_too_long(libpfs: Library, more: int, numbers: list[int]) -> None:
    """All else stays as it was, but for the place of the fault."""
    longest = [b"x" * (defined()[f"PFS_LONGEST_{name}"] + more) for name in ("INPUT", "ORDER_FILE")]
    for content, number, call in zip(longest, numbers, ("pfs_read", "pfs_read_order")):
        options: Arguments = [Number(1, 32), Number(1), out32(8)] if call == "pfs_read" else []
        outputs: Arguments = [*list32([PATTERN] * 4), *([out64()] * 3 if call == "pfs_read_order" else [])]
        got = libpfs.call(call, *text(content), *options, *outputs, out64())
        given_memory = [each.content for each in [*options, *outputs] if isinstance(each, Memory)]
        assert (got.number, got.memory[1:-1], got.memory[-1]) == (number, given_memory, bytes(8)), call


# Proofs that an order is optimal

def proved(libpfs: Library, shop: Instance, nodes: int) -> tuple[int, list[int], list[int]]:
    """What pfs_prove returns and finds from the jobs in the order of their numbers: the order, and then its makespan,
    the bound and the nodes that are left."""
    arguments = [*given(shop), *list32(range(shop.jobs)), Number(nodes), out64(), out64(), out64()]
    number, (_, order, *others) = libpfs.call("pfs_prove", *arguments)
    return number, read32(order), [int.from_bytes(each, "little") for each in others]


def searched(libpfs: Library, shop: Instance, order: list[int], parts: list[list[int]], nodes: int,
             limit: int = 2**64 - 1) -> tuple[list[int], list[list[int]], list[int], tuple[int, ...]]:
    """What pfs_prove_parts finds: the order, the rows that are left with their bounds, and the makespan, the bound and
    the nodes that are left."""
    arguments = [*given(shop), *list32(order), *parts_in(shop, parts, limit, nodes)]
    number, (_, found, rows, bounds, told) = libpfs.call("pfs_prove_parts", *arguments)
    assert number == 0
    _, _, left, *proof = PROOF.unpack(told)
    return (read32(found), [read32(rows)[row * shop.jobs:][:shop.jobs] for row in range(left)],
            [int.from_bytes(bounds[8 * row:][:8], "little") for row in range(left)], tuple(proof))


def is_in(order: Sequence[int], row: list[int]) -> bool:
    return all(place in (OPEN, job) for place, job in zip(row, order))


@pytest.mark.quick
@pytest.mark.seconds(5)
def test_searches_of_parts_against_all_orders(libpfs: Library) -> None:
    """One call, with any parts, limit and nodes; and calls that continue with what is left of all orders until that is
    nothing."""
    random = Random(4)
    for _ in range(300):
        jobs, machines, most = random.randint(1, 5), random.randint(1, 4), random.choice([0, 1, 9, 99, 65_535, 10**6])
        shop = second_program.instance_of([random.choices([0, most, random.randint(0, most)], k=machines)
                                           for _ in range(jobs)])
        spans = {order: makespan(shop, order) for order in itertools.permutations(range(jobs))}
        start, least = random.sample(range(jobs), jobs), min(spans.values())
        parts = random_parts(random, jobs)
        limit, nodes = random.choice([2**64 - 1, least, least + 1, 0]), random.choice([0, 1, 3, 9, 10**6])
        order, left, bounds, (span, bound, _) = searched(libpfs, shop, start, parts, nodes, limit)
        assert spans[tuple(order)] == span <= makespan(shop, start)
        for other, length in spans.items():
            if any(is_in(other, row) for row in parts):
                assert length >= bound and (length >= min(span, limit) or any(is_in(other, row) for row in left))
            assert all(length >= number for row, number in zip(left, bounds) if is_in(other, row))
        open_parts, order = [[OPEN] * jobs], start
        while open_parts:
            random.shuffle(open_parts)
            cut = random.randint(1, len(open_parts))
            order, left, _, (span, _, _) = searched(libpfs, shop, order, open_parts[:cut], random.choice([1, 2, 9]))
            open_parts[:cut] = left
        assert span == spans[tuple(order)] == least


# The numbers of nodes from these orders, as the second library counts them in some minutes each.
COUNTED = {
    "ta011": (147_590, [17, 4, 1, 11, 8, 9, 3, 13, 12, 14, 16, 2, 5, 18, 7, 19, 10, 6, 0, 15]),
    "ta020": (233_550, [4, 11, 12, 18, 7, 5, 16, 6, 9, 17, 3, 2, 15, 14, 19, 13, 1, 8, 0, 10])}


@pytest.mark.parametrize("name", COUNTED)
def test_the_number_of_nodes(libpfs: Library, top: pathlib.Path, name: str) -> None:
    """Of one call, and at most one in a thousand more of calls of 20,000 nodes each on what is left: a part that a
    better order closes while a call runs takes a node."""
    [row] = [row for row in csv_rows(top / "python" / "src" / "pfs" / "taillard.csv") if row["instance"] == name]
    shop = generated(int(row["jobs"]), int(row["machines"]), int(row["time_seed"]))
    nodes, order = COUNTED[name]
    for budget, most in ((10**9, nodes), (20_000, 1.001 * nodes)):
        rows, now, used, known = [[OPEN] * shop.jobs], order, 0, dict[tuple[int, ...], int]()
        while rows:
            now, rows, bounds, (span, _, left) = searched(libpfs, shop, now, rows, budget)
            used += budget - left
            known |= {tuple(each): bound for each, bound in zip(rows, bounds) if bound}
            rows = [each for each in rows if known[tuple(each)] < span]
        assert nodes <= used <= most and makespan(shop, now) == span == int(row["best_makespan"])


@pytest.mark.seconds(60)
@pytest.mark.parametrize("name", [f"ta{number:03}" for number in [*range(1, 12), 13, 16, *range(31, 41)]])
def test_published_optima(libpfs: Library, top: pathlib.Path, name: str) -> None:
    [row] = [row for row in csv_rows(top / "python" / "src" / "pfs" / "taillard.csv") if row["instance"] == name]
    shop = generated(int(row["jobs"]), int(row["machines"]), int(row["time_seed"]))
    number, order, (span, bound, _) = proved(libpfs, shop, 20_000_000)
    assert number == 0 and span == bound == int(row["best_makespan"]) == makespan(shop, order)


@pytest.mark.parametrize(("jobs", "machines", "number"), [(256, 1, 0), (257, 1, 2), (1, 64, 0), (1, 65, 2)])
def test_the_greatest_sizes_of_a_proof(libpfs: Library, jobs: int, machines: int, number: int) -> None:
    assert proved(libpfs, generated(jobs, machines, 1), 1)[0] == number


def test_the_greatest_search_fits_a_small_stack(libpfs: Library) -> None:
    """256 jobs on 64 machines, as deep as the search goes, on a thread's stack of 512 KiB."""
    shop, found = generated(256, 64, 3), list[tuple[int, list[int], list[int]]]()
    threading.stack_size(2**19)
    try:
        thread = threading.Thread(target=lambda: found.append(proved(libpfs, shop, 3_000)))
        thread.start()
        thread.join()
    finally:
        threading.stack_size(0)
    [(_, _, (span, _, left))] = found
    assert left == 0 and span < makespan(shop, range(256))
