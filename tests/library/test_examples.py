"""The examples of the library for C. Each compiles without a warning by the command of their page, with pkg-config and
a folder like an installed one. It prints what the page shows, and what the program or the second program computes."""
import os
import pathlib
import re
import shutil
import subprocess

import pytest
from support import second_library, second_program
from support.library import HEADER, Library, compile_quietly
from support.needs import tool
from support.program import Program
from support.second_program import Instance, generated
from support.tools import TOP, Done, csv_rows, require_debian_module, output_of, run_tool, with_path

EXAMPLES = TOP / "examples"
PAGE = (EXAMPLES / "README.md").read_text()
SOURCES = [EXAMPLES / name
           for name in ("audit_orders.c", "gaps.cpp", "ig_temperature.c", "neh_ties.c", "timed_search.c")]
STRICT = {"cc": "-std=c99", "c++": "-std=c++17"}
SEED = 873654221

pytestmark = [pytest.mark.xdist_group("examples"), pytest.mark.seconds(5)]


@pytest.fixture(scope="session")
def installed(libpfs: Library, tmp_path_factory: pytest.TempPathFactory) -> pathlib.Path:
    """A prefix with the library, as far as compiling needs it."""
    prefix = tmp_path_factory.mktemp("installed")
    listed = (f"lib/pfs.h include/pfs.h\n{libpfs.path.resolve()} lib/libpfs.so.1\n-> libpfs.so.1 lib/libpfs.so\n"
              "lib/pfs.pc.in lib/pkgconfig/pfs.pc\n")
    got = run_tool([TOP / "tools" / "install", "put", "", prefix, "lib"], TOP, stdin=None, input=listed)
    assert got == Done(0, "", "")
    return prefix


@pytest.fixture(scope="session")
def built(installed: pathlib.Path, tmp_path_factory: pytest.TempPathFactory) -> pathlib.Path:
    """A folder with the examples, compiled as the page says, and with warnings as errors."""
    return compile_examples(installed, tmp_path_factory.mktemp("examples"))


def compile_examples(installed: pathlib.Path, folder: pathlib.Path, *options: str) -> pathlib.Path:
    """Compile the examples into a folder by the commands of the page, with more options of the compiler."""
    lines = {compiler: line for line, compiler in re.findall(r"^((cc|c\+\+) .*)$", PAGE, re.MULTILINE)}
    env = {"PKG_CONFIG_PATH": str(installed / "lib" / "pkgconfig"), "PATH": "/usr/bin:/bin"}
    flags = output_of([tool("pkg-config"), "--cflags", "--libs", "pfs"], installed, env=env).split()
    for source in SOURCES:
        compiler = "cc" if source.suffix == ".c" else "c++"
        assert "$(pkg-config --cflags --libs pfs)" in lines[compiler] and STRICT[compiler] in lines[compiler]
        compile_quietly([tool(compiler), STRICT[compiler], "-O2", "-Wall", "-Wextra", "-pedantic", "-Werror",
                         *options, "-o", folder / source.stem, source, *flags, f"-Wl,-rpath,{installed}/lib", "-lm"])
    return folder


def run(built: pathlib.Path, name: str, *words: str | pathlib.Path, cwd: pathlib.Path) -> Done:
    return run_tool([built / name, *words], cwd)


def test_the_page_has_each_example() -> None:
    names = {path.name for path in SOURCES} | {"neh.R", "neh.jl", "neh.rs", "neh_cffi.py", "pfs.hpp", "pfs.rs",
                                               "pfs_r.c", "README.md"}
    assert {path.name for path in EXAMPLES.iterdir()} == names
    assert set(re.findall(r"^`(\w+) ", PAGE, re.MULTILINE)) == {path.stem for path in SOURCES}
    assert all(len(path.read_text().splitlines()) <= 110 for path in SOURCES)


def run_page(built: pathlib.Path, pfs: Program, folder: pathlib.Path) -> None:
    """Run the page's commands one after the other in one folder, and compare what they print with the page."""
    for path in (*(built / source.stem for source in SOURCES), pfs.path):
        (folder / path.name).symlink_to(path)
    shown = re.findall(r"^\$ (.*)\n((?:(?!\$|```).*\n)*)", PAGE, re.MULTILINE)
    assert len(shown) == 7
    for line, text in shown:
        printed = output_of(["sh", "-c", f"{{ {line}; }} 2>&1 || [ $? = 1 ]"], folder, env=with_path(folder))
        assert printed == text, line


def test_the_page_shows_what_is_printed(built: pathlib.Path, pfs: Program, folder: pathlib.Path) -> None:
    run_page(built, pfs, folder)


def test_no_example_leaks_or_reads_out_of_bounds(installed: pathlib.Path, pfs: Program, folder: pathlib.Path) -> None:
    """The same under the sanitizers of addresses, leaks and undefined behaviour."""
    (folder / "built").mkdir()
    built = compile_examples(installed, folder / "built", "-fsanitize=address,undefined", "-fno-sanitize-recover=all")
    (folder / "run").mkdir()
    run_page(built, pfs, folder / "run")


def makespans_by_ties(shop: Instance) -> tuple[int, int]:
    """The makespans of NEH that takes of equal places the one with the least total delay, and of the one that takes the
    last, evaluated order by order."""
    least, last = list[int](), list[int]()
    for job in sorted(range(shop.jobs), key=lambda job: (-shop.total(job), job)):
        least = second_library.placed(shop, least, 0, job, 1)
        orders = [last[:place] + [job] + last[place:] for place in range(len(last), -1, -1)]
        last = min(orders, key=lambda whole: second_program.makespan(shop, whole))
    return second_program.makespan(shop, least), second_program.makespan(shop, last)


@pytest.mark.parametrize(("jobs", "machines", "seed"), [(20, 5, SEED), (9, 3, 5), (12, 1, 77), (1, 4, 1), (7, 20, 9)])
def test_ties(built: pathlib.Path, folder: pathlib.Path, jobs: int, machines: int, seed: int) -> None:
    shop = generated(jobs, machines, seed)
    first = second_program.makespan(shop, second_program.by_totals(shop))
    got = run(built, "neh_ties", str(jobs), str(machines), str(seed), cwd=folder)
    least, last = makespans_by_ties(shop)
    assert got == Done(0, f"first places {first}\nleast delay {least}\nlast places {last}\n", "")


@pytest.fixture
def shop(folder: pathlib.Path) -> pathlib.Path:
    """A folder with an instance of 20 jobs on 5 machines in the file `shop`."""
    (folder / "shop").write_bytes(second_program.canonical(generated(20, 5, SEED), b"taillard"))
    return folder


def test_a_search_in_parts(built: pathlib.Path, pfs: Program, shop: pathlib.Path) -> None:
    done: list[str] = []
    for rounds in ("7", "27", "27", "40"):
        found = run(built, "timed_search", "shop", "7", "1000", rounds, *done, cwd=shop)
        assert (found.status, found.stderr.split(",")[0]) == (0, f"{rounds} rounds")
        (shop / "order").write_text(found.stdout)
        done = [rounds, "order"]
    assert found.stdout.encode() == pfs.run("solve --layout taillard --rounds 40 --seed 7 shop", shop).stdout
    assert run(built, "timed_search", "shop", "7", "0", "40", cwd=shop).stderr.startswith("10 rounds, ")


@pytest.mark.parametrize(("done", "order", "why"), [
    ("0", b"", "not an order file"), ("1000001", second_program.order_text([*range(20)], 5, 7), "rounds"),
    ("0", second_program.order_text([1, 0], 5, 7), "the order of another instance"),
    ("0", second_program.order_text([*range(20)], 4, 7), "the order of another instance")])
def test_a_search_rejects_other_orders(built: pathlib.Path, shop: pathlib.Path, done: str, order: bytes,
                                       why: str) -> None:
    (shop / "order").write_bytes(order)
    got = run(built, "timed_search", "shop", "7", "1", "10", done, "order", cwd=shop)
    assert (got.status, got.stdout) == (2, "") and got.stderr.startswith("timed_search: ") and why in got.stderr


def test_a_search_with_temperature(built: pathlib.Path, pfs: Program, shop: pathlib.Path) -> None:
    """In no time it finds an order, which is the same again."""
    neh = int(pfs.run("solve --layout taillard shop", shop).stdout.split()[-1])
    found = run(built, "ig_temperature", "shop", "7", "0", cwd=shop)
    assert (found.status, found.stderr) == (0, "") and neh >= int(found.stdout.split()[-1]) > 1278
    assert found == run(built, "ig_temperature", "shop", "7", "0", cwd=shop)
    (shop / "found").write_text(found.stdout)
    assert pfs.run("check --layout taillard shop found", shop).stdout.startswith(b"valid\n")


def test_a_plan_runs_and_audits_the_search_with_temperature(built: pathlib.Path, pfs: Program, libpfs: Library,
                                                           shop: pathlib.Path, scripts: pathlib.Path) -> None:
    """The program in C, and the one in Python, each in one plan with pfs. All find the best known makespan."""
    tool("parallel")
    plan = (EXAMPLES.parent / "experiments" / "ig_temperature.toml").read_text().replace("ta*", "ta001")
    (shop / "out" / "taillard").mkdir(parents=True)
    shutil.copy(shop / "shop", shop / "out" / "taillard" / "ta001")
    shutil.copy(built / "ig_temperature", shop / "out")
    shutil.copy(EXAMPLES.parent / "python" / "examples" / "ig_temperature.py", shop / "out")
    env = dict(os.environ, PFS_LIBRARY=str(libpfs.path), PYTHONPATH=str(EXAMPLES.parent / "python" / "src"))
    for name in ("ig_temperature", "ig_temperature.py"):
        (shop / "plan.toml").write_text(plan.replace("out/ig_temperature {", f"out/{name} {{"))
        got = run_tool([scripts / "pfs-experiments", "run", "--pfs", pfs.path, "plan.toml", f"{name}.csv"], shop,
                       env=env)
        assert got == Done(0, "", f"{name}.csv: 3 runs, 0 of them failed, 0 still to run\n")
        rows = csv_rows(shop / f"{name}.csv")
        assert [row["method"] for row in rows] == ["IG with temperature", "pfs", "iterated-greedy"]
        assert {(row["instance"], row["makespan"], row["status"]) for row in rows} == {
            ("out/taillard/ta001", "1278", "ok")}


@pytest.mark.parametrize(("words", "status", "said"), [
    ("timed_search none 7 0 0", 4, "none: cannot open"), ("timed_search shop 7 0 1 0 .", 4, ".: cannot read"),
    ("ig_temperature none 1 1", 4, "none: cannot read"), ("audit_orders none x", 4, "none: cannot open"),
    ("audit_orders shop none", 4, "none: cannot open"),
    ("timed_search empty 7 0 0", 2, "empty: the file ends before the block")])
def test_files_that_cannot_be_read(built: pathlib.Path, shop: pathlib.Path, words: str, status: int, said: str) -> None:
    (shop / "empty").touch()
    name, *others = words.split()
    assert run(built, name, *others, cwd=shop) == Done(status, "", f"{name}: {said}\n")


@pytest.mark.parametrize("words", [["timed_search", "shop", "7", "0", "0"], ["neh_ties", "5", "2", "1"],
                                   ["ig_temperature", "shop", "7", "0"], ["audit_orders", "shop", "shop"]])
def test_a_full_device_is_reported(built: pathlib.Path, shop: pathlib.Path, words: list[str]) -> None:
    with open("/dev/full", "wb") as full:
        done = subprocess.run([built / words[0], *words[1:]], cwd=shop, stdout=full, stderr=subprocess.PIPE, text=True)
    assert done.returncode == 4 and done.stderr.endswith("cannot write\n")


def test_audits(built: pathlib.Path, folder: pathlib.Path) -> None:
    shop = generated(3, 2, SEED)
    (folder / "shop").write_bytes(second_program.canonical(shop, b"taillard"))
    makespan, bound = second_program.makespan(shop, [0, 1, 2]), second_program.lower_bound(shop)
    texts = {
        "right": second_program.order_text([0, 1, 2], 2, makespan),
        "one": second_program.order_text([0, 1, 2], None, makespan),
        "wrong": second_program.order_text([0, 1, 2], 2, 7),
        "other": second_program.order_text([0, 1, 2], 3, makespan),
        "shorter": second_program.order_text([0, 1], 2, makespan),
        "twice": second_program.order_text([0, 1, 1], 2, makespan),
    }
    for name, text in texts.items():
        (folder / name).write_bytes(text)
    valid = f"valid, makespan {makespan}, bound {bound}\n"
    assert run(built, "audit_orders", "shop", "right", "one", cwd=folder) == Done(0, f"right: {valid}one: {valid}", "")
    got = run(built, "audit_orders", "shop", *texts, cwd=folder)
    assert got == Done(1, f"right: {valid}one: {valid}wrong: states 7, takes {makespan}\nother: of another instance\n"
                           "shorter: of another instance\ntwice: a job of the order file occurs twice (3)\n", "")
    # At any place of the wrong one.
    for names in (["wrong", "right"], ["right", "wrong"], ["one", "twice", "right"], ["other", "one"], ["wrong"] * 2):
        status = run(built, "audit_orders", "shop", *names, cwd=folder).status
        assert status == 1, f"the status of the files {names}"


@pytest.mark.parametrize("name", [path.stem for path in SOURCES])
def test_no_words(built: pathlib.Path, folder: pathlib.Path, name: str) -> None:
    got = run(built, name, cwd=folder)
    assert (got.status, got.stdout) == (3, "") and got.stderr.startswith(f"usage: {name} ")


# Other languages

IN_OTHER_LANGUAGES = "order [1, 0, 2], makespan 10\na list doesn't have the length that the sizes require\n"


def test_the_example_in_rust(installed: pathlib.Path, folder: pathlib.Path) -> None:
    [line] = re.findall(r"^rustc (.*)$", PAGE, re.MULTILINE)
    words = line.replace("neh.rs", str(EXAMPLES / "neh.rs")).split()
    compile_quietly([tool("rustc"), "-D", "warnings", "-L", installed / "lib", *words[:-2], str(folder / "neh"),
                     words[-1]])
    assert output_of([folder / "neh"], folder, env={"LD_LIBRARY_PATH": str(installed / "lib")}) == IN_OTHER_LANGUAGES


def test_the_example_for_cffi(installed: pathlib.Path, folder: pathlib.Path) -> None:
    require_debian_module("cffi")
    assert "\npython3 neh_cffi.py\n" in PAGE
    env = {"LD_LIBRARY_PATH": str(installed / "lib"), "PATH": "/usr/bin:/bin"}
    assert output_of(["/usr/bin/python3", EXAMPLES / "neh_cffi.py"], folder, env=env) == IN_OTHER_LANGUAGES


def test_the_example_in_r(installed: pathlib.Path, folder: pathlib.Path) -> None:
    """By the page's command, in a folder with the two files."""
    tool("R")
    [line] = re.findall(r"^PKG_CPPFLAGS=.*$", PAGE, re.MULTILINE)
    for name in ("neh.R", "pfs_r.c"):
        shutil.copy(EXAMPLES / name, folder)
    env = dict(os.environ, PKG_CONFIG_PATH=str(installed / "lib" / "pkgconfig"), LD_LIBRARY_PATH=str(installed / "lib"))
    done = run_tool(["sh", "-e", "-c", line.replace("pfs_r.c", "pfs_r.c > log", 1)], folder, env=env)
    assert re.fullmatch("order 2 1 3, makespan 10\npfs: a job .* twice.*\n", done.stdout), done
    assert "warning" not in (folder / "log").read_text() + done.stderr


# The types of Julia that stand for those of C.
IN_JULIA = {"const uint32_t *": "Ptr{UInt32}", "uint32_t *": "Ptr{UInt32}", "uint64_t *": "Ref{UInt64}",
            "size_t ": "Csize_t", "int ": "Cint", "void ": "Cvoid", "const char *": "Cstring",
            "struct pfs_instance *": "Ref{Ptr{Cvoid}}"}


def test_the_calls_in_julia_are_those_of_the_header() -> None:
    """Names and types of arguments and results. Debian 12 has no Julia, so nothing runs it."""
    assert "\njulia neh.jl\n" in PAGE
    header = (EXAMPLES.parent / "lib" / "pfs.h").read_text()
    example = (EXAMPLES / "neh.jl").read_text()
    calls = re.findall(r"@ccall PFS\.(\w+)\((.*?)\)::(Cint|Cvoid|Cstring)", example, re.DOTALL)
    assert [name for name, _, _ in calls] == ["pfs_prepare", "pfs_neh", "pfs_release", "pfs_message"]
    for name, arguments, returned in calls:
        [(kind, words)] = re.findall(rf"^((?:\w+ )+\*?){name}\(([^)]*)\)", header, re.MULTILINE)
        due = [re.sub(r"\w+$", "", word.strip()) for word in re.split(r",\s*", words)]
        assert re.findall(r"::([^,\s]+)", arguments) == [IN_JULIA[each] for each in due], name
        assert returned == IN_JULIA[kind], name


# What people copy: the header for C++ and the module for Rust

IN_CPP = """
#include "pfs.hpp"
#include "pfs.hpp"
#include <cstdio>
#include <type_traits>

static_assert(!std::is_copy_constructible<pfs::Instance>::value, "two structs with one instance");
static_assert(std::is_nothrow_move_constructible<pfs::Instance>::value, "");

int main() {
    pfs::List times(20 * 5);
    pfs::check(pfs_generate(20, 5, 873654221, times.data(), times.size()));
    pfs::Instance first(times, 20, 5);
    pfs::Instance other(std::move(first)), shop(pfs::List{7}, 1, 1);
    first = pfs::Instance(pfs::List{7}, 1, 1);
    std::swap(other, shop);
    pfs::Solution found = shop.neh();
    std::printf("%llu %llu", (unsigned long long)shop.bound(), (unsigned long long)found.makespan);
    pfs_rounds_options options{1, 4, 0, 20, 1};
    found = shop.rounds(options, found.order);
    std::printf(" %llu %d", (unsigned long long)found.makespan, (int)(shop.makespan(found.order) == found.makespan));
    std::uint32_t job = found.order.back();
    found.order.pop_back();
    pfs::Place place = shop.insert(found.order, job);
    std::printf(" %llu %llu\\n", (unsigned long long)place.makespan, (unsigned long long)shop.makespan(pfs::List{}));
    try {
        shop.makespan(pfs::List{1, 1});
    } catch (const pfs::Fault& fault) {
        std::printf("%d %s\\n", fault.number, fault.what());
    }
    try {
        pfs::Instance wrong(times, 20, 4);
    } catch (const std::exception& fault) {
        std::printf("%s\\n", fault.what());
    }
}
"""
IN_RUST = """
#[path = "PATH"]
mod pfs;

fn main() -> Result<(), Box<dyn std::error::Error>> {
    let times: Vec<u32> = vec![TIMES];
    let mut shop = pfs::Instance::new(&times, 20, 5)?;
    let (mut order, neh) = shop.neh()?;
    let bound = shop.bound()?;
    let options = pfs::Options { seed: 1, take: 4, first: 0, count: 20, passes: 1 };
    let found = std::thread::scope(|scope| scope.spawn(|| shop.rounds(&options, &mut order)).join().unwrap())?;
    let same = u8::from(shop.makespan(&order)? == found);
    let job = order.pop().unwrap();
    let (_, again) = shop.insert(&order, job)?;
    println!("{bound} {neh} {found} {same} {again} {}", shop.makespan(&[])?);
    let fault = shop.makespan(&[1, 1]).unwrap_err();
    println!("{} {fault}", fault.0);
    println!("{}", pfs::Instance::new(&times, 20, 4).err().unwrap());
    Ok(())
}
"""


def expected() -> str:
    shop = generated(20, 5, SEED)
    order = second_program.by_totals(shop)
    neh, random = second_program.makespan(shop, order), second_program.Pcg32(1)
    for _ in range(20):
        order = second_program.after_round(shop, order, [random.next_word() for _ in range(4)], 1)
    found = second_program.makespan(shop, order)
    again = second_program.makespan(shop, second_program.inserted(shop, order[:-1], order[-1]))
    return (f"{second_program.lower_bound(shop)} {neh} {found} 1 {again} 0\n6 a job occurs twice\n"
            "a list doesn't have the length that the sizes require\n")


@pytest.mark.parametrize("standard", ["c++17", "c++20"])
@pytest.mark.parametrize("compiler", ["g++", "clang++"])
def test_the_header_for_cpp(standard: str, compiler: str, libpfs: Library, folder: pathlib.Path) -> None:
    (folder / "a.cpp").write_text(IN_CPP)
    compile_quietly([tool(compiler), f"-std={standard}", "-O1", "-Wall", "-Wextra", "-pedantic", "-Werror",
                     f"-I{EXAMPLES}", f"-I{HEADER.parent}", "-o", folder / "a", folder / "a.cpp", libpfs.path,
                     f"-Wl,-rpath,{libpfs.path.parent}"])
    assert output_of([folder / "a"], folder) == expected()


def test_the_module_for_rust(libpfs: Library, folder: pathlib.Path) -> None:
    times = ", ".join(str(row[job]) for shop in [generated(20, 5, SEED)] for job in range(20) for row in shop.times)
    (folder / "a.rs").write_text(IN_RUST.replace("PATH", str(EXAMPLES / "pfs.rs")).replace("TIMES", times))
    (folder / "libpfs.so").symlink_to(libpfs.path)
    compile_quietly([tool("rustc"), "--edition", "2021", "-D", "warnings", "-L", folder, "-o", folder / "a",
                     folder / "a.rs"])
    assert output_of([folder / "a"], folder, env={"LD_LIBRARY_PATH": str(libpfs.path.parent)}) == expected()
