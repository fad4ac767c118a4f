"""Functions over any bench that must not compile, and why. A function over any bench computes with times only by calls
of the bench, which counts them: it can't add lengths, take a length or a time for a number, or copy the bench. A
function over a bench of lanes can't read them, nor make a permit. A function that has its sum from the bench is in
`crates/pfs_tests`, where it is proved."""
import pathlib
import re
import shutil
import subprocess
from collections.abc import Iterable

import pytest
from support.tools import with_path, write_script

pytestmark = [pytest.mark.long, pytest.mark.seconds(20), pytest.mark.xdist_group("bench")]
# The crates that functions over a bench use.
BELOW = ["pfs_base", "pfs_order", "pfs_audit", "pfs_insert", "pfs_wave"]
# The functions, each with its error.
REFUSED = {
    "pub fn sum<B: Bench>(_bench: &mut B, a: B::Span, b: B::Span) -> B::Span { a + b }":
        "error[invalid-operand-type]: `+` cannot be applied to `<B as Bench>::Span`",
    "pub fn number<B: Bench>(_bench: &B, a: B::Span) -> u64 { u64::from(a) }":
        "error[unsatisfied-bound]: the trait bound `u64: From<<B as Bench>::Span>` is not satisfied",
    "pub fn revealed<B: Bench>(bench: &B, a: B::Span) -> u64 { bench.reveal(a) }":
        "error[unknown-method]: no method named `reveal` found for type `B`",
    "pub fn time<B: Bench>(bench: &B) -> u32 { bench.times[0] }":
        "error[unknown-field]: no field `times` on type `&B`",
    "pub fn copied<B: Bench>(bench: &B) -> B { *bench }":
        "error[move-out-of-place]: cannot move out of `*bench` which is behind a shared reference",
    "pub fn cloned<B: Bench>(bench: &B) -> Result<B, std::alloc::AllocError> { Clone::clone(bench) }":
        "error[unsatisfied-bound]: the trait bound `B: Clone` is not satisfied",
}
# The same over a bench of lanes.
REFUSED_LANES = {
    "pub fn tables<'a>(bench: &'a MeteredLanes<'a>) -> &'a pfs_wave::LaneTables { &bench.tables }":
        "error[private-field]: field `tables` of struct `MeteredLanes` is private",
    "pub fn permit(_bench: &MeteredLanes) -> pfs_base::Permit { pfs_base::Permit { cells: 1 } }":
        "error[private-field]: field `cells` of struct `Permit` is private",
}
# Functions over a permit, with errors that come only where no other has.
REFUSED_PERMITS = {
    "pub fn lost(permit: Permit) {}":
        "error[linear-value-let-go]: `permit` is let go where its block ends, and `Permit` is not `Drop`",
    "pub fn spent(permit: Permit) { permit.spend(); permit.spend(); }":
        "error[borrow-e0382]: use of moved value: `permit`",
}
LANES_HEAD = "//! A function over a bench of lanes.\nuse pfs_wave::MeteredLanes;\n\n"
PERMIT_HEAD = "//! A function over a permit.\nuse pfs_base::Permit;\n\n"

# The root file of a crate that has such functions, and a test, so that `rt try` compiles it.
ROOT = """//! Functions over any bench.
#![tactic(auto)]

%s
#[test]
fn compiles(_rt: HostRuntime) {}
"""

# A compilation that takes longer hangs.
MOST_SECONDS = 600


def errors_in(top: pathlib.Path, folder: pathlib.Path, modules: dict[str, str],
              below: list[str]) -> dict[str, list[str]]:
    """The errors of a crate that has these modules and uses these crates, by the modules."""
    for name in below:
        shutil.copytree(top / "crates" / name, folder / "crates" / name,
                        ignore=shutil.ignore_patterns("out", "must-fail"))
    lines = [line for line in (top / "crates.txt").read_text().splitlines() if line.partition(":")[0] in below]
    (folder / "crates.txt").write_text("\n".join([*lines, f"any_bench: {' '.join(below)}"]))
    crate = folder / "crates" / "any_bench"
    (crate / "src").mkdir(parents=True)
    (crate / "src" / "lib.rt").write_text(ROOT % "".join(f"pub mod {name};\n" for name in modules))
    for name, text in modules.items():
        (crate / "src" / f"{name}.rt").write_text(text)
    # By `sh` it would start a check of the sources at the same time, for a hint, which takes as long.
    write_script(folder / "shell" / "sh", "#!/bin/sh\n")
    done = subprocess.run(["rt", "try", "--test"], cwd=crate, env=with_path(folder / "shell"), timeout=MOST_SECONDS,
                          stdin=subprocess.DEVNULL, stdout=subprocess.PIPE, stderr=subprocess.STDOUT, text=True)
    found: dict[str, list[str]] = {name: [] for name in ("lib", *modules)}
    line = r"^src/(\w+)\.rt:[0-9:]* (error\[.*?)(?=: help: |: note: |$)"
    for module, error in re.findall(line, done.stdout, re.MULTILINE):
        found[module].append(error)
    return found


def modules_of(head: str, functions: Iterable[str]) -> dict[str, str]:
    """A module of each function, by its name."""
    return {name_of(function): f"{head}/// A function that is rejected.\n{function}\n" for function in functions}


def name_of(function: str) -> str:
    return str(re.findall(r"fn (\w+)", function)[0])


@pytest.fixture(scope="session")
def errors(top: pathlib.Path, tmp_path_factory: pytest.TempPathFactory) -> dict[str, list[str]]:
    """The errors of all functions over a bench, each in a module, by the modules."""
    proved = (top / "crates" / "pfs_tests" / "src" / "any_bench.rt").read_text()
    head = proved[:proved.index("\n/// ") + 1]
    modules = {"proved": proved} | modules_of(head, REFUSED) | modules_of(LANES_HEAD, REFUSED_LANES)
    return errors_in(top, tmp_path_factory.mktemp("refused"), modules, BELOW)


@pytest.mark.parametrize("name", ["proved", "lib"])
def test_a_sum_by_the_bench_has_no_error(errors: dict[str, list[str]], name: str) -> None:
    """Nor has the root file, so that the errors of the other modules are theirs."""
    assert errors[name] == []


@pytest.mark.parametrize(("function", "error"), [*REFUSED.items(), *REFUSED_LANES.items()])
def test_a_function_over_any_bench_is_rejected(errors: dict[str, list[str]], function: str, error: str) -> None:
    assert errors[name_of(function)] == [error]


@pytest.mark.parametrize(("function", "error"), REFUSED_PERMITS.items())
def test_a_permit_is_spent_once(top: pathlib.Path, tmp_path: pathlib.Path, function: str, error: str) -> None:
    found = errors_in(top, tmp_path, modules_of(PERMIT_HEAD, [function]), ["pfs_base"])
    assert found == {"lib": [], name_of(function): [error]}
