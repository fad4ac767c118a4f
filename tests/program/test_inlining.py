"""Computations over a bench are inlined where the bench is a value, so that its count stays in a register. In a
function that is called, each cell of a table would read and write the count in memory. The loops of a wavefront are
separate functions, whose loops call nothing."""
import re
import subprocess

import pytest
from support.needs import tool
from support.program import Program


# Functions that compute no cell: the choice of the jobs to remove, the ranking, and the whole search, which has its
# bench as a value.
WITHOUT_CELLS = {"greedy::take_jobs", "rankings::rank_jobs", "rankings::sort_jobs", "solution::solve"}


@pytest.mark.parametrize("module", ["pfs_audit::recurrence", "pfs_base::metered", "pfs_insert", "pfs_search"])
def test_no_function_of_this_module_is_called(pfs: Program, module: str) -> None:
    """Except those that compute no cell or free memory. A program without symbols, as in a package, can't be tested and
    passes."""
    done = subprocess.run([tool("nm"), pfs.path], capture_output=True, text=True, check=True)
    called = set(re.findall(rf" {module}::(.+?)(?:::<.*)?$", done.stdout, re.MULTILINE))
    assert {name for name in called - WITHOUT_CELLS if not name.endswith("+Destruct::drop")} == set()


# The loops, and how many instances of each the program has. There are seven numbers of vectors, and two sizes of stored
# times. Passes have lanes of 16 and 32 bits for times of 16, and of 32 and 64 for times of 32.
LOOPS = {"times::fill_times": 14, "tails::fill_tails": 28, "sums::fill_sums": 28}


def calls(body: str) -> list[tuple[str, bool]]:
    """The calls of a function, and whether a jump back leads from behind each to before it, as in a loop."""
    lines = [(int(at, 16), text) for at, text in re.findall(r"^ *([0-9a-f]+):\t(.+)$", body, re.MULTILINE)]
    jumps = [(at, int(to[1], 16)) for at, text in lines if (to := re.match(r"j\w+ +([0-9a-f]+) ", text))]
    return [(text, any(to <= call < at for at, to in jumps)) for call, text in lines if text.startswith("call")]


@pytest.mark.parametrize("loop", LOOPS)
def test_a_loop_of_a_wavefront_calls_nothing(pfs: Program, loop: str) -> None:
    """Before its loop a function clears long arrays of vectors by `memset`, and copies them by `memcpy`. A program
    without symbols, as in a package, can't be tested and passes."""
    words = [tool("objdump"), "--disassemble", "--no-show-raw-insn", str(pfs.path)]
    done = subprocess.run(words, capture_output=True, text=True, check=True)
    functions = re.findall(rf"^[0-9a-f]+ <pfs_wave::{loop}\b.*>:\n((?:.+\n)+)", done.stdout, re.MULTILINE)
    assert len(functions) == LOOPS[loop] or "<pfs_" not in done.stdout
    for body in functions:
        for call, again in calls(body):
            assert not again and call.endswith(("<memset@plt>", "<memcpy@plt>")), call
