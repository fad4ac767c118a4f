"""The tests of values and of bad input run again. Once they run over a library that first touches all memory of a call,
and then calls the library that is tested: gcc's sanitizers end the process if a list is longer than the memory at its
pointer. And once numbers are promoted as by NumPy 2, where a limit takes the type of the array that it is compared
with; NumPy 1.24 has a switch for it."""
import os
import pathlib
import re
import subprocess
import sys
from collections.abc import Iterator

import numpy as np
import pytest
from pfs.binding import library as _library
from support.needs import tool
from support.tools import TOP

# so that the library that touches all memory is compiled once
pytestmark = pytest.mark.xdist_group("sanitizers")
FLAGS = "-g -O1 -fPIC -shared -fsanitize=address,undefined -fno-sanitize-recover=all".split()

HEAD = r"""
#include <dlfcn.h>
#include <stdlib.h>
#include "pfs.h"

#define REAL(name) ((__typeof__(&name))real(#name))

static void *real(const char *name) {
    void *function = dlsym(dlopen(getenv("PFS_TOUCHED"), RTLD_NOW | RTLD_LOCAL), name);
    if (function == NULL)
        abort();
    return function;
}

/* Reads each byte, and writes it back where a call writes. */
static void touch(const volatile void *memory, size_t size, int is_output) {
    volatile char *bytes = (volatile char *)memory;
    for (size_t at = 0; at < size; ++at) {
        char byte = bytes[at];
        if (is_output)
            bytes[at] = byte;
    }
}

const char *pfs_version(void) { return REAL(pfs_version)(); }
int pfs_version_number(void) { return REAL(pfs_version_number)(); }
const char *pfs_message(int number) { return REAL(pfs_message)(number); }
void pfs_release(struct pfs_instance *instance) { REAL(pfs_release)(instance); }
"""


def functions() -> Iterator[str]:
    """Each function that pfs.h declares, in C. A pointer without a length after it points to one value."""
    header = re.sub(r"/\*.*?\*/", "", (TOP / "lib" / "pfs.h").read_text(), flags=re.DOTALL)
    for name, parameters in re.findall(r"^int (pfs_\w+)\(([^)]*)\) PFS_CHECKED;", header, re.MULTILINE):
        each = parameters.split(",")
        names = re.findall(r"\w+(?=,|$)", parameters)
        touched = []
        for parameter, own, following in zip(each, names, [*names[1:], ""]):
            if "*" in parameter:
                length = following if following in (f"{own}_length", "room") else "1"
                touched.append(f"touch({own}, {length} * sizeof *{own}, {int('const' not in parameter)});")
        yield f"int {name}({parameters}) {{ {' '.join(touched)} return REAL({name})({', '.join(names)}); }}\n"


@pytest.fixture(scope="module")
def touching(tmp_path_factory: pytest.TempPathFactory) -> dict[str, str]:
    """The variables with which the package loads the library that touches all memory."""
    folder = tmp_path_factory.mktemp("touching")
    (folder / "touching.c").write_text(HEAD + "".join(functions()))
    library = folder / "libpfs.so.1"
    subprocess.run([tool("gcc"), *FLAGS, "-Wall", "-Werror", f"-I{TOP / 'lib'}", "-o", library, folder / "touching.c"],
                   check=True)
    asan = subprocess.run(["gcc", "-print-file-name=libasan.so"], capture_output=True, text=True).stdout.strip()
    return {"LD_PRELOAD": asan, "PYTHONMALLOC": "malloc", "ASAN_OPTIONS": "detect_leaks=0",
            "PFS_LIBRARY": str(library), "PFS_TOUCHED": str(pathlib.Path(_library.PATH).resolve())}


def ran(words: list[str], env: dict[str, str]) -> subprocess.CompletedProcess[str]:
    return subprocess.run([sys.executable, *words], cwd=TOP, capture_output=True, text=True, timeout=500,
                          env=os.environ | {"PYTHONDONTWRITEBYTECODE": "1"} | env)


def assert_passed_again(env: dict[str, str]) -> None:
    words = ["-m", "pytest", "-q", "-s", "-p", "no:cacheprovider", "-p", "no:xdist", "-x", "-o", "addopts=",
             "--hypothesis-profile=few"]
    done = ran([*words, "tests/python/test_validate.py", "tests/python/test_values.py"], env)
    assert done.returncode == 0, done.stdout + done.stderr


@pytest.mark.seconds(40)
def test_bad_input_under_the_sanitizers(touching: dict[str, str]) -> None:
    assert_passed_again(touching)


@pytest.mark.seconds(15)
@pytest.mark.skipif(np.lib.NumpyVersion(np.__version__) >= "2.0.0", reason="this is NumPy 2")
def test_the_rules_of_numpy_2() -> None:
    assert_passed_again({"NPY_PROMOTION_STATE": "weak"})


PLANTED = """
import ctypes
import numpy
from pfs.binding import library as _library
times = numpy.full({size}, 1, numpy.uint32)
handle = _library.Handle()
print(_library.library.pfs_prepare(times.ctypes.data, 200, 20, 10, ctypes.byref(handle)), flush=True)
"""


@pytest.mark.parametrize("size, is_found", [(200, False), (199, True)])
def test_the_sanitizers_find_a_list_that_is_too_short(touching: dict[str, str], size: int, is_found: bool) -> None:
    done = ran(["-c", PLANTED.format(size=size)], touching | {"PYTHONPATH": "python/src"})
    assert (done.stdout == "0\n", "heap-buffer-overflow" in done.stderr) == (not is_found, is_found), done
