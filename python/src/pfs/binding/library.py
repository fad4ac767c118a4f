"""The shared library, loaded with ctypes: the functions and constants of `pfs.h`.

A ctypes call releases the GIL, so other threads run during the call. Therefore its inputs are `bytes`, which are
immutable, its outputs are arrays that are allocated for the call, and no two calls at once use the same prepared
instance.
"""
from __future__ import annotations

import ctypes
import os
import pathlib
from ctypes import byref, c_char_p, c_int, c_size_t, c_uint32, c_uint64, c_void_p
from typing import Any, Final

import numpy as np

from pfs.base.version import VERSION
from pfs.binding import rounds

FILE = "libpfs.so.1"

# The limits of the library.
MOST_JOBS: Final = 5_000
MOST_MACHINES: Final = 200
LONGEST_TIME: Final = 1_000_000_000
MOST_ROUNDS: Final = rounds.MOST_ROUNDS
MOST_PASSES: Final = rounds.MOST_PASSES
MOST_BLOCKS: Final = 1_000
LONGEST_INPUT: Final = 67_108_864
LONGEST_ORDER_FILE: Final = 65_536
MOST_MAKESPAN: Final = 999_999_999_999_999_999
MOST_GENERATOR_SEED: Final = 2_147_483_646
MOST_NOTE: Final = 2**32 - 1
MOST_SEED: Final = 2**64 - 1

LAYOUTS: Final = {"taillard": 0, "orlib": 1}

# Return values of the functions.
OK: Final = 0
MEMORY: Final = 1
JOB: Final = 5
REPEATED: Final = 6
NO_BLOCK: Final = 20

NO_MEMORY: Final = "pfs: memory allocation failed"


class Notes(ctypes.Structure):
    """The numbers after the sizes on a size line of Taillard's layout."""
    _fields_ = [("seed", c_uint32), ("upper", c_uint32), ("lower", c_uint32)]


class Block(ctypes.Structure):
    """The sizes and the notes of a block of an instance file."""
    _fields_ = [("jobs", c_size_t), ("machines", c_size_t), ("notes", Notes)]


class Proof(ctypes.Structure):
    """The struct `pfs_proof`."""
    _fields_ = [(name, c_uint64) for name in ("limit", "nodes", "count", "makespan", "bound", "left")]


# The parameters of each function, an instance first where it works on one.
LIST = [c_void_p, c_size_t]
PROTOTYPES: Final[dict[str, list[type[Any]]]] = {
    "pfs_prepare": [*LIST, c_size_t, c_size_t, c_void_p],
    "pfs_release": [c_void_p],
    "pfs_sizes": [c_void_p, c_void_p, c_void_p],
    "pfs_faulty_job": [c_void_p, *LIST, c_void_p],
    "pfs_makespan": [c_void_p, *LIST, c_void_p],
    "pfs_makespans": [c_void_p, *LIST, c_size_t, *LIST],
    "pfs_bound": [c_void_p, c_void_p],
    "pfs_pairs_bound": [c_void_p, c_void_p],
    "pfs_table": [c_void_p, *LIST, *LIST, *LIST],
    "pfs_neh": [c_void_p, *LIST, c_void_p, c_void_p],
    "pfs_rounds": [c_void_p, c_void_p, *LIST, c_void_p, c_void_p],
    "pfs_iterate": [c_void_p, c_void_p, *LIST, c_void_p, *LIST, c_void_p],
    "pfs_prove": [c_void_p, *LIST, c_uint64, c_void_p, c_void_p, c_void_p],
    "pfs_prove_parts": [c_void_p, *LIST, *LIST, *LIST, c_void_p],
    "pfs_insert": [c_void_p, *LIST, c_uint32, c_void_p, c_void_p],
    "pfs_insert_ties": [c_void_p, c_uint32, *LIST, c_uint32, c_void_p, c_void_p],
    "pfs_insertions": [c_void_p, *LIST, c_uint32, *LIST],
    "pfs_heads_tails": [c_void_p, *LIST, *LIST, *LIST],
    "pfs_construct": [c_void_p, *LIST, *LIST, *LIST, c_void_p],
    "pfs_local_search": [c_void_p, *LIST, c_uint32, *LIST, c_void_p],
    "pfs_construct_ties": [c_void_p, c_uint32, *LIST, *LIST, c_void_p],
    "pfs_local_search_ties": [c_void_p, c_uint32, *LIST, c_uint32, *LIST, c_void_p],
    "pfs_write": [c_void_p, c_void_p, c_uint32, *LIST, c_void_p],
    "pfs_random": [c_uint64, c_uint64, *LIST],
    "pfs_generate": [c_size_t, c_size_t, c_uint64, *LIST],
    "pfs_read": [*LIST, c_uint32, c_size_t, c_void_p, *LIST, c_void_p],
    "pfs_read_order": [*LIST, *LIST, c_void_p, c_void_p, c_void_p, c_void_p],
    "pfs_write_order": [*LIST, c_size_t, c_uint64, *LIST, c_void_p],
}


def path_of_library() -> str:
    """Return the library to load: PFS_LIBRARY if it is set, else the one in the package, else the system's."""
    inside = pathlib.Path(__file__).parent.parent / FILE
    return os.environ.get("PFS_LIBRARY") or (str(inside) if inside.exists() else FILE)


def load(path: str) -> ctypes.CDLL:
    """Load the library at a path, and declare the types of its functions."""
    try:
        loaded = ctypes.CDLL(path)
        for name, parameters in PROTOTYPES.items():
            function = getattr(loaded, name)
            function.argtypes, function.restype = parameters, None if name == "pfs_release" else c_int
        loaded.pfs_version.argtypes, loaded.pfs_version.restype = [], c_char_p
        loaded.pfs_message.argtypes, loaded.pfs_message.restype = [c_int], c_char_p
    except (OSError, AttributeError) as error:
        hint = "PFS_LIBRARY names it" if "PFS_LIBRARY" in os.environ else f"set PFS_LIBRARY to the path of {FILE}"
        raise ImportError(f"pfs can't load its library {path} ({error}): {hint}") from None
    version: str = loaded.pfs_version().decode()
    if version.split(".")[0] != VERSION.split(".")[0]:
        raise ImportError(f"the library {path} has version {version}, but this package needs {VERSION}")
    return loaded


PATH = path_of_library()
library = load(PATH)
# The functions that methods call most often, without declared types, whose conversion takes longer than the call.
quick_makespan: Any = library["pfs_makespan"]
quick_insert: Any = library["pfs_insert"]
quick_insertions: Any = library["pfs_insertions"]
# The lengths of short lists, converted for such a call.
SHORT: Final = 257
LENGTHS: Final = [c_size_t.from_param(length) for length in range(SHORT)]


def error_of(number: int) -> Exception:
    """Return the exception for a return value, with the library's text."""
    return MemoryError(NO_MEMORY) if number == MEMORY else ValueError(library.pfs_message(number).decode())


def done(number: int) -> None:
    """Raise the exception for a return value, unless it is `OK`."""
    if number != OK:
        raise error_of(number)


class Handle(ctypes.Structure):
    """The struct `pfs_instance`."""
    _fields_ = [("at", c_void_p)]


class Prepared:
    """An instance that the library has prepared, with memory for the results of the calls that methods make most often.
    It is released when it is no longer used.

    A process may fork while another thread makes a call. So a forked process prepares its instances again, and does not
    touch the memory of the old ones."""

    # Counts the forks that led to this process, and the one in which this was made, once it can be released.
    forks, made = 0, -1

    def __init__(self, times: bytes, jobs: int, machines: int) -> None:
        self.handle, self.place, self.makespan = Handle(), c_size_t(), c_uint64()
        self.address, self.to_place, self.to_makespan = byref(self.handle), byref(self.place), byref(self.makespan)
        self.spans = np.empty(jobs + 1, dtype=np.int64)
        self.to_spans = c_void_p(self.spans.ctypes.data)
        self.made = Prepared.forks
        done(library.pfs_prepare(times, jobs * machines, jobs, machines, self.address))

    def is_own(self) -> bool:
        """Whether it was made in this process."""
        return self.made == self.forks

    def __del__(self, library: ctypes.CDLL = library) -> None:
        """Release it. When Python ends, the names of this module may be gone."""
        if self.is_own():
            library.pfs_release(self.address)


def forked() -> None:
    """Count a fork."""
    Prepared.forks += 1


os.register_at_fork(after_in_child=forked)
