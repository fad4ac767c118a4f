"""The library for C: calls of its functions, and programs in C over it."""
import ctypes
import pathlib
import subprocess
from array import array
from collections.abc import Iterable, Sequence
from typing import NamedTuple

from support.needs import tool
from support.program import Program

SUPPORT = pathlib.Path(__file__).resolve().parent
HEADER = SUPPORT.parent.parent / "lib" / "pfs.h"

Words = list[str | pathlib.Path]


class Number(NamedTuple):
    """An argument that is a number of 32 or 64 bits. The length of a list may be changed to a smaller one only."""
    value: int
    bits: int = 64
    is_length: bool = False


class Memory(NamedTuple):
    """An argument that is a pointer to this memory, which the function may write."""
    content: bytes


class Answer(NamedTuple):
    """The number that a call returns, and the memory at each of its pointers after the call."""
    number: int
    memory: list[bytes]


def u32s(numbers: Iterable[int]) -> Memory:
    return Memory(array("I", numbers).tobytes())


def u64s(numbers: Iterable[int]) -> Memory:
    return Memory(array("Q", numbers).tobytes())


def list32(numbers: Sequence[int]) -> list[Number | Memory]:
    """A list of numbers of 32 bits, as pointer and length."""
    return [u32s(numbers), Number(len(numbers), is_length=True)]


def list64(numbers: Sequence[int]) -> list[Number | Memory]:
    return [u64s(numbers), Number(len(numbers), is_length=True)]


def text(content: bytes) -> list[Number | Memory]:
    """Bytes, as pointer and length."""
    return [Memory(content), Number(len(content), is_length=True)]


def read32(memory: bytes) -> list[int]:
    """The numbers of 32 bits in memory."""
    return array("I", memory).tolist()


def with_lists(options: ctypes.Array[ctypes.c_char], accept: ctypes.Array[ctypes.c_char],
               stay: ctypes.Array[ctypes.c_char], *lengths: int) -> ctypes.Array[ctypes.c_char]:
    """A `struct pfs_iterate_options` with these lists, from its fields before them."""
    numbers = array("Q", [ctypes.addressof(accept), lengths[0], ctypes.addressof(stay), lengths[1]])
    return ctypes.create_string_buffer(options.raw[:-1] + numbers.tobytes())


# The functions that work on a prepared instance.
ON_SHOP = {f"pfs_{name}" for name in (
    "sizes", "faulty_job", "makespan", "makespans", "bound", "pairs_bound", "table", "neh", "rounds", "iterate",
    "prove", "prove_parts", "insert", "insert_ties", "insertions", "heads_tails", "construct", "construct_ties",
    "local_search", "local_search_ties", "write")}


class Library:
    """A built library, whose functions are called in this process."""

    def __init__(self, path: pathlib.Path) -> None:
        self.path = path
        self.functions = ctypes.CDLL(str(path))
        # The instance of the calls, and the arguments from which it was prepared.
        self.instance = ctypes.c_void_p()
        self.prepared: Sequence[Number | Memory] = ()

    def call(self, name: str, *arguments: Number | Memory) -> Answer:
        """Calls a function with pointers to copies of the memory. One that works on an instance has the arguments of
        `pfs_prepare` first: the instance is prepared from them, unless it was for the call before."""
        buffers: list[ctypes.Array[ctypes.c_char]] = []
        given: list[object] = []
        for argument in arguments:
            if isinstance(argument, Memory):
                buffers.append(ctypes.create_string_buffer(argument.content))
                given.append(buffers[-1])
            else:
                given.append((ctypes.c_uint32 if argument.bits == 32 else ctypes.c_uint64)(argument.value))
        if name == "pfs_iterate":
            lengths = [argument.value for argument in arguments[6:9] if isinstance(argument, Number)]
            given[4:9] = [with_lists(buffers[1], buffers[2], buffers[3], *lengths)]
        number = self.on_instance(name, arguments[:4], given) if name in ON_SHOP else int(self.functions[name](*given))
        contents = [argument.content for argument in arguments if isinstance(argument, Memory)]
        return Answer(number, [buffer.raw[:len(content)] for buffer, content in zip(buffers, contents)])

    def on_instance(self, name: str, shop: Sequence[Number | Memory], given: list[object]) -> int:
        """The number of the call, or that of the preparation if it fails."""
        if shop != self.prepared:
            if number := int(self.functions["pfs_prepare"](*given[:4], ctypes.byref(self.instance))):
                return number
            self.prepared = shop
        return int(self.functions[name](ctypes.byref(self.instance), *given[4:]))


def compiled(program: pathlib.Path, sources: Words, libpfs: Library, *words: str, compiler: str = "gcc",
             is_static: bool = False) -> Program:
    """A program in C over the library, linked to the shared library where that is, or to the static one."""
    shared: Words = [f"-Wl,-rpath,{libpfs.path.parent}", libpfs.path]
    library: Words = [libpfs.path.with_name("libpfs.a")] if is_static else shared
    strict: Words = ["-std=c99", "-Wall", "-Wextra", "-pedantic", "-Werror", "-g", f"-I{HEADER.parent}"]
    compile_quietly([tool(compiler), *strict, *words, "-o", program, *sources, *library, "-pthread"])
    return Program(program)


def compile_quietly(words: Words) -> None:
    """Runs a compiler, which has to succeed without a warning."""
    done = subprocess.run(words, stdout=subprocess.PIPE, stderr=subprocess.STDOUT, text=True)
    assert (done.returncode, done.stdout) == (0, ""), words
