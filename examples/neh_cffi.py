"""NEH's order of three jobs on two machines, in Python by cffi over libpfs. The package pfs is the easier way."""
from cffi import FFI

ffi = FFI()
ffi.cdef("""
struct pfs_instance { void *at; };
int pfs_prepare(const uint32_t *times, size_t times_length, size_t jobs, size_t machines,
                struct pfs_instance *instance);
void pfs_release(struct pfs_instance *instance);
int pfs_neh(struct pfs_instance *instance, uint32_t *order, size_t order_length, uint64_t *makespan, uint64_t *cells);
const char *pfs_message(int number);
""")
lib = ffi.dlopen("libpfs.so.1")


def neh(times: list[int], jobs: int, machines: int) -> tuple[list[int], int]:
    """The order and its makespan."""
    order, makespan, cells = ffi.new("uint32_t[]", jobs), ffi.new("uint64_t *"), ffi.new("uint64_t *")
    instance = ffi.new("struct pfs_instance *")
    number = lib.pfs_prepare(ffi.new("uint32_t[]", times), len(times), jobs, machines, instance)
    number = number or lib.pfs_neh(instance, order, jobs, makespan, cells)
    lib.pfs_release(instance)
    if number:
        raise ValueError(ffi.string(lib.pfs_message(number)).decode())
    return list(order), makespan[0]


for times in ([3, 2, 2, 5, 4, 1], [3, 2, 2, 5, 4]):
    try:
        print("order {}, makespan {}".format(*neh(times, 3, 2)))
    except ValueError as error:
        print(error)
