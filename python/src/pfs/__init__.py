"""Permutation flow shops: makespans, bounds, NEH and iterated greedy.

Each job runs on machine 0, then on machine 1, and so on; all machines run the jobs in the same order. The makespan of
an order is the time at which its last job leaves the last machine.

Jobs, machines and places count from 0, as arrays do; in files jobs count from 1.

>>> import pfs
>>> shop = pfs.taillard(1)                      # or pfs.Instance(array), pfs.read("ta001", layout="taillard")
>>> best = shop.solve(1000)
>>> best.makespan, shop.bound()
(1278, 1232)

The library ``libpfs`` does the computing. Its results are proved correct for every input.
"""
from pfs.base.version import VERSION as __version__

# Not the one of typing: `__main__` has to be run before any other module is imported.
TYPE_CHECKING = False
if TYPE_CHECKING:
    from pfs.audits.audit import Audited, audit
    from pfs.base.faults import Fault, FileFault, OrderFault, TableFault
    from pfs.files.instances import from_frame, generate, parse_order, read, read_all, read_order, taillard
    from pfs.files.tables import read_csv
    from pfs.schedules.calendar import Calendar
    from pfs.schedules.report import Report
    from pfs.schedules.rest import Rest
    from pfs.schedules.schedule import Schedule
    from pfs.shops.instance import Check, Instance, Place
    from pfs.shops.many import solve_all
    from pfs.shops.solution import Improvement, Interrupted, InterruptedAll, Proved, Sequence, Solution
else:
    def __getattr__(name: str) -> object:
        """Import a name of the package at its first use: `pfs-gantt` and `pfs.experiments` need no library."""
        import importlib
        if name in __all__:
            for module in ("audits.audit", "base.faults", "files.instances", "files.tables", "schedules.calendar",
                           "schedules.report", "schedules.rest", "schedules.schedule", "shops.instance", "shops.many",
                           "shops.solution"):
                found = vars(importlib.import_module(f"pfs.{module}")).get(name)
                if getattr(found, "__module__", "") == f"pfs.{module}":
                    return globals().setdefault(name, found)
        raise AttributeError(f"module 'pfs' has no attribute {name!r}")

__all__ = [
    "Audited", "Calendar", "Check", "Fault", "FileFault", "Improvement", "Instance", "Interrupted",
    "InterruptedAll", "OrderFault", "Place", "Proved", "Report", "Rest", "Schedule", "Sequence", "Solution",
    "TableFault", "__version__", "audit", "from_frame", "generate", "parse_order", "read", "read_all", "read_csv",
    "read_order", "solve_all", "taillard",
]


def __dir__() -> list[str]:
    return sorted({*globals(), *__all__})
