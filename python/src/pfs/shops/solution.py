"""Orders with their makespans: what searches return, also when they are interrupted."""
from __future__ import annotations

import os
from ctypes import byref, c_size_t, create_string_buffer
from typing import TYPE_CHECKING, Any, NamedTuple, TypeAlias

import numpy as np
import numpy.typing as npt

from pfs.base.atomic import atomic_write
from pfs.base.cells import html_table
from pfs.binding import library as c
from pfs.binding.validate import Order, checked_int, checked_jobs, jobs_error

if TYPE_CHECKING:
    from pfs.shops.instance import Instance


class Improvement(NamedTuple):
    """A new best makespan of a search, and the round and the seconds after which it was found."""

    round: int
    seconds: float
    makespan: int


class Proved(NamedTuple):
    """How far a proof has come: its nodes, the processor seconds of all its calls, and how many parts are left to be
    searched, with their share of all orders. A proof that has ended has none left."""

    nodes: int
    seconds: float
    open: int
    share: float


class Solution:
    """An order of all jobs, with its makespan.

    Attributes
    ----------
    order : numpy.ndarray
        The jobs, counted from 0, as a read-only array.
    makespan : int
        The time at which the last job leaves the last machine. :func:`pfs.read_order` doesn't check it: it is the
        number that the file states.
    cells : int
        The number of table cells that the search computed. This measures its cost independently of the computer.
    machines : int
        The number of machines of the instance, or 0 if it is unknown (order files of version 1).
    rounds : int
        The number of the search's next round. To continue the search, call
        ``solve(.., start=solution, first=solution.rounds, seed=solution.seed)``.
    seed : int
        The seed of that round. A search that has only a time limit uses another seed after 1,000,000 rounds.
    bound : int
        No order of the instance has a makespan below it, as the library has proved, or 0 if nothing is known.
    optimal : bool
        Whether the makespan is the bound, so that no order is shorter. If it is False, this isn't known. It is False
        without a bound.
    current : numpy.ndarray or None
        The order from which a search with the method ``"iterated-greedy"`` continues, which may be a longer one.
    proof : Proved or None
        How far the proof has come, if one was tried: its ``nodes``, its processor ``seconds``, the number of the parts
        that are ``open``, and their ``share`` of all orders.
    history : tuple of Improvement
        The round, the seconds and the makespan of each improvement, if ``solve`` was called with ``history=True``, else
        empty. Comparisons ignore it, the bound, the proof and the current order.

    Examples
    --------
    >>> best = pfs.Instance([[3, 2], [2, 5], [4, 1]]).neh()
    >>> best
    Solution(order=[1, 0, 2], makespan=10)
    >>> print(best.to_text(), end="")
    order2 3 2
    2 1 3
    makespan 10
    """

    __slots__ = ("order", "makespan", "cells", "machines", "rounds", "seed", "history", "_bound", "proof", "current")

    def __init__(self, order: npt.ArrayLike, makespan: int, cells: int = 0, machines: int = 0, rounds: int = 0,
                 seed: int = 0) -> None:
        own = checked_jobs(order, "order").astype(np.int64)
        own.setflags(write=False)
        self.order: Order = own
        self.makespan = checked_int(makespan, "makespan", 0, 2**64 - 1)
        self.cells = checked_int(cells, "cells", 0, 2**64 - 1)
        self.machines = checked_int(machines, "machines", 0, c.MOST_MACHINES)
        self.rounds = checked_int(rounds, "rounds", 0, c.MOST_ROUNDS)
        self.seed = checked_int(seed, "seed", 0, c.MOST_SEED)
        self.history: tuple[Improvement, ...] = ()
        self._bound: int | None = None
        self.proof: Proved | None = None
        self.current: Order | None = None

    @property
    def bound(self) -> int:
        """No order has a makespan below it; 0 if nothing is known."""
        return self._bound or 0

    @bound.setter
    def bound(self, bound: int) -> None:
        self._bound = bound

    @property
    def optimal(self) -> bool:
        """Whether the makespan is the bound, so that no order is shorter."""
        return self.makespan == self._bound

    def __repr__(self) -> str:
        jobs = self.order.tolist()
        shown = ", ".join(map(str, jobs if len(jobs) <= 20 else [*jobs[:8], "...", *jobs[-8:]]))
        return f"Solution(order=[{shown}], makespan={self.makespan})"

    def _repr_html_(self) -> str:
        """Return a table for Jupyter."""
        known = {"makespan": f"{self.makespan}{', optimal' * self.optimal}",
                 **({"bound": str(self.bound)} if self.bound and not self.optimal else {}),
                 "order, from 0": " ".join(map(str, self.order.tolist()))}
        return html_table(([name, text] for name, text in known.items()))

    def _fields(self) -> tuple[list[int], int, int, int, int, int]:
        return self.order.tolist(), self.makespan, self.cells, self.machines, self.rounds, self.seed

    def __eq__(self, other: object) -> bool:
        if not isinstance(other, Solution):
            return NotImplemented
        return self._fields() == other._fields()

    def __hash__(self) -> int:
        return hash((self.order.tobytes(), self.makespan))

    def __reduce__(self) -> tuple[Any, ...]:
        return type(self), self._fields(), (None, {"history": self.history, "_bound": self._bound, "proof": self.proof,
                                                  "current": self.current})

    def to_text(self) -> str:
        """Return the text of an order file, as ``pfs solve`` prints it: of version 2, or of version 1 if ``machines``
        is unknown. In the file jobs count from 1.

        Raises
        ------
        ValueError
            If the order isn't one of all jobs, or the makespan has more than 18 digits.
        """
        jobs = self.order.astype(np.uint32).tobytes()
        count = len(self.order)
        text = create_string_buffer(6 * count + 64)
        length = c_size_t()
        number = c.library.pfs_write_order(jobs, count, self.machines, self.makespan, text, len(text), byref(length))
        if number in (c.JOB, c.REPEATED):
            raise jobs_error(number, count, jobs)
        c.done(number)
        return text.raw[:length.value].decode()

    def write(self, path: str | os.PathLike[str]) -> None:
        """Write an order file, which ``pfs check`` and :func:`pfs.read_order` read. An existing file is replaced
        atomically."""
        atomic_write(path, self.to_text().encode())


class Sequence(NamedTuple):
    """A sequence of jobs, an array of int64, and its makespan."""

    jobs: Order
    makespan: int


# An order, or a sequence of some of the jobs, counted from 0.
Jobs: TypeAlias = "npt.ArrayLike | Solution | Sequence"


class Interrupted(KeyboardInterrupt):
    """A search was interrupted, usually by Ctrl-C. It is a ``KeyboardInterrupt``.

    Attributes
    ----------
    solution : Solution
        The best order so far. Continue with ``solve(.., start=solution, first=solution.rounds)``.
    """

    def __init__(self, solution: Solution) -> None:
        self.solution = solution

    def __str__(self) -> str:
        return f"interrupted after round {self.solution.rounds}, makespan {self.solution.makespan}"


class InterruptedAll(KeyboardInterrupt):
    """The searches of :func:`pfs.solve_all` were interrupted, usually by Ctrl-C. It is a ``KeyboardInterrupt``.

    Attributes
    ----------
    found : dict
        The best solution so far for each ``(i, seed)``, where ``i`` is the index of an instance. The same call with
        ``found=stop.found`` runs the searches that are left.
    """

    def __init__(self, found: dict[tuple[int, int], Solution]) -> None:
        self.found = found

    def __str__(self) -> str:
        return f"interrupted after {len(self.found)} searches"


def as_order(given: Any, shop: Instance, what: str = "order") -> Any:
    """Return the order of a solution, or the argument itself if it isn't a solution. A solution for another number of
    machines is rejected."""
    if not isinstance(given, Solution):
        return given
    if given.machines not in (0, shop.machines):
        raise ValueError(f"{what} is an order for {given.machines} machines, but the instance has {shop.machines}")
    return given.order
