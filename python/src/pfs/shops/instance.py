"""The class `Instance`."""
from __future__ import annotations

import hashlib
import html
import os
from collections.abc import Iterable
from ctypes import byref, c_size_t, c_uint64, create_string_buffer
from functools import partial
from typing import Any, NamedTuple

import numpy as np
import numpy.typing as npt

from pfs.base.atomic import atomic_write
from pfs.base.benchmarks import taillard_best, taillard_rows
from pfs.base.cells import html_table
from pfs.base.names import frame_names, is_frame, names_of
from pfs.base.units import CLOCK, amount
from pfs.binding import library as c
from pfs.binding.library import LENGTHS, SHORT, Prepared, quick_insert, quick_insertions, quick_makespan
from pfs.binding.validate import (BOOLS, MOST_UINT32, Order, array_copy, as_uint32, as_uint32_bytes, checked_int,
                                  checked_jobs, checked_order, checked_times, jobs_error, layout_number, wrong_job)
from pfs.schedules.schedule import Schedule
from pfs.shops.proof import MOST, proved, solve_and_prove
from pfs.shops.proof_file import ProofFile
from pfs.shops.search import Event, Progress, Search, limit_of, number_of, rule_of, stop_of
from pfs.shops.solution import Interrupted, Jobs, Sequence, Solution, as_order

# The most threads of a proof.
MOST_THREADS = 1_000
# Three times as fast as calling the class of a named tuple.
_new_tuple = tuple.__new__


class Place(NamedTuple):
    """A place for a job, and the makespan with the job there."""

    place: int
    makespan: int


class Check(NamedTuple):
    """The verdict on an order.

    Attributes
    ----------
    valid : bool
        Whether it is an order of all jobs, with the stated makespan.
    makespan : int or None
        Its makespan, or None if it isn't an order of all jobs.
    bound : int
        The lower bound of the instance. An order with this makespan is optimal.
    fault : str
        What is wrong, or an empty text.
    """

    valid: bool
    makespan: int | None
    bound: int
    fault: str


def generated(jobs: int, machines: int, seed: int) -> npt.NDArray[np.uint32]:
    """Return the times of an instance of Taillard's generator."""
    times = np.empty((jobs, machines), dtype=np.uint32)
    c.done(c.library.pfs_generate(jobs, machines, seed, times.ctypes.data, times.size))
    return times


class Instance:
    """A permutation flow shop: each job runs on machine 0, then on machine 1 and so on, and all machines run the jobs
    in the same order.

    Parameters
    ----------
    times : array_like
        The processing times, a row for each of 1 to 5,000 jobs and a column for each of 1 to 200 machines: whole
        numbers of 0 to 1,000,000,000. They are copied.
    name : str
        The name of the instance.
    job_names, machine_names : list of str, optional
        Names for schedules and charts. By default those of a pandas DataFrame are its index and columns, unless these
        count from 0.
    unit : str
        The unit of the times, such as ``"min"``. With ``"h:mm"`` they are minutes, and 90 is shown as 1:30.
    decimals : int
        The number of digits after the decimal point of each time in that unit, 0 to 9. With 1, a time of 25 is 2.5.
    seed, upper, lower : int
        The notes of a size line in Taillard's layout: the seed, an upper and a lower bound. :meth:`rpd` uses ``upper``.

    Attributes
    ----------
    times : numpy.ndarray
        The times, a read-only array of int64 and of shape (jobs, machines).
    jobs, machines : int
        The number of jobs and of machines, also as ``n_jobs`` and ``n_machines``.

    Raises
    ------
    TypeError, ValueError
        If an argument is of the wrong type or shape, or out of range. Methods raise them too for an argument that isn't
        as described, such as a list in which a job occurs twice. The message says which argument or element is wrong.

    Examples
    --------
    Jobs, machines and places count from 0.

    >>> shop = pfs.Instance([[3, 2], [2, 5], [4, 1]])
    >>> shop.makespan([0, 1, 2])
    11
    >>> shop.neh()
    Solution(order=[1, 0, 2], makespan=10)
    >>> shop.bound()
    10
    >>> shop.heads([1, 0]).tolist(), shop.tails([1, 0]).tolist()
    ([[2, 7], [5, 9]], [[9, 7], [5, 2]])
    """

    __slots__ = ("name", "job_names", "machine_names", "unit", "decimals", "seed", "upper", "lower", "_times",
                 "_data", "_prepared")

    def __init__(self, times: npt.ArrayLike, *, name: str = "", job_names: Iterable[str] | None = None,
                 machine_names: Iterable[str] | None = None, unit: str = "", decimals: int = 0, seed: int = 0,
                 upper: int = 0, lower: int = 0) -> None:
        own = checked_times(times)
        if is_frame(times):
            job_names = frame_names(times, "index") if job_names is None else job_names
            machine_names = frame_names(times, "columns") if machine_names is None else machine_names
        # An array over `bytes` can't be made writable.
        self._data = own.tobytes()
        self._times: Order = np.frombuffer(own.astype(np.int64).tobytes(), dtype=np.int64).reshape(own.shape)
        # What the library has prepared: one from the first call on, and as many as there were calls at once.
        self._prepared: list[Prepared] = []
        self.name = str(name)
        self.job_names = names_of(job_names, self.jobs, "job_names")
        self.machine_names = names_of(machine_names, self.machines, "machine_names")
        self.unit = str(unit)
        self.decimals = checked_int(decimals, "decimals", 0, 9)
        if self.unit == CLOCK and self.decimals:
            raise ValueError(f"decimals must be 0, not {self.decimals}: times with the unit {CLOCK!r} are minutes")
        self.seed = checked_int(seed, "seed", 0, c.MOST_NOTE)
        self.upper = checked_int(upper, "upper", 0, c.MOST_NOTE)
        self.lower = checked_int(lower, "lower", 0, c.MOST_NOTE)

    @property
    def times(self) -> Order:
        """The times, a read-only array of int64."""
        return self._times

    @property
    def jobs(self) -> int:
        """The number of jobs."""
        return self._times.shape[0]

    @property
    def machines(self) -> int:
        """The number of machines."""
        return self._times.shape[1]

    @property
    def n_jobs(self) -> int:
        """The same as ``jobs``."""
        return self.jobs

    @property
    def n_machines(self) -> int:
        """The same as ``machines``."""
        return self.machines

    @property
    def best(self) -> Solution | None:
        """The shortest order known to pfs of one of Taillard's instances, with a proved bound; None for another
        instance. An instance is Taillard's if its seed is, and its times. ``optimal`` says whether the order is proved
        optimal. The makespan is computed here."""
        known = taillard_best().get(taillard_name(self))
        if known is None:
            return None
        order = [int(job) - 1 for job in known.order.split()]
        best = Solution(order, self.makespan(order), 0, self.machines)
        best.bound = int(known.bound)
        return best

    def __repr__(self) -> str:
        return f"<Instance {self.name + ': ' if self.name else ''}{self.jobs} jobs, {self.machines} machines>"

    def _repr_html_(self) -> str:
        """Return the times as a table for Jupyter, of at most 20 jobs and 20 machines."""
        machines = [*range(self.machines)][:20]
        rows = [["", *map(self.machine_name, machines)]] + [
            [self.job_name(job), *(amount(int(self.times[job, machine]), self.decimals, self.unit)
                                   for machine in machines)] for job in range(min(self.jobs, 20))]
        return f"<p>{html.escape(repr(self)[1:-1])}</p>{html_table(rows)}"

    def _metadata(self) -> dict[str, Any]:
        return {name: getattr(self, name) for name in self.__slots__ if name[0] != "_"}

    def __eq__(self, other: object) -> bool:
        if not isinstance(other, Instance):
            return NotImplemented
        return self._key() == other._key() and self._metadata() == other._metadata()

    def __hash__(self) -> int:
        return hash(self._key())

    def _key(self) -> tuple[bytes, tuple[int, ...]]:
        return self._data, self._times.shape

    def __reduce__(self) -> tuple[Any, ...]:
        return partial(Instance, **self._metadata()), (np.array(self.times),)

    def _taken(self) -> Prepared:
        """Return what the library has prepared in this process and no other call uses, or prepare the instance again. A
        call appends it to the list again when it is done. So threads neither wait for each other nor share one."""
        try:
            while not (prepared := self._prepared.pop()).is_own():
                """It was made before a fork."""
        except IndexError:
            prepared = Prepared(self._data, self.jobs, self.machines)
        return prepared

    def _call(self, name: str, *arguments: Any) -> int:
        """Call a function of the library on the prepared instance, and return its number."""
        prepared = self._taken()
        number: int = getattr(c.library, name)(prepared.address, *arguments)
        self._prepared.append(prepared)
        return number

    def job_name(self, job: int) -> str:
        """The name of a job, or its number, counted from 0, if jobs have no names."""
        return str(job) if self.job_names is None else self.job_names[job]

    def machine_name(self, machine: int) -> str:
        """The name of a machine, or its number, counted from 0, if machines have no names."""
        return str(machine) if self.machine_names is None else self.machine_names[machine]

    def makespan(self, order: Jobs) -> int:
        """Return the time at which the last job of an order of all jobs, or of a partial sequence, leaves the last
        machine. The distinct jobs are given by number from 0 or by name. The makespan of an empty sequence is 0."""
        jobs, count = as_uint32_bytes(order, "order", self.job_names)
        prepared = self._taken()
        number = quick_makespan(prepared.address, jobs, LENGTHS[count] if count < SHORT else c_size_t(count),
                                prepared.to_makespan)
        makespan: int = prepared.makespan.value
        self._prepared.append(prepared)
        if number:
            raise jobs_error(number, self.jobs, jobs)
        return makespan

    def check(self, order: Jobs, stated: int | None = None) -> Check:
        """Return the verdict on an order and its stated makespan, as ``pfs check`` does.

        Parameters
        ----------
        order : array_like or Solution
            Jobs, by number from 0 or by name.
        stated : int, optional
            The makespan to check. By default it is that of a `Solution` or `Sequence`, and otherwise only the order is
            checked.

        Examples
        --------
        >>> shop = pfs.Instance([[3, 2], [2, 5], [4, 1]])
        >>> shop.check([1, 0, 2], 10)
        Check(valid=True, makespan=10, bound=10, fault='')
        >>> shop.check([1, 0, 2], 9).fault, shop.check([1, 0], 10).fault
        ('states 9, takes 10', 'order has 2 jobs, but the instance has 3')
        """
        if stated is None and isinstance(order, (Solution, Sequence)):
            stated = order.makespan
        own = None if stated is None else checked_int(stated, "stated", 0, 2**64 - 1)
        bound = self.bound()
        try:
            jobs = checked_order(as_order(order, self), self.jobs, "order", self.job_names)
            makespan = self.makespan(np.frombuffer(jobs, dtype=np.uint32))
        except ValueError as error:
            return Check(False, None, bound, str(error))
        valid = own in (None, makespan)
        return Check(valid, makespan, bound, "" if valid else f"states {own}, takes {makespan}")

    def bound(self, method: str = "machines") -> int:
        """Return a lower bound on the makespan of all orders.

        Parameters
        ----------
        method : str
            ``"machines"``: the greatest of the jobs' total times and of the machine-based bounds, each of which is the
            load of a machine with the least times before and after it (Taillard 1993). It is proved.

            ``"pairs"``: the greatest of that bound and of the two-machine bounds of all pairs of machines (Johnson
            1954, Mitten 1959; Lageweg, Lenstra and Rinnooy Kan 1978). That no order is below it is proved.

        Examples
        --------
        >>> shop = pfs.taillard(51)
        >>> shop.bound(), shop.bound("pairs")
        (3480, 3527)
        """
        if not isinstance(method, str) or method not in ("machines", "pairs"):
            kind = ValueError if isinstance(method, str) else TypeError
            raise kind(f"method must be 'machines' or 'pairs', not {method!r}")
        bound = c_uint64()
        c.done(self._call("pfs_bound" if method == "machines" else "pfs_pairs_bound", byref(bound)))
        return bound.value

    def rpd(self, makespan: int | Solution | Sequence, reference: int | None = None) -> float:
        """Return the relative percentage deviation of a makespan from a reference,
        ``100 * (makespan - reference) / reference``.

        Parameters
        ----------
        makespan : int, Solution or Sequence
            0 or more.
        reference : int, optional
            A makespan of 1 or more. The default is ``upper``, which is the best known makespan of an instance of
            :func:`pfs.taillard`; if that is 0, a reference is needed.

        Examples
        --------
        >>> shop = pfs.taillard(1)
        >>> round(shop.rpd(shop.neh()), 2)
        0.63
        """
        own = checked_int(getattr(makespan, "makespan", makespan), "makespan", 0, 2**64 - 1)
        if reference is None and self.upper == 0:
            raise ValueError("rpd needs a reference, since `upper` of the instance is 0")
        base = self.upper if reference is None else checked_int(reference, "reference", 1, 2**64 - 1)
        return 100 * (own - base) / base

    def neh(self) -> Solution:
        """Return the order of NEH (Nawaz, Enscore and Ham 1983), which ``pfs solve`` prints without rounds.

        NEH sorts the jobs by decreasing total time and inserts each at its best place, the first of equally good ones.
        """
        return Search(self, None, 0, None, 0, 0).solution()

    def best_place(self, sequence: Jobs, job: int, *, ties: str = "first") -> Place:
        """Return the place with the least makespan for a job in a partial sequence, and that makespan.

        Parameters
        ----------
        sequence : array_like
            Distinct jobs, counted from 0.
        job : int
            The job, which isn't in the sequence. ``sequence.insert(place, job)`` inserts it.
        ties : str
            Which of equally good places is the best one: ``"first"``, or ``"idle"``, the first of those with the least
            total delay, as for :meth:`solve`.

        Examples
        --------
        >>> shop = pfs.Instance([[3, 2], [2, 5], [4, 1]])
        >>> shop.best_place([0, 2], 1), shop.best_place([], 1, ties="idle")
        (Place(place=0, makespan=10), Place(place=0, makespan=7))
        """
        jobs, count = as_uint32_bytes(sequence, "sequence")
        if type(job) is not int or not 0 <= job < self.jobs:
            job = checked_int(job, "job", 0, self.jobs - 1)
        if ties != "first":
            return self._place_by(rule_of(ties), jobs, count, job)
        prepared = self._taken()
        number = quick_insert(prepared.address, jobs, LENGTHS[count] if count < SHORT else c_size_t(count), job,
                              prepared.to_place, prepared.to_makespan)
        best = _new_tuple(Place, (prepared.place.value, prepared.makespan.value))
        self._prepared.append(prepared)
        if number:
            raise self._insertion_error(number, jobs, np.uint32(job).tobytes())
        return best

    def _place_by(self, rule: int, jobs: bytes, count: int, job: int) -> Place:
        place, makespan = c_size_t(), c_uint64()
        number = self._call("pfs_insert_ties", rule, jobs, count, job, byref(place), byref(makespan))
        if number:
            raise self._insertion_error(number, jobs, np.uint32(job).tobytes())
        return Place(place.value, makespan.value)

    def places(self, sequence: Jobs, job: int) -> Order:
        """Return the makespans for all places of a job in a partial sequence, as an array of int64. Element ``p`` is
        the makespan after ``sequence.insert(p, job)``.

        Parameters
        ----------
        sequence, job : array_like, int
            As for :meth:`best_place`, which returns the first minimum.

        Examples
        --------
        >>> pfs.Instance([[3, 2], [2, 5], [4, 1]]).places([0, 2], 1)
        array([10, 11, 14])
        """
        jobs, count = as_uint32_bytes(sequence, "sequence")
        most = self.jobs
        if type(job) is not int or not 0 <= job < most:
            job = checked_int(job, "job", 0, most - 1)
        count = most if count > most else count
        long, room = ((LENGTHS[count], LENGTHS[count + 1]) if count < SHORT - 1 else
                      (c_size_t(count), c_size_t(count + 1)))
        prepared = self._taken()
        number = quick_insertions(prepared.address, jobs, long, job, prepared.to_spans, room)
        spans = prepared.spans[:count + 1].copy()
        self._prepared.append(prepared)
        if number:
            raise self._insertion_error(number, jobs, np.uint32(job).tobytes())
        return spans

    def heads(self, sequence: Jobs) -> Order:
        """Return the earliest end of each operation of a sequence of distinct jobs, counted from 0, as an array of
        int64 with a row for each job of the sequence, in its order, and a column for each machine."""
        return self._heads_tails(sequence)[0]

    def tails(self, sequence: Jobs) -> Order:
        """Return the longest path from the start of each operation to the end of a sequence, as an array like that of
        :meth:`heads`. The longest path through an operation is its head plus its tail minus its processing time. On a
        critical path that is the makespan (Taillard 1990)."""
        return self._heads_tails(sequence)[1]

    def _heads_tails(self, sequence: Jobs) -> tuple[Order, Order]:
        jobs, count = as_uint32_bytes(sequence, "sequence")
        shape = min(count, self.jobs + 1), self.machines
        heads, tails = np.empty(shape, dtype=np.int64), np.empty(shape, dtype=np.int64)
        number = self._call("pfs_heads_tails", jobs, shape[0], heads.ctypes.data, heads.size, tails.ctypes.data,
                            tails.size)
        if number:
            raise jobs_error(number, self.jobs, jobs, "sequence")
        return heads, tails

    def insert_all(self, sequence: Jobs, jobs: Jobs, *, ties: str = "first") -> Sequence:
        """Insert jobs into a partial sequence one after the other, each at its best place. Return the longer sequence.

        From an empty sequence and all jobs by decreasing total processing time, it finds the order of :meth:`neh`.

        Parameters
        ----------
        sequence : array_like
            Distinct jobs, counted from 0. It isn't changed.
        jobs : array_like
            The jobs to insert, in this order; they are distinct, and none is in the sequence.
        ties : str
            Which of equally good places is the best one, as for :meth:`best_place`.

        Examples
        --------
        >>> pfs.Instance([[3, 2], [2, 5], [4, 1]]).insert_all([2], [0, 1])
        Sequence(jobs=array([1, 0, 2]), makespan=10)
        """
        given, count = as_uint32_bytes(sequence, "sequence")
        more, many = as_uint32_bytes(jobs, "jobs")
        found = np.frombuffer(bytearray(given + bytes(len(more))), dtype=np.uint32)
        makespan = c_uint64()
        number = self._call("pfs_construct_ties", rule_of(ties), more, many, found.ctypes.data, found.size,
                            byref(makespan))
        if number:
            raise self._insertion_error(number, given, more)
        return Sequence(found.astype(np.int64), makespan.value)

    def local_search(self, sequence: Jobs, jobs: Jobs | None = None, *, passes: int | None = 1,
                     ties: str = "first") -> Sequence:
        """Improve a sequence of jobs: in a pass, each of some jobs is removed and inserted at its best place. Return
        the new sequence, which is never longer.

        Parameters
        ----------
        sequence : array_like
            Distinct jobs, counted from 0. It isn't changed.
        jobs : array_like, optional
            Distinct jobs of the sequence, in the order in which they are removed. By default all of them by their
            numbers, as in the passes of :meth:`solve`.
        passes : int or None
            The number of passes, 0 to 100. With None, passes end after one in which no job found a place with a shorter
            makespan, at the latest after 100.
        ties : str
            Which of equally good places is the best one, as for :meth:`best_place`.

        Examples
        --------
        >>> pfs.Instance([[3, 2], [2, 5], [4, 1]]).local_search([2, 1, 0])
        Sequence(jobs=array([1, 0, 2]), makespan=10)
        >>> shop = pfs.taillard(1)
        >>> shop.local_search(range(20), passes=None).makespan <= shop.local_search(range(20)).makespan
        True
        """
        # A call by a rule ends after a pass that gains nothing.
        rule = [rule_of(ties)] if ties != "first" or passes is None else []
        name = "pfs_local_search_ties" if rule else "pfs_local_search"
        counts = [c.MOST_PASSES] if passes is None else [1] * checked_int(passes, "passes", 0, c.MOST_PASSES) or [0]
        if jobs is None:
            jobs = np.sort(checked_jobs(sequence, "sequence"))
        given, _ = as_uint32_bytes(sequence, "sequence")
        moved, many = as_uint32_bytes(jobs, "jobs")
        found = np.frombuffer(bytearray(given), dtype=np.uint32)
        makespan = c_uint64()
        for count in counts:
            number = self._call(name, *rule, moved, many, count, found.ctypes.data, found.size, byref(makespan))
            if number:
                raise self._insertion_error(number, given, moved, is_in=False)
        return Sequence(found.astype(np.int64), makespan.value)

    def _insertion_error(self, number: int, given: bytes, moved: bytes, *, is_in: bool = True) -> Exception:
        """Return the exception for a sequence and jobs to insert or, without `is_in`, to move that the library rejects
        with this number. With `is_in` a job is wrong if it is in the sequence, otherwise if it isn't."""
        sequence = set(np.frombuffer(given, dtype=np.uint32).tolist())
        wrong = (ValueError(f"job {job} {'is already' if is_in else 'is not'} in the sequence")
                 for job in np.frombuffer(moved, dtype=np.uint32).tolist() if (job in sequence) == is_in)
        return (wrong_job(self.jobs, given, "sequence") or wrong_job(self.jobs, moved, "jobs") or next(wrong, None)
                or c.error_of(number))

    def makespans(self, orders: npt.ArrayLike) -> Order:
        """Return the makespans of many sequences of equal length, as an array of int64.

        Parameters
        ----------
        orders : array_like
            A row for each sequence, of distinct jobs, counted from 0: orders of all jobs, or partial sequences. Or a
            list of `Solution` or `Sequence`. An array of uint32 is fastest: others are converted.

        Examples
        --------
        >>> pfs.Instance([[3, 2], [2, 5], [4, 1]]).makespans([[0, 1, 2], [1, 0, 2]])
        array([11, 10])
        """
        rows: Any = orders
        if isinstance(orders, (list, tuple)):
            rows = [getattr(row, "order", getattr(row, "jobs", row)) for row in orders]
        own = array_copy(rows, "orders")
        if own.ndim != 2:
            raise ValueError(f"orders must have a row for each sequence of jobs, not the shape {own.shape}")
        jobs = as_uint32(own, MOST_UINT32, "orders", "row {}, place {}", "isn't a job: jobs count from 0")
        spans = np.empty(len(jobs), dtype=np.int64)
        number = self._call("pfs_makespans", jobs.ctypes.data, jobs.size, jobs.shape[1], spans.ctypes.data, spans.size)
        if number in (c.JOB, c.REPEATED):
            for row, sequence in enumerate(jobs):
                if self._call("pfs_makespan", sequence.tobytes(), len(sequence), byref(c_uint64())):
                    raise jobs_error(number, self.jobs, sequence.tobytes(), f"orders, row {row}")
        c.done(number)
        return spans

    def solve(self, rounds: int | None = None, *, method: str = "solve", take: int | None = None,
              passes: int | None = None, partial: int | None = None, ties: str | None = None,
              temperature: float | None = None, seed: int = 0, start: Jobs | None = None, first: int = 0,
              progress: Progress | None = None, time_limit: float | None = None, target: int | None = None,
              stop: Event | None = None, history: bool = False, hold: Jobs = (), move: Jobs | None = None,
              prove: float | None = None) -> Solution:
        """Improve an order by iterated greedy (Ruiz and Stützle 2007).

        A round removes ``take`` jobs, inserts each at its best place, and makes ``passes`` passes. In a pass each job
        in turn is removed and inserted at its best place. The same options give the same order on every machine.

        With the method ``"solve"`` the new order is kept unless its makespan is greater. The order that is found is the
        one that ``pfs solve`` prints. The method ``"iterated-greedy"`` finds shorter orders in the same time. It may
        continue from a longer order, with a probability that falls with its makespan, and keeps the best one. A round
        also makes passes over the jobs that are left when others are removed (Dubois-Lacoste, Pagnozzi and Stützle
        2017). Each pass has a random order, and passes end after one that gains nothing.

        Parameters
        ----------
        rounds : int, optional
            The number of rounds. ``first + rounds`` is at most 1,000,000. The default is 1,000; with a time limit the
            search runs until its end. Without ``rounds``, the search continues after round 1,000,000 of a seed with
            round 0 of a seed that is greater by 11400714819323198485 (modulo 2^64), which is then the ``seed`` of the
            solution.
        method : str
            ``"solve"`` or ``"iterated-greedy"``.
        take : int, optional
            The destruction size, 1 to the number of jobs. The default is 4, or 2 with ``"iterated-greedy"``. Never
            more jobs are removed than may move.
        passes : int, optional
            The number of passes per round, 0 to 100. The default is 0. With ``"iterated-greedy"`` it is the greatest
            number, and the default is 100.
        partial : int, optional
            Of ``"iterated-greedy"``, the greatest number of passes over the jobs that are left, 0 to 100 (default).
        ties : str, optional
            Of ``"iterated-greedy"``, which of equally good places is the best one: ``"idle"`` (default), the first of
            those that delay the following job least, summed over the machines (Fernandez-Viagas and Framinan 2014), or
            ``"first"``.
        temperature : float, optional
            Of ``"iterated-greedy"``, 0 to 1,000 (default: 0.5), in tenths of the mean processing time. At temperature
            *t*, an order that is longer by *d* is accepted with the probability exp(-d/t). One that is longer by
            200,000 or more never is.
        seed : int
            The seed of the random numbers, of 64 bits.
        start : array_like or Solution, optional
            The start order, by numbers or names of jobs. The default is the order of :meth:`neh`.
        first : int
            The number of the first round, counted from 0. Use it to continue an earlier search.
        progress : callable or tqdm, optional
            A function that is called about every tenth of a second with the number of rounds so far and the makespan.
            If it returns True, the search ends. Or a progress bar, or its class, whose ``update`` is called with the
            number of rounds since the last call.
        time_limit : float, optional
            The time limit in seconds. It is checked about every tenth of a second.
        target : int, optional
            The search ends after the first round with a makespan of at most ``target``. By default a search that only
            has a time limit ends at :meth:`bound`, and any other search makes all of its rounds.
        stop : threading.Event, optional
            The search ends when the event is set. It is checked about every tenth of a second.
        history : bool
            Record the round, the seconds and the makespan of each improvement in ``history`` of the solution, the start
            order first. To find the exact round of an improvement some rounds are repeated, so the search may take up
            to twice as long while it improves often. The seconds are interpolated.
        hold : array_like
            Jobs, by numbers or names, that have the first places in this order. The search moves none of them. The
            other jobs begin in the order of ``start``, or where they are best. With ``"solve"``, passes are then made
            as with ``"iterated-greedy"``, and its random numbers are used.
        move : array_like, optional
            The only jobs, by numbers or names, that rounds and passes move. The others keep their order. With
            ``"solve"`` it changes passes and random numbers as ``hold`` does.
        prove : float, optional
            After the search, try for this time in seconds to prove that its order is optimal, as :meth:`optimum` does.
            It needs a search without ``hold`` and ``move``.

        Returns
        -------
        Solution
            The best order. Its ``rounds`` is the number of the next round, and ``cells`` counts the cells of this call,
            but for those of rounds with ``"iterated-greedy"``, ``hold`` or ``move``.

        Raises
        ------
        TypeError, ValueError
            If an option is of the wrong type or out of range, or ``start`` isn't an order of all jobs or is a solution
            for another number of machines.
        Interrupted
            After Ctrl-C. Its ``solution`` is the best so far. To continue, call ``solve(.., start=stop.solution,
            first=stop.solution.rounds)`` with the rounds that are left, to the same result.
        Exception
            If ``progress`` raises it. Its attribute ``solution`` is the best so far.

        Examples
        --------
        >>> shop = pfs.taillard(1)
        >>> shop.solve(1000).makespan
        1278
        >>> half = shop.solve(500)
        >>> shop.solve(500, start=half, first=half.rounds).to_text() == shop.solve(1000).to_text()
        True
        >>> found = shop.solve(1000, target=1278, history=True)
        >>> found.rounds < 1000, found.history[-1].makespan
        (True, 1278)
        >>> shop.solve(100, hold=[7, 3]).order[:2]
        array([7, 3])
        >>> shop.solve(100, method="iterated-greedy", prove=10).optimal
        True
        """
        search = Search(self, start, first, take, passes, seed, hold, move, method=method, partial=partial, ties=ties,
                        temperature=temperature)
        seconds = limit_of(prove, "prove")
        if seconds is not None and (search.held or move is not None):
            raise ValueError("prove needs a search without hold and move")
        if type(history) not in BOOLS:
            raise TypeError(f"history must be True or False, not {history!r}")
        try:
            return solve_and_prove(search, rounds, progress, time_limit, target, stop, bool(history),
                                   prove=seconds or 0.0)
        except Interrupted:
            raise
        except KeyboardInterrupt:
            # A second interruption while the first one was being handled.
            raise Interrupted(search.solution()) from None

    def optimum(self, seconds: float | None = None, *, nodes: int | None = None, threads: int = 1,
                state: str | os.PathLike[str] | None = None, limit: int | None = None, start: Jobs | None = None,
                stop: Event | None = None) -> Solution:
        """Search for the shortest order, and for a proof that no order is shorter.

        A short search by :meth:`solve` is followed by the library's branch and bound from both ends of the order
        (Ladhari and Haouari 2005; Gmys, Mezmaz, Melab and Tuyttens 2020). Its bounds are proved. Instances of 20 jobs
        on 5 machines take a few milliseconds, many of 20 jobs on 10 machines a second. Beyond 256 jobs or 64 machines
        no proof is tried.

        Parameters
        ----------
        seconds : float, optional
            For how long the proof is tried: a second by default, or until it ends if there are ``nodes``. With
            ``float("inf")`` it is tried until it ends.
        nodes : int, optional
            The most nodes that are searched. With one thread, the same number of them finds and proves the same on
            every machine.
        threads : int
            The number of threads, 1 to 1,000.
        state : str or os.PathLike, optional
            A proof file. It is written twice a second and at the end. If it exists, the proof continues from there,
            with its order in place of a search; so the same call continues after an interruption, or if the process was
            killed. Once nothing is open, others can check it by ``pfs-experiments prove --verify``.
        limit : int, optional
            Only orders with a makespan below it are searched for. If there is none, ``bound`` is at least ``limit``: so
            a published makespan is proved optimal without its order.
        start : array_like or Solution, optional
            An order, by numbers or names of jobs, from which the proof begins in place of a search.
        stop : threading.Event, optional
            The search ends within a tenth of a second when the event is set.

        Returns
        -------
        Solution
            The best order. It has the makespan of its ``bound`` if it is ``optimal``. No order has a makespan below its
            ``bound``, and ``proof`` tells its nodes and how much is open.

        Raises
        ------
        TypeError, ValueError
            As for :meth:`solve`, or if the file is damaged, or of another instance, limit or version.
        OSError
            If the file can't be written, or another process uses it. Its ``solution`` is the best so far.
        Interrupted
            After Ctrl-C, within a tenth of a second. Its ``solution`` is the best so far.

        Examples
        --------
        >>> shop = pfs.taillard(1)
        >>> best = shop.optimum(10)
        >>> best.makespan, best.bound, best.optimal, shop.bound()
        (1278, 1278, True, 1232)
        >>> shop.optimum(limit=1278, start=shop.neh()).bound, best.proof.open
        (1278, 0)
        """
        usual = 1.0 if nodes is None else float("inf")
        span = usual if seconds is None else number_of(seconds, "seconds", 0, float("inf"), " seconds")
        budget = None if nodes is None else checked_int(nodes, "nodes", 0, MOST)
        count = checked_int(threads, "threads", 1, MOST_THREADS)
        below = None if limit is None else checked_int(limit, "limit", 0, MOST)
        is_stopped = stop_of(stop)
        with ProofFile(state, self, below) as file:
            proof = file.read()
            if proof is None or start is not None:
                proof = file.begin(self.solve(0 if start is not None else 100, method="iterated-greedy", start=start,
                                              stop=stop, time_limit=span, target=self.bound()))
            return proved(proof, span, is_stopped, budget, count, file.save)

    def schedule(self, order: Jobs) -> Schedule:
        """Return the schedule of an order of all jobs, by number from 0 or by name. Each operation starts as early as
        possible."""
        jobs = checked_order(as_order(order, self), self.jobs, "order", self.job_names)
        starts = np.empty((self.jobs, self.machines), dtype=np.int64)
        ends = np.empty_like(starts)
        number = self._call("pfs_table", jobs, self.jobs, starts.ctypes.data, starts.size, ends.ctypes.data, ends.size)
        if number:
            raise jobs_error(number, self.jobs, jobs)
        own = np.frombuffer(jobs, dtype=np.uint32).astype(np.int64)
        for result in (own, starts, ends):
            result.setflags(write=False)
        return Schedule(self, own, starts, ends)

    def to_text(self, layout: str = "taillard") -> str:
        """Return the text of a file in a layout, ``"taillard"`` or ``"orlib"``, as ``pfs convert`` prints it."""
        number = layout_number(layout)
        notes = c.Notes(self.seed, self.upper, self.lower)
        length = c_size_t()
        text = create_string_buffer(256 + 16 * self.times.size + 8 * self.jobs)
        c.done(self._call("pfs_write", byref(notes), number, text, len(text), byref(length)))
        return text.raw[:length.value].decode()

    def write(self, path: str | os.PathLike[str], layout: str = "taillard") -> None:
        """Write an instance file with one block. An existing file is replaced atomically.

        Parameters
        ----------
        path, layout : str or os.PathLike, str
            The file, and the layout as for :meth:`to_text`.
        """
        atomic_write(path, self.to_text(layout).encode())


def digest_of(shop: Instance) -> str:
    """Return what tells a table from others: a digest of its times, the names of its jobs and machines, and its unit.
    Without names and a unit it is that of the times alone."""
    names = shop.job_names, shop.machine_names, shop.unit, shop.decimals
    text = repr(shop.times.shape).encode() + shop._data + (repr(names).encode() if any(names) else b"")
    return hashlib.sha256(text).hexdigest()


def taillard_name(shop: Instance) -> str:
    """Return the name of Taillard's instance that has the seed and the times of this one, or an empty text."""
    for name, *sizes_and_seed, _, _ in taillard_rows():
        if sizes_and_seed == [shop.jobs, shop.machines, shop.seed]:
            return name * bool((generated(*sizes_and_seed) == shop.times).all())
    return ""
