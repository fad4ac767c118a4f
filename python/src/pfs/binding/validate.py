"""Validation of arguments. Each argument is copied first, and only the copy is checked and used, so a change from
another thread has no effect."""
from __future__ import annotations

import operator
from array import array
from typing import Any, TypeAlias

import numpy as np
import numpy.typing as npt

from pfs.binding import library as c

# Processing times: a row for each job and a column for each machine.
Times: TypeAlias = "npt.NDArray[np.uint32]"
Order: TypeAlias = "npt.NDArray[np.int64]"

UINT32, MOST_UINT32 = np.dtype(np.uint32), 2**32 - 1
# Python and NumPy treat booleans as numbers. Here they are rejected.
BOOLS = {bool, np.bool_}
# For arrays up to this size, a conversion by way of a list is faster.
SMALL = 256


def checked_int(value: Any, name: str, least: int, most: int) -> int:
    """Return the value as an int, from `least` to `most`."""
    if type(value) in BOOLS:
        raise TypeError(f"{name} must be an integer, not {value!r}")
    try:
        number = operator.index(value)
    except TypeError:
        raise TypeError(f"{name} must be an integer, not {value!r}") from None
    if not least <= number <= most:
        raise ValueError(f"{name} must be from {least:,} to {most:,}, not {number}")
    return number


def layout_number(layout: Any, others: str = "") -> int:
    """Return the library's number of a layout. `others` are the layouts that the caller handles itself."""
    names = f"'taillard', 'orlib'{others}" if others else "'taillard' or 'orlib'"
    if not isinstance(layout, str) or layout not in c.LAYOUTS:
        raise (ValueError if isinstance(layout, str) else TypeError)(f"layout must be {names}, not {layout!r}")
    return c.LAYOUTS[layout]


def array_copy(given: Any, what: str) -> npt.NDArray[Any]:
    """Return a copy as an array."""
    rows = given if isinstance(given, (list, tuple)) else ()
    if any(isinstance(part, np.ma.MaskedArray) for part in (given, *rows)):
        raise TypeError(f"{what} must not be a masked array: fill its missing values")
    if has_bools(given):
        raise TypeError(f"{what} must be whole numbers, not of dtype bool")
    try:
        return np.array(given, order="C", copy=True, subok=False)
    except ValueError as error:
        raise ValueError(f"{what} can't be converted to an array: {error}") from None


def has_bools(given: Any) -> bool:
    """Whether a list, or one of its rows, contains booleans. NumPy would convert them to 1 and 0."""
    if not isinstance(given, (list, tuple)):
        return False
    rows = [given, *(row for row in given if isinstance(row, (list, tuple)))]
    return any(not BOOLS.isdisjoint(map(type, row)) for row in rows)


def as_uint32(own: npt.NDArray[Any], most: int, what: str, where: str, limits: str) -> npt.NDArray[np.uint32]:
    """Return an array of integers, or of floats without a fraction, as uint32. Each number is 0 to `most`.

    In error messages, `where` is the format of an index, and `limits` follows a number that is out of range."""
    kind = own.dtype.kind
    if own.size == 0 or (own.dtype == UINT32 and most == MOST_UINT32):
        return own.astype(np.uint32, copy=False)
    if kind not in "iufO":
        raise TypeError(f"{what} must be whole numbers, not of dtype {own.dtype}")
    # The limits as Python's numbers: NumPy 2 would convert them to the array's type, which may be too narrow.
    if kind != "O" and own.min().item() >= 0 and own.max().item() <= most:
        if kind != "f" or (own == np.floor(own)).all():
            return own.astype(np.uint32, copy=False)
    fault: tuple[type[Exception], str] | None = None
    for at, number in np.ndenumerate(own):
        if kind == "O" and (not isinstance(number, (int, np.integer)) or isinstance(number, bool)):
            fault = TypeError, "isn't a whole number"
        elif kind == "f" and not (np.isfinite(number) and number == np.floor(number)):
            fault = ValueError, "isn't a whole number"
        elif not 0 <= (int.__int__(number) if isinstance(number, int) else number.item()) <= most:
            fault = ValueError, limits
        if fault:
            raise fault[0](f"{what}: {number!s} at {where.format(*at)} {fault[1]}")
    # Subclasses of int are converted to int, which is immutable.
    return np.array([int.__int__(number) if isinstance(number, int) else int(number) for number in own.flat],
                    dtype=np.uint32).reshape(own.shape)


def checked_times(given: Any) -> Times:
    """Return a copy of processing times, which have a row for each job."""
    own = array_copy(given, "times")
    if own.ndim != 2:
        raise ValueError(f"times must have a row for each job and a column for each machine, not the shape {own.shape}")
    jobs, machines = own.shape
    if not 1 <= jobs <= c.MOST_JOBS or not 1 <= machines <= c.MOST_MACHINES:
        raise ValueError(f"times has {jobs:,} jobs and {machines:,} machines, but an instance has 1 to "
                         f"{c.MOST_JOBS:,} jobs and 1 to {c.MOST_MACHINES} machines")
    return as_uint32(own, c.LONGEST_TIME, "times", "job {}, machine {}", f"isn't from 0 to {c.LONGEST_TIME:,}")


def as_uint32_bytes(given: Any, what: str = "order", names: tuple[str, ...] | None = ()) -> tuple[bytes, int]:
    """Return jobs, given by number or by name, as the bytes of a uint32 array, and how many jobs there are. The library
    checks that each job is one of the instance. Without `names` jobs are given by number only."""
    kind = type(given)
    try:
        if kind is np.ndarray and given.ndim == 1:
            if given.dtype is UINT32:
                own: bytes = given.tobytes()
                return own, len(own) >> 2
            if given.size <= SMALL and given.dtype.kind in "iu":
                own = array("I", given.tolist()).tobytes()
                return own, len(own) >> 2
        elif (kind is list or kind is tuple) and BOOLS.isdisjoint(map(type, given)):
            own = array("I", given).tobytes()
            return own, len(own) >> 2
    except (TypeError, OverflowError):
        pass
    own = checked_jobs(jobs_by_name(given, what, names) if has_names(given) else given, what).tobytes()
    return own, len(own) >> 2


def has_names(given: Any) -> bool:
    """Whether a list contains names of jobs."""
    is_list = isinstance(given, (list, tuple)) or (isinstance(given, np.ndarray) and given.ndim == 1)
    return is_list and len(given) > 0 and isinstance(given[0], str)


def jobs_by_name(given: Any, what: str, names: tuple[str, ...] | None) -> list[int]:
    """Return the numbers of the jobs with these names."""
    if not names:
        why = "but the jobs of the instance have none" if names is None else "which this method doesn't take"
        raise TypeError(f"{what} has names, {why}: use numbers from 0")
    jobs = {name: job for job, name in enumerate(names)}
    for place, name in enumerate(given):
        if not isinstance(name, str):
            raise TypeError(f"{what}: {name!r} at place {place} isn't a name, but others are: use one or the other")
        if name not in jobs:
            raise ValueError(f"{what}: {str(name)!r} at place {place} isn't the name of a job")
    return [jobs[name] for name in given]


def checked_jobs(given: Any, what: str) -> npt.NDArray[np.uint32]:
    """Return a copy of a list of jobs."""
    if not isinstance(given, np.ndarray):  # a Solution has an order, and a Sequence has jobs
        given = getattr(given, "order", getattr(given, "jobs", given))
    own = array_copy(given, what)
    if own.ndim != 1:
        raise ValueError(f"{what} must be a list of jobs, not of the shape {own.shape}")
    return as_uint32(own, MOST_UINT32, what, "place {}", "isn't a job: jobs count from 0")


def jobs_error(number: int, jobs: int, own: bytes, what: str = "order") -> Exception:
    """Return the exception for a list of jobs that the library rejects with this number."""
    return wrong_job(jobs, own, what) or c.error_of(number)


def wrong_job(jobs: int, own: bytes, what: str) -> Exception | None:
    """Return the exception for the first job of a list that is none or that occurs twice."""
    places: dict[int, int] = {}
    for place, job in enumerate(np.frombuffer(own, dtype=np.uint32).tolist()):
        if job >= jobs:
            return ValueError(f"{what}: {job} at place {place} isn't a job: jobs are 0 to {jobs - 1}")
        if job in places:
            return ValueError(f"{what}: job {job} occurs twice, at places {places[job]} and {place}")
        places[job] = place
    return None


def checked_order(given: Any, jobs: int, what: str = "order", names: tuple[str, ...] | None = None) -> bytes:
    """Return an order of all jobs, given by number or by name, as the bytes of a uint32 array."""
    own, count = as_uint32_bytes(given, what, names)
    if count != jobs:
        raise ValueError(f"{what} has {count:,} jobs, but the instance has {jobs:,}")
    return own
