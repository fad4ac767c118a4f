"""Locks of state files, of which each is used by one process at a time."""
from __future__ import annotations

import fcntl
import os

from pfs.base.faults import Refused


class StateFault(Refused):
    """A file isn't the state that is asked for."""


class StateInUse(OSError):
    """Another search uses a state file."""


def lock_name(path: str) -> str:
    """Return the name of a state's lock. Several links may lead to a state."""
    return f"{os.path.realpath(path)}.lock"


def lock_of(path: str) -> int:
    """Lock a state, and return the descriptor of its lock. If another process removes the lock in the meantime, start
    again."""
    name = lock_name(path)
    while True:
        try:
            lock = os.open(name, os.O_RDWR | os.O_CREAT | os.O_NOFOLLOW | os.O_CLOEXEC, 0o666)
        except OSError as error:
            raise OSError(error.errno, error.strerror, path) from None
        try:
            fcntl.flock(lock, fcntl.LOCK_EX | fcntl.LOCK_NB)
            if os.path.samestat(os.fstat(lock), os.lstat(name)):
                return lock
        except FileNotFoundError:
            pass  # another process removed it before it was locked
        except BlockingIOError:
            os.close(lock)
            raise StateInUse(f"{path}: another search is using this state") from None
        os.close(lock)
