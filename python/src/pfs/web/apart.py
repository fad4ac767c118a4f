"""Calls in separate processes, which have little time and memory: what people send is read there, and files are made
there. A process serves one request and ends, so nothing of a request is left for another one."""
from __future__ import annotations

import multiprocessing
import resource
import tempfile
import threading
from collections.abc import Callable
from multiprocessing import forkserver
from multiprocessing.connection import Connection
from typing import Any, TypeAlias

# Of a process: seconds of a processor and in all, and bytes of memory.
MOST_WORK, MOST_SECONDS, MOST_MEMORY = 40, 60.0, 2 * 2**30
# How many processes there are at once, and how many requests wait for them.
AT_ONCE, MOST_WAITING = 2, 6
Call: TypeAlias = Callable[[dict[str, Any], str], Any]


class Wrong(ValueError):
    """A request that is rejected: the message for the planner, and the status of HTTP."""

    def __init__(self, text: str, status: int = 422) -> None:
        super().__init__(text)
        self.status = status


class Apart:
    """Makes these calls."""

    def __init__(self) -> None:
        self.context = multiprocessing.get_context("forkserver")
        # What isn't installed is left out.
        self.context.set_forkserver_preload(["__main__", "pfs.web.plans", "matplotlib.figure", "openpyxl"])
        forkserver.ensure_running()
        self.slots, self.places = threading.Semaphore(AT_ONCE), threading.Semaphore(AT_ONCE + MOST_WAITING)

    def __call__(self, call: Call, given: dict[str, Any]) -> Any:
        """Return what the call returns, or raise what it raises. It also gets an empty folder, which is removed."""
        if not self.places.acquire(blocking=False):
            raise Wrong("the server is busy: try again in a minute", 503)
        try:
            with self.slots, tempfile.TemporaryDirectory(prefix="pfs-web-") as folder:
                found = self.result(call, given, folder)
        finally:
            self.places.release()
        if isinstance(found, Exception):
            raise found
        return found

    def result(self, call: Call, given: dict[str, Any], folder: str) -> Any:
        """Run a call in a new process, and return what it returned or raised."""
        here, there = self.context.Pipe(duplex=False)
        process = self.context.Process(target=serve, args=(there, call, given, folder), daemon=True)
        process.start()
        there.close()
        try:
            if here.poll(MOST_SECONDS):
                return here.recv()
        except EOFError:
            pass  # the process has died
        finally:
            process.kill()
            process.join()
            here.close()
        return Wrong("it takes too long or too much memory: use a smaller table")


def serve(there: Connection, call: Call, given: dict[str, Any], folder: str) -> None:
    """In the new process, make the call within the limits, and send what comes of it."""
    for kind, most in ((resource.RLIMIT_CPU, MOST_WORK), (resource.RLIMIT_AS, MOST_MEMORY), (resource.RLIMIT_CORE, 0)):
        resource.setrlimit(kind, (most, most))
    try:
        there.send(call(given, folder))
    except MemoryError:
        pass  # the pipe is closed without a result
    except Exception as error:
        there.send(error)
