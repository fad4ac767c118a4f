"""Atomic writes: after an interruption a file has either its old content or all of the new content."""
from __future__ import annotations

import contextlib
import os
import secrets
import stat


def atomic_write(path: str | os.PathLike[str], data: bytes, temporary: str | None = None) -> None:
    """Replace the content of a file. The data is written to a temporary file in the same folder, by default of a new
    name, which is then renamed. A link to the file remains a link. Pipes and devices are written to directly."""
    target = os.path.realpath(path)
    mode = None
    try:
        with contextlib.suppress(FileNotFoundError):
            mode = os.stat(path).st_mode
        if mode is not None and not stat.S_ISREG(mode):
            # A pipe such as /dev/stdout has no path but this one.
            with open(path, "wb") as file:
                file.write(data)
            return
        temporary = temporary or f"{target}.{secrets.token_hex(4)}.new"
        try:
            write_new(temporary, data, mode)
            os.replace(temporary, target)
        except BaseException:
            with contextlib.suppress(OSError):
                os.unlink(temporary)
            raise
        # So that the renamed file survives a crash of the system.
        folder = os.open(os.path.dirname(target), os.O_RDONLY | os.O_DIRECTORY)
        try:
            os.fsync(folder)
        finally:
            os.close(folder)
    except OSError as error:
        raise OSError(error.errno, error.strerror, os.fspath(path)) from None


def write_new(path: str, data: bytes, mode: int | None) -> None:
    """Write a new file. An existing file or link of this name is removed first, so no link is followed."""
    with contextlib.suppress(FileNotFoundError):
        os.unlink(path)
    descriptor = os.open(path, os.O_WRONLY | os.O_CREAT | os.O_EXCL | os.O_NOFOLLOW | os.O_CLOEXEC, 0o666)
    with open(descriptor, "wb") as file:
        if mode is not None:
            os.fchmod(descriptor, stat.S_IMODE(mode))
        file.write(data)
        file.flush()
        os.fsync(descriptor)
