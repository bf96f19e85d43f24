"""Files that several processes use, also on several machines: each is written whole, and some things are done by one
process at a time. What can't be done is reported with the name of the file."""

import contextlib
import errno
import fcntl
import os
import socket
import time
from contextlib import contextmanager
from pathlib import Path
from typing import BinaryIO, Iterator, Optional


class Fault(Exception):
    """What the organiser has to mend, in words."""


class Busy(Fault):
    """Another process does this just now."""


def part_of(file: Path) -> Path:
    """The file beside this one in which this process writes what is to become it, by a rename."""
    return file.with_name(f".{file.name}.{socket.gethostname()}.{os.getpid()}.part")


def write_whole(file: Path, text: str) -> None:
    """Writes a file by a rename, so that it is never seen in part. A fault names it.

    >>> write_whole(Path("/proc/self/no"), "x")
    Traceback (most recent call last):
    tournament_files.Fault: can't write /proc/self/no: No such file or directory
    """
    part = part_of(file)
    try:
        part.write_text(text)
        os.replace(part, file)
    except OSError as error:
        with contextlib.suppress(OSError):
            part.unlink(missing_ok=True)
        raise Fault(f"can't write {file}: {error.strerror}") from None


def locked(lock: Path) -> Optional[BinaryIO]:
    """Takes a lock, which is a file, or finds that another process has it."""
    try:
        opened = lock.open("ab")
    except OSError as error:
        raise Fault(f"can't write {lock}: {error.strerror}") from None
    try:
        fcntl.flock(opened, fcntl.LOCK_EX | fcntl.LOCK_NB)
        # who had the lock before may have taken its file away meanwhile, and another one may have a new file
        if os.fstat(opened.fileno()).st_ino == lock.stat().st_ino:
            return opened
    except FileNotFoundError:
        pass
    except OSError as error:
        if error.errno not in (errno.EACCES, errno.EAGAIN):
            return opened  # this file system has no locks
    opened.close()
    return None


@contextmanager
def alone(lock: Path, busy: str, seconds: float = 0.0) -> Iterator[None]:
    """Sees to it that no other process does the same meanwhile, on no machine that has the folder. Waits for the one that
    does, for so long. The lock ends with this process, however that ends, and its file with what is done.

    >>> import tempfile
    >>> with tempfile.TemporaryDirectory() as folder:
    ...     file = Path(folder) / "lock"
    ...     with alone(file, "busy"), alone(file, "busy", 0.1):
    ...         pass
    Traceback (most recent call last):
    tournament_files.Busy: busy
    """
    until = time.monotonic() + seconds
    opened = locked(lock)
    while opened is None:
        if time.monotonic() >= until:
            raise Busy(busy)
        time.sleep(0.05)
        opened = locked(lock)
    with opened:
        try:
            yield
        finally:
            lock.unlink(missing_ok=True)
