"""The processes of a match: started with limits, heard as they speak, and ended with all that they have started.

What a program prints goes through a pipe, and only so much of it is kept: who prints a gigabyte fills no disk.

>>> import tempfile
>>> with tempfile.TemporaryDirectory() as folder:
...     said = Path(folder) / "said.txt"
...     with Processes(Stop()) as processes:
...         program = processes.start(["sh", "-c", "yes | head -c 100000; kill -9 $$"], Output(said, 10))
...         print(processes.wait(lambda: program.exit is not None, 60), program.exit)
...     print(said.read_text().split("\\n")[-2:])
True signal 9
['[99990 more bytes]', '']
"""

import os
import selectors
import signal
import subprocess
import time
from contextlib import suppress
from pathlib import Path
from typing import BinaryIO, Callable, Mapping, Optional, Sequence

from tournament_guard import Guard

LIMITS = {"memory": ("-v", 1024), "processor": ("-t", 1), "file": ("-f", 2048)}  # of the shell, and in which units
PIECE = 65536


class Stopped(Exception):
    """This program was asked to stop."""


class Stop:
    """Whether this program was asked to stop: all that wait are woken. And the guard that ends their processes."""

    def __init__(self) -> None:
        self.waits, self.wakes = os.pipe()
        self.is_set = False
        self.guard = Guard()

    def set(self) -> None:
        self.is_set = True
        os.write(self.wakes, b"x")


class Output:
    """What a process prints: its first bytes go to the end of a file, which is there once there is one."""

    def __init__(self, file: Optional[Path], keep: int, remembers: bool = False):
        self.file, self.remembers = file, remembers
        self.left, self.dropped = keep, 0
        self.text = b""
        self.fault = ""
        self.opened: Optional[BinaryIO] = None

    def hear(self, piece: bytes) -> None:
        kept = piece[: self.left]
        self.left -= len(kept)
        self.dropped += len(piece) - len(kept)
        if self.remembers:
            self.text += kept
        self.write(kept)

    def write(self, piece: bytes) -> None:
        """A disk that is full is no fault of the match: what can't be kept is dropped, and reported once.

        >>> full = Output(Path("/dev/full"), 10)
        >>> full.hear(b"x")
        >>> full.fault
        "can't write /dev/full: No space left on device"
        """
        if self.file and piece and not self.fault:
            try:
                self.opened = self.opened or self.file.open("ab", buffering=0)
                self.opened.write(piece)
            except OSError as error:
                self.fault = f"can't write {self.file}: {error.strerror}"

    def close(self) -> None:
        if self.dropped:
            self.write(b"\n[%d more bytes]\n" % self.dropped)
        self.dropped = 0
        if self.opened:
            self.opened.close()
            self.opened = None


class Process:
    """A process that was started. `exit` is how it ended, in words."""

    def __init__(self, popen: subprocess.Popen):
        self.popen, self.pid = popen, popen.pid
        self.watch = os.pidfd_open(popen.pid)
        self.exit: Optional[str] = None

    def note_end(self) -> None:
        """Notes how it ended. It stays a zombie till its group is ended too, so that nobody else gets its number."""
        ended = os.waitid(os.P_PID, self.pid, os.WEXITED | os.WNOWAIT)
        kind = "status" if ended is not None and ended.si_code == os.CLD_EXITED else "signal"
        self.exit = f"{kind} {ended.si_status if ended is not None else 0}"


def limited(words: Sequence[str], limits: Mapping[str, Optional[int]]) -> list[str]:
    """A command with its limits, which a shell sets before it becomes the program.

    >>> limited(["bot", "4000"], {"memory": 64, "processor": None})
    ['sh', '-c', 'ulimit -v 65536; exec "$@"', 'sh', 'bot', '4000']
    """
    set_ones = [(*LIMITS[name], value) for name, value in limits.items() if value is not None]
    sets = "".join(f"ulimit {letter} {value * unit}; " for letter, unit, value in set_ones)
    return ["sh", "-c", f'{sets}exec "$@"', "sh", *words] if sets else list(words)


class Processes:
    """The processes of a match. Each one ends with it, and so does all that it has started."""

    def __init__(self, stop: Stop) -> None:
        self.stop = stop
        self.started: list[Process] = []
        self.outputs: set[Output] = set()
        self.selector = selectors.DefaultSelector()
        self.selector.register(stop.waits, selectors.EVENT_READ)

    def __enter__(self) -> "Processes":
        return self

    def __exit__(self, *_: object) -> None:
        self.end(0.0)
        self.selector.close()

    def start(
        self,
        words: Sequence[str],
        said: Output,
        answer: Optional[Output] = None,
        folder: Optional[str] = None,
        environment: Mapping[str, str] = {},
    ) -> Process:
        """Starts a program in a session of its own. What it prints is heard as `answer`, or else with its standard error."""
        popen = subprocess.Popen(
            words,
            cwd=folder or None,
            env={**os.environ, **environment, **self.stop.guard.variables()},
            stdin=subprocess.DEVNULL,
            stdout=subprocess.PIPE,
            stderr=subprocess.PIPE if answer else subprocess.STDOUT,
            start_new_session=True,
        )
        process = Process(popen)
        self.started.append(process)
        self.selector.register(process.watch, selectors.EVENT_READ, process)
        for pipe, output in ((popen.stdout, answer or said), (popen.stderr, said)):
            if pipe is not None:
                os.set_blocking(pipe.fileno(), False)
                self.outputs.add(output)
                self.selector.register(pipe, selectors.EVENT_READ, output)
        return process

    def hear(self, seconds: float, stops: bool = True) -> None:
        """Waits so long for anything to happen, and hears it."""
        for key, _ in self.selector.select(seconds):
            if isinstance(key.data, Process):
                # what it said before its end is heard first
                self.hear_rest(key.data)
                self.selector.unregister(key.fd)
                os.close(key.fd)
                key.data.note_end()
            elif isinstance(key.data, Output):
                self.hear_piece(key.fileobj, key.data)
        if stops and self.stop.is_set:
            raise Stopped

    def hear_piece(self, pipe: BinaryIO, output: Output) -> bool:
        """Hears a piece, if there is one. A pipe that has ended is closed."""
        if pipe.closed:
            return False
        try:
            piece = os.read(pipe.fileno(), PIECE)
        except BlockingIOError:
            return False
        if piece:
            output.hear(piece)
        else:
            self.selector.unregister(pipe)
            pipe.close()
        return bool(piece)

    def hear_rest(self, process: Process) -> None:
        """Hears what a process that has ended had said. Others may have its pipe, so it may have no end."""
        for key in list(self.selector.get_map().values()):
            if key.fileobj in (process.popen.stdout, process.popen.stderr):
                for _ in range(64):
                    if not self.hear_piece(key.fileobj, key.data):
                        break

    def wait(self, test: Callable[[], bool], seconds: float, stops: bool = True, step: float = 1.0) -> bool:
        """Whether the test is met within this time. It is asked whenever something has happened, and after each step."""
        until = time.monotonic() + seconds
        while not test():
            left = until - time.monotonic()
            if left <= 0:
                return False
            self.hear(min(left, step), stops)
        return True

    def end(self, seconds: float) -> None:
        """Lets the processes end by themselves for so long, and then ends them, with those that they have started."""
        with suppress(KeyError):
            self.selector.unregister(self.stop.waits)
        self.wait(lambda: self.stop.is_set or all(each.exit for each in self.started), seconds, False, 0.1)
        for each in self.started:
            late = each.exit is None
            with suppress(ProcessLookupError, PermissionError):
                os.killpg(each.pid, signal.SIGKILL)
            if late and self.wait(lambda: each.exit is not None, 10.0, False):
                each.exit = "ended by the tournament"
            each.popen.poll()
        self.started = []
        for key in list(self.selector.get_map().values()):
            if self.hear_piece(key.fileobj, key.data) or not key.fileobj.closed:
                self.selector.unregister(key.fileobj)
                key.fileobj.close()
        for output in self.outputs:
            output.close()
