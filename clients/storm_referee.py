"""Referees under trial: how they are started and watched, and whether their records and logs are what they should be."""

import re
import subprocess
import threading
from contextlib import suppress
from pathlib import Path
from typing import Any, Callable, NamedTuple, Optional

from served import PATIENCE, Referee, Wrong, end, is_good, listen
from storm_loop import Loop


class Trial(NamedTuple):
    """What is tried, and how."""

    rbg: str
    games: Path  # the folder of the games, and of a match of each
    folder: Path  # for files that are made
    memory: int  # the most megabytes of a referee

    def game(self, name: str) -> Path:
        return self.games / f"{name}.rbg"


class Ended(NamedTuple):
    """How a program ended: its status, below 0 for a signal, and what it printed."""

    status: int
    printed: str
    reported: str

    def __str__(self) -> str:
        return f"status {self.status}, standard output {self.printed[-300:]!r}, standard error {self.reported[-300:]!r}"


class Served:
    """A running `serve` or `hall`, whose memory is looked at."""

    def __init__(self, trial: Trial, words: list[str], **how: Any):
        self.trial, self.kilobytes = trial, 0
        self.referee, self.port = listen([trial.rbg, *words], **how)
        self.ended: Optional[Ended] = None

    def __enter__(self) -> "Served":
        return self

    def __exit__(self, *_: object) -> None:
        end(self.referee, [])

    @property
    def pid(self) -> int:
        return self.referee.pid

    def look(self) -> int:
        """The most kilobytes that it has had."""
        with suppress(OSError, TypeError):
            status = Path(f"/proc/{self.pid}/status").read_text()
            self.kilobytes = max(self.kilobytes, int(re.search(r"VmHWM:\s*(\d+)", status)[1]))  # type: ignore[index]
        return self.kilobytes

    def look_often(self, loop: Loop) -> None:
        """Looks at its memory, now and as long as it runs."""
        self.look()
        loop.after(0.02, lambda: self.look_often(loop))

    def wait(self, patience: float = PATIENCE) -> Ended:
        try:
            printed, reported = self.referee.communicate(timeout=patience)
        except subprocess.TimeoutExpired:
            raise Wrong(f"not ended after {patience} seconds") from None
        self.ended = Ended(self.referee.returncode, printed, reported)
        return self.ended

    def check_memory(self, matches: int = 1) -> None:
        """It has taken no more than it may: as much as a match may take, or 2 megabytes for each game that is made ready."""
        if self.kilobytes > 1024 * max(self.trial.memory, 2 * matches):
            raise Wrong(f"{self.kilobytes} kilobytes of memory")


def run(rbg: str, *words: str, given: Optional[bytes] = None, **how: Any) -> Ended:
    """Runs a command of rbg to its end."""
    done = subprocess.run([rbg, *words], input=given, capture_output=True, timeout=PATIENCE, **how)
    return Ended(done.returncode, done.stdout.decode(errors="replace"), done.stderr.decode(errors="replace"))


def sent_in(printed: str, game: bytes) -> dict[int, bytes]:
    """What each seat is sent by the lines that `referee` prints.

    >>> sent_in("1 W1 white\\n1 G 5\\n1 M0 1\\n2 W2 black\\n", b"12345")
    {1: b'W1 white\\x00G12345\\x00M0 1\\x00', 2: b'W2 black\\x00'}
    """
    sent: dict[int, bytes] = {}
    for line in printed.splitlines():
        seat, message = line.split(" ", 1)
        text = b"G" + game if message == f"G {len(game)}" else message.encode()
        sent[int(seat)] = sent.get(int(seat), b"") + text + b"\0"
    return sent


def replayed(trial: Trial, game: Path, log: Path) -> tuple[str, dict[int, bytes]]:
    """The record of the match of a log, and what each seat was sent in it."""
    record = log.with_name(log.name + ".record")
    record.unlink(missing_ok=True)
    done = run(trial.rbg, "referee", str(game), "--record", str(record), given=log.read_bytes())
    if done.status:
        raise Wrong(f"{log.name} isn't refereed: {done}")
    return record.read_text(), sent_in(done.printed, game.read_bytes())


def check_record(trial: Trial, game: Path, log: Path, record: str) -> dict[int, bytes]:
    """The record is good, and the log is of the same match. Returns what each seat was sent in it."""
    again, sent = replayed(trial, game, log)
    file = log.with_name(log.name + ".printed")
    file.write_text(record)
    if not is_good(trial.rbg, game, file):
        raise Wrong(f"a record isn't good:\n{record}")
    if again != record:
        raise Wrong(f"the log is of another match than the record:\n{record}{again}")
    return sent


def outcome(record: str) -> str:
    """The last line of a record, without its moment.

    >>> outcome("rbg 2\\nplayers a b\\nstart 5 0\\n7 E1 2\\n")
    'E1 2'
    """
    return record.splitlines()[-1].split(" ", 1)[1]


def expect(holds: bool, reported: object) -> None:
    """Raises what is said if something doesn't hold."""
    if not holds:
        raise Wrong(str(reported))


def side_by_side(works: list[Callable[[], None]]) -> None:
    """Does all of it at once, and raises the first fault."""
    faults: list[BaseException] = []

    def do(work: Callable[[], None]) -> None:
        try:
            work()
        except BaseException as fault:  # raised again for whoever waits
            faults.append(fault)

    threads = [threading.Thread(target=do, args=(work,)) for work in works]
    for thread in threads:
        thread.start()
    for thread in threads:
        thread.join()
    if faults:
        raise faults[0]


__all__ = ["Ended", "Referee", "Served", "Trial", "check_record", "expect", "outcome", "replayed", "run", "sent_in", "side_by_side"]
