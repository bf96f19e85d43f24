"""Disks that fail: each call about a file fails once, comes short or is cut off by a signal. Each time the documented line and
status come, the log goes on, and the record is good."""

import errno
import os
import random
import signal
import subprocess
from pathlib import Path
from typing import Any, NamedTuple

from served import Wrong
from storm_between import clean, records
from storm_match import pair, play
from storm_players import Stored
from storm_referee import Ended, Trial, check_record, expect, outcome

CALLS = ["open", "write", "sync", "rename", "lock"]
ERRORS = ["ENOSPC", "EIO", "EDQUOT", "EFBIG", "EROFS", "EACCES", "EPERM", "EINTR", "EAGAIN", "EMFILE", "EINVAL", "ENOLCK"]


class Fault(NamedTuple):
    """What becomes of the calls of a kind, from one on."""

    call: str
    at: int
    lasts: bool
    how: str  # the name of an error, a number of bytes that a write takes, or the name of a signal

    def environment(self, library: Path, folder: Path) -> dict[str, str]:
        reported = {"DISK_CALL": self.call, "DISK_AT": str(self.at), "DISK_ON": str(int(self.lasts))}
        if self.how in errno.errorcode.values():
            reported["DISK_ERRNO"] = str(getattr(errno, self.how))
        elif self.how.startswith("SIG"):
            reported["DISK_SIGNAL"] = str(int(signal.Signals[self.how]))
        else:
            reported["DISK_SHORT"] = self.how
        return {**os.environ, "LD_PRELOAD": str(library), "DISK_UNDER": str(folder) + "/", **reported}

    @property
    def reason(self) -> str:
        """What standard error says of it; nothing if it is no error. A lock that can't be had at once is another process's."""
        if self.call == "lock" and self.how == "EAGAIN":
            return "another process has it"
        return os.strerror(getattr(errno, self.how)) if self.how in errno.errorcode.values() else ""

    @property
    def is_harmless(self) -> bool:
        """Whether a call that comes short, or is interrupted, has only to be made again. (Who renames isn't interrupted, but for
        file systems over a network.)"""
        return self.how.isdigit() or (self.how == "EINTR" and self.call in ("open", "write", "sync"))


class Disk:
    """Runs of one kind, whose calls about files are counted first."""

    def __init__(self, trial: Trial, library: Path, stored: Stored, folder: Path):
        self.trial, self.library, self.stored, self.folder = trial, library, stored, folder
        self.log = folder / "log"
        folder.mkdir()

    def words(self) -> list[str]:
        raise NotImplementedError

    def begin(self) -> None:
        """Makes what a run needs, and nothing else is there."""
        for file in self.folder.iterdir():
            file.unlink()

    def run(self, **how: Any) -> Ended:
        return play(self.trial, self.words(), pair(self.stored), **how)

    def counts(self) -> dict[str, int]:
        """How many calls of each kind a run makes."""
        self.begin()
        file = self.folder.with_suffix(".counts")
        reported = {"LD_PRELOAD": str(self.library), "DISK_UNDER": str(self.folder) + "/", "DISK_COUNT": str(file)}
        ended = self.run(env={**os.environ, **reported})
        expect(ended.status == 0, f"with no fault: {ended}")
        return {word: int(number) for word, number in map(str.split, file.read_text().splitlines())}

    def check(self, fault: Fault) -> str:
        """One run with a fault, and one that goes on from its log. Returns how the first one ended."""
        self.begin()
        ended = self.run(env=fault.environment(self.library, self.folder))
        try:
            how = self.judge(fault, ended)
            self.go_on()
        except Wrong as wrong:
            raise Wrong(f"{' '.join(self.words())}: {fault}: {ended}: {wrong}") from None
        return how

    def judge(self, fault: Fault, ended: Ended) -> str:
        """The status and the lines are documented ones."""
        if fault.how.startswith("SIG"):
            expect(ended.status == -signal.Signals[fault.how] and not ended.printed, "a signal has another status, or a line")
            return "signal"
        if ended.status == 0:
            check_record(self.trial, self.stored.game, self.log, ended.printed)
            expect(outcome(ended.printed) == self.stored.outcome, "the match ended in another way")
            return "played"
        expect(not fault.is_harmless, "a call had only to be made again")
        expect("can't " in ended.reported and fault.reason in ended.reported, f"standard error doesn't say `can't ..: {fault.reason}`")
        if ended.printed != "device\n":  # a record that can't be kept is printed all the same
            expect("record" in ended.reported, "neither `device` nor a record that can't be kept")
            check_record(self.trial, self.stored.game, self.log, ended.printed)
        expect(ended.status == 3, "the status isn't 3")
        return "device"

    def go_on(self) -> None:
        """Goes on from the log, or begins anew if it has no line."""
        if self.log.exists() and b"\n" not in self.log.read_bytes():
            clean(self.log)
        words = ["serve", str(self.stored.game), "--minutes", "5", "--resume" if self.log.exists() else "--log", str(self.log)]
        again = play(self.trial, words, pair(self.stored))
        expect(again.status == 0, f"it doesn't go on: {again}")
        check_record(self.trial, self.stored.game, self.log, again.printed)
        expect(outcome(again.printed) == self.stored.outcome, f"it goes on to another end: {again}")


class Logged(Disk):
    """A match with a log."""

    def words(self) -> list[str]:
        return ["serve", str(self.stored.game), "--minutes", "5", "--log", str(self.log)]


class Synced(Logged):
    """A match whose log waits for the disk."""

    def words(self) -> list[str]:
        return [*super().words(), "--sync"]


class Kept(Logged):
    """A match whose record is kept in a file, too."""

    def words(self) -> list[str]:
        return [*super().words(), "--records", str(self.folder)]


class Resumed(Disk):
    """A match that goes on from its log, which is replaced first. Its log has half of the moves."""

    def words(self) -> list[str]:
        return ["serve", str(self.stored.game), "--minutes", "5", "--resume", str(self.log)]

    def begin(self) -> None:
        super().begin()
        self.log.write_text(half_log(self.stored))


def half_log(stored: Stored) -> str:
    """The log of a match with half of its moves, whose last line was cut off."""
    moves = [(seat, move) for seat, move in stored.moves if seat]
    lines = [f"p {seat} {10 * at} {(move + bytes(1)).hex()}\n" for at, (seat, move) in enumerate(moves[: len(moves) // 2])]
    return "config 60000 3 0\n" + "".join(lines) + "p 1"


class Hall(Disk):
    """A hall of two matches, of which each has a log."""

    def words(self) -> list[str]:
        return ["hall", *[str(self.stored.game)] * 2, "--rounds", "4294967295", "--log", str(self.log)]

    def run(self, **how: Any) -> Ended:
        return play(self.trial, self.words(), [(self.stored, 1), (self.stored, 2)] * 2, **how)

    def judge(self, fault: Fault, ended: Ended) -> str:
        if ended.status:
            return super().judge(fault, ended)
        self.check_records(ended)
        return "played"

    def check_records(self, ended: Ended) -> None:
        for match, record in records(ended.printed).items():
            check_record(self.trial, self.stored.game, Path(f"{self.log}.{match}"), record)
            expect(outcome(record) == self.stored.outcome, "the match ended in another way")

    def go_on(self) -> None:
        whole = self.log
        for match in (1, 2):
            self.log = Path(f"{whole}.{match}")
            super().go_on()
        self.log = whole


class ResumedHall(Hall):
    """A hall that goes on from its logs: one match has half of its moves, and the other one hasn't begun."""

    def words(self) -> list[str]:
        return ["hall", *[str(self.stored.game)] * 2, "--rounds", "4294967295", "--resume", str(self.log)]

    def begin(self) -> None:
        super().begin()
        Path(f"{self.log}.1").write_text(half_log(self.stored))
        Path(f"{self.log}.2").touch()

    def go_on(self) -> None:
        again = self.run()
        expect(again.status == 0 and len(records(again.printed)) == 2, f"it doesn't go on: {again}")
        self.check_records(again)


class KeptHall(Hall):
    """A hall whose records are kept in files, too."""

    def words(self) -> list[str]:
        return [*super().words(), "--records", str(self.folder)]

    def judge(self, fault: Fault, ended: Ended) -> str:
        """Each record that is printed is in its file, or standard error names the file, and the status is that of a device."""
        if not ended.printed.startswith("match "):
            return super().judge(fault, ended)
        printed = records(ended.printed)
        files = {match: self.folder / f"{match}.record" for match in printed}
        lost = [match for match, file in files.items() if not file.exists()]
        for match, file in files.items():
            if match in lost:
                expect(f"can't write {file}: {fault.reason}" in ended.reported, f"the lost record of match {match} isn't named")
            else:
                expect(file.read_text() == printed[match], f"the file of match {match} has another record")
        expect(ended.status == (3 if lost else 0), "the status doesn't say whether a record is lost")
        expect(not (lost and fault.is_harmless), "a call had only to be made again")
        whole = super().judge(fault, ended._replace(status=0))
        return "device" if lost else whole


def chosen(counts: dict[str, int], chance: random.Random) -> Fault:
    """A fault of one of the calls that a run makes."""
    call = chance.choice([it for it in CALLS if counts.get(it)])
    hows = ERRORS + (["1", "7", "20", "SIGTERM", "SIGINT", "SIGHUP", "SIGKILL"] if call == "write" else [])
    how = chance.choice(hows)
    lasts = how != "EINTR" and chance.random() < 0.3  # what is interrupted is made again, and so without an end
    return Fault(call, chance.randint(1, counts[call]), lasts, how)


def built(trial: Trial, top: Path) -> Path:
    """The library to preload."""
    library = trial.folder / "disks.so"
    source = top / "tools" / "refuse" / "disks.c"
    subprocess.run(["gcc", "-O2", "-Wall", "-Wextra", "-shared", "-fPIC", "-o", str(library), str(source)], check=True)
    return library


def fail(trial: Trial, top: Path, kinds: list[type[Disk]], runs: int, seed: int) -> str:
    """So many runs with a fault each, over all kinds in turn. The library's source is in the repository whose top this is."""
    library = built(trial, top)
    stored = Stored(trial.rbg, trial.game("tictactoe"))
    chance = random.Random(seed)
    disks = [kind(trial, library, stored, trial.folder / kind.__name__) for kind in kinds]
    counts = [disk.counts() for disk in disks]
    ended: dict[str, int] = {}
    for number in range(runs):
        disk, counted = disks[number % len(disks)], counts[number % len(disks)]
        how = disk.check(chosen(counted, chance))
        ended[how] = ended.get(how, 0) + 1
    return f"{runs} runs, " + ", ".join(f"{count} {how}" for how, count in sorted(ended.items()))
