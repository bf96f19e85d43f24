"""Disks without room: a small file system, and files that may get no longer. If there is room again the match goes on."""

import errno
import os
import resource
import subprocess
from pathlib import Path
from typing import Any

from storm_between import clean
from storm_match import pair, play
from storm_players import Stored
from storm_referee import Ended, Trial, check_record, expect

ROOM = 65536  # the bytes of the small file system, and of a file


def grown(trial: Trial, log: Path, **how: Any) -> Ended:
    """A match whose log gets longer than the room for it, since its players say long messages."""
    stored = Stored(trial.rbg, trial.game("tictactoe"))
    words = ["serve", str(stored.game), "--minutes", "5", "--refusals", "100", "--log", str(log)]
    return play(trial, words, pair(stored), said=(b"x" * 5000 + b"\0") * 10, **how)


def check_grown(trial: Trial, log: Path, ended: Ended, reason: str) -> None:
    """It has ended as documented, and goes on if there is room again."""
    stored = Stored(trial.rbg, trial.game("tictactoe"))
    expect((ended.status, ended.printed) == (3, "device\n"), ended)
    expect(f"can't write the log {log}: {reason}".lower() in ended.reported.lower(), ended)
    again = play(trial, ["serve", str(stored.game), "--minutes", "5", "--resume", str(log)], pair(stored))
    expect(again.status == 0, again)
    check_record(trial, stored.game, log, again.printed)


def full_system(trial: Trial) -> str:
    """A file system of 64 kilobytes. It is mounted for this, which root alone may do."""
    place = trial.folder / "small"
    place.mkdir()
    mount = ["mount", "-t", "tmpfs", "-o", f"size={ROOM}", "none", str(place)]
    if subprocess.run(mount, stderr=subprocess.DEVNULL).returncode:
        return "left out: no file system can be mounted here"
    try:
        log = place / "log"
        ended = grown(trial, log)
        stored = Stored(trial.rbg, trial.game("tictactoe"))
        full = play(trial, ["serve", str(stored.game), "--minutes", "5", "--resume", str(log)], pair(stored))
        expect((full.status, full.printed) == (3, "device\n") and "can't " in full.reported, f"with no room to go on: {full}")
        subprocess.run(["mount", "-o", f"remount,size={32 * ROOM}", str(place)], check=True)
        check_grown(trial, log, ended, os.strerror(errno.ENOSPC))
    finally:
        subprocess.run(["umount", str(place)], check=True)
    return "a match went on once there was room again"


def file_limit(trial: Trial) -> str:
    """No file of the process may have more than 64 kilobytes (`ulimit -f`)."""
    log = trial.folder / "limited"
    less = {"preexec_fn": lambda: resource.setrlimit(resource.RLIMIT_FSIZE, (ROOM, ROOM))}
    check_grown(trial, log, grown(trial, log, **less), os.strerror(errno.EFBIG))
    clean(log)
    return "a match went on without the limit"
