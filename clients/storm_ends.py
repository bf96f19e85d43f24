"""What the system refuses or ends: descriptors, ports, signals, standard output and standard error. Each time a true line and
status come, and the log stays a log."""

import os
import random
import resource
import signal
import subprocess
import time
from contextlib import closing
from pathlib import Path
from typing import Any

from served import free_port
from storm_loop import Loop
from storm_match import pair, play
from storm_players import Player, Stored
from storm_referee import Ended, Served, Trial, check_record, expect, outcome, replayed

FULL = "/dev/full"
DESCRIPTORS = range(4, 14)  # (with fewer no program is loaded)
LIMITS = ["--minutes", "5"]
PATIENCE = 60


def match_with(trial: Trial, log: Path, **how: Any) -> Ended:
    stored = Stored(trial.rbg, trial.game("tictactoe"))
    return play(trial, ["serve", str(stored.game), *LIMITS, "--log", str(log)], pair(stored), **how)


def check_log(trial: Trial, log: Path) -> None:
    """The log is a script, and has the whole match."""
    stored = Stored(trial.rbg, trial.game("tictactoe"))
    record, _ = replayed(trial, stored.game, log)
    expect(outcome(record) == stored.outcome, f"the log has another end: {record}")


def output_fails(trial: Trial) -> str:
    """Standard output is full, closed, or a pipe that nobody reads: status 3, and standard error says why."""
    reading, writing = os.pipe()
    os.close(reading)
    with open(FULL, "w") as full:
        ways: dict[str, dict[str, Any]] = {
            "full": {"stdout": full},
            "closed": {"preexec_fn": lambda: os.close(1)},
            "broken": {"stdout": writing},
        }
        for name, how in ways.items():
            log = trial.folder / f"{name}.log"
            ended = match_with(trial, log, **how)
            check_log(trial, log)
            expect(ended.status == 3 and not ended.printed, f"standard output is {name}: {ended}")
            expect("standard output" in ended.reported, f"standard output is {name}, and standard error doesn't say so: {ended}")
    os.close(writing)
    return "full, closed and broken: status 3, and why"


def close_streams(name: str) -> None:
    """Closes standard error, or all three streams, or lets standard error be full."""
    if name == "full":
        os.dup2(os.open(FULL, os.O_WRONLY), 2)
    else:
        for number in [0, 1, 2] if name == "all" else [2]:
            os.close(number)


def error_fails(trial: Trial) -> str:
    """Standard error is full or closed, or all three streams are: the record is printed, and the log gets nothing of it."""
    stored = Stored(trial.rbg, trial.game("tictactoe"))
    for name in ("full", "closed", "all"):
        log = trial.folder / f"error-{name}.log"
        ended = unheard(trial, stored, log, name)
        check_log(trial, log)
        if name == "all":
            expect(ended.status == 3, f"all streams are closed: {ended}")
        else:
            expect(ended.status == 0, f"standard error is {name}: {ended}")
            check_record(trial, stored.game, log, ended.printed)
    return "full and closed: the record is printed, and the log is a log"


def unheard(trial: Trial, stored: Stored, log: Path, name: str) -> Ended:
    """A match of a referee that can't say that it listens: its port is tried."""
    port = free_port()
    words = [trial.rbg, "serve", str(stored.game), *LIMITS, "--log", str(log), "--port", str(port)]
    pipes = {"stdout": subprocess.PIPE, "stderr": subprocess.PIPE, "text": True}
    referee = subprocess.Popen(words, preexec_fn=lambda: close_streams(name), **pipes)
    players: list[Player] = []
    with closing(Loop()) as loop:
        last = time.monotonic() + PATIENCE
        while len(players) < 2 and time.monotonic() < last:
            try:
                players.append(Player(loop, port, stored.moves))
            except ConnectionRefusedError:
                time.sleep(0.02)
        loop.run(lambda: all(it.is_gone for it in players), PATIENCE)
        try:
            printed, reported = referee.communicate(timeout=PATIENCE)
        finally:
            referee.kill()
            referee.wait()
    return Ended(referee.returncode, printed, reported)


def few_descriptors(trial: Trial) -> str:
    """The process may have only so many descriptors: it ends with `device` and why, or plays."""
    stored = Stored(trial.rbg, trial.game("tictactoe"))
    reported = []
    for room in DESCRIPTORS:
        less = {"preexec_fn": lambda room=room: resource.setrlimit(resource.RLIMIT_NOFILE, (room, room))}
        for kind in ("serve", "hall"):
            log = trial.folder / f"{kind}-{room}.log"
            lines = pair(stored) if kind == "serve" else [(stored, 1)] * 2
            limits = LIMITS if kind == "serve" else ["--rounds", "4294967295"]
            ended = play(trial, [kind, str(stored.game), *limits, "--log", str(log)], lines, **less)
            if ended.status:
                expect((ended.status, ended.printed) == (3, "device\n") and "can't " in ended.reported, f"{room} descriptors: {ended}")
            reported.append(ended.status)
    expect(0 in reported and 3 in reported, f"other statuses: {reported}")
    return f"{reported.count(3)} of {len(reported)} say `device` and why, and the others play"


def signalled(trial: Trial, runs: int = 6) -> str:
    """SIGTERM, SIGINT, SIGHUP: the process ends at once, prints nothing, and its log goes on."""
    stored = Stored(trial.rbg, trial.game("breakthrough"))
    chance = random.Random(1)
    for number in range(runs):
        log = trial.folder / f"signal-{number}.log"
        which = [signal.SIGTERM, signal.SIGINT, signal.SIGHUP][number % 3]
        with Served(trial, ["serve", str(stored.game), *LIMITS, "--log", str(log)]) as served, closing(Loop()) as loop:
            players = [Player(loop, served.port, stored.moves) for _ in range(2)]
            least = chance.randrange(4, 40)
            expect(loop.run(lambda: players[0].made >= least, 60), "no match")
            served.referee.send_signal(which)
            ended = served.wait(5)
        expect((ended.status, ended.printed) == (-which, ""), f"after {which.name}: {ended}")
        again = play(trial, ["serve", str(stored.game), *LIMITS, "--resume", str(log)], pair(stored))
        expect(again.status == 0 and outcome(again.printed) == stored.outcome, again)
        check_record(trial, stored.game, log, again.printed)
    return f"{runs} matches went on"
