"""Halls that are killed, and two processes that would go on from one log at once."""

import random
import subprocess
from contextlib import closing, suppress
from pathlib import Path

from served import Wrong, end, ended_before, free_port
from storm_between import clean, records
from storm_lost import LIMITS, begun_log
from storm_loop import Loop
from storm_match import pair, play, play_at
from storm_players import Player, Stored
from storm_referee import Ended, Served, Trial, check_record, expect, outcome, run

PATIENCE = 60  # seconds in which a hall has made its moves
ROUNDS = ["--rounds", "4294967295"]


def kill_hall(trial: Trial, tables: list[Stored], chance: random.Random) -> tuple[int, int]:
    """Plays a hall that is killed after a random number of moves, goes on from its logs and is killed once more, and goes on to its
    end. Returns how many of its matches had begun when it was killed, and how often it was."""
    log = trial.folder / "hall.log"
    files = [str(it.game) for it in tables]
    lines = [(stored, match) for match, stored in enumerate(tables, 1) for _ in range(stored.seats)]
    chance.shuffle(lines)
    moves = sum(len(stored.moves) for stored in tables)
    kill_once(trial, ["hall", *files, *ROUNDS, "--log", str(log)], lines, 2 * chance.randrange(moves))
    logs = [Path(f"{log}.{match}") for match in range(1, len(tables) + 1)]
    begun = sum(b"\n" in it.read_bytes() for it in logs)
    again = ["hall", *files, "--resume", str(log)]
    often = 1 + (begun > 0 and not have_ended(trial, tables, logs) and kill_once(trial, [*again, *ROUNDS], lines, 2 * chance.randrange(moves)))
    done = play(trial, [*again, *LIMITS], [] if have_ended(trial, tables, logs) else lines)
    expect(done.status == 0, done)
    found = records(done.printed)
    for match, stored in enumerate(tables, 1):
        check_record(trial, stored.game, logs[match - 1], found[match])
        expect(outcome(found[match]) == stored.outcome, f"match {match} went on to {outcome(found[match])}")
    clean(log)
    return begun, often


def kill_once(trial: Trial, words: list[str], lines: list[tuple[Stored, int]], least: int) -> bool:
    """Kills a hall once its players have heard so many moves, or soon after that if they don't hear as many. Returns whether it ran."""
    with Served(trial, words) as served, closing(Loop()) as loop:
        players = []
        for stored, match in lines:
            with suppress(ConnectionRefusedError):  # all seats are taken: those of matches that had ended are none
                players.append(Player(loop, served.port, stored.moves, match, think=0.005))
        loop.run(lambda: sum(it.made for it in players) >= least or all(it.is_over for it in players), PATIENCE)
        running = served.referee.poll() is None
        served.referee.kill()  # before its players leave
        served.referee.wait()
    return running


def have_ended(trial: Trial, tables: list[Stored], logs: list[Path]) -> bool:
    """Whether each match of these logs has ended: then nobody can connect."""
    return all(has_ended(trial, stored, log) for stored, log in zip(tables, logs))


def has_ended(trial: Trial, stored: Stored, log: Path) -> bool:
    done = run(trial.rbg, "referee", "--cut", str(stored.game), given=log.read_bytes())
    return any(line.split(" ", 1)[1].startswith("E") for line in done.printed.splitlines() if " " in line and line[0].isdigit())


def race(trial: Trial, kind: str, stored: Stored) -> str:
    """Two processes would go on from one log at the same moment, or from those of a hall of two: one does, and the other one is
    refused and says why."""
    log = trial.folder / "race.log"
    clean(log)
    files, lines = [str(stored.game)], pair(stored)
    if kind == "hall":
        files, lines = 2 * files, [(stored, match) for match in (1, 2)] * 2
        kill_once(trial, ["hall", *files, *ROUNDS, "--log", str(log)], lines, 24)
    else:
        begun_log(trial, stored, log, 6)
    ports = [free_port(), free_port()]
    words = [trial.rbg, kind, *files, *LIMITS, "--resume", str(log), "--port"]
    pipes = {"stdout": subprocess.PIPE, "stderr": subprocess.PIPE, "text": True}
    both = [subprocess.Popen([*words, str(port)], **pipes) for port in ports]
    try:
        reported = [ended_before(it, "listening on port") for it in both]
        refused = [it for it in reported if it is not None]
        expect(len(refused) == 1, f"{len(refused)} of two are refused")
        expect("another process" in refused[0], f"why isn't said: {refused[0]}")
        first = reported.index(None)
        done: Ended = play_at(both[first], ports[first], lines, b"")
    finally:
        for it in both:
            end(it, [])
    found = records(done.printed) if kind == "hall" else {1: done.printed}
    for match, record in found.items():
        expect(done.status == 0 and outcome(record) == stored.outcome, done)
        check_record(trial, stored.game, Path(f"{log}.{match}") if kind == "hall" else log, record)
    clean(log)
    return "one goes on"


def crash_halls(trial: Trial, games: list[Path], count: int, seed: int) -> str:
    """This many halls, each of these games."""
    chance, tables = random.Random(seed), [Stored(trial.rbg, game) for game in games]
    begun = killed = 0
    for number in range(count):
        try:
            more, often = kill_hall(trial, tables, chance)
            begun, killed = begun + more, killed + often
        except Wrong as wrong:
            raise Wrong(f"hall {number + 1}: {wrong}") from None
    return f"{count} halls, killed {killed} times, first when {begun} of {count * len(tables)} matches had begun: each went on"
