#!/usr/bin/env python3
"""Kills `rbg serve` in the middle of matches, lets them go on from their logs, and compares their records.

    crash.py GAME.. [--rbg FILE] [--count N] [--halls N] [--seed N]

Each match is played once to its end, by example clients that choose at random. Then clients that send the moves of its
record play it again, with a log, and `rbg` is killed at a random moment, and once more after the match went on. In the
end the record has to be good and to have the moves and the outcome of the first match, and `rbg referee GAME < LOG` has
to have the same. A log that is cut at any of its bytes has to be refereed up to the cut, and to go on from there.

So are halls, of which each match has to go on to its end. And two processes that would go on from one log: one of them does.

Meanwhile the players of one more match send bytes without an end and no message: it has to last its minute, however many
rounds have passed, and then goes on from its log. And what can't be opened or written has to be named on standard error.

It needs nothing but Linux, Python 3.11 and the program rbg.
"""

import argparse
import random
import socket
import subprocess
import sys
import tempfile
import threading
import time
from pathlib import Path
from typing import Optional

from crash_hall import crash_halls, race
from faults import check_failures, check_faults
from served import PATIENCE, Match, Wrong, end, free_port, is_good, listen
from storm_players import Stored
from storm_referee import Trial

ROUNDS = 600  # the rounds of the match that is to last a minute; they are over in 3 to 17 seconds
PAUSE = 0.02  # seconds between two bytes, so that in a minute they are no message that is too long


def moves_of(record: str) -> list[str]:
    """The moves and the outcome of a record of version 2, without their moments.

    >>> moves_of("rbg 2\\nplayers a b\\nstart 1 0\\n5 1 0 3\\n9 E0 1 2\\n")
    ['1 0 3', 'E0 1 2']
    """
    return [line.split(" ", 1)[1] for line in record.splitlines()[3:]]


def run(match: Match, *words: str, text: Optional[bytes] = None) -> tuple[int, bytes]:
    """What another command of rbg prints, and its status."""
    done = subprocess.run([match.rbg, *words], input=text, capture_output=True)
    return done.returncode, done.stdout


def check(match: Match, record: str) -> None:
    """The record is good, has the moves of the first one, and the log has the same match."""
    if moves_of(record) != moves_of(match.record.read_text()):
        raise Wrong(f"another match than without a crash:\n{record}")
    file = match.log.with_suffix(".again")
    file.write_text(record)
    if not is_good(match.rbg, match.game, file):
        raise Wrong("the record isn't good")
    status, printed = run(match, "referee", str(match.game), text=match.log.read_bytes())
    if status:
        raise Wrong(f"the log is refused: {printed!r}")
    heard = [line.removeprefix("1 ") for line in printed.decode().splitlines() if line[:3] in ("1 M", "1 E")]
    moves = [move if move[0] == "E" else "M" + move.split(" ", 1)[1] for move in moves_of(record)]
    if heard != moves:
        raise Wrong("the log has another match than the record")


class Dripping:
    """A match of one minute, whose players send bytes without an end and without a zero byte."""

    def __init__(self, rbg: str, game: Path, folder: Path):
        folder.mkdir()
        self.match = Match(rbg, game, folder)
        words = ["--rounds", str(ROUNDS), "--minutes", "1", "--turn", "3600000", "--log", str(self.match.log)]
        self.referee, port = listen([rbg, "serve", str(game), *words])
        for _ in range(2):
            connection = socket.create_connection(("127.0.0.1", port))
            threading.Thread(target=self.drip, args=(connection,), daemon=True).start()

    @staticmethod
    def drip(connection: socket.socket) -> None:
        """Sends a byte again and again, until the connection is closed."""
        try:
            while True:
                connection.sendall(b"x")
                time.sleep(PAUSE)
        except OSError:
            pass

    def check(self, record: str) -> int:
        """It has lasted its minute, and ends as the record says once its players send its moves. Returns how many rounds
        have passed at least."""
        output, reported = self.referee.communicate(timeout=2 * PATIENCE)
        if (self.referee.returncode, output) != (3, "rounds\n") or not reported.endswith("not ended within 1 minute\n"):
            raise Wrong(f"a match of one minute: status {self.referee.returncode}, {output}{reported}")
        events = [line.split(" ") for line in self.match.log.read_text().splitlines()[1:]]
        rounds = sum(seat == "1" for _, seat, *_ in events)
        if rounds <= ROUNDS or not 59_000 <= int(events[-1][2]) < 60_000:
            raise Wrong(f"a match of one minute: {rounds} rounds, up to the moment {events[-1][2]}")
        self.match.record.write_text(record)
        again = self.match.play_again("--resume", str(self.match.log))
        assert again is not None
        check(self.match, again)
        return rounds


def crash_once(match: Match, chance: random.Random, longest: float) -> int:
    """Plays a match that is killed twice at most. Returns how often it was killed."""
    killed = 0
    match.log.unlink(missing_ok=True)
    record = match.play_again("--log", str(match.log), kill_after=chance.uniform(0.0, longest))
    while record is None:
        killed += 1
        later = chance.uniform(0.0, longest) if killed < 2 else None
        if b"\n" in match.log.read_bytes():
            record = resume(match, later)
        else:
            match.log.unlink()  # it was killed before the match began
            record = match.play_again("--log", str(match.log), kill_after=later)
    check(match, record)
    return killed


def resume(match: Match, kill_after: Optional[float]) -> Optional[str]:
    """Goes on with a match, which may have ended when the referee was killed: then its record comes at once."""
    status, printed = run(match, "referee", "--cut", str(match.game), text=match.log.read_bytes())
    if status:
        raise Wrong(f"the log is refused: {printed!r}")
    if any(line.split(b" ", 1)[1].startswith(b"E") for line in printed.splitlines()):
        status, printed = run(match, "serve", str(match.game), "--port", str(free_port()), "--resume", str(match.log))
        if status:
            raise Wrong(f"an ended match isn't printed: {printed!r}")
        return printed.decode()
    return match.play_again("--resume", str(match.log), kill_after=kill_after)


def cut_everywhere(match: Match) -> int:
    """A log that is cut at any of its bytes goes on from its whole lines, or lacks its first line. Returns how many cuts."""
    whole = match.log.read_bytes()
    for length in range(len(whole)):
        text = whole[:length]
        match.log.write_bytes(text)
        lines = [line.decode() for line in text.split(b"\n")[:-1]]
        cut = run(match, "referee", "--cut", str(match.game), text=text)
        words = ["serve", str(match.game), "--port", str(free_port()), "--resume", str(match.log), "--wait", "0", "--quiet"]
        gone_on = run(match, *words)
        if not lines:
            if cut != (2, b"script 1\n") or gone_on != cut:
                raise Wrong(f"cut at {length}: {cut}, {gone_on}")
        elif cut[0] or gone_on != (3, b"") or run(match, "referee", str(match.game), text=match.log.read_bytes()) != cut:
            raise Wrong(f"cut at {length}: {cut}, {gone_on}")
        elif match.log.read_text().splitlines() != lines:
            raise Wrong(f"cut at {length}: the log that goes on has other lines")
    match.log.write_bytes(whole)
    return len(whole)


def crash(words: argparse.Namespace, folder: Path) -> tuple[str, int]:
    """Plays, kills and compares all matches, and says how far it is. Returns the record of the first one, and how often
    matches were killed."""
    chance = random.Random(words.seed)
    killed = 0
    first = ""
    for number in range(words.count):
        game = words.games[number % len(words.games)]
        match = Match(words.rbg, game, folder)
        seeds = [str(chance.randrange(10**6)) for _ in range(2)]
        whole = match.play([["--random", seed] for seed in seeds])
        assert whole is not None
        match.record.write_text(whole)
        match.log.unlink(missing_ok=True)
        again = match.play_again("--log", str(match.log))
        assert again is not None
        check(match, again)
        longest = match.lasted
        if number == 0:
            print(f"{cut_everywhere(match)} cuts of a log were looked at", flush=True)
            print(f"{check_faults(match)} faults name their file or port", flush=True)
            print(f"{check_failures(match)} failures in a match say what can't be written or accepted", flush=True)
            first = whole
        often = crash_once(match, chance, longest)
        killed += often
        print(f"match {number + 1} of {words.count}, {game.stem}: killed {often} times", flush=True)
    return first, killed


def crash_more(words: argparse.Namespace, folder: Path) -> None:
    """Kills halls, and lets two processes go on from one log; says how it went."""
    trial = Trial(words.rbg, words.games[0].parent, folder, memory=16)
    print(crash_halls(trial, words.games, words.halls, words.seed), flush=True)
    for kind in ("serve", "hall"):
        print(f"two processes would go on from one log of {kind}: {race(trial, kind, Stored(words.rbg, words.games[-1]))}", flush=True)


def main() -> int:
    parser = argparse.ArgumentParser(description=__doc__.splitlines()[0])
    parser.add_argument("games", type=Path, nargs="+", metavar="GAME")
    parser.add_argument("--rbg", default="./rbg", help="the program")
    parser.add_argument("--count", type=int, default=50, help="how many matches are killed")
    parser.add_argument("--halls", type=int, default=10, help="how many halls are killed")
    parser.add_argument("--seed", type=int, default=1)
    words = parser.parse_args()
    with tempfile.TemporaryDirectory() as folder:
        dripping = Dripping(words.rbg, words.games[0], Path(folder) / "dripping")
        try:
            first, killed = crash(words, Path(folder))
            crash_more(words, Path(folder))
            rounds = dripping.check(first)
        except Wrong as wrong:
            print(f"wrong: {wrong}", file=sys.stderr)
            return 1
        finally:
            end(dripping.referee, [])
    print(f"a match of bytes without an end lasted its minute, at least {rounds} rounds, and went on from its log")
    print(f"{words.count} matches, killed {killed} times: each record is good, and its log has the same match")
    return 0


if __name__ == "__main__":
    sys.exit(main())
