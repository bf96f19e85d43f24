#!/usr/bin/env python3
"""Plays matches over `rbg serve` by players of the package in clients/python, and checks their records.

    package_trial.py GAME.. [--rbg FILE]

The first game is tic-tac-toe: package_calls.py tries what may be asked of it. In each game one player thinks and the other
one chooses at random. In one more game the keeper makes moves that a player could make too, and in another one each of two
moves ends play. In each game a seed gives the random moves that `rbg ask` makes for it. The match of the first game is played
once more: `rbg serve` is killed in the middle of it, and lets it go on from its log. Each game has two players.
"""

import argparse
import os
import random
import signal
import subprocess
import sys
import tempfile
import threading
import time
from pathlib import Path

from package_calls import check_calls
from served import Referee, Wrong, ended_before, is_good, listen

sys.path.insert(0, str(Path(__file__).resolve().parent / "python"))
import rbg  # noqa: E402

SHARED = """#players = white(100), black(100)
#pieces = e
#variables = n(40)
#board = rectangle(up,down,left,right,[e])
#rules = ([$ n = n + 1] (->white + ->black + ->>))*
"""
ENDING = """#players = white(100), black(100)
#pieces = e, w
#variables =
#board = rectangle(up,down,left,right,[e,w,e])
#rules = [$ white = 50, black = 50] ->white right {w} (left + right) {e} [w] ->> {}
"""
KILLED_AFTER = 5  # lines of the log
PATIENCE = 280  # seconds in which a match has to end


def by_chance(seed: int, pause: float = 0.0) -> rbg.playing.Choose:
    """Chooses at random, after a pause."""
    chance = random.Random(seed)

    def choose(state: rbg.State, clock: rbg.Clock) -> str:
        time.sleep(pause)
        return chance.choice(state.moves())

    return choose


class Table:
    """A referee and its players, of which each plays in a thread of its own."""

    def __init__(self, program: str, game: Path, choosers: list[rbg.playing.Choose], *words: str):
        self.referee: Referee
        self.referee, self.port = listen([program, "serve", str(game), "--minutes", "5", *words])
        self.outcomes: list[rbg.Outcome] = []
        self.threads = []
        for seat, choose in enumerate(choosers, 1):
            thread = threading.Thread(target=self.play, args=(program, choose))
            thread.start()
            self.threads.append(thread)
            if ended_before(self.referee, f"seat {seat} connected\n") is not None:
                raise Wrong(f"the referee ended before seat {seat} was taken")

    def play(self, program: str, choose: rbg.playing.Choose) -> None:
        self.outcomes.append(rbg.play(self.port, choose, program=program))

    def record(self) -> str:
        """The record of the match, after its end."""
        record, _ = self.referee.communicate(timeout=PATIENCE)
        for thread in self.threads:
            thread.join()
        last = record.splitlines()[-1]
        for outcome in self.outcomes:
            if outcome.refused is not None or outcome.end is None or outcome.end not in last:
                raise Wrong(f"a player heard {outcome}, and the record ends with {last}")
        return record

    def kill(self) -> None:
        self.referee.send_signal(signal.SIGKILL)
        self.referee.communicate()
        for thread in self.threads:
            thread.join()


def check(program: str, game: Path, record: str, folder: Path) -> str:
    """The last line of a record, which is good and was played to its end."""
    file = folder / "record"
    file.write_text(record)
    last = record.splitlines()[-1]
    if not is_good(program, game, file) or " E0 " not in last:
        raise Wrong(f"the record isn't good:\n{record}")
    return last


def resumed(program: str, game: Path, folder: Path) -> str:
    """A match that is killed in the middle and goes on."""
    log = folder / "log"
    first = Table(program, game, [by_chance(1, 0.05), by_chance(2, 0.05)], "--log", str(log))
    while len(log.read_text().splitlines()) < KILLED_AFTER and first.referee.poll() is None:
        time.sleep(0.01)
    first.kill()
    table = Table(program, game, [by_chance(3), by_chance(4)], "--resume", str(log))
    return check(program, game, table.record(), folder)


def compare_samples(program: str, game: Path) -> None:
    """A seed gives the same random moves here and in `rbg ask`."""
    for seed, most in [(7, 12), (2**64 - 1, 1), (3, 10_000)]:
        asked = subprocess.run([program, "ask", str(game)], input=f"sample {seed} {most}\n", capture_output=True, text=True, check=True)
        first, *lines = asked.stdout.splitlines()
        made = rbg.Game.load(str(game)).state().sample(most, seed).history
        if made != lines[: int(first.split()[1])]:
            raise Wrong(f"seed {seed} makes other moves in rbg ask: {made[:3]} and {lines[:3]}")


def main() -> int:
    parser = argparse.ArgumentParser(description=__doc__.splitlines()[0])
    parser.add_argument("games", type=Path, nargs="+", metavar="GAME")
    parser.add_argument("--rbg", default="./rbg", help="the program")
    words = parser.parse_args()
    program = os.path.abspath(words.rbg)
    with tempfile.TemporaryDirectory() as name:
        folder = Path(name)
        shared, ending = folder / "shared.rbg", folder / "ending.rbg"
        shared.write_text(SHARED)
        ending.write_text(ENDING)
        try:
            print(f"{words.games[0].name}: {check_calls(program, words.games[0])}", flush=True)
            for game in words.games:
                compare_samples(program, game)
                table = Table(program, game, [rbg.Thinker(0.1, 1), by_chance(1)])
                print(f"{game.name}: {check(program, game, table.record(), folder)}, good", flush=True)
            table = Table(program, shared, [by_chance(1), by_chance(2)])
            print(f"{shared.name}: {check(program, shared, table.record(), folder)}, good", flush=True)
            table = Table(program, ending, [rbg.Thinker(0.3, 1), by_chance(2)])
            print(f"{ending.name}: {check(program, ending, table.record(), folder)}, good", flush=True)
            print(f"{words.games[0].name}, resumed: {resumed(program, words.games[0], folder)}, good")
        except Wrong as wrong:
            print(f"wrong: {wrong}", file=sys.stderr)
            return 1
    return 0


if __name__ == "__main__":
    sys.exit(main())
