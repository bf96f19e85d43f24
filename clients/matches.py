#!/usr/bin/env python3
"""Plays a match of each of some games over `rbg serve`, and checks its record.

    matches.py GAME.. [--rbg FILE] [--think MS]

Both players are the example client: the first one thinks, the second one chooses at random. Each game has two players.
"""

import argparse
import sys
import tempfile
from pathlib import Path

from served import Match, Wrong, is_good

PATIENCE = 280  # seconds in which a match has to end


def play(match: Match, think: int) -> str:
    """Plays a match, and returns the last line of its record, which is good."""
    record = match.play([["--think", str(think)], ["--random", "1"]])
    assert record is not None
    match.record.write_text(record)
    if not is_good(match.rbg, match.game, match.record):
        raise Wrong(f"the record isn't good:\n{record}")
    return record.splitlines()[-1]


def main() -> int:
    parser = argparse.ArgumentParser(description=__doc__.splitlines()[0])
    parser.add_argument("games", type=Path, nargs="+", metavar="GAME")
    parser.add_argument("--rbg", default="./rbg", help="the program")
    parser.add_argument("--think", type=int, default=200, metavar="MS", help="how long the first player thinks about a move")
    words = parser.parse_args()
    with tempfile.TemporaryDirectory() as folder:
        for game in words.games:
            try:
                print(f"{game.name}: {play(Match(words.rbg, game, Path(folder), PATIENCE), words.think)}, good", flush=True)
            except Wrong as wrong:
                print(f"{game.name}: wrong: {wrong}", file=sys.stderr)
                return 1
    print(f"{len(words.games)} matches, each record is good")
    return 0


if __name__ == "__main__":
    sys.exit(main())
