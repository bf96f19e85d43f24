#!/usr/bin/env python3
"""A player that always says the same move at the same place: a checksum of its seed and of the moves so far chooses it.

    steady.py PORT --seed S [--rbg FILE] [--slow MS]

So a match that was stopped and goes on ends as if it hadn't been stopped, and the programs of a tournament play the same
matches each time, unlike those that begin their chance anew if they are started anew.
"""

import argparse
import hashlib
import sys
import time
from pathlib import Path

sys.path.insert(0, str(Path(__file__).resolve().parent.parent / "python"))
import rbg  # noqa: E402


def chosen(seed, made, moves):
    """
    >>> chosen(1, ["0 3"], ["1 3", "2 3", "3 3"]), chosen(2, ["0 4"], ["1 3", "2 3", "3 3"])
    ('2 3', '1 3')
    """
    digest = hashlib.sha256(f"{seed}:{';'.join(made)}".encode()).digest()
    return moves[int.from_bytes(digest[:8], "big") % len(moves)]


def main():
    parser = argparse.ArgumentParser(description=__doc__.splitlines()[0])
    parser.add_argument("port", type=int)
    parser.add_argument("--seed", type=int, default=1)
    parser.add_argument("--rbg", metavar="PROGRAM", help="the program rbg: that of the variable RBG, or ./rbg")
    parser.add_argument("--slow", type=float, default=0.0, metavar="MS", help="milliseconds to wait before each move")
    words = parser.parse_args()

    def choose(state, clock):
        """Chooses by the moves that were made, the keeper's too."""
        time.sleep(words.slow / 1000)
        return chosen(words.seed, state.game.heard, state.moves())

    outcome = rbg.play(words.port, choose, program=words.rbg, library=False)
    print(outcome.end)
    return 0 if outcome.end else 3


if __name__ == "__main__":
    sys.exit(main())
