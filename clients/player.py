#!/usr/bin/env python3
"""A player for matches of `rbg serve` and `rbg hall`, for trials.

It sends the first legal move, random moves (--random), moves that playouts choose (--think), or those of a record
(--record), as long as the match goes as the record says. If a move is refused, it reports that and stops.
"""

import argparse
import random
import sys
from pathlib import Path
from typing import Optional

sys.path.insert(0, str(Path(__file__).resolve().parent / "python"))
import rbg  # noqa: E402

REASONS = {
    1: "not of the protocol",
    2: "not this seat's turn",
    3: "not a legal move",
    4: "more than 200 pairs",
    5: "no such seat",
}


class Recorded:
    """Says the moves of a record of either version.

    >>> recorded = Recorded(["rbg 2", "players a b", "start 9 0", "0 0 0 1", "5 1 0 3", "7 -"])
    >>> recorded.moves, recorded.next(["0 1"]), recorded.next(["0 2"]), recorded.next(["0 1", "0 3"])
    (['0 1', '0 3'], '0 3', None, None)
    """

    def __init__(self, lines: list[str]):
        skipped = {"rbg 1": 1, "rbg 2": 2}[lines[0]]
        self.moves = [line.split(" ", skipped)[skipped] for line in lines[1 if skipped == 1 else 3 : -1]]

    def next(self, heard: list[str]) -> Optional[str]:
        """The move after those that were heard, if the record has it."""
        made = len(heard)
        return self.moves[made] if self.moves[:made] == heard and made < len(self.moves) else None

    def __call__(self, state: rbg.State, clock: rbg.Clock) -> Optional[str]:
        return self.next(state.game.heard)


def why_refused(reason: Optional[int]) -> str:
    """Why a match has no end for this player.

    >>> why_refused(3), why_refused(None)
    ('refused by R3: not a legal move', 'the stream has ended')
    """
    return "the stream has ended" if reason is None else f"refused by R{reason}: {REASONS.get(reason, 'another reason')}"


def main() -> int:
    parser = argparse.ArgumentParser(description=__doc__.splitlines()[0])
    parser.add_argument("port", type=int, help="the port on 127.0.0.1 on which the match is served")
    parser.add_argument("--random", type=int, metavar="SEED", help="choose at random; the seed of --think")
    parser.add_argument("--think", type=int, metavar="MS", help="choose by playouts for so long, at most half a turn")
    parser.add_argument("--rbg", metavar="PROGRAM", help="the program rbg, which is asked for the rules: that of the variable RBG, or ./rbg")
    parser.add_argument("--record", metavar="FILE", help="send the moves of a record")
    parser.add_argument("--match", type=int, metavar="K", help="join match K of a hall")
    words = parser.parse_args()
    chance = random.Random(words.random)
    choose: rbg.playing.Choose = lambda state, clock: state.moves(1)[0]
    if words.record is not None:
        choose = Recorded(Path(words.record).read_text(encoding="ascii").splitlines())
    elif words.think is not None:
        choose = rbg.Thinker(words.think / 1000, words.random)
    elif words.random is not None:
        choose = lambda state, clock: chance.choice(state.moves())
    outcome = rbg.play(words.port, choose, match=words.match, program=words.rbg, library=False)
    print(f"player {outcome.player}: {outcome.end or why_refused(outcome.refused)}")
    return 0 if outcome.end else 3


if __name__ == "__main__":
    sys.exit(main())
