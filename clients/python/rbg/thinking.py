"""A player that tries moves out by playouts.

>>> from rbg import Game
>>> with Game.load("crates/rbg_games/data/tictactoe.rbg") as game:
...     state = game.state()
...     for index in (0, 2, 0, 2):  # three in a row lack one stone
...         _ = state.make(state.moves()[index])
...     print(state.make(Thinker(0.3, seed=1)(state, None)).scores)
[100, 0]
"""

import random
import time
from typing import Optional

from rbg.game import State
from rbg.playing import Clock
from rbg.places import Move

MOST = 256  # this many matches are played after each move at once, at most


def lead(scores: list[float], player: int) -> float:
    """By how much a player is ahead of the best other one.

    >>> lead([100.0, 0.0], 1), lead([100.0, 0.0], 2), lead([7.0], 1)
    (100.0, -100.0, 7.0)
    """
    others = scores[: player - 1] + scores[player:]
    return scores[player - 1] - max(others, default=0.0)


class Thinker:
    """Chooses the move whose playouts ended best, by rounds: after each of them the better half of the moves is left.

    It takes this many seconds, and no more than half of what is left of a turn. To try out all moves once can take longer
    than a round: it begins with as many, chosen at random, as the time is likely to suffice for.
    """

    def __init__(self, seconds: float, seed: Optional[int] = None):
        self.seconds, self.chance = seconds, random.Random(seed)
        self.cost = seconds / 100  # what a match takes, as the last ones did

    def __call__(self, state: State, clock: Optional[Clock] = None) -> Move:
        start = time.monotonic()
        seconds = self.seconds if clock is None or clock.left is None else min(self.seconds, clock.left / 2)
        left = state.moves()
        self.chance.shuffle(left)
        del left[max(4, int(seconds / self.cost / 6)) :]
        totals = {move: (0.0, 0) for move in left}
        rounds = max(1, (len(left) - 1).bit_length())
        for number in range(1, rounds + 1):
            if len(left) == 1:
                break
            won = self.round(state, left, totals, start + seconds * number / rounds)
            if won is not None:
                return won
            left.sort(key=lambda move: totals[move][0] / max(1, totals[move][1]), reverse=True)
            del left[(len(left) + 1) // 2 :]
        return left[0]

    def round(self, state: State, left: list[Move], totals: dict[Move, tuple[float, int]], end: float) -> Optional[Move]:
        """Plays on after each move until the time is over. A move that wins at once is returned."""
        while True:
            now = time.monotonic()
            if now >= end:
                return None
            count = min(MOST, max(1, int((end - now) / self.cost / len(left) / 2)))
            played = 0
            for tried in state.search(count, self.chance.getrandbits(62), left):
                ahead = lead(tried.means, state.player)
                if tried.matches == 0 and ahead > 0:
                    return tried.move
                total, matches = totals[tried.move]
                totals[tried.move] = (total + ahead * count, matches + count)
                played += tried.matches
            if played == 0:
                return None
            self.cost = max(1e-7, (self.cost + (time.monotonic() - now) / played) / 2)
