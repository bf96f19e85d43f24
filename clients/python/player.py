#!/usr/bin/env python3
"""A player for `rbg serve` and `rbg hall`: it follows any match by the library, and chooses its moves by UCT.

    player.py PORT [MILLISECONDS [SEED [MATCH]]]

It thinks for MILLISECONDS about a move, and at most for half of what is left of its turn. If neither `./librbg.so` nor
`./rbg` is there, the variable RBG_LIBRARY or RBG says where one is.
"""

import argparse
import math
import random
import sys
import time
from pathlib import Path
from typing import Optional

sys.path.insert(0, str(Path(__file__).resolve().parent))
import rbg  # noqa: E402


class Node:
    """A place that was met. Its moves are tried in an order that chance gives."""

    def __init__(self, state: rbg.State, chance: random.Random):
        self.state, self.player, self.scores = state, state.player, state.scores
        self.untried = state.moves()
        chance.shuffle(self.untried)
        self.children: list[tuple[str, Node]] = []
        self.visits, self.total = 0, 0.0  # the total is of the player who moved here

    def grow(self, chance: random.Random) -> "Node":
        """The child to which the next move leads that wasn't tried."""
        move = self.untried.pop()
        child = Node(self.state.copy().make(move), chance)
        self.children.append((move, child))
        return child

    def best(self, highest: float) -> "Node":
        """The child that is worth most."""
        log = math.log(self.visits)

        def worth(child: Node) -> float:
            return child.total / child.visits / highest + 0.7 * math.sqrt(log / child.visits)

        return max((child for _, child in self.children), key=worth)


class Search:
    """A player that looks ahead by UCT."""

    def __init__(self, seconds: float, seed: int):
        self.seconds, self.chance = seconds, random.Random(seed)
        self.highest = 1.0  # the highest score that was met

    def __call__(self, state: rbg.State, clock: rbg.Clock) -> str:
        seconds = self.seconds if clock.left is None else min(self.seconds, clock.left / 2)
        until = time.monotonic() + seconds
        root = Node(state.copy(), self.chance)
        while not root.children or (len(root.untried) + len(root.children) > 1 and time.monotonic() < until):
            self.play(root)
        return max(root.children, key=lambda it: it[1].visits)[0]

    def play(self, root: Node) -> None:
        """One match: through the tree, and then at random. Its scores are counted in each place that it meets."""
        way = [root]
        while way[-1].scores is None and (len(way) == 1 or way[-1].visits):
            here = way[-1]
            way.append(here.grow(self.chance) if here.untried else here.best(self.highest))
        scores = way[-1].scores or self.by_chance(way[-1].state)
        for before, child in zip(way, way[1:]):
            score = scores[before.player - 1] if scores else 0
            self.highest = max(self.highest, score)
            child.visits += 1
            child.total += score
        root.visits += 1

    def by_chance(self, state: rbg.State) -> Optional[list[int]]:
        """The scores of a random match. One that is stopped has none."""
        [ending] = state.playouts(1, self.chance.getrandbits(63))
        return ending.scores


def main() -> int:
    parser = argparse.ArgumentParser(description="Plays a match of `rbg serve` or `rbg hall`, and looks ahead by UCT.")
    parser.add_argument("port", type=int, metavar="PORT", help="the port on 127.0.0.1 on which the match is served")
    parser.add_argument("milliseconds", type=int, metavar="MILLISECONDS", nargs="?", default=100, help="for a move (100)")
    parser.add_argument("seed", type=int, metavar="SEED", nargs="?", default=1, help="of its chance (1)")
    parser.add_argument("match", type=int, metavar="MATCH", nargs="?", help="the match of a hall that it joins")
    words = parser.parse_args()
    outcome = rbg.play(words.port, Search(words.milliseconds / 1000, words.seed), match=words.match)
    print(outcome.end or f"refused: {outcome.refused}")
    return 0 if outcome.end else 3


if __name__ == "__main__":
    sys.exit(main())
