"""What is known of states, and what may be asked of them: the same over the library and over `rbg ask`."""

import operator
import re
from typing import NamedTuple, Optional

from rbg.backend import Refused

Move = str  # the pairs of a vertex and a position, as in messages

MOST = 1_000_000  # so many moves or random matches are asked for at once, at most
SEEDS = 2**64  # a seed is below it
PAIR = "(?:0|[1-9][0-9]{0,8}) (?:0|[1-9][0-9]{0,8})"
SPELT = re.compile(f"{PAIR}(?: {PAIR}){{0,199}}")


def spelt(move: Move) -> Move:
    """A move, if it is spelt as in messages: each has one spelling.

    >>> spelt("4 9 4 10")
    '4 9 4 10'
    >>> for move in ("04 9", "+4 9", "1_0 9", "4  9", "4 9 ", "4 9\\n", "4", "", "4 9999999999", "0 1 " * 200 + "0 1"):
    ...     try:
    ...         print(spelt(move))
    ...     except Refused as refused:
    ...         assert refused.word == "form"
    """
    if not SPELT.fullmatch(move):
        raise Refused("form", repr(move))
    return move


def within(number: int, least: int, most: int) -> int:
    """A whole number, if it is in this range.

    >>> within(2**64 - 1, 0, SEEDS - 1) == SEEDS - 1
    True
    """
    if not least <= operator.index(number) <= most:
        raise Refused("form", f"{number} isn't {least} to {most}")
    return operator.index(number)


class Ending(NamedTuple):
    """How random matches ended: the scores, none if they were stopped, and how many matches ended so."""

    scores: Optional[list[int]]
    matches: int


class Tried(NamedTuple):
    """What became of a move that was tried out: how many matches were played after it, and the mean score of each player
    in those that weren't stopped, 0 if all were. If it ends play these are the scores, and no match was played."""

    move: Move
    matches: int
    means: list[float]


class Place(NamedTuple):
    """All that is known of a place. The player is 0 if the keeper is to move, or nobody is."""

    player: int
    scores: Optional[list[int]]
    moves: int
    key: int
    board: list[int]
    values: list[int]


class Shape(NamedTuple):
    """What a game is beside its names: the greatest number of each variable, the directions, where each of them leads from each
    vertex, and at each position of the rules, from 1, the kind of the action and the numbers of what it names."""

    bounds: list[int]
    directions: list[str]
    edges: list[list[Optional[int]]]
    actions: list[tuple[str, list[int]]]


def tried(move: Move, scores: Optional[list[int]], endings: list[Ending], players: int) -> Tried:
    """What became of a move: play is over there with these scores, or matches after it ended so.

    >>> tried("0 1", None, [Ending([50, 0], 2), Ending(None, 1)], 2)
    Tried(move='0 1', matches=3, means=[50.0, 0.0])
    >>> tried("0 1", [5, 6], [], 2)
    Tried(move='0 1', matches=0, means=[5.0, 6.0])
    """
    if scores is not None:
        return Tried(move, 0, list(map(float, scores)))
    ended = [(ending.scores, ending.matches) for ending in endings if ending.scores is not None]
    total = sum(matches for _, matches in ended)
    sums = [sum(found[player] * matches for found, matches in ended) for player in range(players)]
    return Tried(move, sum(ending.matches for ending in endings), [it / total if total else 0.0 for it in sums])
