"""The rules of board games, over the library `librbg.so` or the referee `rbg`, and players for its matches.

>>> import random, rbg
>>> with rbg.Game.load("crates/rbg_games/data/tictactoe.rbg") as game:
...     state, chance = game.state(), random.Random(1)
...     while not state.is_over:
...         _ = state.make(chance.choice(state.moves()))
...     print(sum(state.scores))
100

A player for a match of `rbg serve` is a function that chooses a move:

    rbg.play(4710, lambda state, clock: random.choice(state.moves()))
"""

from rbg.aec import Environment
from rbg.backend import Refused
from rbg.game import Game, State
from rbg.playing import Clock, Outcome, play
from rbg.spiel import Actions, SpielGame, SpielState
from rbg.thinking import Thinker
from rbg.places import Ending, Place, Shape, Tried

__all__ = [
    "Actions",
    "Clock",
    "Ending",
    "Environment",
    "Game",
    "Outcome",
    "Place",
    "Refused",
    "Shape",
    "SpielGame",
    "SpielState",
    "State",
    "Thinker",
    "Tried",
    "play",
]
