"""Games and the states of their play, over the library `librbg.so`, or over the program `rbg` if there is none.

>>> with Game.load("crates/rbg_games/data/tictactoe.rbg") as game:
...     state = game.state()
...     print(game.players, state.player, len(state.moves()), state.board[:4])
...     other = state.copy().make(state.moves()[0])
...     print(other.player, other.board.count(0), state.board.count(0), state.key == other.key)
...     print(game.unpack(other.pack()) == other, other.undo() == state)
...     print(sum(ending.matches for ending in state.playouts(100, seed=1)))
...     print([(it.move, it.matches) for it in state.search(10, seed=1)][4])
...     later = state.sample(3, seed=1)
...     print(len(later.history), later.player, later.undo(3) == state, state.sample(20, seed=1).is_over)
...     print(game.shape.directions, game.shape.edges[0], game.shape.actions[:3])
['first', 'second'] 1 9 [0, 0, 0, 0]
2 8 9 False
True True
100
('4 9 4 10', 10)
3 2 True True
['up', 'down', 'left', 'right'] [None, 3, None, 1] [('assign', [0]), ('assign', [1]), ('switch', [1])]
"""

import os
from pathlib import Path
from typing import Any, NoReturn, Optional, Union

from rbg.asking import AskedGround, AskedPlace
from rbg.backend import Refused
from rbg.library import Library, find_library
from rbg.loaded import LoadedGround, LoadedPlace
from rbg.spelling import Spelling
from rbg.places import MOST, SEEDS, Ending, Move, Place, Shape, Tried, within

LAST_ACTION = slice(3, 7)  # the bytes of a packed place that have the current vertex and the last action


class Game:
    """A game. It is used by one thread.

    It uses the library, if one is found: `library` is its path, or False for none. Else it uses a session of
    the program `rbg`, whose path is `program`. A file that is named has to be there. A text that is no game's is `Refused`
    by the layer that says so.
    """

    def __init__(self, text: bytes, file: Optional[str] = None, program: Optional[str] = None, library: Union[str, bool, None] = None):
        self.text, self.program, self.is_closed = text, program, False
        self.opened: Union[AskedGround, LoadedGround]
        path = None if library is False else find_library(None if library in (None, True) else os.fspath(library))
        if path is not None:
            self.opened = LoadedGround(Library.load(path), text)
        else:
            self.opened = AskedGround(file, program, text)
        self.names = self.opened.names()
        self.moves_heard: list[Move] = []
        self.spellings: Optional[Spelling] = None

    @classmethod
    def load(
        cls, file: Union[str, "os.PathLike[str]"], program: Optional[str] = None, library: Union[str, bool, None] = None
    ) -> "Game":
        """The game that a file describes."""
        return cls(Path(file).read_bytes(), os.fspath(file), program, library)

    @classmethod
    def read(cls, text: Union[str, bytes], program: Optional[str] = None, library: Union[str, bool, None] = None) -> "Game":
        """The game that a text describes."""
        return cls(text.encode() if isinstance(text, str) else text, None, program, library)

    def __enter__(self) -> "Game":
        return self

    def __exit__(self, *_: object) -> None:
        self.close()

    def close(self) -> None:
        """Ends the session, if there is one. Neither the game nor its states are asked any more: that is `Refused` by
        `closed`."""
        self.is_closed = True
        self.opened.close()

    @property
    def ground(self) -> Union[AskedGround, LoadedGround]:
        """What is asked, over the library or the session."""
        if self.is_closed:
            raise Refused("closed")
        return self.opened

    @property
    def players(self) -> list[str]:
        """The names of the players. Player 1 is the first of them."""
        return self.names[0]

    @property
    def pieces(self) -> list[str]:
        """The names of the pieces, by the numbers that `State.board` has."""
        return self.names[1]

    @property
    def variables(self) -> list[str]:
        """The names of the variables, of which the first are the players."""
        return self.names[2]

    @property
    def heard(self) -> list[Move]:
        """The moves that were heard, the keeper's too."""
        return self.moves_heard

    def state(self) -> "State":
        """The place of play: where it begins, or after the moves that were heard."""
        return State(self, [], self.ground.place(), len(self.heard))

    def hear(self, move: Move) -> None:
        """Follows a move as a referee passes it on, the keeper's too. States of before aren't asked any more, but for those
        that were unpacked: that is `Refused` by `heard`."""
        self.ground.hear(move)
        self.heard.append(move)

    def unpack(self, packed: bytes) -> "State":
        """The state of such bytes as `State.pack` gives. No move can be undone in it, and play may never reach it."""
        return State(self, [], self.ground.unpack(packed), None)

    @property
    def shape(self) -> Shape:
        """The bounds of the variables, the directions, the edges of the board, and the actions by position."""
        return self.ground.shape()

    def spell(self, move: Move) -> str:
        """The move for people. If there is no program `rbg_author`, these are its pairs."""
        if self.spellings is None:
            self.spellings = Spelling.of(self.text, self.program)
        return self.spellings.spell(move)


class State:
    """A state of play. Equal states have the same board, values, player, current vertex and place in the rules."""

    def __init__(self, game: Game, history: list[Move], at: Union[AskedPlace, LoadedPlace], after: Optional[int]):
        self.game, self.made, self.at = game, history, at
        self.after = after  # how many moves the game had heard; None if that doesn't matter
        self.known: dict[str, Any] = {}  # facts by the names of `Place`

    @property
    def stands(self) -> Union[AskedPlace, LoadedPlace]:
        """What is asked, over the library or the session."""
        if self.game.is_closed:
            raise Refused("closed")
        if self.after not in (None, len(self.game.heard)):
            raise Refused("heard")
        return self.at

    def fact(self, name: str) -> Any:
        """A fact by its name in `Place`."""
        return self.read(name, self.stands)

    def read(self, name: str, at: Union[AskedPlace, LoadedPlace]) -> Any:
        """A fact that is asked once."""
        if name not in self.known:
            self.known.update(at.facts(name))
        return self.known[name]

    @property
    def history(self) -> list[Move]:
        """The moves of the players that led here from where the state was taken from the game."""
        return self.made

    @property
    def place(self) -> Place:
        """All that is known of it."""
        return Place(*map(self.fact, Place._fields))

    @property
    def player(self) -> int:
        """The number of the player to move, from 1; 0 if play is over."""
        return self.fact("player")

    @property
    def is_over(self) -> bool:
        """Whether nobody has a legal move."""
        return self.scores is not None

    @property
    def scores(self) -> Optional[list[int]]:
        """The scores if play is over."""
        return self.fact("scores")

    @property
    def key(self) -> int:
        """A number of 64 bits that is the same for equal states, and hardly ever for others. The current vertex and the last
        action are part of it, so states that only differ by the way there have other keys: see `position_key`."""
        return self.fact("key")

    @property
    def position_key(self) -> bytes:
        """Bytes that are the same exactly if the player, the board and the values are: a key for a table of transpositions. It
        is enough where a player's turn always has the same rules, and these go to any square before they look at one."""
        packed = self.pack()
        return packed[: LAST_ACTION.start] + packed[LAST_ACTION.stop :]

    @property
    def board(self) -> list[int]:
        """The number of the piece on each vertex."""
        return self.fact("board")

    @property
    def values(self) -> dict[str, int]:
        """What the variables hold, by name. The first are the players."""
        return dict(zip(self.game.variables, self.fact("values")))

    def moves(self, most: Optional[int] = None) -> list[Move]:
        """The legal moves, or `most` of them if there are more: 1 to 1,000,000."""
        return self.stands.moves(None if most is None else within(most, 1, MOST))

    def make(self, move: Move) -> "State":
        """Makes a move, and the keeper's moves after it, in this state, which it returns."""
        self.stands.make(move)
        self.made, self.known = self.made + [move], {}
        return self

    def undo(self, moves: int = 1) -> "State":
        """Undoes moves, in this state, which it returns."""
        stands = self.stands
        if not 0 <= moves <= len(self.made):
            raise Refused("start")
        if moves:
            left = self.made[: len(self.made) - moves]
            stands.undo(moves, left)
            self.made, self.known = left, {}
        return self

    def copy(self) -> "State":
        """A state of its own at the place of this one."""
        copy = State(self.game, self.made, self.stands.copy(), self.after)
        copy.known = dict(self.known)
        return copy

    def __copy__(self) -> "State":
        return self.copy()

    def __deepcopy__(self, memo: object) -> "State":
        return self.copy()

    def __reduce__(self) -> NoReturn:
        raise TypeError("a state isn't pickled: State.pack gives its bytes, and Game.unpack reads them")

    def pack(self) -> bytes:
        """The state as bytes, which `Game.unpack` reads. They have nothing of the moves that led there: states are equal
        exactly if their bytes are."""
        return self.stands.pack()

    def playouts(self, count: int = 1, seed: int = 0) -> list[Ending]:
        """How this many random matches from here end, 1 to 1,000,000. The seed is below 2 ** 64, and always gives the same
        ones, those of `random` of `rbg ask`."""
        return self.stands.playouts(within(count, 1, MOST), within(seed, 0, SEEDS - 1))

    def sample(self, most: int, seed: int = 0) -> "State":
        """A state of its own, in which at most this many random moves were made, 1 to 1,000,000, and fewer only if play is
        over. Its history ends with them, and they can be undone. The seed is below 2 ** 64."""
        stands, moves = self.stands.sample(within(most, 1, MOST), within(seed, 0, SEEDS - 1))
        return State(self.game, self.made + moves, stands, self.after)

    def search(self, count: int, seed: int = 0, moves: Optional[list[Move]] = None) -> list[Tried]:
        """Tries out these moves, or all that are legal: this many random matches after each, 1 to 1,000,000. As in `search` of
        `rbg ask` the seed, which is below 2 ** 64, is the same after each move."""
        tried = self.moves() if moves is None else moves
        return self.stands.try_out(tried, within(count, 1, MOST), within(seed, 0, SEEDS - 1), len(self.game.players))

    def spell(self, move: Move) -> str:
        """A move of it for people."""
        return self.game.spell(move)

    def __eq__(self, other: object) -> bool:
        if not isinstance(other, State) or self.game is not other.game:
            return False
        return all(self.read(name, self.at) == other.read(name, other.at) for name in ("key", "board", "values"))

    def __hash__(self) -> int:
        return int(self.read("key", self.at))

    def __repr__(self) -> str:
        try:
            return f"<{len(self.made)} moves, board {self.read('board', self.at)}>"
        except Refused as refused:
            return f"<{len(self.made)} moves, {refused.word}>"
