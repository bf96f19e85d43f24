"""Games and states by the names of OpenSpiel, for programs that learn.

Moves are numbered as they are met, so a table of actions grows: `num_distinct_actions` says how many there are by now.

>>> from rbg import Game
>>> with Game.load("crates/rbg_games/data/tictactoe.rbg") as game:
...     spiel = SpielGame(game)
...     state = spiel.new_initial_state()
...     print(state.current_player(), state.legal_actions(), spiel.observation_tensor_shape())
...     other = state.clone()
...     other.apply_action(4)
...     print(other.current_player(), sum(other.legal_actions_mask()), other.action_to_string(1, other.legal_actions()[0]))
...     while not other.is_terminal():
...         other.apply_action(other.legal_actions()[0])
...     print(other.returns(), state.is_terminal(), state.child(4).current_player())
0 [0, 1, 2, 3, 4, 5, 6, 7, 8] [7, 9]
1 8 (0,0)[o] ->>
[50.0, 50.0] False 1
"""

from typing import Any, Iterable, Optional

from rbg.game import Game, State
from rbg.places import Move

try:
    import numpy
except ImportError:
    numpy = None  # type: ignore[assignment]

TERMINAL = -4  # the number of the player to move if play is over


class Actions:
    """Numbers of moves, given as the moves are met."""

    def __init__(self) -> None:
        self.numbers: dict[Move, int] = {}
        self.moves: list[Move] = []

    def __len__(self) -> int:
        return len(self.moves)

    def number(self, move: Move) -> int:
        """The number of a move, a new one if it is met first."""
        if move not in self.numbers:
            self.numbers[move] = len(self.moves)
            self.moves.append(move)
        return self.numbers[move]


def planes(state: State, array: bool = True) -> Any:
    """What is seen of a state, a row for each vertex's numbers: which vertices hold each piece, then what each variable
    holds, then which player is to move. An array of numpy if there is one, else lists."""
    place, game = state.place, state.game
    rows: list[list[float]] = [[float(it == piece) for it in place.board] for piece in range(len(game.pieces))]
    rows += [[float(value)] * len(place.board) for value in place.values]
    rows += [[float(place.player == player)] * len(place.board) for player in range(1, len(game.players) + 1)]
    return numpy.array(rows, dtype=numpy.float32) if array and numpy is not None else rows


def mask(numbers: Iterable[int], length: int) -> list[int]:
    """A 1 for each of these numbers, and else a 0."""
    flags = [0] * length
    for number in numbers:
        flags[number] = 1
    return flags


class SpielGame:
    """A game by the names of OpenSpiel."""

    def __init__(self, game: Game):
        self.game, self.actions = game, Actions()

    def num_players(self) -> int:
        return len(self.game.players)

    def num_distinct_actions(self) -> int:
        """How many moves have been met by now."""
        return len(self.actions)

    def observation_tensor_shape(self) -> list[int]:
        rows = len(self.game.pieces) + len(self.game.variables) + len(self.game.players)
        return [rows, len(self.game.state().board)]

    def new_initial_state(self) -> "SpielState":
        return SpielState(self, self.game.state())


class SpielState:
    """A state by the names of OpenSpiel. Players are numbered from 0."""

    def __init__(self, game: SpielGame, state: State):
        self.game, self.state = game, state

    def get_game(self) -> SpielGame:
        return self.game

    def current_player(self) -> int:
        return TERMINAL if self.state.is_over else self.state.player - 1

    def is_terminal(self) -> bool:
        return self.state.is_over

    def is_chance_node(self) -> bool:
        """Never: a game has no dice."""
        return False

    def is_simultaneous_node(self) -> bool:
        """Never: one player is to move."""
        return False

    def legal_actions(self, player: Optional[int] = None) -> list[int]:
        """The numbers of the legal moves: none for a player who isn't to move."""
        if self.is_terminal() or player not in (None, self.current_player()):
            return []
        return sorted(self.game.actions.number(move) for move in self.state.moves())

    def legal_actions_mask(self, player: Optional[int] = None) -> list[int]:
        """A 1 for each legal move among those that have been met by now."""
        numbers = self.legal_actions(player)
        return mask(numbers, len(self.game.actions))

    def apply_action(self, action: int) -> None:
        self.state.make(self.game.actions.moves[action])

    def undo_action(self, player: int, action: int) -> None:
        """Undoes the last move, whatever is given."""
        self.state.undo()

    def child(self, action: int) -> "SpielState":
        """The state after a move."""
        child = self.clone()
        child.apply_action(action)
        return child

    def action_to_string(self, player: int, action: int) -> str:
        return self.state.spell(self.game.actions.moves[action])

    def string_to_action(self, text: str) -> int:
        """The number of the legal move that is spelt so."""
        for move in self.state.moves():
            if text in (move, self.state.spell(move)):
                return self.game.actions.number(move)
        raise ValueError("no legal move is spelt so")

    def returns(self) -> list[float]:
        """The scores: 0 for each player before the end."""
        return [float(score) for score in self.state.scores or [0] * self.game.num_players()]

    def player_return(self, player: int) -> float:
        return self.returns()[player]

    def rewards(self) -> list[float]:
        """What the last move has brought: all comes at the end."""
        return self.returns()

    def observation_tensor(self, player: int = 0) -> Any:
        """What is seen: each player sees all. See `planes`."""
        return planes(self.state)

    def clone(self) -> "SpielState":
        return SpielState(self.game, self.state.copy())

    def __copy__(self) -> "SpielState":
        return self.clone()

    def __deepcopy__(self, memo: object) -> "SpielState":
        return self.clone()

    def history(self) -> list[int]:
        return [self.game.actions.number(move) for move in self.state.history]

    def move_number(self) -> int:
        return len(self.state.history)

    def __str__(self) -> str:
        return repr(self.state)
