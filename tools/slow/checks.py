"""Checks on names and numbers (docs/LANGUAGE.md, "Checks on names and numbers"), and the game that comes out of them."""

from collections import namedtuple

import boards
import grammar
import macros
import tokens
from refusals import Refused

MOST_BOUND = 1_000_000_000
MOST_NUMBER = 9_223_372_036_854_775_807
MOST = {"players": 8, "pieces": 1_000, "variables": 64, "directions": 64, "positions": 20_000}
MOST_PATTERNS = 8


# An action of the rules, kept by its position. Names are numbers here, but that of a direction.
Shift = namedtuple("Shift", "direction")
On = namedtuple("On", "pieces")
Off = namedtuple("Off", "piece")
Assignment = namedtuple("Assignment", "variable value")
Comparison = namedtuple("Comparison", "left relation right")
Switch = namedtuple("Switch", "player")
Pattern = namedtuple("Pattern", "positive inside")

# The rules are positions, and sums, sequences and stars of rules. Arithmetic has these leaves.
Number = namedtuple("Number", "value")
Variable = namedtuple("Variable", "index")
CountOf = namedtuple("CountOf", "piece")


class Game:
    """The names are lists, those of the players the first ones of `variables`; `first_pieces` has the number of a piece
    for each vertex, `ways` the vertex to which a pair `(vertex, direction)` leads, and `actions` begins at position 1."""

    def __init__(self, players, pieces, variables, bounds):
        self.players, self.pieces, self.variables, self.bounds = players, pieces, variables, bounds
        self.first_pieces, self.directions, self.ways = [], [], {}
        self.actions, self.rules = [None], None


def load(text):
    """The game of a text, or its refusal."""
    return Checker(grammar.parse(macros.expand(tokens.cut(text)))).check()


def unknown_name(name):
    return Refused("game", 1, "UnknownName", name.at)


def too_many(what, count):
    if count > MOST[what]:
        raise Refused("game", 6, "TooMany", what)


def number_within(token, most):
    """The value of a number, which may have any number of digits."""
    digits = token.text.lstrip("0") or "0"
    if len(digits) > len(str(most)) or int(digits) > most:
        raise Refused("game", 3, "Bound", token.at)
    return int(digits)


class Checker:
    def __init__(self, description):
        self.description = description

    def check(self):
        self.check_names()
        self.check_board()
        self.patterns_around = 0
        self.game.rules = self.rules(self.description.rules)
        return self.game

    # 1. Players, variables and pieces

    def check_names(self):
        written = self.description
        variables, bounds, pieces = {}, [], {}
        for name, bound in written.players + written.variables:
            add_name(variables, name)
            bounds.append(number_within(bound, MOST_BOUND))
        for name in written.pieces:
            add_name(pieces, name)
        too_many("players", len(written.players))
        too_many("pieces", len(pieces))
        too_many("variables", len(variables))
        self.variable_numbers, self.piece_numbers = variables, pieces
        self.player_numbers = {name.text: index for index, (name, _) in enumerate(written.players, 1)}
        self.game = Game(list(self.player_numbers), list(pieces), list(variables), bounds)

    # 2. The board

    def check_board(self):
        board = self.description.board
        self.game.first_pieces = [self.piece(name) for name in boards.cells_of(board)]
        self.game.directions = boards.directions_of(board)
        too_many("directions", len(self.game.directions))
        self.game.ways = boards.ways_of(board)

    def piece(self, name):
        return known(self.piece_numbers, name)

    # 3. The rules, in order of the text

    def rules(self, tree):
        if isinstance(tree, (grammar.Sum, grammar.Sequence)):
            return type(tree)([self.rules(part) for part in tree.parts])
        if isinstance(tree, grammar.Star):
            return grammar.Star(self.rules(tree.inside))
        position = len(self.game.actions)
        too_many("positions", position)
        self.game.actions.append(None)
        self.game.actions[position] = self.action(tree)
        return position

    def action(self, written):
        """For one action: what is wrong with it as a whole, then its names and numbers from the left."""
        if isinstance(written, grammar.Pattern):
            return self.pattern(written)
        if isinstance(written, grammar.Switch):
            return self.switch(written)
        if isinstance(written, grammar.Shift):
            if written.direction.text not in self.game.directions:
                raise unknown_name(written.direction)
            return Shift(written.direction.text)
        if isinstance(written, grammar.On):
            return On({self.piece(name) for name in written.pieces})
        if isinstance(written, grammar.Off):
            return Off(self.piece(written.piece))
        if isinstance(written, grammar.Assignment):
            variable = known(self.variable_numbers, written.variable)
            return Assignment(variable, self.arithmetic(written.value))
        return Comparison(self.arithmetic(written.left), written.relation, self.arithmetic(written.right))

    def pattern(self, written):
        if self.patterns_around == MOST_PATTERNS:
            raise Refused("game", 5, "PatternTooDeep", written.brace.at)
        self.patterns_around += 1
        inside = self.rules(written.inside)
        self.patterns_around -= 1
        return Pattern(written.positive, inside)

    def switch(self, written):
        if self.patterns_around > 0:
            raise Refused("game", 4, "SwitchInPattern", written.arrow.at)
        return Switch(known(self.player_numbers, written.player) if written.player else 0)

    def arithmetic(self, written):
        if isinstance(written, grammar.Arithmetic):
            first = self.arithmetic(written.first)
            return grammar.Arithmetic(first, [(sign, self.arithmetic(part)) for sign, part in written.operations])
        if isinstance(written, grammar.Minus):
            return grammar.Minus(self.arithmetic(written.inside))
        if written.kind == "number":
            return Number(number_within(written, MOST_NUMBER))
        if written.text in self.variable_numbers:
            return Variable(self.variable_numbers[written.text])
        return CountOf(self.piece(written))


def add_name(numbers, name):
    if name.text in numbers:
        raise Refused("game", 2, "SameName", name.at)
    numbers[name.text] = len(numbers)


def known(numbers, name):
    if name.text not in numbers:
        raise unknown_name(name)
    return numbers[name.text]
