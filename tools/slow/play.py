"""The meaning of rules (docs/LANGUAGE.md, "Meaning"): semi-states, actions, and what may come next."""

import operator

import checks
import grammar

KEEPER = 0
RELATIONS = {
    "==": operator.eq, "!=": operator.ne, "<": operator.lt, "<=": operator.le, ">": operator.gt, ">=": operator.ge,
}
MODIFIERS = (checks.Off, checks.Assignment, checks.Switch)


# What may come next


class Follow:
    """For each position, and for the beginning of the rules and of each pattern: which positions may come next, in
    increasing order, and whether a word of the expression (the rules, or the inside of the pattern) may end there."""

    END = 0

    def __init__(self, game):
        self.after = {}  # by position
        self.begin = {None: split(self.lay(game.rules, frozenset([self.END])))}  # by the position of a pattern
        for position, action in enumerate(game.actions):
            if isinstance(action, checks.Pattern):
                self.begin[position] = split(self.lay(action.inside, frozenset([self.END])))

    def lay(self, rules, after):
        """What begins `rules` if `after` comes after them. Notes on the way what comes after each position."""
        if isinstance(rules, int):
            self.after[rules] = split(after)
            return frozenset([rules])
        if isinstance(rules, grammar.Sum):
            return frozenset().union(*[self.lay(part, after) for part in rules.parts])
        if isinstance(rules, grammar.Sequence):
            for part in reversed(rules.parts):
                after = self.lay(part, after)
            return after
        again = after | firsts(rules.inside)[0]
        self.lay(rules.inside, again)
        return again


def split(after):
    """A set of positions, in which 0 is the end, as the positions in order and whether the end is there."""
    return sorted(after - {Follow.END}), Follow.END in after


def firsts(rules):
    """The positions with which the words of `rules` begin, and whether the empty word is one of them."""
    if isinstance(rules, int):
        return frozenset([rules]), False
    if isinstance(rules, grammar.Star):
        return firsts(rules.inside)[0], True
    parts = [firsts(part) for part in rules.parts]
    if isinstance(rules, grammar.Sum):
        return frozenset().union(*[first for first, _ in parts]), any(empty for _, empty in parts)
    begin = frozenset()
    for first, empty in parts:
        begin |= first
        if not empty:
            return begin, False
    return begin, True


# Arithmetic


def value(expression, state):
    """The value of arithmetic, or None if it has none."""
    if isinstance(expression, checks.Number):
        return expression.value
    if isinstance(expression, checks.Variable):
        return state.variables[expression.index]
    if isinstance(expression, checks.CountOf):
        return state.pieces.count(expression.piece)
    if isinstance(expression, grammar.Minus):
        return calculate("-", 0, value(expression.inside, state))
    result = value(expression.first, state)
    for sign, operand in expression.operations:
        result = calculate(sign, result, value(operand, state))
    return result


def calculate(sign, left, right):
    if left is None or right is None or (sign == "/" and right == 0):
        return None
    if sign == "+":
        result = left + right
    elif sign == "-":
        result = left - right
    elif sign == "*":
        result = left * right
    else:
        result = abs(left) // abs(right)
        if (left < 0) != (right < 0):
            result = -result
    return result if -(2**63) <= result < 2**63 else None


# Semi-states


class SemiState:
    def __init__(self, game):
        self.game = game
        self.player = KEEPER
        self.pieces = list(game.first_pieces)
        self.variables = [0] * len(game.variables)
        self.vertex = 0

    def step(self, action, vertex):
        """The vertex to which a shift leads, the vertex itself if another action is valid there, else None. Patterns
        are questions of their own."""
        if isinstance(action, checks.Shift):
            return self.game.ways.get((vertex, action.direction))
        if isinstance(action, checks.On):
            return vertex if self.pieces[vertex] in action.pieces else None
        if isinstance(action, checks.Assignment):
            new = value(action.value, self)
            return vertex if new is not None and 0 <= new <= self.game.bounds[action.variable] else None
        if isinstance(action, checks.Comparison):
            left, right = value(action.left, self), value(action.right, self)
            holds = left is not None and right is not None and RELATIONS[action.relation](left, right)
            return vertex if holds else None
        return vertex

    def apply(self, action, vertex):
        """Applies a modifier that is valid at the vertex. What is given back undoes it."""
        before = self.vertex
        self.vertex = vertex
        if isinstance(action, checks.Off):
            table, index, new = self.pieces, vertex, action.piece
        elif isinstance(action, checks.Assignment):
            table, index, new = self.variables, action.variable, value(action.value, self)
        else:
            table, index, new = self.__dict__, "player", action.player
        old = table[index]
        table[index] = new
        return table, index, old, before

    def undo(self, applied):
        table, index, old, before = applied
        table[index] = old
        self.vertex = before
