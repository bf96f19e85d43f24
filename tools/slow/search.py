"""Questions about moves (docs/LANGUAGE.md, "Limits of play"; docs/DECISIONS.md, "The search").

A move is a list of pairs `(vertex, position)`.
"""

import contextlib
import itertools

import checks
import play

MOST_OPENINGS = 100_000
MOST_MODIFIERS = 200


class Over(Exception):
    """A question is above the limits."""


class TooSlow(Exception):
    """A question takes more steps than the caller of this interpreter wants to wait for; no answer of the referee."""


class Question:
    """One question: it counts its openings, and searches in a semi-state, which it leaves as it was."""

    steps_left = None  # how many steps all questions of this process may take together, if that is limited

    def __init__(self, place):
        self.actions = place.game.actions
        self.follow = place.follow
        self.state = place.state
        self.start = place.next
        self.openings = 0

    def moves(self):
        """The legal moves, in the order in which the search finds them: see `moves_after`."""
        return self.moves_after(self.start, [])

    def moves_after(self, begin, pairs):
        """From an opening: first the moves whose last pair is a switch of its flat part, in order of vertex, then
        position; then each other modifier in this order is applied, followed to its end, and undone."""
        modifiers, _ = self.take_up(begin, len(pairs))
        for pair in modifiers:
            if isinstance(self.actions[pair[1]], checks.Switch):
                yield pairs + [pair]
        for pair in modifiers:
            if isinstance(self.actions[pair[1]], checks.Switch):
                continue
            applied = self.state.apply(self.actions[pair[1]], pair[0])
            try:
                yield from self.moves_after(self.follow.after[pair[1]], pairs + [pair])
            finally:
                self.state.undo(applied)

    def is_legal(self, pairs):
        """Whether a list of pairs is a legal move. Only its own modifiers are followed, and what is reached before each
        of them is found whole before the pair is looked at."""
        begin, done = self.start, []
        try:
            for count, (vertex, position) in enumerate(pairs):
                modifiers, _ = self.take_up(begin, count)
                if (vertex, position) not in modifiers:
                    return False
                if isinstance(self.actions[position], checks.Switch):
                    return count + 1 == len(pairs)
                if count + 1 < len(pairs):
                    done.append(self.state.apply(self.actions[position], vertex))
                    begin = self.follow.after[position]
            return False
        finally:
            for applied in reversed(done):
                self.state.undo(applied)

    def take_up(self, begin, length):
        """Takes up the opening with `length` modifiers that the semi-state holds, and finds its flat part: the
        modifiers that come next, in order of vertex, then position, and whether a word may end without a modifier."""
        if length == MOST_MODIFIERS or self.openings == MOST_OPENINGS:
            raise Over
        self.openings += 1
        return self.flat_part(begin)

    def flat_part(self, begin):
        """All pairs of a vertex and a position that are reached without a modifier, by a queue; successors are put into
        it in increasing order of position, each pair once. A pattern is asked when its pair is taken."""
        successors, ends = begin
        modifiers = []
        queue = [(self.state.vertex, position) for position in successors]
        met = set(queue)
        for pair in queue:  # the queue grows on the way
            vertex, position = pair
            action = self.actions[position]
            if isinstance(action, play.MODIFIERS):
                if self.state.step(action, vertex) is not None:
                    modifiers.append(pair)
                continue
            reached = self.ask(position, vertex) if isinstance(action, checks.Pattern) else self.state.step(action, vertex)
            if reached is None:
                continue
            successors, may_end = self.follow.after[position]
            ends = ends or may_end
            for successor in successors:
                if (reached, successor) not in met:
                    met.add((reached, successor))
                    queue.append((reached, successor))
        self.count_steps(len(queue))
        return sorted(modifiers), ends

    def ask(self, position, vertex):
        """The vertex, if the pattern holds there, else None."""
        before = self.state.vertex
        self.state.vertex = vertex
        runs = self.word_runs(self.follow.begin[position], 0)
        self.state.vertex = before
        return vertex if runs == self.actions[position].positive else None

    def word_runs(self, begin, length):
        """Whether some word of a pattern runs from here: the flat part is found whole before a word that ends answers."""
        modifiers, ends = self.take_up(begin, length)
        if ends:
            return True
        for vertex, position in modifiers:
            applied = self.state.apply(self.actions[position], vertex)
            runs = self.word_runs(self.follow.after[position], length + 1)
            self.state.undo(applied)
            if runs:
                return True
        return False

    @classmethod
    def count_steps(cls, steps):
        if cls.steps_left is not None:
            cls.steps_left -= steps
            if cls.steps_left < 0:
                raise TooSlow


class Place:
    """A place of play: the semi-state, and how the rules go on."""

    def __init__(self, game):
        self.game = game
        self.follow = play.Follow(game)
        self.state = play.SemiState(game)
        self.next = self.follow.begin[None]

    def mover(self):
        return self.state.player

    def find_move(self):
        return next(iter(self.list_moves(1)), None)

    def list_moves(self, most):
        """The first legal moves that the search finds; what comes after them is not looked at."""
        with contextlib.closing(Question(self).moves()) as moves:
            return list(itertools.islice(moves, most))

    def is_legal(self, pairs):
        return Question(self).is_legal(pairs)

    def make(self, pairs):
        """Makes a legal move."""
        for vertex, position in pairs:
            self.state.apply(self.game.actions[position], vertex)
        self.next = self.follow.after[pairs[-1][1]]

    def scores(self):
        return self.state.variables[: len(self.game.players)]
