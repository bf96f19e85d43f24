"""Games and places over a session of `rbg ask`, used if there is no library.

>>> ground = AskedGround("crates/rbg_games/data/tictactoe.rbg")
>>> place = ground.place()
>>> place.make("4 9 4 10")
>>> place.look().player, len(place.moves(None)), ground.names()[0]
(2, 8, ['first', 'second'])
>>> place.undo(1, [])
>>> place.look().moves, sum(ending.matches for ending in place.playouts(10, 1))
(9, 10)
>>> ground.close()
"""

import tempfile
from typing import Any, Optional

from rbg.backend import Answer, Backend, Question, Refused
from rbg.places import Ending, Move, Place, Shape, Tried, spelt, tried


def endings_of(answer: Answer) -> list[Ending]:
    """The endings of an answer to `random`."""
    found = []
    for *scores, matches in answer[1:]:
        found.append(Ending(None if scores == ["-"] else list(map(int, scores)), int(matches)))
    return found


def session_of(text: bytes, file: Optional[str], program: Optional[str]) -> Backend:
    """A session about the game of a file, or of a text if there is no file."""
    if file is not None:
        return Backend(file, program)
    with tempfile.NamedTemporaryFile(suffix=".rbg") as written:
        written.write(text)
        written.flush()
        session = Backend(written.name, program)
        session.ask(["names"])  # it has read the file then
        return session


class AskedGround:
    """A game, and one session in which its places are looked at. Places that were unpacked have a session of their own."""

    def __init__(self, file: Optional[str], program: Optional[str] = None, text: bytes = b""):
        self.text, self.file, self.program = text, file, program
        self.session = session_of(text, file, program)
        self.root = ""  # the digits of the place that was unpacked last
        self.unpacked: Optional[AskedGround] = None
        self.made: list[Move] = []  # the moves that the session has made since the last one that it heard
        self.heard = 0

    def close(self) -> None:
        """Ends the sessions."""
        if self.unpacked is not None:
            self.unpacked.close()
        self.session.close()

    def names(self) -> list[list[str]]:
        """The names of the players, the pieces and the variables."""
        [names] = self.session.ask(["names"])
        return [line[1:] for line in names]

    def shape(self) -> Shape:
        """The bounds, directions, edges and actions."""
        [[(_, _, vertices, _), bounds, directions, *rest]] = self.session.ask(["shape"])
        edges, actions = rest[: int(vertices)], rest[int(vertices) :]
        return Shape(
            bounds=list(map(int, bounds[1:])),
            directions=directions[1:],
            edges=[[None if to == "-" else int(to) for to in line[1:]] for line in edges],
            actions=[(line[1], list(map(int, line[2:]))) for line in actions],
        )

    def hear(self, move: Move) -> None:
        """Follows a move as a referee passes it on. Places of before can't be asked any more."""
        self.ask_at(self.root, self.made, ["heard " + spelt(move)])
        self.made = []
        self.heard += 1

    def place(self) -> "AskedPlace":
        """Where play begins, or goes on after the moves that were heard."""
        return AskedPlace(self, "", [])

    def unpack(self, packed: bytes) -> "AskedPlace":
        """The place of these bytes."""
        if not packed:
            raise Refused("place", "unpack")
        if self.unpacked is None:
            self.unpacked = AskedGround(self.file, self.program, self.text)
        self.unpacked.ask_at(packed.hex(), [], [])
        return AskedPlace(self.unpacked, packed.hex(), [])

    def ask_at(self, root: str, history: list[Move], questions: list[Question]) -> list[Answer]:
        """The answers after these moves from a root. What has to be undone and made is asked in the same write."""
        if root != self.root:
            [[standing]] = self.session.ask(["unpack " + root])
            if standing[0] == "error":  # digits that are no line's are no place's either
                raise Refused("place" if standing[1] in ("form", "long") else standing[1], "unpack")
            self.root, self.made = root, []
        same = 0
        for one, other in zip(self.made, history):
            if one != other:
                break
            same += 1
        undone = len(self.made) - same
        way = ["back %d" % undone] if undone else []
        way += ["make " + move for move in history[same:]]
        answers = self.session.ask(way + questions)
        for question, answer in zip(way + questions, answers):
            if answer[0][0] != "error":
                self.follow(question)
        for question, answer in zip(way + questions, answers):
            if answer[0][0] == "error":
                raise Refused(answer[0][1], question)
        return answers[len(way) :]

    def follow(self, question: Question) -> None:
        """Keeps where the session stands after a question that it has answered."""
        word, _, rest = question.partition(" ")
        if word == "make":
            self.made.append(rest)
        elif word == "back":
            del self.made[len(self.made) - int(rest or 1) :]


class AskedPlace:
    """A place, by the root and the moves that lead there."""

    def __init__(self, ground: AskedGround, root: str, history: list[Move]):
        self.ground, self.root, self.history, self.after = ground, root, history, ground.heard

    def ask(self, *questions: Question) -> list[Answer]:
        """The answers to questions about this place."""
        if self.after != self.ground.heard:
            raise Refused("heard")
        return self.ground.ask_at(self.root, self.history, list(questions))

    def facts(self, name: str) -> dict[str, Any]:
        """Facts about it, by the names of `Place`: the one that is asked for, and those that come with it."""
        try:
            return self.look()._asdict()
        except Refused as refused:
            if refused.word != "over" or name not in ("key", "board", "values"):
                raise
        [[[_, *numbers]]] = self.ask(name)  # it can be read where finding all moves is above the limits
        return {name: int(numbers[0]) if name == "key" else list(map(int, numbers))}

    def look(self) -> Place:
        """All that is known of it."""
        [[first, standing, board, values]] = self.ask("state")
        numbers = list(map(int, standing[1:]))
        over = standing[0] == "finished"
        return Place(
            player=0 if over else numbers[0],
            scores=numbers if over else None,
            moves=int(first[1]),
            key=int(first[2]),
            board=list(map(int, board[1:])),
            values=list(map(int, values[1:])),
        )

    def moves(self, most: Optional[int]) -> list[Move]:
        """The legal moves, or `most` of them if there are more."""
        [answer] = self.ask("moves" if most is None else "moves %d" % most)
        return [" ".join(line) for line in answer[1:]]

    def make(self, move: Move) -> None:
        """Makes a move, and the keeper's moves after it."""
        before = self.history
        self.history = before + [spelt(move)]
        try:
            self.ask()
        except Refused:
            self.history = before
            raise

    def undo(self, moves: int, history: list[Move]) -> None:
        """Undoes moves, so that this history is left."""
        self.history = history

    def copy(self) -> "AskedPlace":
        """A place of its own."""
        copy = AskedPlace(self.ground, self.root, self.history)
        copy.after = self.after
        return copy

    def pack(self) -> bytes:
        """The place as bytes."""
        [[[_, digits]]] = self.ask("pack")
        return bytes.fromhex(digits)

    def playouts(self, count: int, seed: int) -> list[Ending]:
        """How this many random matches from here end."""
        [answer] = self.ask("random %d %d" % (seed, count))
        return endings_of(answer)

    def sample(self, most: int, seed: int) -> "tuple[AskedPlace, list[Move]]":
        """A place of its own after at most this many random moves, and these."""
        [answer] = self.ask("sample %d %d" % (seed, most))
        made = [" ".join(line) for line in answer[1:-1]]
        copy = self.copy()
        copy.history = self.history + made
        return copy, made

    def try_out(self, moves: list[Move], count: int, seed: int, players: int) -> list[Tried]:
        """Plays this many random matches after each of these moves. All is asked at once."""
        questions: list[Question] = []
        for move in moves:
            questions += ["make " + spelt(move), "random %d %d" % (seed, count), "back"]
        answers = self.ask(*questions)
        found = []
        for index, move in enumerate(moves):
            [standing], played, _ = answers[3 * index : 3 * index + 3]
            scores = list(map(int, standing[1:])) if standing[0] == "finished" else None
            found.append(tried(move, scores, endings_of(played), players))
        return found
