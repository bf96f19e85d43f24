"""A player's end of a match that `rbg serve` or `rbg hall` referees.

    import random, rbg
    rbg.play(4710, lambda state, clock: random.choice(state.moves()))

The match is followed move by move, the keeper's moves too. When a match goes on that was stopped, all of it comes at once:
until nothing came for a while, a move may be an old one, and isn't answered.
"""

import select
import socket
import time
from typing import Callable, NamedTuple, Optional, Union

from rbg.game import Game, State
from rbg.places import Move

QUIET = 0.1  # seconds in which nothing comes before the first move is said, but at most a tenth of the turn
PATIENCE = 3.0  # seconds for which a port is tried again on which nothing listens yet


class Clock(NamedTuple):
    """The time for a turn, and when this one began; both in seconds."""

    turn: Optional[float]
    began: float

    @property
    def left(self) -> Optional[float]:
        """What is left of the turn; None if its time isn't known.

        >>> 9 < Clock(10.0, time.monotonic()).left <= 10, Clock(None, 0.0).left
        (True, None)
        """
        return None if self.turn is None else self.turn - (time.monotonic() - self.began)


class Outcome(NamedTuple):
    """How a match ended for a player."""

    player: int  # its number
    end: Optional[str]  # the last message, as `E0 100 0`; None if the connection was lost, or a move was refused
    scores: Optional[list[int]]  # the scores, if play was finished
    refused: Optional[int]  # for which reason a move was refused, after which nothing more was said


Choose = Callable[[State, Clock], Optional[Move]]  # None says nothing


def connected(host: str, port: int) -> socket.socket:
    """A connection. Where nothing listens yet it is tried again for a while, since a referee may start after its players.

    >>> import threading
    >>> server = socket.socket()
    >>> server.bind(("127.0.0.1", 0))
    >>> threading.Timer(0.2, server.listen).start()
    >>> connected("127.0.0.1", server.getsockname()[1]).close()
    >>> server.close()
    """
    last = time.monotonic() + PATIENCE
    while True:
        try:
            return socket.create_connection((host, port))
        except ConnectionRefusedError:
            if time.monotonic() >= last:
                raise
            time.sleep(0.05)


class Stream:
    """Messages over a connection: a message is the bytes before a zero byte."""

    def __init__(self, host: str, port: int):
        self.socket = connected(host, port)
        self.rest = b""

    def hear(self) -> Optional[bytes]:
        """The next message, or None if the stream has ended."""
        while b"\0" not in self.rest:
            try:
                piece = self.socket.recv(65536)
            except ConnectionError:
                return None
            if not piece:
                return None
            self.rest += piece
        message, self.rest = self.rest.split(b"\0", 1)
        return message

    def has_more(self, seconds: float) -> bool:
        """Whether more has come, or comes within this time."""
        return b"\0" in self.rest or bool(select.select([self.socket], [], [], seconds)[0])

    def say(self, message: str) -> None:
        """Says a message. If the other end is gone, what it said last is still to be heard."""
        try:
            self.socket.sendall(message.encode("ascii") + b"\0")
        except ConnectionError:
            pass


class Seat:
    """What a player has heard of its match."""

    def __init__(self, program: Optional[str], library: Union[str, bool, None] = None):
        self.program, self.library = program, library
        self.player, self.game = 0, None  # type: tuple[int, Optional[Game]]
        self.turn: Optional[float] = None
        self.quiet = QUIET  # nothing has to come for so long before a move is said
        self.began = 0.0  # when the last move was heard
        self.owes = False  # whether a move was heard since the last one was said
        self.end: Optional[str] = None
        self.refused: Optional[int] = None

    def hear(self, message: bytes) -> None:
        """Keeps what a message says."""
        letter, text = message[:1], message[1:]
        if letter == b"W":
            self.player = int(text.split()[0])
        elif letter == b"G":
            self.game = Game.read(text, self.program, self.library)
        elif letter == b"L":
            self.turn = int(text.split()[0]) / 1000
            self.quiet = min(QUIET, self.turn / 10)
        elif letter == b"M" and self.game is not None:
            self.game.hear(text.decode("ascii"))
            self.began, self.owes = time.monotonic(), True
        elif letter == b"R" and text != b"2":  # 2 is of a move that came too late to be the player's
            self.refused = int(text)
        elif letter == b"E":
            self.end = message.decode("ascii")

    def move(self, choose: Choose) -> Optional[Move]:
        """The move that is owed, if one is: the place that was reached is the player's own, and it has said nothing there."""
        if not self.owes or self.game is None:
            return None
        self.owes, self.quiet = False, 0.0
        state = self.game.state()
        if state.is_over or state.player != self.player:
            return None
        return choose(state, Clock(self.turn, self.began))

    def outcome(self) -> Outcome:
        """How the match ended."""
        finished = self.end is not None and self.end.startswith("E0 ")
        scores = list(map(int, self.end.split()[1:])) if self.end is not None and finished else None
        return Outcome(self.player, self.end, scores, self.refused)


def play(
    port: int,
    choose: Choose,
    *,
    host: str = "127.0.0.1",
    match: Optional[int] = None,
    program: Optional[str] = None,
    library: Union[str, bool, None] = None,
) -> Outcome:
    """Plays a match to its end. `match` is its number in a hall. A move is chosen only after all that has come is heard.

    The outcome's `end` is None if the connection was lost, or a move was refused. After a referee that was stopped goes on,
    a new call hears the match from its first move, maybe in another seat. A player that is lost ends its match by `E3`, and no
    call brings it back.
    """
    stream, seat = Stream(host, port), Seat(program, library)
    if match is not None:
        stream.say("H%d" % match)
    try:
        while seat.end is None and seat.refused is None:
            message = stream.hear()
            if message is None:
                break
            seat.hear(message)
            if seat.end is None and not stream.has_more(seat.quiet):
                move = seat.move(choose)
                if move is not None:
                    stream.say("M" + move)
    finally:
        stream.socket.close()
        if seat.game is not None:
            seat.game.close()
    return seat.outcome()
