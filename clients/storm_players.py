"""Players that say the moves of a match that was played before, without a rule of the game: at once, after a while, or not."""

import socket
import subprocess
import time
from pathlib import Path
from typing import Optional

from storm_loop import Loop, Stream


def movers(messages: list[bytes], said: list[tuple[int, bytes]]) -> list[tuple[int, bytes]]:
    """Whose each move is that was heard: that of the next one who said it, or else the keeper's, whose number is 0.

    >>> movers([b"M0 1", b"M5 5", b"M0 1", b"M6 6"], [(1, b"M5 5"), (2, b"M6 6")])
    [(0, b'M0 1'), (1, b'M5 5'), (0, b'M0 1'), (2, b'M6 6')]
    """
    found, rest = [], list(said)
    for message in messages:
        seat = rest.pop(0)[0] if rest and rest[0][1] == message else 0
        found.append((seat, message))
    return found


def said_in(script: bytes) -> list[tuple[int, bytes]]:
    """Who says what in a script.

    >>> said_in(b"config 60000 3 0\\nm 1 1000 M4 9 4 10\\nt 5\\nm 2 2000 M0 1\\n")
    [(1, b'M4 9 4 10'), (2, b'M0 1')]
    """
    lines = [line.split(b" ", 3) for line in script.splitlines()]
    return [(int(words[1]), words[3]) for words in lines if words[0] == b"m"]


class Stored:
    """A game, and the match of it that lies beside its description."""

    def __init__(self, rbg: str, game: Path):
        self.game = game
        script = game.with_suffix(".script").read_bytes()
        done = subprocess.run([rbg, "referee", str(game)], input=script, capture_output=True, check=True)
        heard = [line[2:] for line in done.stdout.splitlines() if line.startswith(b"1 ")]
        self.moves = movers([it for it in heard if it.startswith(b"M")], said_in(script))
        self.outcome = heard[-1].decode()
        self.seats = max(seat for seat, _ in self.moves)
        self.greeting = len(game.read_bytes()) + 40  # about this many bytes come before the first move
        self.reported = sum(len(move) + 1 for _, move in self.moves)  # and this many with the moves


class Player:
    """A player over a connection. It is over when it hears an `E`, or when its stream ends."""

    def __init__(self, loop: Loop, port: int, moves: list[tuple[int, bytes]], match: int = 0, think: float = 0.0):
        self.loop, self.moves, self.think = loop, moves, think
        self.heard, self.rest = bytearray(), b""
        self.seat, self.made, self.end = 0, 0, None  # type: tuple[int, int, Optional[bytes]]
        self.is_gone = False
        self.refused: list[int] = []
        self.moved, self.spoken = 0.0, 0.0  # when it heard the last move, and when it said its own
        self.waits: list[float] = []  # the seconds from what it said to the move
        self.thought: list[float] = []  # the seconds from the move that it heard to its own
        self.stream = Stream(loop, socket.create_connection(("127.0.0.1", port)), self.hear)
        if match:
            self.stream.send(b"H%d\0" % match)

    @property
    def is_over(self) -> bool:
        return self.is_gone or self.end is not None

    def hear(self, piece: bytes) -> None:
        if not piece:
            self.is_gone = True
            self.stream.close()
            return
        self.heard += piece
        *whole, self.rest = (self.rest + piece).split(b"\0")
        moved = [self.take(message) for message in whole]
        if any(moved) and not self.is_over:
            self.consider()

    def take(self, message: bytes) -> bool:
        """Keeps what a message says. Returns whether it may be this player's turn."""
        if message[:1] == b"W":
            self.seat = int(message[1:].split()[0])
        elif message[:1] == b"R":
            self.refused.append(int(message[1:]))
            return self.is_mover() and self.refused[-1] != 2
        elif message[:1] == b"E":
            self.end = message
        elif message[:1] == b"M":
            now = time.monotonic()
            if self.is_mover() and self.spoken:
                self.waits.append(now - self.spoken)
            self.made, self.moved, self.spoken = self.made + 1, now, 0.0
            return True
        return False

    def is_mover(self) -> bool:
        """Whether the next move of the match is this player's."""
        return self.made < len(self.moves) and self.moves[self.made][0] == self.seat

    def consider(self) -> None:
        """Says its move if it is to move, after as long as it thinks."""
        if not self.is_mover():
            return
        if self.think:
            made = self.made
            self.loop.after(self.think, lambda: self.say() if made == self.made and not self.is_over else None)
        else:
            self.say()

    def say(self) -> None:
        self.spoken = time.monotonic()
        self.thought.append(self.spoken - self.moved)
        self.stream.send(self.moves[self.made][1] + b"\0")
