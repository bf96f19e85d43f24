"""What is between players and a referee: it cuts and joins what they send, delays it, stops reading, closes one half,
resets connections and sends rubbish, by the numbers of chance that it is given."""

import math
import random
import socket
import time
from typing import NamedTuple, Optional

from storm_loop import Loop, Stream

HARMS = ["reset", "half", "deaf", "rubbish"]
WAYS = ["plain", "cut", "joined", "late", "paused"]
MOST_LATE = 0.02  # seconds by which a piece comes later at most
PAUSE = 0.5  # seconds for which nothing is read


class Weather(NamedTuple):
    """What becomes of one connection. No way costs a player its match; a harm may, and comes after this many bytes of the
    referee."""

    way: str
    harm: Optional[str]
    after: int
    rubbish: int  # how many bytes of it are sent

    def __str__(self) -> str:
        return f"{self.way} {self.harm} after {self.after}" if self.harm else self.way


def forecast(chance: random.Random, greeting: int, reported: int, rubbish: int) -> Weather:
    """The weather of a connection that is sent this many bytes before the first move, and this many with the moves."""
    harm = chance.choice(HARMS) if chance.random() < 0.4 else None
    after = chance.randrange(greeting) if chance.random() < 0.3 else greeting + chance.randrange(reported)
    return Weather(chance.choice(WAYS), harm, after + 1, chance.randrange(1, rubbish))


def cut(piece: bytes, chance: random.Random) -> list[bytes]:
    """The piece in pieces of 1 to 7 bytes.

    >>> parts = cut(b"M0 3 0 4", random.Random(1))
    >>> b"".join(parts), len(parts) > 1
    (b'M0 3 0 4', True)
    """
    parts = []
    while piece:
        length = chance.randint(1, 7)
        parts.append(piece[:length])
        piece = piece[length:]
    return parts


def rubbish_of(chance: random.Random, count: int) -> bytes:
    """Bytes that are no move: without a zero byte, of many messages, of messages that are nearly right, or any.

    >>> len(rubbish_of(random.Random(1), 100))
    100
    """
    kind = chance.randrange(4)
    if kind == 0:
        return b"x" * count
    if kind == 1:
        message = b"y" * chance.randint(0, 9000) + b"\0"
        return (message * (count // len(message) + 1))[:count]
    if kind == 2:
        word = chance.choice([b"M0 1\0", b"M00 3\0", b"H2\0", b"E0\0", b"M1\0", b"M" + b"1 2 " * 300 + b"3 4\0"])
        return (word * (count // len(word) + 1))[:count]
    return chance.randbytes(count)


class Way:
    """One direction of a connection."""

    def __init__(self, loop: Loop, target: Stream, way: str, chance: random.Random):
        self.loop, self.target, self.way, self.chance = loop, target, way, chance
        self.due = 0.0  # when what was handed on last is sent

    def pass_on(self, piece: bytes) -> None:
        """Hands on a piece; an empty one is the end."""
        if not piece:
            self.loop.at(max(self.due, time.monotonic()), self.target.finish)
            return
        short = self.way == "cut" and len(piece) < 1000
        for part in cut(piece, self.chance) if short else [piece]:
            self.due = max(self.due, time.monotonic() + self.delay())
            self.loop.at(self.due, lambda part=part: self.target.send(part))

    def delay(self) -> float:
        if self.way == "late":
            return self.chance.uniform(0.0, MOST_LATE)
        if self.way == "joined":  # all that comes within a while is sent at its end
            now = time.monotonic()
            return math.ceil(now / MOST_LATE) * MOST_LATE - now
        return self.chance.uniform(0.0, 0.001) if self.way == "cut" else 0.0


class Link:
    """A connection of a player, and the one to the referee."""

    def __init__(self, loop: Loop, near: socket.socket, far: socket.socket, weather: Weather, chance: random.Random):
        self.loop, self.weather, self.chance = loop, weather, chance
        self.near = Stream(loop, near, self.from_player)
        self.far = Stream(loop, far, self.from_referee)
        self.to_player = Way(loop, self.near, weather.way, chance)
        self.to_referee = Way(loop, self.far, weather.way, chance)
        self.count = 0  # the bytes of the referee
        self.harmed, self.left = False, weather.rubbish

    def from_player(self, piece: bytes) -> None:
        self.to_referee.pass_on(piece)

    def from_referee(self, piece: bytes) -> None:
        before, self.count = self.count, self.count + len(piece)
        self.to_player.pass_on(piece)
        if not piece:
            self.far.close()
        elif self.weather.harm and not self.harmed and self.count >= self.weather.after:
            self.harmed = True
            self.harm()
        elif self.weather.way == "paused" and before == 0:
            self.far.pause(True)
            self.loop.after(PAUSE, lambda: self.far.is_open and not self.is_deaf and self.far.pause(False))

    @property
    def is_deaf(self) -> bool:
        return self.harmed and self.weather.harm == "deaf"

    def harm(self) -> None:
        kind = self.weather.harm
        if kind == "reset":
            self.far.reset()
            self.near.reset()
        elif kind == "half":
            self.far.finish()
        elif kind == "deaf":
            self.far.pause(True)
        else:
            self.send_rubbish()

    def send_rubbish(self) -> None:
        """Sends a piece of rubbish, and the next one a little later, as long as the referee takes it."""
        if not self.far.is_open or self.left <= 0:
            return
        if not self.far.out:
            piece = rubbish_of(self.chance, min(self.left, 50_000))
            self.left -= len(piece)
            self.far.send(piece)
        self.loop.after(self.chance.uniform(0.0, 0.01), self.send_rubbish)


class Proxy:
    """A port that is between. Its connections have the weathers in the order in which they come."""

    def __init__(self, loop: Loop, port: int, weathers: list[Weather], chance: random.Random):
        self.loop, self.referee, self.weathers, self.chance = loop, port, weathers, chance
        self.links: list[Link] = []
        self.listener = socket.create_server(("127.0.0.1", 0), backlog=128)
        self.listener.setblocking(False)
        self.port = self.listener.getsockname()[1]
        loop.selector.register(self.listener, 1, self.accept)

    def accept(self, _: int) -> None:
        near, _ = self.listener.accept()
        far = socket.create_connection(("127.0.0.1", self.referee))
        self.links.append(Link(self.loop, near, far, self.weathers[len(self.links)], self.chance))
