"""One loop over connections and moments, in which players and what is between them and a referee are served."""

import heapq
import itertools
import os
import selectors
import socket
import struct
import time
from contextlib import suppress
from typing import Callable

BEAT = 0.005  # seconds between two looks at how late the loop is
NOTED = 0.001  # seconds by which a moment has to be missed to be noted
PIECE = 65536  # the most bytes of a read

Call = Callable[[], None]


class Loop:
    """Calls back if a connection gives or takes something, and at moments.

    >>> loop, reported = Loop(), []
    >>> loop.after(0.02, lambda: reported.append("later"))
    >>> loop.after(0.01, lambda: reported.append("first"))
    >>> loop.run(lambda: len(reported) == 2, 5), reported
    (True, ['first', 'later'])
    """

    def __init__(self) -> None:
        self.selector = selectors.DefaultSelector()
        self.moments: list[tuple[float, int, Call]] = []
        self.numbers = itertools.count()
        self.lags: list[tuple[float, float]] = []  # moments that were missed, and by how many seconds

    def at(self, moment: float, call: Call) -> None:
        heapq.heappush(self.moments, (moment, next(self.numbers), call))

    def after(self, seconds: float, call: Call) -> None:
        self.at(time.monotonic() + seconds, call)

    def when_ended(self, process: int, call: Call) -> None:
        """Calls back once the process, a child that nobody has waited for, has ended."""
        handle = os.pidfd_open(process)

        def tell(_: int) -> None:
            self.selector.unregister(handle)
            os.close(handle)
            call()

        self.selector.register(handle, selectors.EVENT_READ, tell)

    def beat(self) -> None:
        """Looks from now on how late the loop is."""
        self.lags.clear()
        self.after(BEAT, self.beat_again)

    def beat_again(self) -> None:
        self.after(BEAT, self.beat_again)

    @property
    def worst(self) -> float:
        """By how many seconds a moment was missed at most."""
        return self.worst_since(0.0)

    def worst_since(self, moment: float) -> float:
        return max((lag for missed, lag in self.lags if missed + lag >= moment), default=0.0)

    def run(self, is_over: Callable[[], bool], patience: float) -> bool:
        """Serves until it is over. Returns False if that takes longer than this many seconds."""
        last = time.monotonic() + patience
        while not is_over():
            now = time.monotonic()
            if now >= last:
                return False
            until = min(last, self.moments[0][0]) if self.moments else last
            for key, events in self.selector.select(max(0.0, until - now)):
                key.data(events)
            self.call_due()
        return True

    def call_due(self) -> None:
        now = time.monotonic()
        while self.moments and self.moments[0][0] <= now:
            moment, _, call = heapq.heappop(self.moments)
            if now - moment > NOTED:
                self.lags.append((moment, now - moment))
            call()

    def close(self) -> None:
        """Closes all that it serves."""
        for key in list(self.selector.get_map().values()):
            if isinstance(key.fileobj, int):
                os.close(key.fileobj)
            else:
                key.fileobj.close()  # type: ignore[union-attr]
        self.selector.close()


class Stream:
    """A connection of a loop. What it gives is handed on, at last no bytes; what it doesn't take yet is kept."""

    def __init__(self, loop: Loop, connection: socket.socket, hear: Callable[[bytes], None]):
        connection.setblocking(False)
        connection.setsockopt(socket.IPPROTO_TCP, socket.TCP_NODELAY, 1)
        self.loop, self.connection, self.hear = loop, connection, hear
        self.out = bytearray()
        self.is_open, self.reads, self.ends = True, True, False
        self.watched = 0
        self.watch()

    def watch(self) -> None:
        """Tells the selector what is waited for."""
        wanted = (selectors.EVENT_READ if self.reads else 0) | (selectors.EVENT_WRITE if self.out else 0)
        wanted = wanted if self.is_open else 0
        if wanted == self.watched:
            return
        if not wanted:
            self.loop.selector.unregister(self.connection)
        elif self.watched:
            self.loop.selector.modify(self.connection, wanted, self.serve)
        else:
            self.loop.selector.register(self.connection, wanted, self.serve)
        self.watched = wanted

    def serve(self, events: int) -> None:
        if events & selectors.EVENT_WRITE:
            self.flush()
        if events & selectors.EVENT_READ and self.is_open and self.reads:
            self.read()

    def read(self) -> None:
        try:
            piece = self.connection.recv(PIECE)
        except BlockingIOError:
            return
        except OSError:
            piece = b""
        if not piece:
            self.reads = False
            self.watch()
        self.hear(piece)

    def send(self, piece: bytes) -> None:
        if self.is_open and not self.ends:
            self.out += piece
            self.flush()

    def flush(self) -> None:
        try:
            while self.out:
                del self.out[: self.connection.send(self.out)]
        except BlockingIOError:
            pass
        except OSError:
            self.out.clear()  # who reads it hears of its end
        if self.ends and not self.out:
            self.shut()
        self.watch()

    def shut(self) -> None:
        with suppress(OSError):
            self.connection.shutdown(socket.SHUT_WR)

    def finish(self) -> None:
        """Sends nothing more once all is sent, and still hears."""
        self.ends = True
        if not self.out:
            self.shut()

    def pause(self, stops: bool) -> None:
        """Reads nothing, or reads again."""
        self.reads = not stops
        self.watch()

    def close(self) -> None:
        if self.is_open:
            self.is_open = False
            self.watch()
            self.connection.close()

    def reset(self) -> None:
        """Closes the connection so that the other end hears of a reset."""
        if self.is_open:
            self.connection.setsockopt(socket.SOL_SOCKET, socket.SO_LINGER, struct.pack("ii", 1, 0))
            self.close()
