"""Whole matches of `serve` and `hall`, between players that say the moves of stored ones."""

import contextlib
import subprocess
from typing import Any

from served import Wrong, ended_before, free_port
from storm_loop import Loop
from storm_players import Player, Stored
from storm_referee import Ended, Trial, expect

TRIES = 5  # how many ports are tried
PATIENCE = 60  # seconds in which the referee has to end
THINK = 0.006  # seconds in which nothing comes before a move is said, as after a match was stopped


def play(trial: Trial, words: list[str], lines: list[tuple[Stored, int]], said: bytes = b"", **how: Any) -> Ended:
    """Runs `serve` or `hall` with these players to its end, even if it ends before it listens. First each player says
    something."""
    for _ in range(TRIES):
        port = free_port()
        pipes = {"stdout": subprocess.PIPE, "stderr": subprocess.PIPE, "text": True}
        referee = subprocess.Popen([trial.rbg, *words, "--port", str(port)], **{**pipes, **how})
        reported = ended_before(referee, f"listening on port {port}\n")
        if reported is None:
            return play_at(referee, port, lines, said)
        if "can't listen" not in reported:
            return Ended(referee.returncode, referee.stdout.read() if referee.stdout else "", reported)
    raise Wrong("no port is free")


def play_at(referee: Any, port: int, lines: list[tuple[Stored, int]], said: bytes) -> Ended:
    ended: list[bool] = []
    with contextlib.closing(Loop()) as loop:
        loop.when_ended(referee.pid, lambda: ended.append(True))
        try:
            for stored, match in lines:
                with contextlib.suppress(OSError):  # the referee may have ended
                    player = Player(loop, port, stored.moves, match, think=THINK)
                    player.stream.send(said)
            expect(loop.run(lambda: bool(ended), PATIENCE), "the referee hasn't ended")
            printed, reported = referee.communicate()
        finally:
            referee.kill()
            referee.wait()
    return Ended(referee.returncode, printed or "", reported or "")


def pair(stored: Stored) -> list[tuple[Stored, int]]:
    return [(stored, 0)] * stored.seats
