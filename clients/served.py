"""Matches over `rbg serve` between example clients, at ports that the system chooses."""

import signal
import socket
import subprocess
import sys
import time
from pathlib import Path
from typing import Any, Optional

CLIENT = Path(__file__).resolve().with_name("player.py")
PATIENCE = 60  # seconds in which a match has to end, if nothing else is said
TRIES = 5  # how many ports are tried

Referee = subprocess.Popen[str]


class Wrong(Exception):
    """What isn't as it should be."""


def free_port() -> int:
    """A port on which nothing listens now."""
    with socket.socket() as tried:
        tried.bind(("127.0.0.1", 0))
        return tried.getsockname()[1]


def ended_before(referee: Referee, news: str) -> Optional[str]:
    """Reads standard error up to a line that begins so. Returns all that was said if the referee has ended without it."""
    assert referee.stderr is not None
    said = ""
    for line in referee.stderr:
        if line.startswith(news):
            return None
        said += line
    referee.wait()
    return said


def listen(words: list[str], **how: Any) -> tuple[Referee, int]:
    """Starts this command of rbg at a free port, and waits until it listens. If another program takes the port first, a new
    one is tried."""
    for _ in range(TRIES):
        port = free_port()
        pipes = {"stdout": subprocess.PIPE, "stderr": subprocess.PIPE, "text": True}
        referee = subprocess.Popen([*words, "--port", str(port)], **pipes, **how)
        said = ended_before(referee, f"listening on port {port}\n")
        if said is None:
            return referee, port
        if "can't listen" not in said:
            break
    raise Wrong(f"{words[1]} doesn't listen: status {referee.returncode}, {said}")


def end(referee: Referee, clients: list[subprocess.Popen[bytes]]) -> None:
    """Ends what still runs."""
    for process in (referee, *clients):
        if process.poll() is None:
            process.kill()
        process.wait()


def is_good(rbg: str, game: Path, record: Path) -> bool:
    """Whether `rbg replay` calls the record good."""
    done = subprocess.run([rbg, "replay", str(game), str(record)], stdout=subprocess.PIPE)
    return (done.returncode, done.stdout) == (0, b"good\n")


class Match:
    """A match of a game, and its files."""

    def __init__(self, rbg: str, game: Path, folder: Path, patience: float = PATIENCE):
        self.rbg, self.game, self.patience = rbg, game, patience
        self.log, self.record = folder / "match.log", folder / "match.record"
        self.lasted = 0.0  # how many seconds the last match took, from the last connection on

    def serve(self, players: list[list[str]], *words: str) -> tuple[Referee, list[subprocess.Popen[bytes]]]:
        """Starts a referee and, one after the other, its clients."""
        referee, port = listen([self.rbg, "serve", str(self.game), "--minutes", "5", *words])
        clients: list[subprocess.Popen[bytes]] = []
        for seat, player in enumerate(players, 1):
            client = [sys.executable, str(CLIENT), str(port), "--rbg", self.rbg, *player]
            clients.append(subprocess.Popen(client, stdout=subprocess.DEVNULL, stderr=subprocess.DEVNULL))
            if ended_before(referee, f"seat {seat} connected\n") is not None:
                end(referee, clients)
                raise Wrong(f"the referee ended before seat {seat} was taken")
        return referee, clients

    def play(self, players: list[list[str]], *words: str, kill_after: Optional[float] = None) -> Optional[str]:
        """Plays on. Returns the record, or None if the referee was killed before the end."""
        referee, clients = self.serve(players, *words)
        began = time.monotonic()
        try:
            output, _ = referee.communicate(timeout=self.patience if kill_after is None else kill_after)
        except subprocess.TimeoutExpired:
            if kill_after is None:
                raise Wrong(f"not ended after {self.patience} seconds") from None
            referee.send_signal(signal.SIGKILL)
            referee.communicate()
            return None
        finally:
            self.lasted = time.monotonic() - began
            end(referee, clients)
        if referee.returncode:
            raise Wrong(f"the referee ended with status {referee.returncode}: {output.strip()}")
        return output

    def play_again(self, *words: str, kill_after: Optional[float] = None) -> Optional[str]:
        """Plays as the record says."""
        return self.play([["--record", str(self.record)]] * 2, *words, kill_after=kill_after)
