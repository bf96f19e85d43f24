"""Rubbish without an end, and players that take nothing: memory and logs stay small, and rounds and minutes are not used up."""

import random
import socket
import time
from contextlib import closing
from pathlib import Path
from typing import Callable

from storm_clock import FOR_EIGHT
from storm_loop import Loop
from storm_match import pair, play
from storm_players import Player, Stored
from storm_proxy import rubbish_of
from storm_referee import Served, Trial, expect, outcome

PIECE = 65536
LOG = 1_000_000  # the most bytes of the log of a flood
GROWTH = 512  # the most kilobytes by which memory grows from a tenth of a flood to its end
A_LINE = 48  # the most kilobytes of a line of a hall
PATIENCE, SOON = 600, 120  # seconds


def pour(loop: Loop, served: Served, players: list[Player], piece: Callable[[], bytes], count: int) -> list[int]:
    """Sends this many bytes of such pieces over these connections in turn, as they are taken. Returns the memory after a tenth of
    it, and at the end."""
    sent, seen = 0, []

    def more() -> None:
        nonlocal sent
        for it in players:
            while sent < count and not it.stream.out and it.stream.is_open and not it.is_over:
                it.stream.send(piece())
                sent += PIECE
        if len(seen) == 0 and sent >= count / 10:
            seen.append(served.look())
        loop.after(0.0002, more)

    more()
    is_done = lambda: sent >= count and not any(it.stream.out for it in players)
    expect(loop.run(lambda: is_done() or all(it.is_over for it in players), PATIENCE), f"only {sent} bytes were taken")
    expect(is_done(), f"the match ended after {sent} bytes: {players[0].end!r}")
    loop.run(lambda: False, 0.1)
    return [*seen, served.look()]


def flood(trial: Trial, count: int) -> str:
    """Both seats send bytes that end no message. Memory and the log stay small, and the match goes on from it."""
    stored = Stored(trial.rbg, trial.game("tictactoe"))
    log = trial.folder / "flood.log"
    words = ["serve", str(stored.game), "--turn", "3600000", "--minutes", "60", "--log", str(log)]
    with Served(trial, words) as served, closing(Loop()) as loop:
        players = [Player(loop, served.port, []) for _ in range(2)]
        expect(loop.run(lambda: all(it.made for it in players), 60), "no match")
        early, late = pour(loop, served, players, lambda: b"x" * PIECE, count)
        served.check_memory()
    expect(late - early <= GROWTH, f"memory grew from {early} to {late} kilobytes")
    expect(log.stat().st_size < LOG, f"a log of {log.stat().st_size} bytes")
    again = play(trial, ["serve", str(stored.game), "--minutes", "5", "--resume", str(log)], pair(stored))
    expect(again.status == 0, again)
    return f"{count / 1e6:,.0f} MB, {late / 1024:.1f} MB of memory, a log of {log.stat().st_size:,} bytes"


def flood_hall(trial: Trial, count: int) -> str:
    """All 128 lines of a hall send bytes that end no message. What memory a line costs, beside a hall of eight, and that it
    stays."""
    game = trial.folder / "for_eight.rbg"
    game.write_text(FOR_EIGHT)
    taken = {}
    for tables in (1, 16):
        words = ["hall", *[str(game)] * tables, "--turn", "3600000", "--rounds", "4294967295"]
        with Served(trial, words) as served, closing(Loop()) as loop:
            players = [Player(loop, served.port, [], match) for match in range(1, tables + 1) for _ in range(8)]
            expect(loop.run(lambda: all(it.made for it in players), SOON), "no match")
            early, taken[tables] = pour(loop, served, players, lambda: b"x" * PIECE, count * tables // 16)
            served.check_memory()
        expect(taken[tables] - early <= GROWTH, f"memory grew from {early} to {taken[tables]} kilobytes")
    each = (taken[16] - taken[1]) / 120
    expect(each <= A_LINE, f"{each:.1f} kilobytes a line")
    return f"{count / 1e6:,.0f} MB, {taken[1] / 1024:.1f} MB with 8 lines, {taken[16] / 1024:.1f} MB with 128: {each:.1f} kB a line"


def refused_hall(trial: Trial) -> str:
    """All 128 lines of a hall send rubbish of all kinds, until their matches have ended."""
    game = trial.folder / "for_eight.rbg"
    game.write_text(FOR_EIGHT)
    chance = random.Random(1)
    words = ["hall", *[str(game)] * 16, "--turn", "2000", "--rounds", "4294967295", "--refusals", "100"]
    with Served(trial, words) as served, closing(Loop()) as loop:
        players = [Player(loop, served.port, [], match) for match in range(1, 17) for _ in range(8)]
        expect(loop.run(lambda: all(it.made for it in players), SOON), "no match")
        served.look_often(loop)
        for it in players:
            for _ in range(4):
                it.stream.send(rubbish_of(chance, 5000))
        expect(loop.run(lambda: all(it.is_over for it in players), SOON), "a match hasn't ended")
        ended = served.wait()
        served.check_memory()
    expect(ended.status == 0 and ended.printed.count("match ") == 16, ended)
    ends = [line.split()[1] for line in ended.printed.splitlines() if line.split()[1:2] and line.split()[1][:1] == "E"]
    return f"{served.kilobytes / 1024:.1f} MB, 16 matches end: " + ", ".join(f"{ends.count(it)} {it}" for it in sorted(set(ends)))


def takes_nothing(trial: Trial) -> str:
    """After the end a connection that takes nothing for 10 seconds has failed: the record is printed, and who it was is said."""
    game = trial.folder / "long.rbg"
    text = trial.game("tictactoe").read_text()
    game.write_text(text + "// " + "a long remark " * 18_000 + "\n")
    took = {kind: deaf_player(trial, kind, game) for kind in ("serve", "hall")}
    expect(all(9 < it < 15 for it in took.values()), f"the records came after so many seconds: {took}")
    return "the record came " + ", ".join(f"{it:.1f} s after the end of {kind}" for kind, it in took.items())


def deaf_player(trial: Trial, kind: str, game: Path) -> float:
    """How many seconds after the end of a match its record is printed, whose second player takes nothing."""
    match = int(kind == "hall")
    with Served(trial, [kind, str(game), "--turn", "300", "--minutes", "2"]) as served, socket.socket() as deaf:
        with closing(Loop()) as loop:
            first = Player(loop, served.port, [], match)
            loop.run(lambda: False, 0.2)  # so that it has seat 1
            deaf.setsockopt(socket.SOL_SOCKET, socket.SO_RCVBUF, 2048)
            deaf.setsockopt(socket.IPPROTO_TCP, socket.TCP_MAXSEG, 536)
            deaf.connect(("127.0.0.1", served.port))
            deaf.sendall(b"H1\0" * match)
            expect(loop.run(lambda: first.is_over, SOON), "no end")
            began = time.monotonic()
            ended = served.wait()
            took = time.monotonic() - began
    record = ended.printed.removeprefix("match 1\n")
    expect(ended.status == 0 and outcome(record) == "E1 1" and "seat 2 took nothing for 10 seconds" in ended.reported, ended)
    return took


def flooders(trial: Trial) -> str:
    """Two players send bytes without an end, and the default rounds are by far not over after 6 seconds: they were after 2."""
    with Served(trial, ["serve", str(trial.game("breakthrough")), "--turn", "3600000"]) as served, closing(Loop()) as loop:
        players = [Player(loop, served.port, []) for _ in range(2)]
        sent = 0

        def flood() -> None:
            nonlocal sent
            for it in players:
                if not it.stream.out:
                    it.stream.send(b"x" * 65536)
                    sent += 65536
            loop.after(0.0005, flood)

        flood()
        expect(not loop.run(lambda: served.referee.poll() is not None, 6.0), "the rounds were over")
        expect(not any(it.is_over for it in players), "the match has ended")
    return f"{sent / 1e6:.0f} MB in 6 s, and still in play"

