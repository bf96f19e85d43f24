"""The clock is right: matches in which a program that is in time must not lose on time, whatever else goes on."""

import signal
import statistics
import time
from contextlib import closing
from pathlib import Path
from typing import Callable

from served import Wrong
from storm_loop import Loop
from storm_players import Player, Stored
from storm_referee import Served, Trial, expect, run

ROUNDS = ["--rounds", "4294967295"]
PATIENCE = 120  # seconds for a match
TRIES = 4  # how often a trial is made on a machine that was too busy to decide
LAG = 0.008  # seconds: a player's own loop that comes later than this decides nothing
SLOW = 5.0  # milliseconds a move beside silent lines; if each of them was waited for it was 55 to 1,100

# Eight players, of whom two move in turn for ever.
FOR_EIGHT = """#players = a(1), b(1), c(1), d(1), f(1), g(1), h(1), i(1)
#pieces = e
#board = rectangle(up, down, left, right, [e])
#rules = ->a ([e] ->b [e] ->a)*
"""
ENDLESS = [(0, b"M0 1"), *[(1, b"M0 2 0 3"), (2, b"M0 4 0 5")] * 250]

# Before black's move a pattern walks the whole board, at each square a second one does, and there a third one.
HEAVY = """#players = white(1), black(1)
#pieces = e, x
#board = rectangle(up, down, left, right, {rows})
#walk(then) = ({{e}}(up + down + left + right))* then
#rules = ->white ([e] ->black ({{! walk({{? walk({{? walk({{x}})}})}})}} [e] ->white))*
"""


def again_if_busy(trial: Callable[[Loop], str]) -> str:
    """Makes a trial, and once more if it went wrong while this process was too busy to say its moves in time."""
    for left in reversed(range(TRIES)):
        with closing(Loop()) as loop:
            try:
                return trial(loop)
            except Wrong as wrong:
                if loop.worst < LAG or not left:
                    raise Wrong(f"{wrong} (this process was late by {1000 * loop.worst:.0f} ms at most)") from None
    raise AssertionError


def play(loop: Loop, players: list[Player]) -> None:
    """Serves until these players have heard the end, or have said all of their moves."""
    over = lambda: all(it.is_over or it.made >= len(it.moves) for it in players)
    loop.beat()
    expect(loop.run(over, PATIENCE), "the match hasn't ended")


def in_time(players: list[Player], wanted: str) -> None:
    """Each one heard this end."""
    for it in players:
        expect(it.end == wanted.encode(), f"a player that moves in time heard {it.end!r} after {it.made} moves")


def milliseconds(players: list[Player]) -> str:
    waits = sorted(1000 * wait for it in players for wait in it.waits)
    return f"{statistics.median(waits):.2f} ms a move, {waits[-1]:.1f} at most"


def quick_hall(trial: Trial) -> str:
    """16 matches of breakthrough, a turn of 400 ms, all players move at once; and one such match beside 30 silent players."""
    stored = Stored(trial.rbg, trial.game("breakthrough"))
    words = ["hall", *[str(stored.game)] * 16, "--turn", "400", *ROUNDS]

    def all_quick(loop: Loop) -> str:
        with Served(trial, words) as served:
            players = [Player(loop, served.port, stored.moves, match) for match in range(1, 17) for _ in range(2)]
            play(loop, players)
            in_time(players, stored.outcome)
        return milliseconds(players)

    def one_quick(loop: Loop) -> str:
        with Served(trial, words) as served:
            silent = [Player(loop, served.port, [], match) for match in range(2, 17) for _ in range(2)]
            players = [Player(loop, served.port, stored.moves, 1) for _ in range(2)]
            play(loop, players)
            in_time(players, stored.outcome)
            expect(len(silent) == 30, silent)
        return milliseconds(players)

    return f"all quick: {again_if_busy(all_quick)}; one: {again_if_busy(one_quick)}"


def late_moves(trial: Trial, matches: int = 4) -> str:
    """A turn of 100 ms, and moves that are said after 80 and after 85 ms: matches of breakthrough side by side. A loss counts
    if this process was in time by its own clock."""
    stored = Stored(trial.rbg, trial.game("breakthrough"))

    def late(loop: Loop, think: float) -> int:
        served = [Served(trial, ["serve", str(stored.game), "--turn", "100", *ROUNDS]) for _ in range(matches)]
        try:
            players = [Player(loop, it.port, stored.moves, think=think) for it in served for _ in range(2)]
            play(loop, players)
        finally:
            for it in served:
                it.__exit__()
        for it in players:
            lost = it.end == b"E1 %d" % it.seat and loop.worst_since(it.moved - 0.1) < LAG
            expect(not lost, f"a move that is said {1000 * think:.0f} ms after the last one was heard loses on time")
        return sum(len(it.waits) for it in players)

    reported = []
    for think in (0.08, 0.085):
        moves = 0
        for _ in range(TRIES):
            if moves < matches * 20:
                with closing(Loop()) as loop:
                    moves += late(loop, think)
        expect(moves >= matches * 20, f"this process was too busy: only {moves} moves were said after {1000 * think:.0f} ms")
        reported.append(f"{moves} moves after {1000 * think:.0f} ms")
    return ", ".join(reported)


def beside_silent(trial: Trial) -> str:
    """A quick match beside 6, 14, 30 and 126 silent lines of a hall."""
    game = trial.folder / "for_eight.rbg"
    game.write_text(FOR_EIGHT)

    def beside(loop: Loop, silent: int) -> float:
        tables = -(-(silent + 2) // 8)
        with Served(trial, ["hall", *[str(game)] * tables, "--turn", "3600000", *ROUNDS]) as served:
            players = [Player(loop, served.port, ENDLESS, 1) for _ in range(2)]
            time.sleep(0.1)
            others = [Player(loop, served.port, [], 1) for _ in range(6)]
            others += [Player(loop, served.port, [], match) for match in range(2, tables + 1) for _ in range(8)]
            play(loop, players)
            expect(len(others) == silent, others)
        return 1000 * statistics.median(wait for it in players for wait in it.waits)

    taken = {}
    for silent in (6, 14, 30, 126):
        with closing(Loop()) as loop:
            taken[silent] = beside(loop, silent)
    most = max(SLOW, 10 * taken[6])
    reported = "ms a move beside " + ", ".join(f"{silent} lines: {took:.2f}" for silent, took in taken.items())
    expect(max(taken.values()) < most, reported)
    return reported


def heavy_game(trial: Trial, least: float) -> tuple[Path, float]:
    """A game in which the question after white's move takes this many seconds at least, and how long it takes."""
    game = trial.folder / "heavy.rbg"
    for size in range(8, 41, 2):
        rows = " ".join(["[" + ", ".join("e" * size) + "]"] * size)
        game.write_text(HEAVY.format(rows=rows))
        began = time.monotonic()
        run(trial.rbg, "referee", str(game), given=b"config 60000 0 0\n")
        middle = time.monotonic()
        done = run(trial.rbg, "referee", str(game), given=b"config 60000 0 0\nm 1 5 M0 2 0 3\n")
        took = time.monotonic() - 2 * middle + began
        expect(done.printed.count("1 M") == 2, done)
        if took > least:
            return game, took
    raise Wrong("no game is heavy enough")


def heavy_neighbour(trial: Trial) -> str:
    """A hall of two: while the referee answers a question of seconds about the other game, a program that moves at once
    doesn't lose, though a turn is shorter than the question."""
    game, took = heavy_game(trial, 1.0)
    stored = Stored(trial.rbg, trial.game("breakthrough"))

    def beside(loop: Loop) -> str:
        with Served(trial, ["hall", str(stored.game), str(game), "--turn", "500", *ROUNDS]) as served:
            slow = [Player(loop, served.port, [(0, b"M0 1"), (1, b"M0 2 0 3")], 2) for _ in range(2)]
            players = [Player(loop, served.port, stored.moves, 1, think=0.02) for _ in range(2)]
            play(loop, players)
            in_time(players, stored.outcome)
            longest = max(wait for it in players for wait in it.waits)
            expect(longest > 0.5, f"no move waited longer than {longest:.2f} s, so the question came too early or too late")
            expect(all(it.made >= 1 for it in slow), "the heavy game hasn't begun")
        return f"a question of {took:.1f} s beside a turn of 0.5 s"

    return again_if_busy(beside)


def stopped(trial: Trial) -> str:
    """The referee's process is stopped for 1.5 s with a turn of 1 s, and then for 3 s: the move that comes meanwhile counts,
    and the next player has its whole turn."""
    stored = Stored(trial.rbg, trial.game("tictactoe"))

    def stop(loop: Loop, seconds: float) -> str:
        with Served(trial, ["serve", str(stored.game), "--turn", "1000", *ROUNDS]) as served:
            players = [Player(loop, served.port, stored.moves, think=think) for think in (0.2, 0.7)]
            expect(loop.run(lambda: all(it.made == 1 for it in players), PATIENCE), "no match")
            served.referee.send_signal(signal.SIGSTOP)
            loop.after(seconds, lambda: served.referee.send_signal(signal.SIGCONT))
            play(loop, players)
            in_time(players, stored.outcome)
            expect(max(players[0].waits) > seconds - 0.5, "the move didn't come while the process was stopped")
        return f"{seconds} s"

    return "stopped for " + " and ".join(again_if_busy(lambda loop, s=s: stop(loop, s)) for s in (1.5, 3.0))


def overdue(trial: Trial) -> str:
    """Who says nothing loses on time, and neither before its turn is over nor long after, beside a quick match."""
    stored = Stored(trial.rbg, trial.game("tictactoe"))
    game = trial.folder / "for_eight.rbg"
    game.write_text(FOR_EIGHT)

    def silent(loop: Loop) -> str:
        with Served(trial, ["hall", str(stored.game), str(game), "--turn", "300", *ROUNDS]) as served:
            others = [Player(loop, served.port, ENDLESS * 20, 2) for _ in range(8)]
            players = [Player(loop, served.port, [], 1) for _ in range(2)]
            loop.beat()
            expect(loop.run(lambda: all(it.is_over for it in players), PATIENCE), "nobody loses on time")
            late = 1000 * (time.monotonic() - players[0].moved) - 300
            in_time(players, "E1 1")
            expect(-2 - 1000 * loop.worst < late < 150 and others[0].made > 10, f"E1 came {late:.1f} ms after the due moment")
        return f"{late:.1f} ms after the due moment, beside a quick match"

    return again_if_busy(silent)
