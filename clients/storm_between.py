"""Matches and halls with a storm between their players and the referee: each record is good, each log is of the match that
the players were sent, whoever loses by its own fault is one who had a harm, and memory stays small."""

import random
import socket
import time
from pathlib import Path
from typing import NamedTuple

from storm_loop import Loop
from storm_players import Player, Stored
from storm_proxy import Proxy, Weather, forecast
from storm_referee import Served, Trial, check_record, expect, outcome

GAMES = ["tictactoe", "connect_four", "breakthrough", "hex", "reversi", "gomoku", "kalah", "chess", "clobber", "knightthrough"]
TURN = 3000  # milliseconds
REFUSALS = [0, 3, 100]
ENDING = 60  # seconds in which a match ends, whatever happens in it


class Seen(NamedTuple):
    """A line of a match: its player, and the weather that it had."""

    player: Player
    weather: Weather


def stored(trial: Trial, names: list[str] = GAMES) -> list[Stored]:
    return [Stored(trial.rbg, trial.game(name)) for name in names]


def check_lines(seen: list[Seen], sent: dict[int, bytes]) -> None:
    """Each player got the bytes of its seat, or the first ones of them if it had a harm."""
    for player, weather in seen:
        heard = bytes(player.heard)
        if player.seat:
            whole = sent[player.seat]
            reported = f"seat {player.seat}, {weather}: it got {heard[-80:]!r}, and was sent {whole[-80:]!r}"
            expect(whole.startswith(heard) if weather.harm else whole == heard, reported)
        else:
            expect(any(whole.startswith(heard) for whole in sent.values()), f"a line without a seat got {heard[-80:]!r}")
            expect(weather.harm is not None, f"a line with the weather {weather} was sent nothing")


def check_end(played: Stored, seen: list[Seen], record: str) -> None:
    """Who has lost by its own fault had a harm; a match without one ended as the stored one."""
    found = outcome(record)
    harmed = [weather for _, weather in seen if weather.harm]
    if not harmed:
        expect(found == played.outcome, f"{played.game.stem} ended with {found}, without a harm")
    if found[:2] in ("E1", "E2", "E3"):
        loser = [weather for player, weather in seen if player.seat == int(found[3:])]
        unknown = [weather for player, weather in seen if not player.seat]
        expect(any(it.harm for it in loser + unknown), f"{played.game.stem} ended with {found}, but that seat had no harm")


def end_of(served: Served, loop: Loop, lines: list[Seen]) -> None:
    """Serves until the referee has ended, and the players have heard what it sent."""
    ended: list[bool] = []
    loop.when_ended(served.pid, lambda: ended.append(True))
    served.look_often(loop)
    expect(loop.run(lambda: bool(ended), ENDING), f"not ended: {[str(weather) for _, weather in lines]}")
    loop.run(lambda: all(player.is_gone or weather.harm == "deaf" for player, weather in lines), 5)


def stray(port: int, chance: random.Random) -> None:
    """A connection that says something or nothing and leaves at once."""
    with socket.create_connection(("127.0.0.1", port)) as connection:
        connection.sendall(chance.choice([b"", b"M0 1\0", b"x" * 5000, b"\0"]))


def storm_match(trial: Trial, games: list[Stored], seed: str, rubbish: int) -> str:
    """A match of `serve`. Returns how it ended."""
    chance, loop, log = random.Random(seed), Loop(), trial.folder / f"{seed}.log"
    played = chance.choice(games)
    weathers = [forecast(chance, played.greeting, played.reported, rubbish) for _ in range(played.seats)]
    limits = ["--turn", str(TURN), "--refusals", str(chance.choice(REFUSALS)), "--minutes", "5"]
    try:
        with Served(trial, ["serve", str(played.game), *limits, "--log", str(log)]) as served:
            strays = chance.choice([0, 0, 0, 1, 3])
            for _ in range(strays):
                stray(served.port, chance)
            time.sleep(0.3 if strays else 0)  # a seat is free again once the referee has seen that its stray left
            proxy = Proxy(loop, served.port, weathers, chance)
            seen = [Seen(Player(loop, proxy.port, played.moves), weather) for weather in weathers]
            end_of(served, loop, seen)
            ended = served.wait()
            expect(ended.status == 0, ended)
            served.check_memory()
    finally:
        loop.close()
    sent = check_record(trial, played.game, log, ended.printed)
    check_lines(seen, sent)
    check_end(played, seen, ended.printed)
    clean(log)
    return outcome(ended.printed)


def clean(log: Path) -> None:
    """Takes away a log, and what was made of it."""
    for file in log.parent.glob(log.name + "*"):
        file.unlink()


def records(printed: str) -> dict[int, str]:
    """What is printed of each match of a hall.

    >>> records("match 1\\nrbg 2\\n0 E4\\nmatch 3\\nrbg 2\\n")
    {1: 'rbg 2\\n0 E4\\n', 3: 'rbg 2\\n'}
    """
    found: dict[int, str] = {}
    number = 0
    for line in printed.splitlines(keepends=True):
        if line.startswith("match "):
            number = int(line.split()[1])
            found[number] = ""
        else:
            found[number] += line
    return found


def storm_hall(trial: Trial, games: list[Stored], seed: str, rubbish: int) -> str:
    """A hall of 1 to 16 matches, whose players come in any order. Returns how they ended."""
    chance, loop, log = random.Random(seed), Loop(), trial.folder / f"{seed}.hall"
    tables = [chance.choice(games) for _ in range(chance.choice([1, 2, 3, 4, 6, 16]))]
    order = [match for match, played in enumerate(tables, 1) for _ in range(played.seats)]
    chance.shuffle(order)
    weathers = [forecast(chance, tables[match - 1].greeting, tables[match - 1].reported, rubbish) for match in order]
    limits = ["--turn", str(TURN), "--refusals", str(chance.choice(REFUSALS)), "--rounds", "4294967295", "--wait", "20"]
    try:
        files = [str(played.game) for played in tables]
        with Served(trial, ["hall", *files, *limits, "--log", str(log)]) as served:
            for _ in range(chance.choice([0, 0, 1, 3])):
                stray(served.port, chance)
            proxy = Proxy(loop, served.port, weathers, chance)
            pairs = list(zip(order, weathers))
            seen = [Seen(Player(loop, proxy.port, tables[match - 1].moves, match), weather) for match, weather in pairs]
            end_of(served, loop, seen)
            ended = served.wait()
            expect(ended.status == 0, ended)
            served.check_memory(len(tables))
    finally:
        loop.close()
    found = records(ended.printed)
    expect(list(found) == list(range(1, len(tables) + 1)), f"the hall printed the matches {list(found)}")
    for match, played in enumerate(tables, 1):
        own = [it for number, it in zip(order, seen) if number == match]
        sent = check_record(trial, played.game, log.with_name(f"{log.name}.{match}"), found[match])
        check_lines(own, sent)
        check_end(played, own, found[match])
    clean(log)
    return " ".join(outcome(record)[:2] for record in found.values())
