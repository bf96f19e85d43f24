"""Nothing is lost, and nothing is made up: logs of another game, two who go on from one log, and halls with programs that ask
for no match."""

import time
from contextlib import closing, suppress
from pathlib import Path

from storm_between import records
from storm_loop import Loop
from storm_match import pair, play
from storm_players import Player, Stored
from storm_referee import Ended, Served, Trial, check_record, expect, outcome, run

LIMITS = ["--minutes", "5"]
PATIENCE = 60


def begun_log(trial: Trial, stored: Stored, log: Path, least: int) -> None:
    """Plays a match with a log until it has this many lines, and kills it."""
    with Served(trial, ["serve", str(stored.game), *LIMITS, "--log", str(log)]) as served, closing(Loop()) as loop:
        players = [Player(loop, served.port, stored.moves, think=0.01) for _ in range(2)]
        expect(loop.run(lambda: log.read_bytes().count(b"\n") >= least, PATIENCE), "no log is written")
        expect(not players[0].is_over, "the match has ended")
        served.referee.kill()  # before its players leave
        served.referee.wait()


def other_game(trial: Trial) -> str:
    """A log names its match: `--resume` with another game is refused, and says why."""
    stored, other = Stored(trial.rbg, trial.game("breakthrough")), trial.game("tictactoe")
    log = trial.folder / "another.log"
    begun_log(trial, stored, log, 6)
    before = log.read_bytes()
    ended = play(trial, ["serve", str(other), *LIMITS, "--resume", str(log)], pair(Stored(trial.rbg, other)))
    expect((ended.status, ended.printed) == (3, "device\n") and "of another game" in ended.reported, ended)
    expect(log.read_bytes() == before, "the log is another one than before")
    again = play(trial, ["serve", str(stored.game), *LIMITS, "--resume", str(log)], pair(stored))
    expect(again.status == 0 and outcome(again.printed) == stored.outcome, again)
    return "refused, and the log goes on with its own"


def two_resumers(trial: Trial) -> str:
    """One process holds a log: a second one that would go on from it is refused. After a kill it isn't held."""
    stored = Stored(trial.rbg, trial.game("breakthrough"))
    log = trial.folder / "held.log"
    begun_log(trial, stored, log, 6)
    words = ["serve", str(stored.game), *LIMITS, "--resume", str(log)]
    with Served(trial, words) as first, closing(Loop()) as loop:
        second = play(trial, [*words, "--wait", "5"], [])
        expect((second.status, second.printed) == (3, "device\n") and "another process" in second.reported, second)
        players = [Player(loop, first.port, stored.moves, think=0.01) for _ in range(2)]
        expect(loop.run(lambda: all(it.made > 12 for it in players), PATIENCE), "the first one doesn't go on")
        third = play(trial, [*words, "--wait", "5"], [])
        expect((third.status, third.printed) == (3, "device\n") and "another process" in third.reported, third)
        expect(loop.run(lambda: all(it.is_over for it in players), PATIENCE), "the first one hasn't ended")
        ended = first.wait()
    expect(ended.status == 0 and outcome(ended.printed) == stored.outcome, ended)
    check_record(trial, stored.game, log, ended.printed)
    return "the second and the third one are refused, and the first one ends"


def substitutes(trial: Trial) -> str:
    """In a hall of two matches, lines that ask for no match, leave before their `H` or say nothing make room for others."""
    stored = Stored(trial.rbg, trial.game("tictactoe"))
    words = ["hall", str(stored.game), str(stored.game), *LIMITS, "--wait", "60"]
    with Served(trial, words) as served, closing(Loop()) as loop:
        first = [Player(loop, served.port, stored.moves, 1) for _ in range(2)]
        wrong = [Player(loop, served.port, [], 99) for _ in range(2)]
        expect(loop.run(lambda: all(it.refused == [5] for it in wrong), 10), "a line that asks for match 99 hears no R5")
        gone = [Player(loop, served.port, []) for _ in range(2)]
        for it in gone:
            it.stream.close()
        silent = Player(loop, served.port, [])
        second = []
        with suppress(ConnectionRefusedError):
            second = [Player(loop, served.port, stored.moves, 2) for _ in range(2)]
        expect(len(second) == 2, "no other line can come")
        expect(loop.run(lambda: all(it.is_over for it in first + second), PATIENCE), "the matches haven't ended")
        silent.stream.close()
        ended = served.wait()
    found = records(ended.printed)
    expect(ended.status == 0 and [outcome(it) for it in found.values()] == [stored.outcome] * 2, ended)
    return "two other lines have played"


def kept_records(trial: Trial, kind: str) -> str:
    """A match that has ended has its record in the folder of `--records`, though another one of its hall never ends."""
    stored = Stored(trial.rbg, trial.game("tictactoe"))
    folder = trial.folder / f"records-{kind}"
    games = [str(stored.game)] * (2 if kind == "hall" else 1)
    with Served(trial, [kind, *games, *LIMITS, "--records", str(folder)]) as served, closing(Loop()) as loop:
        silent = [Player(loop, served.port, [], 2) for _ in range(2)] if kind == "hall" else []
        players = [Player(loop, served.port, stored.moves, int(kind == "hall")) for _ in range(2)]
        expect(loop.run(lambda: all(it.is_over for it in players), PATIENCE), "the match hasn't ended")
        last = time.monotonic() + 5
        while time.monotonic() < last and not (folder / "1.record").exists():
            time.sleep(0.01)
        expect((folder / "1.record").exists(), "no record in the folder")
        expect(not any(it.is_over for it in silent), "the other match has ended")
    expect(run(trial.rbg, "replay", str(stored.game), str(folder / "1.record")).printed == "good\n", "the record isn't good")
    expect(outcome((folder / "1.record").read_text()) == stored.outcome, "another end")
    return "written when its match ended"


def kept_by_serve(trial: Trial) -> str:
    """`serve --records`."""
    return kept_records(trial, "serve")


def kept_by_hall(trial: Trial) -> str:
    """`hall --records`."""
    return kept_records(trial, "hall")


def long_log(trial: Trial) -> str:
    """`--resume` reads a log above 16,777,216 bytes."""
    stored = Stored(trial.rbg, trial.game("tictactoe"))
    log = trial.folder / "long.log"
    (first, move), (second, _) = [it for it in stored.moves if it[0]][:2]
    with log.open("w") as file:
        file.write(f"config 60000 3 0\np {second} 0 {'78' * 9_000_000}00\np {first} 0 {(move + bytes(1)).hex()}\n")
    expect(log.stat().st_size > 16_777_216, "the log is too short for this")
    ended = play(trial, ["serve", str(stored.game), *LIMITS, "--resume", str(log)], pair(stored))
    expect(ended.status == 0 and outcome(ended.printed) == stored.outcome, ended)
    return f"{log.stat().st_size:,} bytes after it has gone on"


def hall_goes_on(trial: Trial) -> str:
    """A hall that is killed goes on from its logs: one match had ended, one is in play, and one hadn't begun."""
    tic, four = Stored(trial.rbg, trial.game("tictactoe")), Stored(trial.rbg, trial.game("connect_four"))
    log, games = trial.folder / "hall.log", [str(tic.game), str(four.game), str(tic.game)]
    begun = lambda match: Path(f"{log}.{match}").read_bytes().count(b"\n")
    with Served(trial, ["hall", *games, *LIMITS, "--log", str(log)]) as served, closing(Loop()) as loop:
        ended = [Player(loop, served.port, tic.moves, 1) for _ in range(2)]
        halfway = [Player(loop, served.port, four.moves[:10], 2) for _ in range(2)]
        others = [Player(loop, served.port, [], 3) for _ in range(2)]
        over = lambda: all(it.is_over for it in ended) and all(it.made >= 10 for it in halfway) and begun(3)
        expect(loop.run(over, PATIENCE), "the hall's matches don't go on")
        expect(not any(it.is_over for it in others), "match 3 has ended")
        served.referee.kill()  # before its players leave
        served.referee.wait()
    Path(f"{log}.3").write_bytes(b"")  # as if it was killed before the match began
    with Served(trial, ["hall", *games, *LIMITS, "--resume", str(log)]) as served, closing(Loop()) as loop:
        lines = [(four, 2), (tic, 3)] * 2
        players = [Player(loop, served.port, stored.moves, match, think=0.01) for stored, match in lines]
        expect(loop.run(lambda: all(it.is_over for it in players), PATIENCE), "the hall doesn't go on")
        done = served.wait()
    check_hall(trial, [tic, four, tic], log, done)
    return "each match has its end"


def check_hall(trial: Trial, tables: list[Stored], log: Path, done: Ended) -> None:
    found = records(done.printed)
    expect(done.status == 0 and list(found) == list(range(1, len(tables) + 1)), done)
    for match, stored in enumerate(tables, 1):
        check_record(trial, stored.game, Path(f"{log}.{match}"), found[match])
        expect(outcome(found[match]) == stored.outcome, f"match {match}: {outcome(found[match])}")
