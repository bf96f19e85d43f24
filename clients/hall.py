#!/usr/bin/env python3
"""Plays a match of each of some games at once in one hall, with the example client, and checks each record and log.

The players connect in a random order, so none of them knows its seat before the referee sends it. The record of a log's match has
to be the one that the hall prints, and so has the file of `--records`.
"""

import argparse
import random
import subprocess
import sys
import tempfile
from pathlib import Path

from served import CLIENT, Wrong, end, listen

PATIENCE = 300  # seconds in which the matches have to end


def keeps_records(rbg):
    """Whether this hall keeps records in a folder."""
    return "--records" in subprocess.run([rbg, "help", "hall"], stdout=subprocess.PIPE, text=True).stdout


def start_hall(rbg, games, folder):
    """A hall that listens, with logs and records in the folder, and its port."""
    kept = ["--records", str(folder)] if keeps_records(rbg) else []
    words = ["--rounds", "4294967295", "--wait", "60", "--log", str(folder / "log"), *kept]
    return listen([rbg, "hall", *games, *words])


def player(rbg, port, match, seed):
    """A random player that joins the match."""
    words = [sys.executable, str(CLIENT), str(port), "--match", str(match), "--random", str(seed), "--rbg", rbg]
    return subprocess.Popen(words, stdout=subprocess.PIPE, text=True)


def records(printed):
    """What is printed of each match, after its line `match K`.

    >>> records("match 1\\nrbg 2\\n0 E4\\nmatch 3\\nrbg 2\\n")
    {1: 'rbg 2\\n0 E4\\n', 3: 'rbg 2\\n'}
    """
    found, number = {}, 0
    for line in printed.splitlines(keepends=True):
        if line.startswith("match "):
            number = int(line.split()[1])
            found[number] = ""
        else:
            found[number] += line
    return found


def is_good(rbg, game, record):
    """Whether `rbg replay` calls the record good."""
    with tempfile.NamedTemporaryFile("w", suffix=".record") as file:
        file.write(record)
        file.flush()
        done = subprocess.run([rbg, "replay", game, file.name], stdout=subprocess.PIPE, text=True)
        return done.stdout == "good\n"


def record_of_log(rbg, game, log, record):
    """The record of the match of a log, which is written to a new file."""
    with open(log, "rb") as script:
        subprocess.run([rbg, "referee", game, "--record", str(record)], stdin=script, stdout=subprocess.DEVNULL, check=True)
    return record.read_text()


def is_reported(rbg, game, folder, number, record):
    """Whether the log of the match of this number has the match of the record, and so does the record that is kept."""
    if not record:
        return False
    kept = folder / f"{number}.record"
    if keeps_records(rbg) and kept.read_text() != record:
        return False
    return record_of_log(rbg, game, folder / f"log.{number}", folder / f"record.{number}") == record


def main():
    parser = argparse.ArgumentParser(description=__doc__.splitlines()[0])
    parser.add_argument("games", nargs="+", help="the descriptions, each of a game of two players")
    parser.add_argument("--rbg", default="./rbg", metavar="PROGRAM", help="the program rbg")
    parser.add_argument("--seed", type=int, default=1, help="the seed of the order and of the moves")
    words = parser.parse_args()
    with tempfile.TemporaryDirectory() as folder:
        try:
            return play(words, Path(folder))
        except Wrong as wrong:
            sys.exit(f"wrong: {wrong}")


def play(words, folder):
    """Plays the matches, with the logs in the folder, and prints what comes of each."""
    hall, port = start_hall(words.rbg, words.games, folder)
    order = [match for match in range(1, len(words.games) + 1) for _ in range(2)]
    random.Random(words.seed).shuffle(order)
    players = [player(words.rbg, port, match, seed) for seed, match in enumerate(order, words.seed)]
    try:
        printed, reported = hall.communicate(timeout=PATIENCE)
    except subprocess.TimeoutExpired:
        raise Wrong(f"the matches haven't ended after {PATIENCE} seconds") from None
    finally:
        end(hall, players)
    if hall.returncode:
        sys.exit(f"the hall ended with status {hall.returncode}: {printed}{reported}")
    found = records(printed)
    bad = 0
    for number, game in enumerate(words.games, 1):
        record = found.get(number, "")
        good = is_good(words.rbg, game, record)
        reported = is_reported(words.rbg, game, folder, number, record)
        bad += not (good and reported)
        last = record.splitlines()[-1] if record else "no record"
        print(f"match {number}, {Path(game).name}: {last}, {'good' if good else 'not good'}, {'as' if reported else 'not as'} in its log")
    if bad == 0:
        print(f"{len(words.games)} matches, each record is good, and as in its log")
    return 1 if bad else 0


if __name__ == "__main__":
    sys.exit(main())
