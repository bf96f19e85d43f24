#!/usr/bin/env python3
"""Tries `rbg serve` and `rbg hall` from outside: is the clock right, and is nothing lost?

    storm.py GAMES [--rbg FILE] [--only NAME ..] [--short]
    storm.py GAMES [--rbg FILE] --storm SEED

GAMES is the folder of the games that come with rbg, with a match of each. The parts are

    clock    programs that are in time don't lose on time, whatever goes on beside them
    lost     logs name their match and are held by one process, halls go on, records are kept
    ends     output that can't be written, descriptors that run out, signals
    disks    calls about files that fail, come short or are cut off; full disks (this needs gcc)
    flood    rubbish without an end: memory and logs stay small
    between  matches and halls with a storm between players and referee, each of a seed of its own

Each trial is reported in a line. What is known to be open is reported too, and fails nothing until it is mended. The last line counts.
"""

import argparse
import signal
import sys
import tempfile
import time
from concurrent.futures import ThreadPoolExecutor
from pathlib import Path
from typing import Callable

import storm_between
import storm_clock
import storm_disks
import storm_ends
import storm_flood
import storm_full
import storm_lost
from storm_between import storm_hall, storm_match, stored
from storm_open import OPEN
from storm_referee import Trial, expect

TOP = Path(__file__).resolve().parent.parent
RUBBISH = 100_000  # the most bytes of it over a connection of a storm
MOST_FAULTS = 4  # after this many no more storms are tried
Make = Callable[[Trial], str]


class Size:
    """How much is tried: matches and halls of the storm, runs of disks, bytes of rubbish."""

    def __init__(self, words: argparse.Namespace):
        short = words.short
        self.matches = 60 if short else 1000
        self.halls = 8 if short else 100
        self.runs = 60 if short else 1000
        self.rubbish = 50_000_000 if short else 1_000_000_000
        self.seed, self.jobs = words.seed, words.jobs


def storms(trial: Trial, size: Size) -> dict[str, Make]:
    """The storms between, in two trials."""

    def all_of(storm: Callable[..., str], kind: str, count: int) -> str:
        games, faults = stored(trial), []

        def one(number: int) -> str:
            if len(faults) >= MOST_FAULTS:
                return ""
            seed = f"{size.seed}-{kind}-{number}"
            try:
                return storm(trial, games, seed, RUBBISH)
            except Exception as wrong:  # of many storms some that went wrong are reported
                faults.append(f"seed {seed}: {type(wrong).__name__}: {wrong}")
                return ""

        with ThreadPoolExecutor(size.jobs) as pool:
            ends = " ".join(pool.map(one, range(count))).split()
        expect(not faults, "\n".join(faults))
        return f"{count}: " + ", ".join(f"{ends.count(it)} {it}" for it in ("E0", "E1", "E2", "E3", "E4"))

    return {
        "matches": lambda _: all_of(lambda *it: storm_match(*it)[:2], "match", size.matches),
        "halls": lambda _: all_of(storm_hall, "hall", size.halls),
    }


def disks(trial: Trial, size: Size) -> dict[str, Make]:
    kinds = [storm_disks.Logged, storm_disks.Synced, storm_disks.Resumed, storm_disks.Hall, storm_disks.ResumedHall]
    return {
        "faults": lambda it: storm_disks.fail(it, TOP, kinds, size.runs, size.seed),
        "kept": lambda it: storm_disks.fail(it, TOP, [storm_disks.Kept, storm_disks.KeptHall], size.runs // 4, size.seed),
        "full_system": storm_full.full_system,
        "file_limit": storm_full.file_limit,
    }


def functions(module: object, *names: str) -> Callable[[Trial, Size], dict[str, Make]]:
    return lambda _, __: {name: getattr(module, name) for name in names}


PARTS: dict[str, Callable[[Trial, Size], dict[str, Make]]] = {
    "clock": functions(storm_clock, "quick_hall", "late_moves", "beside_silent", "heavy_neighbour", "stopped", "overdue"),
    "lost": functions(
        storm_lost, "other_game", "two_resumers", "substitutes", "kept_by_serve", "kept_by_hall", "long_log", "hall_goes_on"
    ),
    "ends": functions(storm_ends, "output_fails", "error_fails", "few_descriptors", "signalled"),
    "disks": disks,
    "flood": lambda _, size: {
        "flood": lambda it: storm_flood.flood(it, size.rubbish // 20),
        "flood_hall": lambda it: storm_flood.flood_hall(it, size.rubbish),
        "refused_hall": storm_flood.refused_hall,
        "flooders": storm_flood.flooders,
        "takes_nothing": storm_flood.takes_nothing,
    },
    "between": storms,
}


def tell(part: str, name: str, make: Make, trial: Trial) -> str:
    """Makes a trial, and reports how it went: `passed`, `failed` or `open`."""
    began = time.monotonic()
    try:
        reported, result = make(trial), "passed"
    except Exception as wrong:  # whatever is wrong with one trial, the others are made
        reported, result = f"{type(wrong).__name__}: {wrong}", "open" if name in OPEN else "failed"
    if result == "passed" and name in OPEN:
        reported += " (it isn't open any more: take it off the list)"
    print(f"{part} {name}: {result} in {time.monotonic() - began:.1f} s: {reported}", flush=True)
    return result


def main() -> int:
    parser = argparse.ArgumentParser(description=__doc__.splitlines()[0])
    parser.add_argument("games", type=Path, metavar="GAMES", help="the folder of the games")
    parser.add_argument("--rbg", default="./rbg", help="the program")
    parser.add_argument("--only", nargs="+", default=[], metavar="NAME", help="these parts or trials")
    parser.add_argument("--short", action="store_true", help="fewer of each")
    parser.add_argument("--seed", type=int, default=1)
    parser.add_argument("--jobs", type=int, default=4, help="how many matches of the storm are played at once")
    parser.add_argument("--memory", type=int, default=16, help="the most megabytes of a referee")
    parser.add_argument("--storm", metavar="SEED", help="this storm between alone, as it is named if one goes wrong")
    words = parser.parse_args()
    # what is ignored here, as under nohup or in a shell's background, is ignored by each referee too
    signal.signal(signal.SIGHUP, signal.SIG_DFL)
    signal.signal(signal.SIGINT, signal.default_int_handler)
    size = Size(words)
    results = []
    with tempfile.TemporaryDirectory(prefix="rbg-storm-") as folder:
        trial = Trial(words.rbg, words.games, Path(folder), words.memory)
        if words.storm:
            storm = storm_hall if "-hall-" in words.storm else storm_match
            print(storm(trial, stored(trial), words.storm, RUBBISH))
            return 0
        for part, made in PARTS.items():
            for name, make in made(trial, size).items():
                if not words.only or part in words.only or name in words.only:
                    results.append(tell(part, name, make, trial))
    print(f"{results.count('passed')} trials passed, {results.count('open')} are known to be open, {results.count('failed')} failed")
    return 1 if "failed" in results or not results else 0


if __name__ == "__main__":
    sys.exit(main())
