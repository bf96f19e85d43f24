#!/usr/bin/env python3
"""Tries tournament.py: small tournaments of the three plans of clients/example, and what may go wrong in one.

    tournament_trial.py [--keep DIR] [NAME..]

Without names all trials are made but for overhead, which prints times. It needs ./rbg and ./rbg_author. The files are left
in DIR, or if a trial failed.
"""

import argparse
import os
import resource
import shutil
import signal
import sys
import tempfile
import time
from pathlib import Path
from typing import Callable

import tournament_trial_faults as faults
import tournament_trial_plans as plans
from tournament_trying import ROOT, Wrong, expect, plan_of, tool


def timed(what: str, task: Callable[[], object]) -> None:
    """Does something, and says how long it took, and how much of the processors."""
    began, used = time.monotonic(), resource.getrusage(resource.RUSAGE_CHILDREN)
    task()
    seconds, now = time.monotonic() - began, resource.getrusage(resource.RUSAGE_CHILDREN)
    cost = now.ru_utime + now.ru_stime - used.ru_utime - used.ru_stime
    print(f"{what}: {seconds:.1f} s, {cost:.1f} s of the processors", flush=True)


def try_overhead(folder: Path) -> None:
    """500 matches of tic-tac-toe, and the table of 10,000."""
    play = f"{ROOT}/rbg play --port {{port}} --rounds 4294967295"
    many, more = folder / "many", folder / "more"
    tool("plan", plan_of(folder, "tictactoe", {"a": play, "b": play}, "rounds = 250"), many)
    timed("500 matches of tic-tac-toe", lambda: tool("run", many))
    timed("to see that they are done", lambda: tool("run", many))
    tool("plan", plan_of(folder, "tictactoe", {"a": play, "b": play}, "rounds = 5000"), more)
    for number in range(1, 10_001):
        for kind in ("json", "record"):
            old, new = f"{(number - 1) % 500 + 1:04}.{kind}", f"{number:04}.{kind}"
            os.link(many / "matches" / old, more / "matches" / new)
    timed("the table of 10,000 matches", lambda: expect("10000 of 10000" in tool("table", more), "it has 10,000 matches"))


TRIALS: dict[str, Callable[[Path], None]] = {
    "round_robin": plans.try_round_robin,
    "gauntlet": plans.try_gauntlet,
    "league": plans.try_league,
    "jobs": plans.try_jobs,
    "openings": plans.try_openings,
    "adding": plans.try_adding,
    "merge": plans.try_merge,
    "kills": faults.try_kills,
    "cheats": faults.try_cheats,
    "limits": faults.try_limits,
    "test": faults.try_test,
    "faults": faults.try_faults,
}


def main() -> int:
    parser = argparse.ArgumentParser(description=__doc__.splitlines()[0])
    parser.add_argument("names", nargs="*", metavar="NAME", help=", ".join([*TRIALS, "overhead"]))
    parser.add_argument("--keep", type=Path, metavar="DIR", help="a new folder in which the files are left")
    words = parser.parse_args()
    # what is ignored here, as under nohup or in a shell's background, would be ignored by each program too
    signal.signal(signal.SIGINT, signal.default_int_handler)
    trials = {**TRIALS, "overhead": try_overhead}
    names = words.names or list(TRIALS)
    unknown = [name for name in names if name not in trials]
    if unknown:
        parser.error(f"{unknown[0]} is no trial")
    folder = words.keep or Path(tempfile.mkdtemp())
    for name in names:
        (folder / name).mkdir(parents=True)
        print(f"== {name}", flush=True)
        try:
            timed(name, lambda: trials[name](folder / name))
        except Wrong as wrong:
            print(f"{name}: not so: {wrong}\nthe files are in {folder / name}", file=sys.stderr)
            return 1
    if words.keep is None:
        shutil.rmtree(folder, ignore_errors=True)
    print(f"{len(names)} trials, each as it should be")
    return 0


if __name__ == "__main__":
    sys.exit(main())
