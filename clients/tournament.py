#!/usr/bin/env python3
"""Tournaments of playing programs: round robin, gauntlet and Swiss, with openings, a test when to stop, and a table.

    tournament.py plan PLAN.toml [DIR]      writes DIR: the plan, copies of the games, and jobs.txt, a line for each match
    tournament.py add PLAN.toml DIR         adds the programs, games and rounds that PLAN.toml has more than DIR
    tournament.py run DIR                   plays the matches that have no result yet: --jobs N, --again, --html FILE
    tournament.py match DIR K               plays match K; this is what each line of jobs.txt does
    tournament.py next DIR                  adds the next round of a Swiss tournament, if the last one is over
    tournament.py table DIR                 prints the table, writes results.csv and results.json: --html FILE, --check
    tournament.py merge DIR FROM..          takes over the results of copies of DIR in which other machines have played
    tournament.py openings GAME N           prints N openings of a game: --plies K, --seed S

docs/TOURNAMENTS.md describes the plan and the files. It needs nothing but Linux, Python 3.11 and the program rbg.
"""

import argparse
import os
import select
import signal
import sys
from pathlib import Path
from types import FrameType
from typing import Optional

from tournament_charts import stacked
from tournament_commands import warnings
from tournament_files import Fault, write_whole
from tournament_making import add_plan, add_round, make_plan, merge
from tournament_match import play_match
from tournament_openings import make_openings
from tournament_page import charts, write_page
from tournament_plan import Files, Folder, Plan
from tournament_processes import Stop, Stopped
from tournament_result import Result
from tournament_run import run
from tournament_standings import table_of
from tournament_table import columns_in_words, table_text, write_results

STOPS = (signal.SIGINT, signal.SIGTERM, signal.SIGHUP)  # what asks this program to stop


def count(word: str) -> int:
    """A number from 1 on.

    >>> count("0")
    Traceback (most recent call last):
    argparse.ArgumentTypeError: 0 is no number from 1 on
    """
    if not word.isdecimal() or int(word) < 1:
        raise argparse.ArgumentTypeError(f"{word} is no number from 1 on")
    return int(word)


def words_of() -> argparse.Namespace:
    parser = argparse.ArgumentParser(description=__doc__.splitlines()[0])
    commands = parser.add_subparsers(dest="command", required=True)

    def command(name: str, reported: str, folder: bool = True) -> argparse.ArgumentParser:
        made = commands.add_parser(name, help=reported, description=reported)
        if folder:
            made.add_argument("folder", type=Path, metavar="DIR")
        return made

    plan = command("plan", "writes the folder of a tournament, with jobs.txt", folder=False)
    plan.add_argument("plan", type=Path, metavar="PLAN.toml")
    plan.add_argument("folder", type=Path, metavar="DIR", nargs="?", help="PLAN without its ending, if not given")
    adding = command("add", "adds the programs, games and rounds that a plan has more than a folder", folder=False)
    adding.add_argument("plan", type=Path, metavar="PLAN.toml")
    adding.add_argument("folder", type=Path, metavar="DIR")
    playing = command("run", "plays the matches that have no result yet")
    playing.add_argument("--jobs", type=count, metavar="N", help="how many at once, if not the plan's number")
    playing.add_argument("--again", action="store_true", help="plays those that failed or were lost by default, too")
    playing.add_argument("--html", type=Path, metavar="FILE", help="writes the page now and then")
    match = command("match", "plays one match, unless it has a result")
    match.add_argument("number", type=count, metavar="K")
    match.add_argument("--again", action="store_true", help="also if it failed or was lost by default")
    command("next", "adds the next round of a Swiss tournament, if the last one is over")
    table = command("table", "prints the table, and writes results.csv and results.json")
    table.formatter_class, table.epilog = argparse.RawDescriptionHelpFormatter, columns_in_words()
    table.add_argument("--html", type=Path, metavar="FILE", help="writes the table as a page, too")
    table.add_argument("--svg", type=Path, metavar="FILE", help="writes the charts as a picture")
    table.add_argument("--check", action="store_true", help="looks at each record again, by rbg replay")
    merging = command("merge", "takes over the results of copies of a folder")
    merging.add_argument("sources", type=Path, metavar="FROM", nargs="+")
    openings = command("openings", "prints openings of a game, of random moves", folder=False)
    openings.add_argument("game", type=Path, metavar="GAME")
    openings.add_argument("count", type=count, metavar="N", help="how many")
    openings.add_argument("--plies", type=count, default=4, metavar="K", help="how many moves each has (4)")
    openings.add_argument("--seed", type=int, default=1, metavar="S")
    openings.add_argument("--playouts", type=int, default=100, metavar="M", help="by which they are balanced (100)")
    openings.add_argument("--balance", type=float, default=0.15, metavar="B", help="how far from half (0.15)")
    openings.add_argument("--rbg", default="./rbg", metavar="PROGRAM", help="the program rbg (./rbg)")
    return parser.parse_args()


def play_one(folder: Folder, number: int, again: bool) -> None:
    """Plays a match. One that has a result is passed over before anything else is read."""
    result = Result.load(Files(folder, number).result)
    if result is None or (again and result.outcome is None):
        plan, pairing = Plan.load(folder.path), folder.pairing(number)
        result = play_match(folder, plan, number, pairing, Stop(), again)
    print(f"match {number}: {result.in_words()}")


def show_table(folder: Folder, page: Optional[Path], picture: Optional[Path], checks: bool) -> None:
    plan = Plan.load(folder.path)
    table = table_of(plan, folder, checks)
    write_results(folder, table)
    print(table_text(plan, table))
    if page is not None:
        write_page(plan, folder, table, page)
    if picture is not None:
        write_whole(picture, stacked(charts(table)))


def warn(folder: Folder) -> None:
    """Says which commands aren't there on this machine."""
    for warning in warnings(Plan.load(folder.path)):
        print(f"warning: {warning}", file=sys.stderr)


def obey(words: argparse.Namespace) -> None:
    if words.command == "openings":
        for line in make_openings(
            words.rbg, words.game, words.count, words.plies, words.seed, words.playouts, words.balance
        ):
            print(line, flush=True)
        return
    if words.command == "plan" and words.folder is None:
        words.folder = words.plan.with_suffix("")
        if words.folder == words.plan:
            raise Fault(f"{words.plan} has no ending: name the folder too")
    folder = Folder(words.folder)
    if words.command == "plan":
        print(f"{make_plan(words.plan, folder)} matches in {folder.jobs}")
        warn(folder)
    elif words.command == "add":
        print(f"{add_plan(words.plan, folder)} more matches in {folder.jobs}")
        warn(folder)
    elif words.command == "run":
        run(folder, words.jobs, words.again, words.html)
    elif words.command == "match":
        play_one(folder, words.number, words.again)
    elif words.command == "next":
        print(f"{add_round(folder)} more matches in {folder.jobs}")
    elif words.command == "table":
        show_table(folder, words.html, words.svg, words.check)
    else:
        taken, reported = merge(folder, [Folder(source) for source in words.sources])
        print("\n".join([*reported, f"{taken} results taken over"]))


def stop(number: int, _frame: Optional[FrameType]) -> None:
    """Ends this program. No further signal disturbs it while it ends the programs of its matches."""
    for each in STOPS:
        # a signal that is ignored would be ignored by what is started, too
        signal.signal(each, lambda *_: None)
    sys.exit(128 + number)


def is_unread() -> bool:
    """Whether nobody reads any more what is printed, as after `| head`. Then what is left goes nowhere."""
    pipe = select.poll()
    pipe.register(sys.stdout, 0)  # that it has an error is always reported
    if not pipe.poll(0):
        return False
    os.dup2(os.open(os.devnull, os.O_WRONLY), sys.stdout.fileno())
    return True


def main() -> int:
    # so that the programs of a match end with it if it is asked to stop
    for each in STOPS:
        if signal.getsignal(each) != signal.SIG_IGN:
            signal.signal(each, stop)
    try:
        obey(words_of())
        sys.stdout.flush()
    except Stopped:
        return 1
    except Fault as fault:
        print(fault, file=sys.stderr)
        return 1
    except OSError as error:
        if not (isinstance(error, BrokenPipeError) and is_unread()):
            print(f"{error.filename or 'a file'}: {error.strerror}", file=sys.stderr)
        return 1
    return 0


if __name__ == "__main__":
    sys.exit(main())
