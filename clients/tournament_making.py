"""The folder of a tournament is made, gets more matches, and gets results from other machines."""

import contextlib
import json
import shutil
from contextlib import contextmanager
from dataclasses import asdict, fields
from pathlib import Path
from typing import Iterator, Optional, Sequence

from tournament_files import Fault, alone, part_of, write_whole
from tournament_plan import Files, Folder, Pairing, Plan
from tournament_reading import Reading, copy_games, read_plan
from tournament_records import shares
from tournament_result import Result, result_of
from tournament_schedules import missing, next_round, whole_schedule

MAY_CHANGE = {"programs", "games", "rounds", "jobs", "wait", "grace", "minutes", "rbg", "author"}
PATIENCE = 30.0  # seconds to wait for who changes the schedule


def save_plan(plan: Plan, folder: Folder) -> None:
    write_whole(folder.plan, json.dumps(asdict(plan), indent=1) + "\n")


@contextmanager
def changing(folder: Folder) -> Iterator[None]:
    """Sees to it that nobody else changes the schedule meanwhile."""
    with alone(folder.path / "schedule.lock", f"the schedule of {folder.path} is being changed already", PATIENCE):
        yield


def make_plan(file: Path, folder: Folder) -> int:
    """Writes a tournament's folder as PLAN.toml says. Returns how many matches there are."""
    reading, openings = read_plan(file)
    if folder.plan.exists():
        raise Fault(f"{folder.path} has a plan already: tournament.py add puts more into it; what is changed needs a new folder")
    copy_games(reading, openings, folder)
    with changing(folder):
        plan = reading.plan
        # a schedule without a plan is of one that was stopped while it was made
        folder.schedule.unlink(missing_ok=True)
        count = folder.add(next_round(plan, []) if plan.schedule == "swiss" else whole_schedule(plan))
        save_plan(plan, folder)
    return count


def check_change(old: Plan, new: Plan) -> None:
    """Sees to it that a plan has all that the old one has.

    >>> from tournament_plan import Game, Program
    >>> old, new = (Plan("", "", {"a": Program("a {port}")}, {"g": Game(9, 2)}) for _ in range(2))
    >>> new.programs["b"] = Program("b {port}")
    >>> check_change(old, new)
    >>> check_change(new, old)
    Traceback (most recent call last):
    tournament_files.Fault: b of programs isn't in the new plan, or isn't what it was
    >>> new.heavy = "void"
    >>> check_change(old, new)
    Traceback (most recent call last):
    tournament_files.Fault: heavy was 'draw', and can't change
    """
    for field in fields(Plan):
        before, after = getattr(old, field.name), getattr(new, field.name)
        if field.name not in MAY_CHANGE and before != after:
            raise Fault(f"{field.name} was {before!r}, and can't change")
    if new.rounds < old.rounds:
        raise Fault(f"rounds was {old.rounds}, and can't fall")
    for name, program in old.programs.items():
        now = new.programs.get(name)
        if now is None or {**asdict(now), "since": 1} != {**asdict(program), "since": 1}:
            raise Fault(f"{name} of programs isn't in the new plan, or isn't what it was")
    for name, game in old.games.items():
        later = new.games.get(name)
        if later is None or later.turn != game.turn or later.openings < game.openings:
            raise Fault(f"{name} of games isn't in the new plan, or isn't what it was")


def check_files(reading: Reading, openings: dict[str, list[str]], folder: Folder) -> None:
    """Sees to it that the games and openings that were played are the same still."""
    for name, file in reading.files.items():
        kept = folder.game(name)
        if kept.exists() and kept.read_bytes() != file.read_bytes():
            raise Fault(f"{file} isn't what it was: {kept}")
        played = folder.openings(name).read_text().splitlines() if folder.openings(name).exists() else []
        if openings.get(name, [])[: len(played)] != played:
            raise Fault(f"the openings of {name} don't begin with those that there were")


def add_plan(file: Path, folder: Folder) -> int:
    """Puts the programs, games and rounds into a tournament that PLAN.toml has more than before. Returns how many matches
    there are more."""
    reading, openings = read_plan(file)
    with changing(folder):
        old, plan = Plan.load(folder.path), reading.plan
        check_change(old, plan)
        check_files(reading, openings, folder)
        copy_games(reading, openings, folder)
        pairings = list(folder.pairings())
        coming = max((pairing.round for pairing in pairings), default=0) + 1
        for name, program in plan.programs.items():
            program.since = old.programs[name].since if name in old.programs else coming
        save_plan(plan, folder)
        return 0 if plan.schedule == "swiss" else folder.add(missing(whole_schedule(plan), pairings))


def taken_of(pairing: Pairing, result: Result) -> list[float]:
    """What each seat took of a match; half if it counts for nobody.

    >>> pairing = Pairing("g", ("a", "b"))
    >>> taken_of(pairing, Result("g", ["a", "b"], scores=[0, 1])), taken_of(pairing, Result("g", ["a", "b"]))
    ([0.0, 1.0], [0.5, 0.5])
    """
    if result.scores is None or len(result.scores) < 2:
        return [0.5] * len(pairing.seats)
    return [sum(own.values()) / max(1, len(own)) for own in shares(result.scores, result.absent)]


def add_round(folder: Folder) -> int:
    """Adds the next round of a Swiss tournament, if all matches have been played. Returns how many matches there are
    more."""
    plan = Plan.load(folder.path)
    if plan.schedule != "swiss":
        return 0
    with changing(folder):
        pairings = list(folder.pairings())
        results = [result_of(plan, folder, number, pairing) for number, pairing in enumerate(pairings, 1)]
        if any(result is None for result in results):
            return 0
        done = [(pairing, taken_of(pairing, result)) for pairing, result in zip(pairings, results) if result]
        more = next_round(plan, done)
        return folder.add(more) if more else 0


def better(mine: Optional[Result], theirs: Optional[Result]) -> bool:
    """Whether another folder's result is to be taken over.

    >>> played, failed = Result("g", [], outcome="E4"), Result("g", [])
    >>> better(None, failed), better(failed, played), better(played, played), better(failed, None)
    (True, True, False, False)
    """
    return theirs is not None and (mine is None or (mine.outcome is None and theirs.outcome is not None))


def copy_match(source: Folder, folder: Folder, number: int) -> None:
    """Copies the files of a match, its result last, so that it is there only with all others."""
    result = Files(source, number).result
    files = [file for file in source.matches.glob(f"{number:04}.*") if file.suffix not in (".lock", ".json")]
    for file in [*files, result]:
        copy = folder.matches / file.name
        part = part_of(copy)
        try:
            shutil.copy2(file, part)
            part.replace(copy)
        except OSError as error:
            with contextlib.suppress(OSError):
                part.unlink(missing_ok=True)
            raise Fault(f"can't copy {file}: {error.strerror}") from None


def merge_schedule(folder: Folder, source: Folder) -> list[Pairing]:
    """Takes over the matches of a copy's schedule that there are more, as the next round of a Swiss tournament. Returns the
    copy's schedule."""
    plan, pairings, theirs = Plan.load(folder.path), list(folder.pairings()), list(source.pairings())
    common = min(len(theirs), len(pairings))
    if theirs[:common] != pairings[:common]:
        raise Fault(f"the schedule of {source.path} isn't that of {folder.path}")
    for name in plan.games:
        if source.game(name).read_bytes() != folder.game(name).read_bytes():
            raise Fault(f"{source.game(name)} isn't {folder.game(name)}")
    for pairing in theirs[common:]:
        unknown = [name for name in pairing.seats if name not in plan.programs]
        unknown += [name for name in (pairing.game,) if name not in plan.games]
        if unknown:
            raise Fault(f"{unknown[0]} of {source.path} isn't in {folder.path}: tournament.py add puts it there first")
    if len(theirs) > common:
        folder.add(theirs[common:])
    return theirs


def merge(folder: Folder, sources: Sequence[Folder]) -> tuple[int, list[str]]:
    """Takes over the results of copies of a tournament's folder, in which other machines have played. Returns how many it
    took, and the matches that both have played."""
    taken, reported = 0, []
    for source in sources:
        with changing(folder):
            theirs = merge_schedule(folder, source)
        for number in range(1, len(theirs) + 1):
            other = Result.load(Files(source, number).result)
            mine = Result.load(Files(folder, number).result)
            if better(mine, other):
                copy_match(source, folder, number)
                taken += 1
            elif mine and other and other.outcome is not None and mine.record != other.record:
                reported.append(f"match {number} of {source.path} was played here too: {mine.in_words()}, there {other.in_words()}")
    return taken, reported
