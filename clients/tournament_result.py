"""The result of a match, as its file has it."""

import json
import socket
import subprocess
import time
from dataclasses import dataclass, field
from pathlib import Path
from typing import Optional

from tournament_files import Fault, write_whole
from tournament_plan import Files, Folder, Pairing, Plan
from tournament_records import Record, checksum, counted, judge, without

ANSWERS = (0, 1, 2)  # the statuses of rbg that say something of what it was given; the others are faults of the system


@dataclass
class Result:
    """How a match went. What it has no record of, it has a reason for; `absent` are the seats that have lost by default."""

    game: str
    seats: list[str]
    round: int = 1
    opening: int = 0
    outcome: Optional[str] = None  # as the record has it; `-` for a match that the plan has ended
    scores: Optional[list[int]] = None  # what it counts; None for nobody
    adjudged: str = ""  # what the plan decided, and not the referee
    absent: list[int] = field(default_factory=list)
    reason: Optional[str] = None
    moves: int = 0  # the players' moves
    times: list[list[int]] = field(default_factory=list)  # for each seat the milliseconds of each of its turns
    exits: list[Optional[str]] = field(default_factory=list)  # how the program of each seat ended
    faults: list[str] = field(default_factory=list)  # what else went wrong, and changed nothing
    began: str = ""
    seconds: float = 0
    machine: str = field(default_factory=socket.gethostname)
    record: str = ""  # the checksum of the record that was found good
    course: str = ""  # the checksum of all but the times

    @staticmethod
    def of(pairing: Pairing) -> "Result":
        now = time.strftime("%Y-%m-%dT%H:%M:%SZ", time.gmtime())
        return Result(pairing.game, list(pairing.seats), pairing.round, pairing.opening, began=now)

    @staticmethod
    def load(file: Path) -> Optional["Result"]:
        """What was written of a match, if anything was that can be read."""
        try:
            return Result(**json.loads(file.read_bytes()))
        except (OSError, ValueError, TypeError):
            return None

    def save(self, file: Path) -> None:
        write_whole(file, json.dumps(vars(self)) + "\n")

    @property
    def state(self) -> str:
        """`played`, `adjudged` by the plan, `default`, or `failed`, which counts for nobody.

        >>> Result("g", ["a", "b"], absent=[1], reason="a doesn't start").state
        'default'
        """
        if self.outcome is None:
            return "default" if self.absent else "failed"
        return "adjudged" if self.adjudged else "played"

    @property
    def late(self) -> Optional[int]:
        """The seat that has lost by the plan: it took longer for a turn than its program's own `turn`.

        >>> late = Result("g", ["a", "b"], outcome="E0 9 0", scores=[0, 1], adjudged="seat 1 took 40 ms of 40 ms")
        >>> late.late, Result("g", ["a", "b"], outcome="-", scores=[1, 1], adjudged="3 moves").late
        (1, None)
        """
        return self.scores.index(0) + 1 if self.state == "adjudged" and self.scores and 0 in self.scores else None

    def verdict(self) -> str:
        """What a match with an outcome counts, by the names of the programs. Only of one that was played to its end the
        scores are given.

        >>> for end, scores, adjudged in ("E0 9 0", [9, 0], ""), ("E3 1", [0, 1], ""), ("E0 9 0", [0, 1], "seat 1 took 9 ms"):
        ...     Result("g", ["a", "b"], outcome=end, scores=scores, adjudged=adjudged).verdict()
        'E0: a 9, b 0'
        'E3: a has lost'
        'adjudged: seat 1 took 9 ms: a has lost'
        >>> [Result("g", ["a", "b"], outcome="E4", scores=scores).verdict() for scores in ([1, 1], None)]
        ['E4: a draw', 'E4: counts for nobody']
        """
        end = self.outcome.split()[0] if self.outcome else ""
        how = self.in_words() if self.adjudged else end
        if self.scores is None:
            return f"{how}: counts for nobody"
        if end == "E0" and not self.adjudged:
            return f"{how}: " + ", ".join(f"{name} {score}" for name, score in zip(self.seats, self.scores))
        lost = [name for name, score in zip(self.seats, self.scores) if score == 0]
        return f"{how}: {lost[0]} has lost" if lost else f"{how}: a draw"

    def in_words(self) -> str:
        """The outcome or the reason in words."""
        if self.outcome is None:
            return self.reason or ""
        return f"adjudged: {self.adjudged}" if self.adjudged else self.outcome

    def used(self) -> list[int]:
        """The milliseconds that each seat took in all."""
        return [sum(each) for each in self.times]

    def most(self) -> list[int]:
        """The most milliseconds that each seat took for a turn."""
        return [max(each, default=0) for each in self.times]

    def note(self, plan: Plan, text: str, opening: int, adjudged: str = "") -> None:
        """Takes over what a good record says, of a match whose opening has this many moves. If the plan has ended the match,
        that is said.

        >>> from tournament_plan import Game, Program
        >>> plan = Plan("", "", dict.fromkeys("ab", Program("")), {"g": Game(1000, 2)}, late="draw")
        >>> for end in ("5 -", "5 E0 1 2"):
        ...     result = Result("g", ["a", "b"])
        ...     result.note(plan, f"rbg 2\\nplayers a b\\nstart 9 0\\n5 1 0 3\\n{end}\\n", 0, "3 minutes")
        ...     print(result.state, result.scores, result.used(), result.in_words())
        adjudged [1, 1] [5, 0] adjudged: 3 minutes
        played [1, 2] [5, 0] E0 1 2
        """
        record = Record.read(text)
        turns = [plan.turn_of(name, self.game) for name in self.seats]
        verdict = judge(record, turns, plan.moves, plan.late, plan.heavy)
        self.outcome, self.scores = record.outcome, verdict.scores
        self.adjudged = verdict.adjudged
        if adjudged and not verdict.adjudged and record.outcome == "-":
            self.adjudged, self.scores = adjudged, counted(len(self.seats), plan.late)
        self.absent, self.reason = [], None
        self.moves, self.times = len(record.players_moves()), record.times(len(self.seats), opening)
        self.record, self.course = checksum(text.encode()), record.course()

    def default(self, absent: list[int], reason: str) -> None:
        """The match isn't played, by the fault of these seats. If nobody has come, nobody has won."""
        self.absent, self.reason = absent, reason
        counts = 0 < len(absent) < len(self.seats)
        self.scores = without(len(self.seats), absent) if counts else None


def is_settled(files: Files) -> bool:
    """Whether the result that was written of a match has an outcome."""
    written = Result.load(files.result)
    return written is not None and written.outcome is not None


def rbg_of(plan: Plan, *words: object, given: bytes = b"") -> str:
    """What a command of rbg prints. One that was ended before it had its answer, as by Ctrl-C, is a fault."""
    try:
        done = subprocess.run([plan.rbg, *map(str, words)], input=given, capture_output=True)
    except OSError as error:
        raise Fault(f"{error.filename or plan.rbg}: {error.strerror}") from None
    if done.returncode not in ANSWERS:
        how = f"status {done.returncode}" if done.returncode > 0 else f"signal {-done.returncode}"
        raise Fault(f"{plan.rbg} {words[0]} ended with {how}")
    return done.stdout.decode(errors="replace")


def good_record(plan: Plan, game: Path, record: Path) -> Optional[str]:
    """The text of a record, if there is one and `rbg replay` calls it good. If that was ended, nothing is known of it.

    >>> import tempfile
    >>> with tempfile.TemporaryDirectory() as folder:
    ...     rbg, record = Path(folder) / "rbg", Path(folder) / "record"
    ...     for script in ("echo good", "echo form 2; exit 2", "kill -TERM $$"):
    ...         _ = record.write_text("rbg 2\\n"), rbg.write_text(f"#!/bin/sh\\n{script}\\n"), rbg.chmod(0o755)
    ...         try:
    ...             print(repr(good_record(Plan(str(rbg), "", {}, {}), Path("g"), record)))
    ...         except Fault as fault:
    ...             print(str(fault).removeprefix(folder))
    'rbg 2\\n'
    None
    /rbg replay ended with signal 15
    """
    try:
        text = record.read_text()
    except (OSError, ValueError):
        return None
    return text if text and rbg_of(plan, "replay", game, record) == "good\n" else None


def result_of(plan: Plan, folder: Folder, number: int, pairing: Pairing, checks: bool = False) -> Optional[Result]:
    """The result of a match, if it has been played. What a record says that was found good is the outcome, whatever else
    was written. A record that isn't the one that was found good before is looked at again, and each one with `checks`."""
    files = Files(folder, number)
    result = Result.load(files.result)
    if result is not None and (result.game, result.seats) != (pairing.game, list(pairing.seats)):
        result = None
    try:
        data = files.record.read_bytes()
    except OSError:
        data = b""
    if result is not None and not checks and (checksum(data) if data else "") == result.record:
        return result
    text = good_record(plan, folder.game(pairing.game), files.record) if data else None
    if text is None:
        if result is not None and (data or result.outcome is not None):
            result.outcome = result.scores = None
            result.absent, result.reason = [], "the record isn't good" if data else "the record is lost"
        return result
    result = result or Result.of(pairing)
    result.note(plan, text, len(folder.opening(pairing)), result.adjudged)
    if result.outcome == "-" and not result.adjudged:
        result.outcome, result.reason = None, "the record has no end"
    return result
