"""What a record says of a match: its moves, the time of each, and how it ended."""

import hashlib
from dataclasses import dataclass, field
from pathlib import Path
from typing import Iterable, Optional, Sequence

from tournament_files import Fault


@dataclass
class Record:
    """A record of version 2 as `rbg serve` prints it. A move is its player, its pairs and the milliseconds it took. `rest`
    is how many passed from the last move to the end."""

    moves: list[tuple[int, str, int]] = field(default_factory=list)
    outcome: str = "-"
    rest: int = 0

    @staticmethod
    def read(text: str) -> "Record":
        """
        >>> record = Record.read("rbg 2\\nplayers a b\\nstart 9 0\\n0 0 0 1\\n5 1 0 3\\n7 2 1 3\\n7 E0 1 2\\n")
        >>> record.moves, record.outcome, record.rest
        ([(0, '0 1', 0), (1, '0 3', 5), (2, '1 3', 2)], 'E0 1 2', 0)
        """
        lines = text.splitlines()
        if lines[:1] != ["rbg 2"] or len(lines) < 4:
            raise Fault("no record of version 2")
        record, last = Record(), int(lines[2].split(" ")[2])
        for line in lines[3:-1]:
            moment, player, pairs = line.split(" ", 2)
            record.moves.append((int(player), pairs, int(moment) - last))
            last = int(moment)
        moment, record.outcome = lines[-1].split(" ", 1)
        record.rest = int(moment) - last
        return record

    def players_moves(self) -> list[tuple[int, str, int]]:
        """The moves of the players, the keeper's left out."""
        return [move for move in self.moves if move[0]]

    def times(self, seats: int, opening: int = 0) -> list[list[int]]:
        """For each seat the milliseconds of each of its turns: of its moves after the opening, which is this many moves of
        the players, and of a turn that it lost by time.

        >>> text = "rbg 2\\nplayers a b\\nstart 9 0\\n0 0 0 1\\n0 1 0 3\\n0 2 1 3\\n4 1 0 4\\n13 E1 2\\n"
        >>> Record.read(text).times(2, 2), Record.read(text).times(2)
        ([[4], [9]], [[0, 4], [0, 9]])
        """
        turns = [(player, took) for player, _, took in self.players_moves()[opening:]]
        end, *players = self.outcome.split()
        if end == "E1":
            turns.append((int(players[0]), self.rest))
        return [[took for player, took in turns if player == seat] for seat in range(1, seats + 1)]

    def course(self) -> str:
        """A checksum of all but the times: equal matches have the same one."""
        said = "\n".join([f"{player} {pairs}" for player, pairs, _ in self.moves] + [self.outcome])
        return checksum(said.encode())


def checksum(data: bytes) -> str:
    return hashlib.sha256(data).hexdigest()[:32]


@dataclass
class Verdict:
    """What a match counts: a number for each seat, the greater one being better, or None if it counts for nobody. What
    the plan decided, and not the referee, is said in words."""

    scores: Optional[list[int]]
    adjudged: str = ""


def without(seats: int, lost: Iterable[int]) -> list[int]:
    """
    >>> without(3, [2])
    [1, 0, 1]
    """
    return [0 if seat in lost else 1 for seat in range(1, seats + 1)]


def counted(seats: int, how: str) -> Optional[list[int]]:
    """What a match is that nobody won: "draw", or "void", which counts for nobody."""
    return [1] * seats if how == "draw" else None


def judge(record: Record, turns: Sequence[int], most: int, late: str, heavy: str) -> Verdict:
    """What a match counts by its record, in which seat k has `turns[k - 1]` milliseconds for a turn, and the players `most`
    moves together, or as many as they like if it is 0. The referee knows one time for all: who has less and took more
    has lost by the plan.

    >>> moves = [(1, "0 3", 5), (2, "1 3", 40), (1, "0 4", 9)]
    >>> judge(Record(moves, "E0 7 7"), [50, 50], 0, "draw", "draw")
    Verdict(scores=[7, 7], adjudged='')
    >>> judge(Record(moves, "E0 7 9"), [50, 40], 0, "draw", "draw")
    Verdict(scores=[1, 0], adjudged='seat 2 took 40 ms of 40 ms')
    >>> judge(Record(moves, "-"), [50, 50], 3, "draw", "draw")
    Verdict(scores=[1, 1], adjudged='3 moves')
    >>> judge(Record(moves, "E2 1"), [50, 50], 2, "void", "draw")
    Verdict(scores=None, adjudged='2 moves')
    >>> [judge(Record(moves, end), [50, 50], 3, "draw", "void").scores for end in ("E0 1 2", "E4")]
    [[1, 2], [1, 1]]
    >>> [judge(Record(moves, end), [50, 50], 0, "draw", "void").scores for end in ("E2 1", "E4", "-")]
    [[0, 1], None, None]
    """
    seats = len(turns)
    played = record.players_moves()
    for place, (player, _, took) in enumerate(played, 1):
        if took >= turns[player - 1]:
            return Verdict(without(seats, [player]), f"seat {player} took {took} ms of {turns[player - 1]} ms")
        if place == most and (place < len(played) or not record.outcome.startswith("E0")):
            return Verdict(counted(seats, late), f"{most} moves")
    end, *numbers = record.outcome.split()
    if end == "E0":
        return Verdict(list(map(int, numbers)))
    if numbers:
        return Verdict(without(seats, [int(numbers[0])]))
    return Verdict(counted(seats, heavy) if end == "E4" else None)


def shares(scores: Sequence[int], absent: Sequence[int] = ()) -> list[dict[int, float]]:
    """For each seat, what it took from each other one: 1 for the better score and half for the same one. Two seats whose
    programs both didn't come took nothing from each other.

    >>> shares([7, 9, 7])
    [{1: 0.0, 2: 0.5}, {0: 1.0, 2: 1.0}, {0: 0.5, 1: 0.0}]
    >>> shares([0, 1, 0], [1, 3])
    [{1: 0.0}, {0: 1.0, 2: 1.0}, {1: 0.0}]
    """
    taken: list[dict[int, float]] = []
    for one, own in enumerate(scores):
        rivals = [
            other for other in range(len(scores)) if other != one and not {one + 1, other + 1} <= set(absent)
        ]
        taken.append({other: 1.0 if own > scores[other] else 0.5 if own == scores[other] else 0.0 for other in rivals})
    return taken


def moves_said(log: Path) -> int:
    """How many messages the players have said by the log of a match: at least as many as they made moves.

    >>> import tempfile
    >>> with tempfile.NamedTemporaryFile("w") as file:
    ...     print("config 9 0 0\\nm 1 0 M0 3\\np 1 5 4d302033\\np 1 5 00\\np 2 7 4d00\\nt 9", file=file, flush=True)
    ...     print(moves_said(Path(file.name)))
    3
    """
    count = 0
    for line in log.read_text(errors="replace").splitlines():
        kind, *words = line.split(" ")
        if kind == "m":
            count += 1
        elif kind == "p" and len(words) == 3:
            # two digits are a byte
            count += sum(words[2][at : at + 2] == "00" for at in range(0, len(words[2]), 2))
    return count
