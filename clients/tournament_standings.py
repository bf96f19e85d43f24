"""What came of a tournament so far: standings, pairs, games, seats and the test."""

import os
from concurrent.futures import ThreadPoolExecutor
from dataclasses import dataclass, field
from typing import Optional, Sequence

from ratings import groups, ratings, superiority
from tournament_plan import Folder, Pairing, Plan
from tournament_records import shares
from tournament_result import Result, result_of
from tournament_sprt import Test, shares_of_test

ENDS = ("E1", "E2", "E3", "E4")


@dataclass
class Count:
    """Matches of some kind: how many there were, and what was taken of them."""

    matches: int = 0
    points: float = 0.0

    def hear(self, points: float) -> None:
        self.matches += 1
        self.points += points

    def in_words(self) -> str:
        """
        >>> Count(3, 1.5).in_words(), Count().in_words()
        ('1.5 of 3', '')
        """
        return f"{self.points:.4g} of {self.matches}" if self.matches else ""


@dataclass
class Standing:
    """A program's line of the table."""

    name: str
    wins: int = 0
    draws: int = 0
    losses: int = 0
    points: float = 0.0
    ends: dict[str, int] = field(default_factory=lambda: dict.fromkeys(ENDS, 0))
    absent: int = 0
    rating: float = 0.0
    interval: float = 0.0
    better: Optional[float] = None  # the chance that it is stronger than the next one of the table
    seats: dict[int, Count] = field(default_factory=dict)
    games: dict[str, Count] = field(default_factory=dict)
    used: Count = field(default_factory=Count)  # its turns, and the milliseconds that they took
    most: int = 0


@dataclass
class GameLine:
    """What came of the matches of a game."""

    seats: list[Count]
    matches: int = 0
    draws: int = 0
    forfeits: int = 0  # E1, E2, E3 and matches lost by default
    heavy: int = 0
    adjudged: int = 0
    moves: list[int] = field(default_factory=list)


@dataclass
class Table:
    """What came of a tournament so far. `score[a][b]` is what program a took from b. The results are those of all matches
    of the schedule, None if a match wasn't played yet."""

    pairings: list[Pairing]
    results: list[Optional[Result]]
    standings: list[Standing]
    score: list[list[float]]
    games: dict[str, GameLine]
    repeated: set[int]
    test: Optional[Test] = None

    def best(self) -> list[Standing]:
        """The standings, the best program first."""
        return sorted(self.standings, key=lambda line: (-line.rating, line.name))


def repeated_ones(results: Sequence[Optional[Result]]) -> set[int]:
    """The places of the matches that were played to their ends and are the same, move by move, as one before.

    >>> one = Result("g", ["a", "b"], outcome="E0 1 0", course="x")
    >>> repeated_ones([one, None, one, Result("g", ["b", "a"], outcome="E0 1 0", course="x")])
    {2}
    """
    seen = set()
    repeated = set()
    for place, result in enumerate(results):
        if result is not None and result.outcome is not None and result.outcome[:2] not in ("E1", "E2", "E3"):
            key = result.game, tuple(result.seats), result.course
            if key in seen:
                repeated.add(place)
            seen.add(key)
    return repeated


def test_of(plan: Plan, pairings: Sequence[Pairing], results: Sequence[Optional[Result]], repeated: set[int]) -> Test:
    """The test so far. It hears the encounters in the order of the schedule, up to the first that isn't played whole: so
    short matches that end before long ones don't bend it, and it doesn't depend on what was played at once."""
    assert plan.sprt is not None
    test = Test(plan.sprt)
    encounters: dict[tuple, list[int]] = {}
    for place, pairing in enumerate(pairings):
        if plan.sprt.program in pairing.seats:
            encounters.setdefault(pairing.encounter(), []).append(place)

    def taken(place: int) -> Optional[float]:
        result = results[place]
        if result is None or result.scores is None or place in repeated:
            return None
        own = shares(result.scores, result.absent)[result.seats.index(plan.sprt.program)]
        return sum(own.values()) / len(own) if own else None

    for places in encounters.values():
        if any(results[place] is None for place in places) or test.verdict:
            break
        for share in shares_of_test(plan.sprt, [[taken(place) for place in places]]):
            test.hear(share)
    return test


def count_result(result: Result, lines: dict[str, Standing], game: GameLine, score: dict[tuple[str, str], float]) -> None:
    """Counts a match that counts. A program's points of it are the mean of its comparisons with the other seats."""
    assert result.scores is not None
    for seat, own in enumerate(shares(result.scores, result.absent)):
        if not own:
            continue  # with one player, or nobody there, there is nothing to compare
        line, points = lines[result.seats[seat]], sum(own.values()) / len(own)
        line.points += points
        line.wins += min(own.values()) == 1
        line.draws += min(own.values()) == 0.5
        line.losses += min(own.values()) == 0
        for counts, key in ((line.seats, seat + 1), (line.games, result.game)):
            counts.setdefault(key, Count()).hear(points)
        game.seats[seat].hear(points)
        for other, value in own.items():
            score[line.name, result.seats[other]] = score.get((line.name, result.seats[other]), 0.0) + value
    game.draws += len(set(result.scores)) == 1 and len(result.scores) > 1


def note_result(result: Result, lines: dict[str, Standing], game: GameLine) -> None:
    """Counts how a match ended, and the time that it took. A loss by a program's own `turn` is an E1.

    >>> lines, game = {name: Standing(name) for name in "ab"}, GameLine([])
    >>> note_result(Result("g", ["a", "b"], outcome="E3 2", scores=[0, 1], adjudged="seat 1 took 9 ms of 9 ms"), lines, game)
    >>> lines["a"].ends["E1"], lines["b"].ends["E3"], game.adjudged, game.forfeits
    (1, 0, 1, 0)
    """
    end, *numbers = (f"E1 {result.late}" if result.late else result.outcome or "-").split()
    game.matches += 1
    game.heavy += end == "E4"
    game.adjudged += result.state == "adjudged"
    game.forfeits += result.state == "default" or (end in ENDS[:3] and result.state == "played")
    if result.outcome is not None:
        game.moves.append(result.moves)
    for seat, name in enumerate(result.seats, 1):
        line = lines[name]
        if end == "E4" or (end in ENDS and numbers == [str(seat)]):
            line.ends[end] += 1
        line.absent += seat in result.absent
        if result.times:
            line.used.matches += len(result.times[seat - 1])
            line.used.points += sum(result.times[seat - 1])
            line.most = max(line.most, *result.times[seat - 1], 0)


def make_table(plan: Plan, pairings: list[Pairing], results: list[Optional[Result]]) -> Table:
    """Counts the results. Equal matches count once."""
    lines = {name: Standing(name) for name in plan.programs}
    games = {name: GameLine([Count() for _ in range(game.players)]) for name, game in plan.games.items()}
    pairs: dict[tuple[str, str], float] = {}
    repeated = repeated_ones(results)
    for place, result in enumerate(results):
        if result is None or place in repeated:
            continue
        note_result(result, lines, games[result.game])
        if result.scores is not None:
            count_result(result, lines, games[result.game], pairs)
    score = [[pairs.get((one, other), 0.0) for other in lines] for one in lines]
    for line, (rating, interval) in zip(lines.values(), ratings(score)):
        line.rating, line.interval = rating, interval
    table = Table(pairings, results, list(lines.values()), score, games, repeated)
    place_of, better = {name: index for index, name in enumerate(lines)}, superiority(score)
    for line, following in zip(table.best(), table.best()[1:]):
        line.better = better[place_of[line.name]][place_of[following.name]]
    if plan.sprt is not None:
        table.test = test_of(plan, pairings, results, repeated)
    return table


def table_of(plan: Plan, folder: Folder, checks: bool = False) -> Table:
    """The table of a tournament's folder. With `checks` each record is looked at again."""
    pairings = list(folder.pairings())

    def look(number: int) -> Optional[Result]:
        return result_of(plan, folder, number, pairings[number - 1], checks)

    numbers = range(1, len(pairings) + 1)
    if checks:
        with ThreadPoolExecutor(os.cpu_count()) as pool:
            return make_table(plan, pairings, list(pool.map(look, numbers)))
    return make_table(plan, pairings, list(map(look, numbers)))


def remarks(table: Table) -> list[str]:
    """What the ratings don't say."""
    reported = []
    for line, taken, given in zip(table.standings, table.score, zip(*table.score)):
        if any(taken) != any(given):
            side, bound = ("won", "better") if any(taken) else ("lost", "worse")
            reported.append(f"{line.name} has {side} all: it may be far {bound} than its interval says")
    tied = [", ".join(table.standings[one].name for one in group) for group in groups(table.score)]
    if len(tied) > 1:
        reported.append(f"no match ties these together, so their ratings can't be compared: {' | '.join(tied)}")
    if table.repeated:
        whole = sum(result is not None for result in table.results)
        reported.append(
            f"{len(table.repeated)} of {whole} matches are the same as one before, move by move, and aren't counted: "
            "programs without chance need openings"
        )
    if table.test is not None:
        reported.append(table.test.in_words())
    return reported
