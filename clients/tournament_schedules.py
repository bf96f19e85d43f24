"""Who meets whom: round robin, gauntlet, and the next round of a Swiss tournament."""

import itertools
from collections import Counter
from typing import Iterable, Iterator, Mapping, Optional, Sequence

from tournament_plan import Pairing, Plan

TRIES = 200_000  # how many choices are looked at for a round of a Swiss tournament


def rotations(chosen: Sequence[str]) -> list[tuple[str, ...]]:
    """The seats turned round: each program has each seat once.

    >>> rotations("abc")
    [('a', 'b', 'c'), ('b', 'c', 'a'), ('c', 'a', 'b')]
    """
    return [(*chosen[first:], *chosen[:first]) for first in range(len(chosen))]


def orders_of(chosen: Sequence[str], orders: str) -> list[tuple[str, ...]]:
    """The orders of seats in which these programs meet.

    >>> len(orders_of("abc", "rotations")), len(orders_of("abc", "all"))
    (3, 6)
    """
    return list(itertools.permutations(chosen)) if orders == "all" else rotations(tuple(chosen))


def opening_of(openings: int, number: int) -> int:
    """The opening of a round: each one in turn, from the first one on again after the last.

    >>> [opening_of(3, number) for number in (1, 2, 3, 4)], opening_of(0, 7)
    ([1, 2, 3, 1], 0)
    """
    return (number - 1) % openings + 1 if openings else 0


def encounters(plan: Plan, chosen: Iterable[Sequence[str]], game: str, number: int) -> Iterator[Pairing]:
    """The matches of these choices of programs in a round of a game, those of a choice after each other."""
    for programs in chosen:
        for seats in orders_of(programs, plan.orders):
            yield Pairing(game, seats, number, opening_of(plan.games[game].openings, number))


def choices(plan: Plan, players: int) -> list[tuple[str, ...]]:
    """Each choice of programs that meets in each round.

    >>> plan = Plan("", "", dict.fromkeys("abcd"), {}, schedule="gauntlet", challenger="c")
    >>> choices(plan, 2)
    [('c', 'a'), ('c', 'b'), ('c', 'd')]
    >>> len(choices(plan, 3)), len(choices(Plan("", "", dict.fromkeys("abcd"), {}), 3))
    (3, 4)
    """
    if plan.schedule == "gauntlet":
        others = [name for name in plan.programs if name != plan.challenger]
        return [(plan.challenger, *chosen) for chosen in itertools.combinations(others, players - 1)]
    return list(itertools.combinations(plan.programs, players))


def whole_schedule(plan: Plan) -> list[Pairing]:
    """All matches of a round robin or a gauntlet. They come round by round, so that a tournament that is stopped early
    has played each choice about as often.

    >>> from tournament_plan import Game
    >>> plan = Plan("", "", dict.fromkeys("ab"), {"g": Game(1000, 2, openings=2)}, rounds=2)
    >>> [("".join(pairing.seats), pairing.round, pairing.opening) for pairing in whole_schedule(plan)]
    [('ab', 1, 1), ('ba', 1, 1), ('ab', 2, 2), ('ba', 2, 2)]
    """
    pairings: list[Pairing] = []
    for number in range(1, plan.rounds + 1):
        for name, game in plan.games.items():
            pairings += encounters(plan, choices(plan, game.players), name, number)
    return pairings


def missing(wanted: Iterable[Pairing], have: Iterable[Pairing]) -> list[Pairing]:
    """The matches that are wanted and aren't there.

    >>> one, other = Pairing("g", ("a", "b")), Pairing("g", ("b", "a"))
    >>> missing([one, other, other], [other]) == [one, other]
    True
    """
    there = Counter(have)
    lacking = []
    for pairing in wanted:
        if there[pairing]:
            there[pairing] -= 1
        else:
            lacking.append(pairing)
    return lacking


def met_before(pairings: Iterable[Pairing]) -> set[frozenset[str]]:
    """Each two programs that have met."""
    return {frozenset(pair) for pairing in pairings for pair in itertools.combinations(pairing.seats, 2)}


class Grouping:
    """The search for the groups of a Swiss round: nobody meets anybody again."""

    def __init__(self, players: int, met: set[frozenset[str]]):
        self.players, self.met, self.left = players, met, TRIES

    def groups(self, ranked: tuple[str, ...]) -> Optional[list[tuple[str, ...]]]:
        """Puts all these programs into groups, the best one with those next to it, or finds that it can't be."""
        if not ranked:
            return []
        for others in itertools.combinations(ranked[1:], self.players - 1):
            self.left -= 1
            if self.left < 0:
                return None
            group = (ranked[0], *others)
            if any(frozenset(pair) in self.met for pair in itertools.combinations(group, 2)):
                continue
            rest = self.groups(tuple(name for name in ranked if name not in group))
            if rest is not None:
                return [group, *rest]
        return None


def swiss_round(
    points: Mapping[str, float], met: set[frozenset[str]], byes: Mapping[str, int], players: int = 2
) -> Optional[list[tuple[str, ...]]]:
    """The groups of the next round: by points, those before each other that were named before, and nobody meets anybody
    again. Who is left over has a bye: the last ones of those with the fewest byes. None if there is no such round.

    >>> swiss_round({"a": 1, "b": 0, "c": 1, "d": 0}, {frozenset("ab"), frozenset("cd")}, {})
    [('a', 'c'), ('b', 'd')]
    >>> swiss_round({"a": 2, "c": 1, "b": 1, "d": 0}, {frozenset("ab"), frozenset("cd"), frozenset("ac")}, {})
    [('a', 'd'), ('c', 'b')]
    >>> swiss_round({"a": 0, "b": 0}, {frozenset("ab")}, {}) is None
    True
    >>> swiss_round({"a": 1, "b": 0, "c": 0}, {frozenset("ab")}, {"c": 1})
    [('a', 'c')]
    >>> swiss_round(dict.fromkeys("abcdefg", 0), set(), {}, 3)
    [('a', 'b', 'c'), ('d', 'e', 'f')]
    """
    ranked = sorted(points, key=lambda name: -points[name])  # sorting keeps the order of equal ones
    spare = len(ranked) % players
    last_first = sorted(reversed(ranked), key=lambda name: byes.get(name, 0))
    search = Grouping(players, met)
    for resting in itertools.combinations(last_first, spare):
        groups = search.groups(tuple(name for name in ranked if name not in resting))
        if groups is not None:
            return groups
    return None


def swiss_standing(
    programs: Mapping[str, int], taken: Iterable[tuple[Pairing, Sequence[float]]]
) -> tuple[dict[str, float], dict[str, int]]:
    """The points and the byes of each program, from the first round of each, its matches and what each seat took. The
    matches of a round count one point together, and so does a bye.

    >>> done = [(Pairing("g", ("a", "b")), [1, 0]), (Pairing("g", ("b", "a")), [0.5, 0.5])]
    >>> swiss_standing({"a": 1, "b": 1, "c": 1, "d": 2}, done)
    ({'a': 0.75, 'b': 0.25, 'c': 1, 'd': 0}, {'a': 0, 'b': 0, 'c': 1, 'd': 0})
    """
    shares: dict[tuple[str, int], list[float]] = {}
    rounds: set[int] = set()
    for pairing, seats in taken:
        rounds.add(pairing.round)
        for name, share in zip(pairing.seats, seats):
            shares.setdefault((name, pairing.round), []).append(share)
    points, byes = {}, {}
    for name, since in programs.items():
        played = {number: shares[name, number] for number in rounds if (name, number) in shares}
        byes[name] = sum(number >= since and number not in played for number in rounds)
        points[name] = sum(sum(each) / len(each) for each in played.values()) + byes[name]
    return points, byes


def next_round(plan: Plan, done: Sequence[tuple[Pairing, Sequence[float]]]) -> list[Pairing]:
    """The matches of the next round of a Swiss tournament, none if it is over. All games have as many players.

    >>> from tournament_plan import Game, Program
    >>> programs = {name: Program("play {port}") for name in "abc"}
    >>> plan = Plan("", "", programs, {"g": Game(1000, 2)}, schedule="swiss", rounds=2)
    >>> first = next_round(plan, [])
    >>> [pairing.seats for pairing in first]
    [('a', 'b'), ('b', 'a')]
    >>> [(pairing.seats, pairing.round) for pairing in next_round(plan, [(each, [1, 0]) for each in first])]
    [(('c', 'a'), 2), (('a', 'c'), 2)]
    """
    number = max((pairing.round for pairing, _ in done), default=0) + 1
    if number > plan.rounds:
        return []
    points, byes = swiss_standing({name: program.since for name, program in plan.programs.items()}, done)
    players = next(iter(plan.games.values())).players
    groups = swiss_round(points, met_before(pairing for pairing, _ in done), byes, players)
    return [pairing for name in plan.games for pairing in encounters(plan, groups or [], name, number)]
