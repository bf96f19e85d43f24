"""Ratings of players by the model of Bradley and Terry."""

import math
from typing import Sequence

ELO = 400 / math.log(10)  # points of a rating for odds of e to 1


def inverse(matrix: list[list[float]]) -> list[list[float]]:
    """The inverse of a symmetric positive definite matrix, by elimination.

    >>> inverse([[2.0, 1.0], [1.0, 1.0]])
    [[1.0, -1.0], [-1.0, 2.0]]
    """
    size = len(matrix)
    rows = [row + [float(index == column) for column in range(size)] for index, row in enumerate(matrix)]
    for column in range(size):
        rows[column] = [value / rows[column][column] for value in rows[column]]
        for index in range(size):
            factor = rows[index][column]
            if index != column and factor:
                rows[index] = [value - factor * by for value, by in zip(rows[index], rows[column])]
    return [row[size:] for row in rows]


def fitted(score: Sequence[Sequence[float]]) -> tuple[list[float], list[list[float]]]:
    """The likeliest strengths, as `ratings` gives them, before they are moved, and the inverse of the information."""
    size = len(score)
    strengths = [0.0] * size
    errors: list[list[float]] = []
    for _ in range(200):
        slope, information = likelihood(score, strengths)
        errors = inverse(information)
        steps = [sum(error * value for error, value in zip(row, slope)) for row in errors]
        # long steps would run past the top of a flat hill
        steps = [max(-1.0, min(1.0, step)) for step in steps]
        strengths = [strength + step for strength, step in zip(strengths, steps)]
        if max(map(abs, steps), default=0.0) < 1e-9:
            break
    return strengths, errors


def ratings(score: Sequence[Sequence[float]]) -> list[tuple[float, float]]:
    """The rating of each program, and half of its 95% interval, by the model of Bradley and Terry.

    `score[a][b]` is what a took from b: 1 for each win and half for each draw. In the model a wins against b with the
    probability 1 / (1 + 10 ** ((b - a) / 400)) for ratings a and b. The ratings are the likeliest ones if each
    program has drawn one more match with a player of rating 0, so that a program that won all has a rating too. Then
    they are moved so that their mean is 0. The interval is 1.96 standard errors of the distance from that mean, from
    the inverse of the information of all matches. A draw says more than half a win, so many draws make it too wide.

    750 wins in 1,000 matches are odds of 3 to 1, and so a distance of 191:

    >>> [(round(rating), round(interval)) for rating, interval in ratings([[0, 750], [250, 0]])]
    [(95, 12), (-95, 12)]

    Who wins all, wins half and wins none; and who has played nobody:

    >>> [(round(rating), round(interval)) for rating, interval in ratings([[0, 9, 9], [0, 0, 9], [0, 0, 0]])]
    [(520, 361), (0, 241), (-520, 361)]
    >>> ratings([[0.0]])
    [(0.0, 0.0)]
    """
    size = len(score)
    strengths, errors = fitted(score)
    mean = sum(strengths) / max(size, 1)
    means = [sum(row) / size for row in errors]
    whole = sum(means) / max(size, 1)
    spreads = [max(0.0, errors[each][each] - 2 * means[each] + whole) for each in range(size)]
    return [(ELO * (one - mean), ELO * 1.96 * math.sqrt(spread)) for one, spread in zip(strengths, spreads)]


def superiority(score: Sequence[Sequence[float]]) -> list[list[float]]:
    """The likelihood of superiority: for each two programs the chance that the first one is the stronger one, by the
    strengths of `ratings` and their errors, as normal numbers.

    >>> [[round(chance, 3) for chance in row] for row in superiority([[0, 60], [40, 0]])]
    [[0.5, 0.976], [0.024, 0.5]]
    """
    strengths, errors = fitted(score)
    size = len(score)

    def chance(one: int, other: int) -> float:
        spread = errors[one][one] + errors[other][other] - 2 * errors[one][other]
        return 0.5 if one == other else 0.5 + 0.5 * math.erf((strengths[one] - strengths[other]) / math.sqrt(2 * spread))

    return [[chance(one, other) for other in range(size)] for one in range(size)]


def groups(score: Sequence[Sequence[float]]) -> list[list[int]]:
    """The groups of programs that are tied together by matches: no program has met one of another group.

    >>> groups([[0, 1, 0, 0], [0, 0, 0, 0], [0, 0, 0, 2], [0, 0, 1, 0]])
    [[0, 1], [2, 3]]
    """
    group = list(range(len(score)))
    for one, row in enumerate(score):
        for other, taken in enumerate(row):
            if taken and group[one] != group[other]:
                old, new = max(group[one], group[other]), min(group[one], group[other])
                group = [new if each == old else each for each in group]
    return [[one for one, each in enumerate(group) if each == first] for first in sorted(set(group))]


def likelihood(score: Sequence[Sequence[float]], strengths: list[float]) -> tuple[list[float], list[list[float]]]:
    """The slope of the logarithm of the likelihood, and the information: its second derivatives, negated."""
    size = len(score)
    slope = [0.0] * size
    information = [[0.0] * size for _ in range(size)]
    for one in range(size):
        chance = 1 / (1 + math.exp(-strengths[one]))
        slope[one] += 0.5 - chance
        information[one][one] += chance * (1 - chance)
        for other in range(size):
            played = score[one][other] + score[other][one]
            if one == other or not played:
                continue
            chance = 1 / (1 + math.exp(strengths[other] - strengths[one]))
            weight = played * chance * (1 - chance)
            slope[one] += score[one][other] - played * chance
            information[one][one] += weight
            information[one][other] -= weight
    return slope, information
