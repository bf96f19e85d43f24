"""Qubic: four in a row in a cube of four by four by four points. Its 76 lines are listed first."""

from itertools import product

SIDE = 4
STEPS = [step for step in product((-1, 0, 1), repeat=3) if step > (0, 0, 0)]


def number(x, y, z):
    return 16 * z + 4 * y + x


def line_from(x, y, z, step):
    points = [(x + step[0] * k, y + step[1] * k, z + step[2] * k) for k in range(SIDE)]
    fits = all(0 <= part < SIDE for point in points for part in point)
    return [number(*point) for point in points] if fits else None


LINES = [line for start in product(range(SIDE), repeat=3) for step in STEPS if (line := line_from(*start, step))]
assert len(LINES) == 76
START = (1, "e" * SIDE**3)


def has_line(stones, stone):
    return any(all(stones[point] == stone for point in line) for line in LINES)


def moves(place):
    mover, stones = place
    if has_line(stones, "wb"[mover == 1]):
        return []
    mine = "bw"[mover == 1]
    return [
        (3 - mover, stones[:point] + mine + stones[point + 1 :]) for point, stone in enumerate(stones) if stone == "e"
    ]


def player(place):
    return place[0]


def board(place):
    return place[1]


def scores(place):
    if has_line(place[1], "w"):
        return [100, 0]
    return [0, 100] if has_line(place[1], "b") else [50, 50]
