"""Nine men's morris. The points are numbered along the rows of the board as it is drawn; its sixteen lines are listed.
A place is the mover, the points, the men in hand, and the moves in a row in which none was put or taken."""

LINES = [
    (0, 1, 2), (3, 4, 5), (6, 7, 8), (9, 10, 11), (12, 13, 14), (15, 16, 17), (18, 19, 20), (21, 22, 23),
    (0, 9, 21), (3, 10, 18), (6, 11, 15), (1, 4, 7), (16, 19, 22), (8, 12, 17), (5, 13, 20), (2, 14, 23),
]  # fmt: skip
BESIDE = {
    point: {other for line in LINES for pair in (line[:2], line[1:]) if point in pair for other in pair} - {point}
    for point in range(24)
}
LONGEST = 100
START = (1, "e" * 24, (9, 9), 0)


def in_mill(points, point):
    return any(point in line and all(points[other] == points[point] for other in line) for line in LINES)


def ways(mover, points, hands):
    """Pairs of the points after a man was put or has gone, and the point where it is."""
    mine = "wb"[mover - 1]
    empty = [point for point in range(24) if points[point] == "e"]
    if hands[mover - 1]:
        for point in empty:
            yield points[:point] + mine + points[point + 1 :], point
        return
    flies = points.count(mine) == 3
    for start in range(24):
        for target in empty:
            if points[start] == mine and (flies or target in BESIDE[start]):
                after = list(points)
                after[start], after[target] = "e", mine
                yield "".join(after), target


def moves(place):
    mover, points, hands, quiet = place
    mine, theirs = "wb" if mover == 1 else "bw"
    if quiet == LONGEST or points.count(mine) + hands[mover - 1] < 3:
        return []
    puts = hands[mover - 1] > 0
    left = tuple(hand - (puts and index == mover - 1) for index, hand in enumerate(hands))
    found = []
    for after, target in ways(mover, points, hands):
        if not in_mill(after, target):
            found.append((3 - mover, after, left, 0 if puts else quiet + 1))
            continue
        men = [point for point in range(24) if after[point] == theirs]
        free = [point for point in men if not in_mill(after, point)]
        for point in free or men:
            found.append((3 - mover, after[:point] + "e" + after[point + 1 :], left, 0))
    return found


def player(place):
    return place[0]


def board(place):
    return place[1]


def scores(place):
    mover, points, hands, quiet = place
    if quiet == LONGEST and points.count("wb"[mover - 1]) + hands[mover - 1] >= 3:
        return [50, 50]
    return [0, 100] if mover == 1 else [100, 0]
