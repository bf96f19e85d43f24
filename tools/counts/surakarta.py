"""Surakarta. The two tracks, each of four lines and four loops, are lists of the points that a ride passes, and a piece
may be on a track twice. A place is the mover, the points, and the moves in a row in which nothing was taken."""

SIZE = 6
LONGEST = 50
START = (1, "b" * 12 + "e" * 12 + "w" * 12, 0)


def track(line):
    """The points of the track of the lines that are so far from the border, in order, with None for each loop."""
    last = SIZE - 1
    up = [(row, line) for row in range(last, -1, -1)]
    right = [(line, column) for column in range(SIZE)]
    down = [(row, last - line) for row in range(SIZE)]
    left = [(last - line, column) for column in range(last, -1, -1)]
    points = []
    for way in (up, right, down, left):
        points += [row * SIZE + column for row, column in way] + [None]
    return points


TRACKS = [way for line in (1, 2) for way in (track(line), track(line)[::-1])]


def rides(points, start, theirs):
    """The points where a ride from this one takes a piece."""
    found = set()
    for way in TRACKS:
        for begin, point in enumerate(way):
            if point != start:
                continue
            loops = 0
            for step in range(1, len(way)):
                here = way[(begin + step) % len(way)]
                if here is None:
                    loops += 1
                elif points[here] != "e" and here != start:
                    if points[here] == theirs and loops:
                        found.add(here)
                    break
    return found


def moves(place):
    mover, points, quiet = place
    if quiet == LONGEST:
        return []
    mine, theirs = "wb" if mover == 1 else "bw"
    found = []
    for start in range(SIZE * SIZE):
        if points[start] != mine:
            continue
        row, column = divmod(start, SIZE)
        near = {
            to_row * SIZE + to_column
            for to_row in range(max(0, row - 1), min(SIZE, row + 2))
            for to_column in range(max(0, column - 1), min(SIZE, column + 2))
            if points[to_row * SIZE + to_column] == "e"
        }
        taken = rides(points, start, theirs)
        for target in sorted(near | taken):
            after = list(points)
            after[start], after[target] = "e", mine
            found.append((3 - mover, "".join(after), 0 if target in taken else quiet + 1))
    return found


def player(place):
    return place[0]


def board(place):
    return place[1]


def scores(place):
    mover, points, quiet = place
    white, black = points.count("w"), points.count("b")
    if quiet == LONGEST:
        return [50, 50] if white == black else [100, 0] if white > black else [0, 100]
    return [0, 100] if mover == 1 else [100, 0]
