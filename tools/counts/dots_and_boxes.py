"""Dots and boxes on three by three boxes. A place is the mover, the lines that are drawn, and the owners of the
boxes."""

SIDE = 3
WIDTH = 2 * SIDE + 1  # dots, lines and boxes as squares of one board
LINES = [n for n in range(WIDTH * WIDTH) if (n // WIDTH + n % WIDTH) % 2 == 1]
BOXES = [n for n in range(WIDTH * WIDTH) if n // WIDTH % 2 == 1 and n % WIDTH % 2 == 1]
START = (1, frozenset(), tuple([0] * len(BOXES)))


def sides(box):
    return [box - WIDTH, box + WIDTH, box - 1, box + 1]


def moves(place):
    mover, drawn, owners = place
    found = []
    for line in LINES:
        if line in drawn:
            continue
        lines = drawn | {line}
        closed = [line in sides(box) and lines.issuperset(sides(box)) for box in BOXES]
        after = tuple(mover if new else owner for new, owner in zip(closed, owners))
        found.append((mover if any(closed) else 3 - mover, lines, after))
    return found


def player(place):
    return place[0]


def board(place):
    names = ["dot"] * (WIDTH * WIDTH)
    for line in LINES:
        names[line] = "line" if line in place[1] else "e"
    for box, owner in zip(BOXES, place[2]):
        names[box] = ["open", "a", "b"][owner]
    return names


def scores(place):
    return [place[2].count(1), place[2].count(2)]
