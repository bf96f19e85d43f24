"""Lines of action. A place is the mover, the pieces and the number of moves."""

from itertools import product

SIZE = 8
STEPS = [step for step in product((-1, 0, 1), repeat=2) if step != (0, 0)]
LONGEST = 200
ROWS = ["ebbbbbbe"] + ["weeeeeew"] * 6 + ["ebbbbbbe"]
START = (1, "".join(ROWS), 0)


def ray(square, step):
    """The squares from here on in a direction."""
    row, column = divmod(square, SIZE)
    found = []
    while 0 <= (row := row + step[0]) < SIZE and 0 <= (column := column + step[1]) < SIZE:
        found.append(row * SIZE + column)
    return found


RAYS = {(square, step): ray(square, step) for square in range(SIZE * SIZE) for step in STEPS}


def is_joined(pieces, piece):
    squares = {square for square in range(SIZE * SIZE) if pieces[square] == piece}
    reached = [min(squares)]
    for square in reached:
        for step in STEPS:
            for other in RAYS[square, step][:1]:
                if other in squares and other not in reached:
                    reached.append(other)
    return len(reached) == len(squares)


def moves(place):
    mover, pieces, made = place
    mine, theirs = "bw" if mover == 1 else "wb"
    if made == LONGEST or is_joined(pieces, mine) or is_joined(pieces, theirs):
        return []
    found = []
    for square in range(SIZE * SIZE):
        if pieces[square] != mine:
            continue
        for step in STEPS:
            there, back = RAYS[square, step], RAYS[square, (-step[0], -step[1])]
            length = 1 + sum(pieces[other] != "e" for other in there + back)
            way = there[:length]
            if len(way) == length and pieces[way[-1]] != mine and all(pieces[other] != theirs for other in way[:-1]):
                after = list(pieces)
                after[square], after[way[-1]] = "e", mine
                found.append((3 - mover, "".join(after), made + 1))
    return found


def player(place):
    return place[0]


def board(place):
    return place[1]


def scores(place):
    """Who has moved last is asked first."""
    mover, pieces, made = place
    last = 3 - mover
    if is_joined(pieces, "bw"[last - 1]):
        winner = last
    elif is_joined(pieces, "bw"[mover - 1]):
        winner = mover
    elif made == LONGEST:
        return [50, 50]
    else:
        winner = last
    return [100, 0] if winner == 1 else [0, 100]


def from_board(names):
    return (1, "".join(names), 0)
