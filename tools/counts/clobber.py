"""Clobber on five by six squares: a stone takes a neighbouring stone of the opponent's; who can't move loses."""

COLUMNS, ROWS = 5, 6
START = (1, "".join("wb"[(row + column) % 2] for row in range(ROWS) for column in range(COLUMNS)))


def neighbours(square):
    row, column = divmod(square, COLUMNS)
    if row > 0:
        yield square - COLUMNS
    if row < ROWS - 1:
        yield square + COLUMNS
    if column > 0:
        yield square - 1
    if column < COLUMNS - 1:
        yield square + 1


def moves(place):
    mover, squares = place
    mine, theirs = "wb" if mover == 1 else "bw"
    found = []
    for square, stone in enumerate(squares):
        for other in neighbours(square):
            if stone == mine and squares[other] == theirs:
                after = list(squares)
                after[square], after[other] = "e", mine
                found.append((3 - mover, "".join(after)))
    return found


def player(place):
    return place[0]


def board(place):
    return place[1]


def scores(place):
    return [0, 100] if place[0] == 1 else [100, 0]
