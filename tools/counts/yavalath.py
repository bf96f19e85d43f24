"""Yavalath with the pie rule. A cell has the coordinates (row, column) of a slanted board, in which a line goes along
(0, 1), (1, 0) or (1, -1). A place is the mover, the stones by cell in order, and how many moves were made, up to
2."""

RADIUS = 4
CELLS = [
    (row, column)
    for row in range(-RADIUS, RADIUS + 1)
    for column in range(-RADIUS, RADIUS + 1)
    if abs(row + column) <= RADIUS
]
NUMBER = {cell: number for number, cell in enumerate(CELLS)}
START = (1, "e" * len(CELLS), 0)


def length_from(stones, stone, cell, step):
    """How many stones of a colour are in a row from a cell on."""
    length = 0
    while cell in NUMBER and stones[NUMBER[cell]] == stone:
        cell = (cell[0] + step[0], cell[1] + step[1])
        length += 1
    return length


def longest(stones, stone):
    return max(length_from(stones, stone, cell, step) for cell in CELLS for step in ((0, 1), (1, 0), (1, -1)))


def moves(place):
    mover, stones, made = place
    if longest(stones, "bw"[mover - 1]) >= 3:
        return []
    mine = "wb"[mover - 1]
    allowed = "ew" if made == 1 else "e"
    return [
        (3 - mover, stones[:cell] + mine + stones[cell + 1 :], min(2, made + 1))
        for cell, stone in enumerate(stones)
        if stone in allowed
    ]


def player(place):
    return place[0]


def board(place):
    return place[1]


def scores(place):
    mover, stones, _ = place
    length = longest(stones, "bw"[mover - 1])
    if length < 3:
        return [50, 50]
    winner = 3 - mover if length > 3 else mover
    return [100, 0] if winner == 1 else [0, 100]
