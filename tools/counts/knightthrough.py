"""Knightthrough: chess knights that go forward alone, and race to the last row."""

SIZE = 8
JUMPS = [(2, -1), (2, 1), (1, -2), (1, 2)]
START = (1, "b" * 16 + "e" * 32 + "w" * 16)


def moves(place):
    mover, squares = place
    mine, forward = ("w", -1) if mover == 1 else ("b", 1)
    if has_arrived(squares):
        return []
    found = []
    for square in range(SIZE * SIZE):
        if squares[square] != mine:
            continue
        row, column = divmod(square, SIZE)
        for ahead, aside in JUMPS:
            to_row, to_column = row + forward * ahead, column + aside
            if 0 <= to_row < SIZE and 0 <= to_column < SIZE and squares[to_row * SIZE + to_column] != mine:
                after = list(squares)
                after[square] = "e"
                after[to_row * SIZE + to_column] = mine
                found.append((3 - mover, "".join(after)))
    return found


def has_arrived(squares):
    return "w" in squares[:SIZE] or "b" in squares[-SIZE:]


def player(place):
    return place[0]


def board(place):
    return place[1]


def scores(place):
    """Who has moved last has arrived, or has left the other one without a move."""
    return [0, 100] if place[0] == 1 else [100, 0]
