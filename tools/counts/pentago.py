"""Pentago. The board is six rows of six; a quarter is turned as a square of three by three is turned on paper."""

SIZE = 6
START = (1, "e" * 36)
FIVES = [
    [(row + k * down) * SIZE + column + k * right for k in range(5)]
    for row in range(SIZE)
    for column in range(SIZE)
    for down, right in ((0, 1), (1, 0), (1, 1), (1, -1))
    if row + 4 * down < SIZE and 0 <= column + 4 * right < SIZE
]


def has_five(marbles, marble):
    return any(all(marbles[square] == marble for square in five) for five in FIVES)


def turned(marbles, top, left, to_right):
    """The marbles after the quarter with this upper left square was turned."""
    after = list(marbles)
    for row in range(3):
        for column in range(3):
            to_row, to_column = (column, 2 - row) if to_right else (2 - column, row)
            after[(top + to_row) * SIZE + left + to_column] = marbles[(top + row) * SIZE + left + column]
    return "".join(after)


def moves(place):
    mover, marbles = place
    if has_five(marbles, "w") or has_five(marbles, "b"):
        return []
    mine = "wb"[mover - 1]
    found = []
    for square in range(36):
        if marbles[square] != "e":
            continue
        after = marbles[:square] + mine + marbles[square + 1 :]
        if has_five(after, mine):
            found.append((3 - mover, after))
            continue
        for top in (0, 3):
            for left in (0, 3):
                found += [(3 - mover, turned(after, top, left, to_right)) for to_right in (False, True)]
    return found


def player(place):
    return place[0]


def board(place):
    return place[1]


def scores(place):
    white, black = has_five(place[1], "w"), has_five(place[1], "b")
    if white == black:
        return [50, 50]
    return [100, 0] if white else [0, 100]


def from_board(names):
    return (1, "".join(names))
