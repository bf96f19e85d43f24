"""Ataxx on seven by seven squares. A place is the mover, the pieces, and the moves in a row without a new piece."""

SIZE = 7
LONGEST = 100
START = (1, "w" + "e" * 5 + "b" + "e" * 35 + "b" + "e" * 5 + "w", 0)


def within(square, distance):
    """The squares at just this distance, where a diagonal step is one step."""
    row, column = divmod(square, SIZE)
    for to_row in range(max(0, row - distance), min(SIZE, row + distance + 1)):
        for to_column in range(max(0, column - distance), min(SIZE, column + distance + 1)):
            if max(abs(to_row - row), abs(to_column - column)) == distance:
                yield to_row * SIZE + to_column


NEAR = [tuple(within(square, 1)) for square in range(SIZE * SIZE)]
FAR = [tuple(within(square, 2)) for square in range(SIZE * SIZE)]


def arrive(pieces, target, mine, left):
    after = list(pieces)
    if left is not None:
        after[left] = "e"
    after[target] = mine
    for other in NEAR[target]:
        if after[other] != "e":
            after[other] = mine
    return "".join(after)


def real_moves(mover, pieces, quiet):
    mine = "wb"[mover - 1]
    found = []
    for target, piece in enumerate(pieces):
        if piece != "e":
            continue
        if any(pieces[other] == mine for other in NEAR[target]):
            found.append((3 - mover, arrive(pieces, target, mine, None), 0))
        for other in FAR[target]:
            if pieces[other] == mine:
                found.append((3 - mover, arrive(pieces, target, mine, other), quiet + 1))
    return found


def moves(place):
    mover, pieces, quiet = place
    if quiet == LONGEST:
        return []
    found = real_moves(mover, pieces, quiet)
    if not found and "wb"[mover - 1] in pieces and real_moves(3 - mover, pieces, quiet):
        return [(3 - mover, pieces, quiet)]
    return found


def player(place):
    return place[0]


def board(place):
    return place[1]


def scores(place):
    white, black = place[1].count("w"), place[1].count("b")
    if place[2] == LONGEST or white == black:
        return [50, 50]
    return [100, 0] if white > black else [0, 100]


def from_board(names):
    return (1, "".join(names), 0)
