"""Othello on six by six squares. The discs that a new one turns are looked for from it in the eight directions."""

from itertools import product

SIZE = 6
STEPS = [step for step in product((-1, 0, 1), repeat=2) if step != (0, 0)]
START = (1, "e" * 14 + "wb" + "e" * 4 + "bw" + "e" * 14)


def turned(discs, square, mine, theirs):
    """The discs that a disc on the square turns."""
    found = []
    for down, right in STEPS:
        row, column = divmod(square, SIZE)
        run = []
        while True:
            row, column = row + down, column + right
            if not (0 <= row < SIZE and 0 <= column < SIZE):
                break
            here = row * SIZE + column
            if discs[here] == mine:
                found += run
                break
            if discs[here] != theirs:
                break
            run.append(here)
    return found


def placings(mover, discs):
    mine, theirs = "bw" if mover == 1 else "wb"
    found = []
    for square, disc in enumerate(discs):
        taken = turned(discs, square, mine, theirs) if disc == "e" else []
        if taken:
            after = list(discs)
            for other in taken + [square]:
                after[other] = mine
            found.append((3 - mover, "".join(after)))
    return found


def moves(place):
    mover, discs = place
    found = placings(mover, discs)
    if not found and placings(3 - mover, discs):
        return [(3 - mover, discs)]
    return found


def player(place):
    return place[0]


def board(place):
    return place[1]


def scores(place):
    """The discs; the empty squares are the winner's."""
    black, white, empty = (place[1].count(disc) for disc in "bwe")
    if black > white:
        return [black + empty, white]
    return [black, white + empty] if white > black else [18, 18]
