"""Konane on eight by eight squares. A place is the mover, the stones, and what the opening asks for: 0 for a first
stone, a number of a square for a neighbour of it, None afterwards."""

SIZE = 8
STEPS = [(-1, 0), (1, 0), (0, -1), (0, 1)]
START = (1, tuple("bw"[(row + column) % 2] for row in range(SIZE) for column in range(SIZE)), 0)
FIRST = [0, 3 * SIZE + 3, 4 * SIZE + 4, SIZE * SIZE - 1]


def at(row, column):
    return row * SIZE + column if 0 <= row < SIZE and 0 <= column < SIZE else None


def moves(place):
    mover, stones, opening = place
    if opening is None:
        return jumps(mover, stones)
    if mover == 1:
        return [(2, without(stones, [square]), square) for square in FIRST]
    row, column = divmod(opening, SIZE)
    around = [at(row + down, column + right) for down, right in STEPS]
    return [(1, without(stones, [square]), None) for square in around if square is not None]


def without(stones, squares):
    after = list(stones)
    for square in squares:
        after[square] = "e"
    return tuple(after)


def jumps(mover, stones):
    mine, theirs = "bw" if mover == 1 else "wb"
    found = []
    for square, stone in enumerate(stones):
        if stone != mine:
            continue
        for down, right in STEPS:
            row, column = divmod(square, SIZE)
            taken = [square]
            while True:
                over = at(row + down, column + right)
                row, column = row + 2 * down, column + 2 * right
                target = at(row, column)
                if target is None or stones[over] != theirs or stones[target] != "e":
                    break
                taken.append(over)
                after = list(without(stones, taken))
                after[target] = mine
                found.append((3 - mover, tuple(after), None))
    return found


def player(place):
    return place[0]


def board(place):
    return place[1]


def scores(place):
    return [0, 100] if place[0] == 1 else [100, 0]
