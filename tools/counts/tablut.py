"""Tablut. The squares hold m, s, the king (k, also in his castle) or e. A place is the mover, the squares, whether the
king has left his castle, the moves in a row in which nothing was taken, and whether the last move took the king."""

SIZE = 9
CASTLE = 40
LONGEST = 100
UPPER = ["eeemmmeee", "eeeemeeee", "eeeeseeee", "meeeseeem"]
ROWS = UPPER + ["mmsskssmm"] + UPPER[::-1]
START = (1, "".join(ROWS), False, 0, False)
STEPS = [(-1, 0), (1, 0), (0, -1), (0, 1)]


def beyond(square, step, count=1):
    row, column = square // SIZE + step[0] * count, square % SIZE + step[1] * count
    return row * SIZE + column if 0 <= row < SIZE and 0 <= column < SIZE else None


def slides(squares, start):
    for step in STEPS:
        square = beyond(start, step)
        while square is not None and squares[square] == "e" and square != CASTLE:
            yield square
            square = beyond(square, step)


def takes(squares, arrived, step, friends, theirs, has_left):
    """The man of theirs beside the square that is taken, or None."""
    man, opposite = beyond(arrived, step), beyond(arrived, step, 2)
    if opposite is None or squares[man] != theirs:
        return None
    empty_castle = opposite == CASTLE and has_left
    return man if empty_castle or squares[opposite] in friends else None


def king_is_taken(squares, arrived, has_left):
    for step in STEPS:
        king = beyond(arrived, step)
        if king is None or squares[king] != "k":
            continue
        around = [beyond(king, other) for other in STEPS]
        if king == CASTLE or CASTLE in around:
            return all(squares[other] == "m" or (other == CASTLE and has_left) for other in around)
        return squares[beyond(arrived, step, 2)] == "m"
    return False


def after_move(place, start, target):
    mover, squares, has_left, quiet, _ = place
    after = list(squares)
    after[target], after[start] = after[start], "e"
    has_left = has_left or start == CASTLE
    friends, theirs = ("m", "s") if mover == 1 else ("sk", "m")
    taken = [takes(after, target, step, friends, theirs, has_left) for step in STEPS]
    taken = [man for man in taken if man is not None]
    for man in taken:
        after[man] = "e"
    lost = mover == 1 and king_is_taken(after, target, has_left)
    return (3 - mover, "".join(after), has_left, 0 if taken else quiet + 1, lost)


def escaped(squares):
    row, column = divmod(squares.index("k"), SIZE)
    return row in (0, SIZE - 1) or column in (0, SIZE - 1)


def moves(place):
    mover, squares, _, quiet, lost = place
    if quiet == LONGEST or lost or escaped(squares):
        return []
    mine = "m" if mover == 1 else "sk"
    starts = [square for square in range(SIZE * SIZE) if squares[square] in mine]
    return [after_move(place, start, target) for start in starts for target in slides(squares, start)]


def player(place):
    return place[0]


def board(place):
    names = list(place[1])
    names[CASTLE] = "castle" if place[2] else "home"
    return names


def scores(place):
    mover, squares, _, quiet, lost = place
    if lost or escaped(squares):
        return [100, 0] if lost else [0, 100]
    if quiet == LONGEST:
        return [50, 50]
    return [0, 100] if mover == 1 else [100, 0]


def from_board(names):
    squares = ["k" if name in ("k", "home") else "e" if name == "castle" else name for name in names]
    return (1, "".join(squares), "castle" in names, 0, False)
