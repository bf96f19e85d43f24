"""Eight queens, row by row, so that none attacks another one. A place is the columns of the queens so far."""

SIZE = 8
START = ()


def moves(place):
    row = len(place)
    if row == SIZE:
        return []
    return [
        place + (column,)
        for column in range(SIZE)
        if all(column != other and abs(column - other) != row - above for above, other in enumerate(place))
    ]


def player(place):
    return 1


def board(place):
    names = ["e"] * (SIZE * SIZE)
    for row, column in enumerate(place):
        names[row * SIZE + column] = "queen"
    return names


def scores(place):
    return [len(place)]
