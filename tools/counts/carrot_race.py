"""The race of three hares. A place is the mover, the squares of the hares (0 at the start, 16 in the goal), their
carrots, the order of arrival and the number of moves."""

GOAL = 16
LONGEST = 300
TORTOISES, CARROTS = (3, 7, 11), (2, 9, 13)
NUMBERS = {5: 1, 6: 2, 12: 2, 8: 3, 14: 3}
START = (1, (0, 0, 0), (30, 30, 30), (), 0)


def replaced(values, index, value):
    return values[:index] + (value,) + values[index + 1 :]


def next_turn(mover, squares, carrots, arrived, made):
    """The place after a move of the mover: the next hare on the track has the turn, and is paid for its number."""
    if len(arrived) == 2 or made == LONGEST:
        return (0, squares, carrots, arrived, made)
    following = mover % 3 + 1
    while following in arrived:
        following = following % 3 + 1
    square = squares[following - 1]
    place = 1 + sum(other > square for other in squares)
    if NUMBERS.get(square) == place:
        carrots = replaced(carrots, following - 1, carrots[following - 1] + 10 * place)
    return (following, squares, carrots, arrived, made)


def choices(mover, squares, carrots, arrived):
    """The square, the carrots and who has arrived after each choice of the mover."""
    index = mover - 1
    square, purse = squares[index], carrots[index]
    for steps in range(1, GOAL - square + 1):
        target, left = square + steps, purse - steps * (steps + 1) // 2
        if target == GOAL and 0 <= left <= 10 * (len(arrived) + 1):
            yield target, left, arrived + (mover,)
        elif target < GOAL and left >= 0 and target not in TORTOISES and target not in squares:
            yield target, left, arrived
    back = [other for other in TORTOISES if other < square]
    if back and back[-1] not in squares:
        yield back[-1], purse + 10 * (square - back[-1]), arrived
    if square in CARROTS:
        yield square, purse + 10, arrived
        if purse >= 10:
            yield square, purse - 10, arrived


def moves(place):
    mover, squares, carrots, arrived, made = place
    if mover == 0:
        return []
    found = list(choices(mover, squares, carrots, arrived)) or [(0, 30, arrived)]
    return [
        next_turn(mover, replaced(squares, mover - 1, square), replaced(carrots, mover - 1, purse), goal, made + 1)
        for square, purse, goal in found
    ]


def player(place):
    return place[0]


def board(place):
    names = ["e"] * 18 + ["finish"]
    for index, square in enumerate(place[1]):
        if square < GOAL:
            names[index if square == 0 else square + 2] = "rgb"[index]
    return names


def scores(place):
    points = [0, 0, 0]
    for rank, hare in enumerate(place[3], 1):
        points[hare - 1] = 100 // rank
    return points


def values(place):
    """The carrots: to take ten and to give ten back change nothing else."""
    return dict(zip(("redCarrots", "greenCarrots", "blueCarrots"), place[2]))
