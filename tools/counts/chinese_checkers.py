"""Chinese checkers for three players. A hole has three coordinates whose sum is 0; the star is two great triangles. A
place is the mover, the holes of the pegs of each player, and the number of moves."""

RADIUS = 8
STEPS = [(1, -1, 0), (-1, 1, 0), (1, 0, -1), (-1, 0, 1), (0, 1, -1), (0, -1, 1)]
CELLS = [
    (x, -x - z, z) for z in range(-RADIUS, RADIUS + 1) for x in range(-RADIUS, RADIUS + 1) if abs(x + z) <= RADIUS
]
HOLES = [cell for cell in CELLS if min(cell) >= -4 or max(cell) <= 4]
# Each player goes against one coordinate: from where it is 5 or more to where it is -5 or less.
AXES = (2, 1, 0)
LONGEST = 300
START = (1, tuple(frozenset(hole for hole in HOLES if hole[axis] >= 5) for axis in AXES), 0)
STAR = frozenset(HOLES)
assert len(STAR) == 121


def plus(hole, step, times=1):
    return tuple(part + times * by for part, by in zip(hole, step))


def targets(hole, taken):
    """Where a peg may go that isn't in one of the holes that are taken."""
    near = {other for step in STEPS if (other := plus(hole, step)) in STAR and other not in taken}
    hopped, queue = {hole}, [hole]
    for here in queue:
        for step in STEPS:
            over, beyond = plus(here, step), plus(here, step, 2)
            if over in taken and beyond in STAR and beyond not in taken and beyond not in hopped:
                hopped.add(beyond)
                queue.append(beyond)
    return (near | hopped) - {hole}


def has_arrived(pegs, index):
    return all(hole[AXES[index]] <= -5 for hole in pegs[index])


def moves(place):
    mover, pegs, made = place
    if made == LONGEST or any(has_arrived(pegs, index) for index in range(3)):
        return []
    found = []
    mine = pegs[mover - 1]
    taken = frozenset().union(*pegs)
    for hole in mine:
        for target in targets(hole, taken - {hole}):
            after = list(pegs)
            after[mover - 1] = mine - {hole} | {target}
            found.append((mover % 3 + 1, tuple(after), made + 1))
    return found


def player(place):
    return place[0]


def board(place):
    names = {hole: "e" for hole in HOLES}
    for name, pegs in zip("rgb", place[1]):
        names.update({hole: name for hole in pegs})
    return [names.get(cell, "x") for cell in CELLS]


def scores(place):
    return [100 if has_arrived(place[1], index) else 0 for index in range(3)]


def from_board(names):
    holes = list(zip(CELLS, names))
    return (1, tuple(frozenset(cell for cell, name in holes if name == peg) for peg in "rgb"), 0)
