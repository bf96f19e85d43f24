"""Kalah with six pits a side and four seeds in each. A place is the mover and the seeds in a ring of fourteen: South's
six pits and store, North's six pits and store."""

STORES = (6, 13)
OWN = (range(0, 6), range(7, 13))
START = (1, (4,) * 6 + (0,) + (4,) * 6 + (0,))


def is_over(seeds):
    return any(all(seeds[pit] == 0 for pit in pits) for pits in OWN)


def sown(mover, seeds, pit):
    """The place after these seeds were sown."""
    side = mover - 1
    seeds = list(seeds)
    hand, seeds[pit] = seeds[pit], 0
    while hand:
        pit = (pit + 1) % 14
        if pit != STORES[1 - side]:
            seeds[pit] += 1
            hand -= 1
    across = 12 - pit
    if pit in OWN[side] and seeds[pit] == 1 and seeds[across]:
        seeds[STORES[side]] += 1 + seeds[across]
        seeds[pit] = seeds[across] = 0
    if is_over(seeds):
        for store, pits in zip(STORES, OWN):
            for other in pits:
                seeds[store] += seeds[other]
                seeds[other] = 0
    return (mover if pit == STORES[side] else 3 - mover, tuple(seeds))


def moves(place):
    mover, seeds = place
    if is_over(seeds):
        return []
    return [sown(mover, seeds, pit) for pit in OWN[mover - 1] if seeds[pit]]


def player(place):
    return place[0]


def board(place):
    """A store holds one piece, however many seeds it has."""
    names = [f"s{count}" for count in place[1]]
    names[6], names[13] = "south_store", "north_store"
    return names


def scores(place):
    return [place[1][store] for store in STORES]
