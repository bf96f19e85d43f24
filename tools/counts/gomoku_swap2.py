"""Gomoku with the opening swap2. A place is the mover, the stones, how far the opening is, and who plays White."""

SIZE = 15
STEPS = [(0, 1), (1, 0), (1, 1), (1, -1)]
START = (1, "e" * (SIZE * SIZE), "first stones", 0)


def has_five(stones, stone):
    for row in range(SIZE):
        for column in range(SIZE):
            for down, right in STEPS:
                ends = row + 4 * down < SIZE and 0 <= column + 4 * right < SIZE
                if ends and all(stones[(row + k * down) * SIZE + column + k * right] == stone for k in range(5)):
                    return True
    return False


def with_stone(stones, stone):
    return [stones[:point] + stone + stones[point + 1 :] for point, found in enumerate(stones) if found == "e"]


def moves(place):
    mover, stones, stage, white = place
    number = len(stones) - stones.count("e")
    if stage == "first stones":
        after = "second chooses" if number == 2 else stage
        return [(2 if number == 2 else 1, other, after, 0) for other in with_stone(stones, "bwb"[number])]
    if stage == "second chooses":
        play_white = [(1, other, "play", 2) for other in with_stone(stones, "w")]
        more_stones = [(2, other, "one more", 0) for other in with_stone(stones, "w")]
        return play_white + [(1, stones, "play", 1)] + more_stones
    if stage == "one more":
        return [(1, other, "first chooses", 0) for other in with_stone(stones, "b")]
    if stage == "first chooses":
        return [(2, other, "play", 1) for other in with_stone(stones, "w")] + [(2, stones, "play", 2)]
    if has_five(stones, "w") or has_five(stones, "b"):
        return []
    return [(3 - mover, other, "play", white) for other in with_stone(stones, "w" if mover == white else "b")]


def player(place):
    return place[0]


def board(place):
    return place[1]


def scores(place):
    _, stones, _, white = place
    if has_five(stones, "w"):
        return [100, 0] if white == 1 else [0, 100]
    if has_five(stones, "b"):
        return [0, 100] if white == 1 else [100, 0]
    return [50, 50]
