"""Peg solitaire on the English board of 33 holes. The board is a string of seven by seven squares, 1 for a peg, 0 for
an empty hole, and blanks if there is none. A place is the same and the number of pegs that were taken."""

CENTRE = 24
START = "  111  " "  111  " "1111111" "1110111" "1111111" "  111  " "  111  "


def moves(place):
    found = []
    for square, hole in enumerate(place):
        for step in (-7, 7, -1, 1):
            target = square + 2 * step
            if step in (-1, 1) and target // 7 != square // 7:
                continue
            if hole == "1" and 0 <= target < 49 and place[square + step] == "1" and place[target] == "0":
                after = list(place)
                after[square] = after[square + step] = "0"
                after[target] = "1"
                found.append("".join(after))
    return found


def player(place):
    return 1


def board(place):
    return [{"1": "peg", "0": "e", " ": "wall"}[hole] for hole in place]


def scores(place):
    """A point for each peg that was taken, and one more if the last one is in the middle."""
    pegs = place.count("1")
    return [32 - pegs + (pegs == 1 and place[CENTRE] == "1")]
