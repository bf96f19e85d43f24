"""How each game looks in its picture: its ground, the shapes of its pieces, and which place of its match is shown."""

import re

WHITE, BLACK, RED, BLUE, GREEN, YELLOW = "#fbfbf6", "#2b2b2b", "#cf3b2e", "#2f62b5", "#3c9a4a", "#f0c330"


class Look:
    """A ground of squares (also chequered), hexagons, holes, or lines; and a pair of a shape and a colour for each piece.
    A piece that isn't named isn't drawn, and one that is hidden has no ground either. `moves` of the match are made."""

    def __init__(self, ground, shapes, moves=None, slanted=False, hidden=(), light="#ecd9b0", dark="#b98e57"):
        self.ground, self.shapes, self.moves, self.slanted, self.hidden = ground, shapes, moves, slanted, hidden
        self.light, self.dark = light, dark
        self.around = "#f6efe0"

    def shape(self, piece, vertex, board):
        return self.shapes.get(piece)

    def words(self, pieces, values):
        """A vertex, a text and its size, for what is written."""
        return []

    def loops(self, board):
        """Pairs of points that an arc joins, and its radius."""
        return []


class Boxes(Look):
    """Dots and boxes, whose lines lie across or upright."""

    def shape(self, piece, vertex, board):
        if piece == "line":
            row = next(number for number, row in enumerate(board.rows) if vertex in row)
            return ("across" if row % 2 == 0 else "upright"), BLACK
        return self.shapes.get(piece)


class Pits(Look):
    """Kalah: the pieces are numbers of seeds, and the stores have the scores."""

    def words(self, pieces, values):
        written = [(pit, piece[1:], 11) for pit, piece in enumerate(pieces) if re.fullmatch(r"s\d+", piece)]
        return written + [(pieces.index(f"{side}_store"), values[side], 11) for side in ("south", "north")]


class Track(Look):
    """The race: what the squares are is drawn into them."""

    SIGNS = {"T": (3, 7, 11), "C": (2, 9, 13), "1": (5,), "2": (6, 12), "3": (8, 14)}

    def words(self, pieces, values):
        kinds = [(square + 2, sign, 11, "#7a6a4f") for sign, squares in self.SIGNS.items() for square in squares]
        return [words for words in kinds if pieces[words[0]] == "e"] + [(18, "goal", 8)]


class Loops(Look):
    """Surakarta, whose loops go around the corners."""

    def loops(self, board):
        side = 6
        rows = [board.points[row * side : (row + 1) * side] for row in range(side)]
        for radius in (1, 2):
            yield rows[radius][0], rows[0][radius], radius
            yield rows[0][-1 - radius], rows[radius][-1], radius
            yield rows[-1 - radius][-1], rows[-1][-1 - radius], radius
            yield rows[-1][radius], rows[-1 - radius][0], radius


def discs(**colours):
    return {piece: ("disc", colour) for piece, colour in colours.items()}


def chess():
    names = {"k": "♚", "g": "♚", "q": "♛", "r": "♜", "u": "♜", "b": "♝", "n": "♞", "p": "♟"}
    colours = {"w": WHITE, "b": BLACK}
    return {side + piece: (sign, colours[side]) for side in "wb" for piece, sign in names.items()}


PLAIN = discs(w=WHITE, b=BLACK)
LOOKS = {
    "abalone": Look("hexagons", PLAIN, 40),
    "amazons": Look("chequered", {"w": ("♛", WHITE), "b": ("♛", BLACK), "arrow": ("cross", "#7a3b1e")}, 40),
    "ataxx": Look("squares", PLAIN, 40),
    "breakthrough": Look("chequered", PLAIN, 30),
    "carrot_race": Track("holes", {**discs(r=RED, g=GREEN, b=BLUE), "finish": ("cell", YELLOW)}, 8),
    "chess": Look("chequered", chess()),
    "chinese_checkers": Look("holes", discs(r=RED, g=GREEN, b=BLUE), 70, hidden=("x",)),
    "clobber": Look("chequered", PLAIN, 10),
    "connect_four": Look("holes", discs(r=RED, y=YELLOW), light="#dfe8f5"),
    "dots_and_boxes": Boxes(
        "none", {"dot": ("dot", BLACK), "a": ("square", "#f2b8b0"), "b": ("square", "#b5cdf0")}, 22
    ),
    "english_draughts": Look(
        "chequered", {"m": ("disc", BLACK), "k": ("king", BLACK), "o": ("disc", WHITE), "q": ("king", WHITE)}, 30
    ),
    "go_9x9": Look("lines", PLAIN, 60),
    "gomoku": Look("lines", PLAIN),
    "gomoku_swap2": Look("lines", PLAIN),
    "hex": Look("hexagons", discs(r=RED, b=BLUE), slanted=True),
    "international_draughts": Look(
        "chequered", {"m": ("disc", WHITE), "k": ("king", WHITE), "o": ("disc", BLACK), "q": ("king", BLACK)}, 40
    ),
    "kalah": Pits("holes", {}, 10),
    "knightthrough": Look("chequered", {"w": ("♞", WHITE), "b": ("♞", BLACK)}, 16),
    "konane": Look("squares", PLAIN, 20),
    "lines_of_action": Look("squares", PLAIN),
    "nine_mens_morris": Look("lines", PLAIN, 24),
    "othello_6x6": Look("squares", PLAIN, 16, light="#7fb285"),
    "peg_solitaire": Look("holes", discs(peg=BLUE), 12, hidden=("wall",)),
    "pentago": Look("holes", PLAIN),
    "queens": Look("chequered", {"queen": ("♛", BLACK)}),
    "qubic": Look("lines", PLAIN),
    "reversi": Look("squares", PLAIN, light="#7fb285"),
    "surakarta": Loops("lines", PLAIN, 14),
    "tablut": Look(
        "squares",
        {**discs(m=BLACK, s=WHITE), "home": ("king", YELLOW), "k": ("king", YELLOW), "castle": ("cross", "#7a3b1e")},
        24,
    ),
    "tictactoe": Look("squares", {"x": ("cross", BLUE), "o": ("disc", "none")}),
    "yavalath": Look("hexagons", PLAIN),
}
