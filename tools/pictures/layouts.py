"""Where the vertices of a board are in a picture, and the lines between them. The board is that of the game's text."""

import pathlib
import re
import sys

TOP = pathlib.Path(__file__).resolve().parents[2]
sys.path.insert(0, str(TOP / "tools/slow"))

import checks
import grammar
import macros
import tokens

UNIT = 24  # from a square to the next one


class Layout:
    """The points of the vertices, by number; the edges that are drawn, as pairs of vertices; and the size."""

    def __init__(self, points, edges=(), rows=(), margin=0.75):
        left = min(x for x, _ in points)
        top = min(y for _, y in points)
        self.points = [(x - left + UNIT * margin, y - top + UNIT * margin) for x, y in points]
        self.edges = sorted({tuple(sorted(edge)) for edge in edges if edge[0] != edge[1]})
        self.rows = rows  # the numbers of the vertices, row by row
        self.width = max(x for x, _ in self.points) + UNIT * margin
        self.height = max(y for _, y in self.points) + UNIT * margin


def layout(path, slanted):
    """The layout of the board of a game's file."""
    sections = macros.expand(tokens.cut(path.read_bytes()))
    board = grammar.parse(sections).board
    if board.generator == "graph":
        return graph(path.stem, board, checks.load(path.read_bytes()).ways)
    longest = max(map(len, board.rows))
    points, rows = [], []
    for number, row in enumerate(board.rows):
        shift = number / 2 if slanted else 0 if board.generator == "rectangle" else (longest - len(row)) / 2
        high = 0.75**0.5 if slanted or board.generator == "hexagon" else 1
        rows.append(range(len(points), len(points) + len(row)))
        points += [((place + shift) * UNIT, number * high * UNIT) for place in range(len(row))]
    return Layout(points, rows=rows)


def graph(game, board, ways):
    names = [vertex.name.text for vertex in board.vertices]
    points = [PLACES[game](name) for name in names]
    skipped = SKIPPED.get(game, ())
    edges = [(start, end) for (start, direction), end in ways.items() if direction not in skipped]
    return Layout(points, edges, margin=2.5 if game == "surakarta" else 0.75)


def lettered(name):
    """The point of a name like a7: a letter for the column and a digit for the row from below."""
    return (ord(name[0]) - ord("a")) * UNIT, -int(name[1:]) * UNIT


def in_cube(name):
    """The point of a name like x0y1z2: four floors, one above the other, as seen from the side."""
    x, y, z = map(int, re.findall(r"\d", name))
    return (x + 0.5 * y) * UNIT, (-0.45 * y - 2.4 * z) * UNIT


def in_pits(name):
    """The point of a pit or a store."""
    if name.endswith("Store"):
        return (7.2 if name == "southStore" else -0.2) * UNIT, 0.75 * UNIT
    number = int(name[1:])
    return (number if name[0] == "a" else 7 - number) * UNIT, (1.5 if name[0] == "a" else 0) * UNIT


def on_track(name):
    """The point of a square of the race: three rows of five, to the right and back."""
    starts = {"startRed": -1, "startGreen": 0, "startBlue": 1}
    if name in starts:
        return -1.5 * UNIT, (1.5 + 0.8 * starts[name]) * UNIT
    number = 15 if name == "goal" else int(name[1:]) - 1
    row, place = divmod(number, 5)
    if name == "goal":
        return 5.4 * UNIT, 3 * UNIT
    return (place if row % 2 == 0 else 4 - place) * UNIT, row * 1.5 * UNIT


PLACES = {
    "nine_mens_morris": lettered,
    "surakarta": lettered,
    "qubic": in_cube,
    "kalah": in_pits,
    "carrot_race": on_track,
}
SKIPPED = {
    "kalah": ("next", "up", "down"),
    "carrot_race": ("around", "back"),
    "surakarta": ("arc",),
    "qubic": ("up", "down"),
}
