"""Random boards of the paper's language, and the graph that each of them is."""

import random
import re
from dataclasses import dataclass, field

# A place: its cell, row and layer, from 0.
Place = tuple[int, int, int]
# The steps of the directions, in the order in which a board names them.
STEPS: list[Place] = [(0, -1, 0), (0, 1, 0), (-1, 0, 0), (1, 0, 0), (0, 0, -1), (0, 0, 1)]
NAMES = [["up", "down", "left", "right", "front", "back"], ["n", "s", "w", "e", "under", "over"], ["a", "b", "c", "d", "x", "y"]]
PIECES = ["e", "w", "b", "empty", "whitePawn", "x0", "_"]


@dataclass
class Board:
    is_cuboid: bool
    directions: list[str]
    layers: list[list[list[str | None]]]
    cells: dict[Place, str] = field(default_factory=dict)

    def __post_init__(self) -> None:
        for z, layer in enumerate(self.layers):
            for y, row in enumerate(layer):
                self.cells |= {(x, y, z): piece for x, piece in enumerate(row) if piece is not None}

    def has_holes(self) -> bool:
        rows = [row for layer in self.layers for row in layer]
        return any(None in row for row in rows) or len({len(row) for row in rows}) > 1

    def stays(self) -> bool:
        """Whether it is no graph, but a rectangle as it was."""
        return not self.is_cuboid and not self.has_holes()

    def name(self, place: Place) -> str:
        x, y, z = place
        return f"x{x}y{y}z{z}" if self.is_cuboid else f"x{x}y{y}"

    def graph(self) -> list[tuple[str, str, list[tuple[str, str]]]]:
        """Its vertices in order of the text, each with its piece and its edges in order of the directions.

        >>> Board(False, ["u", "d", "l", "r"], [[["e", None], ["e", "w"]]]).graph()[1]
        ('x0y1', 'e', [('u', 'x0y0'), ('r', 'x1y1')])
        """
        found = []
        for place, piece in self.cells.items():
            edges = []
            for direction, step in zip(self.directions, STEPS):
                other = (place[0] + step[0], place[1] + step[1], place[2] + step[2])
                if other in self.cells:
                    edges.append((direction, self.name(other)))
            found.append((self.name(place), piece, edges))
        return found


def by_chance(chance: random.Random) -> Board:
    is_cuboid = chance.random() < 0.6
    most = chance.choice([1, 2, 3, 4, 5])
    holes = chance.choice([0.0, 0.0, 0.1, 0.3, 0.7])
    is_uneven = chance.random() < 0.25
    width, height = chance.randint(1, most + 1), chance.randint(1, most)
    depth = chance.randint(1, most) if is_cuboid else 1
    layers: list[list[list[str | None]]] = []
    for _ in range(depth):
        layer: list[list[str | None]] = []
        for _ in range(chance.randint(1, most) if is_uneven else height):
            count = chance.randint(1, most) if is_uneven else width
            layer.append([None if chance.random() < holes else chance.choice(PIECES) for _ in range(count)])
        layers.append(layer)
    names = chance.choice(NAMES)[: 6 if is_cuboid else 4]
    chance.shuffle(names)
    return Board(is_cuboid, names, layers)


NOTES = ["/* a note */", "/**/", "/* two\n   lines */", "// to the end\n", "/* // */", "/*\n * with stars\n **/", "// /* none\n", "/*/ */"]


def blank(chance: random.Random) -> str:
    """What may be between two tokens."""
    kind = chance.random()
    if kind < 0.5:
        return ""
    return chance.choice([" ", "  ", "\n", "\t", "\r\n", "\n    "]) if kind < 0.9 else " " + chance.choice(NOTES)


def written(board: Board, chance: random.Random) -> str:
    """The board as the paper's language writes it."""
    brackets = chance.choice(["{}", "[]"]) if board.is_cuboid else ["", ""]
    parts = ["cuboid" if board.is_cuboid else "rectangle", "("]
    for name in board.directions:
        parts += [name, ","]
    for layer in board.layers:
        parts.append(brackets[0])
        for row in layer:
            parts += ["[", *[part for piece in row for part in (piece or "", ",")][:-1], "]"]
        parts.append(brackets[1])
    return "".join(part + blank(chance) for part in [*parts]) + ")"


VERTEX = re.compile(r"(\w+)\[(\w+)\]\{([^}]*)\}")


def read(text: str) -> list[tuple[str, str, list[tuple[str, str]]]] | None:
    """The vertices of a graph as a description writes it, or None if it is none.

    >>> read("graph(a[e]{up: b, down: a} b[w]{})")
    [('a', 'e', [('up', 'b'), ('down', 'a')]), ('b', 'w', [])]
    """
    inside = text.strip()
    if not inside.startswith("graph(") or not inside.endswith(")"):
        return None
    rest = VERTEX.sub("", inside[6:-1])
    if rest.strip():
        return None
    found = []
    for name, piece, edges in VERTEX.findall(inside):
        pairs = [tuple(edge.split(": ")) for edge in edges.split(", ")] if edges else []
        found.append((name, piece, [(direction, to) for direction, to in pairs]))
    return found
