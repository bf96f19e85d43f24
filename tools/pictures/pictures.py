#!/usr/bin/env python3
"""Draws a picture of each game in crates/rbg_games/data, into docs/games: an SVG file of a place of the match that is
stored with the game. It needs ./rbg (make build), which says what is on the board.

    python3 tools/pictures/pictures.py           draws all of them
    python3 tools/pictures/pictures.py chess hex     draws these
"""

import sys

from layouts import TOP, UNIT, layout
from looks import LOOKS

sys.path.insert(0, str(TOP / "clients/python"))
from rbg import Game  # noqa: E402

DATA = TOP / "crates/rbg_games/data"
TO = TOP / "docs/games"
MOST = 20_000  # bytes of a picture
RADIUS = 0.4 * UNIT


def number(value):
    return f"{value:.1f}".removesuffix(".0")


def path_of(shapes):
    return "".join("M" + "L".join(f"{number(x)} {number(y)}" for x, y in shape) + "Z" for shape in shapes)


def square(point, half=UNIT / 2):
    x, y = point
    return [(x - half, y - half), (x + half, y - half), (x + half, y + half), (x - half, y + half)]


def hexagon(point):
    x, y = point
    half, side = UNIT / 2, UNIT / 3**0.5
    return [
        (x, y - side), (x + half, y - side / 2), (x + half, y + side / 2),
        (x, y + side), (x - half, y + side / 2), (x - half, y - side / 2),
    ]  # fmt: skip


def filled(shapes, fill, line="#7a6a4f"):
    return f'<path d="{path_of(shapes)}" fill="{fill}" stroke="{line}"/>' if shapes else ""


def ground(board, look, pieces):
    """What lies under the pieces."""
    shown = [vertex for vertex, piece in enumerate(pieces) if piece not in look.hidden]
    points = [board.points[vertex] for vertex in shown]
    if look.ground == "hexagons":
        return filled([hexagon(point) for point in points], look.light)
    if look.ground == "chequered":
        kinds = ([], [])
        for row, vertices in enumerate(board.rows):
            for place, vertex in enumerate(vertices):
                kinds[(row + place) % 2].append(square(board.points[vertex]))
        return filled(kinds[0], look.light) + filled(kinds[1], look.dark)
    if look.ground == "squares":
        return filled([square(point) for point in points], look.light)
    if look.ground == "lines":
        return lines(board)
    if look.ground == "none":
        return ""
    return "".join(dot(point, 0.36 * UNIT, look.light, "#7a6a4f") for point in points)  # holes


def lines(board):
    """The lines of a board whose pieces are on points, and the edges of a graph."""
    ways = [[board.points[start], board.points[end]] for start, end in board.edges]
    if board.rows:
        columns = list(zip(*board.rows))
        ways = [[board.points[line[0]], board.points[line[-1]]] for line in [*board.rows, *columns]]
    drawn = "".join("M" + "L".join(f"{number(x)} {number(y)}" for x, y in way) for way in ways)
    points = "" if board.rows else "".join(dot(point, 3, "#5c4d36", "none") for point in board.points)
    return f'<path d="{drawn}" fill="none" stroke="#5c4d36"/>{points}'


def arcs(loops):
    """Three quarters of a circle for each loop."""
    ways = [(*start, radius * UNIT, *end) for start, end, radius in loops]
    drawn = "".join("M{0} {1}A{2} {2} 0 1 1 {3} {4}".format(*map(number, way)) for way in ways)
    return f'<path d="{drawn}" fill="none" stroke="#5c4d36"/>' if drawn else ""


def dot(point, radius, fill, line):
    x, y = point
    return f'<circle cx="{number(x)}" cy="{number(y)}" r="{number(radius)}" fill="{fill}" stroke="{line}"/>'


def text(point, words, size, fill="#222"):
    x, y = point
    below = number(y + size * 0.35)
    return f'<text x="{number(x)}" y="{below}" font-size="{number(size)}" fill="{fill}">{words}</text>'


def drawn_piece(point, shape, fill):
    if shape == "disc":
        return dot(point, RADIUS, fill, "#222")
    if shape == "king":
        return dot(point, RADIUS, fill, "#222") + dot(point, RADIUS / 2, "none", "#c33")
    if shape == "square":
        return filled([square(point, 0.42 * UNIT)], fill, "#222")
    if shape == "cell":
        return filled([square(point)], fill)
    if shape == "dot":
        return dot(point, 3, fill, "none")
    if shape in ("across", "upright"):
        (x, y), (by_x, by_y) = point, (UNIT, 0) if shape == "across" else (0, UNIT)
        return f'<path d="{path_of([[(x - by_x, y - by_y), (x + by_x, y + by_y)]])}" stroke="{fill}" stroke-width="2"/>'
    if shape == "cross":
        x, y = point
        ways = [[(x - 6, y - 6), (x + 6, y + 6)], [(x - 6, y + 6), (x + 6, y - 6)]]
        return f'<path d="{path_of(ways)}" stroke="{fill}" stroke-width="3"/>'
    return text(point, shape, UNIT * 0.85, fill)


def picture(game, look):
    """The text of an SVG file."""
    path = DATA / f"{game}.rbg"
    board = layout(path, look.slanted)
    moves = [line for line in (DATA / f"{game}.moves").read_text().splitlines() if line and not line.startswith("//")]
    with Game.load(path, str(TOP / "rbg"), library=False) as rules:
        state = rules.state()
        for move in moves[: look.moves]:
            state.make(move)
        pieces, values = [rules.pieces[piece] for piece in state.board], state.values
    width, height = number(board.width), number(board.height)
    parts = [
        f'<svg xmlns="http://www.w3.org/2000/svg" viewBox="0 0 {width} {height}" width="{width}" height="{height}" '
        'font-family="DejaVu Sans, sans-serif" text-anchor="middle">',
        f'<rect width="{width}" height="{height}" rx="6" fill="{look.around}"/>',
        ground(board, look, pieces),
        arcs(look.loops(board)),
    ]
    for vertex, piece in enumerate(pieces):
        shape = look.shape(piece, vertex, board)
        if shape is not None:
            parts.append(drawn_piece(board.points[vertex], *shape))
    parts += [text(board.points[vertex], *words) for vertex, *words in look.words(pieces, values)]
    return "\n".join(part for part in parts + ["</svg>"] if part) + "\n"


def main():
    TO.mkdir(exist_ok=True)
    for game in sys.argv[1:] or sorted(LOOKS):
        drawn = picture(game, LOOKS[game])
        if len(drawn.encode()) > MOST:
            sys.exit(f"{game}: {len(drawn.encode())} bytes")
        (TO / f"{game}.svg").write_text(drawn)
        print(f"{game}: {len(drawn.encode())} bytes")
    undrawn = {path.stem for path in DATA.glob("*.rbg")} - set(LOOKS)
    if undrawn:
        sys.exit("no look: " + ", ".join(sorted(undrawn)))


if __name__ == "__main__":
    main()
