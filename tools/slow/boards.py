"""Boards (docs/LANGUAGE.md, "Boards"). The pieces on the cells were looked up before; here only names and rows count."""

from refusals import Refused

MOST_VERTICES = 4_096


def directions_of(board):
    """The names of the directions, numbered in order of first use."""
    if board.generator == "graph":
        written = [direction.text for vertex in board.vertices for direction, _ in vertex.edges]
    else:
        written = [direction.text for direction in board.directions]
    return list(dict.fromkeys(written))


def cells_of(board):
    """The names of the first pieces, in order of the vertices."""
    if board.generator == "graph":
        return [vertex.piece for vertex in board.vertices]
    return [cell for row in board.rows for cell in row]


def ways_of(board):
    """The edges as a table: where each vertex leads in the direction of each name. The first refusal that holds is raised."""
    make = {"rectangle": rectangle, "hexagon": hexagon, "graph": graph}
    return make[board.generator](board)


def refuse_rows(board, fits):
    """The refusals of rectangle and hexagon after `NoCell`; `fits` says whether row `r` fits those before it."""
    for row in range(1, len(board.rows)):
        if not fits(row):
            raise Refused("board", 2, "RowLength", row)
    if sum(len(row) for row in board.rows) > MOST_VERTICES:
        raise too_many_vertices()
    if len(directions_of(board)) < len(board.directions):
        raise same_direction()


def no_cell():
    return Refused("board", 1, "NoCell")


def too_many_vertices():
    return Refused("board", 3, "TooManyVertices")


def same_direction():
    return Refused("board", 4, "SameDirection")


def numbered_cells(board):
    """The number of the vertex of each cell `(row, place)`."""
    cells = [(row, place) for row in range(len(board.rows)) for place in range(len(board.rows[row]))]
    return {cell: vertex for vertex, cell in enumerate(cells)}


def rectangle(board):
    lengths = [len(row) for row in board.rows]
    if not lengths or lengths[0] == 0:
        raise no_cell()
    refuse_rows(board, lambda row: lengths[row] == lengths[0])
    up, down, left, right = [direction.text for direction in board.directions]
    number = numbered_cells(board)
    ways = {}
    for (row, place), vertex in number.items():
        leads = {up: (row - 1, place), down: (row + 1, place), left: (row, place - 1), right: (row, place + 1)}
        for direction, cell in leads.items():
            if cell in number:
                ways[vertex, direction] = number[cell]
    return ways


def hexagon(board):
    lengths = [len(row) for row in board.rows]
    if not lengths or 0 in lengths:
        raise no_cell()

    def fits(row):
        shrank = any(lengths[before] < lengths[before - 1] for before in range(1, row))
        return lengths[row] == lengths[row - 1] - 1 or (lengths[row] == lengths[row - 1] + 1 and not shrank)

    refuse_rows(board, fits)
    north_west, north_east, east, south_east, south_west, west = [direction.text for direction in board.directions]
    number = numbered_cells(board)
    ways = {}
    for (row, place), vertex in number.items():
        # The next row begins half a cell before this one if it is longer, half a cell after it if it is shorter.
        growing = row + 1 < len(lengths) and lengths[row + 1] > lengths[row]
        below = place if growing else place - 1
        for direction, back, cell in (
            (east, west, (row, place + 1)),
            (south_west, north_east, (row + 1, below)),
            (south_east, north_west, (row + 1, below + 1)),
        ):
            if cell in number:
                ways[vertex, direction] = number[cell]
                ways[number[cell], back] = vertex
    return ways


def graph(board):
    if not board.vertices:
        raise no_cell()
    if len(board.vertices) > MOST_VERTICES:
        raise too_many_vertices()
    number = {vertex.name.text: index for index, vertex in enumerate(board.vertices)}
    if len(number) < len(board.vertices):
        raise Refused("board", 6, "SameVertex")
    ways = {}
    for vertex, written in enumerate(board.vertices):
        for direction, _ in written.edges:
            if (vertex, direction.text) in ways:
                raise same_direction()
            ways[vertex, direction.text] = None
    for vertex, written in enumerate(board.vertices):
        for direction, target in written.edges:
            if target.text not in number:
                raise Refused("board", 5, "UnknownVertex")
            ways[vertex, direction.text] = number[target.text]
    return ways
