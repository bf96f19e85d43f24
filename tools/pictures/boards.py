#!/usr/bin/env python3
"""Draws the boards on the pages: the pictures of an empty rectangle, hexagon and graph that `rbg_author board` prints, into
docs. It needs ./rbg_author (make build).

    python3 tools/pictures/boards.py
"""

import pathlib
import subprocess
import sys

TOP = pathlib.Path(__file__).resolve().parents[2]
# Each picture of a small board, with its players.
BOARDS = {
    "rectangle": ("white(1), black(1)", "rectangle(up, down, left, right, [e,e,e] [e,e,e])"),
    "hexagon": (
        "white(1)",
        "hexagon(north_west, north_east, east, south_east, south_west, west, [e,e] [e,e,e] [e,e])",
    ),
}


def description(players: str, board: str) -> bytes:
    """A game of one move with this board."""
    return f"#players = {players}\n#pieces = e\n#board = {board}\n#rules = ->white {{e}} ->>\n".encode()


def picture(text: bytes) -> bytes:
    """What `rbg_author board` prints of a description."""
    done = subprocess.run([str(TOP / "rbg_author"), "board", "-"], input=text, capture_output=True)
    if done.returncode != 0:
        sys.exit(done.stdout.decode() + done.stderr.decode())
    return done.stdout


def main() -> None:
    texts = {name: description(*board) for name, board in BOARDS.items()}
    texts["graph"] = (TOP / "crates/rbg_games/data/nine_mens_morris.rbg").read_bytes()
    for name, text in texts.items():
        drawn = picture(text)
        (TOP / f"docs/{name}.svg").write_bytes(drawn)
        print(f"{name}: {len(drawn)} bytes")


if __name__ == "__main__":
    main()
