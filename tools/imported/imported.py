#!/usr/bin/env python3
"""Imports random boards and comments, and compares them with the geometry and the tokens: `rbg_author import`.

    imported.py --program ./rbg_author --count 500

Each board is a cuboid or a rectangle of the paper's language, with holes and comments. The graph in its place has to
have the vertices and edges that the geometry gives; what is outside of it has to keep its tokens. Then games that
ship get comments between marks, and have to keep their tokens too.
"""

import argparse
import random
import re
import subprocess
import sys
from pathlib import Path

ROOT = Path(__file__).resolve().parents[2]
sys.path.insert(0, str(ROOT / "tools/editor"))
sys.path.insert(0, str(Path(__file__).resolve().parent))
from boards import NOTES, Board, by_chance, read, written  # noqa: E402
from tokens import TOKEN, tokens  # noqa: E402

HEAD = "#players = white(100), black(100) /* two */\n#pieces = e, w, b, empty, whitePawn, x0, _\n#board = "
TAIL = "\n#rules = ->white /* the\nlast */ [e] ->> {}\n"
COMMENT = re.compile(r"//[^\n]*|/\*.*?\*/", re.S)


class Failed(Exception):
    pass


def without_comments(text: str) -> str:
    """The text with a space in place of each comment.

    >>> without_comments("a/* b */c // d /* e")
    'a c  '
    """
    return COMMENT.sub(" ", text)


def imported(program: Path, text: str) -> tuple[int, str, str]:
    ran = subprocess.run([program.resolve(), "import", "-"], input=text.encode(), capture_output=True, timeout=60)
    return ran.returncode, ran.stdout.decode(), ran.stderr.decode()


def judge_board(board: Board, text: str, status: int, new: str) -> None:
    """Sees that a text with this board was imported as it should be."""
    if status != 0:
        raise Failed(f"status {status} for\n{text}")
    before, _, rest = without_comments(new).partition("#board =")
    found, _, after = rest.partition("#rules")
    wanted = without_comments(text)
    if tokens(before) != tokens(wanted.partition("#board =")[0]) or tokens(after) != tokens(wanted.partition("#rules")[2]):
        raise Failed(f"tokens outside of the board are other ones in\n{new}")
    if board.stays():
        if tokens(found) != tokens(wanted.partition("#board =")[2].partition("#rules")[0]):
            raise Failed(f"a rectangle without holes is another one in\n{new}")
    elif read(found) != board.graph():
        raise Failed(f"the graph isn't the geometry's:\n{text}\n{new}")
    if "/*" in re.sub(r"//[^\n]*", "", new):
        raise Failed(f"a comment is left in\n{new}")
    if notes_of(new) < notes_of(text):
        raise Failed(f"a comment is lost:\n{text}\n{new}")


def notes_of(text: str) -> int:
    """How many words are in comments."""
    return sum(len(re.findall(r"\w+", it)) for it in COMMENT.findall(text))


def judge_refused(program: Path, text: str) -> None:
    """Checks that a text that can't be rewritten is reported with a line of it."""
    status, new, reported = imported(program, text)
    if status != 2 or new or not re.match(r"-:\d+:\d+: ", reported):
        raise Failed(f"status {status}, {reported!r} for\n{text}")


def with_notes(text: str, chance: random.Random) -> str:
    """The text with comments between some of its tokens."""
    found, at = [], 0
    for match in re.finditer(r"//[^\n]*|" + TOKEN.pattern, text):
        found.append(text[at : match.end()])
        at = match.end()
        if chance.random() < 0.05 and not match.group().startswith("//"):
            found.append(" " + chance.choice(NOTES))
    return "".join([*found, text[at:]])


REFUSED = [
    "#board = hexagon(a, b, c, d, e, f, [e,,e])\n",
    "#row = [e,,e]\n#board = rectangle(up, down, left, right, row row)\n",
    "#row = e, e\n#board = cuboid(u, d, l, r, f, b, {[row]})\n",
    "#board = cuboid(u, d, l, r, f, b, [e, e])\n",
    "#board = cuboid(u, d, l, r, {[e, e]})\n",
    "#rules = a /* open\n",
    "#rules = a | b . c\n",
    "#rules = a \u2192 b\n",
    "#x1y2 = up\n#board = rectangle(up, down, left, right, [e,,e])\n",
]


def main() -> int:
    parser = argparse.ArgumentParser(description=__doc__.splitlines()[0])
    parser.add_argument("--program", type=Path, default=ROOT / "rbg_author")
    parser.add_argument("--count", type=int, default=500, help="how many boards, and a tenth as many games")
    parser.add_argument("--seed", type=int, default=1)
    words = parser.parse_args()
    chance = random.Random(words.seed)
    kinds = [0, 0, 0]
    games = sorted((ROOT / "crates/rbg_games/data").glob("*.rbg"))
    try:
        for _ in range(words.count):
            board = by_chance(chance)
            text = HEAD + written(board, chance) + TAIL
            status, new, _ = imported(words.program, text)
            judge_board(board, text, status, new)
            kinds[0 if board.is_cuboid else 1 if board.has_holes() else 2] += 1
        for _ in range(words.count // 10):
            text = chance.choice(games).read_text()
            status, new, _ = imported(words.program, with_notes(text, chance))
            if status != 0 or tokens(new) != tokens(text):
                raise Failed(f"status {status}, or tokens changed")
        for text in REFUSED:
            judge_refused(words.program, text)
    except Failed as failure:
        print(f"failed: {failure}")
        return 1
    print(f"{kinds[0]} cuboids and {kinds[1]} rectangles with holes have the edges of the geometry, {kinds[2]} others stay")
    print(f"{words.count // 10} games with comments keep their tokens, {len(REFUSED)} texts are refused by line")
    return 0


if __name__ == "__main__":
    sys.exit(main())
