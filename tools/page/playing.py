#!/usr/bin/env python3
"""Plays whole games by clicks of the mouse in a browser, on the page that `./rbg_author play` serves, and looks whether
they end as they should; then whether `./rbg replay` calls each saved record good. It needs a browser and its driver
(browser.py).

    python3 tools/page/playing.py            plays all of them
    python3 tools/page/playing.py chess hex  plays these; capture, pass and alike are other trials
"""

import argparse
import pathlib
import re
import sys
import tempfile
import time

import browser
from table import DATA, Server, click_square, leave, make_by_clicks, moves_of, ready, record_of, replay, words_of

# the matches that are stored with the games, and how their page says that they ended
STORED = {
    "hex": "red has most: red 100, blue 0",
    "abalone": "black has most: black 100, white 0",
    "english_draughts": "white has most: black 0, white 100",
    "reversi": "black has most: black 100, white 0",
    "nine_mens_morris": "white has most: white 100, black 0",
    "carrot_race": "blue has most",
    "chess": "white has most: white 100, black 0",
    "kalah": "south has most: south 40, north 8",
    "pentago": "white has most: white 100, black 0",
    "peg_solitaire": "finished",
    "amazons": "black has most: white 0, black 100",
    "go_9x9": "white has most: black 0, white 100",
    "othello_6x6": None,
}
# those in which somebody passes, which is a button
PASSES = ["othello_6x6", "go_9x9"]
# the first row of an empty board of English draughts, and others, on which a man takes three men; and which squares are clicked
THREE = ["e,m,e,e,e,e,e,e", "e,e,o,e,e,e,e,e", "", "e,e,e,e,o,e,e,e", "", "e,e,e,e,o,e,e,e", "", ""]
THREE_CLICKS = [1, 51]
# a board of reversi on which Black has no move, and White one
PASS = ["e,b,w,w,w,w,w,w", "", "", "", "", "", "", ""]
# two moves that change the same squares alike, and differ in what they set; then two that set different variables
ALIKE = """#players = one(2), two(2)
#pieces = e, x
#board = rectangle(up,down,left,right,[e,e])
#rules = ->one {e} [x] ([$ one = 1] + [$ one = 2]) ->two ([$ one = 0] + [$ two = 1]) ->> {}
"""
# squares, or squares with the piece that is chosen at the end
CHESS = """e2e4 a7a6 e4e5 d7d5 e5d6 g8f6 d6c7 g7g6 c7b8q f8g7 g1f3 e8g8 f1e2 a8b8 e1g1""".split()
# what is on some squares then: a capture in passing, a promotion and both kings' castling went before
CHESS_SQUARES = {"d5": "e", "d6": "e", "b8": "br", "e8": "e", "f8": "br", "g8": "bk", "e1": "e", "f1": "wr", "g1": "wk", "h1": "e"}


def squares_left(page):
    """From how many squares more than it came to each move took a piece."""
    return page.run(
        "const { game, steps } = RbgPlay.state();"
        "const isEmpty = piece => ['e', 'empty'].includes(game.pieces[piece]);"
        "return steps.slice(1).map(step => step.changed.filter(({ was, is }) => !isEmpty(was) && isEmpty(is)).length - 1)"
    )


def passes(page):
    """How many moves changed no piece."""
    return page.run("return RbgPlay.state().steps.slice(1).filter(step => step.changed.length === 0).length")


def vertex_of(page, name):
    return page.run("return RbgPlay.state().drawing.layout.names.indexOf(arguments[0])", name)


def piece_on(page, name):
    return page.run(
        "const { game, steps, at, drawing } = RbgPlay.state();"
        "return game.pieces[steps[at].board[drawing.layout.names.indexOf(arguments[0])]]",
        name,
    )


def with_board(name, rows, to):
    """Writes a game with another board of eight rows, of which those without pieces are left out here."""
    text = (DATA / f"{name}.rbg").read_text()
    board = re.search(r"(?<=#board = rectangle\(up,down,left,right,)[^)]*", text).group()
    to.write_text(text.replace(board, "".join(f"\n    [{row or 'e,e,e,e,e,e,e,e'}]" for row in rows)))


def play_stored(words, page, name):
    game = DATA / f"{name}.rbg"
    moves = moves_of(DATA / f"{name}.moves")[: words.most]
    with Server(words.author, game) as server:
        begun = time.monotonic()
        page.open(server.link)
        ready(page, 0)
        for at, pairs in enumerate(moves, 1):
            make_by_clicks(page, pairs, at)
        end = page.text("#turn")
        wanted = STORED[name]
        if wanted and len(moves) < words.most and wanted not in end:
            sys.exit(f"{name}: it ended so: {end}")
        if name in PASSES and len(moves) < words.most and passes(page) == 0:
            sys.exit(f"{name}: no move was a pass")
        page.picture(words.folder / f"{name}.png")
        replay(words, game, record_of(page))
        leave(page, name)
        taken = time.monotonic() - begun
    print(f"{name}: {len(moves)} moves by clicks, {end}; the record is good; {taken:.0f} s", flush=True)


def promote(page, piece):
    """Clicks the picture of a piece."""
    at = page.run(
        "const all = Array.from(document.querySelectorAll('#choices .choice'));"
        "const box = all.find(one => one.textContent.endsWith(arguments[0]) && one.querySelector('svg')).getBoundingClientRect();"
        "return [box.x + box.width / 2, box.y + box.height / 2]",
        piece,
    )
    page.click_at(*at)


def play_chess(words, page):
    """A game with a capture in passing, a promotion and castling on both sides, by the names of squares."""
    game = DATA / "chess.rbg"
    with Server(words.author, game) as server:
        page.open(server.link)
        ready(page, 0)
        for at, reported in enumerate(CHESS, 1):
            # a rook is clicked before its king, which is chosen then, and doesn't castle with it
            for name in (*(["h1"] if reported == "e1g1" else []), reported[:2], reported[2:4]):
                click_square(page, vertex_of(page, name))
                if name == "e1" and page.run("return RbgPlay.state().chosen") != [vertex_of(page, "e1")]:
                    sys.exit(f"chess: after a click on e1 there is chosen {page.run('return RbgPlay.state().chosen')}")
            if reported[4:]:
                page.picture(words.folder / "chess_promotion.png")
                promote(page, "wb"[at % 2 == 0] + reported[4])
            ready(page, at)
        page.picture(words.folder / "chess_castled.png")
        for name, wanted in CHESS_SQUARES.items():
            if (found := piece_on(page, name)) != wanted:
                sys.exit(f"chess: {found} is on {name}, and not {wanted}")
        replay(words, game, record_of(page))
        leave(page, "chess")
    print(f"chess: {len(CHESS)} moves by names of squares; the record is good", flush=True)


def play_capture(words, page):
    """A man that takes three men at once, and wins so."""
    with tempfile.TemporaryDirectory() as folder:
        game = pathlib.Path(folder) / "draughts.rbg"
        with_board("english_draughts", THREE, game)
        with Server(words.author, game) as server:
            page.open(server.link)
            ready(page, 0)
            for vertex in THREE_CLICKS:
                if page.run("return RbgPlay.state().at") == 0:
                    click_square(page, vertex)
                    ready(page)
            ready(page, 1)
            end = page.text("#turn")
            if squares_left(page) != [3] or "black has most: black 100, white 0" not in end:
                sys.exit(f"draughts: {squares_left(page)} pieces were taken, {end}")
            page.picture(words.folder / "three.png")
            replay(words, game, record_of(page))
            leave(page, "capture")
    print(f"capture: a man takes three men, {end}; the record is good", flush=True)


def play_pass(words, page):
    """A place of reversi at which who is to move can only pass."""
    with tempfile.TemporaryDirectory() as folder:
        game = pathlib.Path(folder) / "reversi.rbg"
        with_board("reversi", PASS, game)
        with Server(words.author, game) as server:
            page.open(server.link)
            ready(page, 0)
            page.picture(words.folder / "pass.png")
            if page.text("#choices") != "Pass":
                sys.exit(f"pass: the buttons are {page.text('#choices')!r}")
            page.click("#choices button")
            ready(page, 1)
            click_square(page, 0)
            ready(page, 2)
            end = page.text("#turn")
            if "white has most: black 0, white 100" not in end or passes(page) != 1:
                sys.exit(f"pass: it ended so: {end}")
            replay(words, game, record_of(page))
            leave(page, "pass")
    print(f"pass: a button passes, {end}; the record is good", flush=True)


def play_alike(words, page):
    """Moves that nothing but what they set tells apart, once one variable and once different ones."""
    with tempfile.TemporaryDirectory() as folder:
        game = pathlib.Path(folder) / "alike.rbg"
        game.write_text(ALIKE)
        with Server(words.author, game) as server:
            page.open(server.link)
            ready(page, 0)
            click_square(page, 0)
            labels = "return Array.from(document.querySelectorAll('#choices .choice')).map(one => one.textContent)"
            if (found := page.run(labels)) != ["one 1", "one 2"]:
                sys.exit(f"alike: the buttons are {found}")
            page.picture(words.folder / "alike.png")
            page.click("[data-pairs='0 3 0 5 0 6']")
            ready(page, 1)
            if (found := page.run(labels)) != ["one 0", "two 1"]:
                sys.exit(f"alike: the buttons are {found}")
            page.click("[data-pairs='0 8 0 9']")
            ready(page, 2)
            if "a draw" in page.text("#turn") or "one 2, two 1" not in page.text("#turn"):
                sys.exit(f"alike: it ended so: {page.text('#turn')}")
            leave(page, "alike")
    print("alike: buttons say what moves set that nothing else tells apart", flush=True)


def main():
    parser = argparse.ArgumentParser(description=__doc__, formatter_class=argparse.RawDescriptionHelpFormatter)
    parser.add_argument("--most", type=int, default=1000, help="the most moves of each stored match")
    words = words_of(parser)
    with browser.Browser() as page:
        for name, trial in {"chess": play_chess, "capture": play_capture, "pass": play_pass, "alike": play_alike}.items():
            if not words.names or name in words.names:
                trial(words, page)
        for name in [name for name in words.names or STORED if name in STORED]:
            play_stored(words, page, name)
    print(f"the pictures are in {words.folder}")


if __name__ == "__main__":
    main()
