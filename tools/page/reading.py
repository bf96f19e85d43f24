#!/usr/bin/env python3
"""Looks whether pages of matches lead to their moves, whether a move is spelt alike everywhere, and whether comment lines
change what is drawn. It needs a browser and its driver (browser.py).

    python3 tools/page/reading.py            tries all of it
    python3 tools/page/reading.py page       tries this; spelling and comments are the others
"""

import argparse
import pathlib
import re
import subprocess
import sys
import tempfile

import browser
from browser import RIGHT
from table import DATA, Server, leave, moves_of, ready, words_of

# a game of which comments say where its vertices are, and how a piece is drawn
COMMENTED = """// Three in a ring
// layout left 0 0, right 3 0
// layout top 1.5 2
// piece w \u2654
#players = white(100), black(100)
#pieces = e, w, b
#board = graph(left[w]{on: right} right[e]{on: top} top[b]{on: left})
#rules = ->white {w} [e] on {e} [w] [$ white = 100] ->black {b} [e] on {e} [b] ->> {}
"""


def page_at(page, link):
    """Opens a page of a match, and gives the move that it shows."""
    page.open("about:blank")
    page.open(link)
    return int(page.until("return document.body.dataset.at"))


def follow_page(words, page):
    """A page of a list of moves: what comes after its address follows the stepping, and leads to a move."""
    game = DATA / "hex.rbg"
    moves = moves_of(DATA / "hex.moves")
    made = subprocess.run([words.author, "page", str(game)], input="\n".join(moves), capture_output=True, text=True)
    if made.returncode != 0 or made.stderr:
        sys.exit(f"no page of a list: {made.stderr}")
    file = words.folder / "hex.html"
    file.write_text(made.stdout)
    link = f"file://{file.resolve()}"
    last = len(moves)
    for ending, wanted in [("", last), ("#7", 7), ("#0", 0), ("#abc", last), ("#-1", last), ("#100000", last), ("#7.5", last)]:
        if (found := page_at(page, link + ending)) != wanted:
            sys.exit(f"{ending!r} after the address leads to {found}, and not to {wanted}")
    page_at(page, link + "#3")
    page.keys(RIGHT)
    if page.run("return [document.body.dataset.at, location.hash]") != ["4", "#4"]:
        sys.exit("the address doesn't follow the stepping")
    page.run("location.hash = '#2'")
    page.until("return document.body.dataset.at === '2'")
    page.picture(words.folder / "hex_page.png")
    leave(page, "page")
    broken = "\n".join([*moves[:3], moves[0]])
    made = subprocess.run([words.author, "page", str(game)], input=broken, capture_output=True, text=True)
    if (made.returncode, made.stdout, made.stderr.split()[:2]) != (2, "", ["bad", "4"]):
        sys.exit(f"a fault is reported as {made}")
    print(f"page: a list of {last} moves has a page, and {last} and other numbers after its address lead where they should", flush=True)


def printed(words, *others, given=""):
    """The lines that a command of the author's program prints."""
    made = subprocess.run([words.author, *others], input=given, capture_output=True, text=True)
    return made.stdout.splitlines()


def same(name, one, other, first, second):
    for told, spelt in zip(first, second):
        if told != spelt:
            sys.exit(f"{name}: {one} spells {told!r}, and {other} {spelt!r}")


def compare_spelling(words, page):
    """Each move is spelt alike by `show`, on pages, by `moves` and where it is played."""
    count = 0
    for game in sorted(DATA.glob("*.rbg")):
        moves = "\n".join(moves_of(game.with_suffix(".moves")))
        shown = [line for line in printed(words, "show", game, given=moves) if re.match("[0-9]+ [^:]*: ", line)]
        file = words.folder / f"{game.stem}_spelt.html"
        file.write_text("\n".join(printed(words, "page", game, given=moves)))
        page_at(page, f"file://{file.resolve()}")
        spelt = page.run("return Array.from(document.querySelectorAll('#moves li')).slice(1).map(item => item.firstChild.textContent.split('; keeper: ')[0])")
        if len(spelt) != len(shown):
            sys.exit(f"{game.stem}: show lists {len(shown)} moves, and the page {len(spelt)}")
        same(game.stem, "show", "the page", shown, spelt)
        listed = [line for line in printed(words, "moves", game) if line != "cut"]
        with Server(words.author, game) as server:
            page.open(server.link)
            ready(page, 0)
            offered = page.run(
                "const { game, drawing, legal } = RbgPlay.state();"
                "return legal.map(({ changed, pairs }) => RbgBoard.spell(game, drawing, changed, pairs) + ' (' + pairs.join(' ') + ')')"
            )
            same(game.stem, "moves", "the page", listed, offered)
            leave(page, game.stem)
        count += len(shown) + min(len(listed), len(offered))
    print(f"spelling: {count} moves are spelt alike by show, moves and pages", flush=True)


def read_comments(words, page):
    """Comment lines say where vertices are and how a piece is drawn."""
    with tempfile.TemporaryDirectory() as folder:
        game = pathlib.Path(folder) / "ring.rbg"
        game.write_text(COMMENTED)
        with Server(words.author, game) as server:
            page.open(server.link)
            ready(page, 0)
            places = page.run("return RbgPlay.state().drawing.layout.places")
            signs = page.run("return Array.from(document.querySelectorAll('#stage .sign')).map(one => one.textContent)")
            if places != [[0, 0], [30, 0], [15, 20]] or "\u2654" not in signs or page.text("#title") != "Three in a ring":
                sys.exit(f"comments say otherwise: {places}, {signs}, {page.text('#title')}")
            page.picture(words.folder / "ring.png")
            game.write_text(COMMENTED.replace("Three in a ring", "<img src=x onerror=fail()> & </script><b>"))
            page.until("return document.body.dataset.version === '2'")
            first = printed(words, "moves", game)[0]
            file = words.folder / "ring.html"
            file.write_text("\n".join(printed(words, "page", game, given=first[first.index("(") + 1 : -1])))
            if page.text("#title") != "<img src=x onerror=fail()> & </script><b>" or page.run("return document.querySelector('img, b') !== null"):
                sys.exit(f"a comment isn't escaped: {page.text('#title')!r}")
            page_at(page, f"file://{file.resolve()}")
            if page.text("h1") != "<img src=x onerror=fail()> & </script><b>" or page.run("return document.querySelector('img, b') !== null"):
                sys.exit(f"a comment isn't escaped on a page: {page.text('h1')!r}")
            leave(page, "comments")
    print("comments: vertices lie and pieces look as they say", flush=True)


def main():
    parser = argparse.ArgumentParser(description=__doc__, formatter_class=argparse.RawDescriptionHelpFormatter)
    words = words_of(parser)
    with browser.Browser() as page:
        for name, trial in {"page": follow_page, "spelling": compare_spelling, "comments": read_comments}.items():
            if not words.names or name in words.names:
                trial(words, page)
    print(f"the pictures are in {words.folder}")


if __name__ == "__main__":
    main()
