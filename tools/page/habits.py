#!/usr/bin/env python3
"""Does on the page that `./rbg_author play` serves what people do by habit: takes moves back against a program, clicks once too
often, opens a wrong file, loads the page again, edits the file and plays on. It needs a browser and its driver (browser.py).

    python3 tools/page/habits.py       tries all of it
    python3 tools/page/habits.py undo  tries this; clicks, wrong, notes, hint, stale, kept, again, focus and values are the others
"""

import argparse
import contextlib
import pathlib
import sys
import tempfile
import time

import browser
from browser import DOWN, ENTER, ESCAPE
from playing import PASS, THREE, THREE_CLICKS, with_board
from table import DATA, Server, click_square, leave, make_by_clicks, moves_of, ready, record_of, replay, words_of
from working import drops, sides, tab_to, version_comes

# each move puts a piece on any empty square
PUT = """#players = one(100), two(100)
#pieces = e, x, o
#board = rectangle(up,down,left,right,[e,e,e,e][e,e,e,e])
#any = ((up* + down*)(left* + right*))
#rules = (->one any {e} [x] ->two any {e} [o])*
"""
# by these rules what Two puts is another piece, so that only the first move is the same
PUT_OTHERS = PUT.replace("[o])*", "[x])*")
# One takes one piece of gold or two, at the same square; then Two may put a piece, or count a pass
GOLD = """#players = one(2), two(2)
#pieces = e, x
#variables = gold(2), passes(2)
#board = rectangle(up,down,left,right,[e,e])
#rules = ->one {e} [x] ([$ gold = 1] + [$ gold = 2]) ->two ([$ passes = passes + 1] + right {e} [x]) ->> {}
"""
# two moves that only their pairs tell apart
ALIKE = """#players = one(2), two(2)
#pieces = e, x
#board = rectangle(up,down,left,right,[e,e])
#rules = ->one {e} [x] ([$ one = 1] + [$ one = 2 - 1]) ->> {}
"""
# a fault far to the right in a long line
LONG = PUT.replace("#rules = ", "#rules = " + "(->one any {e} [x] ->two any {e} [o]) " * 4 + "(->one rigth {e} [x]) ")


def fail_unless(name, found, wanted, what):
    if found != wanted:
        sys.exit(f"{name}: {what} is {found!r}, and not {wanted!r}")


def place_of(page):
    """Where one stands, and how many moves are listed."""
    return page.run("const { at, steps } = RbgPlay.state(); return [at, steps.length - 1]")


def text_of(page, name):
    return page.run("return document.getElementById(arguments[0]).textContent", name)


def label_of(page):
    return page.run("return Array.from(document.querySelectorAll('#choices .choice')).map(one => one.textContent)")


def chosen_on(page):
    return page.run("return RbgPlay.state().chosen")


def stays(page, name, at):
    """Whether nobody moves for a while."""
    time.sleep(0.5)
    ready(page, at)
    fail_unless(name, page.run("return RbgPlay.state().at"), at, "the place after a while")


@contextlib.contextmanager
def own_game(words, page, text):
    """A game of one's own on the page."""
    with tempfile.TemporaryDirectory() as folder:
        game = pathlib.Path(folder) / "own.rbg"
        game.write_text(text)
        with Server(words.author, game) as server:
            page.open(server.link)
            ready(page)
            yield game, server


def try_undo(words, page):
    """Undo leads to where a person is to move. Where none plays, it takes back one move, and the programs wait."""
    game = DATA / "breakthrough.rbg"
    with Server(words.author, game) as server:
        page.open(server.link)
        ready(page, 0)
        sides(page, "person", "random")
        for at in (0, 2):
            make_any(page, at)
        for press, at in [("u", 2), ("u", 0), ("r", 2), ("r", 4)]:
            page.keys(press)
            ready(page, at)
            stays(page, "undo", at)
            fail_unless("undo", place_of(page), [at, 4], "the place")
        page.click("#undo")
        page.click("#undo")
        ready(page, 0)
        sides(page, "random", "random")
        page.until("return RbgPlay.state().at > 6")
        page.click("#undo")
        page.until("return !document.getElementById('go-on').hidden")
        at = place_of(page)[0]
        stays(page, "undo", at)
        if not page.text("#turn").endswith(" is to move, and waits"):
            sys.exit(f"undo: of a program that waits is said {page.text('#turn')!r}")
        page.picture(words.folder / "waits.png")
        page.click("#undo")
        ready(page, at - 1)
        page.keys("r")
        ready(page, at)
        page.click("#go-on")
        page.until(f"return RbgPlay.state().at > {at + 1}")
        page.click("#undo")
        page.until("return !document.getElementById('go-on').hidden")
        replay(words, game, record_of(page))
        leave(page, "undo")
    print("undo: a move is taken back against a program, and programs wait", flush=True)


def make_any(page, at):
    """Makes the first legal move by clicks, and waits for the answer of a program."""
    for vertex in page.run("return RbgPlay.state().legal[0].clicks"):
        click_square(page, vertex)
    ready(page, at + 2)


def try_clicks(words, page):
    """A click chooses, even a piece with one move, and the second one makes it; a move of one square is made at once."""
    with tempfile.TemporaryDirectory() as folder:
        game = pathlib.Path(folder) / "draughts.rbg"
        with_board("english_draughts", THREE, game)
        with Server(words.author, game) as server:
            page.open(server.link)
            ready(page, 0)
            fail_unless("clicks", page.run("return RbgPlay.state().legal.length"), 1, "the number of moves")
            first, second = THREE_CLICKS
            click_square(page, first)
            stays(page, "clicks", 0)
            fail_unless("clicks", chosen_on(page), [first], "what is chosen")
            page.picture(words.folder / "single.png")
            click_square(page, first)
            fail_unless("clicks", chosen_on(page), [], "what is chosen")
            page.keys("b", ENTER)
            fail_unless("clicks", chosen_on(page), [first], "what is chosen by keys")
            page.keys(ESCAPE, ENTER)
            stays(page, "clicks", 0)
            if ", can be chosen" not in page.run(f"RbgPlay.state().drawing.svg.dispatchEvent(new FocusEvent('focus')); return {TELL}", second):
                sys.exit("clicks: the second square isn't marked")
            click_square(page, second)
            ready(page, 1)
            leave(page, "clicks")
    for name in ("tictactoe", "reversi", "go_9x9", "kalah"):
        with Server(words.author, DATA / f"{name}.rbg") as server:
            page.open(server.link)
            ready(page, 0)
            click_square(page, page.run("return RbgPlay.state().legal.find(one => one.clicks.length > 0).clicks[0]"))
            ready(page, 1)
            leave(page, "clicks")
    print("clicks: the first one chooses a piece, and the second one makes its only move", flush=True)


# what is told of a square at which the pointer is
TELL = """(() => {
  const [x, y] = RbgPlay.state().drawing.pointOf(arguments[0]);
  RbgPlay.state().drawing.svg.dispatchEvent(new PointerEvent('pointermove', { clientX: x, clientY: y }));
  return document.getElementById('spot').textContent;
})()"""


def try_wrong(words, page):
    """A file of another game leaves the match as it is."""
    game = DATA / "breakthrough.rbg"
    moves = moves_of(DATA / "breakthrough.moves")
    with Server(words.author, game) as server:
        page.open(server.link)
        ready(page, 0)
        for at, pairs in enumerate(moves[:3], 1):
            make_by_clicks(page, pairs, at)
        page.keys("u")
        ready(page, 2)
        other = (DATA / "hex.script").read_text()
        line = next(at for at, one in enumerate(other.splitlines(), 1) if one.startswith("m "))
        drops(page, "hex.script", other, f"hex.script: its first move, in line {line}: it is not legal here. The match stays")
        page.picture(words.folder / "wrong.png")
        fail_unless("wrong", place_of(page), [2, 3], "the place")
        page.keys("r")
        ready(page, 3)
        make_by_clicks(page, moves[3], 4)
        replay(words, game, record_of(page))
        leave(page, "wrong")
    print("wrong: a file of another game leaves the match as it is", flush=True)


ACROSS = """
const excerpt = Array.from(document.querySelectorAll('#notes .excerpt')).find(one => one.textContent.includes('^'));
const where = text => { const range = document.createRange(); const at = excerpt.textContent.indexOf(text); let rest = at;
  for (const part of excerpt.childNodes) { if (rest < part.length) { range.setStart(part, rest); range.setEnd(part, rest + 1); break; } rest -= part.length; }
  return Math.round(range.getBoundingClientRect().left); };
const root = document.documentElement;
return [where('rigth') - where('^'), excerpt.scrollWidth > excerpt.clientWidth, root.scrollWidth - root.clientWidth];
"""


def try_notes(words, page):
    """Excerpts have a scroll bar of their own, and nothing else is wider than a narrow window."""
    with own_game(words, page, PUT) as (game, _):
        page.command("Emulation.setDeviceMetricsOverride", width=360, height=800, deviceScaleFactor=1, mobile=False)
        game.write_text(LONG)
        page.until("return document.body.dataset.refused === 'yes'")
        fail_unless("notes", page.run(ACROSS), [0, True, 0], "how far the mark is from its word, whether it scrolls, and what is wider")
        page.run("document.getElementById('stale').scrollIntoView()")
        page.picture(words.folder / "notes_above.png")
        page.run("document.getElementById('notes').scrollIntoView(); document.querySelector('#notes .excerpt').scrollLeft = 1000")
        page.picture(words.folder / "notes.png")
        kept = page.run("return document.querySelector('#notes .excerpt').scrollLeft")
        time.sleep(1.5)
        fail_unless("notes", page.run("return document.querySelector('#notes .excerpt').scrollLeft"), kept, "where it is scrolled to")
        page.command("Emulation.clearDeviceMetricsOverride")
        leave(page, "notes")
    print("notes: marks stand under their words, and a narrow window shows all", flush=True)


COLOURS = "return ['problem', 'spot', 'lost'].map(id => getComputedStyle(document.getElementById(id)).color)"


def try_hint(words, page):
    """A hint is no fault."""
    with Server(words.author, DATA / "tictactoe.rbg") as server:
        page.open(server.link)
        ready(page, 0)
        page.run("document.getElementById('patience').value = '100'")
        page.keys("h")
        page.until("return document.getElementById('problem').textContent.startsWith('a hint: ')")
        said, quiet, fault = page.run(COLOURS)
        if said != quiet or said == fault:
            sys.exit(f"hint: its colour is {said}; quiet ones are {quiet}, and those of faults {fault}")
        drops(page, "c.moves", "nothing of that kind\n", "c.moves: it has no moves")
        said, quiet, fault = page.run(COLOURS)
        fail_unless("hint", said, fault, "the colour of a fault")
        leave(page, "hint")
    print("hint: it has a quiet colour", flush=True)


def stale_is(page, wanted):
    try:
        page.until(f"return document.getElementById('stale').textContent === '{wanted}'", 20)
    except browser.Fault:
        sys.exit(f"stale: said is {text_of(page, 'stale')!r}, and not {wanted!r}")


def try_stale(words, page):
    """While the file is refused or gone, it is said that the last good text is played."""
    with own_game(words, page, PUT) as (game, _):
        stale_is(page, "")
        game.write_text(PUT.replace("#board", "#bord"))
        stale_is(page, "own.rbg is refused: playing by the last good text")
        click_square(page, 0)
        ready(page, 1)
        page.picture(words.folder / "stale.png")
        game.write_text(PUT)
        stale_is(page, "")
        ready(page, 1)
        game.unlink()
        stale_is(page, "own.rbg cannot be read: playing by the last good text")
        click_square(page, 1)
        ready(page, 2)
        game.write_text(PUT)
        stale_is(page, "")
        game.write_text(PUT + "// \n" * 300_000)
        stale_is(page, "own.rbg is refused: playing by the last good text")
        game.write_text(PUT)
        stale_is(page, "")
        ready(page, 2)
        leave(page, "stale")
    print("stale: it is said if the last good text is played", flush=True)


def try_kept(words, page):
    """Moves that a changed rule forbids come back with the old rule, unless another move was made."""
    with own_game(words, page, PUT) as (game, _):
        for at, vertex in enumerate((0, 1, 2), 1):
            click_square(page, vertex)
            ready(page, at)
        game.write_text(PUT_OTHERS)
        version_comes(page, 2)
        ready(page, 1)
        fail_unless("kept", place_of(page), [1, 3], "the place")
        fail_unless("kept", text_of(page, "problem"), "the rules have changed: move 2 of 3 is not legal now, and kept for Redo", "what is said")
        page.picture(words.folder / "kept.png")
        page.click("#redo")
        page.until("return document.getElementById('problem').textContent === 'move 2 is not legal now'")
        fail_unless("kept", place_of(page), [1, 3], "the place")
        game.write_text(PUT)
        version_comes(page, 3)
        ready(page)
        fail_unless("kept", place_of(page), [3, 3], "the place")
        page.keys("u", "u", "u")
        ready(page, 0)
        game.write_text(PUT_OTHERS)
        version_comes(page, 4)
        ready(page, 0)
        page.keys("r", "r")
        page.until("return document.getElementById('problem').textContent === 'move 2 is not legal now'")
        click_square(page, 7)
        ready(page, 2)
        fail_unless("kept", place_of(page), [2, 2], "the place")
        game.write_text(PUT)
        version_comes(page, 5)
        ready(page, 1)
        leave(page, "kept")
    print("kept: moves that a rule forbids come back with the old rule", flush=True)


def try_again(words, page):
    """A page that is loaded again goes on where it was, as far as its moves are legal."""
    with own_game(words, page, PUT) as (game, server):
        for at, vertex in enumerate((0, 1, 2, 3), 1):
            click_square(page, vertex)
            ready(page, at)
        page.keys("u")
        ready(page, 3)
        page.ask("POST", "/refresh", {})
        ready(page, 3)
        fail_unless("again", place_of(page), [3, 4], "the place")
        page.keys("r")
        ready(page, 4)
        page.open("about:blank")
        game.write_text(PUT_OTHERS)
        time.sleep(1.5)
        page.open(server.link)
        ready(page, 1)
        fail_unless("again", place_of(page), [1, 4], "the place")
        game.write_text(PUT)
        page.until("return RbgPlay.state().at === 4")
        sides(page, "person", "random")
        page.keys("u")
        ready(page, 2)
        page.ask("POST", "/refresh", {})
        ready(page, 2)
        fail_unless("again", page.run("return document.getElementById('side-2').value"), "random", "Two")
        fail_unless("again", place_of(page), [2, 4], "the place")
        page.run("sessionStorage.setItem(Object.keys(sessionStorage)[0], '{}')")
        page.run("addEventListener('pagehide', () => sessionStorage.setItem(Object.keys(sessionStorage)[0], 'nonsense'))")
        page.ask("POST", "/refresh", {})
        ready(page, 0)
        fail_unless("again", place_of(page), [0, 0], "the place")
        replay(words, game, record_of(page))
        leave(page, "again")
    print("again: a page that is loaded again goes on where it was", flush=True)


SEEN = """
const [x, y] = RbgPlay.state().drawing.pointOf(arguments[0]);
return document.getElementById('stage').contains(document.elementFromPoint(x, y));
"""


def try_focus(words, page):
    """After a pass by a key the keys lead to the board, and a chosen square stays in sight when the board is made larger."""
    with tempfile.TemporaryDirectory() as folder:
        game = pathlib.Path(folder) / "reversi.rbg"
        with_board("reversi", PASS, game)
        with Server(words.author, game) as server:
            page.open(server.link)
            ready(page, 0)
            tab_to(page, "#choices button")
            page.keys(ENTER)
            ready(page, 1)
            fail_unless("focus", page.run("return document.activeElement.matches('#stage svg')"), True, "whether the board has the focus")
            page.keys(ENTER)
            ready(page, 2)
            leave(page, "focus")
    with Server(words.author, DATA / "breakthrough.rbg") as server:
        page.open(server.link)
        ready(page, 0)
        for square, keys in [(48, [DOWN] * 6), (55, [browser.RIGHT] * 7)]:
            page.keys("b", *keys, ENTER)
            fail_unless("focus", chosen_on(page), [square], "what is chosen")
            page.run("document.activeElement.blur()")
            for press in "+++++---++":
                page.keys(press)
                fail_unless("focus", page.run(SEEN, square), True, f"after {press} whether the chosen square can be seen")
            page.picture(words.folder / f"near_{square}.png")
            page.keys(ESCAPE)
        leave(page, "focus")
    print("focus: the keys stay on the board, and a chosen square in sight", flush=True)


def try_values(words, page):
    """Moves that differ only by a variable say what they set, and so does a pass."""
    with own_game(words, page, ALIKE):
        click_square(page, 0)
        fail_unless("values", label_of(page), ["0 3 0 4 0 6", "0 3 0 5 0 6"], "what the buttons say")
        leave(page, "values")
    with own_game(words, page, GOLD):
        click_square(page, 0)
        fail_unless("values", label_of(page), ["gold 1", "gold 2"], "what the buttons say")
        page.picture(words.folder / "gold.png")
        page.click("#choices .choice")
        ready(page, 1)
        fail_unless("values", label_of(page), ["Pass: passes 1"], "what the buttons say")
        page.picture(words.folder / "counted_pass.png")
        page.click("#choices .choice")
        ready(page, 2)
        leave(page, "values")
    print("values: buttons say what moves set", flush=True)


def main():
    parser = argparse.ArgumentParser(description=__doc__, formatter_class=argparse.RawDescriptionHelpFormatter)
    words = words_of(parser)
    trials = {"undo": try_undo, "clicks": try_clicks, "wrong": try_wrong, "notes": try_notes, "hint": try_hint}
    trials |= {"stale": try_stale, "kept": try_kept, "again": try_again, "focus": try_focus, "values": try_values}
    with browser.Browser() as page:
        for name, trial in trials.items():
            if not words.names or name in words.names:
                trial(words, page)
    print(f"the pictures are in {words.folder}")


if __name__ == "__main__":
    main()
