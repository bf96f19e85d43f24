#!/usr/bin/env python3
"""Works with the page that `./rbg_author play` serves as an author does: edits the game's file, saves and drops records, plays
by keys alone, lets programs play, and looks at it in narrow and dark windows. It needs a browser and its driver
(browser.py).

    python3 tools/page/working.py            tries all of it
    python3 tools/page/working.py edits      tries this; empty, files, keys, sides, large, looks and times are the others
"""

import argparse
import os
import pathlib
import re
import subprocess
import sys
import tempfile
import time

import browser
from browser import DOWN, END, ENTER, ESCAPE, HOME, LEFT, RIGHT, TAB, UP
from table import DATA, Server, click_square, leave, make_by_clicks, moves_of, ready, record_of, replay, words_of

# a board of 64 x 64 squares, on which each move puts a piece
LARGE = """#players = white(100), black(100)
#pieces = e, w, b
#board = rectangle(up,down,left,right,%s)
#anySquare = ((up* + down*)(left* + right*))
#rules = (->white anySquare {e} [w] ->black anySquare {e} [b])*
""" % "".join("[" + ",".join(["e"] * 64) + "]" for _ in range(64))
# what `make page` allows for, in milliseconds of the processor: until a game is drawn, until a square is chosen, and until a move is made
MOST = {"chess": (300, 50, 50), "64 x 64": (300, None, 300)}
# keeps when the page is drawn, and when a click has its answer on the screen
WATCH = """
const painted = act => requestAnimationFrame(() => setTimeout(act));
new MutationObserver(() => { if (document.body.dataset.ready === 'yes') painted(() => { window.drawnAt = performance.now(); }); })
  .observe(document, { subtree: true, attributes: true, attributeFilter: ['data-ready'] });
addEventListener('click', event => { window.clickedAt = event.timeStamp; window.drawnAt = null; painted(() => { window.answeredAt = performance.now(); }); }, true);
"""


def version_comes(page, version):
    page.until(f"return document.body.dataset.version === '{version}'")


def opened(page, name, text, reported):
    """Opens a list of moves, and waits for what is said of it."""
    page.run("document.getElementById('problem').textContent = ''; RbgPlay.open(arguments[0], arguments[1])", name, text)
    page.until(f"return document.getElementById('problem').textContent === '{reported}'")
    ready(page)


def try_edits(words, page):
    """Moves are kept while the file is broken and mended, and as far as they are legal."""
    with tempfile.TemporaryDirectory() as folder:
        game = pathlib.Path(folder) / "own.rbg"
        text = (DATA / "breakthrough.rbg").read_text()
        game.write_text(text)
        moves = moves_of(DATA / "breakthrough.moves")[:6]
        with Server(words.author, game) as server:
            page.open(server.link)
            ready(page, 0)
            for at, pairs in enumerate(moves[:2], 1):
                make_by_clicks(page, pairs, at)
            game.write_text(text.replace("#board", "#bord"))
            page.until("return document.body.dataset.refused === 'yes'")
            explained = subprocess.run([words.author, "explain", str(game)], capture_output=True, text=True)
            if page.text("#notes").strip() not in explained.stdout + explained.stderr or "own.rbg:" not in page.text("#notes"):
                sys.exit(f"a refused text isn't explained: {page.text('#notes')!r}, {explained}")
            page.picture(words.folder / "refused.png")
            # an action more at the front gives each action another number, and what isn't used is warned of
            game.write_text(text.replace("#rules =", "#rules = {e,w,b}").replace("#pieces = ", "#pieces = never, "))
            page.until("return document.body.dataset.refused === 'no'")
            version_comes(page, 2)
            ready(page, 2)
            if "never" not in page.text("#notes"):
                sys.exit(f"no warning is listed: {page.text('#notes')!r}")
            page.picture(words.folder / "warned.png")
            # a rule by which the first move is none: both are kept for later
            turns = re.search(r"->white \((turn\(.*\)) (turn\(.*\))\)", text)
            game.write_text(text.replace(turns.group(), f"->black ({turns.group(2)} {turns.group(1)})"))
            version_comes(page, 3)
            ready(page, 0)
            if (told := page.text("#problem")) != "the rules have changed: move 1 of 2 is not legal now, and kept for Redo":
                sys.exit(f"of moves that are left out is told {told!r}")
            game.write_text(text)
            version_comes(page, 4)
            ready(page, 2)
            opened(page, "a list", "\n".join(["// a list", *moves]), "a list: 6 moves")
            other = page.run("return fetch('/ask', {method: 'POST', body: 'back'}).then(answer => answer.status)")
            make_by_clicks(page, moves_of(DATA / "breakthrough.moves")[len(moves)], len(moves) + 1)
            leave(page, "edits")
    print(f"edits: moves are kept as far as they are legal; another page's question ({other}) does no harm", flush=True)


ENABLED = "return Array.from(document.querySelectorAll('button, input[type=file]')).filter(one => !one.disabled && !one.hidden).map(one => one.id)"
DROP = """
const given = new DataTransfer();
given.items.add(new File([arguments[1]], arguments[0]));
document.getElementById('stage').dispatchEvent(new DragEvent('drop', { dataTransfer: given, bubbles: true, cancelable: true }));
"""


def drops(page, name, text, reported):
    page.run("document.getElementById('problem').textContent = ''")
    page.run(DROP, name, text)
    page.until(f"return document.getElementById('problem').textContent === '{reported}'")
    ready(page)


def try_empty(words, page):
    """A page begins with an empty file, and its buttons and keys do nothing before there is a game."""
    with tempfile.TemporaryDirectory() as folder:
        game = pathlib.Path(folder) / "game.rbg"
        game.write_text("")
        with Server(words.author, game) as server:
            page.open(server.link)
            page.until("return document.body.dataset.refused === 'yes'")
            if "expected a section `#players`" not in page.text("#notes"):
                sys.exit(f"empty: an empty file is explained so: {page.text('#notes')!r}")
            if enabled := page.run(ENABLED):
                sys.exit(f"empty: {enabled} can be pressed without a game")
            page.keys("u", "r", "h", "b", "+", HOME)
            page.run(DROP, "a.moves", "0 1")
            game.write_text((DATA / "tictactoe.rbg").read_text())
            ready(page, 0)
            click_square(page, 4)
            ready(page, 1)
            leave(page, "empty")
    print("empty: a page begins with an empty file", flush=True)


def saved(folder, ending):
    """The file that a browser has left in a folder."""
    for _ in range(200):
        if files := list(pathlib.Path(folder).glob(f"*{ending}")):
            return files[0]
        time.sleep(0.05)
    sys.exit(f"no file *{ending} was saved: {list(pathlib.Path(folder).iterdir())}")


def try_files(words, page):
    """Records and positions are saved by pressing their buttons, and records, scripts and lists are dropped and opened."""
    game = DATA / "breakthrough.rbg"
    moves = moves_of(DATA / "breakthrough.moves")[:9]
    with tempfile.TemporaryDirectory() as folder, browser.Browser(downloads=folder) as page, Server(words.author, game) as server:
        page.open(server.link)
        ready(page, 0)
        for at, pairs in enumerate(moves, 1):
            make_by_clicks(page, pairs, at)
        page.click("#save")
        record = saved(folder, ".record")
        replay(words, game, record.read_text())
        if not record.read_text().startswith("rbg 2\n"):
            sys.exit(f"the record isn't one of version 2: {record.read_text()[:20]!r}")
        page.click("#save-position")
        place = saved(folder, "_9.rbg")
        described = subprocess.run([words.author, "setup", str(game), str(record)], capture_output=True, text=True)
        if place.read_text() != described.stdout:
            sys.exit(f"the position isn't what setup prints: {place.read_text()[:200]!r}, {described}")
        page.click("#first")
        ready(page, 0)
        drops(page, "a.record", record.read_text(), "a.record: 9 moves")
        drops(page, "a.script", (DATA / "breakthrough.script").read_text(), "a.script: 57 moves")
        drops(page, "a.moves", "\n".join(moves[:4]), "a.moves: 4 moves")
        drops(page, "d.moves", f"1 {moves[0]}\n2000 2 {moves[1]}\nmove 1 {moves[2]}\n", "d.moves: 3 moves")
        drops(page, "b.moves", "\n".join([*moves[:2], moves[0]]), "b.moves: move 3, in line 3: it is not legal here")
        drops(page, "c.moves", "nothing of that kind\n", "c.moves: it has no moves")
        page.send("#file", str(record))
        ready(page, 9)
        page.ask("POST", "/refresh", {})
        ready(page, 9)
        replay(words, game, record_of(page))
        leave(page, "files")
    print("files: a record and a position are saved, and records, scripts and lists are opened", flush=True)


def tab_to(page, selector):
    """Presses Tab until an element has the focus."""
    for _ in range(80):
        page.keys(TAB)
        if page.run("return document.activeElement.matches(arguments[0])", selector):
            return
    sys.exit(f"the key Tab doesn't lead to {selector}")


def try_keys(words, page):
    """A game is played, stepped through and saved by keys alone."""
    game = DATA / "tictactoe.rbg"
    with Server(words.author, game) as server:
        page.open(server.link)
        ready(page, 0)
        tab_to(page, "#stage svg")
        told = []
        for at, keys in enumerate(["", DOWN, UP + RIGHT, DOWN, UP + RIGHT], 1):
            page.keys(*keys)
            told.append(page.text("#spot"))
            page.keys(ENTER)
            ready(page, at)
        page.picture(words.folder / "keys.png")
        if [line.split(":")[0] for line in told] != ["0 a3", "3 a2", "1 b3", "4 b2", "2 c3"] or "can be chosen" not in told[0]:
            sys.exit(f"keys: of squares is told {told}")
        if not page.text("#turn").startswith("finished, "):
            sys.exit(f"keys: it ended so: {page.text('#turn')}")
        page.run("document.activeElement.blur()")
        for key, at in [(LEFT, 4), ("u", 3), (HOME, 0), ("r", 1), (RIGHT, 2), (END, 5)]:
            page.keys(key)
            ready(page, at)
        tab_to(page, "#undo")
        page.keys(ENTER)
        ready(page, 4)
        page.keys("r")
        ready(page, 5)
        replay(words, game, record_of(page))
        leave(page, "keys")
    with Server(words.author, DATA / "breakthrough.rbg") as server:
        page.open(server.link)
        ready(page, 0)
        page.keys("b", *[DOWN] * 6, ENTER)
        if page.run("return RbgPlay.state().chosen") != [48]:
            sys.exit(f"keys: chosen is {page.run('return RbgPlay.state().chosen')}")
        page.keys(ESCAPE)
        if page.run("return RbgPlay.state().chosen") != []:
            sys.exit("keys: Escape takes nothing back")
        page.keys(ENTER, ENTER)
        if page.run("return RbgPlay.state().chosen") != []:
            sys.exit("keys: the first square again takes nothing back")
        leave(page, "keys")
    print("keys: a game is played, stepped through and saved by keys alone", flush=True)


def sides(page, *kinds):
    for side, kind in enumerate(kinds, 1):
        page.run(
            "const side = document.getElementById('side-' + arguments[0]); side.value = arguments[1]; side.dispatchEvent(new Event('change'))",
            side,
            kind,
        )


def try_sides(words, page):
    """Programs play, and give hints."""
    for name, kinds in [("tictactoe", ["think", "think"]), ("hex", ["random", "random"]), ("carrot_race", ["random", "random", "random"])]:
        game = DATA / f"{name}.rbg"
        with Server(words.author, game) as server:
            page.open(server.link)
            ready(page, 0)
            page.run("document.getElementById('patience').value = '100'")
            if name == "tictactoe":
                for at, vertex in enumerate([0, 3, 1, 4], 1):
                    click_square(page, vertex)
                    ready(page, at)
                page.keys("h")
                if (hint := page.until("return document.getElementById('problem').textContent")) != "a hint: c3 . > x":
                    sys.exit(f"sides: where one move wins, {hint}")
                page.picture(words.folder / "hint.png")
                page.keys(HOME)
                ready(page, 0)
            sides(page, *kinds)
            page.until("return document.getElementById('turn').textContent.startsWith('finished, ')", 120)
            ready(page)
            sides(page, *["person"] * len(kinds))
            replay(words, game, record_of(page))
            leave(page, name)
    print("sides: programs play to the end, and give hints", flush=True)


TO_MIDDLE = """
const [x, y] = RbgPlay.state().drawing.pointOf(arguments[0]);
const stage = document.getElementById('stage');
const box = stage.getBoundingClientRect();
stage.scrollBy(x - box.x - box.width / 2, y - box.y - box.height / 2);
"""


def try_large(words, page):
    """A board of 64 x 64 squares is made larger, and a click far to the right and below is that of its square."""
    with tempfile.TemporaryDirectory() as folder:
        game = pathlib.Path(folder) / "large.rbg"
        game.write_text(LARGE)
        with Server(words.author, game) as server:
            page.open(server.link)
            ready(page, 0)
            page.picture(words.folder / "large.png")
            for _ in range(6):
                page.keys("+")
            for at, vertex in enumerate((0, 65, 2015), 1):
                page.run(TO_MIDDLE, vertex)
                click_square(page, vertex)
                ready(page, at)
                if (made := page.run("const { steps, at } = RbgPlay.state(); return steps[at].changed.map(one => one.vertex)")) != [vertex]:
                    sys.exit(f"large: a click on {vertex} changes {made}")
            page.picture(words.folder / "large_near.png")
            page.keys("b", *[LEFT, UP] * 30)
            focused = page.text("#spot").split(":")[0]
            is_seen = page.run(
                "const [x, y] = RbgPlay.state().drawing.pointOf(Number(arguments[0]));"
                "return document.getElementById('stage').contains(document.elementFromPoint(x, y))",
                focused.split()[0],
            )
            if (focused, is_seen) != ("65 b63", True):
                sys.exit(f"large: the keys lead to {focused}, of which can be seen: {is_seen}")
            leave(page, "large")
    print("large: a board of 64 x 64 squares is made larger, and clicked", flush=True)


def try_looks(words, page):
    """Pictures of openings in other windows. No page is wider than its window, and a narrow one shows the whole board."""
    for name in ("chess", "hex", "nine_mens_morris", "carrot_race"):
        for kind, window in {"narrow": {"width": 500, "height": 900}, "dark": {"dark": True}}.items():
            with browser.Browser(**window) as page, Server(words.author, DATA / f"{name}.rbg") as server:
                page.open(server.link)
                ready(page, 0)
                wide, board = page.run(
                    "const { svg } = RbgPlay.state().drawing; const box = svg.getBoundingClientRect();"
                    "return [document.documentElement.scrollWidth - document.documentElement.clientWidth, box.width / innerWidth]"
                )
                page.picture(words.folder / f"{name}_{kind}.png")
                if wide > 0 or (kind == "narrow" and not 0.6 < board <= 1):
                    sys.exit(f"{name}, {kind}: the page is wider than its window by {wide}, and the board takes {board} of it")
                leave(page, name)
    print("looks: narrow and dark windows show all", flush=True)


def work_of(page, server):
    """The milliseconds of the processor that the page and the program that serves it have taken so far."""
    of_page = next(one["value"] for one in page.command("Performance.getMetrics")["metrics"] if one["name"] == "TaskDuration")
    ticks = pathlib.Path(f"/proc/{server.process.pid}/stat").read_text().rpartition(")")[2].split()
    return (of_page + sum(int(ticks[at]) for at in (11, 12)) / os.sysconf("SC_CLK_TCK")) * 1000


def times_of(words, page, game, squares):
    """How long it takes until the game of a file is drawn and until each click has its answer, in milliseconds: on the clock, and
    of the processor."""
    page.open("about:blank")
    page.command("Performance.disable")
    page.command("Performance.enable", timeDomain="threadTicks")
    with Server(words.author, game) as server:
        before = work_of(page, server)
        page.open(server.link)
        clock = [page.until("return window.drawnAt")]
        work = [work_of(page, server) - before]
        for at, vertex in enumerate(squares, 1):
            before = work_of(page, server)
            click_square(page, vertex)
            last = "window.drawnAt" if at == len(squares) else "window.answeredAt"
            clock.append(page.until(f"return {last} && {last} - window.clickedAt"))
            work.append(work_of(page, server) - before)
            page.run("window.answeredAt = null")
        leave(page, str(game))
    return clock, work


def try_times(words, page):
    """How long it takes to draw, and to answer a click."""
    page.command("Page.addScriptToEvaluateOnNewDocument", source=WATCH)
    with tempfile.TemporaryDirectory() as folder:
        large = pathlib.Path(folder) / "large.rbg"
        large.write_text(LARGE)
        for name, game, squares in [("chess", DATA / "chess.rbg", [52, 36]), ("64 x 64", large, [100])]:
            clock, work = times_of(words, page, game, squares)
            shown = [f"{one:.0f} ms, {other:.0f} of the processor" for one, other in zip(clock, work)]
            print(f"times: {name} is drawn in {shown[0]}; clicks are answered in {' and '.join(shown[1:])}", flush=True)
            drawn, chosen, made = MOST[name]
            if work[0] > drawn or (chosen and work[1] > chosen) or work[-1] > made:
                sys.exit(f"{name}: this is more than {MOST[name]}")


def main():
    parser = argparse.ArgumentParser(description=__doc__, formatter_class=argparse.RawDescriptionHelpFormatter)
    words = words_of(parser)
    trials = {"empty": try_empty, "edits": try_edits, "files": try_files, "keys": try_keys, "sides": try_sides}
    trials |= {"large": try_large, "looks": try_looks, "times": try_times}
    with browser.Browser() as page:
        for name, trial in trials.items():
            if not words.names or name in words.names:
                trial(words, page)
    print(f"the pictures are in {words.folder}")


if __name__ == "__main__":
    main()
