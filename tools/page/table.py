"""A table at which a game is played by hand: the server of `./rbg_author play`, and what a person does on its page."""

import pathlib
import re
import subprocess
import sys
import tempfile

import browser

DATA = pathlib.Path("crates/rbg_games/data")
CHECK = "return document.body.dataset.ready === 'yes'"


class Server:
    """`./rbg_author play` with a file."""

    def __init__(self, program, game, port=None):
        words = [program, "play", str(game)] + (["--port", str(port)] if port else [])
        self.process = subprocess.Popen(words, stdout=subprocess.PIPE, text=True)
        self.link = self.process.stdout.readline().strip()
        if not re.fullmatch(r"http://127\.0\.0\.1:[0-9]+/", self.link):
            sys.exit(f"{game}: no link, but {self.link!r}")

    def __enter__(self):
        return self

    def __exit__(self, *_):
        self.process.terminate()
        self.process.wait()


def ready(page, at=None):
    """Waits until the page has done what it was asked for."""
    also = "" if at is None else f" && document.body.dataset.at === '{at}'"
    try:
        page.until(f"{CHECK}{also}", 8)
    except browser.Fault:
        told = page.run("const of = id => document.getElementById(id).textContent; return [document.body.dataset.at, document.body.dataset.ready, of('turn'), of('problem')]")
        sys.exit(f"the page isn't ready at {at}, but {told}")


def click_square(page, vertex):
    """Clicks the middle of a square with the mouse, after scrolling it into the window if need be."""
    x, y = page.run(
        "const { drawing } = RbgPlay.state();"
        "let [x, y] = drawing.pointOf(arguments[0]);"
        "if (!drawing.svg.contains(document.elementFromPoint(x, y))) { window.scrollBy(0, y - innerHeight / 2); [x, y] = drawing.pointOf(arguments[0]); }"
        "return [x, y]",
        vertex,
    )
    page.click_at(x, y)


def moves_of(file):
    lines = file.read_text().splitlines()
    return [line for line in lines if line and not line.startswith("//")]


def make_by_clicks(page, pairs, at):
    """Clicks the squares of the move with these pairs, and its button if squares don't suffice."""
    clicks = page.run(
        "const move = RbgPlay.state().legal.find(one => one.pairs.join(' ') === arguments[0]); return move ? move.clicks : null",
        pairs,
    )
    if clicks is None:
        sys.exit(f"move {at}, {pairs}, isn't legal on the page")
    for vertex in clicks:
        if page.run("return RbgPlay.state().at === arguments[0] || document.body.dataset.ready === 'no'", at):
            break
        click_square(page, vertex)
    button = f"[data-pairs='{pairs}']"
    if page.run(f"{CHECK} && RbgPlay.state().at") == at - 1 and page.run("return document.querySelector(arguments[0]) !== null", button):
        page.click(button)
    ready(page, at)
    made = page.run("return RbgPlay.state().steps[RbgPlay.state().at].pairs.join(' ')")
    if made != pairs:
        sys.exit(f"move {at}: {made} was made, and not {pairs}")


def record_of(page):
    """The record that the page saves."""
    page.run(
        "const keep = URL.createObjectURL; window.saved = '';"
        "URL.createObjectURL = blob => { URL.createObjectURL = keep; blob.text().then(all => { window.saved = all; }); return keep.call(URL, blob); };"
        "document.getElementById('save').click();"
    )
    return page.until("return window.saved || document.getElementById('problem').textContent", 240)


def replay(words, game, record):
    """Whether `./rbg replay` calls a record good."""
    with tempfile.NamedTemporaryFile("w", suffix=".record") as file:
        file.write(record)
        file.flush()
        judged = subprocess.run([words.rbg, "replay", str(game), file.name], capture_output=True, text=True)
    if judged.stdout != "good\n":
        sys.exit(f"{game}: the record is {judged.stdout!r}")


def leave(page, name):
    """Leaves the page, which may have complained of nothing but questions of another page, and places without a position."""
    for line in [line for line in page.complaints() if not re.search(r"\b40[49]\b", line)]:
        sys.exit(f"{name}: {line}")
    page.open("about:blank")


def words_of(parser):
    """What each trial is given, with a folder for its pictures."""
    parser.add_argument("--rbg", default="./rbg")
    parser.add_argument("--author", default="./rbg_author")
    parser.add_argument("--folder", type=pathlib.Path)
    parser.add_argument("names", nargs="*")
    words = parser.parse_args()
    words.folder = words.folder or pathlib.Path(tempfile.mkdtemp())
    words.folder.mkdir(parents=True, exist_ok=True)
    return words
