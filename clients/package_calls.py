"""What the package in clients/python accepts and refuses, which is the same over the library and over `rbg ask`.

    package_calls.py GAME

The variable RBG_LIBRARY says over which; an empty one means `rbg ask`. The game is tic-tac-toe, and so are the moves.
"""

import copy
import os
import pickle
import pydoc
import socket
import subprocess
import sys
import tempfile
import time
from contextlib import contextmanager
from pathlib import Path
from typing import Any, Callable, Iterator

from served import Wrong

ROOT = Path(__file__).resolve().parent.parent
sys.path.insert(0, str(ROOT / "clients/python"))
import rbg  # noqa: E402

TRIES, PATIENCE = 20, 60  # how often a player may be late, and seconds in which it has to answer at all
BEGIN = "#players = white(100), black(100)\n#pieces = e, x\n#variables = n(40)\n#board = rectangle(up,down,left,right,[e,e])\n"
GAMES = {  # texts that are no game's, or that no play begins with, and what refuses them
    "text": "#players = white(1)\n#pieces = &\n",
    "syntax": BEGIN + "#rules = (->white\n",
    "macro": BEGIN + "#same = up\n#same = down\n#rules = ->white up ->>\n",
    "game": BEGIN + "#rules = ->white {unknown} ->>\n",
    "keeper": BEGIN + "#rules = (->> ->>)*\n",
}
ABOVE = BEGIN + "#rules = ->white ([x])* ->>\n"  # moves of any length
MISSPELT = ["04 9 4 10", "+4 9 4 10", "1_0 9", "4  9 4 10", "4 9 4 10 ", "4 9 4 10\n", "4 9 4 10\nback", "4", "4 9 4", "", "x", "4 1234567890", "٤ 9"]
LEGAL = "4 9 4 10"


def refusal(call: Callable[[], object]) -> str:
    """By which word a call is refused; else what it returns."""
    try:
        return f"returns {call()}"
    except rbg.Refused as refused:
        return refused.word


def expect(what: str, found: object, wanted: object) -> None:
    """Something that is to be seen."""
    if found != wanted:
        raise Wrong(f"{what}: {found}, and not {wanted}")


@contextmanager
def hushed() -> Iterator[None]:
    """Nothing is said on standard error meanwhile, nor by what is started meanwhile."""
    kept, none = os.dup(2), os.open(os.devnull, os.O_WRONLY)
    os.dup2(none, 2)
    try:
        yield
    finally:
        os.dup2(kept, 2)
        os.close(kept), os.close(none)


def descriptions(folder: Path) -> None:
    """A text that is no game's is refused by the layer that says so, from a file and as a text."""
    file = folder / "wrong.rbg"
    for word, text in GAMES.items():
        file.write_text(text)
        with hushed():
            expect(f"a text without {word}", refusal(lambda: rbg.Game.read(text)), word)
            expect(f"a file without {word}", refusal(lambda: rbg.Game.load(file)), word)
    with rbg.Game.read(ABOVE) as game:
        state = game.state()
        expect("above the limits", [refusal(state.moves), refusal(lambda: state.player)], ["over", "over"])
        expect("above the limits, what can be read", (state.board, state.values["n"], state.key > 0), ([0, 0], 0, True))


def spellings(game: rbg.Game) -> None:
    """A move has one spelling. Whatever is refused, the session goes on from where it stood."""
    state = game.state()
    before, count = state.key, len(state.moves())
    calls: list[Callable[[str], Any]] = [state.make, game.hear, lambda move: state.search(1, 1, [move])]
    for call in calls:
        for move in MISSPELT:
            expect(f"the move {move!r}", refusal(lambda: call(move)), "form")
            expect("the place after it", (game.state().key, len(game.state().moves()), state.key), (before, count, before))
        expect("a move of another game", refusal(lambda: call("0 1")), "illegal")
        expect("the place after it", (game.state().key, len(game.state().moves())), (before, count))
    later = game.state().make(LEGAL)
    key, moves = later.key, later.moves()
    expect("a move that isn't legal is tried out", refusal(lambda: later.search(1, 1, [LEGAL])), "illegal")
    expect("the place after it", (later.copy().make(moves[0]).undo().key, later.moves()), (key, moves))


def numbers(state: rbg.State) -> None:
    """Each number has a range."""
    for number in (0, -1, 1_000_001):
        calls: list[Callable[[], Any]] = [
            lambda: state.moves(number), lambda: state.playouts(number), lambda: state.sample(number), lambda: state.search(number),
        ]  # fmt: skip
        expect(f"the number {number}", [refusal(call) for call in calls], ["form"] * 4)
    for seed in (-1, 2**64):
        calls = [lambda: state.playouts(1, seed), lambda: state.sample(1, seed), lambda: state.search(1, seed)]
        expect(f"the seed {seed}", [refusal(call) for call in calls], ["form"] * 3)
    expect("moves", (len(state.moves(3)), len(state.moves(1_000_000)), state.moves(1)), (3, 9, state.moves()[:1]))
    expect("the greatest seed", sum(ending.matches for ending in state.playouts(3, 2**64 - 1)), 3)
    expect("undone too often", [refusal(lambda: state.undo(many)) for many in (-1, 1)], ["start"] * 2)


def searches(program: str, file: Path) -> None:
    """A search tries all moves by one seed, as `rbg ask` does."""
    asked = subprocess.run([program, "ask", str(file)], input="search 7 200\n", capture_output=True, text=True, check=True)
    with rbg.Game.load(file, program) as game:
        found = game.state().search(200, 7)
    lines = [[str(it.matches), *(f"{int(mean * 100 + 1e-6) / 100:.2f}" for mean in it.means), *it.move.split()] for it in found]
    expect("a search", lines, [line.split() for line in asked.stdout.splitlines()[1:]])


def old_states(file: Path, first: str) -> None:
    """States of before a move was heard, and of a game that was closed, are refused by name. What is known of them can still
    be compared."""
    game = rbg.Game.load(file)
    state = game.state()
    unpacked, table = game.unpack(state.pack()), {state: 1}
    game.hear(first)
    calls: list[Callable[[], Any]] = [
        state.moves, state.copy, state.pack, state.playouts, state.undo, lambda: state.make(LEGAL), lambda: state.board,
        lambda: state.player, lambda: state.key, lambda: state.values, lambda: state.scores, lambda: state.place,
    ]  # fmt: skip
    expect("a state of before", [refusal(call) for call in calls], ["heard"] * len(calls))
    expect("a state that was unpacked", (len(unpacked.moves()), unpacked.player), (9, 1))
    expect("a table of states", (table[unpacked], state == unpacked, "moves" in repr(state)), (1, True, True))
    now = game.state()
    game.close()
    game.close()
    calls = [now.moves, now.copy, lambda: now.board, unpacked.moves, game.state, lambda: game.unpack(b"\1"), lambda: game.shape]
    expect("a state of a game that was closed, written", repr(now)[:9], "<0 moves,")
    expect("a game that was closed", [refusal(call) for call in [*calls, lambda: game.hear("0 1")]], ["closed"] * 8)


def first_heard(program: str, file: Path) -> str:
    """The keeper's first move, which is heard first."""
    first = subprocess.run([program, "moves", str(file)], capture_output=True, text=True, check=True).stdout.splitlines()[0]
    return first.split(" ", 2)[2]


def copies(state: rbg.State) -> None:
    """A copy has a place of its own, however it is made. A state isn't pickled, and what is said names what is."""
    for made in (copy.copy(state), copy.deepcopy(state), copy.deepcopy([state])[0], state.copy()):
        expect("a copy", (made == state, made.make(LEGAL) == state, made.game is state.game), (True, False, True))
    spiel = rbg.SpielGame(state.game).new_initial_state()
    for other in (copy.copy(spiel), copy.deepcopy(spiel)):
        other.apply_action(other.legal_actions()[0])
        expect("a copy by OpenSpiel's names", (spiel.move_number(), other.move_number()), (0, 1))
    try:
        pickle.dumps(state)
        raise Wrong("a state was pickled")
    except TypeError as error:
        expect("why it isn't pickled", "State.pack" in str(error), True)


def keys(game: rbg.Game) -> None:
    """States whose player, board and values are the same have one position key, whatever led there."""
    states = [game.state()]
    for _ in range(3):
        states = [state.copy().make(move) for state in states for move in state.moves()]
    positions = {state.position_key for state in states}
    exact = {(state.player, tuple(state.board), tuple(state.values.values())) for state in states}
    expect("position keys", (len(positions), len({state.key for state in states}) > len(positions)), (len(exact), True))
    moves = {(state.position_key, tuple(state.moves())) for state in states}
    expect("legal moves by position keys", len(moves), len(positions))


def interrupted(file: Path) -> None:
    """A session with an answer that wasn't read is ended: the answer would be taken for a later one."""
    with hushed(), rbg.Game.load(file, library=False) as game:
        session, state = game.opened.session, game.state()  # type: ignore[union-attr]
        session.line = lambda: 1 / 0  # type: ignore[method-assign,assignment,return-value]
        try:
            state.moves()
        except ZeroDivisionError:
            del session.line
        expect("what is asked after it", (refusal(state.moves), refusal(lambda: state.key)), ("closed", "closed"))


def files(file: Path) -> None:
    """A library and a program that are named have to be there."""
    for given in ({"library": "/nowhere.so"}, {"library": Path("/nowhere.so")}, {"library": False, "program": "/nowhere"}):
        try:
            rbg.Game.load(file, **given)
            raise Wrong(f"no file was missed: {given}")
        except FileNotFoundError as error:
            expect("what is missed", "/nowhere" in str(error), True)


def quiet() -> None:
    """Before the first move nothing has to come for 100 ms, or a tenth of a shorter turn."""
    for turn, seconds in ((100, 0.01), (1000, 0.1), (60_000, 0.1)):
        seat = rbg.playing.Seat(None)
        seat.hear(b"L%d 3" % turn)
        expect(f"quiet in a turn of {turn} ms", seat.quiet, seconds)


def page_of_players(program: str, file: Path, first: str) -> None:
    """The player of WRITING_A_PLAYER.md answers in a turn of 100 ms. A machine may be slow now and then, but a player that waits
    for 100 ms is always late."""
    page = (ROOT / "docs/WRITING_A_PLAYER.md").read_text(encoding="utf-8")
    code = page.split("```python player.py\n")[1].split("```")[0]
    with tempfile.TemporaryDirectory() as folder, socket.create_server(("127.0.0.1", 0)) as server:
        Path(folder, "rbg").symlink_to(program)
        Path(folder, "player.py").write_text(code.replace("4710", str(server.getsockname()[1])))
        took = [answered(folder, server, file.read_bytes(), first)]
        while min(took) >= 0.1 and len(took) < TRIES:
            took.append(answered(folder, server, file.read_bytes(), first))
    expect(f"an answer in a turn of 100 ms, {took}", min(took) < 0.1, True)


def answered(folder: str, server: socket.socket, text: bytes, first: str) -> float:
    """In how many seconds the player in a folder answers the keeper's first move."""
    with subprocess.Popen([sys.executable, "player.py"], cwd=folder, stdout=subprocess.DEVNULL) as player:
        server.settimeout(PATIENCE)
        line, _ = server.accept()
        with line:
            line.settimeout(PATIENCE)
            line.sendall(b"W1 first\0G" + text + b"\0L100 3\0")
            time.sleep(0.3)  # the rules are read meanwhile
            began = time.monotonic()
            line.sendall(b"M" + first.encode() + b"\0")
            message = line.recv(4096)
            took = time.monotonic() - began
            line.sendall(b"E0 50 50\0")
        expect("what is answered", (message[:1], player.wait(PATIENCE)), (b"M", 0))
    return took


def pages() -> None:
    """`pydoc rbg` names what a player asks for."""
    page = pydoc.plain(pydoc.render_doc(rbg))
    for name in ("players", "pieces", "variables", "heard", "history", "position_key"):
        expect(f"{name} in pydoc", f" {name}\n" in page, True)


def cost(state: rbg.State) -> None:
    """To read the board isn't to find all moves."""
    if not hasattr(state.at, "held"):
        return
    held = state.copy().make(LEGAL)
    found = held.at.held.count  # type: ignore[union-attr]
    held.at.held.count = lambda: expect("moves that are found", True, False)  # type: ignore[union-attr,method-assign]
    held.board, held.key, held.values, hash(held), held == state
    held.at.held.count = found  # type: ignore[union-attr,method-assign]
    expect("who is to move", held.player, 2)


def check_calls(program: str, file: Path) -> str:
    """All of it, on a file of tic-tac-toe. Returns what was seen."""
    began = time.monotonic()
    with tempfile.TemporaryDirectory() as folder:
        descriptions(Path(folder))
    with rbg.Game.load(file) as game:
        spellings(game)
        numbers(game.state())
        copies(game.state())
        cost(game.state())
        keys(game)
    searches(program, file)
    first = first_heard(program, file)
    old_states(file, first)
    page_of_players(program, file, first)
    interrupted(file)
    files(file)
    quiet()
    pages()
    return f"what is accepted and refused is as it should be, in {time.monotonic() - began:.1f} s"


if __name__ == "__main__":
    print(check_calls(os.path.abspath("./rbg"), Path(sys.argv[1])))
