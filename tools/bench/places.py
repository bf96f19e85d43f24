"""How many places a program looks at in a second of the processors, in each way to use the rules. These are times of one run
on one machine: compare them with each other. A session's seconds and those of who asks it are added.

A place is looked at in three steps: a move is made, the legal moves are listed, and the move is undone.
"""

import itertools
import os
import pathlib
import resource
import subprocess
import sys
import time

ROOT = pathlib.Path(__file__).resolve().parents[2]
sys.path.insert(0, str(ROOT / "clients/python"))
import rbg  # noqa: E402

SHARE, RUNS = 0.5, 5  # seconds of a run, and how many are tried: the best one counts
GAMES = {"tictactoe": 6, "breakthrough": 4, "chess": 4}  # with the depth to which C counts
TICKS = os.sysconf("SC_CLK_TCK")


def seconds(session=None):
    """The processor seconds by now: own ones, those of programs that have ended, and those of a session that runs."""
    ended = resource.getrusage(resource.RUSAGE_CHILDREN)
    running = pathlib.Path(f"/proc/{session}/stat").read_text().rpartition(")")[2].split()[11:13] if session else []
    return time.process_time() + ended.ru_utime + ended.ru_stime + sum(map(int, running)) / TICKS


def rate(look, session=None):
    """How many places a second are looked at by a function that returns how many it has looked at."""
    best = 0.0
    for _ in range(RUNS):
        start, seen, spent = seconds(session), 0, 0.0
        while spent < SHARE:
            seen += look()
            spent = seconds(session) - start
        best = max(best, seen / spent)
    return best


def sizes(questions, text):
    r"""How many bytes each of these questions is answered, all of which were answered by a text.

    >>> sizes(["make 0 1\n", "moves\n", "back\n"], "player 2\nmoves 1\n0 2\nplayer 1\n")
    [9, 12, 9]
    """
    lines, found = text.splitlines(keepends=True), []
    for question in questions:
        count = 1 + int(lines[0].split()[1]) if question == "moves\n" else 1
        found.append(sum(map(len, lines[:count])))
        lines = lines[count:]
    return found


def questions_of(program, file):
    """The questions by which each place after one move is looked at, with the sizes of their answers, and how many these places are."""

    def answered(text):
        return subprocess.run([program, "ask", file], input=text, capture_output=True, text=True).stdout

    moves = answered("moves\n").splitlines()[1:]
    questions = [it for move in moves for it in (f"make {move}\n", "moves\n", "back\n")]
    return questions, sizes(questions, answered("".join(questions))), len(moves)


def piped(program, file, together):
    """By a session of `rbg ask`: so many questions are written at once, and then their answers are read."""
    questions, answers, places = questions_of(program, file)
    times = max(1, together // len(questions))
    questions, answers = questions * times, answers * times
    cuts = range(0, len(questions), together)
    asked = [("".join(questions[at : at + together]).encode(), sum(answers[at : at + together])) for at in cuts]
    session = subprocess.Popen([program, "ask", file], stdin=subprocess.PIPE, stdout=subprocess.PIPE, bufsize=0)
    write, read = session.stdin.fileno(), session.stdout.fileno()

    def look():
        for text, size in asked:
            os.write(write, text)
            while size > 0:
                size -= len(os.read(read, 1 << 20))
        return places * times

    try:
        return rate(look, session.pid)
    finally:
        session.kill()
        session.communicate()


def packaged(file, program, library):
    """By Python's package, over the library or over a session of `rbg ask`."""
    with rbg.Game.load(file, program, library) as game:
        state = game.state()
        moves = state.moves()

        def look():
            for move in moves:
                state.make(move).moves()
                state.undo()
            return len(moves)

        return rate(look, None if library else game.ground.session.process.pid)


def counted(run, file, depth):
    """In C, by clients/c/perft.c, which counts to each depth up to this one."""
    program = run.room / "perft"
    words = ["gcc", "-O2", f"-I{ROOT / 'include'}", ROOT / "clients/c/perft.c", ROOT / "librbg.a", "-o", program]
    subprocess.run(list(map(str, words)), check=True)

    def look():
        printed = subprocess.run([program, file, str(depth)], capture_output=True, text=True, check=True).stdout
        sequences = [1, *map(int, printed.split()[1:-1:2])]  # in each place where these end moves are found
        return sum(itertools.accumulate(sequences))

    return rate(look)


def places(run, program, head, row, game):
    """The table."""
    library = str(ROOT / "librbg.so")
    ways = [
        ("`rbg ask`, one question at a time", lambda file, depth: piped(program, file, 1)),
        ("`rbg ask`, a thousand questions at a time", lambda file, depth: piped(program, file, 1000)),
        ("Python's package over `rbg ask`", lambda file, depth: packaged(file, program, False)),
    ]
    if os.path.exists(library):  # make lib leaves it
        ways.append(("Python's package over the library", lambda file, depth: packaged(file, program, library)))
        ways.append(("the library in C, moves not copied", lambda file, depth: counted(run, file, depth)))
    head("Places in a second of the processors: a move is made, the legal moves are listed, the move is undone", "Way", *GAMES)
    for label, way in ways:
        row(label, *(f"{way(run.file(f'{name}.rbg', game(name)), depth):,.0f}" for name, depth in GAMES.items()))
