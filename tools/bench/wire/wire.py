"""Matches over connections: what a move costs beside a bare relay, beside silent lines and in many matches at once,
and whether a move that is said in time counts.

The players and the relay are tools/bench/wire/wire.c, which gcc compiles. The game has no end: two players move in turn.
"""

import contextlib
import os
import pathlib
import signal
import socket
import subprocess
import time

HERE = pathlib.Path(__file__).resolve().parent

# The first two players move in turn, and any others only listen. A move is an off and a switch.
GAME = """#players = {players}
#pieces = e
#board = rectangle(up, down, left, right, [e])
#rules = ->a ([e] ->b [e] ->a)*
"""
NAMES = "abcdfghi"


def game(run, players):
    """The file of the game for this many players."""
    return run.file(f"for{players}.rbg", GAME.format(players=", ".join(f"{name}(1)" for name in NAMES[:players])))


def free_port():
    with socket.socket() as probe:
        probe.bind(("127.0.0.1", 0))
        return probe.getsockname()[1]


@contextlib.contextmanager
def served(words, port):
    """A program that listens on the port, which is killed in the end."""
    program = subprocess.Popen([*words, "--port", str(port)], stdout=subprocess.DEVNULL, stderr=subprocess.PIPE, text=True)
    try:
        program.stderr.readline()
        yield program
    finally:
        program.kill()
        program.wait()


def joined(port, match, count):
    """Connections that join a match and say nothing more."""
    lines = []
    for _ in range(count):
        line = socket.create_connection(("127.0.0.1", port))
        line.sendall(b"H%d\0" % match)
        lines.append(line)
    return lines


def spent(wire, *words):
    """The number that the players print."""
    done = subprocess.run([wire, *map(str, words)], stdout=subprocess.PIPE, text=True, timeout=600, check=True)
    return int(done.stdout)


def relay_move(wire, moves):
    """Microseconds a move over the relay."""
    port = free_port()
    with subprocess.Popen([wire, "relay", str(port)], stdout=subprocess.PIPE, text=True) as relay:
        relay.stdout.readline()
        return spent(wire, "play", port, 1, moves) / moves


def serve_move(wire, run, rbg, moves):
    """Microseconds a move over `serve`."""
    port = free_port()
    with served([rbg, "serve", game(run, 2), "--minutes", "60"], port):
        return spent(wire, "play", port, 1, moves) / moves


def filled_hall(run, silent):
    """The games of a hall in whose first match two play, and in which this many lines say nothing: the seats of each match that
    are silent, match 1 first."""
    beside = silent % 8
    seats = [beside, *[8] * (silent // 8)]
    return [game(run, 2 + beside), *[game(run, 8)] * (silent // 8)], seats


def beside_silent(wire, run, rbg, silent, moves):
    """Microseconds a move of one match of a hall in which this many lines say nothing."""
    port, (games, seats) = free_port(), filled_hall(run, silent)
    with served([rbg, "hall", *games, "--turn", "3600000", "--rounds", "4294967295"], port):
        lines = []
        for match in range(2, len(seats) + 1):
            lines += joined(port, match, seats[match - 1])
        # the players of match 1 take its first two seats, and any others of it are silent
        players = subprocess.Popen([wire, "play", str(port), "1", str(moves), "hall"], stdout=subprocess.PIPE, text=True)
        time.sleep(0.5)
        lines += joined(port, 1, seats[0])
        return int(players.communicate(timeout=600)[0]) / moves


def many(wire, run, rbg, matches, moves):
    """Moves a second in all of this many matches of a hall, each of two quick players."""
    port = free_port()
    with served([rbg, "hall", *[game(run, 2)] * matches, "--rounds", "4294967295"], port):
        return matches * moves * 1_000_000 / spent(wire, "play", port, matches, moves, "hall")


def late_hall(stack, wire, run, rbg, early, turn, moves):
    """The players of a hall in which each move of match 1 is said this many microseconds before the turn is over, beside 126 lines
    that say nothing; and what is left to do until its matches begin. The other matches are soon lost on time."""
    port, (games, seats) = free_port(), filled_hall(run, 126)
    stack.enter_context(served([rbg, "hall", *games, "--turn", str(turn), "--rounds", "4294967295"], port))
    lines = []
    for match in range(2, len(seats) + 1):
        lines += joined(port, match, seats[match - 1])
    words = [wire, "late", str(port), str(turn), str(early), str(moves)]
    players = subprocess.Popen(words, stdout=subprocess.PIPE, text=True)
    time.sleep(0.2)
    return players, lambda: lines.extend(joined(port, 1, seats[0]))


def in_time(wire, run, rbg, early, turn, moves, side):
    """Of matches side by side, each beside 126 silent lines and with this many moves, that are said this many microseconds before the
    turn is over: how many have lost on time, how many of them said the last move too late by their own clock, and how many
    moves were made in all."""
    lost = own = made = 0
    with contextlib.ExitStack() as stack:
        halls = [late_hall(stack, wire, run, rbg, early, turn, moves) for _ in range(side)]
        for _, begin in halls:
            begin()
        for players, _ in halls:
            heard, delay = map(int, players.communicate(timeout=3600)[0].split())
            made += heard
            if heard < moves:
                lost, own = lost + 1, own + (delay >= abs(early))
    return lost, own, made


def until_end(line):
    """Reads up to the message that ends a match, or to the end of the stream."""
    text = b""
    while not any(b"\0" + end in b"\0" + text for end in (b"E0", b"E1", b"E2", b"E3", b"E4")):
        got = line.recv(4096)
        if not got:
            break
        text += got


def overdue(wire, run, rbg, turn, beside):
    """Milliseconds from the due moment to the `E1` that a player reads, alone or beside a quick match."""
    port = free_port()
    words = ["hall", game(run, 2), game(run, 2)] if beside else ["serve", game(run, 2)]
    with contextlib.ExitStack() as stack:
        stack.enter_context(served([rbg, *words, "--turn", str(turn), "--rounds", "4294967295"], port))
        silent = [socket.create_connection(("127.0.0.1", port)) for _ in range(2)]
        if beside:
            for line in silent:
                line.sendall(b"H2\0")
            quick = subprocess.Popen([wire, "play", str(port), "1", "1000000", "hall"], stdout=subprocess.DEVNULL)
            stack.callback(quick.wait)
            stack.callback(quick.kill)
        text = b""
        while b"M0 1\0" not in text:
            text += silent[0].recv(4096)
        begun = time.monotonic()
        until_end(silent[0])
        return (time.monotonic() - begun) * 1000 - turn


def idle(run, rbg, seconds):
    """Processor seconds of `serve` in a match whose players think for so long."""
    port = free_port()
    with served([rbg, "serve", game(run, 2)], port) as program:
        lines = [socket.create_connection(("127.0.0.1", port)) for _ in range(2)]
        time.sleep(1)
        used = lambda: int(pathlib.Path(f"/proc/{program.pid}/schedstat").read_text().split()[0]) / 1e9
        before = used()
        time.sleep(seconds)
        program.send_signal(signal.SIGTERM)
        assert lines
        return used() - before


@contextlib.contextmanager
def raised():
    """Goes before other work of the machine, if the system allows it."""
    try:
        os.nice(-15)
    except OSError:
        yield
        return
    try:
        yield
    finally:
        os.nice(15)


def in_time_row(tool, run, rbg, row, early):
    """The row of moves that are said this many microseconds before a turn of 20 ms is over, 10,000 of them in 4 matches, or after
    it. A match in which a player was too late by its own clock is made up by another one."""
    lost = own = made = 0
    for _ in range(4):
        if made < 10_000 and (early > 0 or not made):
            one = in_time(tool, run, rbg, early, 20, 2_500, 4)
            lost, own, made = lost + one[0], own + one[1], made + one[2]
    when = f"{early // 1_000} ms before" if early > 0 else f"{-early // 1_000} ms after"
    row(f"moves said {when} 20 ms are over, beside 126 silent lines: matches lost on time", f"{lost - own} in {made:,} moves")
    if own:
        row("and those whose player was too late by its own clock", own)


def wire(run, programs, head, row):
    """Prints the table."""
    with raised():
        tell(run, programs.rbg, head, row)


def quickest(rounds, works):
    """The least that each work has taken in this many rounds over all of them, so that other work of the machine counts less."""
    return [min(taken) for taken in zip(*[[work() for work in works] for _ in range(rounds)])]


def tell(run, rbg, head, row):
    tool = str(run.room / "wire")
    subprocess.run(["gcc", "-O2", "-Wall", "-Wextra", "-o", tool, str(HERE / "wire.c")], check=True)
    head("Matches over connections, with players that move at once", "What", "Figure")
    works = [
        lambda: relay_move(tool, 1_000),
        lambda: serve_move(tool, run, rbg, 1_000),
        lambda: beside_silent(tool, run, rbg, 32, 500),
        lambda: beside_silent(tool, run, rbg, 126, 500),
        lambda: 1 / many(tool, run, rbg, 16, 300),
    ]
    bare, move, few, most, each = quickest(12, works)
    row("a move over a bare relay, microseconds", f"{bare:.0f}")
    row("a move over `serve`, microseconds", f"{move:.0f}")
    row("the one against the other", f"{move / bare:.2f}")
    row("a move beside 32 silent lines of a hall, milliseconds", f"{few / 1000:.3f}")
    row("a move beside 126 silent lines of a hall, milliseconds", f"{most / 1000:.3f}")
    row("16 matches in a hall, moves a second in all", f"{1 / each:,.0f}")
    for early in (1_000, -4_000):
        in_time_row(tool, run, rbg, row, early)
    for label, beside in (("", False), (" beside a quick match", True)):
        late = sorted(overdue(tool, run, rbg, 50, beside) for _ in range(20))
        row(f"`E1` after the due moment{label}, milliseconds: the middle of 20, and the most", f"{late[10]:.1f}, {late[-1]:.1f}")
    row("processor seconds of `serve` in 5 seconds in which all think", f"{idle(run, rbg, 5):.3f}")
