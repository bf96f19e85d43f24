"""The texts, rules and matches of docs/COSTS.md. Each function gives one of them."""

import pathlib

GAMES = pathlib.Path(__file__).resolve().parents[2] / "crates" / "rbg_games" / "data"


# ---- Heavy texts: they have no players, so after tokens and macros the parser refuses them at once. ----


def names(size):
    """One section of one-letter names."""
    return "#rules =" + " a" * ((size - 8) // 2)


def doubling(last):
    """2^(last + 2) - 1 tokens are read, and 2^(last - 1) are kept."""
    text = "#z =\n#a0 = e z\n#b0 = z z\n#a1 = a0 b0\n"
    for k in range(2, last + 1):
        text += f"#a{k} = a{k-1} a{k-1}\n"
    return text + f"#rules = a{last}\n"


def argument(size):
    """One call with an argument of this many bytes."""
    return "#g(x) = x\n#rules = g(" + " a" * (size // 2) + ")\n"


def joins(size):
    """Every second token is a `~`."""
    return "#rules = " + "a~b " * (size // 4)


def reads(times):
    """A name of 100,000 bytes, that of an empty macro, is read 990 times for each of this many calls."""
    name = "n" * 100_000
    text = f"#{name} =\n#h(x) =" + " x" * 990 + f"\n#r = h({name})\n"
    return text + "#rules =" + " r" * times + "\n"


def long_name(last, size=10_000):
    """A name of this many bytes is kept 2^(last + 1) times."""
    text = "#a0 = " + "n" * size + " " + "n" * size + "\n"
    for k in range(1, last + 1):
        text += f"#a{k} = a{k-1} a{k-1}\n"
    return text + f"#rules = a{last}\n"


# ---- Games that are heavy to load. ----

HEAD = "#players = white(100), black(100)\n#pieces = e, w\n#variables = v(10)\n"
BOARD = "#board = rectangle(up,down,left,right,[e,e])\n"
GAME = HEAD + BOARD + "#rules = "


def sets(count):
    """Five tokens each."""
    return GAME + "{e,w}" * count + "\n"


def offs(count):
    return GAME + "[e]" * count + "\n"


def nested(depth, count):
    return GAME + ("(" * depth + "up" + ")" * depth) * count + "\n"


def vertices(count):
    text = HEAD + "#board = graph(\n"
    for i in range(count):
        edges = (f"d{(4 * i + k) % 64}:v{(i + k + 1) % count}" for k in range(4))
        text += f"v{i}[e]{{" + ",".join(edges) + "}"
    return text + ")\n#rules = ->white d0\n"


def long(last, size):
    """A name of this many bytes is there 2^(last + 1) + 2^last times in the rules."""
    name = "n" * size
    text = HEAD.replace("w\n", "w, " + name + "\n", 1) + BOARD
    text += f"#m = {name}\n#a0 = m, m\n"
    for k in range(1, last + 1):
        text += f"#a{k} = a{k-1}, a{k-1}\n"
    return text + f"#rules = ->white {{a{last}, a{last-1}}} ->black\n"


# ---- Rules whose automaton is heavy. ----


def sequence(count):
    return GAME + "up " * count + "\n"


def one_sum(count):
    return GAME + "up+" * (count - 1) + "up\n"


def starred_sum(count):
    """An action, one star of a sum, and an action."""
    return GAME + "up (" + "up+" * (count - 3) + "up)* up\n"


def stars_in_a_row(count):
    return GAME + "up*" * count + "\n"


def stars_within(depth, count):
    """A sum of this many actions, and then this many times a star of what is there with an action after it."""
    return GAME + "(" * depth + "up+" * (count - 1) + "up" + ")* up" * depth + "\n"


# ---- A game for single changes of a semi-state: its two squares are next to each other. ----

CHANGES = "#players = white(100), black(100)\n#pieces = e, w\n" + BOARD + "#rules = ->white right left {e,w} [w] {} ->black\n"


# ---- Questions at the limit. ----


def at_the_limit(size):
    """The first question is given up after 100,000 openings, each of which leads over the whole board."""
    row = "[" + ",".join("e" * size) + "]"
    return (
        "#players = white(100), black(100)\n#pieces = e, w\n#variables = c(100)\n"
        f"#board = rectangle(up,down,left,right,{''.join([row] * size)})\n"
        "#rules = ->white ((up + down + left + right)* {$ c < 3} [w] [$ c = c + 1])* {} ->black\n"
    )


# ---- Games and matches. ----


def game(name):
    return (GAMES / f"{name}.rbg").read_text()


def script(name):
    return (GAMES / f"{name}.script").read_text()


def endless_chess():
    """Chess with a limit of 1,000,000 quiet moves in place of 100."""
    text = game("chess")
    for old, new in (("quiet(100)", "quiet(1000000)"), ("quiet < 100", "quiet < 1000000"), ("quiet == 100", "quiet == 1000000")):
        assert old in text, f"chess.rbg has no {old}"
        text = text.replace(old, new)
    return text


def knights(turns):
    """This many messages: the knights of the kings' sides go out and back in turn."""

    def step(seat, start, to, more):
        return f"m {seat} 0 M{start} {69 + more} {to} {87 + more} {to} {90 + more} {to} {507 + more}\n"

    moves = [step(1, 62, 45, 0), step(2, 6, 21, 743), step(1, 45, 62, 0), step(2, 21, 6, 743)]
    return "config 1000 3 0\n" + "".join(moves[k % 4] for k in range(turns))


def bytewise(script_text):
    """The same script with a line for each byte of a message."""
    lines = []
    for line in script_text.splitlines():
        if line.startswith("m "):
            _, seat, moment, text = line.split(" ", 3)
            lines += [f"p {seat} {moment} {byte:02x}" for byte in text.encode() + b"\0"]
        else:
            lines.append(line)
    return "\n".join(lines) + "\n"


def flood(size):
    """A script in which seat 1 sends this many bytes that are no message."""
    return "config 1000 3 0\np 1 0 " + "78" * size + "\n"


def for_eight():
    """Eight players of whom the first is to move, on a board of one vertex."""
    players = ", ".join(f"{name}(1)" for name in "abcdefgh")
    board = "#board = rectangle(up,down,left,right,[o])\n"
    return f"#players = {players}\n#pieces = o, x\n" + board + "#rules = ->a {o}[x] ->> {}\n"


def hall_flood(lines, times, seated, event, first):
    """A script for a hall of 16 tables for eight: this many lines, from the first on, send something this many times, in turn.

    Before that the lines from 0 on take a seat each, as many as are to have one.
    """
    script = ["config 3600000 100 0\n"]
    script += [f"m {line} 0 H{line % 16 + 1}\n" for line in range(seated)]
    for turn in range(times):
        kind, at, text = event(turn)
        script += [f"{kind} {line} {at} {text}\n" for line in range(first, first + lines)]
    return "".join(script)
