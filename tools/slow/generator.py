"""Random cases: games, scripts and records. The interpreter itself plays the matches from which they are made."""

import functools
import pathlib
import random

import checks
import games
import limits
import play
import program
import scripts
import stored
import texts
import wire
from match import Match
from refusals import Refused
from search import Over, Place
from stored import Case

DATA = pathlib.Path(__file__).resolve().parents[2] / "crates/rbg_games/data"
SHIPPED = sorted(path.stem for path in DATA.glob("*.rbg"))
LATE = [2**64 - 1, 2**64 - 2, 18_446_744_073_705_951_615, 18_446_744_073_705_951_614, 18_446_744_073_705_951_616]


def make_case(seed, index):
    """The case of this number. What it costs to make is counted as what it costs to run."""
    chance = random.Random(f"{seed} {index}")
    case = Case(f"{seed} {index}".encode())
    chance.choice(KINDS)(chance, case)
    return case


def game_case(chance, case):
    text = texts.text_of_game(chance, games.Game(chance))
    command = chance.choice([check, moves, moves, moves_after, *[referee] * 4, *[replay] * 3, migrate])
    command(chance, case, text)


def mutated_case(chance, case):
    text = texts.mutate(chance, texts.text_of_game(chance, games.Game(chance)))
    chance.choice([check, check, check, moves, moves, referee, replay])(chance, case, text)


def misnamed_case(chance, case):
    text = texts.mutate_names(chance, texts.text_of_game(chance, games.Game(chance)))
    chance.choice([check, check, check, moves])(chance, case, text)


def limits_case(chance, case):
    check(chance, case, limits.text(chance))


def stored_case(chance, case):
    """A stored case of rbg_cases with a mutation, but none of those that take long."""
    found = chance.choice(stored_cases())
    case.made = found.made
    case.words, case.files = found.words, {name: bytes(content) for name, content in found.files.items()}
    case.standard_input = bytes(found.standard_input)
    mutate = chance.choice([texts.mutate, texts.mutate, texts.mutate_names])
    part = chance.choice([None] * bool(case.standard_input) + [*case.files] or [None])
    if part is None:
        case.standard_input = mutate(chance, case.standard_input)
    else:
        case.files[part] = mutate(chance, case.files[part])


@functools.cache
def stored_cases():
    long = (b"tokens", b"openings", b"16777")
    return [case for case, _ in stored.cases() if not any(word in case.name for word in long)]


def soup_case(chance, case):
    check(chance, case, texts.soup(chance))


def burst_case(chance, case):
    text = games.bursting(chance)
    chance.choice([moves, referee, referee, replay])(chance, case, text)


def shipped_case(chance, case):
    name = chance.choice(SHIPPED)
    text = (DATA / f"{name}.rbg").read_bytes()
    if chance.random() < 0.75:
        text = texts.mutate(chance, text)
    if chance.random() < 0.4:
        return chance.choice([check, moves, replay])(chance, case, text)
    lines = (DATA / f"{name}.script").read_bytes().splitlines(keepends=True)
    script = b"".join(lines[: chance.randint(1, 12)])
    script = texts.mutate(chance, script) if chance.random() < 0.4 else cut_script(chance, script)
    give_script(chance, case, text, script)


KINDS = (
    [game_case] * 130 + [stored_case] * 40 + [mutated_case] * 50 + [misnamed_case] * 30 + [shipped_case] * 30 + [soup_case] * 24
    + [limits_case] * 5 + [burst_case]
)


# The commands


def check(chance, case, text):
    case.words = ["check", "game.rbg"]
    case.files["game.rbg"] = text


def moves(chance, case, text):
    case.words = ["moves", "game.rbg"]
    case.files["game.rbg"] = text


def referee(chance, case, text):
    script = make_script(chance, text)
    give_script(chance, case, text, texts.mutate(chance, script) if chance.random() < 0.08 else script)


def give_script(chance, case, text, script):
    if chance.random() < 0.5:
        case.words = ["referee", "game.rbg"]
        case.files["game.rbg"] = text
        case.standard_input = script
    else:
        case.words = chance.choice([[], ["referee"]])
        case.standard_input = text + b"\n" + mark_line(chance) + script
    if case.words and chance.random() < 0.3:
        at = chance.randint(1, len(case.words))
        case.words[at:at] = chance.choice([["--record", "made.record"], ["--record=made.record"]])
        case.made = "made.record"


def mark_line(chance):
    return b"%%\n" if chance.random() < 0.98 else chance.choice([b"%%", b"%% \n", b"", b"%%\r\n", b"\n%%\n"])


def replay(chance, case, text):
    record_case(chance, case, text, "replay", make_record(chance, text, chance.choice([1, 2, 2])))


def moves_after(chance, case, text):
    record_case(chance, case, text, "moves", make_record(chance, text, chance.choice([1, 2])))


def migrate(chance, case, text):
    record_case(chance, case, text, "migrate", make_record(chance, text, chance.choice([1, 1, 1, 2])))


def record_case(chance, case, text, command, record):
    case.words = [command, "game.rbg", "match.record"]
    case.files["game.rbg"] = text
    case.files["match.record"] = texts.mutate(chance, record) if chance.random() < 0.25 else record


def game_of(text):
    try:
        return checks.load(text)
    except Refused:
        return checks.load(b"#players=white(1),black(1)#pieces=e#board=rectangle(a,b,c,d,[e])#rules=->white->black")


def some_move(chance, place):
    """A legal move, if one is soon found, and often the first one."""
    try:
        found = place.list_moves(chance.choice([1, 1, 5, 30]))
    except Over:
        return None
    return chance.choice(found) if found else None


def spoil(chance, pairs):
    """Another list of pairs, mostly no legal move."""
    pairs = [list(pair) for pair in pairs] or [[0, 1]]
    change = chance.randrange(6)
    if change == 0:
        pairs.pop()
    elif change == 1:
        pairs.append(list(chance.choice(pairs)))
    elif change == 2:
        pairs *= chance.choice([2, 2, 100, 200, 201])
    else:
        pair = chance.choice(pairs)
        pair[chance.randrange(2)] += chance.choice([-1, 1, 1, 2, 999_999_990])
    return [(abs(vertex), abs(position)) for vertex, position in pairs] or [(0, 1)]


# Scripts


def make_script(chance, text):
    """A match that is played along with the script: legal moves, and all that disturbs them."""
    game = game_of(text)
    turn = chance.choice([1, 5, 50, 1000, 1000, 1000, 3_600_000])
    begin = chance.choice([0, 0, 0, 7, 10**6, *LATE]) if chance.random() < 0.3 else 0
    config = [turn, chance.choice([0, 1, 3, 3, 100]), begin]
    lines = [("config %d %d %d" % tuple(config)).encode()]
    match = Match(game, text, *config)
    moment = begin
    for _ in range(chance.choice([2, 6, 12, 30])):
        new, moment = chance.choice(EVENTS)(chance, match, moment)
        for line in new:
            lines.append(line)
            event = scripts.read_event(line)
            if event:
                event(match)
        if match.ended and chance.random() < 0.7:
            break
    return b"\n".join(lines) + (b"\n" if chance.random() < 0.95 else b"")


def later(chance, match, moment):
    """A moment, mostly before the due one."""
    within = moment + chance.randint(0, max(0, (match.due - moment) // 8)) if match.due > moment else moment
    return chance.choice([within] * 12 + [match.due - 1, match.due - 1, match.due, moment - 5, 0, chance.choice(LATE)]) % 2**64


def spell_event(chance, seat, moment, message):
    """A message with its zero byte as one line or more, cut anywhere."""
    if chance.random() < 0.6 and b"\n" not in message:
        return [b"m %d %d " % (seat, moment) + message]
    pieces, rest = [], message + b"\0"
    while rest:
        cut = chance.choice([len(rest), chance.randint(0, len(rest)), 1])
        digits = rest[:cut].hex()
        pieces.append(b"p %d %d %s" % (seat, moment, (digits.upper() if chance.random() < 0.1 else digits).encode()))
        rest = rest[cut:]
    return pieces


def say_move(chance, match, moment):
    moment = later(chance, match, moment)
    move = some_move(chance, match.place) or [(0, 1)]
    return spell_event(chance, match.place.mover(), moment, b"M" + wire.spell(move).encode()), moment


def say_spoilt(chance, match, moment):
    moment = later(chance, match, moment)
    move = spoil(chance, some_move(chance, match.place) or [])
    return spell_event(chance, match.place.mover(), moment, b"M" + wire.spell(move).encode()), moment


def say_twice(chance, match, moment):
    """Several messages in one piece, or a message that is begun and goes on later."""
    message = b"M" + wire.spell(some_move(chance, match.place) or [(0, 1)]).encode() + b"\0"
    text = chance.choice([message * 2, message + b"M0 1\0x", message[:-1], message[: len(message) // 2], b"\0\0"])
    return [b"p %d %d %s" % (match.place.mover(), moment, text.hex().encode())], moment


def say_something(chance, match, moment):
    seat = chance.choice([*match.seats, *match.seats, 0, 9, 2**64 - 1])
    message = chance.choice([
        b"", b"M", b"M0", b"M0 1", b"M00 1", b"M0 1 ", b"M0  1", b"M0 1 0", b"m0 1", b"M-1 1", b"M1234567890 1", b"H1",
        b"M999999999 1", b"x" * chance.choice([4096, 4097, 5000]), b"M" + b" ".join([b"0 1"] * chance.choice([200, 201])),
        b"M0 1\xff", b"x\0y", b"M0 1\r", b"M0 1 " + b"0 1 " * 201 + b"x",
    ])
    moment = later(chance, match, moment)
    return spell_event(chance, seat, moment, message), moment


def pass_time(chance, match, moment):
    moment = later(chance, match, moment)
    return [b"t %d" % moment], moment


def end_stream(chance, match, moment):
    moment = later(chance, match, moment)
    return [b"e %d %d" % (chance.choice([*match.seats, 0, 12]), moment)], moment


def say_nothing_of_a_script(chance, match, moment):
    return [chance.choice([b"", b"t", b"t 01", b"p 1 1", b"p 1 1 4", b"m 1 1", b"e 1 1 ", b"T 1", b"t 18446744073709551616"])], moment


EVENTS = (
    [say_move] * 80 + [say_spoilt] * 8 + [say_twice] * 4 + [say_something] * 8 + [pass_time] * 6 + [end_stream] * 2
    + [say_nothing_of_a_script]
)


def cut_script(chance, script):
    """The same messages in other pieces."""
    lines = []
    for line in script.splitlines():
        words = line.split(b" ", 3)
        if words[0] == b"m" and chance.random() < 0.5:
            lines += spell_event(chance, int(words[1]), int(words[2]), words[3])
        else:
            lines.append(line)
    return b"\n".join(lines) + b"\n"


# Records


def make_record(chance, text, version):
    """A record of some moves of the game and an end, mostly right."""
    game = game_of(text)
    place = Place(game)
    turn = chance.choice([1, 10, 1000])
    last = chance.choice([0, 0, 5, *LATE[2:]]) if chance.random() < 0.2 else 0
    lines = [] if version == 1 else ["players " + " ".join(game.players), f"start {turn} {last}"]
    for _ in range(chance.choice([0, 1, 3, 8, 20])):
        move = some_move(chance, place)
        if move is None:
            break
        mover = place.mover()
        moment = last if mover == play.KEEPER else last + chance.randrange(turn)
        written, player = move, mover
        if chance.random() < 0.02:
            written = spoil(chance, move)
        if chance.random() < 0.02:
            player = chance.randint(0, 3)
        if chance.random() < 0.02:
            moment = last + chance.choice([turn, turn - 1, 1])
        lines.append(timed(version, moment, f"{player} {wire.spell(written)}"))
        last = moment
        place.make(move)
    lines.append(timed(version, *make_end(chance, place, turn, last)))
    return "\n".join([f"rbg {version}", *lines, ""]).encode()


def timed(version, moment, line):
    return line if version == 1 else f"{moment} {line}"


def make_end(chance, place, turn, last):
    """A moment and an outcome: the one that fits, or any."""
    try:
        ended = place.find_move() is None
    except Over:
        ended = False
    scores = [str(score) for score in place.scores()]
    if chance.random() < 0.1:
        scores[chance.randrange(len(scores))] = str(chance.choice([0, 1, 100, 2**64]))
    if chance.random() < 0.05:
        scores.append("0")
    mover = place.mover() if chance.random() < 0.8 else chance.randint(0, 4)
    finished = "E0 " + " ".join(scores)
    outcomes = ["-", f"E1 {mover}", f"E2 {chance.randint(0, 4)}", f"E3 {chance.randint(0, 4)}", "E4", finished]
    outcome = finished if ended and chance.random() < 0.7 else chance.choice(outcomes)
    moment = last + turn if outcome.startswith("E1") else last if outcome.startswith("E0") else last + chance.randrange(turn)
    return (moment if chance.random() < 0.9 else last + chance.choice([0, 1, turn - 1, turn])), outcome
