"""Scripts (docs/FORMATS.md, "Scripts")."""

import re

import wire
from match import Match

NUMBER = rb"(0|[1-9][0-9]{0,19})"
CONFIG = re.compile(rb"config " + NUMBER + rb" " + NUMBER + rb" " + NUMBER)
MESSAGE = re.compile(rb"m " + NUMBER + rb" " + NUMBER + rb" (.*)", re.DOTALL)
PIECE = re.compile(rb"p " + NUMBER + rb" " + NUMBER + rb" ((?:[0-9A-Fa-f]{2})*)")
END = re.compile(rb"e " + NUMBER + rb" " + NUMBER)
TICK = re.compile(rb"t " + NUMBER)
MOST_TURN = 3_600_000
MOST_REFUSALS = 100


class Faulty(Exception):
    """`script <line>`."""


def read(script):
    """The config, and the events as functions of a match. The first line that doesn't have its form is reported."""
    lines = script.split(b"\n")
    if lines[-1] == b"":
        lines.pop()  # the last line may lack its line feed
    config = read_config(lines[0]) if lines else None
    if config is None:
        raise Faulty("script 1")
    events = []
    for number, line in enumerate(lines[1:], 2):
        event = read_event(line)
        if event is None:
            raise Faulty(f"script {number}")
        events.append(event)
    return config, events


def matched_numbers(found, *groups):
    return wire.numbers([found.group(group) for group in groups]) if found else None


def read_config(line):
    """The turn, the refusals and the moment, or None."""
    config = matched_numbers(CONFIG.fullmatch(line), 1, 2, 3)
    if config is None or not 1 <= config[0] <= MOST_TURN or config[1] > MOST_REFUSALS:
        return None
    return config


def read_event(line):
    """What the line does with a match, or None."""
    message, piece = MESSAGE.fullmatch(line), PIECE.fullmatch(line)
    found = message or piece
    numbers = matched_numbers(found, 1, 2)
    if numbers:
        given = message.group(3) + b"\0" if message else bytes.fromhex(piece.group(3).decode())
        return lambda match: match.piece(*numbers, given)
    numbers = matched_numbers(END.fullmatch(line), 1, 2)
    if numbers:
        return lambda match: match.stream_ends(*numbers)
    numbers = matched_numbers(TICK.fullmatch(line), 1)
    if numbers:
        return lambda match: match.tick(*numbers)
    return None


def referee(game, text, script):
    """The match after the events of a script."""
    config, events = read(script)
    match = Match(game, text, *config)
    for event in events:
        event(match)
    return match


def sent(match):
    """What is printed of a match."""
    return [f"{seat} {message}" for seat in match.seats for message in match.sent[seat]]
