#!/usr/bin/env python3
"""The commands `referee`, `check`, `moves`, `replay` and `migrate` of `rbg` (docs/REFERENCE.md), as a second opinion.

Written from the documents alone, to be read beside them, and as slow as it likes.
"""

import os
import sys

import checks
import play
import records
import scripts
import tokens
import wire
from match import MOST_KEEPER_MOVES
from refusals import Refused
from search import Over, Place

MOST_INPUT = 16_777_216
MOST_LISTED = 1_000
DEEP = 20_000  # frames of recursion

sys.setrecursionlimit(DEEP)


class Fault(Exception):
    """One line instead of all others, and the status."""

    def __init__(self, line, status):
        self.line, self.status = line, status
        super().__init__(line)


def run(words, standard_input, files):
    """The bytes that are printed, and the status. `files` has the bytes of each file that can be read, by its name; a file
    that is made is added."""
    try:
        lines, status = COMMANDS[tuple(words[:1])](words[1:], standard_input, files), 0
    except Fault as fault:
        lines, status = [fault.line], fault.status
    return "".join(line + "\n" for line in lines).encode("latin-1"), status


def take_file(files, name):
    if name not in files:
        raise Fault("device", 3)
    return files[name]


def load(text):
    try:
        return checks.load(text)
    except Refused as refused:
        raise Fault(refused.line, 1)


def split_at_mark(given):
    """The description and the script, at the first line that is exactly `%%`."""
    if len(given) > MOST_INPUT:
        raise Fault("script 0", 2)
    at = 0
    while at < len(given):
        end = given.find(b"\n", at)
        end = len(given) if end < 0 else end  # the last line may lack its line feed
        if given[at:end] == b"%%":
            return given[:at], given[end + 1 :]
        at = end + 1
    raise Fault("script 0", 2)


def named_files(words):
    """The description's file and the record's of `referee`, or None for each that isn't named."""
    words = list(words)
    record = None
    for at, word in enumerate(words):
        if word == "--record":
            record = words[at + 1]
            del words[at : at + 2]
            break
        if word.startswith("--record="):
            record = words.pop(at).removeprefix("--record=")
            break
    return words[0] if words else None, record


def referee(words, standard_input, files):
    file, record = named_files(words)
    if file is None:
        text, script = split_at_mark(standard_input)
    else:
        text, script = take_file(files, file), standard_input
        if len(script) > MOST_INPUT:
            raise Fault("script 0", 2)
    if record is not None:
        if record in files:
            raise Fault("device", 3)
        files[record] = b""
    game = load(text)
    try:
        match = scripts.referee(game, text, script)
    except scripts.Faulty as faulty:
        raise Fault(str(faulty), 2)
    if record is not None:
        files[record] = "".join(line + "\n" for line in records.of_match(match)).encode("latin-1")
    return scripts.sent(match)


def check(words, standard_input, files):
    game = load(take_file(files, words[0]))
    counts = {
        "players": len(game.players),
        "pieces": len(game.pieces),
        "variables": len(game.variables),
        "directions": len(game.directions),
        "vertices": len(game.first_pieces),
        "positions": len(game.actions) - 1,
    }
    return [" ".join(f"{name} {count}" for name, count in counts.items())]


def moves(words, standard_input, files):
    """The keeper's moves, and then those of the player who is to move; with a record those at the place after it."""
    if len(words) == 2:
        return of_record(lambda game, record: listed(records.follow(game, record)))(words, standard_input, files)
    place = Place(load(take_file(files, words[0])))
    printed = []
    try:
        while place.mover() == play.KEEPER:
            if len(printed) == MOST_KEEPER_MOVES:
                raise Over
            move = place.find_move()
            if move is None:
                break
            printed.append("made 0 " + wire.spell(move))
            place.make(move)
    except Over:
        return printed + ["over"]
    return printed + listed(place)


def listed(place):
    """The legal moves at a place, or the scores if there is none."""
    try:
        found = place.list_moves(MOST_LISTED + 1)
    except Over:
        return ["over"]
    if not found:
        return ["finished " + " ".join(map(str, place.scores()))]
    printed = [f"move {place.mover()} {wire.spell(move)}" for move in sorted(found[:MOST_LISTED])]
    return printed + ["cut"] * (len(found) > MOST_LISTED)


def of_record(judge):
    def command(words, standard_input, files):
        text, record = take_file(files, words[0]), take_file(files, words[1])
        game = load(text)
        if len(record) > MOST_INPUT:
            raise Fault("form 0", 2)
        try:
            return judge(game, record)
        except records.Faulty as faulty:
            raise Fault(str(faulty), 2)

    return command


COMMANDS = {
    (): referee,
    ("referee",): referee,
    ("check",): check,
    ("moves",): moves,
    ("replay",): of_record(records.replay),
    ("migrate",): of_record(records.migrate),
}


def main():
    words = sys.argv[1:]
    if tuple(words[:1]) not in COMMANDS:
        print(__doc__, file=sys.stderr)
        return 64
    files = {}
    for name in words[1:]:
        if os.path.isfile(name):
            with open(name, "rb") as file:
                files[name] = file.read(MOST_INPUT + 1)
    reads = not words or words[0] == "referee"
    printed, status = run(words, sys.stdin.buffer.read(MOST_INPUT + 1) if reads else b"", files)
    sys.stdout.buffer.write(printed)
    return status


if __name__ == "__main__":
    sys.exit(main())
