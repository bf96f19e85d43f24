"""Records (docs/FORMATS.md, "Records"; crates/rbg_record/README.md, "Decisions")."""

import re

import play
import wire
from match import MOST_MOMENT
from scripts import MOST_TURN
from search import Over, Place

NAMES = re.compile(rb"players( [A-Za-z_][A-Za-z0-9_]*)+")


class Faulty(Exception):
    """`bad <line>`, `form <line>` or `over <line>`."""


# The form of lines


class Lines:
    """The lines of a record; `number` is that of the line that was taken last."""

    def __init__(self, record):
        self.rest = record
        self.number = 0

    def take(self):
        """The next line, which has its line feed."""
        self.number += 1
        line, line_feed, self.rest = self.rest.partition(b"\n")
        if not line_feed:
            raise self.form()
        return line

    def form(self):
        return Faulty(f"form {self.number}")

    def bad(self):
        return Faulty(f"bad {self.number}")

    def over(self):
        return Faulty(f"over {self.number}")


def read_entry(line):
    """A move `("move", player, pairs)` or an outcome `(name, numbers)` of version 1, or None if the line is neither."""
    name, space, rest = line.partition(b" ")
    if line in (b"E4", b"-"):
        return line.decode(), []
    if name == b"E0" and space:
        numbers = wire.numbers(rest.split(b" "))
        return None if numbers is None else ("E0", numbers)
    if name in (b"E1", b"E2", b"E3") and space:
        player = wire.number(rest)
        return None if player is None else (name.decode(), [player])
    player, pairs = wire.number(name), wire.pairs(rest)
    if player is None or pairs is None or len(pairs) > wire.MOST_PAIRS:
        return None
    return "move", player, pairs


def read_timed_entry(line, version):
    """The moment and the entry. In version 1 the moment is 0 of a turn of one millisecond, and 1 if time is over."""
    if version == 1:
        entry = read_entry(line)
        return (1 if entry and entry[0] == "E1" else 0), entry
    moment, _, rest = line.partition(b" ")
    return wire.number(moment), read_entry(rest)


# Replay


def replay(game, record):
    follow(game, record)
    return ["good"]


def follow(game, record):
    """Checks a record, the lines in order, each for its form and then for being right. The place to which it leads."""
    lines = Lines(record)
    version = {b"rbg 1": 1, b"rbg 2": 2}.get(lines.take())
    if version is None:
        raise lines.form()
    turn, now = (1, 0) if version == 1 else replay_head(game, lines)
    judge = Judge(game, turn, now)
    while True:
        moment, entry = read_timed_entry(lines.take(), version)
        if moment is None or entry is None:
            raise lines.form()
        try:
            right = judge.move(moment, *entry[1:]) if entry[0] == "move" else judge.outcome(moment, *entry)
        except Over:
            raise lines.over()
        if not right:
            raise lines.bad()
        if entry[0] != "move":
            break
    if lines.rest:
        lines.number += 1
        raise lines.form()
    return judge.place


def replay_head(game, lines):
    """The names and the start of version 2."""
    line = lines.take()
    if not NAMES.fullmatch(line):
        raise lines.form()
    if line.decode().split(" ")[1:] != game.players:
        raise lines.bad()
    words = lines.take().split(b" ")
    numbers = wire.numbers(words[1:])
    if words[0] != b"start" or numbers is None or len(numbers) != 2:
        raise lines.form()
    turn, now = numbers
    if not 1 <= turn <= MOST_TURN or now > MOST_MOMENT:
        raise lines.bad()
    return turn, now


class Judge:
    """Follows a record. What can be judged without a question is judged first."""

    def __init__(self, game, turn, now):
        self.place = Place(game)
        self.players = len(game.players)
        self.turn, self.last = turn, now

    def within_turn(self, moment):
        return self.last <= moment < self.last + self.turn and moment <= MOST_MOMENT

    def move(self, moment, player, pairs):
        if player != self.place.mover():
            return False
        fits = moment == self.last if player == play.KEEPER else self.within_turn(moment)
        if not fits or not self.place.is_legal(pairs):
            return False
        self.place.make(pairs)
        self.last = moment
        return True

    def outcome(self, moment, name, numbers):
        if name == "E4":
            return self.within_turn(moment)
        if name == "E0":
            return moment == self.last and self.place.find_move() is None and numbers == self.place.scores()
        if name == "E1":
            fits = self.last + self.turn <= moment <= MOST_MOMENT
        else:
            fits = self.within_turn(moment)
        if not fits or not self.player_fits(name, numbers):
            return False
        return self.place.find_move() is not None

    def player_fits(self, name, numbers):
        """A player is to move; `E1` names it, and `E2` and `E3` some player."""
        if self.place.mover() == play.KEEPER:
            return False
        if name == "E1":
            return numbers == [self.place.mover()]
        return name == "-" or 1 <= numbers[0] <= self.players


# Migrate


def migrate(game, record):
    """Version 2 of a record of version 1, of which the form alone is looked at."""
    lines = Lines(record)
    if lines.take() != b"rbg 1":
        raise lines.form()
    migrated = ["rbg 2", "players " + " ".join(game.players), "start 1 0"]
    while True:
        line = lines.take()
        moment, entry = read_timed_entry(line, 1)
        if entry is None:
            raise lines.form()
        migrated.append(f"{moment} {line.decode()}")
        if entry[0] != "move":
            break
    if lines.rest:
        lines.number += 1
        raise lines.form()
    return migrated


# The record of a match


def of_match(match):
    """The lines of the match's record of version 2."""
    names = " ".join(["players", *match.place.game.players])
    moves = [f"{moment} {player} {wire.spell(pairs)}" for moment, player, pairs in match.made]
    return ["rbg 2", names, f"start {match.turn} {match.began}", *moves, f"{match.now} {match.outcome or '-'}"]
