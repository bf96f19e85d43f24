#!/usr/bin/env python3
"""Counts the sequences of moves of a game by a program of its own, and follows matches in both.

    python3 tools/counts/counting.py                      counts as deep as the stored run of rbg_games, and compares
    python3 tools/counts/counting.py clobber 3            counts one game up to the depth
    python3 tools/counts/counting.py --follow clobber 20  plays 20 random matches, and compares places
    python3 tools/counts/counting.py --match clobber      follows the match that is stored with the game

A game is a module beside this one. It plays by its own board and its own rules, and knows nothing of the language:
`START` is a place, `moves(place)` the places to which the moves lead, one for each move, and none if play is
finished, `player(place)` the number of the player to move, `board(place)` the names of the pieces in the order of the
vertices, and `scores(place)` the scores if play is finished. If two moves may lead to the same board,
`values(place)` has what some variables hold, by name. `from_board(names)` is the place with the first player to move
and these pieces, for the boards that are stored beside a game.
"""

import functools
import importlib
import os
import pathlib
import random
import re
import sys

TOP = pathlib.Path(__file__).resolve().parents[2]
STORED = TOP / "crates/rbg_games"


def count(game, start, depth):
    """For each depth how many sequences of this many moves there are, and after how many of them play is finished."""

    @functools.lru_cache(maxsize=1 << 18)
    def counts_after(place, left):
        total = [(0, 0)] * left
        for following in game.moves(place):
            ends = not game.moves(following)
            deeper = counts_after(following, left - 1) if left > 1 and not ends else ()
            for index, (sequences, ended) in enumerate([(1, int(ends)), *deeper]):
                total[index] = (total[index][0] + sequences, total[index][1] + ended)
        return tuple(total)

    return [f"{level} {sequences} {ended}" for level, (sequences, ended) in enumerate(counts_after(start, depth), 1)]


def stored_counts():
    """The counts that the stored run of rbg_games has, by the name of the game's file."""
    counts, lines = {}, None
    for line in (STORED / "stdout").read_text().splitlines():
        words = line.split(" ")
        if line.endswith((".rbg", ".board")):
            lines = counts[line] = counts.get(line, [])
        elif lines is not None and len(words) == 3 and line.replace(" ", "").isdigit():
            lines.append(line)
        elif words[0] != "players":
            lines = None
    return {name: lines for name, lines in counts.items() if lines}


def place_of(game, name):
    """The place with which the counts of a file begin: a game's own, or that of a board."""
    if name.endswith(".rbg"):
        return game.START
    rows = re.findall(r"\[([^\]]*)\]", (STORED / "data" / name).read_text())
    return game.from_board([piece.strip() for row in rows for piece in row.split(",")])


def compare():
    """Compares each count that is stored with that of the game's own program. True if they agree."""
    agree = True
    for name, lines in stored_counts().items():
        module = name.split(".")[0]
        if (pathlib.Path(__file__).parent / f"{module}.py").exists():
            game = importlib.import_module(module)
            same = count(game, place_of(game, name), len(lines)) == lines
            print(name, "agrees" if same else "DIFFERS", *[line.split()[1] for line in lines], flush=True)
            agree = agree and same
    return agree


class Seen:
    """What `./rbg ask` says of a state: the pieces, who is to move (0 if play is finished), and the variables."""

    def __init__(self, state):
        self.board = [state.game.pieces[number] for number in state.board]
        self.player, self.scores, self.values = state.player, state.scores, state.values

    def fits(self, game, place):
        """Whether a place of the game's own program has the same board, player to move and values."""
        values = game.values(place) if hasattr(game, "values") else {}
        return (
            self.board == list(game.board(place))
            and self.player in (0, game.player(place))
            and all(self.values[name] == value for name, value in values.items())
        )


def follow_match(game, state, choose):
    """Plays a match in both, and compares each place on the way. How many places there were."""
    place, places, seen = game.START, 1, Seen(state)
    assert seen.fits(game, place)
    while seen.player:
        moves, following = state.moves(), game.moves(place)
        assert len(moves) == len(following), (place, len(moves), len(following))
        seen = Seen(state.make(choose(moves)))
        place = next((other for other in following if seen.fits(game, other)), None)
        assert place is not None, seen.board
        places += 1
    assert not game.moves(place), place
    assert seen.scores == list(game.scores(place)), (place, seen.scores)
    return places


def follow(name, matches, choose):
    """Plays matches in `./rbg ask` and in the game's own program."""
    sys.path.insert(0, str(TOP / "clients/python"))
    from rbg import Game

    game, places = importlib.import_module(name), 0
    with Game.load(STORED / f"data/{name}.rbg", os.environ.get("RBG", str(TOP / "rbg")), library=False) as rules:
        for _ in range(matches):
            places += follow_match(game, rules.state(), choose)
    print(f"{name}: {places} places are the same in both")


def main():
    words = sys.argv[1:]
    if not words:
        sys.exit(not compare())
    if words[0] == "--follow":
        follow(words[1], int(words[2]), random.Random(1).choice)
    elif words[0] == "--match":
        lines = (STORED / f"data/{words[1]}.moves").read_text().splitlines()
        stored = iter([line for line in lines if not line.startswith("//")])
        follow(words[1], 1, lambda moves: next(stored))
    else:
        game = importlib.import_module(words[0])
        print(*count(game, game.START, int(words[1])), sep="\n")


if __name__ == "__main__":
    main()
