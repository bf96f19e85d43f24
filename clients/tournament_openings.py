"""Openings: the first moves of a match, which its programs are sent and don't choose.

A tournament keeps those of a game in a file with a line for each: its moves with commas between them, each the number of
its player and its pairs. An organiser gives records, or a file with a line for each opening: the pairs of its moves, with
commas between them; what comes after // is a remark.
"""

import random
import sys
from pathlib import Path
from typing import Iterator, Optional, Sequence

from tournament_files import Fault

sys.path.insert(0, str(Path(__file__).resolve().parent / "python"))
import rbg as rules  # noqa: E402

Opening = list[tuple[int, str]]  # the player and the pairs of each move


def opening_script(opening: Opening, turn: int, refusals: int) -> str:
    """The script of an opening, with which a match begins. All its moves are made at moment 0.

    >>> print(opening_script([(1, "0 3 0 4"), (2, "1 7 1 8")], 5000, 3), end="")
    config 5000 3 0
    m 1 0 M0 3 0 4
    m 2 0 M1 7 1 8
    """
    return f"config {turn} {refusals} 0\n" + "".join(f"m {player} 0 M{pairs}\n" for player, pairs in opening)


def moves_of_record(text: str) -> list[str]:
    """The pairs of the players' moves of a record of either version.

    >>> moves_of_record("rbg 2\\nplayers a b\\nstart 9 0\\n0 0 0 1\\n5 1 0 3\\n7 2 1 3\\n7 -\\n")
    ['0 3', '1 3']
    >>> moves_of_record("rbg 1\\n0 0 1\\n1 0 3\\n-\\n")
    ['0 3']
    """
    first, *lines = text.splitlines()
    rows = [line.split(" ", 1) for line in lines[:-1]]
    if first == "rbg 2":
        rows = [line.split(" ", 2)[1:] for line in lines[2:-1]]
    return [pairs for player, pairs in rows if player != "0"]


def openings_of(text: str) -> list[list[str]]:
    """The openings that a file has: the pairs of their moves.

    >>> openings_of("// two\\n0 3, 1 3 // first\\n\\n 0  3,2 3\\n")
    [['0 3', '1 3'], ['0 3', '2 3']]
    """
    if text.startswith(("rbg 1\n", "rbg 2\n")):
        return [moves_of_record(text)]
    lines = [line.partition("//")[0].strip() for line in text.splitlines()]
    return [[" ".join(move.split()) for move in line.split(",")] for line in lines if line]


def with_players(game: rules.Game, moves: Sequence[str]) -> Opening:
    """An opening with the player of each move, if its moves are legal and play goes on after them."""
    state = game.state()
    made: Opening = []
    for pairs in moves:
        if state.is_over:
            raise Fault("play is over before its end")
        player = state.player
        try:
            state.make(pairs)
        except rules.Refused as refused:
            raise Fault(f"its move {len(made) + 1}, {pairs!r}, is refused: {refused.word}") from None
        made.append((player, pairs))
    if state.is_over:
        raise Fault("play is over after it")
    return made


def files_of(names: Sequence[Path]) -> list[Path]:
    """The files of a list of files and folders."""
    found: list[Path] = []
    for name in names:
        found += sorted(each for each in name.iterdir() if each.is_file()) if name.is_dir() else [name]
    return found


def read_openings(rbg: str, game: Path, names: Sequence[Path]) -> list[str]:
    """The openings of a game in these files and folders, each as a line of the file that a tournament keeps."""
    lines = []
    with rules.Game.load(game, rbg, library=False) as played:
        for file in files_of(names):
            try:
                wanted = openings_of(file.read_text())
            except OSError as error:
                raise Fault(f"can't read {file}: {error.strerror}") from None
            except ValueError:
                raise Fault(f"{file} has no openings") from None
            for number, moves in enumerate(wanted, 1):
                try:
                    lines.append(line_of(with_players(played, moves)))
                except Fault as fault:
                    raise Fault(f"opening {number} of {file}: {fault}") from None
    return lines


def line_of(opening: Opening) -> str:
    """
    >>> line_of([(1, "0 3"), (2, "1 3")])
    '1 0 3, 2 1 3'
    """
    return ", ".join(f"{player} {pairs}" for player, pairs in opening)


def shares_of(endings: Sequence[tuple[Optional[list[int]], int]], players: int) -> list[float]:
    """What each player takes from the others on the mean, by how matches have ended: 0.5 if all are even. Matches that
    didn't end are draws.

    >>> shares_of([([100, 0], 3), ([0, 100], 1)], 2), shares_of([(None, 5)], 2), shares_of([([9], 5)], 1)
    ([0.75, 0.25], [0.5, 0.5], [0.5])
    """
    taken, matches = [0.0] * players, 0
    for scores, count in endings:
        matches += count
        for one in range(players):
            others = [other for other in range(players) if other != one and scores]
            # half a point for each other one, more for each below and less for each above
            above = sum((scores[one] > scores[other]) - (scores[one] < scores[other]) for other in others) if scores else 0
            taken[one] += count * (0.5 + above / (2 * max(1, players - 1)))
    return [each / matches for each in taken]


def walk(state: rules.State, plies: int, chance: random.Random) -> None:
    """Makes random moves; fewer if play ends."""
    while len(state.history) < plies and not state.is_over:
        state.make(chance.choice(state.moves()))


def make_openings(
    rbg: str, game: Path, count: int, plies: int, seed: int, playouts: int = 100, balance: float = 0.15
) -> Iterator[str]:
    """Makes this many openings of a game: random moves that lead to different places, from which by random matches
    no player takes more or less from the others than half, and `balance` to each side. Without such matches
    all places will do."""
    chance = random.Random(seed)
    seen: set[tuple] = set()
    found = 0
    with rules.Game.load(game, rbg, library=False) as played:
        for number in range(100 * count):
            state = played.state()
            walk(state, plies, chance)
            place = state.player, *state.board, -1, *state.values.values()
            if not state.is_over and place not in seen:
                seen.add(place)
                shares = shares_of(state.playouts(playouts, number), len(played.players)) if playouts else []
                if all(abs(share - 0.5) <= balance for share in shares):
                    found += 1
                    yield ", ".join(state.history) + " //" * bool(shares) + "".join(f" {share:.2f}" for share in shares)
            if found == count:
                return
    raise Fault(f"only {found} of {count} openings were found in {100 * count} tries: there may be no more")
