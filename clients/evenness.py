#!/usr/bin/env python3
"""Tries how evenly `rbg ask` chooses moves by chance, which nothing proves: each legal move is to be chosen equally often.

    clients/evenness.py --rbg PROGRAM [--draws N] GAME ..

Each game is asked where play begins, and at a place after some moves by chance. The seeds are always the same, so a program
passes always or never.

>>> round(deviation([10, 10, 10]), 1), round(deviation([20, 20, 5]), 1)
(-1.0, 4.0)
"""

import argparse
import subprocess
import sys
from collections import Counter
from pathlib import Path

PLIES = 6  # how many moves by chance lead to the second place
MOST = 4.0  # how many standard deviations above what is expected are too many


def deviation(counts: list[int]) -> float:
    """How many standard deviations the sum of squares of these counts lies above what equal chances would give."""
    mean, free = sum(counts) / len(counts), len(counts) - 1
    square = sum((count - mean) ** 2 / mean for count in counts)
    return (square - free) / (2 * max(free, 1)) ** 0.5


def answers(program: str, game: Path, questions: list[str]) -> list[str]:
    """The lines that a session prints for these questions."""
    asked = subprocess.run([program, "ask", str(game)], input="".join(it + "\n" for it in questions), capture_output=True, text=True)
    return asked.stdout.splitlines()


def moves_of(lines: list[str]) -> list[str]:
    """The moves in the answer of `moves`.

    >>> moves_of(["moves 2", "3 1 4 2", "5 1 6 2", "place 1"])
    ['3 1 4 2', '5 1 6 2']
    """
    many = int(lines[0].split()[1])
    return lines[1 : 1 + many]


def chosen(lines: list[str]) -> list[str]:
    """The moves in answers of `sample SEED 1`, one after another.

    >>> chosen(["sample 1", "3 1 4 2", "place 1 0", "sample 0", "place 1 0", "sample 1", "5 1", "place 2 0"])
    ['3 1 4 2', '5 1']
    """
    return [after for line, after in zip(lines, lines[1:]) if line == "sample 1"]


def tried(program: str, game: Path, before: list[str], draws: int) -> str:
    """What is wrong with the choices after some moves, or nothing."""
    leading = [f"make {move}" for move in before]
    there = answers(program, game, leading + ["moves"])
    moves = moves_of([line for line in there if line][[line.split()[0] for line in there if line].index("moves") :])
    if len(moves) < 2:
        return ""
    lines = answers(program, game, leading + [f"sample {seed} 1" for seed in range(1, draws + 1)])
    counts = Counter(chosen(lines))
    if set(counts) - set(moves):
        return f"{game.name}: a move that isn't listed was chosen"
    far = deviation([counts[move] for move in moves])
    return f"{game.name}: {len(moves)} moves are chosen unevenly, {far:.1f} standard deviations" if far > MOST else ""


def main() -> None:
    parser = argparse.ArgumentParser(description=__doc__.splitlines()[0])
    parser.add_argument("--rbg", required=True)
    parser.add_argument("--draws", type=int, default=10000)
    parser.add_argument("games", nargs="+", type=Path)
    given = parser.parse_args()
    wrong = []
    for game in given.games:
        lines = answers(given.rbg, game, [f"sample 7 {PLIES}"])
        before = lines[1 : 1 + int(lines[0].split()[1])]
        wrong += [it for moves in ([], before) if (it := tried(given.rbg, game, moves, given.draws))]
    for it in wrong:
        print(it)
    if wrong:
        sys.exit(1)
    print(f"{len(given.games)} games: moves are chosen evenly")


if __name__ == "__main__":
    main()
