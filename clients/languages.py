#!/usr/bin/env python3
"""Lets the players in C, C++, Rust and Python play each other over `rbg serve`, and checks each record.

    languages.py GAME.. [--rbg FILE] [--think MS]

The players are compiled with librbg.a first, and so are trials of what the classes for C++ and the crate for Rust accept and
refuse, which are run on the first game, tic-tac-toe. Each plays each other one, in both orders, in each of the games, which
have two players. Each plays chess once. Then they meet in a ring: with kings alone, where each of several moves ends play; and
in the last game, whose referee is killed twice and goes on from its log. At last Python's player plays without the library.
Each match has to be finished by the rules: nobody may be late, or be refused too often. A turn has a minute, so that nobody is
late since the machine is slow.
"""

import argparse
import itertools
import os
import re
import subprocess
import sys
import tempfile
import time
from pathlib import Path
from typing import Optional

from served import Wrong, end, ended_before, is_good, listen

HERE = Path(__file__).resolve().parent
ROOT = HERE.parent
CHESS = ROOT / "crates/rbg_games/data/chess.rbg"
PATIENCE = 900  # seconds in which a match has to end, however slow the machine is
TURN = 60_000  # milliseconds
REFUSALS, AFTER_RESTARTS = 0, 3  # how many are allowed; a player may answer once before all that was played has come
KILLED_AFTER = (8, 20)  # lines of the log
SANITIZED = ["-fsanitize=address,undefined", "-fno-sanitize-recover=all"]

Players = dict[str, list[str]]


def run(*words: object) -> None:
    """Runs a command, which has to succeed and to say nothing."""
    done = subprocess.run([str(word) for word in words], stdout=subprocess.PIPE, stderr=subprocess.STDOUT, text=True)
    if done.returncode or done.stdout:
        raise Wrong(f"{' '.join(map(str, words))}: status {done.returncode}\n{done.stdout}")


def tried(folder: Path, game: Path) -> None:
    """Compiles and runs the trials of the classes for C++ and the crate for Rust, on tic-tac-toe. Each needs the crate in the
    folder. The crate's build script has to say that a new library makes a new crate."""
    library, flags = ROOT / "librbg.a", ["-std=c++17", "-pthread", "-Wall", "-Wextra", "-Werror", f"-I{ROOT / 'include'}"]
    for name, more in (("plain", ["-O2"]), ("sanitized", ["-O1", *SANITIZED])):
        run(os.environ.get("CXX", "g++"), *flags, *more, HERE / "cpp/trial.cpp", library, "-o", folder / f"trial_{name}")
        run(folder / f"trial_{name}", game)
    rustc = [os.environ.get("RUSTC", "rustc"), "--edition", "2021", "-O", "-D", "warnings", "-L", f"native={ROOT}"]
    run(*rustc, "-o", folder / "trial_rust", "--extern", f"rbg={folder / 'librbg.rlib'}", HERE / "rust/trial.rs")
    run(folder / "trial_rust", game)
    run("env", f"CARGO_MANIFEST_DIR={HERE / 'rust'}", *rustc, "-o", folder / "build", HERE / "rust/build.rs")
    said = subprocess.run([folder / "build"], stdout=subprocess.PIPE, text=True, env={**os.environ, "RBG_LIB": str(folder)}).stdout
    if f"cargo:rerun-if-changed={folder}/librbg.a\n" not in said:
        raise Wrong(f"cargo would keep an old library: {said}")


def compiled(folder: Path) -> Players:
    """The commands of the players, which are compiled into a folder."""
    library, warned = ROOT / "librbg.a", ["-O2", "-Wall", "-Wextra", "-Werror", f"-I{ROOT / 'include'}"]
    c, cpp, rust = (folder / f"player_{name}" for name in ("c", "cpp", "rust"))
    run(os.environ.get("CC", "gcc"), *warned, HERE / "c/player.c", library, "-lm", "-o", c)
    run(os.environ.get("CXX", "g++"), "-std=c++17", *warned, HERE / "cpp/player.cpp", library, "-o", cpp)
    rustc = [os.environ.get("RUSTC", "rustc"), "--edition", "2021", "-O", "-D", "warnings", "-L", f"native={ROOT}", "--out-dir", folder]
    run(*rustc, "--crate-name", "rbg", "--crate-type", "rlib", HERE / "rust/rbg.rs")
    run(*rustc, "--crate-name", "player_rust", "--extern", f"rbg={folder / 'librbg.rlib'}", HERE / "rust/player.rs")
    python = [sys.executable, str(HERE / "python/player.py")]
    return {"C": [str(c)], "C++": [str(cpp)], "Rust": [str(rust)], "Python": python}


def kings_alone(chess: str) -> str:
    """Chess from kings alone.

    >>> kings_alone("[bu,bn,bg,bn]\\n[bp,bp,e, e ]\\n[wu,wg,wb,wn])")
    '[e, e, bg,e]\\n[e, e, e, e ]\\n[e, wg,e, e])'
    """
    return re.sub(r"(?<=[\[,])([wb][pnbruq])(?=[],])(,?)", lambda found: "e, " if found[2] else "e", chess)


def ring(names: list[str]) -> list[tuple[str, str]]:
    """Each with the next one.

    >>> ring(["C", "C++", "Rust"])
    [('C', 'C++'), ('C++', 'Rust'), ('Rust', 'C')]
    """
    return list(zip(names, names[1:] + names[:1]))


class Table:
    """Matches of a game."""

    def __init__(self, rbg: str, game: Path, folder: Path, think: int):
        self.rbg, self.game, self.think = rbg, game, think
        self.record, self.log = folder / "match.record", folder / "match.log"
        for file in folder.glob("match.log*"):
            file.unlink()

    def play(self, players: list[list[str]], *words: str, lines: Optional[int] = None, **how: str) -> Optional[str]:
        """The last line of the record of a match; None if the referee was killed since its log had so many lines."""
        referee, port = listen([self.rbg, "serve", str(self.game), "--minutes", "60", *words])
        clients: list[subprocess.Popen[bytes]] = []
        try:
            for seat, player in enumerate(players, 1):
                given = [*player, str(port), str(self.think), str(seat)]
                pipes = {"stdout": subprocess.DEVNULL, "stderr": subprocess.DEVNULL, "env": {**os.environ, **how}}
                clients.append(subprocess.Popen(given, cwd=ROOT, **pipes))
                if ended_before(referee, f"seat {seat} connected\n") is not None:
                    raise Wrong(f"the referee ended before seat {seat} was taken")
            while lines is not None and referee.poll() is None:
                if self.log.read_text().count("\n") >= lines:
                    return None
                time.sleep(0.002)
            output, said = referee.communicate(timeout=PATIENCE)
        except subprocess.TimeoutExpired:
            raise Wrong(f"{self.game.name}: not ended after {PATIENCE} seconds") from None
        finally:
            end(referee, clients)
        return self.checked(output, referee.returncode, said)

    def checked(self, record: str, status: int, said: str) -> str:
        """The last line of a record, which has to be good, of a match that was played to its end."""
        self.record.write_text(record)
        last = record.splitlines()[-1] if record else ""
        if status or " E0 " not in last:
            raise Wrong(f"{self.game.name}: status {status}, {last or said}")
        if not is_good(self.rbg, self.game, self.record):
            raise Wrong(f"{self.game.name}: the record isn't good")
        return last

    def match(self, players: list[list[str]], **how: str) -> str:
        """A match in which no message is refused."""
        last = self.play(players, "--turn", str(TURN), "--refusals", str(REFUSALS), **how)
        assert last is not None
        return last

    def killed(self, players: list[list[str]]) -> tuple[str, int]:
        """A match that goes on each time that its referee was killed, and how often it was."""
        words, times = ["--log", str(self.log), "--turn", str(TURN), "--refusals", str(AFTER_RESTARTS)], 0
        for lines in (*KILLED_AFTER, None):
            last = self.play(players, *words, lines=lines)
            if last is not None:
                break
            words, times = ["--resume", str(self.log)], times + 1
        if last is None or times == 0:
            raise Wrong(f"{self.game.name}: ended before the referee was killed: {last}")
        return last, times


def tournament(words: argparse.Namespace, folder: Path) -> int:
    """Plays all matches, and returns how many they are."""
    players, matches = compiled(folder), 0
    tried(folder, words.games[0])

    def report(what: str, one: str, other: str, last: str) -> None:
        nonlocal matches
        matches += 1
        print(f"{what}: {one} and {other}: {last}", flush=True)

    for game, (one, other) in itertools.product(words.games, itertools.permutations(players, 2)):
        report(game.stem, one, other, Table(words.rbg, game, folder, words.think).match([players[one], players[other]]))
    for one, other in ring(list(players))[::2]:
        report("chess", one, other, Table(words.rbg, CHESS, folder, 1).match([players[one], players[other]]))
    kings = folder / "kings.rbg"
    kings.write_text(kings_alone(CHESS.read_text()))
    for one, other in ring(list(players)):
        pair = [players[one], players[other]]
        report("kings alone", one, other, Table(words.rbg, kings, folder, words.think).match(pair))
        last, times = Table(words.rbg, words.games[-1], folder, words.think).killed(pair)
        report(f"{words.games[-1].stem}, killed {times} times", one, other, last)
    last = Table(words.rbg, words.games[0], folder, words.think).match([players["Python"]] * 2, RBG_LIBRARY="", RBG=words.rbg)
    report(f"{words.games[0].stem}, without the library", "Python", "Python", last)
    return matches


def main() -> int:
    parser = argparse.ArgumentParser(description=__doc__.splitlines()[0])
    parser.add_argument("games", type=Path, nargs="+", metavar="GAME")
    parser.add_argument("--rbg", default="./rbg", help="the program")
    parser.add_argument("--think", type=int, default=5, metavar="MS", help="how long a player thinks about a move")
    words = parser.parse_args()
    words.rbg, words.games = str(Path(words.rbg).resolve()), [game.resolve() for game in words.games]
    began = time.monotonic()
    with tempfile.TemporaryDirectory() as folder:
        try:
            matches = tournament(words, Path(folder))
        except Wrong as wrong:
            print(f"wrong: {wrong}", file=sys.stderr)
            return 1
    print(f"{matches} matches between players in four languages, each record is good, in {time.monotonic() - began:.0f} s")
    return 0


if __name__ == "__main__":
    sys.exit(main())
