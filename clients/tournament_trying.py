"""What the trials of tournament.py share: plans, programs, and looks at what came of them."""

import json
import os
import shutil
import subprocess
import sys
import tempfile
import time
from pathlib import Path
from typing import Callable, Optional, Sequence

CLIENTS = Path(__file__).resolve().parent
ROOT = CLIENTS.parent
EXAMPLE, GAMES = CLIENTS / "example", ROOT / "crates" / "rbg_games" / "data"
TOOL = [sys.executable, str(CLIENTS / "tournament.py")]
PATIENCE = 120.0  # seconds in which what is waited for has to come


class Wrong(Exception):
    """What isn't as it should be."""


def expect(so: bool, what: str) -> None:
    if not so:
        raise Wrong(what)


def tool(*words: object, status: Optional[int] = 0) -> str:
    """What a command of tournament.py prints, on standard error too."""
    done = subprocess.run([*TOOL, *map(str, words)], capture_output=True, text=True)
    if status is not None and done.returncode != status:
        raise Wrong(f"{words[0]} ended with status {done.returncode}: {done.stdout}{done.stderr}")
    return done.stdout + done.stderr


def begin_run(folder: Path, *words: object) -> subprocess.Popen:
    """A run that goes on beside what follows."""
    return subprocess.Popen([*TOOL, "run", *map(str, (folder, *words))], stderr=subprocess.DEVNULL)


def wait_for(test: Callable[[], object], what: str) -> None:
    """Waits until the test is met."""
    until = time.monotonic() + PATIENCE
    while not test():
        expect(time.monotonic() < until, what)
        time.sleep(0.02)


def plan_of(folder: Path, games: str, programs: dict[str, str], more: str = "") -> Path:
    """Writes a plan of games that ship. Of a program it has the command, and a line for each other key.

    >>> with tempfile.TemporaryDirectory() as folder:
    ...     print(*plan_of(Path(folder), "hex", {"a": "bot {port}\\nturn = 5"}).read_text().splitlines()[-2:])
    command = 'bot {port}' turn = 5
    """
    text = f'rbg = "{ROOT}/rbg"\nauthor = "{ROOT}/rbg_author"\n{more}\n'
    text += "" if "wait" in more else f"wait = {PATIENCE}\n"
    text += "games = [" + ", ".join(f'"{GAMES}/{game}.rbg"' for game in games.split()) + "]\n"
    for name, words in programs.items():
        command, *keys = words.split("\n")
        lines = ["[[programs]]", f'name = "{name}"', f'folder = "{EXAMPLE}"', f"command = '{command}'", *keys]
        text += "\n".join(lines) + "\n"
    file = folder / "plan.toml"
    file.write_text(text)
    return file


def steady(seed: int, slow: int = 0) -> str:
    """A player that plays the same match each time, and waits this many milliseconds before each move."""
    return f"{sys.executable} steady.py {{port}} --seed {seed} --slow {slow} --rbg ../../rbg"


def hostile(what: str) -> str:
    return f"{sys.executable} hostile.py {{port}} {what}"


def results_of(folder: Path) -> list[dict]:
    """The results of all matches, as results.json has them."""
    tool("table", folder)
    return json.loads((folder / "results.json").read_text())["matches"]


def play_all(folder: Path, games: str, programs: dict[str, str], more: str = "") -> list[dict]:
    """Plays a tournament of which matches may fail, and returns its results."""
    folder.mkdir(exist_ok=True)
    tool("plan", plan_of(folder, games, programs, more), folder / "t")
    tool("run", folder / "t", status=None)
    return results_of(folder / "t")


def written(folder: Path) -> dict[str, int]:
    """The moment at which each result was written."""
    return {file.name: file.stat().st_mtime_ns for file in (folder / "matches").glob("*.json")}


def may_run(needed: Sequence[str]) -> bool:
    """Whether these commands are there, and this is root. Says what is lacking."""
    lacking = [name for name in needed if shutil.which(name) is None]
    if lacking or os.getuid():
        print(f"to be installed: {' '.join(lacking) or 'nothing'}; to be run by root", file=sys.stderr)
    return not lacking and not os.getuid()


def plan_given() -> str:
    """The plan that the words of the command name, or that of the round robin."""
    return sys.argv[1] if len(sys.argv) > 1 else str(EXAMPLE / "round_robin.toml")


def is_whole(table: str) -> bool:
    """Whether all matches were played.

    >>> is_whole("36 of 36 matches played; 1 of them adjudged"), is_whole("35 of 36 matches played; 1 failed")
    (True, False)
    """
    last = [line.split() for line in table.splitlines() if " matches played" in line]
    return bool(last) and last[0][0] == last[0][2]
