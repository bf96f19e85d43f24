"""What PLAN.toml says, and the folder that is made of it."""

import shlex
import shutil
import subprocess
import tomllib
from dataclasses import fields
from pathlib import Path
from typing import Any, Optional

from tournament_files import Fault, write_whole
from tournament_openings import read_openings
from tournament_plan import Folder, Game, Plan, Program, Sprt

# what each number of a plan may be, from and to
LIMITS = {
    "rounds": (1, 1_000_000),
    "turn": (1, 3_600_000),
    "refusals": (0, 100),
    "wait": (0.1, 86_400),
    "grace": (0, 3_600),
    "minutes": (0.01, 1_000_000),
    "moves": (1, 1_000_000),
    "jobs": (1, 10_000),
    "memory": (1, 1_000_000_000),
    "processor": (1, 1_000_000_000),
    "file": (0, 1_000_000_000),
    "output": (0, 1_000_000_000),
    "elo0": (-5_000, 5_000),
    "elo1": (-5_000, 5_000),
    "alpha": (0.0001, 0.4999),
    "beta": (0.0001, 0.4999),
}
FRACTIONS = ("wait", "grace", "minutes", "elo0", "elo1", "alpha", "beta")  # these may be no whole numbers
CHOICES = {
    "schedule": ("round robin", "gauntlet", "swiss"),
    "orders": ("rotations", "all"),
    "late": ("draw", "void"),
    "heavy": ("draw", "void"),
    "model": ("trinomial", "pentanomial"),
}
TEXTS = ("rbg", "author", "challenger", "name", "command", "wrapper", "folder", "file of a game", "program")
LIMITS_OF_PROGRAMS = ("memory", "processor", "file", "output", "wrapper", "environment")  # they may be in the plan too
PLAN_KEYS = {"games", "programs", "sprt", "turn", "schedule", "challenger", "orders", "rounds", "refusals", "wait", "grace"}
PLAN_KEYS |= {"minutes", "moves", "late", "heavy", "sync", "jobs", "rbg", "author", *LIMITS_OF_PROGRAMS}
PROGRAM_KEYS = {"name", "command", "folder", "turn", *LIMITS_OF_PROGRAMS}
SPRT_KEYS = {field.name for field in fields(Sprt)}


def check(words: dict[str, Any], keys: set[str], of: str) -> None:
    """Sees to it that words have known keys, and of each what it may have.

    >>> check({"turn": 0}, {"turn"}, "a plan")
    Traceback (most recent call last):
    tournament_files.Fault: turn must be a number from 1 to 3600000
    >>> check({"late": "lost"}, {"late"}, "a plan")
    Traceback (most recent call last):
    tournament_files.Fault: late must be "draw" or "void"
    >>> check({"sync": 1}, {"sync"}, "a plan")
    Traceback (most recent call last):
    tournament_files.Fault: sync must be true or false
    >>> check({"tern": 5}, {"turn"}, "a plan")
    Traceback (most recent call last):
    tournament_files.Fault: unknown key tern of a plan
    """
    for key, value in words.items():
        if key not in keys:
            raise Fault(f"unknown key {key} of {of}")
        if key in LIMITS:
            low, high = LIMITS[key]
            kinds = (int, float) if key in FRACTIONS else (int,)
            if type(value) not in kinds or not low <= value <= high:
                raise Fault(f"{key} must be a number from {low} to {high}")
        elif key == "sync":
            if type(value) is not bool:
                raise Fault("sync must be true or false")
        elif key in CHOICES and value not in CHOICES[key]:
            raise Fault(f"{key} must be " + " or ".join(f'"{choice}"' for choice in CHOICES[key]))
        elif key in TEXTS and (not isinstance(value, str) or "\0" in value):
            raise Fault(f"{key} must be a text")
        elif key == "environment" and not (
            isinstance(value, dict) and all(isinstance(each, str) and "\0" not in each for each in value.values())
        ):
            raise Fault("environment must be a table of texts")


def program_of(words: object, common: dict[str, Any], base: Path) -> tuple[str, Program]:
    """The name of a program, and how it is started.

    >>> program_of({"name": "my bot", "command": "bot --port {port}"}, {"memory": 9}, Path("/t"))[1].memory
    9
    >>> program_of({"name": "a,b", "command": "bot {port}"}, {}, Path("/t"))
    Traceback (most recent call last):
    tournament_files.Fault: 'a,b': a name is a line without a comma
    >>> program_of({"name": "a", "command": "bot"}, {}, Path("/t"))
    Traceback (most recent call last):
    tournament_files.Fault: the command of a has no {port}
    """
    if not isinstance(words, dict) or not {"name", "command"} <= set(words):
        raise Fault("each of programs has a name and a command")
    check(words, PROGRAM_KEYS, "a program")
    words = {**common, **words}
    name, command = words.pop("name"), words["command"]
    if not name.strip() or not name.isprintable() or "," in name:
        raise Fault(f"{name!r}: a name is a line without a comma")
    for key in ("command", "wrapper"):
        try:
            split = shlex.split(words.get(key, ""))
        except ValueError as error:
            raise Fault(f"the {key} of {name} can't be read: {error}") from None
        if key == "command" and not split:
            raise Fault(f"the command of {name} is empty")
    if "{port}" not in command:
        raise Fault(f"the command of {name} has no {{port}}")
    words["folder"] = str((base / words.get("folder", "")).resolve())
    return name, Program(**words)


def players_of(rbg: str, game: Path) -> int:
    """How many players a game has, as `rbg check` says."""
    try:
        checked = subprocess.run([rbg, "check", str(game)], capture_output=True, text=True, errors="replace")
    except OSError as error:
        raise Fault(f"{rbg}: {error.strerror}") from None
    if checked.returncode:
        reported = checked.stdout.strip() if checked.stdout.startswith("refused") else checked.stderr.strip()
        raise Fault(f"{game}: {reported or checked.stdout.strip()}")
    return int(checked.stdout.split()[1])


class Reading:
    """A plan, and the files from which its folder is made."""

    def __init__(self, words: dict[str, Any], base: Path):
        check(words, PLAN_KEYS, "a plan")
        for key in ("games", "programs"):
            if not isinstance(words.get(key), list) or not words[key]:
                raise Fault(f"{key} must be a list that isn't empty")
        self.base, self.turn = base, words.pop("turn", 60_000)
        self.rounds: Optional[int] = words.pop("rounds", None)
        common = {key: words.pop(key) for key in LIMITS_OF_PROGRAMS if key in words}
        listed = [program_of(program, common, base) for program in words.pop("programs")]
        self.files: dict[str, Path] = {}
        self.openings: dict[str, list[Path]] = {}
        games = dict(map(self.game_of, words.pop("games")))
        if len(dict(listed)) < len(listed):
            raise Fault("two programs have the same name")
        for name in ("rbg", "author"):
            command = words.get(name, {"rbg": "rbg", "author": "rbg_author"}[name])
            words[name] = str((base / command).resolve()) if "/" in command else command
        sprt = words.pop("sprt", None)
        if sprt is not None:
            check(sprt, SPRT_KEYS, "an sprt")
            sprt = Sprt(**{"program": listed[0][0], **sprt})
        self.plan = Plan(programs=dict(listed), games=games, sprt=sprt, **words)

    def game_of(self, game: object) -> tuple[str, Game]:
        """The name of a game, and its settings: a file, or a table with it."""
        words = {"file": game} if isinstance(game, str) else game
        if not isinstance(words, dict) or not isinstance(words.get("file"), str):
            raise Fault("each of games is the name of a file, or a table with it")
        check({key: value for key, value in words.items() if key not in ("file", "openings")}, {"turn"}, "a game")
        openings = words.get("openings", [])
        names = [openings] if isinstance(openings, str) else openings
        if not isinstance(names, list) or not all(isinstance(each, str) for each in names):
            raise Fault("openings is a file, a folder, or a list of these")
        file = self.base / words["file"]
        if file.name in self.files:
            raise Fault("two games have the same name")
        self.files[file.name] = file
        self.openings[file.name] = [self.base / each for each in names]
        return file.name, Game(words.get("turn", self.turn), 0)

    def look(self) -> dict[str, list[str]]:
        """Looks at the games and their openings, and whether the programs can play them. Returns the openings."""
        plan = self.plan
        lines: dict[str, list[str]] = {}
        for name, game in plan.games.items():
            game.players = players_of(plan.rbg, self.files[name])
            if game.players > len(plan.programs):
                raise Fault(f"{name} has {game.players} players, and there are {len(plan.programs)} programs")
            if self.openings[name]:
                lines[name] = read_openings(plan.rbg, self.files[name], self.openings[name])
                game.openings = len(lines[name])
                if not lines[name]:
                    raise Fault(f"the openings of {name} are empty")
        # each opening once, if nothing else is said
        plan.rounds = self.rounds or max([1, *[game.openings for game in plan.games.values()]])
        self.look_at_schedule()
        return lines

    def look_at_schedule(self) -> None:
        """Sees to it that the schedule and the test fit the games and the programs."""
        plan = self.plan
        players = {game.players for game in plan.games.values()}
        if plan.schedule == "gauntlet":
            plan.challenger = plan.challenger or next(iter(plan.programs))
        elif plan.challenger:
            raise Fault("challenger is for a gauntlet")
        if plan.challenger and plan.challenger not in plan.programs:
            raise Fault(f"the challenger {plan.challenger} is no program")
        if plan.schedule == "swiss" and len(players) > 1:
            raise Fault("the games of a Swiss tournament have as many players")
        if plan.sprt and (players != {2} or plan.sprt.program not in plan.programs or plan.sprt.elo0 >= plan.sprt.elo1):
            raise Fault("an sprt is of a program in games of two players, and its elo0 is below its elo1")


def read_plan(file: Path) -> tuple[Reading, dict[str, list[str]]]:
    """What PLAN.toml says, and the openings. Paths start from the folder in which it lies."""
    try:
        with file.open("rb") as opened:
            reading = Reading(tomllib.load(opened), file.parent.resolve())
        return reading, reading.look()
    except OSError as error:
        raise Fault(f"can't read {error.filename or file}: {error.strerror}") from None
    except (tomllib.TOMLDecodeError, UnicodeDecodeError, Fault) as error:
        raise Fault(f"{file}: {error}") from None


def copy_games(reading: Reading, openings: dict[str, list[str]], folder: Folder) -> None:
    """Copies the games and their openings into the folder of a tournament."""
    try:
        (folder.path / "games").mkdir(parents=True, exist_ok=True)
        folder.matches.mkdir(exist_ok=True)
        for name, file in reading.files.items():
            if not folder.game(name).exists():
                shutil.copy(file, folder.game(name))
            if name in openings:
                write_whole(folder.openings(name), "".join(f"{line}\n" for line in openings[name]))
    except OSError as error:
        raise Fault(f"can't write {error.filename or folder.path}: {error.strerror}") from None
