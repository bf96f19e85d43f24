"""A tournament: its plan, the schedule of its matches, and the files of its folder."""

import json
import shlex
import subprocess
import sys
from contextlib import suppress
from dataclasses import asdict, dataclass, field
from pathlib import Path
from typing import Iterable, Iterator, Optional

from tournament_files import Fault, write_whole


def interpreter() -> str:
    """How jobs.txt names the interpreter: `python3`, or by its path if that would be another one.

    >>> interpreter() in ("python3", sys.executable)
    True
    """
    words = ["python3", "-c", "import sys; print(sys.executable)"]
    with suppress(OSError):
        if subprocess.run(words, capture_output=True, text=True).stdout.strip() == sys.executable:
            return "python3"
    return sys.executable


@dataclass(frozen=True)
class Pairing:
    """A match that is to be played: a game, a program for each seat, seat 1 first, the round, and the number of the
    opening, 0 for the game's own beginning."""

    game: str
    seats: tuple[str, ...]
    round: int = 1
    opening: int = 0

    @staticmethod
    def read(line: str) -> "Pairing":
        """
        >>> Pairing.read('{"game": "g", "seats": ["a", "b"], "round": 2, "opening": 0}')
        Pairing(game='g', seats=('a', 'b'), round=2, opening=0)
        """
        words = json.loads(line)
        words["seats"] = tuple(words["seats"])
        return Pairing(**words)

    def encounter(self) -> tuple:
        """What the matches share that differ only in who has which seat."""
        return self.game, self.round, self.opening, tuple(sorted(self.seats))


@dataclass
class Program:
    """A program that takes part. The command is one line; `wrapper` comes before it."""

    command: str
    wrapper: str = ""
    folder: str = ""  # where it is started
    environment: dict[str, str] = field(default_factory=dict)
    turn: Optional[int] = None  # milliseconds for a turn, if not the game's
    memory: Optional[int] = None  # megabytes of address space for each of its processes
    processor: Optional[int] = None  # seconds of processor time for each of its processes
    file: Optional[int] = None  # megabytes that a file may have which it writes
    output: int = 1_000_000  # bytes of what it prints that are kept
    since: int = 1  # the round of a Swiss tournament in which it joined


@dataclass
class Game:
    """A game of the tournament: its file, the time for a turn and how many openings are played."""

    turn: int
    players: int
    openings: int = 0


@dataclass
class Sprt:
    """A test whether a program is better than those it meets: `elo0` points at most, or `elo1` at least."""

    program: str
    elo0: float = 0
    elo1: float = 10
    alpha: float = 0.05
    beta: float = 0.05
    model: str = "pentanomial"


@dataclass
class Plan:
    """A tournament. Paths are absolute, so that each match can be played from any folder and on any machine."""

    rbg: str
    author: str
    programs: dict[str, Program]
    games: dict[str, Game]
    schedule: str = "round robin"
    challenger: str = ""  # who meets all others in a gauntlet
    orders: str = "rotations"
    rounds: int = 1
    refusals: int = 3
    wait: float = 20  # seconds in which a program has to connect
    grace: float = 5  # seconds in which a program may end by itself after a match
    minutes: float = 60  # how long a match may take
    moves: int = 0  # how many moves of the players a match may have; 0 for as many as they like
    late: str = "void"  # what a match is that reaches either: "draw", or "void", which counts for nobody
    heavy: str = "draw"  # what E4 is, likewise
    sync: bool = False  # whether each event of a match is on the disk before it is handled
    jobs: int = 4
    sprt: Optional[Sprt] = None

    @staticmethod
    def load(folder: Path) -> "Plan":
        """The plan of a tournament's folder."""
        try:
            words = json.loads((folder / "plan.json").read_text())
            words["programs"] = {name: Program(**program) for name, program in words["programs"].items()}
            words["games"] = {name: Game(**game) for name, game in words["games"].items()}
            words["sprt"] = Sprt(**words["sprt"]) if words["sprt"] else None
            return Plan(**words)
        except FileNotFoundError:
            raise Fault(f"{folder} has no plan.json: begin with tournament.py plan") from None
        except (ValueError, TypeError, KeyError, AttributeError) as error:
            raise Fault(f"{folder / 'plan.json'} isn't a plan: {error}") from None

    def turn_of(self, name: str, game: str) -> int:
        """How many milliseconds a program has for a turn of a game."""
        own = self.programs[name].turn
        return self.games[game].turn if own is None else own


class Folder:
    """The folder of a tournament."""

    def __init__(self, folder: Path):
        self.path = folder.resolve()
        self.plan, self.schedule = self.path / "plan.json", self.path / "schedule.jsonl"
        self.jobs, self.matches = self.path / "jobs.txt", self.path / "matches"

    def game(self, name: str) -> Path:
        return self.path / "games" / name

    def openings(self, name: str) -> Path:
        return self.path / "games" / f"{name}.openings"

    def opening(self, pairing: Pairing) -> list[tuple[int, str]]:
        """The moves with which a match begins, each the number of its player and its pairs.

        >>> import tempfile
        >>> with tempfile.TemporaryDirectory() as name:
        ...     folder = Folder(Path(name))
        ...     folder.openings("g").parent.mkdir()
        ...     _ = folder.openings("g").write_text("1 0 3 0 4, 2 1 7 1 8\\n")
        ...     folder.opening(Pairing("g", ("a", "b"), 1, 1)), folder.opening(Pairing("g", ("a", "b")))
        ([(1, '0 3 0 4'), (2, '1 7 1 8')], [])
        """
        if not pairing.opening:
            return []
        file = self.openings(pairing.game)
        try:
            line = file.read_text().splitlines()[pairing.opening - 1]
        except (OSError, IndexError):
            raise Fault(f"{file} has no opening {pairing.opening}") from None
        moves = [move.split(" ", 1) for move in line.split(", ")]
        return [(int(player), pairs) for player, pairs in moves]

    def pairings(self, first: int = 1) -> Iterator[Pairing]:
        """The matches of the schedule, from this one on."""
        try:
            with self.schedule.open() as lines:
                for number, line in enumerate(lines, 1):
                    if number >= first and line.endswith("\n"):
                        yield Pairing.read(line)
        except OSError as error:
            raise Fault(f"can't read {self.schedule}: {error.strerror}") from None
        except (ValueError, TypeError, KeyError) as error:
            raise Fault(f"line {number} of {self.schedule} is no match: {error}") from None

    def pairing(self, number: int) -> Pairing:
        if number >= 1:
            for pairing in self.pairings(number):
                return pairing
        raise Fault(f"there is no match {number}")

    def add(self, pairings: Iterable[Pairing]) -> int:
        """Puts matches after those of the schedule. Returns how many these are."""
        old = self.schedule.read_text() if self.schedule.exists() else ""
        first = old.count("\n") + 1
        lines = [json.dumps(asdict(pairing)) + "\n" for pairing in pairings]
        program = str(Path(__file__).resolve().with_name("tournament.py"))
        command = shlex.join([interpreter(), program, "match", str(self.path)])
        jobs = "".join(f"{command} {number}\n" for number in range(1, first + len(lines)))
        write_whole(self.jobs, jobs)
        write_whole(self.schedule, old + "".join(lines))
        return len(lines)


class Files:
    """The files of match K."""

    def __init__(self, folder: Folder, number: int, seats: int = 0):
        self.folder, self.stem = folder.matches, f"{number:04}"
        self.names = {"record": f"{self.stem}.record", "log": f"{self.stem}.log", "referee": f"{self.stem}.referee.txt"}
        self.names |= {f"seat {seat}": f"{self.stem}.seat{seat}.txt" for seat in range(1, seats + 1)}

    @property
    def record(self) -> Path:
        return self.folder / self.names["record"]

    @property
    def log(self) -> Path:
        return self.folder / self.names["log"]

    @property
    def referee(self) -> Path:
        """The referee's news."""
        return self.folder / self.names["referee"]

    @property
    def seats(self) -> list[Path]:
        """What the program of each seat printed."""
        return [self.folder / name for key, name in self.names.items() if key.startswith("seat ")]

    @property
    def result(self) -> Path:
        return self.folder / f"{self.stem}.json"

    @property
    def page(self) -> Path:
        return self.folder / f"{self.stem}.html"

    @property
    def lock(self) -> Path:
        return self.folder / f"{self.stem}.lock"
