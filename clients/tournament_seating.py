"""The programs of a match take their seats: each one is started when the one before it has its own."""

import os
import shlex
import shutil
import signal
from pathlib import Path
from typing import Optional, Sequence, Union

from tournament_plan import Pairing, Plan
from tournament_processes import Output, Process, Processes, limited
from tournament_seats import connections, holders, seats_of, waiting, wrong_seats


CLOSED = "closed its connection before the match"
STEP = 0.004  # seconds between two looks at the connections


class Intruder(Exception):
    """A process that is of no program of the match has taken a seat."""


def seats_news(reported: str) -> list[tuple[int, str]]:
    """The seats that were taken and left, in order, by a referee's news. A line that isn't whole isn't read.

    >>> seats_news("listening on port 4000\\nseat 1 connected\\nseat 1 left\\nseat 1 is Ada\\nseat 1 conn")
    [(1, 'connected'), (1, 'left')]
    """
    lines = [line.split(" ") for line in reported.splitlines(keepends=True)]
    news = [line for line in lines if line[0] == "seat" and line[2:] in (["connected\n"], ["left\n"])]
    return [(int(line[1]), line[2][:-1]) for line in news]


def command_of(plan: Plan, pairing: Pairing, seat: int, port: int, number: int) -> list[str]:
    """The words with which the program of a seat is started.

    >>> from tournament_plan import Game, Program
    >>> program = Program("bot {port} --seed {match}{seat} --ms {turn} '{game} x'", wrapper="nice -n 5")
    >>> plan = Plan("", "", {"a b": program}, {"g.rbg": Game(900, 2)})
    >>> command_of(plan, Pairing("g.rbg", ("a b", "a b")), 2, 4000, 7)
    ['nice', '-n', '5', 'bot', '4000', '--seed', '72', '--ms', '900', 'g x']
    """
    name = pairing.seats[seat - 1]
    words = {"port": port, "seat": seat, "game": Path(pairing.game).stem, "match": number}
    words["turn"] = plan.turn_of(name, pairing.game)
    program = plan.programs[name]
    command = shlex.split(program.wrapper) + shlex.split(program.command)
    for key, value in words.items():
        command = [word.replace("{%s}" % key, str(value)) for word in command]
    return command


class Referee:
    """The referee of a match: its process, its port, its news and what it prints."""

    def __init__(self, process: Process, port: int, reported: Output, printed: Output):
        self.process, self.port, self.output, self.printed = process, port, reported, printed

    @property
    def exit(self) -> Optional[str]:
        return self.process.exit

    def news(self) -> str:
        return self.output.text.decode(errors="replace")

    def has_said(self, line: str) -> bool:
        return f"{line}\n" in self.news()

    def has_begun(self) -> bool:
        return self.has_said("match begins") or self.has_said("match goes on")

    def fault(self) -> str:
        """Why it ended: what it printed, and its last news."""
        reported = [line for line in self.news().splitlines() if line.startswith(("can't", "error"))]
        printed = self.printed.text.decode(errors="replace").strip()
        return ": ".join([printed or self.exit or "it does nothing", *reported[-1:]])


class Seating:
    """The programs of a match, and those of them that have lost it by default, with their reasons."""

    def __init__(self, plan: Plan, pairing: Pairing, number: int, processes: Processes, outputs: Sequence[Output]):
        self.plan, self.pairing, self.number = plan, pairing, number
        self.processes, self.outputs = processes, outputs
        self.programs: list[Optional[Process]] = []
        self.absent: dict[int, str] = {}
        self.seen: dict[str, int] = {}  # the connections that were looked at
        self.queue: Optional[int] = 0  # and how many the referee hadn't accepted then

    def seat_all(self, referee: Referee) -> None:
        """Starts the programs in the order of their seats, each one when the one before it has connected. Meanwhile the
        referee is stopped, so that nothing is played before it is known whose the connections are; then it takes them in
        the order in which they came. When one doesn't come, the others are started all the same: who isn't there either
        wins nothing."""
        os.kill(referee.process.pid, signal.SIGSTOP)
        for seat in range(1, len(self.pairing.seats) + 1):
            wrong = self.seat_one(seat, referee)
            if isinstance(wrong, str):
                raise Intruder(wrong)
            if wrong is not None:
                self.absent = {wrong: "connected more than once"}
                return
        if not self.absent:
            os.kill(referee.process.pid, signal.SIGCONT)
            self.processes.wait(lambda: referee.exit is not None or referee.has_begun(), self.plan.wait)
            left = [seat for seat, news in seats_news(referee.news()) if news == "left"]
            if left:
                self.absent = {left[0]: CLOSED}

    def start(self, seat: int, port: int) -> Optional[Process]:
        """Starts the program of a seat."""
        program = self.plan.programs[self.pairing.seats[seat - 1]]
        words = command_of(self.plan, self.pairing, seat, port, self.number)
        limits = {"memory": program.memory, "processor": program.processor, "file": program.file}
        said = self.outputs[seat - 1]
        # where the example programs look for rbg
        environment = {"RBG": shutil.which(self.plan.rbg) or self.plan.rbg, **program.environment}
        try:
            return self.processes.start(limited(words, limits), said, folder=program.folder, environment=environment)
        except OSError as error:
            self.absent[seat] = f"doesn't start: {error.strerror}"
            return None

    def seat_one(self, seat: int, referee: Referee) -> Union[int, str, None]:
        """Starts the program of a seat, and waits until it has its connection, or doesn't come. Returns what is wrong if
        a connection is of a process that may not have it, as `wrong_seats` does."""
        program = self.start(seat, referee.port)
        self.programs.append(program)
        wrong: Union[int, str, None] = None

        def is_decided() -> bool:
            nonlocal wrong
            wrong, here = self.look(seat, referee)
            return wrong is not None or here or seat in self.absent or referee.exit is not None

        if not self.processes.wait(is_decided, self.plan.wait, step=STEP) and program is not None:
            self.absent[seat] = f"didn't connect in {self.plan.wait:g} seconds"
            os.killpg(program.pid, signal.SIGKILL)
        return wrong

    def look(self, seat: int, referee: Referee) -> tuple[Union[int, str, None], bool]:
        """What is wrong with the connections, and whether the program of this seat has its own. Notes the programs that
        have ended, or closed their connections."""
        for each, process in enumerate(self.programs, 1):
            if process is not None and process.exit is not None and each not in self.absent:
                self.absent[each] = f"ended with {process.exit} before the match"
        queue = waiting(referee.port)
        if queue is not None and queue == self.queue:
            return None, False
        wrong, here = self.look_at_connections(seat, referee.port, queue)
        if isinstance(wrong, str):
            # a program may have closed its connection while it was looked at
            wrong, here = self.look_at_connections(seat, referee.port, queue)
        if wrong is None:
            self.queue = queue
        return wrong, here

    def look_at_connections(self, seat: int, port: int, queue: Optional[int]) -> tuple[Union[int, str, None], bool]:
        """What is wrong with the connections, of which this many were made, and whether the program of this seat has one."""
        sockets = connections(port, queue)
        if sockets == self.seen:
            return None, False
        programs = [process.pid if process else -1 for process in self.programs]
        held = holders(sockets, programs)
        wrong = wrong_seats(held, programs, bool(self.plan.programs[self.pairing.seats[seat - 1]].wrapper))
        if wrong is not None:
            return wrong, False
        self.seen = sockets
        hidden = sum(process is None for process, _ in held)
        there = seats_of(held, programs)
        for each in range(1, seat):
            if each not in there and each not in self.absent and not hidden:
                self.absent[each] = CLOSED
        return None, seat not in self.absent and (seat in there or len(held) - len(there) == hidden > 0)
