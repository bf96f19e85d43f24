"""One match of a tournament: a referee, and a program for each seat."""

import math
import time
from pathlib import Path
from typing import Optional

from served import free_port
from tournament_commands import lacking_wrapper
from tournament_files import Fault, alone, part_of, write_whole
from tournament_openings import opening_script
from tournament_plan import Files, Folder, Pairing, Plan
from tournament_processes import Output, Processes, Stop
from tournament_records import moves_said
from tournament_result import Result, good_record, is_settled, rbg_of, result_of
from tournament_seating import Intruder, Referee, Seating

TRIES = 5  # how many ports are tried for a match
RECORD = 1 << 26  # the bytes of a record, at most
REPORTED = 1 << 20  # the bytes that a referee prints as news, at most
LISTEN = 60  # seconds in which a referee has to listen
LOOK = 0.3  # seconds between two looks at a log


def has_begun(log: Path) -> bool:
    """Whether the log of a match has its first line."""
    if not log.exists():
        return False
    with log.open("rb") as opened:
        return opened.readline(100).endswith(b"\n")


def drop_empty(log: Path) -> None:
    """Takes away a log that has no first line: no match goes on from it, and a match without one begins a new file."""
    if not has_begun(log):
        drop(log)


def drop(log: Path) -> None:
    """Takes away a log, and what may lie beside it and says whose it is."""
    for file in (log, log.with_name(f"{log.name}.game")):
        file.unlink(missing_ok=True)


class Play:
    """A match that is being played."""

    def __init__(self, plan: Plan, folder: Folder, number: int, pairing: Pairing, stop: Stop):
        self.plan, self.folder, self.number, self.pairing, self.stop = plan, folder, number, pairing, stop
        self.files = Files(folder, number, len(pairing.seats))
        self.result = Result.of(pairing)
        self.game = folder.game(pairing.game)
        self.opening = folder.opening(pairing)
        self.before: Optional[str] = None  # the log that there was already
        self.turn = max(plan.turn_of(name, pairing.game) for name in pairing.seats)

    def play(self) -> Result:
        """Plays the match. A match that isn't played has a reason."""
        began = time.monotonic()
        for text in (self.files.referee, *self.files.seats):
            text.unlink(missing_ok=True)
        for _ in range(TRIES):
            try:
                if self.attempt():
                    break
            except Intruder as intruder:
                self.give_up(str(intruder))
                self.restore()
        self.result.seconds = round(time.monotonic() - began, 3)
        return self.result

    def attempt(self) -> bool:
        """Plays the match at a port. False if another program has taken the port before the referee."""
        reported = Output(self.files.referee, REPORTED, remembers=True)
        kept = [self.plan.programs[name].output for name in self.pairing.seats]
        outputs = [Output(file, keep) for file, keep in zip(self.files.seats, kept)]
        self.prepare()
        with Processes(self.stop) as processes:
            seating = Seating(self.plan, self.pairing, self.number, processes, outputs)
            try:
                return self.attend(processes, seating, reported)
            finally:
                processes.end(0.0)
                self.result.exits = [program.exit if program else None for program in seating.programs]
                self.result.faults = [output.fault for output in (reported, *outputs) if output.fault]
                drop_empty(self.files.log)

    def attend(self, processes: Processes, seating: Seating, reported: Output) -> bool:
        """Starts the referee and the programs, and sees the match through."""
        port = free_port()
        printed = Output(None, RECORD, remembers=True)
        try:
            referee = Referee(processes.start(self.referee_words(port), reported, printed), port, reported, printed)
        except OSError as error:
            return self.give_up(f"{self.plan.rbg} doesn't start: {error.strerror}")
        listening = f"listening on port {port}"
        processes.wait(lambda: referee.has_said(listening) or referee.exit is not None, LISTEN)
        if referee.exit is None and referee.has_said(listening):
            seating.seat_all(referee)
        elif referee.exit != "status 0":
            self.give_up(f"the referee doesn't listen: {referee.fault()}")
            return "can't listen" not in referee.news()
        if seating.absent:
            self.note_absent(seating)
            self.restore()
        else:
            self.finish(processes, referee)
        return True

    def note_absent(self, seating: Seating) -> None:
        """Who isn't there has lost, but not if a wrapper is lacking."""
        names = {seat: self.pairing.seats[seat - 1] for seat in seating.absent}
        lacking = lacking_wrapper(self.plan, list(names.values()))
        if lacking is not None:
            self.give_up(lacking)
        else:
            reasons = ", ".join(f"{names[seat]} {reason}" for seat, reason in seating.absent.items())
            self.result.default(sorted(seating.absent), reasons)

    def restore(self) -> None:
        """Takes back what was logged of a match that not all of its programs began."""
        if self.before is None:
            drop(self.files.log)
        else:
            write_whole(self.files.log, self.before)

    def prepare(self) -> None:
        """A match with an opening goes on from a log that has it."""
        drop_empty(self.files.log)
        self.before = self.files.log.read_text(errors="replace") if has_begun(self.files.log) else None
        if self.opening and self.before is None:
            write_whole(self.files.log, opening_script(self.opening, self.turn, self.plan.refusals))

    def referee_words(self, port: int) -> list[str]:
        """The referee's command. A match that has a log goes on."""
        words = [self.plan.rbg, "serve", str(self.game), "--port", str(port)]
        words += [f"--names={','.join(self.pairing.seats)}", "--minutes", str(max(1, math.ceil(self.plan.minutes)))]
        words += ["--sync"] if self.plan.sync else []
        # it gives up if nobody is left who starts the programs
        words += ["--wait", str(math.ceil(self.plan.wait) * (len(self.pairing.seats) + 1) + LISTEN)]
        if has_begun(self.files.log):
            return [*words, "--resume", str(self.files.log)]
        limits = ["--turn", str(self.turn), "--refusals", str(self.plan.refusals)]
        return [*words, *limits, "--log", str(self.files.log)]

    def give_up(self, reason: str) -> bool:
        """Notes why the match isn't played, by the fault of no program."""
        self.result.default([], reason)
        return True

    def finish(self, processes: Processes, referee: Referee) -> None:
        """Waits for the end of the match, and keeps its record."""
        until = time.monotonic() + self.plan.minutes * 60
        # if moves count, the log is looked at now and then
        step = LOOK if self.plan.moves else self.plan.minutes * 60
        while not processes.wait(lambda: referee.exit is not None, step) and time.monotonic() < until:
            if moves_said(self.files.log) >= self.plan.moves > 0 and self.keep_log(""):
                return
        if referee.exit == "status 0":
            processes.wait(lambda: referee.printed.text.endswith(b"\n"), LOOK)
            self.keep(referee.printed.text.decode())
            processes.end(self.plan.grace)
        elif referee.exit is None or referee.printed.text == b"rounds\n":
            processes.end(0.0)
            if not self.keep_log(f"{self.plan.minutes:g} minutes"):
                self.give_up(f"not ended after {self.plan.minutes:g} minutes")
        else:
            self.give_up(f"the referee: {referee.fault()}")

    def keep(self, text: str, adjudged: str = "") -> None:
        """Keeps a record, and what it says."""
        write_whole(self.files.record, text)
        if good_record(self.plan, self.game, self.files.record) is None:
            self.give_up("the record isn't good")
        else:
            self.result.note(self.plan, text, len(self.opening), adjudged)

    def keep_log(self, adjudged: str) -> bool:
        """Keeps the record of the log, if by it the match has ended, or the plan ends it."""
        part = part_of(self.files.record)
        part.unlink(missing_ok=True)
        script = self.files.log.read_bytes()
        probe = Result.of(self.pairing)
        try:
            rbg_of(self.plan, "referee", self.game, "--record", part, given=script[: script.rfind(b"\n") + 1])
            text = part.read_text()
        except OSError:
            return False
        finally:
            part.unlink(missing_ok=True)
        try:
            probe.note(self.plan, text, len(self.opening), adjudged if self.plan.late == "draw" else "")
        except (Fault, ValueError, IndexError):
            return False
        if probe.outcome == "-" and not probe.adjudged:
            return False
        self.keep(text, probe.adjudged)
        return True


def play_match(folder: Folder, plan: Plan, number: int, pairing: Pairing, stop: Stop, again: bool = False) -> Result:
    """Plays match K, unless it has a result, and writes its result."""
    files = Files(folder, number)
    with alone(files.lock, f"match {number} is being played already"):
        known = result_of(plan, folder, number, pairing)
        written = files.result.exists()
        if known is not None and (known.outcome is not None or (written and not again)):
            if known.outcome is not None and not is_settled(files):
                known.save(files.result)
            return known
        result = Play(plan, folder, number, pairing, stop).play()
        result.save(files.result)
    return result
