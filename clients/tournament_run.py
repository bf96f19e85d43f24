"""Plays the matches of a tournament, this many at once, in this process."""

import os
import sys
import threading
import time
from collections import deque
from contextlib import suppress
from pathlib import Path
from typing import Callable, Optional

from tournament_files import Busy, Fault
from tournament_making import add_round
from tournament_match import play_match
from tournament_page import write_page
from tournament_plan import Files, Folder, Pairing, Plan
from tournament_processes import Stop, Stopped
from tournament_result import Result, is_settled, result_of
from tournament_standings import Table, make_table, repeated_ones, test_of
from tournament_table import write_results

LINE = 1.0  # seconds between two lines that are rewritten on a terminal
PAGE = 5.0  # seconds between two pages, or two lines elsewhere
LOOK = 0.05  # seconds between two looks at what has been played


def progress(done: int, count: int, played: int, seconds: float, best: list[tuple[str, float]], test: str = "") -> str:
    """How far it is.

    >>> progress(12, 36, 10, 5.0, [("plain", 350.4), ("chance", -350.4)])
    '12 of 36 done, 120 a minute, 12 s left: plain 350, chance -350'
    >>> progress(0, 36, 0, 1.0, [])
    '0 of 36 done'
    """
    reported = f"{done} of {count} done"
    if played:
        reported += f", {60 * played / seconds:.0f} a minute, {seconds / played * (count - done):.0f} s left"
    head = ", ".join(f"{name} {rating:.0f}" for name, rating in best[:4])
    return reported + (f": {head}" if head else "") + (f"; {test}" if test else "")


class Pace:
    """Does something now and then: this many seconds apart, and for a tenth of the time at most.

    >>> pace, done = Pace(60.0), []
    >>> for number in range(3):
    ...     pace.at_times(lambda: done.append(number))
    >>> done
    [0]
    """

    def __init__(self, apart: float):
        self.apart, self.next = apart, 0.0

    def at_times(self, task: Callable[[], None]) -> None:
        began = time.monotonic()
        if began >= self.next:
            task()
            ended = time.monotonic()
            self.next = ended + max(self.apart, 9 * (ended - began))


class Runner:
    """The matches of a folder, and the threads that play them."""

    def __init__(self, folder: Folder, jobs: Optional[int], again: bool, page: Optional[Path]):
        self.folder, self.plan = folder, Plan.load(folder.path)
        self.jobs = self.plan.jobs if jobs is None else jobs
        self.again, self.page, self.stop = again, page, Stop()
        self.pairings: list[Pairing] = []
        self.results: dict[int, Result] = {}
        self.waiting: deque[int] = deque()
        self.elsewhere: list[int] = []  # what another process was playing
        self.lock = threading.Condition()
        self.busy = self.played = self.failed = self.lost = 0
        self.ended = self.decided = False
        self.faults: list[str] = []
        self.began = time.monotonic()
        self.size = -1

    def take_schedule(self) -> None:
        """Takes in the matches that were added since, and passes over those that are done, without a process."""
        size = self.folder.schedule.stat().st_size
        if size == self.size:
            return
        self.size, self.plan = size, Plan.load(self.folder.path)
        more = list(self.folder.pairings(len(self.pairings) + 1))
        with self.lock:
            for number, pairing in enumerate(more, len(self.pairings) + 1):
                self.take_match(number, pairing)
            self.pairings += more
            self.lock.notify_all()

    def take_match(self, number: int, pairing: Pairing) -> None:
        """Takes in a match: it is done, or waits."""
        result, files = None, Files(self.folder, number)
        has_result = files.result.exists()
        if has_result or files.record.exists():
            result = result_of(self.plan, self.folder, number, pairing)
        wanted = result is None or not has_result
        if self.again and not wanted:
            wanted = result.outcome is None or not is_settled(files)
        if wanted and not self.decided:
            self.waiting.append(number)
        elif result is not None:
            self.results[number] = result

    def work(self) -> None:
        """What each thread does: it plays the next match, till there is none."""
        while True:
            with self.lock:
                while not self.waiting and not self.ended:
                    self.lock.wait()
                if self.ended:
                    return
                number = self.waiting.popleft()
                self.busy += 1
            result = self.play(number)
            with self.lock:
                self.busy -= 1
                if result is not None:
                    self.played += 1
                    self.failed += result.state == "failed"
                    self.lost += result.state == "default"
                    self.results[number] = result

    def play(self, number: int) -> Optional[Result]:
        """Plays a match. What goes wrong with it stops no other one."""
        try:
            return play_match(self.folder, self.plan, number, self.pairings[number - 1], self.stop, self.again)
        except Stopped:
            pass
        except Busy:
            self.elsewhere.append(number)
        except Fault as fault:
            self.faults.append(f"match {number}: {fault}")
        except OSError as error:
            self.faults.append(f"match {number}: {error.filename or 'a file'}: {error.strerror}")
        except Exception as error:  # so that no thread ends before its time
            self.faults.append(f"match {number}: {type(error).__name__}: {error}")
        return None

    def listed(self) -> list[Optional[Result]]:
        """The results in the order of the schedule."""
        with self.lock:
            return [self.results.get(number) for number in range(1, len(self.pairings) + 1)]

    def table(self) -> Table:
        return make_table(self.plan, self.pairings, self.listed())

    def run(self) -> None:
        """Plays all that is to be played, and prints how far it is."""
        self.take_schedule()
        self.look_at_test()
        threads = [threading.Thread(target=self.work, daemon=True) for _ in range(self.jobs)]
        for thread in threads:
            thread.start()
        try:
            self.watch()
        finally:
            with self.lock:
                self.waiting.clear()
                self.ended = True
                self.lock.notify_all()
            if self.busy:
                self.stop.set()
            for thread in threads:
                thread.join(30)

    def watch(self) -> None:
        """Looks at the schedule and at what came of it, till nothing is left."""
        line, page, test = Pace(LINE if sys.stderr.isatty() else PAGE), Pace(PAGE), Pace(LOOK)
        seen = self.played
        while True:
            self.take_schedule()
            if self.played != seen:
                seen = self.played
                test.at_times(self.look_at_test)
            with self.lock:
                idle = not self.waiting and not self.busy
            if idle and (self.decided or add_round(self.folder) == 0):
                break
            line.at_times(lambda: self.tell(""))
            if self.page is not None:
                page.at_times(self.write_page)
            time.sleep(LOOK)
        self.take_from_others()
        self.tell("\n")

    def stopped(self) -> str:
        """What is said of a run that was stopped. On a terminal it begins a line."""
        with self.lock:
            left, count = len(self.pairings) - len(self.results), len(self.pairings)
        begin = "\n" if sys.stderr.isatty() else ""
        return f"{begin}stopped: {left} of {count} matches are left; the same command goes on with them"

    def look_at_test(self) -> None:
        """If the test is decided, no more matches begin."""
        if self.plan.sprt is not None and not self.decided:
            results = self.listed()
            if test_of(self.plan, self.pairings, results, repeated_ones(results)).verdict is not None:
                with self.lock:
                    self.decided = True
                    self.waiting.clear()

    def write_page(self) -> None:
        """The page without those of the matches, which the end of the run makes."""
        assert self.page is not None
        write_page(self.plan, self.folder, self.table(), self.page, pages=False)

    def take_from_others(self) -> None:
        """Takes in what other processes have played meanwhile."""
        for number in self.elsewhere:
            result = result_of(self.plan, self.folder, number, self.pairings[number - 1])
            if result is not None:
                self.results[number] = result

    def tell(self, end: str) -> None:
        """Tells how far it is: on a terminal always in the same line."""
        table = self.table()
        best = [(line.name, line.rating) for line in table.best() if line.wins + line.draws + line.losses]
        test = table.test.short() if table.test is not None else ""
        with self.lock:
            seconds = time.monotonic() - self.began
            line = progress(len(self.results), len(self.pairings), self.played, seconds, best, test)
        if sys.stderr.isatty():
            # a longer line would take two, and then it couldn't be rewritten
            width = os.get_terminal_size(sys.stderr.fileno()).columns or 150
            print(f"\r{line[: width - 1]}\x1b[K", end=end, file=sys.stderr, flush=True)
        else:
            print(line, file=sys.stderr, flush=True)


def run(folder: Folder, jobs: Optional[int], again: bool, page: Optional[Path]) -> None:
    """Plays all matches that have no result, and writes the results."""
    runner = Runner(folder, jobs, again, page)
    processors = len(os.sched_getaffinity(0))
    if runner.jobs > processors:
        print(f"{runner.jobs} matches at once on {processors} processors: who thinks may lose by time", file=sys.stderr)
    try:
        runner.run()
    except SystemExit:
        with suppress(OSError):  # the terminal may be gone
            print(runner.stopped(), file=sys.stderr)
        raise
    table = runner.table()
    write_results(folder, table)
    if page is not None:
        write_page(runner.plan, folder, table, page)
    if table.test is not None:
        print(table.test.in_words(), file=sys.stderr)
    for fault in runner.faults:
        print(fault, file=sys.stderr)
    others = [number for number in runner.elsewhere if number not in runner.results]
    if others:
        print(f"{len(others)} matches are being played by other processes", file=sys.stderr)
    if runner.lost:
        print(f"{runner.lost} matches were lost by default: tournament.py table says why", file=sys.stderr)
    failed = runner.failed + len(runner.faults)
    if failed:
        raise Fault(f"{failed} matches failed: tournament.py table says why, and run --again plays them again")
