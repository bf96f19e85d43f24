"""What the package asks of `rbg`: a session of `rbg ask`. This class alone knows how questions and answers are spelt.

>>> with Backend("crates/rbg_games/data/tictactoe.rbg") as session:
...     print(session.ask(["place", "names"]))
...     print(session.ask(["make 1 2", "random 1 10"])[0])
[[['player', '1']], [['players', 'first', 'second'], ['pieces', 'e', 'x', 'o'], ['variables', 'first', 'second']]]
[['error', 'illegal']]
"""

import os
import re
import shutil
import subprocess
import weakref
from typing import Iterable, Optional

Answer = list[list[str]]  # the words of each line
Question = str

TOGETHER = 32_768  # this many bytes of questions are asked at once, at most: more could fill both pipes
LINE = re.compile("[ -~]*")  # what a line of a question can have
KEEPERS = 1000  # after so many first moves of the keeper no session begins


class Refused(Exception):
    """What isn't done. `word` says why, over the library as over `rbg ask`:

    - `text`, `macro`, `syntax`, `game`: the description is no game's, and this layer says so
    - `illegal`, `start`, `place`: no legal move; no move to undo; bytes of no place of the game
    - `form`: a move isn't spelt as in messages, or a number is out of its range
    - `over`, `keeper`, `memory`: above the limits of play; the keeper's moves don't end; memory failed
    - `closed`, `heard`: the game was closed; it has heard moves since the state was made
    - `long`, `empty`, `return`, `word`: a line that `rbg ask` doesn't read; `small`: a buffer of the library
    """

    def __init__(self, word: str, question: Question = ""):
        super().__init__(f"{word}: {question}" if question else word)
        self.word = word


def find_program(program: Optional[str] = None, name: str = "rbg") -> str:
    """The program of this name: the one that is given, that of the variable RBG, `./rbg`, or the one on the path. One that is
    named has to be there.

    >>> find_program("/nowhere/rbg")
    Traceback (most recent call last):
    FileNotFoundError: no program /nowhere/rbg
    """
    named = os.fspath(program) if program else os.environ.get(name.upper())
    for candidate in [named] if named else [f"./{name}", name]:
        found = shutil.which(candidate)
        if found is not None:
            return found
    raise FileNotFoundError(f"no program {named}" if named else f"no program {name}: give its path, or set {name.upper()}")


def end(process: "subprocess.Popen[bytes]") -> None:
    """Ends a session's process."""
    for pipe in (process.stdin, process.stdout):
        if pipe is not None:
            try:
                pipe.close()
            except BrokenPipeError:
                pass
    try:
        process.wait(timeout=1)
    except subprocess.TimeoutExpired:  # it still answers a question
        process.kill()
        process.wait()


class Backend:
    """A session: a process that holds the place which play has reached."""

    def __init__(self, file: str, program: Optional[str] = None):
        pipe = subprocess.PIPE
        self.file, self.program = file, find_program(program)
        self.process = subprocess.Popen([self.program, "ask", file], stdin=pipe, stdout=pipe)
        self.close = weakref.finalize(self, end, self.process)

    def __enter__(self) -> "Backend":
        return self

    def __exit__(self, *_: object) -> None:
        self.close()

    def ask(self, questions: Iterable[Question]) -> list[Answer]:
        """The answers to questions, which are asked together. Of one that is refused the answer begins with `error`. None is
        asked if one of them is more than a line, or ends the session.

        >>> with Backend("crates/rbg_games/data/tictactoe.rbg") as session:
        ...     try:
        ...         session.ask(["make 4 9 4 10", "place\\nkey"])
        ...     except Refused as refused:
        ...         print(refused, session.ask(["place"]))
        form: 'place\\nkey' [[['player', '1']]]
        """
        answers: list[Answer] = []
        asked: list[Question] = []
        size = 0
        all_of_them = list(questions)
        for question in all_of_them:
            if not LINE.fullmatch(question) or question == "quit":
                raise Refused("form", repr(question))
        for question in all_of_them:
            if asked and size + len(question) >= TOGETHER:
                answers += self.ask_at_once(asked)
                asked, size = [], 0
            asked.append(question)
            size += len(question) + 1
        return answers + self.ask_at_once(asked) if asked else answers

    def ask_at_once(self, questions: list[Question]) -> list[Answer]:
        """The answers to a few questions, in one write. A session with an answer that wasn't read is ended: it would be taken
        for a later one."""
        if not self.close.alive:
            raise Refused("closed")
        assert self.process.stdin is not None
        try:
            try:
                self.process.stdin.write("".join(question + "\n" for question in questions).encode("ascii"))
                self.process.stdin.flush()
            except BrokenPipeError:
                pass  # it has ended, and what it said last says why
            return [self.answer() for _ in questions]
        except BaseException:
            self.close()
            raise

    def answer(self) -> Answer:
        """The lines of the next answer. A session about a text that is no game's says so in place of the first one."""
        first = self.line()
        lines = [first]
        word = first[0]
        if word in ("moves", "search"):
            lines += [self.line() for _ in range(int(first[1]))]
        elif word == "sample":
            lines += [self.line() for _ in range(int(first[1]) + 1)]
        elif word in ("players", "state"):
            lines += [self.line() for _ in range(2 if word == "players" else 3)]
        elif word == "shape":
            lines += [self.line() for _ in range(2 + int(first[2]) + int(first[3]))]
        elif word == "random":
            left = int(first[1])
            while left > 0:
                lines.append(self.line())
                left -= int(lines[-1][-1])
        elif word == "refused":
            raise Refused(first[1], " ".join(first[2:]))
        elif word == "over":
            raise Refused("keeper" if self.keeper_goes_on() else "over", "the first place")
        elif word == "memory":
            raise Refused("memory")
        elif word == "device":
            raise OSError(f"rbg can't read {self.file}")
        return lines

    def keeper_goes_on(self) -> bool:
        """Whether no session begins since the keeper's first moves don't end."""
        made = subprocess.run([self.program, "moves", self.file], stdout=subprocess.PIPE).stdout
        return made.count(b"made ") >= KEEPERS

    def line(self) -> list[str]:
        """The words of the next line."""
        assert self.process.stdout is not None
        text = self.process.stdout.readline()
        if not text.endswith(b"\n"):
            raise EOFError("rbg has ended: " + (text.decode("ascii", "replace") or "nothing was said"))
        return text.decode("ascii").split()
