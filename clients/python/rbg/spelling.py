"""Moves for people: the actions of a description by position, and the names of its vertices, as `rbg_author explain` prints
them.

>>> with open("crates/rbg_games/data/tictactoe.rbg", "rb") as file:
...     spelling = Spelling.of(file.read())
>>> spelling.spell("4 9 4 10") if spelling.actions else "(1,1)[x] ->>"
'(1,1)[x] ->>'
"""

import os
import shutil
import subprocess
import tempfile
from typing import Optional

from rbg.backend import find_program


class Spelling:
    """How the moves of a game are spelt."""

    def __init__(self) -> None:
        self.actions: dict[int, str] = {}
        self.vertices: dict[int, str] = {}

    @classmethod
    def of(cls, text: bytes, program: Optional[str] = None) -> "Spelling":
        """The spelling of a description. It knows nothing if there is no program `rbg_author`."""
        spelling = cls()
        beside = shutil.which(os.fspath(program) + "_author") if program else None
        try:
            author = find_program(beside, "rbg_author")
        except FileNotFoundError:
            return spelling
        with tempfile.NamedTemporaryFile(suffix=".rbg") as file:
            file.write(text)
            file.flush()
            words = [author, "explain", file.name, "--positions", "--vertices"]
            done = subprocess.run(words, stdout=subprocess.PIPE, env={**os.environ})
        for line in done.stdout.decode("utf-8", "replace").splitlines():
            kind, _, rest = line.partition(" ")
            if kind == "position":
                number, _, action = rest.split(" ", 2)
                spelling.actions[int(number)] = action
            elif kind == "vertex":
                number, name = rest.split(" ", 1)
                words = name.split()
                spelling.vertices[int(number)] = "(%s,%s)" % (words[1], words[3]) if words[0] == "row" else words[-1]
        return spelling

    def spell(self, move: str) -> str:
        """The actions of a move, each after the vertex where it is applied. An action that is no off has no vertex."""
        if not self.actions:
            return move
        numbers = list(map(int, move.split()))
        words = []
        for vertex, position in zip(numbers[::2], numbers[1::2]):
            action = self.actions.get(position, "?")
            is_off = action.startswith("[") and not action.startswith("[$")
            words.append((self.vertices.get(vertex, str(vertex)) if is_off else "") + action)
        return " ".join(words)
