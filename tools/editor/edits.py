"""Random edits, as of a hand that types, deletes, pastes and takes back."""

import random
from typing import Any

from talk import position

# What is typed or pasted.
PIECES = [
    " ", "\n", "(", ")", "[", "]", "{", "}", "#", "~", "->", "->>", "$", "=", ";", ",", "+", "*", "e", "up", "white", "12",
    "// note\n", "#rules = ", "#m(a; b) = a~b {a} b", "[$ white = 100]", "{! up}", "{? {e} up}", "rectangle(", "\t", "\r\n",
    "\u2192", "\u00e9", "\U0001f3b2", ".", "\0", "\\", '"', "#pieces = ", "graph(", ":", "x", "#board", "//", "\u2028",
]  # fmt: skip


def whole(text: str, at: int) -> int:
    """The index, or the one after it if it lies inside a line end."""
    return at + 1 if text[at - 1 : at + 1] == "\r\n" else at


def edit(chance: random.Random, text: str) -> tuple[int, int, str]:
    """An edit: from where to where, and what is there then."""
    start = whole(text, chance.randint(0, len(text)))
    length = chance.choice([0, 0, 0, 0, 1, 1, 2, 5, 40]) if len(text) < 9000 else chance.choice([1, 40, 400])
    end = whole(text, min(len(text), start + length))
    if chance.random() < 0.1 and text:
        other = chance.randint(0, len(text))
        return start, end, text[other : other + chance.randint(1, 60)]
    return start, end, chance.choice([*PIECES, ""])


def change(text: str, start: int, end: int, new: str) -> dict[str, Any]:
    """The edit as the protocol writes it.

    >>> change("ab", 1, 2, "c")["range"]["end"]
    {'line': 0, 'character': 2}
    """
    return {"range": {"start": position(text, start), "end": position(text, end)}, "text": new}
