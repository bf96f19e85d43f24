"""Text and tokens (docs/LANGUAGE.md, "Text and tokens")."""

import re
from collections import namedtuple

from refusals import Refused

MOST_BYTES = 262_144

# The kind of a token is "name", "number" or "symbol"; `at` is the offset of its first byte.
Token = namedtuple("Token", "kind text at")

# At each place the longest token. A comment ends before a line feed, and before a zero byte, which is a bad byte also there.
SPELLING = re.compile(
    rb"(?P<blank>[ \t\r\n]+|//[^\n\0]*)"
    rb"|(?P<name>[A-Za-z_][A-Za-z0-9_]*)"
    rb"|(?P<number>[0-9]+)"
    rb"|(?P<symbol>->>|->|==|!=|<=|>=|[-=<>+*/()\[\]{},;:~#$?!])"
)


def cut(text):
    """The tokens of a text of bytes. The whole text is looked at first for its length, and then for its first bad byte."""
    if len(text) > MOST_BYTES:
        raise Refused("text", 1, "TooLong")
    tokens = []
    at = 0
    while at < len(text):
        found = SPELLING.match(text, at)
        if found is None:
            raise bad_byte(text, at)
        if found.lastgroup != "blank":
            tokens.append(Token(found.lastgroup, found.group().decode("ascii"), at))
        at = found.end()
    return tokens


def bad_byte(text, at):
    if text[at] == 0:
        return Refused("text", 2, "ZeroByte")
    return Refused("text", 3, "BadByte", at)
