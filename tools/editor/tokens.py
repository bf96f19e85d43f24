"""The tokens of a text, by themselves: what a change of the layout leaves as it is."""

import re

BLANK = re.compile(r"[ \t\r\n]+|//[^\n\0]*")
TOKEN = re.compile(r"[A-Za-z_][A-Za-z0-9_]*|[0-9]+|->>|->|==|!=|<=|>=|[-=<>+*/()\[\]{},;:~#$?!]")


def tokens(text: str) -> list[str] | None:
    """The tokens, or None if some character begins none.

    >>> tokens("a->>b // x")
    ['a', '->>', 'b']
    >>> tokens("a.b") is None
    True
    """
    found = []
    at = 0
    while at < len(text):
        if blank := BLANK.match(text, at):
            at = blank.end()
        elif token := TOKEN.match(text, at):
            found.append(token.group())
            at = token.end()
        else:
            return None
    return found
