"""Sections and macros (docs/LANGUAGE.md, "Sections and macros")."""

import re
from collections import namedtuple

from refusals import Refused
from tokens import Token

SECTIONS = ("players", "pieces", "variables", "board", "rules")
MOST_KEPT = 100_000
MOST_READ = 1_000_000
MOST_LEVELS = 64
MOST_JOINED_BYTES = 1_024
JOINED = re.compile(r"(?P<name>[A-Za-z_][A-Za-z0-9_]*)|(?P<number>[0-9]+)")

# `at` is the offset of the section's `#`.
Section = namedtuple("Section", "name at tokens")
# `parameters` is None for a macro without parameters.
Macro = namedtuple("Macro", "parameters body")


def expand(tokens):
    """The sections of a text, expanded. All heads are read first, in order of the text."""
    sections, macros = read_parts(tokens)
    expansion = Expansion(macros)
    return [Section(name, at, expansion.expand_section(body)) for name, at, body in sections]


# The heads


def read_parts(tokens):
    """The sections in order of the text, and the macros by their names."""
    sections, macros = [], {}
    if tokens and tokens[0].text != "#":
        raise bad_definition(tokens[0])
    start = 0
    while start < len(tokens):
        name, parameters, body_start = Head(tokens, start).read(macros)
        end = body_start
        while end < len(tokens) and tokens[end].text != "#":
            end += 1
        body = tokens[body_start:end]
        if name in SECTIONS:
            sections.append(Section(name, tokens[start].at, body))
        else:
            macros[name] = Macro(parameters, body)
        start = end
    return sections, macros


def bad_definition(token):
    return Refused("macro", 1, "BadDefinition", token.at)


class Head:
    """Reads one head, which begins with the `#` at `start`."""

    def __init__(self, tokens, start):
        self.tokens = tokens
        self.start = start
        self.index = start + 1

    def next_token(self):
        """The next token of the text. A head with which the text ends is refused at its `#`."""
        if self.index == len(self.tokens):
            raise bad_definition(self.tokens[self.start])
        token = self.tokens[self.index]
        self.index += 1
        return token

    def read(self, macros):
        """The name, the parameters, and the index of the first token after the `=`."""
        name = self.next_token()
        if name.kind != "name":
            raise bad_definition(name)
        if name.text in macros:
            raise Refused("macro", 2, "Twice", name.at)
        parameters = None
        token = self.next_token()
        if token.text == "(" and name.text not in SECTIONS:
            parameters = self.read_parameters()
            token = self.next_token()
        if token.text != "=":
            raise bad_definition(token)
        return name.text, parameters, self.index

    def read_parameters(self):
        parameters = []
        while True:
            parameter = self.next_token()
            if parameter.kind != "name" or parameter.text in parameters:
                raise bad_definition(parameter)
            parameters.append(parameter.text)
            separator = self.next_token()
            if separator.text == ")":
                return parameters
            if separator.text != ";":
                raise bad_definition(separator)


# The expansion


class Expansion:
    """Expands the sections of one text; what is kept and what is read is counted over all of them."""

    def __init__(self, macros):
        self.macros = macros
        self.kept = 0
        self.read = 0

    def expand_section(self, tokens):
        result = []
        self.count_read(len(tokens))
        self.read_list(join(tokens), 0, result)
        return result

    def count_read(self, length):
        self.read += length
        if self.read > MOST_READ:
            raise Refused("macro", 5, "TooManyTokens")

    def read_list(self, tokens, level, result):
        """Reads a joined list from the left: what is no macro's name stays, a call is replaced."""
        index = 0
        while index < len(tokens):
            token = tokens[index]
            index += 1
            macro = self.macros.get(token.text) if token.kind == "name" else None
            if macro is None:
                self.keep(token, result)
                continue
            arguments = []
            if macro.parameters is not None:
                arguments, index = read_arguments(tokens, index, token)
                if len(arguments) != len(macro.parameters):
                    raise argument_count(token)
            self.call(token, macro, arguments, level, result)

    def keep(self, token, result):
        self.kept += 1
        if self.kept > MOST_KEPT:
            raise Refused("macro", 5, "TooManyTokens")
        result.append(token)

    def call(self, name, macro, arguments, level, result):
        """The arguments were checked. What follows is checked in this order: depth, count, join, reading."""
        if level == MOST_LEVELS:
            raise Refused("macro", 4, "Depth", name.at)
        given = dict(zip(macro.parameters or [], arguments))
        self.count_read(sum(len(given.get(token.text, (token,))) for token in macro.body))
        replaced = []
        for token in macro.body:
            replaced.extend(given.get(token.text, (token,)))
        self.read_list(join(replaced), level + 1, result)


def argument_count(name):
    return Refused("macro", 3, "ArgumentCount", name.at)


def read_arguments(tokens, index, name):
    """The arguments of a call whose name is before `index`, and the index after the call."""
    if index == len(tokens) or tokens[index].text != "(":
        raise argument_count(name)
    arguments = [[]]
    open_brackets = 1
    for index in range(index + 1, len(tokens)):
        token = tokens[index]
        if token.text in ("(", "[", "{"):
            open_brackets += 1
        elif token.text in (")", "]", "}"):
            open_brackets -= 1
        if open_brackets == 0:
            if token.text != ")":
                break
            return arguments, index + 1
        if token.text == ";" and open_brackets == 1:
            arguments.append([])
        else:
            arguments[-1].append(token)
    raise argument_count(name)


def join(tokens):
    """The list after joining: from the left, each `~` and its two neighbours become one token."""
    joined = []
    index = 0
    while index < len(tokens):
        token = tokens[index]
        if token.text == "~":
            index += 1
            if not joined or index == len(tokens):
                raise Refused("macro", 6, "BadJoin", token.at)
            token = join_two(joined.pop(), token, tokens[index])
        joined.append(token)
        index += 1
    return joined


def join_two(left, tilde, right):
    text = left.text + right.text
    found = JOINED.fullmatch(text)
    if found is None or len(text) > MOST_JOINED_BYTES:
        raise Refused("macro", 6, "BadJoin", tilde.at)
    return Token(found.lastgroup, text, left.at)
