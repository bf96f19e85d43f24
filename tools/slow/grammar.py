"""The grammar of the sections (docs/LANGUAGE.md, "Grammar"; crates/rbg_syntax/README.md, "Decisions")."""

from collections import namedtuple

from macros import SECTIONS
from refusals import Refused

MOST_OPEN_BRACKETS = 128
RELATIONS = ("==", "!=", "<", "<=", ">", ">=")


# What the parser makes. A name or number is its token, so that it has its place.


# `directions` and `rows` are those of a rectangle or hexagon, `vertices` those of a graph.
Board = namedtuple("Board", "generator directions rows vertices")
# `edges` are pairs of a direction's name and a vertex's name.
Vertex = namedtuple("Vertex", "name piece edges")
# Players and variables are pairs of a name and its bound.
Description = namedtuple("Description", "players pieces variables board rules")

Sum = namedtuple("Sum", "parts")
Sequence = namedtuple("Sequence", "parts")
Star = namedtuple("Star", "inside")
Shift = namedtuple("Shift", "direction")
On = namedtuple("On", "pieces")
Off = namedtuple("Off", "piece")
Assignment = namedtuple("Assignment", "variable value")
Comparison = namedtuple("Comparison", "left relation right")
Switch = namedtuple("Switch", "arrow player")  # the player of `->>` is None
Pattern = namedtuple("Pattern", "brace positive inside")

# A first part, and then pairs of an operator and its operand, grouped from the left.
Arithmetic = namedtuple("Arithmetic", "first operations")
Minus = namedtuple("Minus", "inside")


def parse(sections):
    """The description that the expanded sections spell. The rules are read last."""
    names = [section.name for section in sections]
    for index, name in enumerate(names):
        if name in names[:index]:
            raise Refused("syntax", 3, "SectionTwice", name)
    for name in ("players", "pieces", "board", "rules"):
        if name not in names:
            raise Refused("syntax", 2, "MissingSection", name)
    parsed = {name: parse_section(section) for name in SECTIONS for section in sections if section.name == name}
    return Description(**{"variables": [], **parsed})


def parse_section(section):
    reader = Reader(section)
    result = getattr(reader, "read_" + section.name)()
    if reader.token is not None:
        raise reader.expected("End")
    return result


class Reader:
    """Reads one section: `token` is the token that comes next, None if they have ended."""

    def __init__(self, section):
        self.section = section
        self.index = 0
        self.open_brackets = 0

    # Single tokens

    @property
    def token(self):
        tokens = self.section.tokens
        return tokens[self.index] if self.index < len(tokens) else None

    @property
    def text(self):
        return self.token.text if self.token else None

    @property
    def kind(self):
        return self.token.kind if self.token else None

    def expected(self, what):
        at = self.token.at if self.token else self.section.at
        return Refused("syntax", 1, "Expected", at, what)

    def take(self):
        token = self.token
        self.index += 1
        return token

    def take_kind(self, kind, what):
        if self.kind != kind:
            raise self.expected(what)
        return self.take()

    def take_symbol(self, text, what):
        if self.text != text:
            raise self.expected(what)
        return self.take()

    def name(self):
        return self.take_kind("name", "Name")

    def open(self, bracket):
        """An opening bracket, if one may be: it is counted before what follows it is looked at."""
        if self.text != bracket:
            raise self.expected("Opening")
        if self.open_brackets == MOST_OPEN_BRACKETS:
            raise Refused("syntax", 4, "TooDeep", self.token.at)
        self.open_brackets += 1
        return self.take()

    def close(self, bracket):
        self.take_symbol(bracket, "Closing")
        self.open_brackets -= 1

    def listed(self, read_part):
        """One part or more, with commas between them."""
        parts = [read_part()]
        while self.text == ",":
            self.take()
            parts.append(read_part())
        return parts

    # The sections

    def read_players(self):
        return self.listed(self.bounded)

    def read_variables(self):
        return self.listed(self.bounded) if self.token else []

    def bounded(self):
        name = self.name()
        self.open("(")
        number = self.take_kind("number", "Number")
        self.close(")")
        return name, number

    def read_pieces(self):
        return self.listed(self.name)

    def read_board(self):
        if self.text not in ("rectangle", "hexagon", "graph"):
            raise self.expected("Generator")
        board = Board(self.take().text, [], [], [])
        self.open("(")
        if board.generator == "graph":
            while self.kind == "name":
                board.vertices.append(self.vertex())
        else:
            for _ in range(4 if board.generator == "rectangle" else 6):
                board.directions.append(self.name())
                self.take_symbol(",", "Comma")
            while self.text == "[":
                board.rows.append(self.row())
        self.close(")")
        return board

    def row(self):
        self.open("[")
        cells = self.listed(self.name) if self.kind == "name" else []
        self.close("]")
        return cells

    def vertex(self):
        name = self.name()
        self.open("[")
        piece = self.name()
        self.close("]")
        self.open("{")
        edges = self.listed(self.edge) if self.kind == "name" else []
        self.close("}")
        return Vertex(name, piece, edges)

    def edge(self):
        direction = self.name()
        self.take_symbol(":", "Colon")
        return direction, self.name()

    # The rules. A sequence or a sum with one part is that part.

    def read_rules(self):
        parts = [self.sequence()]
        while self.text == "+":
            self.take()
            parts.append(self.sequence())
        return parts[0] if len(parts) == 1 else Sum(parts)

    def sequence(self):
        parts = [self.item()]
        while self.begins_item():
            parts.append(self.item())
        return parts[0] if len(parts) == 1 else Sequence(parts)

    def begins_item(self):
        return self.kind == "name" or self.text in ("(", "{", "[", "->", "->>")

    def item(self):
        atom = self.atom()
        if self.text == "*":
            self.take()
            return Star(atom)
        return atom

    def atom(self):
        if self.kind == "name":
            return Shift(self.take())
        if self.text == "->":
            return Switch(self.take(), self.name())
        if self.text == "->>":
            return Switch(self.take(), None)
        if self.text == "(":
            self.open("(")
            inside = self.read_rules()
            self.close(")")
            return inside
        if self.text == "{":
            return self.braces()
        if self.text == "[":
            return self.square_brackets()
        raise self.expected("Item")

    def braces(self):
        brace = self.open("{")
        if self.text == "$":
            atom = self.comparison()
        elif self.text in ("?", "!"):
            positive = self.take().text == "?"
            atom = Pattern(brace, positive, self.read_rules())
        else:
            atom = On(self.listed(self.name) if self.text != "}" else [])
        self.close("}")
        return atom

    def comparison(self):
        self.take()
        left = self.sum()
        if self.text not in RELATIONS:
            raise self.expected("Relation")
        return Comparison(left, self.take().text, self.sum())

    def square_brackets(self):
        self.open("[")
        if self.text == "$":
            self.take()
            assignments = self.listed(self.assignment)
            atom = assignments[0] if len(assignments) == 1 else Sequence(assignments)
        else:
            atom = Off(self.name())
        self.close("]")
        return atom

    def assignment(self):
        variable = self.name()
        self.take_symbol("=", "Equals")
        return Assignment(variable, self.sum())

    # Arithmetic

    def sum(self):
        return self.chain(("+", "-"), self.term)

    def term(self):
        return self.chain(("*", "/"), self.factor)

    def chain(self, operators, read_part):
        first, operations = read_part(), []
        while self.text in operators:
            operator = self.take().text
            operations.append((operator, read_part()))
        return Arithmetic(first, operations) if operations else first

    def factor(self):
        if self.text == "-":
            self.take()
            return Minus(self.primary())
        return self.primary()

    def primary(self):
        if self.kind in ("number", "name"):
            return self.take()
        if self.text == "(":
            self.open("(")
            inside = self.sum()
            self.close(")")
            return inside
        raise self.expected("Factor")
