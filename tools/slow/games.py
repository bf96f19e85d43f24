"""Small random games: every construct of the language, all three boards, macros, and games that burst."""

PLAYERS = ["white", "black", "red", "a", "e", "n", "keeper", "players"]
PIECES = ["e", "w", "b", "x", "a", "up", "rectangle", "white"]
VARIABLES = ["n", "k", "turn", "e", "w", "board"]
DIRECTIONS = ["up", "down", "left", "right", "n", "e", "a", "x", "se", "sw", "graph"]
HEXAGONS = [[1], [2], [3], [1, 2], [2, 1], [2, 3], [2, 3, 2], [1, 2, 1], [1, 2, 3, 2], [3, 2, 1]]
BOUNDS = [0, 1, 2, 3, 5, 100, 100, 100, 1_000_000_000]
NUMBERS = [0, 0, 1, 1, 1, 2, 3, 7, 50, 100]
GREAT_NUMBERS = [2**31, 2**32, 2**62, 2**63 - 2, 2**63 - 1]
RELATIONS = ["==", "!=", "<", "<=", ">", ">="]


def listed(parts, separator=","):
    """The tokens of some parts, each a list of tokens, with a separator between them."""
    tokens = []
    for part in parts:
        tokens += ([separator] if tokens else []) + part
    return tokens


def bracketed(opening, tokens, closing):
    return [opening, *tokens, closing]


class Game:
    """A random game, as lists of tokens: `sections` by their names."""

    def __init__(self, chance):
        self.chance = chance
        self.players = self.some(PLAYERS, chance.choice([1, 2, 2, 2, 2, 3]))
        self.pieces = self.some(PIECES, chance.randint(1, 4))
        self.variables = self.some([name for name in VARIABLES if name not in self.players], chance.choice([0, 0, 1, 2]))
        self.patterns_around = 0
        self.heavy = chance.random() < 0.2
        self.sections = {
            "players": self.bounded(self.players, lambda: chance.choice([100, 100, 100, *BOUNDS])),
            "pieces": listed([[name] for name in self.pieces]),
            "board": self.board(),
        }
        if self.variables or chance.random() < 0.2:
            self.sections["variables"] = self.bounded(self.variables, lambda: chance.choice(BOUNDS))
        make = chance.choice([self.rules, self.begun, self.turns, self.turns, self.turns, self.turns_with_keeper])
        self.sections["rules"] = make()

    def some(self, names, count):
        return self.chance.sample(names, count)

    def bounded(self, names, bound):
        return listed([[name, "(", str(bound()), ")"] for name in names])

    def maybe(self, probability):
        return self.chance.random() < probability

    # Boards

    def board(self):
        return self.chance.choice([self.rectangle, self.rectangle, self.hexagon, self.graph])()

    def row(self, length):
        return bracketed("[", listed([[self.cell()] for _ in range(length)]), "]")

    def cell(self):
        return self.pieces[0] if self.maybe(0.8) else self.chance.choice(self.pieces)

    def rows(self, generator, directions, lengths):
        self.directions = self.some(DIRECTIONS, directions)
        head = [token for name in self.directions for token in (name, ",")]
        return [generator, "(", *head, *[token for length in lengths for token in self.row(length)], ")"]

    def rectangle(self):
        length = self.chance.randint(1, 5)
        return self.rows("rectangle", 4, [length] * self.chance.randint(1, 4))

    def hexagon(self):
        return self.rows("hexagon", 6, self.chance.choice(HEXAGONS))

    def graph(self):
        self.directions = self.some(DIRECTIONS, self.chance.randint(1, 3))
        names = [f"v{index}" for index in range(self.chance.randint(1, 5))]
        tokens = ["graph", "("]
        used = set()
        for name in names:
            edges = []
            for direction in self.directions:
                if self.maybe(0.6) or name == names[-1] and direction not in used:
                    used.add(direction)
                    edges.append([direction, ":", self.chance.choice(names)])
            self.chance.shuffle(edges)
            tokens += [name, "[", self.cell(), "]", "{", *listed(edges), "}"]
        return tokens + [")"]

    # Rules

    def rules(self, depth=3, switches=True):
        parts = [self.sequence(depth, switches) for _ in range(self.chance.choice([1, 1, 1, 2, 2, 3]))]
        return listed(parts, "+")

    def sequence(self, depth, switches):
        return [token for _ in range(self.chance.choice([1, 1, 2, 2, 3, 4])) for token in self.item(depth, switches)]

    def item(self, depth, switches):
        makers = [self.shift] * 4 + [self.on] * 4 + [self.off] * 3 + [self.assignments, self.comparison]
        if depth > 0:
            makers += [self.group] * 3
            if self.patterns_around < 3:
                makers += [self.pattern] * 2
        if switches:
            makers += [self.switch] * 2
        if self.heavy:
            makers += [self.endless] * 2
        make = self.chance.choice(makers)
        tokens = make(depth, switches)
        starred = {self.shift: 0.3, self.group: 0.15, self.off: 0.05}.get(make, 0.04)
        return tokens + ["*"] if self.maybe(starred) else tokens

    def shift(self, depth=0, switches=False):
        return [self.chance.choice(self.directions)]

    def on(self, depth=0, switches=False):
        count = self.chance.choice([1, 1, 1, 2, 2, 3]) if self.maybe(0.95) else 0
        return bracketed("{", listed([[self.chance.choice(self.pieces)] for _ in range(count)]), "}")

    def off(self, depth=0, switches=False):
        return ["[", self.chance.choice(self.pieces), "]"]

    def assignments(self, depth=0, switches=False):
        parts = [[self.variable(), "=", *self.sum(2)] for _ in range(self.chance.choice([1, 1, 1, 2, 3]))]
        return ["[", "$", *listed(parts), "]"]

    def comparison(self, depth=0, switches=False):
        return ["{", "$", *self.sum(2), self.chance.choice(RELATIONS), *self.sum(2), "}"]

    def group(self, depth, switches):
        return bracketed("(", self.rules(depth - 1, switches), ")")

    def pattern(self, depth, switches=False):
        self.patterns_around += 1
        inside = self.rules(depth - 1, switches=False)
        self.patterns_around -= 1
        return ["{", self.chance.choice("?!"), *inside, "}"]

    def switch(self, depth=0, switches=True):
        return ["->>"] if self.maybe(0.25) else ["->", self.chance.choice(self.players)]

    def endless(self, depth=0, switches=False):
        """More modifiers than there may be: whoever meets it before an answer gives the question up."""
        return ["(", *bracketed("(", self.off(), ")"), "*", "{", "}", ")"]

    def variable(self):
        return self.chance.choice(self.players + self.variables)

    def sum(self, depth):
        tokens = self.factor(depth)
        while self.maybe(0.3):
            tokens += [self.chance.choice("+++--*/")] + self.factor(depth)
        return tokens

    def factor(self, depth):
        sign = ["-"] if self.maybe(0.1) else []
        if depth > 0 and self.maybe(0.15):
            return sign + bracketed("(", self.sum(depth - 1), ")")
        number = str(self.chance.choice(GREAT_NUMBERS if self.maybe(0.1) else NUMBERS))
        return sign + [self.chance.choice([self.variable(), self.variable(), self.chance.choice(self.pieces), number, number])]

    # Rules that go on for some turns

    def begun(self):
        return ["->", self.players[0], *self.item(3, True), "->", self.chance.choice(self.players), *self.item(2, True)]

    def walk(self):
        if self.maybe(0.3) and len(self.directions) >= 4:
            first, second, third, fourth = self.directions[:4]
            return f"( {first} * + {second} * ) ( {third} * + {fourth} * )".split()
        return bracketed("(", listed([[name] for name in self.directions], "+"), ")") + ["*"]

    def turn(self):
        tokens = self.walk() if self.maybe(0.85) else []
        if self.maybe(0.8):
            tokens += bracketed("{", [self.pieces[0]], "}")
        tokens += self.item(2, False) if self.maybe(0.25) else []
        tokens += self.off()
        tokens += self.item(2, False) if self.maybe(0.3) else []
        return tokens

    def turns(self):
        tokens = []
        for player in self.players:
            tokens += self.turn() + ["->", self.chance.choice(self.players) if self.maybe(0.1) else player]
        return ["->", self.players[-1], "(", *tokens, ")", "*"] + (self.item(2, True) if self.maybe(0.2) else [])

    def turns_with_keeper(self):
        begin = self.assignments() if self.maybe(0.5) else []
        tokens = []
        for player in self.players:
            test = self.rules(2, False)
            tokens += self.turn() + ["->>", "(", "{", "?", *test, "}", *self.assignments(), "->>"]
            tokens += self.on() if self.maybe(0.5) else ["{", "}"]
            tokens += ["+", "{", "!", *test, "}", "->", player, ")"]
        return begin + ["->", self.players[-1], "(", *tokens, ")", "*"]


# Games that burst: a question needs about as many openings, or modifiers in a row, as it may

BURSTING = "#players = white(100), black(100) #pieces = e, w #variables = n(%d) #board = rectangle(up,down,left,right,[%s])\n#rules = "


def bursting(chance):
    """The text of a game at the limits of a question."""
    make = chance.choice([wide, wide, wide_in_patterns, wide_in_patterns, deep, deep, wide_over_squares, keeper_moves])
    rules, bound, squares = make(chance)
    return (BURSTING % (bound, ",".join(["e"] * squares)) + rules).encode()


def choices(count):
    return "(" + "+".join(["[w]"] * count) + ")"


def tree(chance, openings):
    """Offs by which about this many lists of modifiers come about."""
    sizes = [chance.choice([2, 3, 10, 30, 300])]
    while True:
        counts = [1]
        for size in sizes:
            counts.append(counts[-1] * size)
        left = openings - sum(counts)
        if left < counts[-1] * 400:
            break
        sizes.append(chance.choice([2, 3, 10, 30, 300]))
    last = max(1, left // counts[-1] + chance.choice([-1, 0, 0, 1]))
    return "".join(choices(size) for size in sizes + [last])


def wide(chance):
    end = chance.choice(["{}", "{} ->black", "{w} ->black", "({} + {w} ->black)", "([e] + {}) {}"])
    return "->white " + tree(chance, 100_000) + end, 1, 1


def wide_in_patterns(chance):
    parts = chance.randint(1, 4)
    tokens = "->white "
    for _ in range(parts):
        inside = tree(chance, 100_000 // parts) + chance.choice(["{}", "{}", "{w} {}", "{! {w}}"])
        inside = "{! %s}" % inside if chance.random() < 0.3 else inside
        tokens += "{! %s} " % inside + chance.choice(["", "[w] ", "[w] "])
    return tokens + chance.choice(["->black", "->black", "[e] ->black", "(->black + [w] ->white)"]), 1, 1


def wide_over_squares(chance):
    squares = chance.randint(2, 10)
    inside = tree(chance, 100_000 // squares) + "{}"
    return "->white (right* {! %s} {e} [w] + ->black) ->black" % inside, 1, squares


def deep(chance):
    count = chance.choice([197, 198, 199, 200, 201])
    row = chance.choice(["[w]" * count, "([$ n = n + 1])*" + chance.choice(["", "{$ n == %d}" % count])])
    end = chance.choice(["->black", "{} ->black", "{w} ->black", "(->black + [e] ->white)"])
    if chance.random() < 0.5:
        return "->white {%s %s %s} [w] ->black" % (chance.choice("?!"), row, chance.choice(["", "{}", "{e}"])), count, 1
    return "->white (%s %s)" % (row, end), count, 1


def keeper_moves(chance):
    count = chance.choice([998, 999, 1000, 1001])
    loop = chance.choice(["([$ n = n + 1] ->>)*", "([$ n = n + 1] ->>)* {$ n == %d}" % count])
    return loop + chance.choice(["->white [w] ->black", "->white {}", "{}"]), count, 1
