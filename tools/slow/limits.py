"""Texts at the limits of the language (docs/LANGUAGE.md, "All limits"), often with another fault beside them."""

PARTS = {
    "players": "white(100), black(100)",
    "pieces": "e, w",
    "variables": "n(5)",
    "board": "rectangle(up,down,left,right,[e,e])",
    "rules": "->white {e}[w] ->black",
}
FILLED = "// filled to the limit"


def text(chance):
    parts, macros = dict(PARTS), ""
    for make in chance.sample(MAKERS, chance.choice([1, 1, 1, 2])):
        name, body, more = make(chance)
        macros += more
        parts[name] = body
    if chance.random() < 0.2:
        parts[chance.choice(list(parts))] += chance.choice([" x", " }", " @", " ~", " (", " 1", " {x} ->zz"])
    heads = list(parts)
    chance.shuffle(heads)
    made = macros + "".join(f"#{name} = {parts[name]}\n" for name in heads)
    filling = chance.choice(["// ", "up "])
    return made.replace(FILLED, filling + "x" * (near(chance, 262_141) - len(made) + len(FILLED))).encode()


def near(chance, limit):
    return limit + chance.choice([-1, 0, 0, 1, 1, 2])


def numbered(count, form):
    return ",".join(form % index for index in range(count))


def players(chance):
    return "players", numbered(near(chance, 8), "p%d(1)"), ""


def pieces(chance):
    return "pieces", "e,w," + numbered(near(chance, 998), "p%d"), ""


def variables(chance):
    return "variables", numbered(near(chance, 62), "v%d(1)"), ""


def bounds(chance):
    return "variables", "n(%s)" % chance.choice(["1000000000", "1000000001", "0" * 50 + "1000000000", "9" * 5000]), ""


def directions(chance):
    return "board", "graph(a[e]{%s})" % numbered(near(chance, 64), "d%d:a"), ""


def vertices(chance):
    if chance.random() < 0.5:
        return "board", "rectangle(up,down,left,right,[%s])" % ",".join(["e"] * near(chance, 4096)), ""
    return "board", "graph(%s)" % "".join(f"v{index}[e]{{}}" for index in range(near(chance, 4096))), ""


def hexagon(chance):
    """A great hexagon, often with a row of another length."""
    lengths = [*range(3, 20), *range(18, 2, -1)]
    if chance.random() < 0.6:
        lengths[chance.randrange(len(lengths))] += chance.choice([-1, 1, 2])
    rows = "".join("[" + ",".join(["e"] * length) + "]" for length in lengths)
    return "board", "hexagon(a,b,c,d,f,g,%s)" % rows, ""


def positions(chance):
    last = chance.choice(["up", "zz", "{? {? up}}", "{? ->white}", "[$ n = 1, n = 2, zz = 3]", "{$ zz == 1}"])
    return "rules", "up " * chance.choice([19_997, 19_998, 19_999, 20_000]) + last, ""


def brackets(chance):
    """About 128 brackets of all kinds, around an action or arithmetic, and not always closed."""
    opened = chance.choice([[("(", ")")], [("(", ")"), ("{?", "}")], [("({!", "})"), ("(up(", "))")]])
    tokens, closing, patterns = "", "", 0
    while len(closing) < near(chance, 127):
        opening, close = chance.choice(opened)
        if "{" in opening:
            patterns += 1
            if patterns > chance.choice([7, 8, 8, 9]):
                opening, close = "(", ")"
        tokens, closing = tokens + opening, close + closing
    inside = chance.choice(["up", "{e}", "[$ n = ((1))]", "{$ -(1) == 2}", "", "1", "(", "{$ " + "(" * 128 + "1"])
    return "rules", tokens + inside + closing[chance.choice([0, 0, 0, 1]) :], ""


def patterns(chance):
    count = chance.choice([7, 8, 9, 10])
    inside = chance.choice(["up", "zz", "->white", "->zz", "{$ 9223372036854775808 == zz}"])
    return "rules", "{? " * count + inside + "}" * count, ""


def numbers(chance):
    numbers = ["9223372036854775807", "9223372036854775808", "0" * 30 + "9223372036854775807", "8" * 5000]
    return "rules", "->white {$ %s %s n} [$ n = -%s, w = 1]" % (chance.choice(numbers), chance.choice("<>"), chance.choice(numbers)), ""


def levels(chance):
    count = near(chance, 64)
    if chance.random() < 0.5:
        return "rules", "m1", "".join(f"#m{index} = m{index + 1}\n" for index in range(1, count)) + f"#m{count} = ->white\n"
    last = "".join(f"#m{index}(x) = m{index + 1}(x x)\n" for index in range(1, 5)) + "#m5(x) = x\n"
    return "rules", "m1(up)", last


def joins(chance):
    return "rules", "->white {c}", "#c = %s~%s\n" % ("a" * 512, "b" * (near(chance, 1024) - 512))


def long_names(chance):
    count = near(chance, 1024) - 512
    name = "a" * 512 + "b" * count
    return "pieces", "e, w, c, %s" % name, "#c = %s\n" % chance.choice(["%s~%s" % (name[:512], name[512:]), name + "~a", "1~2~a"])


def kept_tokens(chance):
    """65,536 tokens by doubling, 33 of the rest of the text, and as many more as fit."""
    macros = "#t0 = up up\n" + "".join(f"#t{index} = t{index - 1} t{index - 1}\n" for index in range(1, 16))
    return "rules", "(t15 " + "up " * near(chance, 34_431), macros


def long_text(chance):
    return "rules", "->white " + FILLED, ""


MAKERS = [
    players, pieces, variables, bounds, directions, vertices, hexagon, positions, brackets, brackets, brackets, patterns, numbers,
    levels, joins, long_names, kept_tokens, long_text,
]
