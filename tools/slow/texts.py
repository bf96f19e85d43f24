"""Texts from tokens: layout, macros that leave the game as it is, and mutations of texts, tokens and lines."""

import re

WORD = re.compile(r"\w+")
TOKEN = re.compile(r"\w+|->>|->|==|!=|<=|>=|\S")
SPACES = [" ", " ", " ", "\n", "\t", "  ", "\r\n", " // a comment\n", "//\n"]
VOCABULARY = (
    "->> -> == != <= >= = < > + - * / ( ) [ ] { } , ; : ~ # $ ? ! "
    "e w b x white black up left rectangle hexagon graph players pieces variables board rules g f "
    "0 1 00 7 100 1000000000 1000000001 9223372036854775807 9223372036854775808"
).split()
BYTES = b"\0 \n\r\t#~@\"'|%\\.^&`\x7f\x80\xff\x0baA_09()[]{}<>=-+*/,;:$?!"


def text_of_game(chance, game):
    """A text of the game, often with macros. Some games leave a section out, or have one twice."""
    names = list(game.sections)
    chance.shuffle(names)
    if chance.random() < 0.01:
        names.remove(chance.choice(names))
    if chance.random() < 0.01:
        names.append(chance.choice(names))
    parts = [(name, list(game.sections[name])) for name in names]
    while chance.random() < 0.35:
        add_macro(chance, parts)
    return lay_out(chance, [token for head, body in parts for token in ["#", *TOKEN.findall(head), "=", *body]])


def add_macro(chance, parts):
    """Puts some tokens of a body into a macro, without or with parameters, or spells a name by a join."""
    index = chance.randrange(len(parts))
    head, body = parts[index]
    if not body:
        return
    start = chance.randrange(len(body))
    if chance.random() < 0.2:
        name = body[start]
        if len(name) > 1 and WORD.fullmatch(name) and "~" not in body[max(0, start - 1) : start + 2]:
            cut = chance.randrange(1, len(name))
            if not (name[0].isalpha() and name[cut].isdigit() and chance.random() < 0.5):
                body[start : start + 1] = [name[:cut], "~", name[cut:]]
        return
    end = min(len(body), start + chance.randint(0, 12))
    inside = body[start:end]
    if "~" in body[max(0, start - 1) : end + 1]:
        return
    name = f"m{len(parts)}"
    names = [token for token in inside if token.isidentifier()]
    if names and chance.random() < 0.5:
        argument = chance.choice(names)
        parameters = ["y", chance.choice(["z", "players", "e"])][: chance.randint(1, 2)]
        inside = ["y" if token == argument else token for token in inside]
        if "e" in inside and "e" in parameters:
            parameters = ["y"]
        call = [name, "(", *(";".join([argument, "z"][: len(parameters)])).replace(";", " ; ").split(), ")"]
        macro = name + "(" + ";".join(parameters) + ")"
        if "y" in names:
            return
    else:
        call, macro = [name], name
    body[start:end] = call
    parts.insert(chance.randrange(len(parts) + 1), (macro, inside))


def lay_out(chance, tokens):
    spaced = chance.choice([0.1, 0.5, 1])
    text, last = [], ""
    for token in tokens:
        needed = not (WORD.match(last) or last in "([{,") or not (token in "()[]{},;:" or WORD.match(token))
        if needed or (WORD.match(last) and WORD.match(token)) or chance.random() < spaced:
            text.append("\n" if token == "#" else chance.choice(SPACES) if chance.random() < 0.3 else " ")
        text.append(token)
        last = token
    return "".join(text).encode()


# Mutations


def mutate(chance, text):
    """A text with some changes of bytes, tokens or lines."""
    for _ in range(chance.choice([1, 1, 1, 2, 3])):
        text = chance.choice([mutate_byte, mutate_token, mutate_token, mutate_token, mutate_line])(chance, text)
    return text


def mutate_byte(chance, text):
    at = chance.randrange(len(text) + 1)
    new = bytes([chance.choice(BYTES)]) if chance.random() < 0.7 else b""
    return text[:at] + new + text[at + (chance.random() < 0.6) :]


def mutate_token(chance, text):
    found = list(re.finditer(rb"\w+|->>|->|==|!=|<=|>=|\S", text))
    if not found:
        return mutate_byte(chance, text)
    one, other = chance.choice(found), chance.choice(found)
    vocabulary = chance.choice(VOCABULARY).encode()
    new = chance.choice([b"", b"", other.group(), vocabulary, one.group() + b" " + vocabulary, one.group() * 2])
    return text[: one.start()] + new + text[one.end() :]


def mutate_names(chance, text):
    """A text of which the grammar holds as before: other names and numbers, a cell less, a row or a section moved."""
    for _ in range(chance.choice([1, 2, 4])):
        names = list(re.finditer(rb"(?<![\w#])[A-Za-z_]\w*", text))
        numbers = list(re.finditer(rb"(?<!\w)\d+", text))
        cells = list(re.finditer(rb"\b\w+\s*,\s*(?=\w)", text))
        rows = list(re.finditer(rb"\[[^\[\]$]*\]", text))
        change = chance.choice(["name", "name", "name", "number", "cell", "row"])
        found = {"name": names, "number": numbers, "cell": cells, "row": rows}[change]
        if not found:
            continue
        one, other = chance.choice(found), chance.choice(found)
        new = {
            "name": chance.choice([other.group(), other.group(), b"zz"]),
            "number": chance.choice([b"1000000000", b"1000000001", b"00099", b"9223372036854775808", b"1" * 40]),
            "cell": chance.choice([b"", one.group() * 2]),
            "row": chance.choice([b"", one.group() * 2, other.group()]),
        }[change]
        text = text[: one.start()] + new + text[one.end() :]
    return text


def mutate_line(chance, text):
    lines = text.splitlines(keepends=True)
    if len(lines) < 2:
        return mutate_byte(chance, text)
    one, other = chance.randrange(len(lines)), chance.randrange(len(lines))
    change = chance.randrange(4)
    if change == 0:
        del lines[one]
    elif change == 1:
        lines.insert(other, lines[one])
    elif change == 2:
        lines[one], lines[other] = lines[other], lines[one]
    else:
        lines = lines[: one + 1]
    return b"".join(lines)


def soup(chance):
    """A text that is hardly a game: random heads, calls and joins of macros."""
    names = ["f", "g", "h", "a", "players", "rules", "pieces", "board", "variables"]
    tokens = []
    for _ in range(chance.randint(1, 6)):
        name = chance.choice(names)
        tokens += ["#", name]
        parameters = chance.sample(["x", "y", "a", "f", "rules"], chance.choice([0, 0, 1, 2]))
        if parameters and name not in names[4:]:
            tokens += ["(", *" ; ".join(parameters).split(), ")"]
        tokens.append("=")
        for _ in range(chance.randint(0, 8)):
            tokens += chance.choice([["f"], ["g"], ["a"], ["x"], ["y"], ["~"], ["1"], [";"], ["("], [")"], ["["], ["]"],
                                     ["f", "(", "a", ")"], ["f", "(", "x", ";", "1", ")"], ["a", "~", "x"], ["h"]])
    if chance.random() < 0.3:
        tokens.insert(chance.randrange(len(tokens)), chance.choice(VOCABULARY))
    return lay_out(chance, tokens)
