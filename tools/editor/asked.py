"""Each request once, with the answer that is wanted."""

import re
from pathlib import Path
from typing import Any

from edits import change
from talk import Failed, Talk, applied, framed, position

BREAKTHROUGH = "crates/rbg_games/data/breakthrough.rbg"
URI = "file:///game.rbg"

# A graph, a name that is a piece and a direction, a joined name, a macro that nothing calls.
GRAPH = """#players = white(1), black(2)
#variables = count(9)
#pieces = e, w, up
#board = graph(a[e]{up: b, down: a} b[w]{up: a})
#idle(x) = x up
#both(p; q) = {p} q p~p
#ee = up
#rules = ->white both(e; up) [up] [$ count = count + up] {? up {up}} ->black ->> {}
"""


def same(found: Any, wanted: Any, what: str) -> None:
    if found != wanted:
        raise Failed(f"{what}: {found!r}, and not {wanted!r}")


def place(text: str, mark: str, count: int = 0) -> dict[str, int]:
    """The position of a part of a text, after this many others."""
    at = [it.start() for it in re.finditer(re.escape(mark), text)][count]
    return position(text, at)


def at(text: str, mark: str, count: int = 0) -> dict[str, Any]:
    return {"textDocument": {"uri": URI}, "position": place(text, mark, count)}


def lines(found: list[dict[str, Any]]) -> list[tuple[int, int]]:
    return [(it["range"]["start"]["line"] + 1, it["range"]["start"]["character"]) for it in found]


def names(found: list[dict[str, Any]]) -> list[str]:
    return [it["label"] for it in found]


def hovers(talk: Talk, text: str) -> None:
    def hover(mark: str, count: int = 0) -> str:
        found = talk.ask("textDocument/hover", at(text, mark, count))
        return found["contents"]["value"] if found else ""

    same(hover("white"), "player `white`, number 1, score at most 100\n\n", "hover over a player")
    same(hover("w, b"), "piece `w`, number 1\n\n", "hover over a piece")
    same(hover("up,down"), "direction `up`, number 0\n\n", "hover over a direction")
    same(hover("pieces"), "section `pieces`\n\n", "hover over a section")
    same(hover("me;"), "parameter `me` of the macro `turn`\n\n", "hover over a parameter")
    same(hover("->white"), "position 1", "hover over an action")
    same(hover("{mine}"), "positions 6, 27", "hover over an action in a macro")
    reported = hover("turn(white")
    if not reported.startswith("macro `turn(me; opponent; mine; theirs; forward)`, on line 23\n\nexpands to\n```rbg\n(up* + down*)"):
        raise Failed(f"hover over a call: {reported}")
    if "[$ white = 100, black = 0]" not in reported:
        raise Failed(f"hover over a call: {reported}")
    same(hover("Breakthrough"), "", "hover over a comment")


def places(talk: Talk, text: str) -> None:
    def definition(mark: str, count: int = 0) -> list[tuple[int, int]]:
        return lines(talk.ask("textDocument/definition", at(text, mark, count)))

    def references(mark: str, count: int = 0, whole: bool = True) -> list[tuple[int, int]]:
        asked = {**at(text, mark, count), "context": {"includeDeclaration": whole}}
        return lines(talk.ask("textDocument/references", asked))

    same(definition("turn(white"), [(23, 1)], "definition of a macro")
    same(definition("mine}"), [(23, 20)], "definition of a parameter")
    same(definition("w; b; up"), [(10, 13)], "definition of a piece in an argument")
    same(definition("black; w"), [(9, 23)], "definition of a player")
    same(references("anySquare"), [(21, 1), (24, 4)], "references of a macro")
    same(references("anySquare", 0, False), [(24, 4)], "references of a macro without its head")
    same(references("forward", 1), [(23, 34), (25, 4), (27, 9), (28, 9)], "references of a parameter")
    same(references("white"), [(9, 11), (30, 11), (30, 23), (30, 59)], "references of a player")
    same(len(references("w, b")), 1 + 16 + 2, "how many references a piece has")


def renames(talk: Talk, text: str) -> None:
    def rename(mark: str, name: str, count: int = 0) -> dict[str, Any]:
        return talk.answer("textDocument/rename", {**at(text, mark, count), "newName": name})

    def renamed(mark: str, name: str, count: int = 0) -> str:
        return applied(text, rename(mark, name, count)["result"]["changes"][URI])

    changed = renamed("w, b", "pawn")
    same(changed, re.sub(r"\bw\b", "pawn", text), "rename of a piece")
    comment, code = text.split("#players")
    wanted = comment + "#players" + code.replace("forward", "onwards")
    same(renamed("forward", "onwards", 1), wanted, "rename of a parameter")
    same(renamed("anySquare", "somewhere"), text.replace("anySquare", "somewhere"), "rename of a macro")
    for mark, name, why in [
        ("w, b", "b", "is in the text already"),
        ("w, b", "2w", "a name is a letter"),
        ("anySquare", "rules", "that of a section"),
        ("pieces", "stones", "a section has its name"),
        ("me;", "mine", "is in the text already"),
    ]:
        error = rename(mark, name).get("error", {"message": "renamed"})
        if why not in error["message"]:
            raise Failed(f"rename to {name}: {error}")
    same(talk.ask("textDocument/prepareRename", at(text, "pieces")), None, "preparing to rename a section")
    found = talk.ask("textDocument/prepareRename", at(text, "anySquare"))
    same(found["end"]["character"] - found["start"]["character"], 9, "preparing to rename a macro")


def completes(talk: Talk, text: str) -> None:
    def complete(mark: str, count: int = 0, further: int = 0) -> list[str]:
        asked = at(text, mark, count)
        asked["position"]["character"] += further
        return names(talk.ask("textDocument/completion", asked))

    parameters = ["me", "opponent", "mine", "theirs", "forward"]
    macros = ["anySquare", "turn"]
    same(complete("->white", 0, 2), ["white", "black", *macros], "completion of a switch")
    same(complete("{mine}", 0, 1), ["e", "w", "b", *parameters, *macros], "completion of an on")
    same(complete("[$ me", 0, 3), ["white", "black", *parameters, *macros], "completion of an assignment")
    same(complete("rectangle"), ["rectangle", "hexagon", "graph"], "completion of a board")
    same(complete("#rules", 0, 1), ["variables"], "completion of a section")
    same(complete("(turn(white", 0, 1), ["up", "down", "left", "right", *macros], "completion of rules")


def outlines(talk: Talk, text: str) -> None:
    found = talk.ask("textDocument/documentSymbol", {"textDocument": {"uri": URI}})
    same(
        [(it["name"], len(it["children"])) for it in found],
        [
            ("players", 2),
            ("pieces", 3),
            ("board", 4),
            ("anySquare", 0),
            ("turn(me; opponent; mine; theirs; forward)", 0),
            ("rules", 0),
        ],
        "outline",
    )
    same([it["name"] for it in found[1]["children"]], ["e", "w", "b"], "outline of the pieces")


def graphs(talk: Talk) -> None:
    """A graph, names of two kinds, a joined name."""
    talk.open(URI, GRAPH)

    def references(mark: str, count: int = 0) -> list[tuple[int, int]]:
        asked = {**at(GRAPH, mark, count), "context": {"includeDeclaration": True}}
        return lines(talk.ask("textDocument/references", asked))

    same(references("b, down"), [(4, 24), (4, 36)], "references of a vertex")
    same(references("up: b"), [(4, 20), (4, 41), (5, 13), (7, 6), (8, 25), (8, 60)], "references of a direction")
    same(references("up]"), [(3, 16), (5, 13), (8, 30), (8, 53), (8, 64)], "references of a piece that is a direction too")
    asked = {**at(GRAPH, "e, w"), "newName": "none"}
    error = talk.answer("textDocument/rename", asked).get("error", {"message": "renamed"})
    same(error["message"], "the name is part of names that are joined", "rename of a joined piece")
    hover = talk.ask("textDocument/hover", at(GRAPH, "count("))["contents"]["value"]
    same(hover, "variable `count`, number 2, at most 9\n\n", "hover over a variable")
    talk.close(URI)


def faults(talk: Talk, text: str) -> None:
    same(talk.open(URI, text), [], "faults of a game that ships")
    broken = text.replace("{mine} [e]", "{mine [e]")
    reported, _ = talk.change(URI, 2, [{"text": broken}])
    same([it["severity"] for it in reported], [1], "faults of a bracket that stays open")
    start = broken.index("{mine")
    reported, _ = talk.change(URI, 3, [change(broken, start + 5, start + 5, "}")])
    same(reported, [], "faults of a bracket that was closed")


def formats(talk: Talk, text: str) -> None:
    def formatted(version: int, given: str) -> str | None:
        talk.change(URI, version, [{"text": given}])
        edits = talk.ask("textDocument/formatting", {"textDocument": {"uri": URI}, "options": {}})
        return None if edits is None else applied(given, edits)

    same(formatted(10, text), text, "layout of a game that ships")
    same(formatted(11, untidy(text)), text, "layout of an untidy text")
    same(formatted(12, "#a = b . c"), None, "layout of what has no tokens")
    talk.change(URI, 13, [{"text": text}])


def untidy(text: str) -> str:
    """The text with other blanks: what its layout takes back."""
    board = text[text.index("#board") : text.index("#anySquare")]
    others = [re.sub(r"^ +", "\t", it, flags=re.M) for it in text.split(board)]
    return "\n \n" + f"{board}\n\n".join(others).replace("\n", "  \r\n").replace("#turn", "   #turn") + "\n\n"


def manners(talk: Talk) -> None:
    """What the protocol says of messages that aren't right."""
    same(talk.answer("textDocument/foldingRange", {})["error"]["code"], -32601, "a method that isn't known")
    same(talk.answer("initialize", {})["error"]["code"], -32600, "a second initialize")
    same(talk.answer("textDocument/hover", {"textDocument": {"uri": "file:///no"}})["error"]["code"], -32602, "no document")
    for body, code in [(b"{", -32700), (b"\xff\xfe", -32700), (b"[]", -32600), (b'{"id":7}', -32600), (b"1", -32600)]:
        talk.write(framed(body))
        same(talk.read()["error"]["code"], code, f"the message {body!r}")
    talk.write(framed(b'{"jsonrpc":"2.0","id":"a\\"b","method":"nothing"}'))
    same(talk.read()["id"], 'a"b', "an id that is a string")
    talk.write(framed(b'{"jsonrpc":"2.0","method":"$/nothing"}'))
    talk.write(framed(b'{"jsonrpc":"2.0","id":3,"result":null}'))
    whole = framed(b'{"jsonrpc":"2.0","id":99,"method":"nothing"}')
    for byte in whole:
        talk.write(bytes([byte]))
    same(talk.read()["id"], 99, "a message that comes byte by byte")


def ends(program: Path) -> None:
    """How the server ends."""
    talk = Talk(program)
    same(talk.answer("textDocument/hover", {})["error"]["code"], -32002, "a request before initialize")
    talk.begin()
    talk.ask("shutdown", None)
    same(talk.answer("textDocument/hover", {})["error"]["code"], -32600, "a request after shutdown")
    talk.notify("exit", None)
    same(talk.ended(), (0, ""), "the end after shutdown")
    for data, said in [
        (framed(b'{"jsonrpc":"2.0","method":"exit"}'), ""),
        (b"", ""),
        (b"Content-Type: x\r\n\r\n{}", "lsp: a header has no Content-Length\n"),
        (b"Content-Length: 20000000\r\n\r\n", "lsp: a message is longer than 16 MB\n"),
        (b"Content-Length: x\r\n\r\n", "lsp: a Content-Length is no number\n"),
        (b"x" * 5000, "lsp: a header has no end\n"),
    ]:
        talk = Talk(program)
        talk.write(data)
        same(talk.ended(), (1, said), f"the end after {data[:40]!r}")


def ask_all(program: Path) -> None:
    text = Path(BREAKTHROUGH).read_text()
    talk = Talk(program)
    same(talk.begin()["capabilities"]["textDocumentSync"], {"openClose": True, "change": 2}, "capabilities")
    faults(talk, text)
    for check in [hovers, places, renames, completes, outlines, formats]:
        check(talk, text)
    talk.close(URI)
    graphs(talk)
    manners(talk)
    same(talk.end(), 0, "the end after shutdown")
    ends(program)
