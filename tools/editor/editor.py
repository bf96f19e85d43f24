#!/usr/bin/env python3
"""Talks with `rbg_author lsp` as editors do: each request once with the answer that is wanted, the layout of all games that
ship, and random edits, after each of which the faults and warnings are sent; now and then something is asked of the
text in between, and a second document with the whole text has to have the same faults and warnings. It prints how long
an answer took, and the longest one for chess and for the slowest game.

    editor.py --program ./rbg_author --count 10000
"""

import argparse
import random
import sys
import time
from pathlib import Path
from typing import Any

from asked import ask_all
from edits import change, edit
from talk import Failed, Talk, applied, position
from tokens import tokens

DATA = Path("crates/rbg_games/data")
URI, OTHER = "file:///edited.rbg", "file:///whole.rbg"
# How many edits are made of a text before another game is taken.
AT_ONCE = 100
PLACED = ["hover", "definition", "references", "prepareRename", "rename", "completion"]
WHOLE = ["documentSymbol", "formatting"]


def games() -> list[Path]:
    return sorted(DATA.glob("*.rbg"))


def layouts(talk: Talk) -> int:
    """The layout of each game that ships: the same tokens, no fault more, and the same once more."""
    changed = 0
    for game in games():
        text = game.read_text()
        before = talk.open(URI, text)
        new = formatted(talk, URI, text)
        if new is None or tokens(new) != tokens(text):
            raise Failed(f"{game.name}: the layout changes tokens")
        after, _ = talk.change(URI, 2, [{"text": new}])
        if [it["message"] for it in after] != [it["message"] for it in before] or formatted(talk, URI, new) != new:
            raise Failed(f"{game.name}: the layout isn't kept")
        changed += new != text
        talk.close(URI)
    return changed


def formatted(talk: Talk, uri: str, text: str) -> str | None:
    edits = talk.ask("textDocument/formatting", {"textDocument": {"uri": uri}, "options": {}})
    return None if edits is None else applied(text, edits)


def ask_by_chance(talk: Talk, chance: random.Random, text: str) -> float:
    """Asks something of the text; how many seconds the answer took."""
    method = chance.choice([*PLACED, *WHOLE])
    params: dict[str, Any] = {"textDocument": {"uri": URI}, "options": {}}
    if method in PLACED:
        params["position"] = position(text, chance.randint(0, len(text)))
        params["context"] = {"includeDeclaration": True}
        params["newName"] = chance.choice(["fresh", "e", "1", "rules"])
    began = time.perf_counter()
    message = talk.answer(f"textDocument/{method}", params)
    took = time.perf_counter() - began
    if method == "formatting" and message["result"] is not None:
        if tokens(applied(text, message["result"])) != tokens(text):
            raise Failed("a layout changes tokens")
    if "result" not in message and message["error"]["code"] != -32803:
        raise Failed(f"{method}: {message}")
    return took


class Times:
    """How long answers took, in milliseconds."""

    def __init__(self) -> None:
        self.all: list[float] = []
        self.by_game: dict[str, list[float]] = {}

    def add(self, seconds: float, game: str) -> None:
        self.all.append(1000 * seconds)
        self.by_game.setdefault(game, []).append(1000 * seconds)

    def most(self, game: str | None = None) -> float:
        """The greatest, of all games or of one.

        >>> times = Times()
        >>> times.add(0.5, "chess"), times.add(0.75, "go")
        (None, None)
        >>> times.most("chess"), times.most(), times.slowest(), times.most("hex")
        (500.0, 750.0, 'go', 0.0)
        """
        return max(self.all if game is None else self.by_game.get(game, []), default=0.0)

    def slowest(self) -> str:
        """The game that has the greatest."""
        return max(self.by_game, key=self.most, default="")

    def __str__(self) -> str:
        ordered = sorted(self.all) or [0.0]
        late = ordered[min(len(ordered) - 1, len(ordered) * 99 // 100)]
        return f"mean {sum(ordered) / len(ordered):.1f} ms, 99 in 100 below {late:.1f} ms, most {ordered[-1]:.1f} ms"


def random_edits(talk: Talk, game: Path, count: int, seed: int, reported: Times, asked: Times) -> None:
    """Makes this many edits of a game, one after the other."""
    chance = random.Random(f"{seed} {game.name}")
    text = game.read_text()
    talk.open(URI, text)
    for version in range(2, count + 2):
        start, end, new = edit(chance, text)
        found, took = talk.change(URI, version, [change(text, start, end, new)])
        text = text[:start] + new + text[end:]
        reported.add(took, game.stem)
        if chance.random() < 0.3:
            asked.add(ask_by_chance(talk, chance, text), game.stem)
        if chance.random() < 0.05:
            if talk.open(OTHER, text) != [at_other(it) for it in found]:
                raise Failed(f"{game.name}, seed {seed}, version {version}: another text than was sent")
            talk.close(OTHER)
    talk.close(URI)


def at_other(found: dict[str, Any]) -> dict[str, Any]:
    """A fault with its places in the second document."""
    related = [{**it, "location": {**it["location"], "uri": OTHER}} for it in found["relatedInformation"]]
    return {**found, "relatedInformation": related}


def main() -> int:
    parser = argparse.ArgumentParser(description="Talks with rbg_author lsp as editors do.")
    parser.add_argument("--program", type=Path, default=Path("./rbg_author"))
    parser.add_argument("--count", type=int, default=10000, help="how many random edits are made")
    parser.add_argument("--seed", type=int, default=1)
    parser.add_argument("--game", help="makes edits of this game alone")
    parser.add_argument("--within", type=float, help="fails if an edit of chess, or of GAME, is answered after more milliseconds")
    words = parser.parse_args()
    program = words.program.absolute()
    try:
        ask_all(program)
        print("each request has the answer that is wanted")
        talk = Talk(program)
        talk.begin()
        print(f"layouts of {len(games())} games have the same tokens, {layouts(talk)} have other blanks")
        reported, asked = Times(), Times()
        chosen = [it for it in games() if words.game in (None, it.stem)]
        for turn in range(0, words.count, AT_ONCE):
            game = chosen[turn // AT_ONCE % len(chosen)]
            random_edits(talk, game, min(AT_ONCE, words.count - turn), words.seed + turn, reported, asked)
        if talk.end() != 0:
            raise Failed("the end after shutdown")
        timed = words.game or "chess"
        if words.within is not None and reported.most(timed) > words.within:
            raise Failed(f"an edit of {timed} was answered after {reported.most(timed):.1f} ms")
    except Failed as failure:
        print(f"failed: {failure}")
        return 1
    print(f"{len(reported.all)} edits were answered: {reported}")
    print(f"{len(asked.all)} other requests: {asked}")
    for game in dict.fromkeys([timed, reported.slowest()]):
        count = len(reported.by_game.get(game, []))
        print(f"{game}: {count} edits, most {reported.most(game):.1f} ms; other requests, most {asked.most(game):.1f} ms")
    return 0


if __name__ == "__main__":
    sys.exit(main())
