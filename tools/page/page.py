#!/usr/bin/env python3
"""Makes the pages of four matches, and takes pictures of each: the start, the middle and the end.

It plays the matches that lie beside the games over `./rbg serve`, so that the records have moments, and turns each
record into a page by `./rbg_author page`. The pictures are taken by a browser without a window, if there is one.
Everything is left in the folder that is named last, or in a new one. It says how many bytes a page has for each move: no
more than 200, besides those of the board and the script.
"""

import argparse
import pathlib
import shutil
import socket
import subprocess
import sys
import tempfile
import time

GAMES = ["chess", "hex", "abalone", "reversi"]
BROWSERS = ["chromium", "chromium-browser", "google-chrome"]
DATA = pathlib.Path("crates/rbg_games/data")
SIZE = "1000,680"
# the most bytes of a page for each move
MOST = 200


def moves_of(script: pathlib.Path) -> list[tuple[int, str]]:
    """The moves of a script, each with its seat."""
    moves = []
    for line in script.read_text().splitlines():
        words = line.split(" ", 3)
        if words[0] == "m":
            moves.append((int(words[1]), words[3]))
    return moves


class Seat:
    """A connection to the referee."""

    def __init__(self, port: int) -> None:
        for _ in range(100):
            try:
                self.line = socket.create_connection(("127.0.0.1", port))
                break
            except ConnectionRefusedError:
                time.sleep(0.1)
        else:
            sys.exit("no connection to ./rbg serve")
        self.read = b""

    def say(self, message: str) -> None:
        self.line.sendall(message.encode() + b"\0")

    def hear_until(self, wanted: str) -> None:
        """Reads messages until this one comes."""
        while True:
            message, zero, rest = self.read.partition(b"\0")
            if zero:
                self.read = rest
                if message.decode() == wanted:
                    return
                if message.startswith((b"R", b"E")):
                    sys.exit(f"{message.decode()} instead of {wanted}")
                continue
            more = self.line.recv(65536)
            if not more:
                sys.exit(f"the line ended before {wanted}")
            self.read += more


def play(game: pathlib.Path, moves: list[tuple[int, str]], port: int) -> str:
    """The record of a match of these moves."""
    server = subprocess.Popen(
        ["./rbg", "serve", str(game), "--port", str(port)], stdout=subprocess.PIPE, text=True
    )
    # seats are given in order of arrival
    seats = [Seat(port), Seat(port)]
    for seat, move in moves:
        seats[seat - 1].say(move)
        seats[seat - 1].hear_until(move)
    record, _ = server.communicate(timeout=60)
    return record


def page_of(game: pathlib.Path, record: str) -> str:
    made = subprocess.run(
        ["./rbg_author", "page", str(game)], input=record, capture_output=True, text=True
    )
    if made.returncode != 0:
        sys.exit(f"{game}: {made.stderr}")
    return made.stdout


def bytes_of_moves(page: str) -> int:
    """How many bytes the moves take: the lines of the record, after the one with the first board."""
    _, lines = page.split("<pre id='record'>\n")
    _, moves = lines.split("\n", 1)
    return len(moves.split("</pre>")[0])


def picture(browser: str, page: pathlib.Path, step: int, to: pathlib.Path) -> None:
    command = [browser, "--headless", "--no-sandbox", "--disable-gpu", "--hide-scrollbars"]
    command += [f"--window-size={SIZE}", f"--screenshot={to}", f"file://{page}#{step}"]
    subprocess.run(command, check=True, stderr=subprocess.DEVNULL, timeout=120)


def main() -> None:
    parser = argparse.ArgumentParser(description=__doc__)
    parser.add_argument("--port", type=int, default=4720)
    parser.add_argument("folder", nargs="?")
    words = parser.parse_args()
    folder = pathlib.Path(words.folder or tempfile.mkdtemp()).resolve()
    folder.mkdir(parents=True, exist_ok=True)
    browser = next((found for name in BROWSERS if (found := shutil.which(name))), None)
    for index, name in enumerate(GAMES):
        game = DATA / f"{name}.rbg"
        moves = moves_of(DATA / f"{name}.script")
        record = play(game, moves, words.port + index)
        text = page_of(game, record)
        page = folder / f"{name}.html"
        page.write_text(text)
        (folder / f"{name}.record").write_text(record)
        reported = bytes_of_moves(text)
        print(f"{name}: {len(moves)} moves, {len(text)} bytes, {reported // len(moves)} of them for each move")
        if reported > MOST * len(moves):
            sys.exit(f"{name}: more than {MOST} bytes a move")
        if browser:
            for label, step in [("start", 0), ("middle", len(moves) // 2), ("end", len(moves))]:
                picture(browser, page, step, folder / f"{name}-{label}.png")
    print(f"the pages are in {folder}" + ("" if browser else "; there is no browser for pictures"))


if __name__ == "__main__":
    main()
