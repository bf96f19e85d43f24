"""The table of a tournament as text, and its results as CSV and JSON."""

import csv
import io
import json
import os
from dataclasses import asdict

from tournament_files import write_whole
from tournament_plan import Files, Folder, Plan
from tournament_standings import ENDS, Table, remarks

HEADS = ["", "program", "rating", "95%", "better", "points", "won", "drawn", "lost", *ENDS, "absent"]
GAME_HEADS = ["game", "matches", "drawn", "forfeits", "E4", "adjudged", "moves", "longest"]
TIME_HEADS = ["program", "moves", "seconds", "ms a move", "longest ms"]


def percent(part: float, whole: float) -> str:
    """
    >>> percent(1, 8), percent(0, 0)
    ('12.5%', '')
    """
    return f"{100 * part / whole:.1f}%" if whole else ""


def standing_rows(table: Table) -> list[list[str]]:
    """The lines of the standings, the best program first. `better` is the chance that it is stronger than the next."""
    return [
        [str(rank), line.name, str(round(line.rating)), f"±{round(line.interval)}"]
        + ["" if line.better is None else percent(line.better, 1), f"{line.points:g}"]
        + [str(count) for count in (line.wins, line.draws, line.losses, *line.ends.values(), line.absent)]
        for rank, line in enumerate(table.best(), 1)
    ]


def pair_rows(table: Table) -> list[list[str]]:
    """What each program took from each other one, and of how many matches."""
    pairs = []
    for one, line in enumerate(table.standings):
        cells = []
        for other in range(len(table.standings)):
            played = table.score[one][other] + table.score[other][one]
            cells.append(f"{table.score[one][other]:g} of {played:g}" if played else "")
        pairs.append([line.name, *cells])
    return pairs


def game_rows(table: Table) -> list[list[str]]:
    """What came of each game: at the end, what each seat took."""
    most = max((len(game.seats) for game in table.games.values()), default=0)
    rows = [GAME_HEADS + [f"seat {seat}" for seat in range(1, most + 1)]]
    for name, game in table.games.items():
        mean = f"{sum(game.moves) / len(game.moves):.1f}" if game.moves else ""
        counts = [str(count) for count in (game.matches, game.draws, game.forfeits, game.heavy, game.adjudged)]
        seats = [percent(seat.points, seat.matches) for seat in game.seats]
        rows.append([name, *counts, mean, str(max(game.moves, default="")), *seats, *[""] * (most - len(seats))])
    return rows


def share_rows(table: Table) -> list[list[str]]:
    """What each program took in each game and in each seat."""
    seats = range(1, max((len(game.seats) for game in table.games.values()), default=0) + 1)
    rows = [["program", *table.games, *[f"seat {seat}" for seat in seats]]]
    for line in table.best():
        counts = [line.games.get(game) for game in table.games] + [line.seats.get(seat) for seat in seats]
        rows.append([line.name, *[count.in_words() if count else "" for count in counts]])
    return rows


def time_rows(table: Table) -> list[list[str]]:
    """How many moves each program made, and the time that it took for them."""
    rows = []
    for line in table.best():
        moves, used = line.used.matches, line.used.points
        mean = f"{used / moves:.1f}" if moves else ""
        rows.append([line.name, str(moves), f"{used / 1000:.1f}", mean, str(line.most)])
    return rows


def text_of(rows: list[list[str]]) -> str:
    """Rows in columns, names to the left and all else to the right.

    >>> print(text_of([["program", "won"], ["a", "12"]]))
    program  won
    a         12
    """
    widths = [max(len(cell) for cell in column) for column in zip(*rows)]
    lines = []
    for row in rows:
        cells = [
            cell.ljust(width) if head in ("program", "game") else cell.rjust(width)
            for cell, head, width in zip(row, rows[0], widths)
        ]
        lines.append("  ".join(cells).rstrip())
    return "\n".join(lines)


def summary(table: Table) -> str:
    """How many matches have which state.

    >>> summary(Table([], [None, None], [], [], {}, set()))
    '0 of 2 matches played; 2 not played yet'
    """
    states = [result.state if result else "missing" for result in table.results]
    count = {state: states.count(state) for state in ("adjudged", "default", "failed", "missing")}
    words = {"adjudged": "of them adjudged", "default": "lost by default", "failed": "failed", "missing": "not played yet"}
    more = "".join(f"; {count[state]} {words[state]}" for state in count if count[state])
    return f"{states.count('played') + count['adjudged']} of {len(states)} matches played{more}"


def table_text(plan: Plan, table: Table) -> str:
    """The whole table."""
    parts = [text_of([HEADS, *standing_rows(table)]), text_of([["program", *plan.programs], *pair_rows(table)])]
    parts += [text_of(game_rows(table)), text_of(share_rows(table)), text_of([TIME_HEADS, *time_rows(table)])]
    if remarks(table):
        parts.append("\n".join(remarks(table)))
    last = [summary(table)]
    for number, result in enumerate(table.results, 1):
        if result is not None and (result.state in ("default", "failed") or result.late):
            reason = result.adjudged if result.late else result.reason
            last.append(f"match {number}, {result.game}, {' - '.join(result.seats)}: {result.state}: {reason}")
    return "\n\n".join([*parts, "\n".join(last)])


# the columns of results.csv
COLUMNS = {
    "match": "its number, as in jobs.txt",
    "game": "the file of the game",
    "round": "from 1 on",
    "opening": "its line in the openings of the game; 0 without one",
    "seat": "from 1 on",
    "program": "who sits there",
    "score": "what it counts, empty if for nobody; after a forfeit 0 for who lost, and 1",
    "state": "played, adjudged by the plan, default (somebody didn't come), or failed",
    "outcome": "of the record: E0 with the scores; E1 (time), E2 (refusals), E3 (left) with the seat that lost; E4; -",
    "adjudged": "what the plan decided, and not the referee",
    "reason": "why there is no outcome",
    "moves": "turns of this seat after the opening, with one that was lost by time",
    "used_ms": "milliseconds that they took together",
    "most_ms": "the longest one",
    "exit": "how the program ended; `ended by the tournament` if it hadn't by itself, which is no fault",
    "seconds": "how long the match took, with the start of its programs",
    "repeated": "1 if the match is the same as one before, and so isn't counted",
    "record": "file of the record",
    "log": "file of the log",
    "faults": "what else went wrong, and changed nothing, as output that couldn't be written",
    "machine": "where it was played",
    "began": "when",
}


def columns_in_words() -> str:
    """The columns of results.csv, a line for each.

    >>> print(columns_in_words().splitlines()[1])
      match     its number, as in jobs.txt
    """
    return "columns of results.csv, a row for each seat of each match:\n" + "".join(
        f"  {name:<9} {reported}\n" for name, reported in COLUMNS.items()
    )


def files_of(folder: Folder, table: Table) -> list[dict[str, str]]:
    """Of each match the files that are there, by what they have. Their paths start from the tournament's folder."""
    there = set(os.listdir(folder.matches))
    found = []
    for number, pairing in enumerate(table.pairings, 1):
        names = Files(folder, number, len(pairing.seats)).names
        found.append({key: f"matches/{name}" for key, name in names.items() if name in there})
    return found


def rows_of_results(table: Table, files: list[dict[str, str]]) -> list[list[object]]:
    """The rows of results.csv: a head, and a row for each seat of each match that was played."""
    rows: list[list[object]] = [list(COLUMNS)]
    for number, result in enumerate(table.results, 1):
        for seat, name in enumerate(result.seats if result else (), 1):
            times = result.times[seat - 1] if result.times else []
            row: list[object] = [number, result.game, result.round, result.opening, seat, name]
            row += [result.scores[seat - 1] if result.scores else "", result.state, result.outcome or ""]
            row += [result.adjudged, result.reason or "", len(times), sum(times), max(times, default=0)]
            row += [result.exits[seat - 1] if len(result.exits) >= seat else "", result.seconds]
            row += [int(number - 1 in table.repeated), *[files[number - 1].get(key, "") for key in ("record", "log")]]
            rows.append([*row, "; ".join(result.faults), result.machine, result.began])
    return rows


def write_results(folder: Folder, table: Table) -> None:
    """Writes results.csv and results.json."""
    sheet = io.StringIO()
    files = files_of(folder, table)
    csv.writer(sheet, lineterminator="\n").writerows(rows_of_results(table, files))
    write_whole(folder.path / "results.csv", sheet.getvalue())
    lines = []
    for number, (pairing, result) in enumerate(zip(table.pairings, table.results), 1):
        match: dict[str, object] = {"match": number, **vars(pairing), "state": "missing"}
        if result is not None:
            match |= {**vars(result), "state": result.state, "repeated": number - 1 in table.repeated}
            match |= {"used": result.used(), "most": result.most(), "files": files[number - 1]}
        lines.append(json.dumps(match))
    standings = json.dumps([asdict(line) for line in table.best()])
    # a line for each match
    matches = ",\n".join(lines)
    write_whole(folder.path / "results.json", f'{{"standings": {standings},\n"matches": [\n{matches}\n]}}\n')
