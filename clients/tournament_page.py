"""The table of a tournament as a page: settings, tables, charts, and links to the pages and logs of the matches."""

import html
import os
import re
import subprocess
import time
from concurrent.futures import ThreadPoolExecutor
from pathlib import Path
from typing import Optional, Sequence
from urllib.parse import quote

from tournament_charts import Bar, bars, curves, histogram
from tournament_files import part_of, write_whole
from tournament_plan import Files, Folder, Plan
from tournament_records import shares
from tournament_result import Result
from tournament_standings import Table, remarks
from tournament_table import HEADS, TIME_HEADS
from tournament_table import files_of, game_rows, pair_rows, share_rows, standing_rows, summary, time_rows

STYLE = """body{font:16px sans-serif;margin:2em;max-width:72em}table{border-collapse:collapse;margin:1em 0}
td,th{border:1px solid #bbb;padding:.2em .6em;text-align:right}td.name,th.name{text-align:left}
tr:nth-child(even){background:#f4f4f4}th{background:#e8eef4}svg{max-width:100%;height:auto}"""
NUMBER = re.compile(r"[±-]?[0-9.]+%?( of [0-9.]+)?")  # a cell that is aligned to the right
REFRESH = 5  # seconds after which a browser asks again, while matches are to be played


class Markup(str):
    """A text that is markup already."""


def html_table(rows: list[list[str]]) -> str:
    """A table of a page. The first row is its head. All cells but those of markup are plain texts.

    >>> print(html_table([["x"], ["<b>"], [Markup("<i>7</i>")]]), end="")
    <table><tr><th class="name">x</th></tr><tr><td class="name">&lt;b&gt;</td></tr><tr><td><i>7</i></td></tr></table>
    """

    def line(row: list[str], tag: str) -> str:
        cells = [cell if isinstance(cell, Markup) else html.escape(cell) for cell in row]
        right = [isinstance(cell, Markup) or NUMBER.fullmatch(cell) for cell in row]
        kinds = ["" if each else ' class="name"' for each in right]
        return "<tr>" + "".join(f"<{tag}{kind}>{cell}</{tag}>" for cell, kind in zip(cells, kinds)) + "</tr>"

    return "<table>" + line(rows[0], "th") + "".join(line(row, "td") for row in rows[1:]) + "</table>\n"


def settings_rows(plan: Plan) -> list[list[str]]:
    """What the plan says, but for the games and the programs."""
    times = f"{plan.wait:g} s to connect, {plan.minutes:g} min a match, {plan.grace:g} s to end"
    rows = [["setting", "value"], ["schedule", f"{plan.schedule}, {plan.rounds} rounds, orders of seats: {plan.orders}"]]
    rows += [["times", times], ["refusals", str(plan.refusals)], ["E4", plan.heavy]]
    if plan.moves:
        rows.append(["most moves", f"{plan.moves}, then a {plan.late}"])
    return [*rows, ["matches at once", str(plan.jobs)]]


def game_settings(plan: Plan) -> list[list[str]]:
    rows = [["game", "players", "ms a turn", "openings"]]
    return rows + [[name, str(game.players), str(game.turn), str(game.openings)] for name, game in plan.games.items()]


def program_settings(plan: Plan) -> list[list[str]]:
    """The programs with their commands and limits."""
    rows = [["program", "command", "ms a turn", "memory", "processor"]]
    for name, program in plan.programs.items():
        limits = [f"{program.memory} MB" if program.memory else "", f"{program.processor} s" if program.processor else ""]
        command = f"{program.wrapper} {program.command}".strip()
        rows.append([name, command, str(program.turn) if program.turn else "", *limits])
    return rows


def course_of_scores(table: Table) -> dict[str, list[tuple[float, float]]]:
    """For each program the part of the points that it has after each of its matches."""
    course: dict[str, list[tuple[float, float]]] = {line.name: [] for line in table.best()}
    points = dict.fromkeys(course, 0.0)
    for place, result in enumerate(table.results):
        if result is None or result.scores is None or place in table.repeated:
            continue
        for name, own in zip(result.seats, shares(result.scores, result.absent)):
            if own:
                points[name] += sum(own.values()) / len(own)
                played = len(course[name]) + 1
                course[name].append((played, points[name] / played))
    return course


def charts(table: Table) -> list[str]:
    """Ratings with their intervals, scores over time, time used, and how long the matches of each game were."""
    best = table.best()
    rated = [Bar(line.name, line.rating, line.interval, f"{line.rating:.0f} ±{line.interval:.0f}") for line in best]
    drawn = [bars("ratings, with 95% intervals", rated)]
    drawn.append(curves("part of the points, after this many matches", course_of_scores(table), 0, 1))
    times = []
    for line in best:
        mean = line.used.points / max(1, line.used.matches)
        times.append(Bar(line.name, mean, reported=f"{mean:.0f} ms, most {line.most}"))
    drawn.append(bars("milliseconds a move", times))
    for index, (name, game) in enumerate(table.games.items()):
        if game.moves:
            drawn.append(histogram(f"moves of a match of {name}", game.moves, index))
    return drawn


def match_head(number: int, result: Result, record: bytes) -> str:
    """Who played a match for whom, and what it counts, as a page's first line.

    >>> result = Result("g", ["a", "<b>"], outcome="E1 2", scores=[1, 0])
    >>> match_head(7, result, b"rbg 2\\nplayers red blue\\nstart 9 0\\n5 E1 2\\n")
    '<p>match 7: red is a, blue is &lt;b&gt;. E1: &lt;b&gt; has lost</p>\\n'
    """
    players = record.decode(errors="replace").splitlines()[1].split()[1:]
    who = ", ".join(f"{player} is {name}" for player, name in zip(players, result.seats))
    return f"<p>{html.escape(f'match {number}: {who}. {result.verdict()}')}</p>\n"


def make_page(plan: Plan, folder: Folder, number: int, result: Optional[Result]) -> Optional[Path]:
    """The page of a match, if `rbg_author page` makes one. It is made once."""
    files = Files(folder, number)
    if result is None or result.outcome is None:
        return None
    try:
        if files.page.exists() and files.page.stat().st_mtime >= files.record.stat().st_mtime:
            return files.page
        record = files.record.read_bytes()
        made = subprocess.run([plan.author, "page", str(folder.game(result.game))], input=record, capture_output=True)
        if made.returncode:
            return None
        part, head = part_of(files.page), match_head(number, result, record).encode()
        part.write_bytes(made.stdout.replace(b"<body>\n", b"<body>\n" + head, 1))
        return part.replace(files.page)
    except (OSError, IndexError):
        return None


def link(file: Path, page: Path, said: str) -> str:
    """A link from a page to a file, by the way between their folders.

    >>> link(Path("/t/matches/a b.html"), Path("/t/table.html"), "1")
    '<a href="matches/a%20b.html">1</a>'
    """
    return f'<a href="{html.escape(quote(os.path.relpath(file, page.resolve().parent)))}">{html.escape(said)}</a>'


def make_pages(plan: Plan, folder: Folder, table: Table) -> list[Optional[Path]]:
    """The pages of the matches."""
    with ThreadPoolExecutor(os.cpu_count()) as pool:
        numbers = range(1, len(table.results) + 1)
        return list(pool.map(lambda number, result: make_page(plan, folder, number, result), numbers, table.results))


def match_rows(folder: Folder, table: Table, page: Path, shown: Sequence[Optional[Path]]) -> list[list[str]]:
    """A row for each match, with links to its page and its files."""
    rows = [["match", "game", "round", "opening", "seats", "result", "moves", "files"]]
    for number, (pairing, result, files, own) in enumerate(
        zip(table.pairings, table.results, files_of(folder, table), shown), 1
    ):
        links = Markup(", ".join(link(folder.path / file, page, key) for key, file in files.items()))
        row = [Markup(link(own, page, str(number))) if own else str(number), pairing.game, str(pairing.round)]
        reported = result.in_words() if result else "not played yet"
        reported += " (the same as one before)" if number - 1 in table.repeated else ""
        row += [str(pairing.opening or ""), " - ".join(pairing.seats), reported, str(result.moves or "") if result else ""]
        rows.append([*row, links])
    return rows


def write_page(plan: Plan, folder: Folder, table: Table, page: Path, pages: bool = True) -> None:
    """Writes the table as a page that needs nothing from elsewhere. Each match has a page of its own with `pages`. While
    matches are to be played a browser asks for it again and again."""
    goes_on = any(result is None for result in table.results) and not (table.test and table.test.verdict)
    again = f'<meta http-equiv="refresh" content="{REFRESH}">' if goes_on else ""
    title = html.escape(folder.path.name)
    head = f'<!DOCTYPE html>\n<html lang="en"><meta charset="utf-8">{again}<title>{title}</title><style>{STYLE}</style>\n'
    written = time.strftime("%d %B %Y %H:%M:%S UTC", time.gmtime())
    parts = [head, f"<h1>{title}</h1>\n<p>{html.escape(summary(table))}. Written on {written}.</p>\n"]
    parts += [html_table([HEADS, *standing_rows(table)])]
    parts += [f"<p>{html.escape(remark)}</p>\n" for remark in remarks(table)]
    parts += [*charts(table), html_table([["program", *plan.programs], *pair_rows(table)])]
    parts += [html_table(rows) for rows in (game_rows(table), share_rows(table), [TIME_HEADS, *time_rows(table)])]
    machines = sorted({result.machine for result in table.results if result})
    settings = [*settings_rows(plan), ["machines", ", ".join(machines)]]
    parts += ["<h2>Settings</h2>\n", html_table(settings), html_table(game_settings(plan))]
    parts += [html_table(program_settings(plan)), "<h2>Matches</h2>\n"]
    shown = make_pages(plan, folder, table) if pages else [None] * len(table.results)
    parts += [html_table(match_rows(folder, table, page, shown)), "</html>\n"]
    write_whole(page, "".join(parts))
