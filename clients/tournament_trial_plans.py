"""Trials of tournament.py: the three plans of clients/example, and what is done with a tournament's folder."""

import json
import os
import shutil
import subprocess
import sys
from pathlib import Path

from tournament_trying import CLIENTS, EXAMPLE, GAMES, ROOT, TOOL
from tournament_trying import begin_run, expect, plan_of, results_of, steady, tool, wait_for, written

REFRESH = 'http-equiv="refresh"'


def played(plan: Path, folder: Path) -> str:
    """Plays a plan of clients/example, and returns its table."""
    print(tool("plan", plan, folder), end="")
    page = folder / "table.html"
    run = begin_run(folder, "--html", page)
    wait_for(lambda: page.exists() or run.poll() is not None, "a page is written while matches are played")
    expect(REFRESH in page.read_text(), "a browser asks for it again then")
    expect(run.wait() == 0, "the run ends well")
    table = tool("table", folder, "--check")
    print(table)
    text = page.read_text()
    expect(text.count("<svg") >= 4 and REFRESH not in text, "the page has its charts, and is asked for once at the end")
    expect('href="matches/0001.html"' in text, "the page is linked to those of the matches")
    expect((folder / "results.csv").read_text().count("\n") > 10, "results.csv has its rows")
    ends = {match["outcome"][:2] for match in results_of(folder) if match["state"] != "missing"}
    expect(ends <= {"E0", "E1"}, f"no program fails: {ends}")
    return table


def said_on_terminal(folder: Path) -> str:
    """What a run says on a terminal."""
    ours, theirs = os.openpty()
    said = b""
    with subprocess.Popen([*TOOL, "run", str(folder)], stderr=theirs):
        os.close(theirs)
        try:
            while piece := os.read(ours, 4096):
                said += piece
        except OSError:
            pass  # that is how a terminal ends
    os.close(ours)
    return said.decode()


def try_round_robin(folder: Path) -> None:
    """Three programs in three games: all is played, a second run plays nothing, and on a terminal it says one line."""
    table = played(EXAMPLE / "round_robin.toml", folder)
    expect("36 of 36 matches played" in table, "36 matches are played")
    before = written(folder)
    said = said_on_terminal(folder)
    expect(written(folder) == before, "what is done is passed over")
    expect("\r36 of 36 done: " in said and said.count("\n") == 1, f"a line is written over and over: {said!r}")


def try_gauntlet(folder: Path) -> None:
    """Openings in both orders of seats, and a test that ends the run."""
    table = played(EXAMPLE / "gauntlet.toml", folder)
    expect(": decided for " in table or "64 of 64 matches played" in table, "the test is decided, or all is played")
    lines = (folder / "schedule.jsonl").read_text().splitlines()
    opening = (folder / "games" / "breakthrough.rbg.openings").read_text().splitlines()[0]
    first, second = (json.loads(line) for line in lines[:2])
    expect(first["seats"] == second["seats"][::-1] and first["opening"] == second["opening"] == 1, "both orders of seats")
    record = (folder / "matches" / "0001.record").read_text().splitlines()
    moves = [line.split(" ", 1)[1] for line in record[3:] if line.split(" ")[1] != "0"]
    expect(moves[: opening.count(",") + 1] == opening.split(", "), "the match begins with its opening")


def league_plan(folder: Path) -> Path:
    """The plan of the league. If this system lets nobody have a network of his own, it has no wrapper."""
    plan = EXAMPLE / "league.toml"
    if subprocess.run([sys.executable, str(CLIENTS / "tournament_jail.py"), "1", "true"]).returncode == 0:
        return plan
    print("no program can have a network of its own here: the league is played without the wrapper")
    text = "".join(line for line in plan.read_text().splitlines(True) if not line.startswith("wrapper"))
    for word, place in (("../../", ROOT), ("../", CLIENTS), ("python3 steady", f"python3 {EXAMPLE}/steady")):
        text = text.replace(word, f"{place}/" if word.endswith("/") else str(place))
    (folder / "league.toml").write_text(text)
    return folder / "league.toml"


def try_league(folder: Path) -> None:
    """A Swiss tournament in three games, and a program in a network of its own."""
    table = played(league_plan(folder), folder / "t")
    expect("54 of 54 matches played" in table, "three rounds of three pairs, in three games and both orders")
    pairings = [json.loads(line) for line in (folder / "t" / "schedule.jsonl").read_text().splitlines()]
    pairs = {(pairing["round"], frozenset(pairing["seats"])) for pairing in pairings}
    expect(len(pairs) == 9 and len({pair for _, pair in pairs}) == 9, "nobody meets anybody twice")


def try_jobs(folder: Path) -> None:
    """The lines of jobs.txt are commands for whatever runs commands; equal matches are reported and count once."""
    programs = {"a": steady(1), "b": steady(2), "c": steady(3)}
    tool("plan", plan_of(folder, "tictactoe carrot_race", programs, "rounds = 2"), folder / "t")
    jobs = (folder / "t" / "jobs.txt").read_text()
    if shutil.which("parallel"):
        subprocess.run(["parallel", "-j", "4"], input=jobs, text=True, check=True, stdout=subprocess.DEVNULL)
    else:
        command = ["xargs", "-0", "-P", "4", "-n", "1", "sh", "-c"]
        subprocess.run(command, input=jobs.replace("\n", "\0"), text=True, check=True, stdout=subprocess.DEVNULL)
    table = tool("table", folder / "t")
    print(table)
    expect("18 of 18 matches played" in table, "each line plays its match, those of three players in each rotation")
    expect("9 of 18 matches are the same as one before" in table, "the second round is reported as the first one again")


def try_openings(folder: Path) -> None:
    """Openings are random, balanced, and the same for the same seed. With them no match is as one before."""
    words = ["openings", GAMES / "tictactoe.rbg", 6, "--plies", 2, "--seed", 7, "--balance", 0.3, "--rbg", ROOT / "rbg"]
    made = tool(*words)
    print(made, end="")
    expect(made == tool(*words), "the same seed gives the same openings")
    lines = [line.split(" // ") for line in made.splitlines()]
    expect(len({moves for moves, _ in lines}) == 6, "they are different")
    expect(all(0.2 <= float(share) <= 0.8 for _, shares in lines for share in shares.split()), "and balanced")
    (folder / "made.openings").write_text(made)
    plan = plan_of(folder, "tictactoe", {"a": steady(1), "b": steady(2)})
    game = f'{{ file = "{GAMES}/tictactoe.rbg", openings = "made.openings" }}'
    plan.write_text(plan.read_text().replace(f'"{GAMES}/tictactoe.rbg"', game))
    expect("12 matches" in tool("plan", plan, folder / "t"), "each opening has both orders of seats")
    tool("run", folder / "t")
    table = tool("table", folder / "t")
    expect("12 of 12 matches played" in table and "same as one before" not in table, "no match is as one before")


def try_adding(folder: Path) -> None:
    """A tournament that runs gets a program, a game and a round more, and plays them too."""
    programs = {"a": steady(1, 50), "b": steady(2, 50)}
    tool("plan", plan_of(folder, "tictactoe", programs), folder / "t")
    run = begin_run(folder / "t")
    wait_for(lambda: any((folder / "t" / "matches").iterdir()), "a match begins")
    programs["c"] = steady(3)
    expect("4 more" in tool("add", plan_of(folder, "tictactoe", programs), folder / "t"), "a program is added")
    more = plan_of(folder, "tictactoe connect_four", programs, "rounds = 2")
    expect("18 more" in tool("add", more, folder / "t"), "a game and a round are added")
    expect(run.wait() == 0, "the run ends well")
    expect("24 of 24 matches played" in tool("table", folder / "t"), "it has played what was added")


def try_merge(folder: Path) -> None:
    """Two machines without a common folder play a half each, and one takes over what the other one has."""
    tool("plan", plan_of(folder, "tictactoe", {"a": steady(1), "b": steady(2), "c": steady(3)}), folder / "one")
    shutil.copytree(folder / "one", folder / "two")
    for name, numbers in (("one", (1, 2, 3)), ("two", (4, 5, 6))):
        for number in numbers:
            tool("match", folder / name, number)
    expect("3 results taken over" in tool("merge", folder / "one", folder / "two"), "three results come from the other one")
    expect("6 of 6 matches played" in tool("table", folder / "one", "--check"), "all are there then")
