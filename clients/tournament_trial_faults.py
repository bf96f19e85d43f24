"""Trials of what may go wrong in a tournament: runs that are killed, programs that cheat, matches without an end, faults."""

import os
import random
import signal
import subprocess
import sys
import time
from contextlib import suppress
from pathlib import Path

from tournament_trying import ROOT, TOOL
from tournament_trying import begin_run, expect, hostile, plan_of, play_all, results_of, steady, tool, wait_for, written

KILLS = 10


def without_times(table: str) -> str:
    """A table without the part about times.

    >>> without_times("a\\n\\nprogram  moves  ms a move\\nb  3  7.1\\n\\nc")
    'a\\n\\nc'
    """
    return "\n\n".join(part for part in table.split("\n\n") if "ms a move" not in part)


def moments(folder: Path) -> dict[str, int]:
    """When each file of the matches was written last."""
    found = {}
    for file in (folder / "matches").iterdir():
        with suppress(FileNotFoundError):
            found[file.name] = file.stat().st_mtime_ns
    return found


def kill_run(folder: Path, chance: random.Random) -> None:
    """Kills a run at a random moment after it has begun to play."""
    before = moments(folder)
    run = begin_run(folder)
    wait_for(lambda: moments(folder) != before or run.poll() is not None, "matches are played")
    time.sleep(chance.random() / 2)
    run.send_signal(chance.choice((signal.SIGKILL, signal.SIGTERM)))
    run.wait()


def left_of(folder: Path) -> list[str]:
    """The commands of the processes that have to do with a folder."""
    found = []
    for file in Path("/proc").glob("[0-9]*/cmdline"):
        with suppress(OSError):
            command = file.read_bytes().replace(b"\0", b" ").decode(errors="replace")
            found += [command] if f"{folder}/" in command else []
    return found


def try_kills(folder: Path) -> None:
    """A run that is killed ten times at random moments gives the table of one that isn't."""
    chance = random.Random(1)
    programs = {"a": steady(1, 20), "b": steady(2, 20), "c": steady(3, 20)}
    plan = plan_of(folder, "breakthrough connect_four", programs, "rounds = 2")
    whole, killed = folder / "whole", folder / "killed"
    for each in (whole, killed):
        tool("plan", plan, each)
    for number in range(1, KILLS + 1):
        kill_run(killed, chance)
        wait_for(lambda: not left_of(killed), "its processes end with it")
        print(f"killed {number} times: {len(written(killed))} of 24 matches are done", flush=True)
    expect(len(written(killed)) < 24, "it is killed before its end")
    for each in (whole, killed):
        tool("run", each)
    tables = [without_times(tool("table", each, "--check")) for each in (whole, killed)]
    expect(tables[0] == tables[1], f"both tables are the same:\n{tables[0]}\n{tables[1]}")
    print(f"killed {KILLS} times: the same table")


def rbg_script(folder: Path, before: str = "") -> Path:
    """A script that becomes rbg, after this."""
    rbg = folder / "rbg"
    rbg.write_text(f'#!/bin/sh\n{before}\nexec {ROOT}/rbg "$@"\n')
    rbg.chmod(0o755)
    return rbg


def interrupt(folder: Path) -> None:
    """Ctrl-C while a record is looked at: that says nothing of its match, and the same command goes on."""
    mark, before = folder / "looking", written(folder / "t")
    rbg_script(folder, f'[ "$1" = replay ] && touch {mark} && sleep 60')
    words = [*TOOL, "run", str(folder / "t"), "--again"]
    with subprocess.Popen(words, stderr=subprocess.PIPE, text=True, start_new_session=True) as run:
        wait_for(mark.exists, "a record is looked at")
        os.killpg(run.pid, signal.SIGINT)  # as a terminal sends it, to all processes of the command
        said = run.communicate()[1]
    expect(run.returncode == 128 + signal.SIGINT, "the run is stopped")
    expect("stopped: 1 of 2 matches are left; the same command goes on" in said, f"and says what is left: {said}")
    expect(before == written(folder / "t"), "no result is written")
    rbg_script(folder)


def lost_by(match: dict, name: str) -> bool:
    """Whether this program has lost a match of two."""
    seat = match["seats"].index(name)
    return match["scores"] is not None and match["scores"][seat] < match["scores"][1 - seat]


def try_cheats(folder: Path) -> None:
    """Programs that take two seats, or don't come."""
    for match in play_all(folder / "twice", "tictactoe", {"honest": steady(1), "twice": hostile("twice")}, "turn = 3000"):
        print(f"twice, in seat {match['seats'].index('twice') + 1}: {match['reason'] or match['outcome']}")
        expect(lost_by(match, "twice"), "who takes two seats loses")
    absent = {"never": hostile("never"), "early": hostile("early")}
    for match in play_all(folder / "absent", "tictactoe", absent, "wait = 1"):
        print(f"nobody comes: {match['reason']}")
        expect(match["scores"] is None and match["absent"] == [1, 2], "a match that nobody began has no winner")
    expect("2 lost by default" in tool("table", folder / "absent" / "t"), "the table lists matches lost by default")
    before = written(folder / "absent" / "t")
    tool("run", folder / "absent" / "t")
    expect(before == written(folder / "absent" / "t"), "they are settled")
    for match in play_all(folder / "alone", "tictactoe", {"honest": steady(1), "early": hostile("early")}):
        expect(match["absent"] == [match["seats"].index("early") + 1], "who comes wins against who doesn't")


def try_limits(folder: Path) -> None:
    """Programs that print a gigabyte, want all memory or all time; environment; matches that the plan ends."""
    # it finds rbg by the variable RBG, which a run sets
    named = f"sh -c 'exec {sys.executable} steady.py {{port}} --seed $SEED'"
    honest = named.replace("'", '"') + "\nenvironment = { SEED = '7' }"
    loud = play_all(folder / "loud", "tictactoe", {"honest": honest, "loud": hostile("loud")}, "turn = 2000\noutput = 5000")
    sizes = [file.stat().st_size for file in (folder / "loud" / "t" / "matches").iterdir()]
    expect(max(sizes) < 20_000, "who prints a gigabyte fills no disk")
    expect(all(lost_by(match, "loud") and match["outcome"][:2] == "E1" for match in loud), "and loses by time")
    greedy, busy = hostile("greedy") + "\nmemory = 300", hostile("busy") + "\nprocessor = 1"
    for match in play_all(folder / "greedy", "tictactoe", {"honest": honest, "greedy": greedy}):
        expect(match["absent"] == [match["seats"].index("greedy") + 1], "who wants more memory than it may have ends")
    for match in play_all(folder / "busy", "tictactoe", {"honest": honest, "busy": busy}):
        expect(lost_by(match, "busy") and match["outcome"][:2] == "E3", "who takes too much processor time ends")
    for match in play_all(folder / "own", "tictactoe", {"a": honest, "slow": steady(1, 200) + "\nturn = 100"}):
        expect(lost_by(match, "slow") and "ms of 100 ms" in match["adjudged"], "a turn of its own is the plan's matter")
    for match in play_all(folder / "moves", "tictactoe", {"a": honest, "b": steady(1)}, 'moves = 3\nlate = "draw"'):
        expect(match["adjudged"] == "3 moves" and match["scores"] == [1, 1], "a match with most moves is a draw")
    players = {"a": steady(1, 2000), "b": steady(2, 2000)}
    for late, state in (("draw", "adjudged"), ("void", "failed")):
        for match in play_all(folder / late, "tictactoe", players, f'minutes = 0.05\nlate = "{late}"'):
            print(f"{late}: {match['adjudged'] or match['reason']}")
            expect(match["state"] == state and match["outcome"] == ("-" if late == "draw" else None), "minutes are over")


def try_test(folder: Path) -> None:
    """A test that ends a run."""
    sprt = "rounds = 100\nsprt = { elo1 = 200 }"
    matches = play_all(folder, "tictactoe", {"good": steady(1), "early": hostile("early")}, sprt)
    table = tool("table", folder / "t")
    expect("SPRT of good, 0 or 200 points" in table and "decided for 200" in table, "the test is decided")
    left = sum(match["state"] == "missing" for match in matches)
    print(f"decided, and {left} of {len(matches)} matches aren't played")
    expect(left > 100, "the run ends then")


def try_faults(folder: Path) -> None:
    """A file that can't be written is named; what failed is listed by itself, and is played again if that is asked for."""
    programs = {"a": steady(1), "b": steady(2)}
    rbg = rbg_script(folder)
    plan = plan_of(folder, "tictactoe", programs)
    plan.write_text(plan.read_text().replace(f'"{ROOT}/rbg"', f'"{rbg}"'))
    tool("plan", plan, folder / "t")
    record = folder / "t" / "matches" / "0001.record"
    record.mkdir()
    reported = tool("run", folder / "t", status=1)
    expect(f"match 1: can't write {record}: Is a directory" in reported, f"the fault names the file: {reported}")
    expect("1 of 2 matches played; 1 not played yet" in tool("table", folder / "t"), "the match has no result")
    record.rmdir()
    rbg.chmod(0o644)
    tool("run", folder / "t", status=1)
    expect("1 failed" in tool("table", folder / "t", status=None), "without rbg it has failed")
    rbg.chmod(0o755)
    before = written(folder / "t")
    tool("run", folder / "t")
    expect(before == written(folder / "t"), "what failed isn't played again")
    interrupt(folder)
    tool("run", folder / "t", "--again")
    expect([match["state"] for match in results_of(folder / "t")] == ["played", "played"], "but with --again it is")
    saved = [(folder / "t" / "matches" / name).read_text() for name in written(folder / "t")]
    expect(all('"outcome": "E0' in text for text in saved), f"which is written: {saved}")
    ours, theirs = os.pipe()
    os.close(ours)
    done = subprocess.run([*TOOL, "table", str(folder / "t")], stdout=theirs, stderr=subprocess.PIPE)
    os.close(theirs)
    expect(not done.stderr, f"a table that nobody reads ends quietly: {done.stderr!r}")
    lack_wrapper(folder / "lacking")


def lack_wrapper(folder: Path) -> None:
    """A wrapper that isn't there is reported when the plan is made, and is no fault of its program."""
    folder.mkdir()
    wrapped = steady(2) + "\nwrapper = 'bwarp --dev /dev'\nmemory = 4000"
    said = tool("plan", plan_of(folder, "tictactoe", {"a": steady(1), "b": wrapped}), folder / "t")
    expect("warning: bwarp isn't there: the matches of b would fail" in said, f"the plan says it: {said}")
    tool("run", folder / "t", status=1)
    reasons = {match["state"]: match["reason"] for match in results_of(folder / "t")}
    expect(reasons == {"failed": "the wrapper of b isn't there: bwarp"}, f"the matches fail: {reasons}")
