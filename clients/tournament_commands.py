"""What isn't there of what the commands of programs need: a program, a script, or a wrapper."""

import os
import shlex
import shutil
from pathlib import Path
from typing import Iterator, Optional, Sequence

from tournament_plan import Plan, Program

JAIL = "tournament_jail.py"  # after it come a port, and a command


def is_there(word: str, folder: str, path: Optional[str] = None) -> bool:
    """Whether the system finds a program by this word, in this folder and with this PATH.

    >>> [is_there(word, "/usr/bin") for word in ("env", "./env", "../bin/env", "./nothere", "nothere")]
    [True, True, True, False, False]
    """
    if "/" not in word:
        return shutil.which(word, path=path) is not None
    file = Path(folder, word)
    return file.is_file() and os.access(file, os.X_OK)


def lacking(words: Sequence[str], folder: str, path: Optional[str] = None) -> list[str]:
    """What isn't there of what a command needs: its program, the script of Python, and the command in the jail. What
    another program does with its words isn't known. Words with braces may become anything.

    >>> lacking(["python3", "./nothere.py", "{port}"], "/"), lacking(["nice", "nothere"], "/"), lacking(["./{game}"], "/")
    (['./nothere.py'], [], [])
    >>> lacking(["python3", f"{Path(__file__).parent}/tournament_jail.py", "{port}", "nothere", "--ro-bind"], "/")
    ['nothere']
    """
    if not words or "{" in words[0]:
        return []
    if not is_there(words[0], folder, path):
        return [words[0]]
    script = words[1] if len(words) > 1 and Path(words[0]).name.startswith("python") else "-"
    if not script.startswith("-") and "{" not in script and not Path(folder, script).exists():
        return [script]
    names = [Path(word).name for word in words[:2]]
    return lacking(words[names.index(JAIL) + 2 :], folder, path) if JAIL in names else []


def lacking_of(program: Program, line: str) -> list[str]:
    """What isn't there of what a line of a program needs."""
    return lacking(shlex.split(line), program.folder, program.environment.get("PATH"))


def lacking_wrapper(plan: Plan, names: Sequence[str]) -> Optional[str]:
    """Which of these programs has a wrapper that isn't there, in words. It is the plan's fault, and not the program's.

    >>> plan = Plan("", "", {"a": Program("nothere {port}"), "b": Program("env {port}", wrapper="bwarp --dev /dev")}, {})
    >>> lacking_wrapper(plan, ["a"]), lacking_wrapper(plan, ["a", "b"])
    (None, "the wrapper of b isn't there: bwarp")
    """
    for name in names:
        for word in lacking_of(plan.programs[name], plan.programs[name].wrapper):
            return f"the wrapper of {name} isn't there: {word}"
    return None


def warnings(plan: Plan) -> Iterator[str]:
    """What isn't there of what the programs need, and what comes of it.

    >>> plan = Plan("", "", {"a": Program("nothere {port}"), "b": Program("env {port}", wrapper="bwarp --dev /dev")}, {})
    >>> list(warnings(plan))
    ["nothere isn't there: a would lose its matches", "bwarp isn't there: the matches of b would fail"]
    """
    for name, program in plan.programs.items():
        of_wrapper = lacking_of(program, program.wrapper)
        for word in lacking_of(program, f"{program.wrapper} {program.command}"):
            what = f"the matches of {name} would fail" if word in of_wrapper else f"{name} would lose its matches"
            yield f"{word} isn't there: {what}"
