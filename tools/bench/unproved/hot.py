#!/usr/bin/env python3
"""Prints which runs of instructions a program executes most within functions of a name, by valgrind's callgrind.

    hot.py NAME PROGRAM [WORD ..] < INPUT

A line has the first and the last address of a run, how often each of its instructions was executed, how many they are, and
how much that is in all. `objdump -d PROGRAM` shows what stands there.
"""

import re
import subprocess
import sys
import tempfile
from collections.abc import Iterable
from pathlib import Path

MOST = 40  # lines
NAMED = re.compile(r"(c?)fn=\((\d+)\)(?: (.*))?")
COST = re.compile(r"(0x[0-9a-f]+|\+\d+|-\d+|\*) \S+ (\d+)$")

Run = list[int]  # the first address, the last one, how often, how many


def costs(lines: Iterable[str], name: str) -> dict[int, int]:
    """How often the instruction at each address was executed, in functions whose names have this within.

    >>> costs(["fn=(1) a::f", "0x10 1 7", "calls=1 0x30 5", "+4 1 90", "+2 1 7", "fn=(2) b::g", "+2 1 9"], "a::")
    {16: 7, 22: 7}
    """
    found: dict[int, int] = {}
    names: dict[str, str] = {}
    address, current, is_call = 0, "", False
    for line in lines:
        if named := NAMED.match(line):
            if named[3]:
                names[named[2]] = named[3]
            current = current if named[1] else names[named[2]]
        elif line.startswith("calls="):
            is_call = True  # the next line has what the call took in all
        elif cost := COST.match(line):
            word = cost[1]
            address = int(word, 16) if word.startswith("0x") else address + (0 if word == "*" else int(word))
            if not is_call and name in current:
                found[address] = found.get(address, 0) + int(cost[2])
            is_call = False
    return found


def runs(found: dict[int, int]) -> list[Run]:
    """Neighbours that were executed equally often, together; those that take most come first.

    >>> runs({16: 7, 22: 7, 24: 90})
    [[24, 24, 90, 1], [16, 22, 7, 2]]
    """
    made: list[Run] = []
    for address, times in sorted(found.items()):
        if made and made[-1][2] == times:
            made[-1][1], made[-1][3] = address, made[-1][3] + 1
        else:
            made.append([address, address, times, 1])
    return sorted(made, key=lambda run: -run[2] * run[3])


def main() -> None:
    if len(sys.argv) < 3:
        sys.exit(__doc__)
    name, *words = sys.argv[1:]
    with tempfile.TemporaryDirectory() as folder:
        out = Path(folder) / "out"
        valgrind = ["valgrind", "--tool=callgrind", "--dump-instr=yes", f"--callgrind-out-file={out}"]
        subprocess.run([*valgrind, *words], stdout=subprocess.DEVNULL, stderr=subprocess.DEVNULL)
        found = costs(out.read_text().splitlines(), name)
    print(f"{len(found)} instructions, executed {sum(found.values()):,} times")
    for first, last, times, count in runs(found)[:MOST]:
        print(f"{first:#x} {last:#x} {times:,} {count} {times * count:,}")


if __name__ == "__main__":
    main()
