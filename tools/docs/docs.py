#!/usr/bin/env python3
"""Writes the pages and files that are made from the sources: make docs. With --check it only says which are stale.

    docs/COMMANDS.md              the commands and options of both programs
    share/man/man1                their manual pages
    share/bash-completion, share/zsh, share/fish    completions of their command lines
    docs/ARCHITECTURE.md, docs/PROVED.md    their tables of crates, from crates.txt and the crates' own README.md
    crates/rbg_games/data/README.md         the table of the games, from docs/games/games.txt
"""

import argparse
import re
import sys
from functools import cache
from pathlib import Path

sys.dont_write_bytecode = True
sys.path.insert(0, str(Path(__file__).resolve().parent))
import completions  # noqa: E402
import manual  # noqa: E402
import tables  # noqa: E402

ROOT = tables.ROOT
PROVED = "Proved: "
MADE = re.compile(r"(<!-- made by make docs: (\w+) -->\n).*?(<!-- end -->)", re.S)


def groups(listed: str) -> list[tuple[str, list[str]]]:
    """The crates of crates.txt, by the comments above them.

    >>> groups("# NAME: LIBRARIES\\n\\n# Low\\none: std\\n# High\\ntwo staticlib: one\\nthree: two\\n")
    [('Low', ['one']), ('High', ['two', 'three'])]
    """
    found: list[tuple[str, list[str]]] = []
    for line in listed.splitlines():
        if line.startswith("#"):
            found.append((line[1:].strip(), []))
        elif line.strip():
            found[-1][1].append(line.partition(":")[0].split()[0])
    return [it for it in found if it[1]]


def used(listed: str) -> dict[str, list[str]]:
    """The crates that each one uses, without those below another of them.

    >>> used("low: std\\nmiddle: low\\nhigh: low middle\\n")
    {'low': [], 'middle': ['low'], 'high': ['middle']}
    """
    lines = [line.partition("#")[0].partition(":") for line in listed.splitlines()]
    uses = {name.split()[0]: names.split() for name, _, names in lines if name.strip()}
    uses = {name: [it for it in names if it in uses] for name, names in uses.items()}

    @cache
    def below(name: str) -> frozenset[str]:
        return frozenset(deep for it in uses[name] for deep in (it, *below(it)))

    return {name: [it for it in names if not any(it in below(other) for other in names)] for name, names in uses.items()}


def said(name: str) -> tuple[str, str]:
    """What a crate holds, and what is proved of it, as its README says."""
    parts = (ROOT / "crates" / name / "README.md").read_text().split("\n\n")
    proved = next((it.removeprefix(PROVED).strip() for it in parts if it.startswith(PROVED)), "")
    return parts[1].strip(), proved


def held() -> str:
    """The table of what the crates hold, and of what they use."""
    listed = (ROOT / "crates.txt").read_text()
    uses = used(listed)
    lines = ["| Crate | Holds | Uses |", "|---|---|---|"]
    for title, names in groups(listed):
        lines += [f"| **{title}** | | |"]
        lines += [f"| [{it}](../crates/{it}/README.md) | {said(it)[0]} | {', '.join(uses[it])} |" for it in names]
    return "\n".join(lines) + "\n"


def proved() -> str:
    """The list of what the contracts of the crates say."""
    lines: list[str] = []
    for title, names in groups((ROOT / "crates.txt").read_text()):
        rows = [f"- [{it}](../crates/{it}/README.md): {said(it)[1]}" for it in names if said(it)[1]]
        lines += [*([""] if lines else []), f"**{title}**", "", *rows] if rows else []
    return "\n".join(lines) + "\n"


def rows_of(listed: str) -> list[tuple[str, list[tuple[str, str, str]]]]:
    """The games of a list, by the headings above them: each with its file, its name, and what it is.

    >>> rows_of("What this is.\\n\\n## Small\\nhex: Hex: a chain.\\n\\n## Large\\n")
    [('Small', [('hex', 'Hex', 'a chain.')]), ('Large', [])]
    """
    found: list[tuple[str, list[tuple[str, str, str]]]] = []
    for line in listed.splitlines():
        if line.startswith("## "):
            found.append((line.removeprefix("## "), []))
        elif found and line:
            file, name, what = line.split(": ", 2)
            found[-1][1].append((file, name, what))
    return found


def games() -> str:
    """The table of the games. Each game must be in the list, and only they."""
    groups = rows_of((ROOT / "docs/games/games.txt").read_text())
    there = {it.stem for it in (ROOT / "crates/rbg_games/data").glob("*.rbg")}
    strange = there ^ {file for _, rows in groups for file, _, _ in rows}
    if strange:
        sys.exit(f"docs/games/games.txt and crates/rbg_games/data differ: {', '.join(sorted(strange))}")
    lines: list[str] = []
    for title, rows in groups:
        lines += [*([""] if lines else []), f"## {title}", "", "| | |", "|---|---|"]
        for file, name, what in rows:
            lines.append(f"| ![{name}](../../../docs/games/{file}.svg) | **[{name}]({file}.rbg)**: {what} |")
    return "\n".join(lines) + "\n"


TABLES = {"holds": held, "proved": proved, "games": games}
PAGES = ["docs/ARCHITECTURE.md", "docs/PROVED.md", "crates/rbg_games/data/README.md"]


def made() -> dict[Path, str]:
    """Each file that is made, with its text."""
    programs = [tables.program(name) for name in tables.SOURCES]
    files = {ROOT / "docs/COMMANDS.md": manual.page_of(programs)}
    for program in programs:
        share = ROOT / "share"
        files[share / f"man/man1/{program.name}.1"] = manual.manual_of(program)
        files[share / f"bash-completion/completions/{program.name}"] = completions.for_bash(program)
        files[share / f"zsh/site-functions/_{program.name}"] = completions.for_zsh(program)
        files[share / f"fish/vendor_completions.d/{program.name}.fish"] = completions.for_fish(program)
    for page in (ROOT / name for name in PAGES):
        files[page] = MADE.sub(lambda it: it[1] + TABLES[it[2]]() + it[3], page.read_text())
    return files


def main() -> int:
    parser = argparse.ArgumentParser(description=__doc__.splitlines()[0])
    parser.add_argument("--check", action="store_true", help="say which files are stale, and write nothing")
    words = parser.parse_args()
    stale = [(file, text) for file, text in made().items() if not file.exists() or file.read_text() != text]
    for file, text in stale:
        print(f"{'stale' if words.check else 'written'}: {file.relative_to(ROOT)}")
        if not words.check:
            file.parent.mkdir(parents=True, exist_ok=True)
            file.write_text(text)
    if words.check and not stale:
        print("what make docs makes is up to date")
    return 1 if words.check and stale else 0


if __name__ == "__main__":
    sys.exit(main())
