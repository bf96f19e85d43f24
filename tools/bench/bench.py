#!/usr/bin/env python3
"""Takes the figures of docs/COSTS.md and prints them as tables: make bench, or tools/bench/bench.py SECTION ..

With --write each section that was taken is written to RESULTS.md, in place of the one that is there.

Instructions are counted by valgrind's callgrind, and are repeatable. Seconds are processor seconds of one run without
it, and memory is the greatest of that run; both are only printed. The programs are ./rbg and ./rbg_author, which
`make build` leaves, and the library is that of `make lib`, if it is there. Only the sections `forms` and `changes` build a program of their own, in a copy of the repository,
and so prove what is not proved there yet; --bench names that program if it is built already.
"""

import argparse
import contextlib
import io
import os
import pathlib
import re
import shutil
import subprocess
import sys
import tempfile
import time

sys.dont_write_bytecode = True
import places  # noqa: E402
import texts  # noqa: E402
from wire import wire as wires  # noqa: E402

HERE = pathlib.Path(__file__).resolve().parent
ROOT = HERE.parents[1]
RESULTS = HERE / "RESULTS.md"


class Run:
    """What a run took: instructions in all and within each function, or seconds and memory."""

    def __init__(self, room):
        self.room = room

    def file(self, name, text):
        path = self.room / name
        path.write_text(text)
        return str(path)

    def plain(self, words, text=""):
        """What is printed, the processor seconds, and the greatest memory in megabytes."""
        given, printed, used = self.file("given", text), self.room / "printed", self.room / "used"
        # (a program that Python starts by itself would have Python's own memory among its own)
        with open(given) as source, open(printed, "w") as target:
            subprocess.run(["/usr/bin/time", "-q", "-f", "%U %S %M", "-o", str(used), *words], stdin=source, stdout=target)
        user, system, kilobytes = map(float, used.read_text().split())
        return printed.read_text(), user + system, kilobytes / 1024

    def counted(self, words, text="", within=()):
        """What is printed, the instructions in all, and those within each of these functions."""
        given, printed, out = self.file("given", text), self.room / "printed", self.room / "callgrind.out"
        valgrind = ["valgrind", "--tool=callgrind", f"--callgrind-out-file={out}"]
        with open(given) as source, open(printed, "w") as target:
            said = subprocess.run([*valgrind, *words], stdin=source, stdout=target, stderr=subprocess.PIPE, text=True)
        total = re.search(r"Collected\s*: (\d+)", said.stderr)
        if not total:
            sys.exit(f"valgrind failed: {said.stderr[-500:]}")
        inside = self.inside(out, within) if within else {}
        return printed.read_text(), int(total[1]), inside

    def inside(self, out, names):
        """The instructions within functions, by the file that callgrind leaves. A name is a pattern of a whole path."""
        words = ["callgrind_annotate", "--inclusive=yes", "--threshold=100", "--auto=no", str(out)]
        listed = subprocess.run(words, capture_output=True, text=True).stdout
        found = {}
        for line in listed.splitlines():
            at = re.match(r"\s*([\d,]+) \(.*?\)\s+\S*?:(\S+)", line)
            if at:
                for name in names:
                    if re.fullmatch(name + r"(::<.*)?", at[2]):
                        found[name] = max(found.get(name, 0), int(at[1].replace(",", "")))
        return found


def millions(number):
    if number < 9_995_000:
        return f"{number / 1e6:.2f}"
    return f"{number / 1e6:,.1f}"


def row(*cells):
    print("| " + " | ".join(str(it) for it in cells) + " |", flush=True)


def head(title, *cells):
    print(f"\n{title}\n")
    row(*cells)
    print("|" + "---|" * len(cells), flush=True)


def checked(run, programs, cases, title):
    head(title, "Text", "Bytes", "It prints", "Million instructions", "Seconds", "Megabytes")
    for label, text in cases:
        file = run.file("text.rbg", text)
        words = [programs.rbg, "check", file]
        printed, total, _ = run.counted(words)
        _, seconds, memory = run.plain(words)
        row(f"`{label}`", f"{len(text):,}", printed.strip()[:48], millions(total), f"{seconds:.2f}", f"{memory:.0f}")


def heavy_texts(run, programs):
    calls = "names(262144) names(200000) names(100000) doubling(17) doubling(16) doubling(15) argument(200000) "
    calls += "argument(100000) argument(50000) joins(262000) reads(990) reads(495) long_name(10) long_name(9) "
    calls += "long_name(8) long_name(10,100_000) long_name(15,100_000)"
    checked(run, programs, made(calls), "Heavy texts: `rbg check TEXT`")


def loading(run, programs):
    calls = "sets(9990) sets(19985) offs(10000) offs(20000) nested(64,1) nested(128,1) nested(128,190) "
    calls += "nested(128,380) vertices(2048) vertices(4096) long(14,100_000) long(13,100_000) long(14,50_000)"
    checked(run, programs, made(calls), "Loading a game: `rbg check TEXT`")


def made(calls):
    """Each call of a function of texts.py, with its text."""
    for call in calls.split():
        yield call.replace(",", ", "), eval(call, vars(texts))


NAMES = sorted(it.stem for it in texts.GAMES.glob("*.rbg"))
HEAVY_RULES = "sequence(20000) one_sum(20000) starred_sum(20000) stars_in_a_row(5000) stars_in_a_row(10000) stars_within(128,19872)"


# Functions, by patterns of their symbols.
QUESTIONS = r".*finding::walk_from(::.*)?", r".*PlayedGame::try_move"


DEPTHS = {
    "breakthrough": 3, "chess": 2, "english_draughts": 4, "reversi": 4, "go_9x9": 2, "connect_four": 4, "tictactoe": 5,
    "hex": 2, "international_draughts": 3, "gomoku": 2, "amazons": 1, "abalone": 2,
}  # fmt: skip
PLAYOUTS = 5  # random matches, of which instructions are counted


def search(run, programs):
    head("The search: `rbg_author perft GAME MOVES`", "Game", "Moves", "Sequences", "Openings", "Candidates", "Instructions an opening")
    for name, depth in DEPTHS.items():
        file = run.file("text.rbg", texts.game(name))
        # asked nothing, the game is made ready for play and no more
        before = run.counted([programs.rbg, "ask", file])[1], 0, 0
        for moves in range(1, depth + 1):
            printed, total, _ = run.counted([programs.author, "perft", file, str(moves)])
            lines = printed.splitlines()
            openings, pairs = map(int, lines[-1].split()[1:])
            spent, more, taken = total - before[0], openings - before[1], pairs - before[2]
            before = total, openings, pairs
            if moves >= depth - 1:
                row(name, moves, f"{int(lines[-2].split()[1]):,}", f"{more:,}", f"{taken:,}", f"{spent / more:,.0f}")


def ask(run, programs):
    """What questions, random matches and places cost beside the start of a session."""
    head("Questions: `rbg ask GAME`", "Game", "Moves", "Instructions of `moves`", "of `make`", "of `moves` with `make` and `back` of each, a move")
    for name in DEPTHS:
        words = [programs.rbg, "ask", run.file("text.rbg", texts.game(name))]
        begun = run.counted(words)[1]
        printed, listed, _ = run.counted(words, "moves\n")
        moves = printed.splitlines()[1:]
        made = run.counted(words, f"make {moves[0]}\n")[1]
        tried = run.counted(words, "moves\n" + "".join(f"make {move}\nback\n" for move in moves))[1]
        row(name, len(moves), *(f"{spent:,.0f}" for spent in (listed - begun, made - begun, (tried - begun) / len(moves))))
    playouts(run, programs)
    places.places(run, programs.rbg, head, row, texts.game)


def playouts(run, programs):
    """What a move of a random match costs, the keeper's moves after it among it: it is chosen, and made."""
    head("Random matches: `random SEED 1` of `rbg ask GAME`", "Game", "Moves a match", "Instructions a move", "Moves in a second of the processor")
    for name in DEPTHS:
        file = run.file("text.rbg", texts.game(name))
        words = [programs.rbg, "ask", file]

        def questions(matches):
            return "".join(f"random {seed} 1\n" for seed in range(1, matches + 1))

        def moves(matches):
            """How many moves these matches have: `sample` plays those of the same seeds, and prints them."""
            asked = "".join(f"sample {seed} 10000\n" for seed in range(1, matches + 1))
            printed = run.plain(words, asked)[0]
            return sum(int(it) for it in re.findall(r"^sample (\d+)$", printed, re.M))

        spent = (run.counted(words, questions(PLAYOUTS))[1] - run.counted(words)[1]) / moves(PLAYOUTS)
        matches, seconds = PLAYOUTS, 0.0
        while seconds < 0.5:
            matches *= 4
            seconds = run.plain(words, questions(matches))[1]
        row(name, round(moves(PLAYOUTS) / PLAYOUTS), f"{spent:,.0f}", f"{moves(matches) / seconds:,.0f}")


def limit(run, programs):
    head("Questions at the limit: `rbg referee GAME`", "Board", "The end", "Seconds", "Megabytes")
    for size in (8, 64):
        file = run.file("text.rbg", texts.at_the_limit(size))
        printed, seconds, memory = run.plain([programs.rbg, "referee", file], "config 1000 3 0\n")
        row(f"{size} x {size}", printed.splitlines()[-1], f"{seconds:.1f}", f"{memory:.0f}")


def matches(run, programs):
    title = "Matches: `rbg referee GAME < SCRIPT`, without what the first line of the script alone takes"
    head(title, "Match", "Messages", "Made moves", "Instructions a message", "In the searches", "Beside them, a made move")
    for label, text, script in match_cases():
        file = run.file("text.rbg", text)
        words = [programs.rbg, "referee", file]
        _, opening, first = run.counted(words, script.splitlines()[0] + "\n", QUESTIONS)
        printed, total, inside = run.counted(words, script, QUESTIONS)
        messages = sum(line.startswith("m ") for line in script.splitlines())
        moves = sum(line.startswith("1 M") for line in printed.splitlines())
        searching = sum(inside.values()) - sum(first.values())
        spent = total - opening
        beside = f"{(spent - searching) / moves:,.0f}" if searching else "not reported"
        row(label, f"{messages:,}", f"{moves:,}", f"{spent / messages:,.0f}", f"{searching / messages:,.0f}", beside)


def match_cases():
    for name in NAMES:
        yield name, texts.game(name), texts.script(name)
    for turns in (1000, 10000):
        yield f"chess without end, {turns:,} messages", texts.endless_chess(), texts.knights(turns)


def streams(run, programs):
    head("Streams: `rbg referee GAME < SCRIPT`", "Script", "Bytes sent", "Instructions a byte beside the opening", "Megabytes")
    text = texts.endless_chess()
    file = run.file("text.rbg", text)
    words = [programs.rbg, "referee", file]
    whole = texts.knights(1000)
    opening = run.counted(words, "config 1000 3 0\n")[1]
    plain = run.counted(words, whole)[1]
    cut = texts.bytewise(whole)
    sent = sum(line.startswith("p ") for line in cut.splitlines())
    row("1,000 messages, byte by byte, beside the same in whole", f"{sent:,}", round((run.counted(words, cut)[1] - plain) / sent), f"{run.plain(words, cut)[2]:.0f}")
    size = 1_000_000
    flood = texts.flood(size)
    row("a message without end", f"{size:,}", round((run.counted(words, flood)[1] - opening) / size), f"{run.plain(words, flood)[2]:.0f}")
    for turns in (1000, 10000):
        row(f"{turns:,} messages of chess without end", "", "", f"{run.plain(words, texts.knights(turns))[2]:.0f}")


# Floods of a hall: which lines have seats, and the event of a line in a turn. Without the last 16 lines no match begins.
FLOODS = (
    ("one byte that ends no message", "none", 0, lambda turn: ("p", 1, "78")),
    ("one byte that ends no message", "all", 128, lambda turn: ("p", 1, "78")),
    ("a message before its match begins", "all but 16", 112, lambda turn: ("m", 1, "M1 8 1 9")),
    ("a message out of turn", "all", 128, lambda turn: ("m", 1, "M1 8 1 9")),
    ("one byte, at the moments 0 and the greatest in turn", "all", 128, lambda turn: ("p", turn % 2 * (2**64 - 1), "78")),
)  # fmt: skip


def halls(run, programs):
    """A flood is compared with the same from lines that no hall has, which costs the reading of the script alone."""
    file = run.file("text.rbg", texts.for_eight())
    words = [programs.rbg, "hallscript", *[file] * 16]
    head("Floods of a hall of 16 tables for eight: `rbg hallscript GAME .. < SCRIPT`", "Each line sends", "Seats", "Lines", "Times", "Instructions a piece", "Messages to the lines", "Megabytes", "From lines that are not there")
    for label, seats, seated, event in FLOODS:
        for lines, times in ((8, 1000), (128, 1000), (128, 4000)):
            flood, spare = (texts.hall_flood(lines, times, seated, event, first) for first in (0, 128))
            spent = run.counted(words, flood)[1] - run.counted(words, spare)[1]
            printed, _, memory = run.plain(words, flood)
            row(label, seats, lines, f"{times:,}", round(spent / (lines * times)), f"{printed.count(chr(10)):,}", f"{memory:.0f}", f"{run.plain(words, spare)[2]:.0f}")


def built(run):
    """Builds the program of the folder forms in a copy of the repository, with what is proved there."""
    copy = run.room / "copy"
    copy.mkdir()
    shutil.copy(ROOT / "crates.txt", copy)
    # (by links, if the copy is on the same disk: checks replace the files that they keep, and write into none)
    if subprocess.run(["cp", "-al", str(ROOT / "crates"), str(copy)], stderr=subprocess.DEVNULL).returncode:
        shutil.rmtree(copy / "crates", ignore_errors=True)
        subprocess.run(["cp", "-a", str(ROOT / "crates"), str(copy)], check=True)
    crate = copy / "crates" / "bench"
    (crate / "src").mkdir(parents=True)
    shutil.copy(HERE / "forms" / "main.txt", crate / "src" / "main.rt")
    place = crate / "proofs" / "apply_many"
    place.mkdir(parents=True)
    shutil.copy(HERE / "forms" / "Invariants.txt", place / "Invariants.antt")
    with open(copy / "crates.txt", "a") as listed:
        listed.write("bench: rbg_base rbg_game rbg_rules rbg_state rbg_auto rbg_shifts anyhow\n")
    with open(crate / "stdin", "w") as given:
        given.write("0 0 0 0 0\n" + texts.CHANGES)
    with open(crate / "stdin") as given:
        built_it = subprocess.run(["rt", "run"], cwd=crate, stdin=given, capture_output=True, text=True)
    program = crate / "out" / "bench"
    if not program.exists():
        sys.exit(f"the program of tools/bench/forms was not built:\n{built_it.stdout[-2000:]}{built_it.stderr[-2000:]}")
    return str(program)


def forms(run, programs):
    program = programs.bench or built(run)
    head("Heavy automatons: `compact`", "Rules", "Entries", "Million instructions", "Seconds", "Megabytes")
    for label, text in made(HEAVY_RULES):
        base = run.counted([program], "0 0 0 0 0\n" + text)[1]
        entries, total, _ = run.counted([program], "1 0 0 0 0\n" + text)
        _, seconds, memory = run.plain([program], "1 0 0 0 0\n" + text)
        row(f"`{label}`", f"{int(entries):,}", millions(total - base), f"{seconds:.2f}", f"{memory:.0f}")
    head("Games: both forms of the automaton, and the leaps", "Game", "Entries", "Million instructions of `load`", "of `compact`", "of `compile`", "of `leaps`")
    for name in NAMES:
        text = texts.game(name)
        base = run.counted([program], "0 0 0 0 0\n" + text)[1]
        entries, total, _ = run.counted([program], "1 0 0 0 0\n" + text)
        compiled = run.counted([program], "2 0 0 0 0\n" + text)[1]
        leaps = run.counted([program], "4 0 0 0 0\n" + text)[1]
        row(name, f"{int(entries):,}", millions(base), millions(total - base), millions(compiled - base), millions(leaps - total))


def changes(run, programs):
    program = programs.bench or built(run)
    head("Changes of a semi-state", "Action", "Instructions of `apply`", "Of `undo_to`, for each change")
    cases = (
        ("a step along an edge", 2, 3), ("an on of two pieces, of which the first is there", 4, 4),
        ("an on of no piece, which isn't valid", 6, 6), ("an off", 5, 5), ("a switch", 1, 7),
    )  # fmt: skip
    times = 100_000
    for label, first, second in cases:
        count = lambda turns, undo: run.counted([program], f"3 {first} {second} {turns} {undo}\n{texts.CHANGES}")[1]
        applied = (count(times, 0) - count(0, 0)) / (2 * times)
        undone = (count(times, 1) - count(times, 0)) / (2 * times)
        row(label, round(applied), round(undone) if undone > 1 else "no change")


def wire(run, programs):
    """This section's figures are times of one run: compare them with each other, and with no other run's."""
    wires.wire(run, programs, head, row)


SECTIONS = {
    "texts": heavy_texts, "loading": loading, "search": search, "ask": ask, "limit": limit,
    "matches": matches, "streams": streams, "halls": halls, "wire": wire, "forms": forms, "changes": changes,
}  # fmt: skip


class Both:
    """Writes to two texts at once."""

    def __init__(self, one, other):
        self.one, self.other = one, other

    def write(self, text):
        self.one.write(text)
        return self.other.write(text)

    def flush(self):
        self.one.flush()


def replaced(page, name, text):
    r"""The page with this text as the section of this name, which comes last if there was none.

    >>> replaced("# Page\n\n## one\n\nold\n\n## two\n\nstays\n", "one", "new\n")
    '# Page\n\n## one\n\nnew\n\n## two\n\nstays\n'
    >>> replaced("# Page\n", "one", "new\n")
    '# Page\n\n## one\n\nnew\n'
    """
    first, *sections = page.rstrip("\n").split("\n\n## ")
    texts = dict(it.split("\n", 1) for it in sections)
    texts[name] = "\n" + text.strip("\n")
    return "\n\n## ".join([first, *(f"{it}\n{reported}" for it, reported in texts.items())]) + "\n"


def processor():
    """The name of this machine's processor, as the system gives it."""
    lines = pathlib.Path("/proc/cpuinfo").read_text().splitlines()
    return next((it.partition(":")[2].strip() for it in lines if it.startswith("model name")), "an unknown processor")


def main():
    parser = argparse.ArgumentParser(description=__doc__.split("\n")[0])
    parser.add_argument("sections", nargs="*", metavar="SECTION", help=f"of {', '.join(SECTIONS)}; all if none is named")
    parser.add_argument("--rbg", default=str(ROOT / "rbg"), help="the program rbg")
    parser.add_argument("--author", default=str(ROOT / "rbg_author"), help="the program rbg_author")
    parser.add_argument("--bench", help="the program of tools/bench/forms, if it is built already")
    parser.add_argument("--write", action="store_true", help="write the sections to RESULTS.md, too")
    programs = parser.parse_args()
    for name in programs.sections:
        if name not in SECTIONS:
            parser.error(f"no section {name}: there are {', '.join(SECTIONS)}")
    for program in (programs.rbg, programs.author):
        if not os.access(program, os.X_OK):
            sys.exit(f"{program} is missing: make build makes it")
    for name in programs.sections or SECTIONS:
        start = time.monotonic()
        reported = io.StringIO()
        with tempfile.TemporaryDirectory(prefix="rbg-bench-") as room, contextlib.redirect_stdout(Both(sys.stdout, reported)):
            SECTIONS[name](Run(pathlib.Path(room)), programs)
        if programs.write:
            taken = f"Taken on {time.strftime('%-d %B %Y')}, on {processor()}.\n"
            RESULTS.write_text(replaced(RESULTS.read_text(), name, taken + reported.getvalue()))
        print(f"\n({name} took {time.monotonic() - start:.0f} seconds)", flush=True)


if __name__ == "__main__":
    main()
