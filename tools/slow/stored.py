"""The stored runs of the repository: the cases of rbg_cases, the matches of rbg_games, the match of rbg_manager."""

import pathlib
import re

import program

CRATES = pathlib.Path(__file__).resolve().parents[2] / "crates"
COVERED = ("referee", "check", "moves", "replay", "migrate")
NEWS = re.compile(rb"(?m)^news: .*\n")  # what standard error says beside the answer


class Case:
    """A run of the program: its words, its standard input and its files, and what has to come out."""

    def __init__(self, name):
        self.name = name
        self.words = []
        self.standard_input = bytearray()
        self.files = {}
        self.made = None  # the file that is shown too
        self.last = None
        self.author = False
        self.fails = False  # its input fails or has no end, its output fails, or there is no memory for a file

    def covered(self):
        if self.author or self.fails:
            return False
        arguments = self.words[1:]
        if self.words[:1] == ["referee"] and arguments[-1:] != ["--record"] and "--cut" not in arguments:
            arguments = [name for name in program.named_files(arguments) if name is not None]
        fits = {
            "referee": len(arguments) < 3,
            "replay": len(arguments) == 2,
            "migrate": len(arguments) == 2,
            "moves": len(arguments) in (1, 2),
        }
        return not self.words or (
            self.words[0] in COVERED
            and fits.get(self.words[0], len(arguments) == 1)
            and not any(word.startswith("-") for word in arguments)
        )

    def shown(self, printed, status, files):
        """What the stored output has of the run, which left these files."""
        lines = printed.splitlines(keepends=True)
        kept = lines if self.last is None else lines[len(lines) - self.last :]
        return b"".join(kept) + self.shown_file(files) + f"status {status}\n".encode()

    def shown_file(self, files):
        """What is shown of the file that the run has made."""
        if self.made is None or self.made in self.files or self.made not in files:
            return b""
        return f"made {self.made}\n".encode() + bytes(files[self.made])


def cases():
    """Pairs of a covered case of rbg_cases and its stored output. What a case has made is there for those after it."""
    made = {}
    read = list(read_cases((CRATES / "rbg_cases/stdin").read_bytes().splitlines()))
    stored = (CRATES / "rbg_cases/stdout").read_bytes()
    for case, following in zip(read, read[1:] + [None]):
        head = b"case " + case.name + b"\n"
        assert stored.startswith(head), case.name
        end = len(stored) if following is None else stored.index(b"\ncase " + following.name + b"\n") + 1
        expected = stored[len(head) : end]
        case.files = {**{name: made[name] for name in case.words if name in made}, **case.files}
        if case.covered():
            yield case, NEWS.sub(b"", expected)
        if case.made is not None:
            made[case.made] = expected.partition(f"made {case.made}\n".encode())[2].rpartition(b"status ")[0]
        stored = stored[end:]


def read_cases(lines):
    texts, case, target = {}, None, None
    for line in lines:
        mark, rest = line[:1], line[1:]
        word, _, name = line.partition(b" ")
        if mark in (b"", b";"):
            continue
        if mark in (b"|", b"+", b"*", b"%", b"="):
            target += added(mark, rest, texts)
        elif word == b"text":
            target = texts[name] = bytearray()
        elif word == b"case":
            if case:
                yield case
            case = Case(name)
            target = case.standard_input
        elif word == b"words":
            case.words = name.decode().split()
        elif word == b"file":
            target = case.files[name.decode()] = bytearray()
        elif word == b"made":
            case.made = name.decode()
        elif word == b"last":
            case.last = int(name)
        elif word == b"author":
            case.author = True
        elif word in (b"input", b"output", b"no"):
            case.fails = True
        else:
            target = bytearray()  # a stream of a connection
    yield case


def added(mark, rest, texts):
    """What a line of a case adds to an input or a file."""
    if mark == b"=":
        return texts[rest]
    if mark == b"%":
        return bytes.fromhex(rest.decode())
    if mark == b"*":
        count, _, repeated = rest.partition(b" ")
        return int(count) * repeated
    return rest + (b"\n" if mark == b"|" else b"")


def matches():
    """The stored matches as pairs of a case and its output: that of rbg_manager, and the scripts of rbg_games."""
    manager = Case(b"rbg_manager")
    manager.standard_input = (CRATES / "rbg_manager/stdin").read_bytes()
    yield manager, (CRATES / "rbg_manager/stdout").read_bytes() + b"status 0\n"
    stored = (CRATES / "rbg_games/stdout").read_bytes()
    data = CRATES / "rbg_games/data"
    names = [line.split()[1] for line in (CRATES / "rbg_games/stdin").read_text().splitlines() if ".script" in line]
    for name, following in zip(names, names[1:] + [None]):
        start = stored.index(f"\n{name}\n".encode()) + len(name) + 2
        end = stored.index(f"\n{following}\n".encode()) + 1 if following else len(stored)
        case = Case(name.encode())
        case.words = ["referee", "game.rbg"]
        case.standard_input = (data / name).read_bytes()
        case.files["game.rbg"] = (data / name.replace(".script", ".rbg")).read_bytes()
        yield case, stored[start:end] + b"status 0\n"
