"""The commands of both programs, as the tables in the sources of rbg_console, rbg_cli and rbg_author have them."""

import re
from dataclasses import dataclass
from pathlib import Path
from typing import Any, Iterator

ROOT = Path(__file__).resolve().parents[2]
SHARED = "crates/rbg_console/src/argument.rt"
# Each program, with the file that has its commands.
SOURCES = {"rbg": "crates/rbg_cli/src/command_line.rt", "rbg_author": "crates/rbg_author/src/program.rt"}
TOKEN = re.compile(r'\s+|//[^\n]*|("(?:[^"\\]|\\.)*")|([A-Za-z_]\w*(?:::\w+)*)|(\d[\d_]*)|([{}()\[\],:&])')


@dataclass
class Option:
    """An argument of a command: a word, or an option with two dashes."""

    name: str
    value: str  # the name of an option's value, or nothing
    is_option: bool
    is_needed: bool
    is_repeated: bool
    help: str

    def spelt(self) -> str:
        """How a line of usage shows it.

        >>> Option("FILE", "", False, True, True, "").spelt(), Option("log", "LOG", True, False, False, "").spelt()
        ('FILE..', '[--log LOG]')
        """
        text = (f"--{self.name} {self.value}".strip() if self.is_option else self.name) + ".." * self.is_repeated
        return text if self.is_needed else f"[{text}]"


@dataclass
class Command:
    name: str
    about: str
    example: str
    options: list[Option]
    more: str = ""  # what help says after the example

    def usage(self) -> str:
        """The command with its arguments: words first, then what an option needs, then what may be left out."""
        in_order = sorted(self.options, key=lambda it: (it.is_option, not it.is_needed))
        return " ".join([self.name, *(it.spelt() for it in in_order)])


@dataclass
class Program:
    name: str
    version: str
    about: str
    commands: list[Command]


def words(text: str) -> Iterator[str]:
    """The tokens of an expression."""
    at = 0
    while at < len(text):
        found = TOKEN.match(text, at)
        if not found:
            return
        at = found.end()
        if found[0].strip() and not found[0].startswith("//"):
            yield found[0]


class Reader:
    """Reads values of structs, enums, lists, texts and numbers, with names of values read before."""

    def __init__(self, text: str, known: dict[str, Any]):
        self.tokens, self.at, self.known = list(words(text)), 0, known

    def next(self) -> str:
        self.at += 1
        return self.tokens[self.at - 1]

    def listed(self, end: str) -> Iterator[None]:
        """Goes over the parts of a list up to its closing bracket."""
        while self.tokens[self.at] != end:
            yield
            if self.tokens[self.at] == ",":
                self.at += 1
        self.at += 1

    def value(self) -> Any:
        """The next value: a struct is a dict, an enum's variant a tuple of its name and its values.

        >>> Reader('Kind::Named("MS", Some("log"))', {}).value()
        ('Named', 'MS', 'log')
        >>> Reader('Argument { name: "turn", kind: Kind::Free, list: &[1_000, GAME], }', {"GAME": 7}).value()
        {'name': 'turn', 'kind': ('Free',), 'list': [1000, 7]}
        """
        token = self.next()
        if token == "&":
            return self.value()
        if token == "[":
            return [self.value() for _ in self.listed("]")]
        if token[0] == '"':
            return re.sub(r"\\(.)", r"\1", token[1:-1])
        if token[0].isdigit():
            return int(token.replace("_", ""))
        return self.named(token)

    def named(self, name: str) -> Any:
        after = self.tokens[self.at] if self.at < len(self.tokens) else ""
        if after == "{":
            self.at += 1
            return {key: value for key, value in (self.field() for _ in self.listed("}"))}
        if after == "(":
            self.at += 1
            inside = [self.value() for _ in self.listed(")")]
            return inside[0] if name == "Some" else (name.rpartition(":")[2], *inside)
        if name == "None":
            return None
        return self.known[name] if name in self.known else (name.rpartition(":")[2],)

    def field(self) -> tuple[str, Any]:
        name = self.next()
        if self.next() != ":":
            raise ValueError(f"no value of {name}")
        return name, self.value()


def constants(text: str, known: dict[str, Any]) -> dict[str, Any]:
    """The constants of a file, beside those that are known.

    >>> constants('pub const A: u8 = 3;\\nconst B: &[u8] = &[A, 4];\\n', {})
    {'A': 3, 'B': [3, 4]}
    """
    found = dict(known)
    for name, value in re.findall(r"^(?:pub(?:\(crate\))? )?const (\w+): [^=]+ = (.*?);$", text, re.M | re.S):
        found[name] = Reader(value, found).value()
    return found


def option_of(words: dict[str, Any]) -> Option:
    """
    >>> option_of({"name": "port", "kind": ("NeededNamed", "PORT"), "value": ("Port",), "help": "The port"}).spelt()
    '--port PORT'
    """
    kind, *more = words["kind"]
    value = more[0] if kind in ("Named", "NeededNamed") else ""
    is_option = kind in ("Flag", "Named", "NeededNamed")
    return Option(words["name"], value, is_option, kind in ("Needed", "Several", "NeededNamed"), kind == "Several", words["help"])


def program(name: str) -> Program:
    """A program's commands, in the order of its help."""
    known = constants((ROOT / SHARED).read_text(), {})
    text = (ROOT / SOURCES[name]).read_text()
    listed = constants(text, known)["COMMANDS"]
    commands = []
    for it in listed:
        example, _, more = it["example"].removeprefix("Example: ").partition("\n\n")
        commands.append(Command(it["name"], it["about"], example, [option_of(each) for each in it["arguments"]], more))
    version, about = (re.search(rf'\.{it}\("([^"]*)"\)', text) for it in ("version", "about"))
    assert version and about
    return Program(name, version[1], about[1], commands)
