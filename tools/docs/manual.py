"""Manual pages and the page of all commands, from the tables of commands."""

from tables import Command, Option, Program

# What the exit statuses of both programs mean.
STATUSES = [
    ("0", "done"),
    ("1", "the description is refused, or something can't be counted or shown"),
    ("2", "a script or a record is refused, there are warnings with --strict, or import can't rewrite something"),
    ("3", "a file, a connection or the output failed, a match didn't end in its time, or a player gave up"),
    ("4", "out of memory"),
    ("64", "the command line is wrong: standard error says how, and nothing is printed"),
]


def described(option: Option) -> str:
    """An option as a table names it.

    >>> described(Option("log", "LOG", True, False, False, "")), described(Option("FILE", "", False, True, True, ""))
    ('--log LOG', 'FILE..')
    """
    return option.spelt().strip("[]")


def page_of(programs: list[Program]) -> str:
    """The page of all commands, in Markdown."""
    lines = ["# Commands", "", "Made by `make docs` from the programs' own tables. `--help` prints the same.", ""]
    for program in programs:
        lines += [f"## {program.name}", "", f"{program.about}. Version {program.version}.", ""]
        for command in program.commands:
            lines += section_of(program, command)
    lines += ["## Exit statuses", "", "| Status | Meaning |", "|---|---|"]
    lines += [f"| {status} | {meaning} |" for status, meaning in STATUSES]
    return "\n".join(lines) + "\n"


def section_of(program: Program, command: Command) -> list[str]:
    """A command's section of the page.

    >>> print("\\n".join(section_of(Program("rbg", "1", "", []), Command("check", "Check it", "rbg check it", []))))
    ### rbg check
    <BLANKLINE>
    Check it. Example: `rbg check it`
    <BLANKLINE>
    """
    lines = [f"### {program.name} {command.name}", "", f"{command.about}. Example: `{command.example}`", ""]
    if command.options:
        lines += ["| Argument | Meaning |", "|---|---|"]
        lines += [f"| `{described(it)}` | {it.help.replace('|', chr(92) + '|')} |" for it in command.options] + [""]
    if command.more:
        lines += ["```text", command.more, "```", ""]
    return lines


def escaped(text: str) -> str:
    """A text for a manual page.

    >>> escaped(".dot and a-dash")
    '\\\\&.dot and a\\\\-dash'
    """
    text = text.replace("\\", "\\e").replace("-", "\\-")
    return "\\&" + text if text[:1] in (".", "'") else text


def manual_of(program: Program) -> str:
    """A program's manual page, in the format of man."""
    lines = [f'.TH {program.name.upper()} 1 "" "{program.name} {program.version}"']
    lines += [".SH NAME", f"{escaped(program.name)} \\- {escaped(program.about[0].lower() + program.about[1:])}", ".SH SYNOPSIS"]
    for command in program.commands:
        lines += [f".B {escaped(program.name)} {escaped(command.name)}", escaped(command.usage().partition(" ")[2]), ".br"]
    lines.append(".SH COMMANDS")
    for command in program.commands:
        lines += [f".SS {escaped(command.usage())}", escaped(command.about) + ".", f"Example: {escaped(command.example)}"]
        for option in command.options:
            lines += [".TP", f".B {escaped(described(option))}", escaped(option.help) + "."]
        if command.more:
            lines += [".PP", ".nf", *map(escaped, command.more.splitlines()), ".fi"]
    lines.append(".SH EXIT STATUS")
    for status, meaning in STATUSES:
        lines += [".TP", f".B {status}", f"{escaped(meaning)}."]
    return "\n".join(lines) + "\n"
