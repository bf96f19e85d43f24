"""Completions of both programs' command lines for bash, zsh and fish, from the tables of commands."""

from tables import Command, Option, Program

# Options whose value is the name of a file or a folder.
FILES = ("LOG", "RECORD", "DIR", "FILE")


def dashed(command: Command) -> list[Option]:
    return [it for it in command.options if it.is_option]


def for_bash(program: Program) -> str:
    """
    >>> print(for_bash(Program("p", "", "", [Command("c", "does", "p c", [Option("log", "LOG", True, False, False, "h")])])))
    # Completions of p for bash.
    _p() {
        local word=${COMP_WORDS[COMP_CWORD]}
        if [ "$COMP_CWORD" -eq 1 ]; then
            COMPREPLY=($(compgen -W 'c --help --version' -- "$word"))
            return
        fi
        case $word in -*) ;; *) return ;; esac
        case ${COMP_WORDS[1]} in
        c) COMPREPLY=($(compgen -W '--log --help' -- "$word")) ;;
        esac
    }
    complete -o default -F _p p
    <BLANKLINE>
    """
    names = " ".join([*(it.name for it in program.commands), "--help", "--version"])
    cases = [
        f"    {it.name}) COMPREPLY=($(compgen -W '{' '.join([*(f'--{each.name}' for each in dashed(it)), '--help'])}' -- \"$word\")) ;;"
        for it in program.commands
    ]
    return "\n".join([
        f"# Completions of {program.name} for bash.",
        f"_{program.name}() {{",
        "    local word=${COMP_WORDS[COMP_CWORD]}",
        '    if [ "$COMP_CWORD" -eq 1 ]; then',
        f"        COMPREPLY=($(compgen -W '{names}' -- \"$word\"))",
        "        return",
        "    fi",
        "    case $word in -*) ;; *) return ;; esac",
        "    case ${COMP_WORDS[1]} in",
        *cases,
        "    esac",
        "}",
        f"complete -o default -F _{program.name} {program.name}",
        "",
    ])  # fmt: skip


def quoted(text: str) -> str:
    """A text within single quotes of a shell.

    >>> quoted("the game's")
    "'the game'\\\\''s'"
    """
    return "'" + text.replace("'", "'\\''") + "'"


def for_fish(program: Program) -> str:
    """
    >>> print(for_fish(Program("p", "", "", [Command("c", "does", "p c", [Option("log", "LOG", True, False, False, "h")])])))
    # Completions of p for fish.
    complete -c p -n __fish_use_subcommand -a c -d 'does'
    complete -c p -n '__fish_seen_subcommand_from c' -l log -r -d 'h'
    <BLANKLINE>
    """
    lines = [f"# Completions of {program.name} for fish."]
    for command in program.commands:
        lines.append(f"complete -c {program.name} -n __fish_use_subcommand -a {command.name} -d {quoted(command.about)}")
        for option in dashed(command):
            value = " -r" if option.value in FILES else " -x" if option.value else ""
            seen = f"'__fish_seen_subcommand_from {command.name}'"
            lines.append(f"complete -c {program.name} -n {seen} -l {option.name}{value} -d {quoted(option.help)}")
    return "\n".join(lines) + "\n"


def bracketed(text: str) -> str:
    """A help text within the brackets of a specification of zsh.

    >>> bracketed("a [b]: c")
    'a \\\\[b\\\\]\\\\: c'
    """
    return "".join(f"\\{it}" if it in "[]:" else it for it in text)


def for_zsh(program: Program) -> str:
    """
    >>> print(for_zsh(Program("p", "", "", [Command("c", "does", "p c", [Option("log", "LOG", True, False, False, "h")])])))
    #compdef p
    # Completions of p for zsh.
    _p() {
        if (( CURRENT == 2 )); then
            local -a commands=('c:does')
            _describe command commands
            return
        fi
        case $words[2] in
        c) _arguments '--log[h]:LOG:_files' '*:file:_files' ;;
        esac
    }
    _p "$@"
    <BLANKLINE>
    """
    commands = " ".join(quoted(f"{it.name}:{it.about.replace(':', chr(92) + ':')}") for it in program.commands)
    lines = ["#compdef " + program.name, f"# Completions of {program.name} for zsh.", f"_{program.name}() {{"]
    lines += ["    if (( CURRENT == 2 )); then", f"        local -a commands=({commands})"]
    lines += ["        _describe command commands", "        return", "    fi", "    case $words[2] in"]
    for command in program.commands:
        reported = []
        for option in dashed(command):
            value = f":{option.value}:{'_files' if option.value in FILES else ''}" if option.value else ""
            reported.append(quoted(f"--{option.name}[{bracketed(option.help)}]{value}"))
        lines.append(f"    {command.name}) _arguments {' '.join([*reported, quoted('*:file:_files')])} ;;")
    return "\n".join([*lines, "    esac", "}", f'_{program.name} "$@"']) + "\n"
