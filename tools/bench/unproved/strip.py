"""Takes the checks of `rt try` out of a module of LLVM, and says to LLVM what the sources say of inlining."""

import re
from collections.abc import Iterable, Iterator
from pathlib import Path

HINT = re.compile(r"#\[(inline\(always\)|inline\(never\)|inline|cold)\]")
FUNCTION = re.compile(r'(?:pub(?:\([^)]*\))? )?(?:const )?(?:unsafe )?(?:final )?(?:extern "C" )?fn (\w+)')
TYPE = re.compile(r"impl(?:<.*?>)? (?:.* for )?(\w+)")
NAMED = re.compile(r'define .*?@"?([^"(]+)"?\(')
WORDS = {"inline(always)": "alwaysinline", "inline(never)": "noinline", "inline": "inlinehint", "cold": "cold"}
# What a proved program doesn't do: checks, stops where a proof says that none comes, and filling memory before it is written.
CHECK = re.compile(r'  call void @("rattle-llvm-checks::|llvm\.trap\(\)|llvm\.memset\.p0\.i64\(.* i8 -86,)')

Hints = dict[tuple[str, str], list[str]]


def hints_of(module: str, lines: Iterable[str]) -> Hints:
    """What the sources of a module say of inlining, by the module and the name of each function. A method stands under
    its crate and its type, since its symbol names the module of the type, and not that of the method.

    >>> hints_of("low::at", ["#[inline]", "// short", "pub(crate) fn first(", "#[cold]", "", "fn fails() {"])
    {('low::at', 'first'): ['inlinehint'], ('low::at', 'fails'): ['cold']}
    >>> hints_of("low::at", ["impl<'a, S: Steps> Set<'a, S> {", "    #[cold]", "    fn first(", "}"])
    {('low Set', 'first'): ['cold']}
    """
    hints: Hints = {}
    waiting: list[str] = []
    at = module
    for text in lines:
        if owner := TYPE.match(text):
            at = f"{module.split('::')[0]} {owner[1]}"
        elif text.startswith("}"):
            at = module
        line = text.strip()
        if hint := HINT.match(line):
            waiting.append(WORDS[hint[1]])
        elif line and not line.startswith(("#[", "//")):
            if waiting and (named := FUNCTION.match(line)):
                hints[at, named[1]] = waiting
            waiting = []
    return hints


def hints_below(crate: str, sources: Path) -> Hints:
    """What all modules of a crate say."""
    hints: Hints = {}
    for file in sources.rglob("*.rt"):
        parts = [crate, *file.relative_to(sources).with_suffix("").parts]
        parts = parts[:-1] if parts[-1] in ("lib", "main", "mod") else parts
        hints |= hints_of("::".join(parts), file.read_text().splitlines())
    return hints


def hint(symbol: str, hints: Hints) -> str:
    """What LLVM is to know of a symbol. A method's symbol has its type between the module and the name.

    >>> hint("low::at::Set::first::<#3a>", {("low Set", "first"): ["inlinehint"]})
    ' inlinehint'
    """
    *path, name = re.sub(r"::<#[0-9a-f]+>$", "", symbol).split("::")
    modules = ["::".join(path), *(f"{path[0]} {part}" for part in path[-1:])]
    return "".join(f" {word}" for module in modules for word in hints.get((module, name), []))


def stripped(lines: Iterable[str], hints: Hints) -> Iterator[str]:
    """The lines of a module without its checks.

    >>> list(stripped(['define i32 @"a::f"(i32 %x) #0 {', '  call void @"rattle-llvm-checks::Cast"(i1 %y)', '}'], {}))
    ['define i32 @"a::f"(i32 %x) #0 {', '}']
    """
    for line in lines:
        if CHECK.match(line):
            continue
        if named := NAMED.match(line):
            line = line.replace(" #0 {", f"{hint(named[1], hints)} #0 {{")
        if line.startswith("attributes "):
            line = line.replace(" sanitize_address", "").replace(' "frame-pointer"="all"', "").replace("{ }", "{ nounwind }")
        yield line
