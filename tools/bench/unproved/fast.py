#!/usr/bin/env python3
"""Builds programs of this checkout as fast as the proved ones, with no proof.

    fast.py --to FOLDER [CRATE ..]

`rt try` compiles a program with checks and without optimisation. This takes the module that it makes for LLVM, takes the
checks out, and compiles the rest as `rt run` does. Of rbg_c, a library, FOLDER/librbg_c.a is left, for tools/library.
Without a proof a wrong index isn't found here: nobody may be given these programs.
"""

import argparse
import re
import shutil
import signal
import subprocess
import sys
import tempfile
from pathlib import Path

from strip import Hints, hints_below, stripped

ROOT = Path(__file__).resolve().parents[3]
CRATES = ("rbg_manager", "rbg_author_main", "rbg_cases", "rbg_c")
LIBRARY = "rbg_c"
COPIED = ("src", "specs", "proofs")
TARGET = "x86_64-unknown-linux-gnu"
# Stands for clang under `rt try`: it keeps the module that is to be compiled with checks, and ends the try by that.
CLANG = """#!/bin/sh
case " $* " in *" -fsanitize=address "*) cp module.bc '{module}'; exit 1;; esac
exec '{clang}' "$@"
"""
# As `rt run` compiles a module.
FLAGS = """-march=x86-64 -mllvm -no-trap-after-noreturn -ffunction-sections -fdata-sections -mllvm -trap-unreachable
-mllvm -no-x86-call-frame-opt -mllvm -disable-machine-licm -mllvm -disable-postra-machine-licm -mllvm
-sink-common-insts=false --no-default-config -fintegrated-cc1 -c -x ir -fPIE -O3 -Xclang -fmerge-functions -mllvm
-mergefunc-use-aliases""".split()
EXPORT = re.compile(r'pub extern "C" fn (\w+)\(([^)]*)\)')
# What a call of an export is given, by the beginning of a parameter's type. Nobody makes these calls.
GIVEN = {"Global": "rt.alloc()", "&mut Handle": "&mut Handle::empty()", "&mut [": "&mut []", "&[": "&[]", "&mut ": "&mut 0", "u": "0"}


def calls(module: str, text: str) -> list[str]:
    """A call of each export of a module.

    >>> calls("at", 'pub extern "C" fn first(alloc: Global, of: &[u8], room: u64) -> u32\\n')
    ['at::first(rt.alloc(), &[], 0);']
    """
    made = []
    for export in EXPORT.finditer(text):
        types = (it.split(":", 1)[1].strip() for it in export[2].split(",") if it.strip())
        given = (next(value for begin, value in GIVEN.items() if it.startswith(begin)) for it in types)
        made.append(f"{module}::{export[1]}({', '.join(given)});")
    return made


def exported(line: str) -> str:
    """A line of a module in which the exports of the library have their names in C, and `main` is nobody's.

    >>> exported('define internal i32 @"rbg_c::asking::rbg_key"(ptr %a) #0 {')
    'define i32 @rbg_key(ptr %a) #0 {'
    """
    line = re.sub(r'@"rbg_c::\w+::(rbg_\w+)"', r"@\1", line)
    line = re.sub(r"^define internal (.*@rbg_\w+\()", r"define \1", line)
    return re.sub(r"^define (.*@main\()", r"define internal \1", line)


def run(*words: object, at: Path = ROOT) -> None:
    subprocess.run([str(word) for word in words], cwd=at, check=True)


class Builder:
    """Builds crates with a toolchain, in a folder that is removed later."""

    def __init__(self, folder: Path):
        page = subprocess.run(["rt", "doc"], capture_output=True, text=True, check=True).stdout
        self.kit, self.folder = Path(page.strip().splitlines()[0]).parent, folder
        self.clang = self.kit / "toolchain/bin/clang"
        self.links_toolchain()
        self.copies_sources()

    def links_toolchain(self) -> None:
        """A toolchain of links to that of the kit, but with a clang of its own, and with no check."""
        own = {
            "toolchain/bin/clang": CLANG.format(module=self.folder / "module.bc", clang=self.clang),
            "bin/rattle": "#!/bin/sh\n",  # rt try starts a check beside, for a hint alone
        }
        for place in (".", "bin", "toolchain", "toolchain/bin"):
            (self.folder / "kit" / place).mkdir(parents=True, exist_ok=True)
            for file in (self.kit / place).iterdir():
                name = file.relative_to(self.kit).as_posix()
                if name in ("bin/rt", "bin/rtlib.py"):  # these look for the kit from where they are
                    shutil.copy2(file, self.folder / "kit" / name)
                elif name not in ("bin", "toolchain", "toolchain/bin", *own):
                    (self.folder / "kit" / name).symlink_to(file)
        for name, script in own.items():
            (self.folder / "kit" / name).write_text(script)
            (self.folder / "kit" / name).chmod(0o755)

    def copies_sources(self) -> None:
        """The repository, in which rbg_c is a program that calls each of its exports."""
        for crate in (ROOT / "crates").iterdir():
            for name in COPIED:
                if (crate / name).is_dir():
                    shutil.copytree(crate / name, self.folder / "crates" / crate.name / name)
        library = self.folder / "crates" / LIBRARY / "src"
        made = [call for file in sorted(library.glob("*.rt")) for call in calls(file.stem, file.read_text())]
        main = (library / "lib.rt").read_text() + "\nfn main(rt: HostRuntime) {\n    " + "\n    ".join(made) + "\n}\n"
        (library / "lib.rt").unlink()
        (library / "main.rt").write_text(main)
        lines = re.sub(rf"^{LIBRARY} staticlib:(.*)", rf"{LIBRARY}:\1 std io", (ROOT / "crates.txt").read_text(), flags=re.M)
        (self.folder / "crates.txt").write_text(lines)
        shutil.copy(ROOT / "HANDLES", self.folder)

    def hints(self) -> Hints:
        hints: Hints = {}
        for sources in [*self.kit.glob("rattle/*/src"), *(ROOT / "crates").glob("*/src")]:
            hints |= hints_below(sources.parent.name, sources)
        return hints

    def module(self, crate: str) -> Path:
        """The module of a crate without checks."""
        bitcode, text, bare = (self.folder / f"module.{end}" for end in ("bc", "ll", "bare.ll"))
        bitcode.unlink(missing_ok=True)
        words = [sys.executable, self.folder / "kit/bin/rt", "try", "--steps", "1"]
        said = subprocess.run(words, cwd=self.folder / "crates" / crate, stdin=subprocess.DEVNULL, capture_output=True, text=True)
        if not bitcode.exists():
            sys.exit(f"{crate}: rt try made no module:\n{said.stdout}{said.stderr}")
        run(self.clang, "-S", "-emit-llvm", "-O0", "-x", "ir", bitcode, "-o", text)
        with open(text) as source, open(bare, "w") as target:
            lines = stripped(source, self.hints())
            target.writelines(map(exported, lines) if crate == LIBRARY else lines)
        return bare

    def build(self, crate: str, to: Path) -> Path:
        """Leaves the program or the archive of a crate in a folder."""
        compiled = self.folder / f"{crate}.o"
        run(self.clang, f"--target={TARGET}", f"--sysroot={self.kit / 'toolchain'}", *FLAGS, self.module(crate), "-o", compiled)
        if crate == LIBRARY:
            made = to / f"lib{crate}.a"
            made.unlink(missing_ok=True)
            run("ar", "rcs", made, compiled)
            return made
        made = to / crate
        beside = (self.kit / "c/libos_c.a", self.kit / "c/liblibc_c.a")
        run(self.kit / "bin/rattle-link", "--target", TARGET, "--toolchain", self.kit / "toolchain", "-o", made, compiled, *beside)
        return made


def main() -> None:
    parser = argparse.ArgumentParser(description="builds programs fast and unproved")
    parser.add_argument("crates", nargs="*", metavar="CRATE", default=CRATES, help=f"{', '.join(CRATES)} if none is named")
    parser.add_argument("--to", type=Path, required=True, metavar="FOLDER", help="where the programs are left")
    words = parser.parse_args()
    words.to.mkdir(parents=True, exist_ok=True)
    signal.signal(signal.SIGTERM, lambda number, _: sys.exit(128 + number))  # so that the folder is removed
    with tempfile.TemporaryDirectory(prefix="rbg-unproved-") as folder:
        builder = Builder(Path(folder))
        for crate in words.crates:
            print(builder.build(crate, words.to.resolve()), flush=True)


if __name__ == "__main__":
    main()
