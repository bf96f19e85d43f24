#!/usr/bin/env python3
"""Compiles the programs of this folder against librbg.a and librbg.so, and runs them: counts of chess, descriptions that
are whole, cut and spoilt, and random calls, alone, under AddressSanitizer and under valgrind. trials.py CHESS GAME.."""

import os
import subprocess
import sys
import tempfile
from pathlib import Path

ROOT = Path(__file__).resolve().parent.parent.parent
HERE = ROOT / "clients/c"
CHESS = ["1 20", "2 400", "3 8902", "4 197281"]  # sequences of moves, as tables of chess programs have them
SANITIZED = ["-fsanitize=address,undefined", "-fno-sanitize-recover=all"]
QUIET = ["valgrind", "--quiet", "--error-exitcode=9", "--leak-check=full", "--show-leak-kinds=all"]


def run(*words: object) -> str:
    """What a command prints. A command that fails, or says something is wrong, ends the trial."""
    done = subprocess.run([str(word) for word in words], capture_output=True, text=True)
    if done.returncode or done.stderr:
        sys.exit(f"{' '.join(map(str, words))}: {done.returncode}\n{done.stdout}{done.stderr}")
    return done.stdout


def compiled(folder: str, source: str, name: str, *flags: object) -> Path:
    """A program of this folder, compiled with the library."""
    program = Path(folder) / f"{source}_{name}"
    compiler = os.environ.get("CC", "gcc")
    run(compiler, "-O1", "-g", "-Wall", "-Wextra", f"-I{ROOT / 'include'}", HERE / f"{source}.c", *flags, "-o", program)
    return program


def main() -> None:
    chess, *games = sys.argv[1:]
    texts, calls = int(os.environ.get("TEXTS", "10000")), int(os.environ.get("CALLS", "1000000"))
    with tempfile.TemporaryDirectory() as folder:
        counted = run(compiled(folder, "perft", "plain", ROOT / "librbg.a"), chess, 4).splitlines()
        if counted != CHESS:
            sys.exit(f"chess is counted as {counted}")
        print("chess to depth 4:", counted[-1])
        for source, count in (("check", texts), ("trial", calls)):
            plain = compiled(folder, source, "plain", ROOT / "librbg.a")
            shared = compiled(folder, source, "shared", f"-L{ROOT}", "-lrbg", f"-Wl,-rpath,{ROOT}")
            sanitized = compiled(folder, source, "sanitized", ROOT / "librbg.a", *SANITIZED)
            for game in games:
                for many, words in ((count, [plain]), (count, [shared]), (count, [sanitized]), (count // 50, [*QUIET, plain])):
                    print(Path(game).stem, Path(str(words[-1])).name, many, run(*words, game, many, 1).split())


if __name__ == "__main__":
    main()
