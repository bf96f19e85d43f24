"""A guard ends the processes of matches if the program that plays them is killed outright, and so can't."""

import atexit
import secrets
import subprocess
import threading
from contextlib import suppress
from typing import Optional

NAME = "RBG_TOURNAMENT"  # the variable by whose value the processes are known
# It reads a line: that there is one is the good end. Else nobody can write any more, and it ends what is left. A process
# that had just begun may have its variables a little later.
GUARD = """
read -r line && exit 0
for time in 1 2 3; do
  for file in $(grep -lsF "$1" /proc/[0-9]*/environ); do
    process=${file#/proc/}
    kill -s KILL "${process%/environ}"
  done
  sleep 0.3
done
"""


class Guard:
    """The guard of a program that plays matches: a shell beside it.

    >>> guard = Guard()
    >>> words = {"env": guard.variables(), "stdout": subprocess.DEVNULL}
    >>> parent = subprocess.Popen(["sh", "-c", "setsid sleep 100"], **words)
    >>> guard.process.stdin.close()
    >>> parent.wait(60), guard.process.wait(60)
    (-9, 0)
    """

    def __init__(self) -> None:
        self.mark = secrets.token_hex(16)
        self.process: Optional[subprocess.Popen] = None
        self.lock = threading.Lock()

    def variables(self) -> dict[str, str]:
        """What the processes have to have in their environments that it guards. It begins when it is asked first."""
        with self.lock:
            if self.process is None:
                quiet = {"stdout": subprocess.DEVNULL, "stderr": subprocess.DEVNULL}
                words = ["sh", "-c", GUARD, "sh", f"{NAME}={self.mark}"]
                self.process = subprocess.Popen(words, stdin=subprocess.PIPE, start_new_session=True, **quiet)
                atexit.register(self.dismiss)
        return {NAME: self.mark}

    def dismiss(self) -> None:
        """The good end: there is nothing to guard any more."""
        with suppress(OSError, ValueError):  # a guard that has ended guards no more
            self.process.stdin.write(b"\n")
            self.process.stdin.close()
