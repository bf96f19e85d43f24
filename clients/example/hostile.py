#!/usr/bin/env python3
"""Programs that do what none should: make tournament shows that nothing comes of it.

    hostile.py PORT twice      takes the other program's seat too, and plays it badly
    hostile.py PORT never      never connects
    hostile.py PORT early      ends at once
    hostile.py PORT loud       prints a gigabyte, and then stays silent
    hostile.py PORT greedy     asks for more and more memory before it connects
    hostile.py PORT busy       connects, and then computes without an end
"""

import socket
import sys
import time


def main():
    port, what = int(sys.argv[1]), sys.argv[2]
    if what == "early":
        return 3
    if what == "never":
        time.sleep(1000)
    if what == "greedy":
        kept = []
        while len(kept) < 4000:
            kept.append(bytearray(1 << 20))
    lines = [socket.create_connection(("127.0.0.1", port))]
    if what == "twice":
        lines += another(port)
    while what == "busy":
        pass
    if what == "loud":
        for _ in range(1000):
            sys.stdout.write("x" * (1 << 20))
    for line in lines[1:]:
        line.sendall(b"nonsense\0" * 9)
    while lines[0].recv(65536):
        pass
    return 0


def another(port):
    """One more connection, as soon as there is a seat again."""
    for _ in range(100):
        try:
            return [socket.create_connection(("127.0.0.1", port))]
        except OSError:
            time.sleep(0.01)
    return []


if __name__ == "__main__":
    sys.exit(main())
