#!/usr/bin/env python3
"""Sends wrong requests of every kind to the page's server, slow ones and noise, and looks whether each has its status and
the server still answers.

    python3 tools/page/wrong.py [--author ./rbg_author]
"""

import argparse
import random
import socket
import sys

from table import DATA, Server


def talk(port, said, patience=30):
    """The status with which these bytes are answered."""
    with socket.create_connection(("127.0.0.1", port), timeout=patience) as line:
        line.sendall(said)
        heard = b""
        try:
            while part := line.recv(65536):
                heard += part
        except ConnectionResetError:
            pass
    return heard[9:12].decode() if heard else "nothing"


def main():
    parser = argparse.ArgumentParser(description=__doc__, formatter_class=argparse.RawDescriptionHelpFormatter)
    parser.add_argument("--author", default="./rbg_author")
    words = parser.parse_args()
    with Server(words.author, DATA / "tictactoe.rbg") as server:
        port = int(server.link.rstrip("/").rpartition(":")[2])
        host = b"Host: 127.0.0.1:%d\r\n" % port
        ask = b"POST /ask HTTP/1.1\r\n" + host + b"Content-Length: 6\r\n\r\nplace\n"
        wanted = [
            (b"GET / HTTP/1.1\r\n" + host + b"\r\n", "200"),
            (ask, "200"),
            (b"GET / HTTP/1.1\r\n" + host + b"Origin: http://127.0.0.1:%d\r\n\r\n" % port, "200"),
            (b"nonsense\r\n\r\n", "400"),
            (b"GET / HTTP/1.1\r\n" + host + host + b"\r\n", "400"),
            (b"GET / HTTP/1.1\r\n" + host + b"Content-Length: 99999999999999999999999\r\n\r\n", "400"),
            (b"POST /ask HTTP/1.1\r\n" + host + b"Transfer-Encoding: chunked\r\n\r\n0\r\n\r\n", "400"),
            (b"POST /record HTTP/1.1\r\n" + host + b"Content-Length: 6\r\n\r\nplace\n", "400"),
            (b"POST /position HTTP/1.1\r\n" + host + b"Content-Length: 6\r\n\r\nplace\n", "400"),
            (b"GET / HTTP/1.1\r\n\r\n", "403"),
            (b"GET / HTTP/1.1\r\nHost: localhost:%d\r\n\r\n" % port, "403"),
            (b"GET / HTTP/1.1\r\nHost: 127.0.0.1:%d0\r\n\r\n" % port, "403"),
            (b"GET / HTTP/1.1\r\nHost: elsewhere\r\n\r\n", "403"),
            (b"GET / HTTP/1.1\r\n" + host + b"Origin: null\r\n\r\n", "403"),
            (b"GET / HTTP/1.1\r\n" + host + b"Origin: https://127.0.0.1:%d\r\n\r\n" % port, "403"),
            (b"GET /elsewhere HTTP/1.1\r\n" + host + b"\r\n", "404"),
            (b"PUT / HTTP/1.1\r\n" + host + b"\r\n", "405"),
            (b"POST /state HTTP/1.1\r\n" + host + b"Content-Length: 0\r\n\r\n", "405"),
            (ask.replace(b"/ask", b"/ask?after=12345"), "409"),
            (b"POST /ask HTTP/1.1\r\n" + host + b"Content-Length: 1048577\r\n\r\n", "413"),
            (b"GET / HTTP/1.1\r\n" + b"X: y\r\n" * 100 + b"\r\n", "413"),
            (b"GET /" + b"a" * 20_000, "413"),
            (b"GET / HTTP/1.1\r\nHo", "408"),
            (b"POST /ask HTTP/1.1\r\n" + host + b"Content-Length: 10\r\n\r\nabc", "408"),
        ]
        for said, status in wanted:
            answered = talk(port, said)
            if answered != status:
                sys.exit(f"{said[:80]!r} was answered by {answered}, and not by {status}")
        idle = [socket.create_connection(("127.0.0.1", port)) for _ in range(60)]
        try:
            with socket.create_connection(("127.0.0.2", port), timeout=5):
                sys.exit("another address than 127.0.0.1 is listened on")
        except OSError:
            pass
        if talk(port, ask) != "200":
            sys.exit("beside 60 lines that say nothing there was no answer")
        for line in idle:
            line.close()
        chance = random.Random(1)
        for turn in range(300):
            noise = chance.randbytes(chance.randrange(200))
            head = b"POST /ask HTTP/1.1\r\n" + host + b"Content-Length: %d\r\n\r\n" % len(noise) if turn % 2 else b""
            with socket.create_connection(("127.0.0.1", port)) as line:
                line.sendall(head + noise)
        if talk(port, ask) != "200":
            sys.exit("after noise there was no answer")
    print(f"{len(wanted)} requests had their status, and 60 silent lines and 300 of noise ended nothing")


if __name__ == "__main__":
    main()
