#!/usr/bin/env python3
"""Runs a program in a network of its own, from which it reaches nothing but its match: a wrapper for programs that aren't
trusted.

    tournament_jail.py PORT COMMAND..

The program finds 127.0.0.1:PORT as ever, but what listens there is this wrapper, in the program's own network namespace.
It lets one connection in, and carries its bytes to the referee and back. So the program can't connect twice, nor to another
match, nor to anything else. It has a user namespace of its own too, in which it is the same user. What it may read and
write isn't narrowed, and it can still end the other processes of its user. bwrap (bubblewrap) prevents that, and all
writing outside of /tmp; `--tmpfs FOLDER` hides a folder that the program shall not read. docs/TOURNAMENTS.md has the line.
"""

import ctypes
import fcntl
import os
import select
import socket
import struct
import sys
from pathlib import Path

NEW_USER, NEW_NETWORK = 0x10000000, 0x40000000  # of unshare
GET_FLAGS, SET_FLAGS, IS_UP = 0x8913, 0x8914, 1  # of a network's devices


def unshare() -> None:
    """Gives this process a user namespace and a network of its own, with a loopback device that is up."""
    user, group = os.getuid(), os.getgid()
    libc = ctypes.CDLL(None, use_errno=True)
    if libc.unshare(NEW_USER | NEW_NETWORK):
        raise OSError(ctypes.get_errno(), "this system lets no one have a network of his own")
    Path("/proc/self/setgroups").write_text("deny")
    Path("/proc/self/uid_map").write_text(f"{user} {user} 1")
    Path("/proc/self/gid_map").write_text(f"{group} {group} 1")
    with socket.socket(socket.AF_INET, socket.SOCK_DGRAM) as device:
        flags = struct.unpack("16sh", fcntl.ioctl(device, GET_FLAGS, struct.pack("16sh", b"lo", 0)))[1]
        fcntl.ioctl(device, SET_FLAGS, struct.pack("16sh", b"lo", flags | IS_UP))


def carry(one: socket.socket, other: socket.socket) -> None:
    """Carries bytes both ways, until one side has ended.

    >>> (a, b), (c, d) = socket.socketpair(), socket.socketpair()
    >>> a.sendall(b"M0 3")
    >>> a.shutdown(socket.SHUT_WR)
    >>> carry(b, c)
    >>> d.recv(9), d.recv(9)
    (b'M0 3', b'')
    >>> for each in (a, b, c, d):
    ...     each.close()
    """
    ways = {one: other, other: one}
    while True:
        for side in select.select(list(ways), [], [])[0]:
            try:
                piece = side.recv(65536)
                if piece:
                    ways[side].sendall(piece)
            except OSError:
                piece = b""
            if not piece:
                ways[side].shutdown(socket.SHUT_WR)
                return


def begin(port: int, command: list[str], messages: socket.socket) -> None:
    """In the program's process: its network, its listener, which is handed out, and then the program."""
    try:
        unshare()
        listener = socket.create_server(("127.0.0.1", port), backlog=1)
        socket.send_fds(messages, [b"x"], [listener.fileno()])
        listener.close()
        os.execvp(command[0], command)
    except OSError as error:
        print(f"{command[0]}: {error}", file=sys.stderr, flush=True)
        os._exit(127)


def main() -> int:
    if len(sys.argv) < 3 or not sys.argv[1].isdecimal():
        print(__doc__, file=sys.stderr)
        return 64
    port, command = int(sys.argv[1]), sys.argv[2:]
    mine, theirs = socket.socketpair()
    program = os.fork()
    if program == 0:
        begin(port, command, theirs)
    theirs.close()
    _, descriptors, _, _ = socket.recv_fds(mine, 1, 1)
    if descriptors:
        listener = socket.socket(fileno=descriptors[0])
        # the program may end without having come
        if listener in select.select([listener, os.pidfd_open(program)], [], [])[0]:
            inside, _ = listener.accept()
            listener.close()
            with socket.create_connection(("127.0.0.1", port)) as outside:
                carry(inside, outside)
    return os.waitstatus_to_exitcode(os.waitpid(program, 0)[1]) & 255


if __name__ == "__main__":
    sys.exit(main())
