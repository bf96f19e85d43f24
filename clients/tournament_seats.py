"""Whose seat it is: a seat belongs to the program that was started for it.

The referee gives seats to connections, and doesn't know where they come from. The system does: each end of a connection
on this machine is a socket, and each socket is held by processes.

>>> with socket.create_server(("127.0.0.1", 0)) as server:
...     port = server.getsockname()[1]
...     with socket.create_connection(("127.0.0.1", port)), socket.create_connection(("127.0.0.1", port)):
...         held = holders(connections(port))
...         print([process == os.getpid() for process, _ in held])
...         print(wrong_seats(held, [os.getpid()]))
...         print(wrong_seats(held[:1], [os.getpid()]))
...         print(wrong_seats(held[:1], [1]) == f"process {os.getpid()}, which is of no program of this match, connected")
[True, True]
1
None
True
"""

import itertools
import os
import socket
import struct
from contextlib import suppress
from pathlib import Path
from typing import Iterator, Mapping, Optional, Sequence, Union

SOCK_DIAG, BY_FAMILY, ANY = 4, 20, 0xFFFFFFFF  # of netlink
OPEN = {"01", "04", "05", "08"}  # the states of a connection of which a process may still have this end


def clients(table: str, port: int) -> Iterator[tuple[str, int]]:
    """The sockets that are connected to this port of 127.0.0.1, and whose they are, by a table of the system.

    >>> head = "  sl  local_address rem_address   st tx_queue rx_queue tr tm->when retrnsmt   uid  timeout inode\\n"
    >>> line = "   1: 0100007F:A1B2 0100007F:0FA0 01 00000000:00000000 00:00000000 00000000  1000 0 7777 1 0\\n"
    >>> list(clients(head + line, 4000)), list(clients(head + line, 4001))
    ([('7777', 1000)], [])
    """
    wanted = f"0100007F:{port:04X}"
    for line in table.splitlines():
        if wanted in line:
            words = line.split()
            if words[2].endswith(wanted) and words[3] in OPEN and words[9] != "0":
                yield words[9], int(words[7])


def sockets_of(process: Union[int, str]) -> set[str]:
    """The sockets that a process has, if it may be seen."""
    found = set()
    with suppress(OSError):
        for name in os.listdir(f"/proc/{process}/fd"):
            with suppress(OSError):
                link = os.readlink(f"/proc/{process}/fd/{name}")
                if link.startswith("socket:["):
                    found.add(link[8:-1])
    return found


def family(process: int) -> Iterator[int]:
    """A process, its session and those from which it comes, up to this program, which starts them all."""
    while process > 1:
        yield process
        if process == os.getpid():
            return
        try:
            words = Path(f"/proc/{process}/stat").read_text().rpartition(")")[2].split()
        except OSError:
            return
        yield int(words[3])
        process = int(words[1])


def waiting(port: int) -> Optional[int]:
    """How many connections to a port of 127.0.0.1 haven't been accepted yet, or None if the system doesn't say. It is
    cheap, unlike the tables of all connections.

    >>> with socket.create_server(("127.0.0.1", 0)) as server:
    ...     with socket.create_connection(server.getsockname()):
    ...         waiting(server.getsockname()[1]) in (1, None)
    True
    """
    names = struct.pack(">HH4s12x4s12x", port, 0, bytes([127, 0, 0, 1]), bytes(4)) + struct.pack("=III", 0, ANY, ANY)
    asked = struct.pack("=BBBBI", socket.AF_INET, socket.IPPROTO_TCP, 0, 0, ANY) + names
    try:
        with socket.socket(socket.AF_NETLINK, socket.SOCK_RAW, SOCK_DIAG) as line:
            line.settimeout(1)
            line.send(struct.pack("=IHHII", 16 + len(asked), BY_FAMILY, 1, 1, 0) + asked)
            answer = line.recv(4096)
    except OSError:
        return None
    # the head of 16 bytes, four bytes, the names, four bytes of the timer, and then the length of the queue
    known = len(answer) >= 76 and struct.unpack_from("=H", answer, 4)[0] == BY_FAMILY
    return struct.unpack_from("=I", answer, 72)[0] if known else None


def connections(port: int, count: Optional[int] = None) -> dict[str, int]:
    """The sockets that are connected to a port of 127.0.0.1, and the users whose they are. If it is known how many they
    are, the second table is read only if the first one has fewer: a table takes milliseconds."""
    found: dict[str, int] = {}
    for name in ("tcp", "tcp6"):
        if count is None or len(found) < count:
            with suppress(OSError):
                found.update(clients(Path(f"/proc/net/{name}").read_text(), port))
    return found


def holders(sockets: Mapping[str, int], programs: Sequence[int] = ()) -> list[tuple[Optional[int], int]]:
    """For each of these sockets a process that has it, if it may be seen, and the user whose it is. These processes are
    looked at first, since mostly it is one of them."""
    left = dict(sockets)
    found: list[tuple[Optional[int], int]] = []
    for process in itertools.chain(programs, all_processes()):
        for held in sockets_of(process) & set(left):
            found.append((process, left.pop(held)))
        if not left:
            break  # before all processes are listed
    return found + [(None, user) for user in left.values()]


def all_processes() -> Iterator[int]:
    yield from sorted(int(name) for name in os.listdir("/proc") if name.isdecimal())


def seats_of(held: Sequence[tuple[Optional[int], int]], programs: Sequence[int]) -> list[int]:
    """The seats whose programs have connections, seat 1 first."""
    owners = [set(family(process)) if process else set() for process, _ in held]
    return [seat for seat, program in enumerate(programs, 1) if any(program in each for each in owners)]


def wrong_seats(
    held: Sequence[tuple[Optional[int], int]], programs: Sequence[int], wrapped: bool = False
) -> Union[int, str, None]:
    """What is wrong if these programs, seat 1 first, should have one connection each: the seat whose program has more
    than one, or in words that a process is none of theirs. If programs are wrapped, those of another user can't be seen,
    and each one that has no other may have one such connection.

    >>> wrong_seats([(None, 7), (None, 7)], [1, 1], wrapped=True)
    >>> wrong_seats([(None, 7)], [1])
    "a process that can't be seen, of user 7, connected"
    """
    seats = []
    hidden = []
    for process, user in held:
        if process is None:
            hidden.append(user)
            continue
        line = [seat for seat, program in enumerate(programs, 1) if program in family(process)]
        if not line:
            return f"process {process}, which is of no program of this match, connected"
        seats.append(line[0])
    for seat in seats:
        if seats.count(seat) > 1:
            return seat
    others = [user for user in hidden if user != os.getuid()] if wrapped else []
    if len(others) < len(hidden) or len(hidden) > len(programs) - len(seats):
        return f"a process that can't be seen, of user {hidden[0]}, connected"
    return None
