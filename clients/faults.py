"""What rbg says if the system refuses it a file, a port or a connection."""

import contextlib
import resource
import socket
import subprocess

from served import PATIENCE, Match, Wrong, end, free_port, listen

LOG_ROOM = 100  # the bytes of a file that gets no longer; a log has more after one long message
FILES_ROOM = 5  # the open files of a process that can accept one connection: three streams, its listener and this one


def check_faults(match: Match) -> int:
    """What can't be opened is named on standard error. Returns how many such faults were looked at."""
    game, record, none = str(match.game), str(match.record), str(match.log.with_name("none"))
    before = match.record.read_text()
    with socket.create_server(("127.0.0.1", 0)) as server:
        taken, free = str(server.getsockname()[1]), str(free_port())
        faults = [
            (["serve", game, "--port", taken], taken),
            (["serve", none, "--port", free], none),
            (["serve", game, "--port", free, "--log", record], record),
            (["serve", game, "--port", free, "--log", none + "/log"], none + "/log"),
            (["serve", game, "--port", free, "--resume", none], none),
            (["hall", game, "--port", taken], taken),
            (["play", "--port", free], free),
            (["replay", game, none], none),
        ]
        for words, name in faults:
            done = subprocess.run([match.rbg, *words], capture_output=True, text=True)
            if (done.returncode, done.stdout) != (3, "device\n") or name not in done.stderr:
                raise Wrong(f"{words}: status {done.returncode}, {done.stdout}{done.stderr}")
    if match.record.read_text() != before:
        raise Wrong("a file was written over by a log")
    return len(faults)


def fail_at(match: Match, limit: int, room: int, *words: str) -> str:
    """The last news on standard error of a match in which the system gives the referee no more than this of something, and
    each player says a long message."""
    referee, port = listen([match.rbg, "serve", str(match.game), *words], preexec_fn=lambda: resource.setrlimit(limit, (room, room)))
    with contextlib.ExitStack() as connections:
        try:
            with contextlib.suppress(OSError):  # the referee may have ended
                for _ in range(2):
                    connection = connections.enter_context(socket.create_connection(("127.0.0.1", port)))
                    connection.sendall(b"x" * LOG_ROOM + b"\0")
            output, reported = referee.communicate(timeout=PATIENCE)
        finally:
            end(referee, [])
    if (referee.returncode, output) != (3, "device\n"):
        raise Wrong(f"if something can't be had: status {referee.returncode}, {output}{reported}")
    return reported


def check_failures(match: Match) -> int:
    """A log that can't be written is named on standard error, and so is a connection that can't be accepted. Returns how
    many such failures were looked at."""
    log = match.log.with_name("full.log")
    reported = fail_at(match, resource.RLIMIT_FSIZE, LOG_ROOM, "--log", str(log))
    if f"can't write the log {log}: " not in reported:
        raise Wrong(f"a log that can't be written: {reported}")
    if len(log.read_bytes()) > LOG_ROOM or not log.read_bytes().startswith(b"config "):
        raise Wrong("a log that can't be written is longer than it may be, or doesn't begin as a log")
    reported = fail_at(match, resource.RLIMIT_NOFILE, FILES_ROOM)
    if "can't accept a connection: " not in reported:
        raise Wrong(f"a connection that can't be accepted: {reported}")
    return 2
