"""A talk with `rbg_author lsp`: messages as an editor sends them, and the answers."""

import json
import re
import subprocess
import time
from pathlib import Path
from typing import Any

# What the answer to a request is if it takes longer.
SECONDS = 120


LINE_END = re.compile(r"\r\n|\r|\n")


class Failed(Exception):
    """The server says what it is not to say, or nothing."""


def framed(body: bytes) -> bytes:
    r"""A message with its header.

    >>> framed(b"{}")
    b'Content-Length: 2\r\n\r\n{}'
    """
    return b"Content-Length: %d\r\n\r\n" % len(body) + body


def columns(text: str) -> int:
    r"""How many units of UTF-16 a text has.

    >>> columns("a\u00e9\u2192\U0001f3b2")
    5
    """
    return len(text.encode("utf-16-le")) // 2


def position(text: str, at: int) -> dict[str, int]:
    r"""The position of an index of a text.

    >>> position("ab\n\U0001f3b2c", 4)
    {'line': 1, 'character': 2}
    """
    lines = LINE_END.split(text[:at])
    return {"line": len(lines) - 1, "character": columns(lines[-1])}


def index(text: str, place: dict[str, int]) -> int:
    r"""The index of a position of a text.

    >>> index("ab\n\U0001f3b2c", {"line": 1, "character": 2})
    4
    """
    starts = [0, *(it.end() for it in LINE_END.finditer(text))]
    left, at = place["character"], starts[place["line"]]
    while left > 0:
        left -= columns(text[at])
        at += 1
    return at


def applied(text: str, edits: list[dict[str, Any]]) -> str:
    """A text with the edits of an answer made, from the last one to the first."""
    spans = [(index(text, it["range"]["start"]), index(text, it["range"]["end"]), it["newText"]) for it in edits]
    for start, end, new in sorted(spans, reverse=True):
        text = text[:start] + new + text[end:]
    return text


class Talk:
    """A server that runs, and what it has said."""

    def __init__(self, program: Path) -> None:
        self.child = subprocess.Popen([program, "lsp"], stdin=subprocess.PIPE, stdout=subprocess.PIPE, stderr=subprocess.PIPE)
        self.last = 0
        self.notices: list[dict[str, Any]] = []

    def write(self, data: bytes) -> None:
        assert self.child.stdin
        self.child.stdin.write(data)
        self.child.stdin.flush()

    def send(self, **message: Any) -> None:
        self.write(framed(json.dumps({"jsonrpc": "2.0", **message}).encode()))

    def read(self) -> dict[str, Any]:
        """The next message of the server."""
        assert self.child.stdout
        length = None
        while (line := self.child.stdout.readline()) != b"\r\n":
            if not line:
                raise Failed("the server has ended")
            name, _, value = line.partition(b":")
            if name.lower() == b"content-length":
                length = int(value)
        if length is None:
            raise Failed("a header without a length")
        body = self.child.stdout.read(length)
        return json.loads(body.decode("utf-8"))

    def notify(self, method: str, params: Any) -> None:
        self.send(method=method, params=params)

    def answer(self, method: str, params: Any) -> dict[str, Any]:
        """The whole answer to a request. Notices that come before are kept."""
        self.last += 1
        self.send(id=self.last, method=method, params=params)
        while True:
            message = self.read()
            if "method" in message:
                self.notices.append(message)
            elif message["id"] != self.last:
                raise Failed(f"an answer to {message['id']}, not to {self.last}")
            else:
                return message

    def ask(self, method: str, params: Any) -> Any:
        """The result of a request."""
        message = self.answer(method, params)
        if "error" in message:
            raise Failed(f"{method}: {message['error']['message']}")
        return message["result"]

    def notice(self, uri: str, version: int) -> list[dict[str, Any]]:
        """The faults and warnings of this version of a document."""
        while True:
            message = self.notices.pop(0) if self.notices else self.read()
            if message.get("method") != "textDocument/publishDiagnostics":
                raise Failed(f"{message} in place of a notice")
            if message["params"]["uri"] == uri and message["params"]["version"] == version:
                return message["params"]["diagnostics"]

    def begin(self) -> dict[str, Any]:
        result = self.ask("initialize", {"processId": None, "rootUri": None, "capabilities": {}})
        self.notify("initialized", {})
        return result

    def open(self, uri: str, text: str, version: int = 1) -> list[dict[str, Any]]:
        item = {"uri": uri, "languageId": "rbg", "version": version, "text": text}
        self.notify("textDocument/didOpen", {"textDocument": item})
        return self.notice(uri, version)

    def change(self, uri: str, version: int, changes: list[dict[str, Any]]) -> tuple[list[dict[str, Any]], float]:
        """Makes changes; the faults and warnings that are sent, and after how many seconds."""
        began = time.perf_counter()
        document = {"uri": uri, "version": version}
        self.notify("textDocument/didChange", {"textDocument": document, "contentChanges": changes})
        reported = self.notice(uri, version)
        return reported, time.perf_counter() - began

    def close(self, uri: str) -> None:
        self.notify("textDocument/didClose", {"textDocument": {"uri": uri}})
        message = self.notices.pop(0) if self.notices else self.read()
        if message["params"] != {"uri": uri, "diagnostics": []}:
            raise Failed(f"{message} as a document is closed")

    def ended(self) -> tuple[int, str]:
        """The status with which the server ends, and what it says on standard error."""
        assert self.child.stdin and self.child.stderr
        self.child.stdin.close()
        status = self.child.wait(SECONDS)
        return status, self.child.stderr.read().decode()

    def end(self) -> int:
        """Ends the talk as an editor does."""
        self.ask("shutdown", None)
        self.notify("exit", None)
        return self.ended()[0]
