"""What the package asks of the library `librbg.so`: states of play with no process between. This class alone knows the calls
of `rbg.h`.

>>> if find_library() is None:
...     print("2 8 True [50, 50]")
... else:
...     with open("crates/rbg_games/data/tictactoe.rbg", "rb") as file:
...         state = Library.load().open(file.read())
...     key = state.key
...     state.make("4 9 4 10")
...     player, count = state.player, state.count()
...     state.undo()
...     print(player, count, state.key == key, state.scores)
2 8 True [50, 50]
"""

import ctypes
import ctypes.util
import os
import struct
import sys
from ctypes import POINTER, Structure, byref, c_size_t, c_uint8, c_uint16, c_uint32, c_uint64, c_void_p
from functools import lru_cache
from typing import Any, Callable, Optional

from rbg.backend import Refused
from rbg.places import MOST, Shape, spelt

WORDS = {
    1: "empty", 2: "memory", 3: "over", 4: "keeper", 5: "illegal", 6: "start", 7: "small", 8: "form", 9: "place",
    16: "text", 17: "macro", 18: "syntax", 19: "game",
}  # fmt: skip
SMALL = 7
LAYERS = 16  # an answer from here on is a layer's, which refuses a description
KEPT = 1 << 16  # so many spellings of moves are kept
PLAYERS, PIECES, VARIABLES, DIRECTIONS = range(4)
ROOM = 4096  # so many numbers of moves have room at first
FIRST = 0 if sys.byteorder == "little" else 3  # the byte of a number that has all of it, if it is below 256
NOWHERE = 2**32 - 1  # the number of no vertex
KINDS = ["shift", "on", "off", "assign", "compare", "switch", "positive", "negative"]


class Handle(Structure):
    """`rbg_state` of the header."""

    _fields_ = [("inside", c_void_p)]


STATE, NUMBER = POINTER(Handle), POINTER(c_uint64)
PAIRS = POINTER(c_uint32)  # of each `rbg_pair` two numbers: the vertex and the position
CALLS: dict[str, list[Any]] = {
    "rbg_open": [c_void_p, c_size_t, STATE],
    "rbg_begin": [c_void_p, c_size_t, STATE],
    "rbg_copy": [STATE, STATE],
    "rbg_unpack": [STATE, c_void_p, c_size_t, STATE],
    "rbg_pack": [STATE, POINTER(c_uint8), c_size_t, NUMBER],
    "rbg_player": [STATE, POINTER(c_uint32)],
    "rbg_key": [STATE, NUMBER],
    "rbg_board": [STATE, POINTER(c_uint16), c_size_t, NUMBER],
    "rbg_values": [STATE, POINTER(c_uint32), c_size_t, NUMBER],
    "rbg_scores": [STATE, NUMBER, c_size_t, NUMBER],
    "rbg_bounds": [STATE, POINTER(c_uint32), c_size_t, NUMBER],
    "rbg_edges": [STATE, POINTER(c_uint32), c_size_t, NUMBER],
    "rbg_action": [STATE, c_uint64, POINTER(c_uint32), POINTER(c_uint16), c_size_t, NUMBER],
    "rbg_moves": [STATE, c_void_p, c_size_t, c_void_p],
    "rbg_name": [STATE, c_uint32, c_uint64, POINTER(c_uint8), c_size_t, NUMBER],
    "rbg_find_moves": [STATE, NUMBER],
    "rbg_make_found": [STATE, c_uint64],
    "rbg_make": [STATE, PAIRS, c_size_t],
    "rbg_hear": [STATE, PAIRS, c_size_t],
    "rbg_undo": [STATE],
    "rbg_playouts": [STATE, c_uint64, c_uint64, NUMBER, c_size_t, NUMBER],
    "rbg_sample": [STATE, STATE, c_uint64, c_uint64, c_void_p, c_size_t, c_void_p],
}


def find_library(path: Optional[str] = None) -> Optional[str]:
    """The library: the one that is given, that of the variable RBG_LIBRARY, of which an empty one means none, `./librbg.so`,
    or the system's. One that is named has to be there.

    >>> find_library("/nowhere/librbg.so")
    Traceback (most recent call last):
    FileNotFoundError: no library /nowhere/librbg.so
    """
    named = path if path is not None else os.environ.get("RBG_LIBRARY")
    if named == "":
        return None
    if named is not None:
        if not os.path.isfile(named):
            raise FileNotFoundError(f"no library {named}")
        return os.path.abspath(named)
    return os.path.abspath("librbg.so") if os.path.exists("librbg.so") else ctypes.util.find_library("rbg")


class Library:
    """The library, loaded."""

    loaded: dict[str, "Library"] = {}

    def __init__(self, path: str):
        self.calls = ctypes.CDLL(path)
        for name, arguments in CALLS.items():
            call = getattr(self.calls, name)
            call.argtypes, call.restype = arguments, c_uint32
        self.calls.rbg_free.argtypes, self.calls.rbg_free.restype = [STATE], None
        self.calls.rbg_fault.argtypes, self.calls.rbg_fault.restype = [c_void_p, c_size_t, NUMBER, NUMBER], c_uint32

    @classmethod
    def load(cls, path: Optional[str] = None) -> "Library":
        """The library that is found. It is loaded once."""
        found = find_library(path)
        if found is None:
            raise FileNotFoundError("no librbg.so: make lib leaves one, or set RBG_LIBRARY")
        if found not in cls.loaded:
            cls.loaded[found] = cls(found)
        return cls.loaded[found]

    def open(self, text: bytes) -> "Held":
        """The state to which the keeper's first moves lead."""
        return self.opened("rbg_open", text)

    def begin(self, text: bytes) -> "Held":
        """The state where the rules begin."""
        return self.opened("rbg_begin", text)

    def fault(self, text: bytes) -> tuple[int, int, Optional[int]]:
        """Why a text is no description: the answer of the layer that refuses it, the number of the fault, and the byte at which
        it is, if it is at one. The first is 0 if it is a description.

        >>> library = Library.load() if find_library() else None
        >>> library.fault(b"#players = white(1)\\n#pieces = &") if library else (16, 3, 30)
        (16, 3, 30)
        """
        number, offset = c_uint64(), c_uint64(2**64 - 1)
        layer = self.calls.rbg_fault(array_of(text), len(text), byref(number), byref(offset))
        return layer, number.value, None if offset.value == 2**64 - 1 else offset.value

    def opened(self, name: str, text: bytes) -> "Held":
        held = Held(self)
        result = getattr(self.calls, name)(array_of(text), len(text), held.here)
        if result >= LAYERS:
            _, number, offset = self.fault(text)
            raise Refused(WORDS[result], f"{number}" if offset is None else f"{number} at byte {offset}")
        held.answer(name, result)
        return held


def array_of(text: bytes) -> Any:
    """The bytes as an array of C, which isn't empty."""
    return (c_uint8 * max(1, len(text))).from_buffer_copy(text or b"\0")


class Rooms:
    """Buffers that the states of a game share, since one thread uses them all."""

    def __init__(self) -> None:
        self.sizes: dict[str, int] = {}  # how many items a call has stored, at most
        self.needed = c_uint64()
        self.needs = byref(self.needed)
        self.widen(ROOM)

    def widen(self, room: int) -> None:
        """Makes room for so many numbers of moves."""
        self.room, self.numbers = room, (c_uint32 * room)()
        self.of_bytes = memoryview(self.numbers).cast("B")

    def stored(self) -> bytes:
        """The numbers that a call has stored."""
        return self.of_bytes[: 4 * self.needed.value].tobytes()


class Held:
    """A state of play, behind its handle."""

    def __init__(self, library: Library, rooms: "Optional[Rooms]" = None):
        self.library, self.calls, self.handle = library, library.calls, Handle()
        self.here = byref(self.handle)
        self.found: Optional[list[bytes]] = None  # the pairs of the legal moves, if they were asked for
        self.rooms = rooms or Rooms()
        self.made = 0  # how many moves can be undone

    def __del__(self) -> None:
        self.calls.rbg_free(self.here)

    @staticmethod
    def answer(name: str, result: int) -> None:
        """Raises what isn't done."""
        if result:
            raise Refused(WORDS.get(result, str(result)), name)

    def ask(self, name: str, *arguments: Any) -> None:
        """One call."""
        self.answer(name, getattr(self.calls, name)(self.here, *arguments))

    def number(self, name: str, kind: Any = c_uint64) -> int:
        """A number that a call stores."""
        value = kind()
        self.ask(name, byref(value))
        return int(value.value)

    def items(self, name: str, kind: Any, *arguments: Any) -> list[Any]:
        """The items that a call stores. There is room for as many as it stored before, and then for as many as it asks for."""
        rooms, call, size = self.rooms, getattr(self.calls, name), self.rooms.sizes.get(name, 1)
        items = (kind * size)()
        result = call(self.here, *arguments, items, size, rooms.needs)
        if result == SMALL:
            size = rooms.sizes[name] = rooms.needed.value
            items = (kind * size)()
            result = call(self.here, *arguments, items, size, rooms.needs)
        self.answer(name, result)
        return items[: rooms.needed.value]

    @property
    def player(self) -> int:
        """The number of the player to move, from 1; 0 is the keeper."""
        return self.number("rbg_player", c_uint32)

    @property
    def key(self) -> int:
        """A number of 64 bits that is the same for equal places, and hardly ever for others."""
        return self.number("rbg_key")

    @property
    def board(self) -> list[int]:
        """The number of the piece on each vertex."""
        return self.items("rbg_board", c_uint16)

    @property
    def values(self) -> list[int]:
        """What the variables hold. The first are the players' scores."""
        return self.items("rbg_values", c_uint32)

    @property
    def scores(self) -> list[int]:
        """What the players have scored."""
        return self.items("rbg_scores", c_uint64)

    def names(self, kind: int) -> list[str]:
        """The names of the players, the pieces, the variables or the directions."""
        found: list[str] = []
        while True:
            try:
                found.append(bytes(self.items("rbg_name", c_uint8, kind, len(found))).decode())
            except Refused:
                return found

    def shape(self) -> Shape:
        """The bounds, directions, edges and actions of the game."""
        directions = self.names(DIRECTIONS)
        edges, width = self.items("rbg_edges", c_uint32), len(directions)
        return Shape(
            bounds=self.items("rbg_bounds", c_uint32),
            directions=directions,
            edges=[[None if to == NOWHERE else to for to in edges[at : at + width]] for at in range(0, len(edges), width or 1)],
            actions=self.actions(),
        )

    def actions(self) -> list[tuple[str, list[int]]]:
        """The kind of the action at each position, with the numbers of what it names."""
        found: list[tuple[str, list[int]]] = []
        kind = c_uint32()
        while True:
            try:
                numbers = self.items("rbg_action", c_uint16, len(found) + 1, byref(kind))
            except Refused:
                return found
            found.append((KINDS[kind.value], numbers))

    def count(self) -> int:
        """How many legal moves there are."""
        return self.number("rbg_find_moves")

    def moves(self) -> list[str]:
        """The legal moves, as in messages and in the order of their pairs."""
        if self.found is None:
            self.found = cut(self.numbers())
        return [TEXTS[pairs] for pairs in sorted(self.found, key=ORDERS.__getitem__)]

    def numbers(self) -> bytes:
        """The legal moves as numbers of four bytes: of each how many pairs it has, and these."""
        rooms, call = self.rooms, self.calls.rbg_moves
        result = call(self.here, rooms.numbers, rooms.room, rooms.needs)
        if result == SMALL:
            rooms.widen(rooms.needed.value)
            result = call(self.here, rooms.numbers, rooms.room, rooms.needs)
        self.answer("rbg_moves", result)
        return rooms.stored()

    def make(self, move: str) -> None:
        """Makes a move, and the keeper's moves after it."""
        numbers, length, pairs = pairs_of(move)
        if self.found is not None and pairs in self.found:
            self.answer(move, self.calls.rbg_make_found(self.here, self.found.index(pairs)))
        else:
            self.answer(move, self.calls.rbg_make(self.here, numbers, length))
        self.found, self.made = None, self.made + 1

    def hear(self, move: str) -> None:
        """Makes a move as a referee passes it on."""
        self.ask("rbg_hear", *pairs_of(move)[:2])
        self.found, self.made = None, 0

    def undo(self) -> None:
        """Undoes the last move of a player."""
        self.ask("rbg_undo")
        self.found, self.made = None, self.made - 1

    def copy(self) -> "Held":
        """A copy, from which no move can be undone."""
        copy = Held(self.library, self.rooms)
        self.ask("rbg_copy", copy.here)
        return copy

    def pack(self) -> bytes:
        """The place as bytes."""
        return bytes(self.items("rbg_pack", c_uint8))

    def unpack(self, packed: bytes) -> "Held":
        """The state at the place of these bytes in this game, from which no move can be undone."""
        to = Held(self.library, self.rooms)
        self.ask("rbg_unpack", array_of(packed), len(packed), to.here)
        return to

    def sample(self, most: int, seed: int) -> "tuple[Held, list[str]]":
        """A copy on which at most this many random moves were made, and these."""
        if not 0 < most <= MOST:
            raise Refused("form")
        to, rooms = Held(self.library, self.rooms), self.rooms
        result = self.calls.rbg_sample(self.here, to.here, seed, most, rooms.numbers, rooms.room, rooms.needs)
        if result == SMALL:
            rooms.widen(rooms.needed.value)
            result = self.calls.rbg_sample(self.here, to.here, seed, most, rooms.numbers, rooms.room, rooms.needs)
        self.answer("rbg_sample", result)
        moves = [TEXTS[pairs] for pairs in cut(rooms.stored())]
        to.made = len(moves)
        return to, moves

    def playouts(self, seed: int, count: int) -> list[list[int]]:
        """A row for each ending of random matches: how many ended so, and the scores. Those that were stopped have none."""
        needed, width = c_uint64(), len(self.scores) + 1
        if not 0 < count <= MOST:
            raise Refused("form")
        room = min(count, 64) * width
        rows = (c_uint64 * room)()
        result = self.calls.rbg_playouts(self.here, seed, count, rows, room, byref(needed))
        if result == SMALL:
            room = needed.value
            rows = (c_uint64 * room)()
            result = self.calls.rbg_playouts(self.here, seed, count, rows, room, byref(needed))
        self.answer("rbg_playouts", result)
        return [list(rows[at : at + width]) for at in range(0, needed.value, width)]


def cut(numbers: bytes) -> list[bytes]:
    """The pairs of each of the moves that `rbg_moves` has stored.

    >>> [struct.unpack(f"{len(pairs) // 4}I", pairs) for pairs in cut(struct.pack("8I", 1, 4, 9, 2, 4, 9, 4, 10))]
    [(4, 9), (4, 9, 4, 10)]
    """
    found, at, total = [], 0, len(numbers)
    while at < total:
        end = at + 4 + 8 * numbers[at + FIRST]
        found.append(numbers[at + 4 : end])
        at = end
    return found


class Kept(dict[bytes, str]):
    """What was made of the pairs of moves, which are met again and again."""

    def __init__(self, make: Callable[..., str]):
        super().__init__()
        self.make = make

    def __missing__(self, pairs: bytes) -> str:
        if len(self) >= KEPT:
            self.clear()
        made = self[pairs] = self.make(struct.unpack(f"{len(pairs) // 4}I", pairs))
        return made


# The texts of moves, and others by which they are in the order of their pairs.
TEXTS = Kept(lambda numbers: " ".join(map(str, numbers)))
ORDERS = Kept(lambda numbers: struct.pack(f">{len(numbers)}I", *numbers).decode("latin-1"))


@lru_cache(KEPT)
def pairs_of(move: str) -> tuple[Any, int, bytes]:
    """The numbers of a move's pairs, which nobody changes, how many pairs they are, and the bytes of the numbers.

    >>> numbers, length, pairs = pairs_of("4 9 4 10")
    >>> list(numbers), length, TEXTS[pairs]
    ([4, 9, 4, 10], 2, '4 9 4 10')
    >>> moves = [pairs_of(move)[2] for move in ("4 300", "4 9 4 10", "4 9")]
    >>> [TEXTS[pairs] for pairs in sorted(moves, key=ORDERS.__getitem__)]
    ['4 9', '4 9 4 10', '4 300']
    """
    numbers = list(map(int, spelt(move).split(" ")))
    array = (c_uint32 * len(numbers))(*numbers)
    return array, len(numbers) // 2, bytes(array)
