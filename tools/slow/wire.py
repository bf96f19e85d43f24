"""The spelling of numbers and moves (docs/PROTOCOL.md, "Messages")."""

import re

MOST_PAIRS = 200
MOST_64_BITS = 2**64 - 1
NUMBER = re.compile(rb"0|[1-9][0-9]{0,19}")
SHORT = re.compile(rb"0|[1-9][0-9]{0,8}")


def number(word):
    """A number below 2^64, or None if the bytes are none."""
    if NUMBER.fullmatch(word) and int(word) <= MOST_64_BITS:
        return int(word)
    return None


def numbers(words):
    """The numbers of some words, or None if one of them is none."""
    read = [number(word) for word in words]
    return None if None in read else read


def pairs(text):
    """The pairs of a text with single spaces, at least one, or None. In pairs a number has at most nine digits."""
    words = text.split(b" ")
    if len(words) % 2 == 1 or not all(SHORT.fullmatch(word) for word in words):
        return None
    read = [int(word) for word in words]
    return list(zip(read[::2], read[1::2]))


def spell(pairs):
    return " ".join(f"{vertex} {position}" for vertex, position in pairs)
