"""Trials that are known to fail until what they ask for is in the program. Each is made all the same, and says so once it
doesn't fail any more: then its name is to be taken off."""

OPEN: set[str] = set()
