"""The refusals of a description (docs/LANGUAGE.md, "Refusals")."""


class Refused(Exception):
    """A description is refused; `line` is what `rbg check` prints."""

    def __init__(self, layer, number, name, *details):
        words = ["refused", layer, number, name, *details]
        self.line = " ".join(str(word) for word in words)
        super().__init__(self.line)
