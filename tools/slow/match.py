"""A match (docs/PROTOCOL.md, "What happens in a match")."""

import play
import wire
from search import Over, Place

MOST_MOMENT = 18_446_744_073_705_951_615
MOST_MESSAGE = 4_096
MOST_KEEPER_MOVES = 1_000


class Match:
    """`sent` holds for each seat, from 1 on, the messages that it was sent, and `made` each move with its moment and its
    player. Once there is an `outcome`, events are ignored."""

    def __init__(self, game, text, turn, refusals, now):
        self.place = Place(game)
        self.seats = range(1, len(game.players) + 1)
        self.sent = {seat: [] for seat in self.seats}
        self.streams = {seat: Stream() for seat in self.seats}
        self.refused = {seat: 0 for seat in self.seats}
        self.turn, self.allowed = turn, refusals
        self.began = self.now = min(now, MOST_MOMENT)
        self.made = []
        self.outcome = None
        for seat in self.seats:
            self.send(seat, f"W{seat} {game.players[seat - 1]}")
            self.send(seat, f"G {len(text)}")  # as it is printed
            self.send(seat, f"L{turn} {refusals}")
        self.go_on()

    def send(self, seat, message):
        self.sent[seat].append(message)

    def send_all(self, message):
        for seat in self.seats:
            self.send(seat, message)

    @property
    def ended(self):
        return self.outcome is not None

    def end(self, message):
        self.send_all(message)
        self.outcome = message

    # Play

    def go_on(self):
        """Makes the keeper's moves until a player is to move who has a legal move; the turn begins now."""
        self.due = self.now + self.turn
        try:
            keeper_moves = 0
            while True:
                if self.place.mover() == play.KEEPER and keeper_moves == MOST_KEEPER_MOVES:
                    raise Over
                move = self.place.find_move()
                if move is None:
                    return self.end("E0 " + " ".join(map(str, self.place.scores())))
                if self.place.mover() != play.KEEPER:
                    return None
                self.make(move)
                keeper_moves += 1
        except Over:
            return self.end("E4")

    def make(self, pairs):
        self.made.append((self.now, self.place.mover(), pairs))
        self.place.make(pairs)
        self.send_all("M" + wire.spell(pairs))

    # Events

    def begins(self, moment):
        """Whether an event is handled further: not after the end, and not at or after the due moment."""
        if self.ended:
            return False
        self.now = max(self.now, min(moment, MOST_MOMENT))
        if self.now >= self.due:
            self.end(f"E1 {self.place.mover()}")
        return not self.ended

    def tick(self, moment):
        self.begins(moment)

    def stream_ends(self, seat, moment):
        if self.begins(moment) and seat in self.seats:
            for other in self.seats:
                if other != seat:
                    self.send(other, f"E3 {seat}")
            self.outcome = f"E3 {seat}"

    def piece(self, seat, moment, piece):
        if self.begins(moment) and seat in self.seats:
            for message in self.streams[seat].cut(piece):
                self.handle(seat, message)
                if self.ended:
                    return

    def handle(self, seat, message):
        """A message of a seat, or None for one that is too long."""
        if seat != self.place.mover():
            return self.refuse(seat, 2)
        too_long = message is None
        pairs = None if too_long or message[:1] != b"M" else wire.pairs(message[1:])
        if pairs is None:
            return self.refuse(seat, 1)
        if len(pairs) > wire.MOST_PAIRS:
            return self.refuse(seat, 4)
        try:
            legal = self.place.is_legal(pairs)
        except Over:
            return self.end("E4")
        if not legal:
            return self.refuse(seat, 3)
        self.make(pairs)
        return self.go_on()

    def refuse(self, seat, reason):
        self.send(seat, f"R{reason}")
        self.refused[seat] += 1
        if self.refused[seat] > self.allowed:
            self.end(f"E2 {seat}")


class Stream:
    """What a seat has said of a message that is not whole yet."""

    def __init__(self):
        self.begun = b""
        self.dropping = False

    def cut(self, piece):
        """The messages that become whole, each as it does, and None for one that becomes too long."""
        for byte in piece:
            if byte == 0:
                if not self.dropping:
                    message, self.begun = self.begun, b""
                    yield message
                self.dropping = False
            elif not self.dropping:
                self.begun += bytes([byte])
                if len(self.begun) > MOST_MESSAGE:
                    self.begun, self.dropping = b"", True
                    yield None
