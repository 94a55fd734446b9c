"""What goes between ranks: messages, frames, datagrams, and the sessions that number frames."""

from dataclasses import dataclass, field

from reading import TYPES

PIECE_BYTES = 1024
WINDOW = 64
RESEND_AFTER = 20


@dataclass
class Message:
    """What a send puts on its way: its envelope and its elements, and the number of its transfer where it is only announced. The source
    is a rank of world, whatever the context."""

    source: int
    incarnation: int
    context: int
    tag: int
    type: str
    values: list
    transfer: object = None
    waiting: object = None  # the send to the own rank that is finished once a receive has the message


@dataclass
class Frame:
    """What goes under one number of a session: a message or a notice of a collective (EAGER), the announcement of a message (RTS), the
    answer to one (CTS), or some of the elements of one (DATA), of which the first stands at `start` in the message."""

    kind: str
    message: object = None
    transfer: object = None
    is_wanted: bool = False
    start: int = 0
    values: list = field(default_factory=list)


@dataclass
class Collection:
    """A receive that was matched with an announced message, and what has come of its data. A notice has no receive: it is collected
    when it is announced."""

    receive: object
    message: object
    values: list = field(default_factory=list)

    def due(self):
        """How many elements the next frame of data has."""
        return min(len(self.message.values) - len(self.values), PIECE_BYTES // TYPES[self.message.type][0])


@dataclass
class Datagram:
    """What an engine emitted, from one endpoint to another; an acknowledgement and a reset have no frame."""

    source: int
    source_incarnation: int
    target: int
    target_incarnation: int
    kind: str
    sequence: int
    frame: object = None
    told: tuple = ()  # what an acknowledgement says is held: numbers behind its own

    def text(self, number):
        return (f"+{number} {self.source}.{self.source_incarnation}>{self.target}.{self.target_incarnation}"
                f" {self.kind} {self.sequence}")


@dataclass
class Session:
    """One rank's side of what passes between its endpoint and another one, in both directions."""

    frames: list = field(default_factory=list)  # every frame that was accepted for sending, by its sequence
    sent_at: list = field(default_factory=list)  # when each frame that came into the window was last sent
    lowest: int = 0  # the lowest number that isn't acknowledged
    marked: set = field(default_factory=set)  # the numbers that the other side said it holds
    next: int = 0  # the number that is taken next from the other side
    held: dict = field(default_factory=dict)  # frames of later numbers, which wait for their turn
    transfers: int = 0  # how many messages were announced to the other side
    unanswered: dict = field(default_factory=dict)  # those without an answer: the send and its message, by the transfer
    announced: int = 0  # how many messages the other side announced
    collections: dict = field(default_factory=dict)  # the receives whose data are to come, by the transfer

    def fill_window(self, now):
        """Emits what has room in the window, and gives the numbers."""
        new = range(len(self.sent_at), min(len(self.frames), self.lowest + WINDOW))
        self.sent_at += [now] * len(new)
        return new

    def due(self, now):
        """The numbers of the frames that are sent again at this time."""
        return [n for n in range(self.lowest, len(self.sent_at)) if n not in self.marked and now - self.sent_at[n] >= RESEND_AFTER]

    def acknowledge(self, number, told):
        """All below this number were taken, and those that are told are held; one that is older than the last says nothing."""
        if number >= self.lowest:
            self.lowest = number
            self.marked = {n for n in self.marked | set(told) if n > number}


def pieces_of(message):
    """The frames of data of an announced message, in order."""
    step = PIECE_BYTES // TYPES[message.type][0]
    return [Frame("DATA", transfer=message.transfer, start=start, values=message.values[start:start + step])
            for start in range(0, len(message.values), step)]


def byte_count(message):
    return len(message.values) * TYPES[message.type][0]
