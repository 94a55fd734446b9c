"""What the ranks of the model hold: requests, what a blocked call waits for, and what statements named."""

from dataclasses import dataclass, field

import errors
import reading
import reasons
from communicators import WORLD
from frames import Session
from reading import ANY

# What the null process answers, and what stands in place of a message whose sender's rank was started anew.
FROM_NULL = "source null tag any count 0"
REPLACED = "replaced"


@dataclass
class Request:
    """A send or a receive that was started, or a message that was taken out; `outcome` is None while it isn't finished."""

    serial: int
    outcome: object = None
    buffer_name: object = None
    type: object = None
    values: object = None
    places: object = None  # where in the buffer a receive puts its data, in order
    source: object = None  # a rank of world
    tag: object = None
    context: int = WORLD
    group: object = None  # the ranks by which a status names the source; None: those of world
    target: object = None  # where a send goes, a rank of world
    taken: object = None  # a message that was taken out and isn't received; `REPLACED` where its sender's rank was started anew

    def is_receive(self):
        return self.values is not None


@dataclass
class Waiting:
    """What a blocked call waits for: `one`, `any` or `all` of these requests; None is the null request."""

    kind: str
    requests: list


@dataclass
class Rank:
    """One endpoint: what its engine holds."""

    number: int
    incarnation: int
    communicators: object
    clock: int = 0
    known: dict = field(default_factory=dict)  # the incarnation of each rank that isn't known at 0
    sessions: dict = field(default_factory=dict)
    posted: list = field(default_factory=list)  # receives that wait, the oldest first
    unexpected: list = field(default_factory=list)  # messages that wait, the oldest first
    requests: dict = field(default_factory=dict)
    serials: int = 0
    blocked: object = None  # what the blocked call waits for

    def incarnation_of(self, rank):
        return self.incarnation if rank == self.number else self.known.get(rank, 0)

    def session(self, rank):
        return self.sessions.setdefault(rank, Session())

    def is_blocked(self):
        """Whether an earlier call is blocked: on requests, or in a collective."""
        return self.blocked is not None or self.communicators.is_busy()

    def has_replaced(self, member):
        """Whether a member of a communicator, a rank with its incarnation, is known at another incarnation (own)."""
        return self.incarnation_of(member[0]) != member[1]


@dataclass
class Names:
    """What one rank's statements named. A request that was answered is None, which is the null request; a message that was received is
    None, and that of the null process `NULL`; a communicator is its place, or None, which is MPI_COMM_NULL."""

    buffers: dict = field(default_factory=dict)
    layouts: dict = field(default_factory=dict)
    requests: dict = field(default_factory=dict)
    messages: dict = field(default_factory=dict)
    communicators: dict = field(default_factory=dict)
    lent: set = field(default_factory=set)

    def buffer(self, name):
        """The buffer of this name, which is set and not lent."""
        self.check_settable(name)
        return self.found(self.buffers, name)

    def check_settable(self, name):
        """A buffer that is to be set isn't lent."""
        if name in self.lent:
            raise NotSet(reasons.lent(name))

    @staticmethod
    def found(kept, name):
        if name not in kept:
            raise NotSet(reasons.unset(name))
        return kept[name]


class NotSet(Exception):
    """A name isn't set, or is that of a buffer that is lent; its text says so."""


class RefusedEvent(Exception):
    """An event is refused with this number; with 29 a reset may go out."""

    def __init__(self, number, emitted=()):
        super().__init__(number)
        self.number = number
        self.emitted = emitted


def accepts(receive, message):
    return receive.context == message.context and receive.source in (ANY, message.source) and receive.tag in (ANY, message.tag)


def fault_of_match(receive, message):
    """The number that a receive ends with where it gets nothing of the message that it was matched with (MPI 3.1, 3.2.4 and 3.3.1)."""
    if receive.type != message.type:
        return errors.TYPE
    return errors.TRUNCATE if len(message.values) > len(receive.places) else None


def status_of(receive, message):
    """The status of a receive, which names the source by its rank in the communicator (MPI 3.1, 3.2.5)."""
    source = message.source if receive.group is None else receive.group.index(message.source)
    return f"source {source} tag {message.tag} count {len(message.values)}"


def fill(receive, message, values):
    """A receive ends with these elements of its message in its first places."""
    receive.outcome = status_of(receive, message)
    receive.values = list(receive.values)
    for place, value in zip(receive.places, values):
        receive.values[place] = value


def text_of(request):
    """The text of a finished request."""
    if request.values is None:
        return request.outcome
    return " ".join([request.outcome, "data"] + [reading.text(request.type, value) for value in request.values])
