"""The one meaning of a script, computed plainly: no network, no clock, no order of arrival, and no limit of memory.

Ranks go on in turns, each as far as it can, until none may go on any more. Every send finishes at once, every message is received at
once by the first receive that accepts it, and a collective is left as soon as all those have entered for whom its member waits (MPI
3.1, 3.5 and 5.1). A script has one meaning if it receives from no `any`, tests nothing, waits for no first of several and cancels
nothing, and if no two members enter a collective differently. `crates/one_meaning` says the same in definitions.
"""

import pathlib
import sys
from dataclasses import dataclass, field

sys.path.insert(0, str(pathlib.Path(__file__).resolve().parents[2] / "random_worlds"))

import errors
from reading import TYPES

HIGHEST_TAG = 2**31 - 1
MOST_BYTES = 2**20
MOST_BLOCK_BYTES = 2**20 - 16
ROOTED = ("bcast", "gather", "scatter", "reduce")


class NoMeaning(Exception):
    """The script has no one meaning, for this reason."""


class Faulty(Exception):
    """The rank's line can't be done: a name isn't set, or its buffer is lent."""


class Refusal(Exception):
    """A call is refused with this number."""

    def __init__(self, number):
        super().__init__(f"error {number}")
        self.number = number


@dataclass
class Buffer:
    type: str
    values: list
    lent: bool = False


@dataclass
class Communicator:
    """Its context, which names it, and the ranks of world that are its members, in order."""

    context: tuple
    members: list


@dataclass
class Message:
    source: int
    context: tuple
    tag: int
    type: str
    values: list


@dataclass
class Request:
    """A send, which is finished, or a receive: whom it accepts, and the places of the buffer that it fills."""

    error: int = 0
    status: object = None
    finished: bool = True
    source: object = None
    tag: object = None
    comm: object = None
    buffer: object = None
    places: list = field(default_factory=list)

    def accepts(self, message):
        if self.finished or self.comm.context != message.context:
            return False
        return self.source == message.source and self.tag in ("any", message.tag)

    def take(self, message):
        """The receive ends with this message (3.2.4, 3.3.1)."""
        self.finished = True
        if self.buffer.type != message.type:
            self.error = errors.TYPE
        elif len(message.values) > len(self.places):
            self.error = errors.TRUNCATE
        else:
            for place, value in zip(self.places, message.values):
                self.buffer.values[place] = value
            self.status = (self.comm.members.index(message.source), message.tag, len(message.values))


@dataclass
class Entry:
    """With what a member entered a collective."""

    record: tuple
    values: list
    colour: object = None
    key: int = 0


class World:
    """All ranks: what was sent to each and not received, the receives of each that wait, and who entered which collective."""

    def __init__(self, size):
        self.pending = [[] for _ in range(size)]
        self.receives = [[] for _ in range(size)]
        self.entries = {}

    def send(self, target, message):
        """The message is received by the first receive that accepts it, or waits behind all that were sent before (3.5)."""
        for request in self.receives[target]:
            if request.accepts(message):
                self.receives[target].remove(request)
                request.take(message)
                return
        self.pending[target].append(message)

    def receive(self, rank, request):
        """The receive takes the first message that it accepts, or waits behind all receives that were started before (3.5)."""
        for message in self.pending[rank]:
            if request.accepts(message):
                self.pending[rank].remove(message)
                request.take(message)
                return
        self.receives[rank].append(request)

    def enter(self, context, number, rank, entry):
        entered = self.entries.setdefault((context, number), {})
        if any(other.record != entry.record for other in entered.values()):
            raise NoMeaning("members enter a collective differently")
        entered[rank] = entry

    def entered(self, context, number, ranks):
        """With what these ranks entered, once all of them have."""
        entered = self.entries[context, number]
        return [entered[rank] for rank in ranks] if all(rank in entered for rank in ranks) else None


def awaited(kind, root, rank, members):
    """For whom a member waits (5.3 to 5.9, 6.4.2)."""
    if kind in ("bcast", "scatter"):
        return [members[root]]
    if kind in ("gather", "reduce"):
        return members if members[root] == rank else [rank]
    return members


def new_groups(kind, members, entries):
    """The groups of the communicators that a collective makes: for a split one for each colour, by keys and old ranks (6.4.2)."""
    if kind == "dup":
        return [members]
    given = [(entry.colour, entry.key, place, rank) for place,
             (rank, entry) in enumerate(zip(members, entries)) if entry.colour is not None]
    return [[rank for colour, _, _, rank in sorted(given) if colour == one] for one in sorted({colour for colour, *_ in given})]


def room(buffer, layout, copies):
    """The places that a call names in a buffer; it is refused with 2 or 1 where they don't fit it (3.3.1, 4.1.2)."""
    if layout.type != buffer.type:
        raise Refusal(errors.TYPE)
    if layout.room(copies) > len(buffer.values):
        raise Refusal(errors.COUNT)
    return layout.places(copies)


def turns(scripts, order):
    """Lets ranks go on in turns until none may any more; `order` puts the ranks of a turn in order.

    Gives what each printed, and whether it ended.
    """
    world = World(len(scripts))
    ranks = [script(world) for script in scripts]
    moved = True
    while moved:
        moved = False
        for rank in order(list(range(len(ranks)))):
            moved = ranks[rank].go_far() or moved
    return [(rank.lines, rank.ended) for rank in ranks]
