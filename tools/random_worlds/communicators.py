"""The communicators of a rank, and their collectives: barrier, those that move elements (MPI 3.1, 5), dup and split (6.4).

Nothing here knows requests or messages of point to point: a rank holds communicators, enters a collective of one of them, and hears
notices of other members. What a rank gives out are notices, each with the rank of world that it goes to. Those of a barrier, a broadcast
and a reduction go along a binomial tree of the members; those of the others go in the form of a star: to the root and from it, which is
member 0 where a collective has no root.
"""

import functools
from dataclasses import dataclass, field

import errors
import reductions
from reading import TYPES, text

# Whether the engine has other communicators than world.
ARE_THERE = True

WORLD = 0  # the context of world
MOST_COMMUNICATORS = 4096
FIRST_SERIAL = 2
SERIALS = 2**32

MOST_BLOCK_BYTES = 1048560
RECORD_BYTES = 16
CHOICE_BYTES = 9
CONTEXT_BYTES = 8
RANK_BYTES = 2

# The phases of a notice.
TOWARDS, BACK, DIFFERS = "towards", "back", "differs"

# The collectives that all members wait for; one that finds a difference in these tells the others.
FOR_ALL = ("barrier", "allreduce", "dup", "split")

# The collectives whose notices go along a tree.
IN_TREES = ("barrier", "bcast", "reduce")


def parent(position):
    """The place above one in a tree: the same number without its lowest digit 1 in base two. Place 0 stands above all."""
    digit = 1
    while position % (2 * digit) == 0:
        digit *= 2
    return position - digit


def children(position, size):
    """The places right below one, rising, in a tree of so many."""
    return [below for below in range(position + 1, size) if parent(below) == position]


@dataclass(frozen=True)
class Record:
    """What all members have to agree on. Where a collective has no root, operation, type or count, that is None."""

    kind: str
    root: object = None
    operation: object = None
    type: object = None
    count: object = None

    def center(self):
        """The member to which and from which notices go."""
        return self.root or 0


@dataclass
class Communicator:
    """A context, and the members in order: each a rank of world, with the incarnation of it that is a member."""

    context: int
    members: list

    def ranks(self):
        return [rank for rank, _ in self.members]

    def group(self):
        """The ranks by which a status names its source; None where these are the ranks of world."""
        return None if self.context == WORLD else self.ranks()


@dataclass
class Notice:
    """What a member tells another one of the collective of this number on a context: the record that it entered with, and what the phase
    brings: elements; or towards member 0 the choice of a split; or back from it the new context and its ranks, or None for
    MPI_COMM_NULL."""

    source: int
    incarnation: int
    context: int
    number: int
    record: Record
    phase: str
    brings: object = None
    transfer: object = None

    # As a message it is bytes, of which only the number counts.
    type = "byte"

    @property
    def values(self):
        return [0] * (RECORD_BYTES + (0 if self.phase == DIFFERS else self.byte_count()))

    def byte_count(self):
        """How many bytes stand behind the record: elements; towards member 0 of a split a choice, and back from there a new context and, in
        a split, the ranks of its group."""
        if self.record.type is not None:
            return len(self.brings) * TYPES[self.record.type][0]
        if self.record.kind == "split" and self.phase == TOWARDS:
            return CHOICE_BYTES
        if self.phase == TOWARDS or self.brings is None:
            return 0
        return CONTEXT_BYTES + (RANK_BYTES * len(self.brings[1]) if self.record.kind == "split" else 0)


@dataclass
class Present:
    """The collective that a rank is in; `handed` are the elements that it gives, or its colour and key in a split, and `parts` are at
    the root what all that have come handed in. What it gets has this name. `data` are the elements that it gets."""

    communicator: Communicator
    number: int
    record: Record
    handed: object
    name: object
    parts: dict = field(default_factory=dict)
    answer: object = None
    data: object = None

    def center(self):
        """The rank of world of the member to which and from which notices go."""
        return self.communicator.ranks()[self.record.center()]

    def way(self):
        """The kind by whose form the collective goes: a reduction to a root whose operation isn't associative goes as a gather."""
        record = self.record
        is_ordered = record.kind == "reduce" and not reductions.is_associative(record.operation, record.type)
        return "gather" if is_ordered else record.kind

    def is_in_a_tree(self):
        return self.way() in IN_TREES

    def top(self):
        """The member that stands at the top of the tree: the root of a broadcast, else member 0."""
        return self.record.root if self.record.kind == "bcast" else 0

    def below(self, rank):
        """The ranks right below a rank in the tree, in the order of their places."""
        ranks = self.communicator.ranks()
        place = (ranks.index(rank) - self.top()) % len(ranks)
        return [ranks[(child + self.top()) % len(ranks)] for child in children(place, len(ranks))]

    def above(self, rank):
        """The rank right above a rank in the tree."""
        ranks = self.communicator.ranks()
        place = (ranks.index(rank) - self.top()) % len(ranks)
        return ranks[(parent(place) + self.top()) % len(ranks)]

    def is_top(self, rank):
        return self.communicator.ranks()[self.top()] == rank


@dataclass
class Communicators:
    """The communicators of one endpoint: world at place 0, self at place 1, and those that it made in the order in which it got them."""

    rank: int
    incarnation: int
    held: list = field(default_factory=list)
    serial: int = FIRST_SERIAL
    entered: dict = field(default_factory=dict)  # how many collectives were entered, by context
    waiting: list = field(default_factory=list)  # notices of collectives that weren't entered yet, the oldest first
    present: object = None

    def at(self, place):
        return self.held[place]

    def is_busy(self):
        return self.present is not None

    def context(self):
        """A new context, which no engine has given before (own)."""
        found = self.rank << 48 | self.incarnation << 32 | self.serial
        self.serial += 1
        return found

    # Entering and hearing.

    def enter(self, communicator, record, handed, name):
        """Enters the next collective of a communicator; gives the notices that go out."""
        number = self.entered.get(communicator.context, 0)
        self.entered[communicator.context] = number + 1
        self.present = Present(communicator, number, record, handed, name)
        held = [notice for notice in self.waiting if (notice.context, notice.number) == (communicator.context, number)]
        self.waiting = [notice for notice in self.waiting if not any(notice is other for other in held)]
        if any(notice.phase != DIFFERS and notice.record != record for notice in held):
            return self.differ()
        if any(notice.phase == DIFFERS for notice in held):
            return self.is_told()
        if self.present.is_in_a_tree():
            return self.enter_tree(held)
        if self.present.center() == self.rank:
            self.present.parts = {notice.source: notice.brings for notice in held} | {self.rank: handed}
            return self.lead()
        return self.follow(held)

    def follow(self, held):
        """A member that isn't the middle of a star gives its part to it, or waits for its part from it."""
        present = self.present
        kind = present.record.kind
        if kind == "scatter":
            for notice in held:
                self.get(notice.brings)
            return []
        if present.way() == "gather":
            present.answer = "done"
        return [(present.center(), self.notice(TOWARDS, present.handed))]

    def hear(self, notice):
        """Takes a notice in; gives those that go out. One of a collective that was left is dropped."""
        present = self.present
        awaited = present and present.answer is None and (present.communicator.context, present.number)
        if awaited != (notice.context, notice.number):
            if notice.number >= self.entered.get(notice.context, 0):
                self.waiting.append(notice)
            return []
        if notice.phase == DIFFERS:
            return self.is_told()
        if notice.record != present.record:
            return self.differ()
        if notice.phase == TOWARDS:
            present.parts[notice.source] = notice.brings
            return self.climb() if present.is_in_a_tree() else self.lead()
        if present.is_in_a_tree():
            return self.descend(notice.brings)
        if present.record.kind in ("dup", "split"):
            self.install(notice.brings)
        else:
            self.get(notice.brings)
        return []

    def notice(self, phase, brings=None):
        present = self.present
        return Notice(self.rank, self.incarnation, present.communicator.context, present.number, present.record, phase, brings)

    def others(self):
        return [rank for rank in self.present.communicator.ranks() if rank != self.rank]

    def differ(self):
        """The member finds that another one entered something else, and leaves with 12; where all wait for one another, it tells all."""
        if self.present.record.kind not in FOR_ALL:
            return self.is_told()
        self.present.answer = f"error {errors.MISMATCH}"
        return [(rank, self.notice(DIFFERS)) for rank in self.others()]

    def is_told(self):
        """The member hears of a difference, and leaves with 12. In a broadcast it tells those below it, and in a reduction the one above
        it, or member 0 the root; so does one that finds the difference."""
        present = self.present
        present.answer = f"error {errors.MISMATCH}"
        told = []
        if present.record.kind == "bcast":
            told = present.below(self.rank)
        elif present.way() == "reduce":
            told = [present.center() if present.is_top(self.rank) else present.above(self.rank)]
        return [(rank, self.notice(DIFFERS)) for rank in told if rank != self.rank]

    # Trees.

    def enter_tree(self, held):
        """A member enters a barrier, a broadcast or a reduction, with nothing known that differs."""
        present = self.present
        if present.record.kind != "bcast":
            present.parts = {notice.source: notice.brings for notice in held if notice.phase == TOWARDS}
            return self.climb()
        if present.is_top(self.rank):
            return self.descend(present.handed)
        return [told for notice in held for told in self.descend(notice.brings)]

    def climb(self):
        """A member of a barrier or a reduction goes on once those below it have: it tells the one above it, with what the operation makes
        of its own part and of theirs. In a reduction only the root waits then, and member 0 tells it what is made of all."""
        present = self.present
        below = present.below(self.rank)
        if any(rank not in present.parts for rank in below):
            return []
        if present.record.kind == "barrier":
            made = None
        else:
            made = reductions.fold(present.record.operation, present.record.type,
                                   [present.handed] + [present.parts[rank] for rank in below])
        if not present.is_top(self.rank):
            if present.record.kind == "reduce" and present.center() != self.rank:
                present.answer = "done"
            return [(present.above(self.rank), self.notice(TOWARDS, made))]
        if present.record.kind == "reduce" and present.center() != self.rank:
            present.answer = "done"
            return [(present.center(), self.notice(BACK, made))]
        return self.descend(made)

    def descend(self, values):
        """A member leaves with what came from above it, or with what it is at the top; in a barrier and a broadcast it tells those below
        it."""
        present = self.present
        if present.record.kind == "bcast" and present.is_top(self.rank):
            present.answer = "done"
        else:
            self.get(values)
        if present.record.kind == "reduce":
            return []
        return [(rank, self.notice(BACK, values)) for rank in present.below(self.rank)]

    # Stars.

    def lead(self):
        """The middle of a star goes on: with its own part where it gives, else once it has the parts of all members."""
        present = self.present
        kind = present.record.kind
        ranks = present.communicator.ranks()
        if kind == "scatter":
            return self.give(ranks)
        if len(present.parts) < len(ranks):
            return []
        if kind in ("dup", "split"):
            return self.make(ranks)
        blocks = [present.parts[rank] for rank in ranks]
        if kind == "gather":
            self.get([value for block in blocks for value in block])
            return []
        folded = reductions.fold(present.record.operation, present.record.type, blocks)
        self.get(folded)
        return [] if kind == "reduce" else [(rank, self.notice(BACK, folded)) for rank in self.others()]

    def give(self, ranks):
        """The root of a scatter gives each its block, itself too."""
        present = self.present
        count = present.record.count
        block = {rank: present.handed[place * count:(place + 1) * count] for place, rank in enumerate(ranks)}
        self.get(block[self.rank])
        return [(rank, self.notice(BACK, block[rank])) for rank in self.others()]

    def get(self, values):
        """The member leaves, with elements or without."""
        present = self.present
        if values is None:
            present.answer = "done"
            return
        present.data = (present.record.type, values)
        present.answer = " ".join(["data"] + [text(present.record.type, value) for value in values])

    def make(self, ranks):
        """Member 0 makes the new communicators, and tells each member of its own."""
        present = self.present
        plan = [ranks] if present.record.kind == "dup" else split_plan(ranks, present.parts)
        made = {}
        for group in plan:
            made |= dict.fromkeys(group, (self.context(), group))
        told = [(rank, self.notice(BACK, made.get(rank))) for rank in self.others()]
        self.install(made.get(self.rank))
        return told

    def install(self, made):
        """The member has its new communicator, or none."""
        if made is None:
            self.present.answer = "comm null"
            return
        context, ranks = made
        incarnations = dict(self.present.communicator.members)
        self.held.append(Communicator(context, [(rank, incarnations[rank]) for rank in ranks]))
        self.present.answer = f"comm {len(self.held) - 1}"

    def learn(self, rank, incarnation):
        """Another rank was started anew: the collective of a communicator that it is in ends with 11, and what its former incarnation
        told counts no more."""
        self.waiting = [notice for notice in self.waiting if notice.source != rank or notice.incarnation == incarnation]
        if self.present is not None and self.present.answer is None and rank in self.present.communicator.ranks():
            self.present.answer = f"error {errors.REPLACED}"

    def is_left_without(self, communicator):
        """Whether a dup or split would go beyond a limit: the communicators of the rank, or at member 0 the contexts."""
        if len(self.held) >= MOST_COMMUNICATORS:
            return True
        return communicator.ranks()[0] == self.rank and SERIALS - self.serial < len(communicator.members)


@functools.cache
def members_of_world(size):
    """The first incarnations of so many ranks; one list for all who hold it."""
    return [(other, 0) for other in range(size)]


def new_communicators(rank, incarnation, size):
    """World, whose members are the first incarnations of all ranks, and self (own: MPI has no restarts)."""
    world = Communicator(WORLD, members_of_world(size))
    alone = Communicator(rank << 48 | incarnation << 32 | 1, [(rank, incarnation)])
    return Communicators(rank, incarnation, [world, alone])


def split_plan(ranks, choices):
    """The groups of a split, by rising colour, each in the order of keys and then of old ranks (MPI 3.1, 6.4.2)."""
    colours = sorted({colour for colour, _ in choices.values() if colour is not None})
    return [sorted((rank for rank in ranks if choices[rank][0] == colour), key=lambda rank: (choices[rank][1], ranks.index(rank)))
            for colour in colours]


def comparison(one, other):
    """How two communicators compare (MPI 3.1, 6.4.1)."""
    if one.context == other.context:
        return "ident"
    if one.ranks() == other.ranks():
        return "congruent"
    return "similar" if set(one.ranks()) == set(other.ranks()) else "unequal"
