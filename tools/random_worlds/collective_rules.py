"""The model's rules of communicators and collectives: who may enter which with what, and what is answered."""

import communicators
import errors
import reasons
import reductions
from communicators import MOST_BLOCK_BYTES, Record
from holding import NotSet, RefusedEvent
from reading import NULL, TYPES


class Collectives:
    """A part of the rules of a world."""

    # Communicators.

    def on_dup(self, event):
        return self.enter(event, Record("dup"), None, event.name, None)

    def on_split(self, event):
        return self.enter(event, Record("split"), (event.colour, event.key), event.name, None)

    def enter(self, event, record, handed, name, broken):
        """A collective on a communicator: refused by a rule on what is handed in (`broken`, where one is broken), and with 11 where a
        member of it was started anew, the caller included (own)."""
        self.check_communicators()
        place = self.place_of(event.rank, event.communicator)
        rank = self.caller(event.rank)
        communicator = self.communicator(rank, place)
        self.check(broken and broken(communicator))
        if any(rank.has_replaced(member) for member in communicator.members):
            raise RefusedEvent(errors.REPLACED)
        if record.kind in ("dup", "split") and rank.communicators.is_left_without(communicator):
            raise RefusedEvent(errors.LIMIT)
        self.tell(rank, rank.communicators.enter(communicator, record, handed, name))
        answer = self.answer_of_collective(rank)
        return "blocked" if answer is None else answer, self.all_in_windows(rank), None

    # Collectives that move elements, and barrier.

    def on_barrier(self, event):
        return self.enter(event, Record("barrier"), None, None, None)

    def is_root(self, event):
        """Whether the caller is the root; where there is no such member, nobody is."""
        place = self.place_of(event.rank, event.communicator)
        if event.rank >= len(self.ranks) or place is None:
            return False
        ranks = self.ranks[event.rank].communicators.at(place).ranks()
        return event.root < len(ranks) and ranks[event.root] == event.rank

    @staticmethod
    def fault_of_block(record, communicator):
        """What is wrong with what is handed in: too many bytes, no such root, an operation that isn't defined on the type."""
        if record.count * TYPES[record.type][0] > MOST_BLOCK_BYTES:
            return errors.COUNT
        if record.root is not None and record.root >= len(communicator.members):
            return errors.ROOT
        if record.operation is not None and record.type not in reductions.DEFINED[record.operation]:
            return errors.OP
        return None

    def move(self, event, record, handed, name):
        return self.enter(event, record, handed, name, lambda communicator: self.fault_of_block(record, communicator))

    def handed_in(self, event, sets):
        """The buffer that a collective hands in. Where it sets another one, that one isn't lent, which is told first."""
        names = self.names_of(event.rank)
        if sets:
            names.check_settable(event.into)
        return names.buffer(event.buffer)

    def on_bcast(self, event):
        self.place_of(event.rank, event.communicator)
        kind, values = self.names_of(event.rank).buffer(event.buffer)
        return self.move(event, Record("bcast", event.root, None, kind, len(values)), values, event.buffer)

    def on_gather(self, event):
        kind, values = self.handed_in(event, self.is_root(event))
        return self.move(event, Record("gather", event.root, None, kind, len(values)), values, event.into)

    def on_reduce(self, event):
        kind, values = self.handed_in(event, self.is_root(event))
        return self.move(event, Record("reduce", event.root, event.operation, kind, len(values)), values, event.into)

    def on_allreduce(self, event):
        self.place_of(event.rank, event.communicator)
        kind, values = self.handed_in(event, True)
        return self.move(event, Record("allreduce", None, event.operation, kind, len(values)), values, event.into)

    def on_scatter(self, event):
        """The root's elements are a block for each member, of the type and count of the buffer that gets one."""
        self.place_of(event.rank, event.communicator)
        kind, values = self.names_of(event.rank).buffer(event.into)
        record = Record("scatter", event.root, None, kind, len(values))
        if not self.is_root(event):
            return self.move(event, record, None, event.into)
        if event.buffer is None:
            raise NotSet(reasons.UNFIT)
        given, blocks = self.names_of(event.rank).buffer(event.buffer)

        def broken(communicator):
            if given != kind:
                return errors.TYPE
            if len(blocks) != len(communicator.members) * len(values):
                return errors.COUNT
            return self.fault_of_block(record, communicator)

        return self.enter(event, record, blocks, event.into, broken)

    def tell(self, rank, notices):
        """Puts notices on their way."""
        for other, notice in notices:
            session = rank.session(other)
            session.frames.append(self.first_frame(session, None, other, notice))

    def answer_of_collective(self, rank):
        """The answer of the present collective, where it has ended; what it gave has its name then."""
        present = rank.communicators.present
        if present is None or present.answer is None:
            return None
        rank.communicators.present = None
        if present.data is not None:
            self.names_of(rank.number).buffers[present.name] = present.data
        kind, _, place = present.answer.partition(" ")
        if kind == "comm":
            self.names_of(rank.number).communicators[present.name] = None if place == NULL else int(place)
        return present.answer

    def asked(self, event, *words):
        """The communicators that a question names."""
        self.check_communicators()
        places = [self.place_of(event.rank, word) for word in words]
        rank = self.caller(event.rank)
        return rank, [self.communicator(rank, place) for place in places]

    def on_who(self, event):
        rank, (communicator,) = self.asked(event, event.communicator)
        return f"rank {communicator.ranks().index(rank.number)} of {len(communicator.members)}", [], None

    def on_members(self, event):
        _, (communicator,) = self.asked(event, event.communicator)
        return " ".join(str(member) for member in communicator.ranks()), [], None

    def on_compare(self, event):
        _, (one, other) = self.asked(event, event.one, event.other)
        return communicators.comparison(one, other), [], None
