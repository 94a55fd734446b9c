"""One rank that goes through its script, line by line (docs/SCRIPTS.md)."""

from meaning import HIGHEST_TAG, MOST_BLOCK_BYTES, MOST_BYTES, ROOTED, TYPES
from meaning import Buffer, Communicator, Entry, Faulty, Message, NoMeaning, Refusal, Request, awaited, new_groups, room

import errors
import layouts
import reading
import reductions
from layouts import Layout

NEVER_SET = ("any", "any", 0)
OF_NULL = ("null", "any", 0)


def lines_for(text, rank):
    """The lines of a script that are for this rank, as words."""
    mine, found = True, []
    for line in text.splitlines():
        words = line.split()
        if not words or words[0].startswith("#"):
            continue
        if words[0] == "on":
            mine = words[1:] == ["all"] or any(word in (str(rank), f"{rank}.0") for word in words[1:])
        elif mine:
            found.append(words)
    return found


class FormOf:
    """What a line `type` says, as `layouts.layout_made` reads it."""

    def __init__(self, form, words):
        self.form = form
        self.numbers = [int(word) for word in words] if form != "indexed" else []
        self.blocks = [tuple(map(int, word.split(":"))) for word in words] if form == "indexed" else []


class Rank:
    """A rank: its names, what it has printed, and a generator that stops where the rank waits."""

    def __init__(self, world, rank, size, text):
        self.world, self.rank, self.lines, self.ended = world, rank, [], False
        self.buffers, self.types, self.requests = {}, {}, {}
        self.comms = {"world": Communicator(("world",), list(range(size))), "self": Communicator(("self", rank), [rank])}
        self.counts, self.status = {}, NEVER_SET
        self.left = lines_for(text, rank)
        self.steps, self.going = 0, self.goes()

    def go_far(self):
        """Goes on as far as it can; says whether it did."""
        if self.ended or self.going is None:
            return False
        before = self.steps
        try:
            next(self.going)
        except StopIteration:
            self.ended = True
        except Faulty:
            self.ended, self.going = True, None
        return self.ended or self.steps > before

    def goes(self):
        for words in self.left:
            self.steps += 1
            try:
                yield from getattr(self, "do_" + words[0])(*words[1:]) or ()
            except Refusal as refusal:
                self.lines.append(f"error {refusal.number}")
            except EndOfScript:
                return

    def until(self, ready):
        """Waits until this is so."""
        while not ready():
            yield
        self.steps += 1

    # ---- names

    def named(self, names, name):
        if name not in names:
            raise Faulty(name)
        return names[name]

    def buffer(self, name):
        """A buffer that isn't lent."""
        found = self.named(self.buffers, name)
        if found.lent:
            raise Faulty(name)
        return found

    def set_buffer(self, name, kind, values):
        if name in self.buffers and self.buffers[name].lent:
            raise Faulty(name)
        self.buffers[name] = Buffer(kind, values)

    def comm(self, name):
        """A communicator; 4 for MPI_COMM_NULL."""
        found = self.named(self.comms, name)
        if found is None:
            raise Refusal(errors.COMM)
        return found

    def places(self, buffer, as_layout):
        """The layout and the number of copies that a call is handed, and their places."""
        if not as_layout:
            return Layout(buffer.type, [0]), len(buffer.values)
        return self.named(self.types, as_layout[1]), int(as_layout[2])

    # ---- buffers and layouts

    def do_buf(self, name, kind, *values):
        self.set_buffer(name, kind, reading.values(kind, values))

    def do_type(self, name, form, *words):
        old = Layout(words[-1], [0]) if words[-1] in TYPES else self.named(self.types, words[-1])
        made = layouts.layout_made(FormOf(form, words[:-1]), old)
        if made is None:
            raise Refusal(errors.LIMIT)
        self.types[name] = made

    # ---- messages between two ranks

    def start_send(self, comm, dest, tag, name, *as_layout):
        """A send is finished at once."""
        buffer = self.buffer(name)
        layout, copies = self.places(buffer, as_layout)
        comm = self.comm(comm)
        if layout.type != buffer.type:
            raise Refusal(errors.TYPE)
        if layout.count(copies) * TYPES[buffer.type][0] > MOST_BYTES:
            raise Refusal(errors.COUNT)
        places = room(buffer, layout, copies)
        if tag == "any" or int(tag) > HIGHEST_TAG:
            raise Refusal(errors.TAG)
        if dest != "null":
            if int(dest) >= len(comm.members):
                raise Refusal(errors.RANK)
            values = [buffer.values[place] for place in places]
            self.world.send(comm.members[int(dest)], Message(self.rank, comm.context, int(tag), buffer.type, values))
        return Request()

    def start_receive(self, comm, source, tag, name, *as_layout):
        if source == "any":
            raise NoMeaning("a receive from any rank")
        buffer = self.buffer(name)
        layout, copies = self.places(buffer, as_layout)
        comm = self.comm(comm)
        if layout.type != buffer.type or layout.repeats():
            raise Refusal(errors.TYPE)
        places = room(buffer, layout, copies)
        if tag != "any" and int(tag) > HIGHEST_TAG:
            raise Refusal(errors.TAG)
        if source == "null":
            return Request(status=OF_NULL, buffer=buffer)
        if int(source) >= len(comm.members):
            raise Refusal(errors.RANK)
        request = Request(finished=False, source=comm.members[int(source)], tag="any" if tag == "any" else int(tag), comm=comm,
                          buffer=buffer, places=places)
        buffer.lent = True
        self.world.receive(self.rank, request)
        return request

    def end(self, request, tells):
        """A request is answered: its buffer is here again, an error is printed, and the status set where the statement sets it."""
        if request.buffer:
            request.buffer.lent = False
        if request.error:
            self.lines.append(f"error {request.error}")
        elif tells and request.status:
            self.status = request.status

    def do_send(self, *words):
        self.end(self.start_send(*words), True)

    def do_recv(self, *words):
        request = self.start_receive(*words)
        yield from self.until(lambda: request.finished)
        self.end(request, True)

    def do_isend(self, name, *words):
        self.requests[name] = self.start_send(*words)

    def do_irecv(self, name, *words):
        self.requests[name] = self.start_receive(*words)

    def do_wait(self, name):
        request = None if name == "null" else self.named(self.requests, name)
        if request is None:
            self.status = NEVER_SET
            return
        yield from self.until(lambda: request.finished)
        self.requests[name] = None
        self.end(request, True)

    def do_waitall(self, *names):
        requests = [None if name == "null" else self.named(self.requests, name) for name in names]
        given = [request for request in requests if request]
        if len(set(map(id, given))) < len(given):
            raise Refusal(errors.REQUEST)
        yield from self.until(lambda: all(request.finished for request in given))
        for name in names:
            if name != "null":
                self.requests[name] = None
        for request in given:
            self.end(request, False)

    def do_status(self):
        self.lines.append("source %s tag %s count %s" % self.status)

    def do_count(self, name):
        size, count = len(self.named(self.types, name).offsets), self.status[2]
        whole = 0 if not count and not size else count // size if size and count % size == 0 else None
        self.lines.append("undefined" if whole is None else str(whole))

    # ---- all members of a communicator

    def enter(self, comm, record, values, is_wrong=lambda comm: (False, False), colour=None, key=0):
        """Enters a collective, and waits until it may be left; gives the communicator and with what those entered for whom it waited."""
        kind, root, op, basic, count = record
        comm = self.comm(comm)
        other_type, other_total = is_wrong(comm)
        if other_type:
            raise Refusal(errors.TYPE)
        if (basic and count * TYPES[basic][0] > MOST_BLOCK_BYTES) or other_total:
            raise Refusal(errors.COUNT)
        if kind in ROOTED and root >= len(comm.members):
            raise Refusal(errors.ROOT)
        if op and basic not in reductions.DEFINED[op]:
            raise Refusal(errors.OP)
        number = self.counts.get(comm.context, 0)
        self.counts[comm.context] = number + 1
        self.world.enter(comm.context, number, self.rank, Entry(record, values, colour, key))
        those = awaited(kind, root, self.rank, comm.members)
        yield from self.until(lambda: self.world.entered(comm.context, number, those))
        return comm, self.world.entered(comm.context, number, those), number

    def do_barrier(self, comm):
        yield from self.enter(comm, ("barrier", 0, None, None, 0), [])

    def do_bcast(self, comm, root, name):
        buffer = self.buffer(name)
        found, entries, _ = yield from self.enter(comm, ("bcast", int(root), None, buffer.type, len(buffer.values)), list(buffer.values))
        buffer.values[:] = entries[0].values

    def do_gather(self, comm, root, name, into):
        buffer = self.buffer(name)
        found, entries, _ = yield from self.enter(comm, ("gather", int(root), None, buffer.type, len(buffer.values)), list(buffer.values))
        if found.members[int(root)] == self.rank:
            self.set_buffer(into, buffer.type, sum((entry.values for entry in entries), []))

    def do_scatter(self, comm, root, name, into):
        block = self.buffer(into)
        at = self.named(self.comms, comm)
        is_root = at is not None and int(root) < len(at.members) and at.members[int(root)] == self.rank
        whole = self.buffer(name) if is_root else Buffer(block.type, [])

        def is_wrong(comm):
            return is_root and whole.type != block.type, is_root and len(whole.values) != len(comm.members) * len(block.values)

        record = ("scatter", int(root), None, block.type, len(block.values))
        found, entries, _ = yield from self.enter(comm, record, list(whole.values), is_wrong)
        place = found.members.index(self.rank)
        block.values[:] = entries[0].values[place * len(block.values) : (place + 1) * len(block.values)]

    def do_reduce(self, comm, root, op, name, into):
        buffer = self.buffer(name)
        found, entries, _ = yield from self.enter(comm, ("reduce", int(root), op, buffer.type, len(buffer.values)), list(buffer.values))
        if found.members[int(root)] == self.rank:
            self.set_buffer(into, buffer.type, reductions.fold(op, buffer.type, [entry.values for entry in entries]))

    def do_allreduce(self, comm, op, name, into):
        buffer = self.buffer(name)
        _, entries, _ = yield from self.enter(comm, ("allreduce", 0, op, buffer.type, len(buffer.values)), list(buffer.values))
        self.set_buffer(into, buffer.type, reductions.fold(op, buffer.type, [entry.values for entry in entries]))

    def make(self, name, comm, kind, colour=None, key=0):
        found, entries, number = yield from self.enter(comm, (kind, 0, None, None, 0), [], colour=colour, key=key)
        groups = new_groups(kind, found.members, entries)
        own = [place for place, group in enumerate(groups) if self.rank in group]
        self.comms[name] = Communicator((*found.context, number, own[0]), groups[own[0]]) if own else None

    def do_dup(self, name, comm):
        yield from self.make(name, comm, "dup")

    def do_split(self, name, comm, colour, key):
        yield from self.make(name, comm, "split", None if colour == "undefined" else int(colour), int(key))

    # ---- questions and text

    def do_who(self, comm):
        found = self.comm(comm)
        self.lines.append("rank %d of %d" % (found.members.index(self.rank), len(found.members)))

    def do_members(self, comm):
        self.lines.append(" ".join(map(str, self.comm(comm).members)))

    def do_compare(self, one, other):
        one, other = self.comm(one), self.comm(other)
        kinds = ((one.context == other.context, "ident"), (one.members == other.members, "congruent"),
                 (sorted(one.members) == sorted(other.members), "similar"))
        self.lines.append(next((name for so, name in kinds if so), "unequal"))

    def do_print(self, name):
        buffer = self.buffer(name)
        self.lines.append(" ".join(reading.text(buffer.type, value) for value in buffer.values))

    def do_say(self, *words):
        self.lines.append(" ".join(words))

    def do_fail(self):
        raise EndOfScript

    def has_none(self, *words):
        raise NoMeaning("a test, a cancel, a probe, or a wait for the first of several")

    do_test = do_cancel = do_waitany = do_issend = do_iprobe = do_improbe = do_mrecv = has_none


class EndOfScript(Exception):
    """The rank ends at once."""
