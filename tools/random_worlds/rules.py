"""A plain model of what a world of ranks does: each rule as it is said in docs/EVENT_FILES.md and docs/ARCHITECTURE.md.

It shares nothing with the Rattle code: one Python class for a rank, lists for its queues and its sessions, and no memory that
could be wanting. `answer(text)` is what `mpisim` must print on a file.

The limits stand in constants, and what a call can break in functions of their own (`fault_of_send`, `fault_of_receive`), so that
they are found when a rule grows.
"""

import collective_rules
import communicators
import errors
import reading
import reasons
from bytes_of_strays import HIGHEST_TAG, MOST_BYTES, MOST_EAGER_BYTES, fault_of_bytes
from communicators import Notice, WORLD
from frames import WINDOW, Collection, Datagram, Frame, Message, Session, byte_count, pieces_of
from holding import FROM_NULL, REPLACED, Names, NotSet, Rank, RefusedEvent, Request, Waiting
from holding import accepts, fault_of_match, fill, status_of, text_of
from layouts import Layout, layout_made
from reading import ANY, NULL, TYPES

MOST_REQUESTS = 65536
LAST_INCARNATION = 65535


class World(collective_rules.Collectives):
    """A world of ranks, and the names of its statements."""

    def __init__(self, size):
        self.ranks = [self.new_rank(number, 0, size) for number in range(size)]
        self.names = {}
        self.datagrams = []

    @staticmethod
    def new_rank(number, incarnation, size):
        return Rank(number, incarnation, communicators.new_communicators(number, incarnation, size))

    # Lines.

    def line(self, event):
        """What a line prints; `NotSet` where a name isn't set when it is reached."""
        done = getattr(self, "on_" + type(event).__name__.lower())
        try:
            answer, emitted, completion = done(event)
        except RefusedEvent as refused:
            answer, emitted, completion = f"refused {refused.number}", refused.emitted, None
        if answer is None:
            return []
        lines = [answer]
        for datagram in emitted:
            lines.append(datagram.text(len(self.datagrams)))
            self.datagrams.append(datagram)
        return lines + ([completion] if completion else [])

    def names_of(self, rank):
        return self.names.setdefault(rank, Names())

    def rank(self, number):
        if number >= len(self.ranks):
            raise RefusedEvent(errors.NO_SUCH_RANK)
        return self.ranks[number]

    def caller(self, number):
        """The rank of a call: it is there, and no earlier call of it is blocked."""
        rank = self.rank(number)
        if rank.is_blocked():
            raise RefusedEvent(errors.REQUEST)
        return rank

    def place_of(self, rank, word):
        """The place of the communicator that a statement names, among those of its rank; None is MPI_COMM_NULL."""
        self.check_communicators(word)
        if word in ("world", "self"):
            return 0 if word == "world" else 1
        names = self.names_of(rank)
        return names.found(names.communicators, word)

    @staticmethod
    def check_communicators(word=None):
        """Whether the engine has what a statement needs: this communicator, or the calls on communicators."""
        if word != "world" and not communicators.ARE_THERE:
            raise NotSet("no communicators")

    @staticmethod
    def communicator(rank, place):
        """The communicator at a place; nothing can be called on MPI_COMM_NULL."""
        if place is None:
            raise RefusedEvent(errors.COMM)
        return rank.communicators.at(place)

    # Calls.

    def on_setbuffer(self, event):
        names = self.names_of(event.rank)
        names.check_settable(event.name)
        names.buffers[event.name] = (event.type, event.values)
        return None, [], None

    def layout(self, rank, name):
        """A layout that is set."""
        names = self.names_of(rank)
        return names.found(names.layouts, name)

    def on_setlayout(self, event):
        old = Layout(event.old, [0]) if event.old in TYPES else self.layout(event.rank, event.old)
        made = layout_made(event, old)
        if made is None:
            return f"refused {errors.LIMIT}", [], None
        self.names_of(event.rank).layouts[event.name] = made
        return None, [], None

    def region(self, event):
        """The buffer of a send or a receive, and the layout and the number of copies that it goes through: its own, or all of the
        buffer. Of the names that aren't set the layout's is told first."""
        layout = self.layout(event.rank, event.through[0]) if event.through else None
        kind, values = self.names_of(event.rank).buffer(event.buffer)
        if layout is None:
            return kind, values, Layout(kind, [0]), len(values)
        return kind, values, layout, event.through[1]

    def on_isend(self, event):
        return self.send(event, is_synchronous=False)

    def on_issend(self, event):
        return self.send(event, is_synchronous=True)

    def send(self, event, is_synchronous):
        place = self.place_of(event.rank, event.communicator)
        kind, values, layout, copies = self.region(event)
        rank = self.caller(event.rank)
        communicator = self.communicator(rank, place)
        self.check(self.fault_of_send(event, rank, communicator, kind, values, layout, copies))
        request = self.start(rank)
        request.outcome = "sent"
        self.names_of(event.rank).requests[event.request] = request
        if event.target == NULL:
            return f"request {request.serial}", [], None
        target = communicator.ranks()[event.target]
        elements = [values[place] for place in layout.places(copies)]
        message = Message(rank.number, rank.incarnation, communicator.context, event.tag, kind, elements)
        if target == rank.number:
            if is_synchronous:
                request.outcome, request.target, message.waiting = None, target, request
            self.arrive(rank, message)
            return f"request {request.serial}", [], None
        session = rank.session(target)
        session.frames.append(self.first_frame(session, request, target, message, is_synchronous))
        return f"request {request.serial}", self.in_window(rank, target), None

    @staticmethod
    def first_frame(session, request, target, message, is_synchronous=False):
        """A message goes whole; a large one and any of a synchronous send is announced, and its send, where it has one, isn't finished
        before that is answered (MPI 3.1, 3.4)."""
        if byte_count(message) <= MOST_EAGER_BYTES and not is_synchronous:
            return Frame("EAGER", message)
        message.transfer = session.transfers
        session.transfers += 1
        session.unanswered[message.transfer] = (request, message)
        if request is not None:
            request.outcome, request.target = None, target
        return Frame("RTS", message, message.transfer)

    def on_irecv(self, event):
        place = self.place_of(event.rank, event.communicator)
        kind, values, layout, copies = self.region(event)
        rank = self.caller(event.rank)
        communicator = self.communicator(rank, place)
        self.check(self.fault_of_receive(event, rank, communicator, kind, values, layout, copies))
        request = self.start(rank)
        self.lend(request, event, kind, values, layout, copies)
        self.look_for(request, event, communicator)
        self.names_of(event.rank).requests[event.request] = request
        if event.source == NULL:
            request.outcome = FROM_NULL
            return f"request {request.serial}", [], None
        answered = self.post(rank, request)
        return f"request {request.serial}", [] if answered is None else self.in_window(rank, answered), None

    def lend(self, request, event, kind, values, layout, copies):
        """A receive gets its buffer, which is lent until its outcome is answered."""
        request.buffer_name, request.type, request.values = event.buffer, kind, values
        request.places = layout.places(copies)
        self.names_of(event.rank).lent.add(event.buffer)

    @staticmethod
    def look_for(request, event, communicator):
        """What a receive or a probe looks for."""
        request.source = event.source if event.source in (ANY, NULL) else communicator.ranks()[event.source]
        request.tag, request.context, request.group = event.tag, communicator.context, communicator.group()

    # Probes: what a receive that is posted now would take (MPI 3.1, 3.8).

    def probed(self, event):
        """The rank of a probe, what it looks for, and the message that it finds, if it finds one."""
        place = self.place_of(event.rank, event.communicator)
        rank = self.caller(event.rank)
        communicator = self.communicator(rank, place)
        self.check(self.fault_of_probe(event, rank, communicator))
        wanted = Request(None)
        self.look_for(wanted, event, communicator)
        return rank, wanted, next((message for message in rank.unexpected if accepts(wanted, message)), None)

    def on_iprobe(self, event):
        _, wanted, found = self.probed(event)
        if event.source == NULL:
            return FROM_NULL, [], None
        return "none" if found is None else status_of(wanted, found), [], None

    def on_improbe(self, event):
        """The message that is found is taken out: no receive and no probe finds it any more. It needs a request's place."""
        rank, wanted, found = self.probed(event)
        names = self.names_of(event.rank)
        if event.source == NULL:
            names.messages[event.message] = NULL
            return f"message null {FROM_NULL}", [], None
        if found is None:
            return "none", [], None
        self.check(13 if self.is_full(event.rank) else None)
        request = self.start(rank)
        request.taken, request.group = found, wanted.group
        names.messages[event.message] = request
        rank.unexpected = [message for message in rank.unexpected if message is not found]
        return f"message {request.serial} {status_of(wanted, found)}", [], None

    def on_mrecv(self, event):
        """A message that was taken out is received, and its outcome waited for; its name is that of no message from then on."""
        names = self.names_of(event.rank)
        message = names.found(names.messages, event.message)
        kind, values, layout, copies = self.region(event)
        rank = self.caller(event.rank)
        self.check(errors.REQUEST if message is None else self.fault_of_region(kind, values, layout, copies))
        if message == NULL:
            names.messages[event.message] = None
            return text_of(Request(None, FROM_NULL, type=kind, values=values)), [], None
        self.lend(message, event, kind, values, layout, copies)
        taken, message.taken = message.taken, None
        answered = None
        if taken == REPLACED:
            message.outcome = f"error {errors.REPLACED}"
        else:
            answered = self.match(rank, message, taken)
        answer, _, _ = self.complete(rank, Waiting("one", [message]))
        return answer, [] if answered is None else self.in_window(rank, answered), None

    def named(self, rank, name):
        """The request of a name that is set; None is the null request."""
        names = self.names_of(rank)
        return None if name == NULL else names.found(names.requests, name)

    def on_wait(self, event):
        request = self.named(event.rank, event.request)
        return self.complete(self.caller(event.rank), Waiting("one", [request]))

    def on_test(self, event):
        request = self.named(event.rank, event.request)
        rank = self.caller(event.rank)
        answer = self.answer_to(rank, Waiting("one", [request]))
        return "pending" if answer is None else answer, [], None

    def on_waitany(self, event):
        return self.wait_for_several(event, "any")

    def on_waitall(self, event):
        return self.wait_for_several(event, "all")

    def wait_for_several(self, event, kind):
        requests = [self.named(event.rank, name) for name in event.requests]
        rank = self.caller(event.rank)
        active = [request.serial for request in requests if request is not None]
        if len(set(active)) < len(active):
            raise RefusedEvent(errors.REQUEST)
        return self.complete(rank, Waiting(kind, requests))

    def complete(self, rank, waiting):
        answer = self.answer_to(rank, waiting)
        if answer is None:
            rank.blocked = waiting
            return "blocked", [], None
        return answer, [], None

    def answer_to(self, rank, waiting):
        """The answer of a completing call, where it is ready: the outcomes are handed out then (MPI 3.1, 3.7.3 and 3.7.5)."""
        requests = waiting.requests
        finished = [place for place, request in enumerate(requests) if request is not None and request.outcome is not None]
        active = [request for request in requests if request is not None]
        if waiting.kind == "any":
            if not active:
                return "index undefined"
            return f"index {finished[0]} {self.hand_out(rank, requests[finished[0]])}" if finished else None
        if len(finished) < len(active):
            return None
        texts = ["source any tag any count 0" if request is None else self.hand_out(rank, request) for request in requests]
        return "; ".join(texts) if texts else "done"

    def on_cancel(self, event):
        """Only a receive is cancelled, and it only ends where it waits for a message (MPI 3.1, 3.8.4)."""
        request = self.named(event.rank, event.request)
        rank = self.caller(event.rank)
        if request is None or not request.is_receive():
            raise RefusedEvent(errors.REQUEST)
        if any(receive is request for receive in rank.posted):
            request.outcome = "cancelled"
            rank.posted = [receive for receive in rank.posted if receive is not request]
        return "done", [], None

    @staticmethod
    def fault_of_rank(rank, communicator, named):
        """What is wrong with a rank that a call names: there is no such one in the communicator; or it was started anew, which counts
        on all communicators but world (own)."""
        if named in (ANY, NULL):
            return None
        if named >= len(communicator.members):
            return errors.RANK
        return errors.REPLACED if communicator.context != WORLD and rank.has_replaced(communicator.members[named]) else None

    def fault_of_send(self, event, rank, communicator, kind, values, layout, copies):
        if layout.type != kind:
            return errors.TYPE
        if layout.count(copies) * TYPES[kind][0] > MOST_BYTES or layout.room(copies) > len(values):
            return errors.COUNT
        if event.tag == ANY or event.tag > HIGHEST_TAG:
            return errors.TAG
        return self.fault_of_rank(rank, communicator, event.target) or (errors.LIMIT if self.is_full(event.rank) else None)

    def fault_of_receive(self, event, rank, communicator, kind, values, layout, copies):
        fault = self.fault_of_region(kind, values, layout, copies) or self.fault_of_probe(event, rank, communicator)
        return fault or (errors.LIMIT if self.is_full(event.rank) else None)

    @staticmethod
    def fault_of_region(kind, values, layout, copies):
        """What is wrong with where a receive puts its data."""
        if layout.type != kind or layout.repeats():
            return errors.TYPE
        return errors.COUNT if layout.room(copies) > len(values) else None

    def fault_of_probe(self, event, rank, communicator):
        """What is wrong with what a receive or a probe looks for."""
        if event.tag != ANY and event.tag > HIGHEST_TAG:
            return errors.TAG
        return self.fault_of_rank(rank, communicator, event.source)

    def is_full(self, rank):
        return len(self.ranks[rank].requests) == MOST_REQUESTS

    @staticmethod
    def check(fault):
        if fault is not None:
            raise RefusedEvent(fault)

    @staticmethod
    def start(rank):
        request = Request(rank.serials)
        rank.serials += 1
        rank.requests[request.serial] = request
        return request

    def hand_out(self, rank, request):
        """Answers a finished request, whose name is null from now on, or that of no message, and whose buffer comes back."""
        del rank.requests[request.serial]
        names = self.names_of(rank.number)
        for kept in (names.requests, names.messages):
            for name in [name for name, named in kept.items() if named is request]:
                kept[name] = None
        if request.buffer_name is not None:
            names.lent.discard(request.buffer_name)
            names.buffers[request.buffer_name] = (request.type, request.values)
        return text_of(request)

    # Matching: the oldest that fits (MPI 3.1, 3.5).

    def post(self, rank, receive):
        """Takes the oldest message that the receive accepts, or lets it wait; gives the rank that is answered, if one is."""
        for place, message in enumerate(rank.unexpected):
            if accepts(receive, message):
                del rank.unexpected[place]
                return self.match(rank, receive, message)
        rank.posted.append(receive)
        return None

    def arrive(self, rank, message):
        for place, receive in enumerate(rank.posted):
            if accepts(receive, message):
                del rank.posted[place]
                self.match(rank, receive, message)
                return
        rank.unexpected.append(message)

    @staticmethod
    def match(rank, receive, message):
        """A receive takes a message: a whole one at once, while an announced one is answered, and its data come later, where it has any. A
        send to the own rank that waits for this is finished."""
        fault = fault_of_match(receive, message)
        if fault is not None:
            receive.outcome = f"error {fault} {status_of(receive, message)}"
        if message.waiting is not None:
            message.waiting.outcome = "sent"
        if message.transfer is None:
            if fault is None:
                fill(receive, message, message.values)
            return None
        session = rank.session(message.source)
        session.frames.append(Frame("CTS", transfer=message.transfer, is_wanted=fault is None))
        if fault is None and message.values:
            session.collections[message.transfer] = Collection(receive, message)
        elif fault is None:
            fill(receive, message, [])
        return message.source

    # The network.

    def on_tick(self, event):
        rank = self.rank(event.rank)
        if event.now < rank.clock:
            raise RefusedEvent(errors.CLOCK_BACK)
        rank.clock = event.now
        emitted = []
        for other in sorted(rank.sessions):
            session = rank.sessions[other]
            due = session.due(event.now)
            for number in due:
                session.sent_at[number] = event.now
            emitted += self.frames(rank, other, due)
        return "ok", emitted, None

    def on_restart(self, event):
        rank = self.rank(event.rank)
        if rank.incarnation == LAST_INCARNATION:
            raise RefusedEvent(errors.LIMIT)
        self.ranks[event.rank] = self.new_rank(event.rank, rank.incarnation + 1, len(self.ranks))
        self.names.pop(event.rank, None)
        return "ok", [], None

    def on_stray(self, event):
        self.rank(event.rank)
        raise RefusedEvent(fault_of_bytes(event.bytes))

    def on_deliver(self, event):
        if event.number >= len(self.datagrams):
            raise RefusedEvent(errors.NO_SUCH_DATAGRAM)
        datagram = self.datagrams[event.number]
        rank = self.ranks[datagram.target]
        known = rank.incarnation_of(datagram.source)
        if datagram.source_incarnation < known:
            raise RefusedEvent(errors.STALE_SOURCE)
        if datagram.target_incarnation < rank.incarnation:
            raise RefusedEvent(errors.STALE_TARGET, self.reset_for(rank, datagram))
        learns = datagram.source_incarnation > known
        session = Session() if learns else rank.session(datagram.source)
        self.check(self.fault_of_sequence(session, datagram))
        if datagram.frame is not None and datagram.sequence == session.next:
            self.check(self.fault_of_transfer(session, datagram.frame))
        if learns:
            self.learn(rank, datagram.source, datagram.source_incarnation)
        emitted = self.handle(rank, datagram)
        return "ok", emitted, self.wake(rank)

    @staticmethod
    def fault_of_sequence(session, datagram):
        """A frame that comes a whole window too early, and an acknowledgement of what wasn't sent, are outside the window."""
        if datagram.frame is not None and datagram.sequence >= session.next + WINDOW:
            return errors.OUT_OF_WINDOW
        if datagram.kind == "ACK" and (datagram.sequence > len(session.sent_at)
                                       or any(told >= len(session.sent_at) for told in datagram.told)):
            return errors.OUT_OF_WINDOW
        return None

    @staticmethod
    def fault_of_transfer(session, frame):
        """A frame whose turn it is announces the next transfer, answers one that has no answer, or brings the data that are due."""
        if frame.kind == "EAGER":
            return None
        if frame.kind == "RTS":
            return None if frame.transfer == session.announced else errors.BAD_FRAME
        if frame.kind == "CTS":
            return None if frame.transfer in session.unanswered else errors.BAD_FRAME
        collection = session.collections.get(frame.transfer)
        if collection is None or frame.start != len(collection.values) or len(frame.values) != collection.due():
            return errors.BAD_FRAME
        return None

    @staticmethod
    def reset_for(rank, datagram):
        """What goes out where a datagram is for a former incarnation; none answers a reset."""
        if datagram.kind == "RESET":
            return []
        return [Datagram(rank.number, rank.incarnation, datagram.source, datagram.source_incarnation, "RESET", 0)]

    @staticmethod
    def learn(rank, other, incarnation):
        """The other rank was started anew: what was under way between the two is over, and no message of it can be received any more."""
        rank.known[other] = incarnation
        rank.communicators.learn(other, incarnation)
        former = rank.session(other)
        for request in [send for send, _ in former.unanswered.values()] + [half.receive for half in former.collections.values()]:
            if request is not None:
                request.outcome = f"error {errors.REPLACED}"
        rank.sessions[other] = Session()
        for receive in rank.posted:
            if receive.source == other:
                receive.outcome = f"error {errors.REPLACED}"
        rank.posted = [receive for receive in rank.posted if receive.outcome is None]

        def is_former(message):
            return isinstance(message, Message) and message.source == other and message.incarnation != incarnation

        rank.unexpected = [message for message in rank.unexpected if not is_former(message)]
        for request in rank.requests.values():
            if is_former(request.taken):
                request.taken = REPLACED

    def handle(self, rank, datagram):
        """Takes a datagram in that is neither refused nor late, and gives what goes out."""
        session = rank.session(datagram.source)
        if datagram.frame is not None:
            if datagram.sequence >= session.next:
                session.held[datagram.sequence] = datagram.frame
            self.take_in_turn(rank, session)
            told = tuple(sorted(session.held))
            return [self.to(rank, datagram.source, "ACK", session.next, told=told)] + self.all_in_windows(rank)
        if datagram.kind == "ACK":
            session.acknowledge(datagram.sequence, datagram.told)
            return self.in_window(rank, datagram.source)
        return []

    def take_in_turn(self, rank, session):
        """Takes what is held for as long as the next number is among it. One that breaks the order of a large message is given up then, and
        those behind it are held further."""
        while session.next in session.held:
            frame = session.held.pop(session.next)
            if self.fault_of_transfer(session, frame) is not None:
                return
            session.next += 1
            self.take(rank, session, frame)

    def take(self, rank, session, frame):
        """The next frame of a session is taken: a notice or a message arrives, an announcement is answered, or data come."""
        if frame.kind == "EAGER":
            self.come(rank, frame.message)
        elif frame.kind == "RTS":
            session.announced += 1
            if isinstance(frame.message, Notice):
                session.frames.append(Frame("CTS", transfer=frame.transfer, is_wanted=True))
                session.collections[frame.transfer] = Collection(None, frame.message)
            else:
                self.arrive(rank, frame.message)
        elif frame.kind == "CTS":
            request, message = session.unanswered.pop(frame.transfer)
            if request is not None:
                request.outcome = "sent"
            session.frames += pieces_of(message) if frame.is_wanted else []
        else:
            collection = session.collections[frame.transfer]
            collection.values += frame.values
            if len(collection.values) == len(collection.message.values):
                del session.collections[frame.transfer]
                self.collected(rank, collection)

    def come(self, rank, message):
        """A message is there whole, or a notice is."""
        if isinstance(message, Notice):
            self.tell(rank, rank.communicators.hear(message))
        else:
            self.arrive(rank, message)

    def collected(self, rank, collection):
        """All data of an announced message are there: a notice is heard, those of a receive go to its places."""
        if collection.receive is None:
            self.come(rank, collection.message)
        else:
            fill(collection.receive, collection.message, collection.values)

    def wake(self, rank):
        """Answers the blocked call of a rank once its answer is ready."""
        answer = self.answer_of_collective(rank)
        if answer is not None:
            return f"{rank.number} {answer}"
        if rank.blocked is None:
            return None
        answer = self.answer_to(rank, rank.blocked)
        if answer is None:
            return None
        rank.blocked = None
        return f"{rank.number} {answer}"

    @staticmethod
    def to(rank, other, kind, sequence, frame=None, told=()):
        return Datagram(rank.number, rank.incarnation, other, rank.incarnation_of(other), kind, sequence, frame, told)

    def frames(self, rank, other, numbers):
        frames = rank.session(other).frames
        return [self.to(rank, other, frames[number].kind, number, frames[number]) for number in numbers]

    def in_window(self, rank, other):
        """What has room in the window to another rank by now, and goes out."""
        return self.frames(rank, other, rank.session(other).fill_window(rank.clock))

    def all_in_windows(self, rank):
        """The same to all others, by rising rank."""
        return [datagram for other in sorted(rank.sessions) for datagram in self.in_window(rank, other)]


def answer(text):
    """What `mpisim` must do with a file of these bytes: its output, its standard error and its status."""
    printed = []
    try:
        size, events = reading.read(text)
        world = World(size)
        for line, event in events:
            try:
                printed += world.line(event)
            except NotSet as why:
                raise reading.Refused(errors.SCRIPT, line, str(why)) from None
    except reading.Refused as refused:
        line = reading.line_at(text, refused.line)
        told = reasons.told(refused.reason or reasons.of_line(line), line)
        return lines(printed), f"mpisim: refused {refused.number} line {refused.line}\nmpisim: {told}\n".encode(), 1
    return lines(printed), b"", 0


def lines(printed):
    return "".join(line + "\n" for line in printed).encode()
