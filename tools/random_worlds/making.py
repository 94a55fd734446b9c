"""Makes files of events at random, weighted so that the rare cases come often.

A file has a theme, which says how large its world is and which lines are likely. While it is made, the plain model goes along, so
that lines can be chosen that mean something: a datagram that is on its way, a request that isn't finished, a rank that waits.
What is compared later is the model on the whole text, from its first byte on.
"""

import collecting
import communicators
import floats
import probing
import reading
import rules
import strays
from communicators import Notice
from frames import PIECE_BYTES, Message
from holding import NotSet
from reading import ANY, NULL, TYPES
from themes import LARGE_BYTES, MIXED, ON_COMMUNICATORS, SHARE_OFF_WORLD, SHARE_OF_LARGE, THEMES

CALLS = ("send", "receive", "wait", "test", "cancel", "wait_for_several", "ask", "probe", "receive_message")
TAGS = [0, 1, 2, 7]
COLOURS = ["undefined", 0, 1, 7, 2**32 - 1]
KEYS = [0, 0, 1, -1, 5, 2**31 - 1, -2**31]


class Maker(collecting.Collecting, probing.Probing):
    """A file of events that is being made."""

    def __init__(self, random, theme, size=None):
        self.random = random
        self.theme = theme
        self.size = self.a_size() if size is None else size
        self.world = rules.World(self.size)
        self.lines = [f"world {self.size}"]
        self.is_over = False
        self.new = []  # the numbers of datagrams that were neither delivered nor lost
        self.named = 0

    def a_size(self):
        if self.theme == "crowd":
            return self.random.choice([6, 8, 16, 40, 100, 255, 257, 1000, reading.MOST_RANKS - 1, reading.MOST_RANKS])
        if self.theme == "trees":
            return self.random.choice([3, 4, 4, 5, 6, 7, 8, 9, 12, 15, 16, 17, 24, 31, 33, 40])
        if self.theme in ("window", "queues"):
            return self.random.choice([2, 2, 3])
        return self.random.choices([1, 2, 3, 4, 5], [1, 8, 6, 3, 2])[0]

    # Lines.

    def add(self, text):
        """One more line, which the model runs at once; what it prints."""
        self.lines.append(text)
        before = len(self.world.datagrams)
        try:
            printed = self.world.line(reading.event(text.split()))
        except NotSet:
            self.is_over = True
            return []
        self.new += range(before, len(self.world.datagrams))
        return printed

    def a_line(self):
        """A line of a kind that the theme likes."""
        weights = {**MIXED, **THEMES[self.theme][1]}
        if not communicators.ARE_THERE:
            weights |= dict.fromkeys(ON_COMMUNICATORS, 0)
        kind = self.random.choices(list(weights), list(weights.values()))[0]
        if kind in CALLS and self.random.random() < 0.5 * len(self.blocked_ranks()) / self.size:
            kind = "unblock"
        getattr(self, kind)()

    def blocked_ranks(self):
        """The ranks that wait for requests."""
        return [rank.number for rank in self.world.ranks if rank.blocked is not None]

    def is_free(self, rank):
        return not self.world.ranks[rank].is_blocked()

    def text(self):
        return ("\n".join(self.lines) + "\n").encode()

    # What lines speak of.

    def a_rank(self):
        """A rank that is there; one that isn't blocked, mostly."""
        ranks = [self.random.randrange(self.size) for _ in range(3)]
        free = [rank for rank in ranks if self.is_free(rank)]
        return free[0] if free and self.random.random() < 0.95 else ranks[0]

    def a_name(self, first):
        """A name that is new, or now and then one of 16 letters and digits or one that was used before."""
        kind = self.random.random()
        if kind < 0.04:
            return first
        self.named += 1
        if kind < 0.06:
            return (first + str(self.named)).ljust(16, "x")
        return first + str(self.named)

    def a_type(self):
        return self.random.choice(list(TYPES)) if self.random.random() < 0.4 else "int32"

    def a_value(self, kind):
        if kind in floats.FLOATS:
            return floats.text(kind, self.a_pattern(kind))
        low, high = reading.lowest(kind), reading.highest(kind)
        return self.random.choice([low, high, 0, 1, 2, 3, 9, self.random.randint(low, high)])

    def a_pattern(self, kind):
        """The bits of a float: of one that comes often, or any; a NaN has no payload where it is written."""
        size = reading.TYPES[kind][0]
        usual = ["0", "-0", "1", "-1", "0.1", "1e-45", "5e-324", "inf", "-inf", "nan", "16777216", "9007199254740992", "-9007199254740992"]
        if self.random.random() < 0.7:
            return floats.read(kind, self.random.choice(usual))
        return self.random.randrange(256**size)

    def a_tag(self):
        return self.random.choice(TAGS + [rules.HIGHEST_TAG] if self.random.random() < 0.1 else TAGS)

    def a_length(self):
        return self.random.choices([0, 1, 2, 3, 5], [1, 6, 3, 2, 1])[0]

    def a_large_length(self, kind):
        """How many elements a large message has: mostly a few KiB, now and then more than go out at one time."""
        is_usual = self.random.random() < 0.97
        count = self.random.choice(LARGE_BYTES if is_usual else [20000, 66000, 70000])
        return -(-count // TYPES[kind][0])

    def is_large(self):
        return self.random.random() < SHARE_OF_LARGE.get(self.theme, 0.03)

    def a_buffer(self, rank, kind=None, length=None):
        """Sets a buffer that isn't lent, and gives its name."""
        kind = self.a_type() if kind is None else kind
        length = self.a_length() if length is None else length
        lent = self.world.names_of(rank).lent
        name = self.a_name("b")
        while name in lent:
            name = self.a_name("b")
        if length > 100:
            cuts = sorted(self.random.randint(0, length) for _ in range(5))
            words = [f"{end - start}*{self.a_value(kind)}" for start, end in zip([0] + cuts, cuts + [length]) if end > start]
        elif length > 4 or self.random.random() < 0.1:
            first = self.random.randint(0, length)
            words = [f"{first}*{self.a_value(kind)}", f"{length - first}*{self.a_value(kind)}"]
        else:
            words = [str(self.a_value(kind)) for _ in range(length)]
        self.add(" ".join([str(rank), "buf", name, kind] + words))
        return name

    def a_set_buffer(self, rank):
        """A buffer that is set and isn't lent; one that is there, or a new one."""
        names = self.world.names_of(rank)
        free = [name for name in names.buffers if name not in names.lent]
        if free and self.random.random() < 0.5:
            return self.random.choice(free)
        return self.a_buffer(rank)

    def a_layout(self, rank):
        """Sets a layout, and gives its name."""
        layouts = self.world.names_of(rank).layouts
        old = self.random.choice(list(layouts)) if layouts and self.random.random() < 0.3 else self.a_type()
        name = self.a_name("l")
        few = [0, 1, 1, 2, 2, 3]
        form = self.random.choice(["contiguous", "vector", "indexed"])
        if form == "contiguous":
            words = [str(self.random.choice(few))]
        elif form == "vector":
            words = [str(self.random.choice(few)) for _ in range(2)] + [str(self.random.choice([0, 1, 2, 3, 5]))]
        else:
            words = [f"{self.random.choice(few)}:{self.random.choice([0, 1, 2, 4, 7])}" for _ in range(self.random.choice([0, 1, 2, 2, 3]))]
        self.add(" ".join([str(rank), "type", name, form] + words + [old]))
        return name

    def set_layout(self):
        """A layout; now and then one that is at a limit or above it."""
        rank = self.a_rank()
        if self.random.random() < 0.8:
            self.a_layout(rank)
            return
        big = self.random.choice([2**20, 2**20 + 1, 2**31 - 1, 2**31, 2**32 + 1, 2**64 + 3])
        words = self.random.choice([f"contiguous {big}", f"vector 2 1 {big}", f"vector {big} 0 1", f"vector 0 {big} 1", f"indexed 1:{big}",
                                    f"indexed {big}:0", f"indexed 1:1 1:{big}", f"indexed 0:{big}", f"vector 1 1 {big}"])
        self.add(f"{rank} type {self.a_name('l')} {words} {self.a_type()}")

    def through(self, rank, buffer):
        """An ending `as L N`, or none; mostly one that the buffer has room for."""
        names = self.world.names_of(rank)
        if buffer not in names.buffers or self.random.random() > (0.7 if self.theme == "layouts" else 0.15):
            return ""
        kind, values = names.buffers[buffer]
        fit = [(name, copies) for name, layout in names.layouts.items() for copies in (0, 1, 2, 3)
               if layout.type == kind and layout.room(copies) <= len(values) and layout.count(copies) < 2000]
        if fit and self.random.random() < 0.85:
            name, copies = self.random.choice(fit)
        elif names.layouts and self.random.random() < 0.6:
            name, copies = self.random.choice(list(names.layouts)), self.random.choice([0, 1, 1, 2, 5, 2**20, 2**40, 2**70])
        else:
            name = self.a_layout(rank)
            copies = self.random.choice([0, 1, 1, 2])
        return f" as {name} {copies}"

    # Calls.

    def set_buffer(self):
        self.a_buffer(self.a_rank(), length=self.random.choice([0, 1, 4, 40]))

    def send(self):
        rank = self.a_rank()
        target = rank if self.size == 1 or self.random.random() < 0.06 else self.another(rank)
        if self.is_large():
            kind = self.random.choice(list(TYPES))
            buffer = self.a_buffer(rank, kind, self.a_large_length(kind))
        elif self.random.random() < 0.04:
            kind = self.a_type()
            buffer = self.a_buffer(rank, kind, PIECE_BYTES // TYPES[kind][0])
        else:
            buffer = self.a_set_buffer(rank)
        if self.random.random() < 0.03:
            target = NULL
        if not self.is_over:
            ending = self.through(rank, buffer)
            self.add(f"{rank} {self.a_send()} {self.a_name('q')} {self.in_communicator(rank, target)} {self.a_tag()} {buffer}{ending}")

    def in_communicator(self, rank, other, context=None):
        """A communicator and a rank in it, by which one rank names another one: world, or one of its own that has this member; of the
        context that is asked for, where there is one."""
        names = self.on(rank, context) if context is not None else self.off_world(rank)
        names = [name for name in names if other in (ANY, NULL) or other in self.ranks_of(rank, name)]
        if not names or (context is None and self.random.random() > SHARE_OFF_WORLD.get(self.theme, 0.05)):
            return f"world {other}"
        name = self.random.choice(names)
        return f"{name} {other if other in (ANY, NULL) else self.ranks_of(rank, name).index(other)}"

    def held_as(self, rank, name):
        """The communicator of a name, or None for MPI_COMM_NULL."""
        place = self.world.place_of(rank, name)
        return None if place is None else self.world.ranks[rank].communicators.at(place)

    def ranks_of(self, rank, name):
        return self.held_as(rank, name).ranks()

    def off_world(self, rank):
        """Self, and the names of a rank's communicators that are set and aren't null."""
        if not communicators.ARE_THERE:
            return []
        return [name for name in ["self", *self.world.names_of(rank).communicators] if self.held_as(rank, name) is not None]

    def on(self, rank, context):
        """The names of a rank's communicator of this context."""
        return [name for name in ["world", *self.off_world(rank)] if self.held_as(rank, name).context == context]

    def another(self, rank):
        if self.theme in ("window", "queues") and self.random.random() < 0.9:
            return 0 if rank == 1 else 1
        return self.random.choice([other for other in (self.random.randrange(self.size) for _ in range(8)) if other != rank]
                                  or [(rank + 1) % self.size])

    def receive(self):
        """A receive: of a message that is there or on its way, mostly, and then sometimes of another type or too short."""
        rank, context = self.a_rank(), None
        message = self.a_message_for(rank)
        if message is None or self.random.random() < 0.3:
            source = ANY if self.random.random() < 0.4 else self.random.randrange(self.size)
            tag = ANY if self.random.random() < 0.4 else self.a_tag()
            buffer = self.a_set_buffer(rank)
        else:
            context = None if self.random.random() < 0.1 else message.context
            source = ANY if self.random.random() < 0.4 else message.source
            tag = ANY if self.random.random() < 0.4 else message.tag
            kind = self.a_type() if self.random.random() < 0.1 else message.type
            longer = self.random.choices([-1, 0, 1, 2, 9], [2, 8, 2, 1, 1])[0]
            buffer = self.a_buffer(rank, kind, max(0, len(message.values) + longer))
        if self.random.random() < 0.03:
            source = NULL
        if not self.is_over:
            ending = self.through(rank, buffer)
            self.add(f"{rank} irecv {self.a_name('r')} {self.in_communicator(rank, source, context)} {tag} {buffer}{ending}")

    def a_message_for(self, rank):
        messages = [self.world.datagrams[number].frame.message for number in self.new[-30:]
                    if self.world.datagrams[number].target == rank and self.world.datagrams[number].kind in ("EAGER", "RTS")]
        messages = [message for message in messages if not isinstance(message, Notice)]
        messages += self.world.ranks[rank].unexpected[:5]
        return self.random.choice(messages) if messages else None

    def a_request(self, rank):
        """The name of a request: a finished one more often than one that blocks the rank."""
        requests = self.world.names_of(rank).requests
        finished = [name for name, request in requests.items() if request is not None and request.outcome is not None]
        receives = [name for name in finished if requests[name].values is not None]
        waiting = [name for name, request in requests.items() if request is not None and request.outcome is None]
        ended = [name for name, request in requests.items() if request is None]
        pools = [(receives, 40), (finished, 20), (waiting, 14), (ended, 4), ([NULL], 2)]
        pools = [(pool, weight) for pool, weight in pools if pool]
        pool = self.random.choices([pool for pool, _ in pools], [weight for _, weight in pools])[0]
        return self.random.choice(pool)

    def wait(self, rank=None):
        rank = self.a_rank() if rank is None else rank
        self.add(f"{rank} wait {self.a_request(rank)}")

    def test(self):
        rank = self.a_rank()
        self.add(f"{rank} test {self.a_request(rank)}")

    def cancel(self):
        """A cancel: of a receive that waits, mostly."""
        rank = self.a_rank()
        waiting = [name for name, request in self.world.names_of(rank).requests.items()
                   if request is not None and request.outcome is None]
        name = self.random.choice(waiting) if waiting and self.random.random() < 0.7 else self.a_request(rank)
        self.add(f"{rank} cancel {name}")

    def half_received(self):
        """Each receive whose data are on their way, with its rank and the rank that they come from."""
        return [(rank.number, other, half.receive) for rank in self.world.ranks for other, session in rank.sessions.items()
                for half in session.collections.values() if half.receive is not None]

    def a_half_received(self):
        """One of these, or a new one where there is none and the network brings all."""
        if not self.half_received():
            rank = self.a_rank()
            source = self.another(rank)
            if source == rank or self.size == 1 or not self.is_free(source):
                return None
            kind = self.random.choice(list(TYPES))
            length = self.a_large_length(kind)
            into, tag = self.a_buffer(rank, kind, length), self.random.choice([11, 12])
            self.add(f"{rank} irecv {self.a_name('r')} world {self.random.choice([ANY, source])} {tag} {into}")
            self.add(f"{source} {self.a_send()} {self.a_name('q')} world {rank} {tag} {self.a_buffer(source, kind, length)}")
            self.bring(source, rank, self.random.choice([3, 5, 5, 6, 7, 8]))
        halves = self.half_received()
        return self.random.choice(halves) if halves else None

    def name_of(self, rank, request):
        names = self.world.names_of(rank).requests
        return next((name for name, named in names.items() if named is request), NULL)

    def cancel_in_the_middle(self):
        """A cancel of a receive that was matched, whose data are on their way."""
        half = self.a_half_received()
        if half is not None:
            rank, source, receive = half
            self.add(f"{rank} cancel {self.name_of(rank, receive)}")
            if self.random.random() < 0.5:
                self.bring(source, rank)
                self.add(f"{rank} test {self.name_of(rank, receive)}")

    def restart_in_the_middle(self):
        """A rank whose large message is on its way is started anew, and its target learns of it, mostly; then a half receive is looked
        at."""
        half = self.a_half_received()
        announced = [(rank.number, message.source, None) for rank in self.world.ranks for message in rank.unexpected
                     if message.transfer is not None]
        taken = [(rank, held.taken.source, None) for rank, _, held in self.taken_out() if held != NULL and isinstance(held.taken, Message)]
        choices = announced[:3] + taken[:3] + ([] if half is None else [half] * 3)
        if not choices or self.is_over:
            return
        rank, source, receive = self.random.choice(choices)
        self.add(f"restart {source}")
        buffer = self.a_buffer(source)
        self.add(f"{source} isend {self.a_name('q')} world {rank} {self.a_tag()} {buffer}")
        if self.random.random() < 0.9:
            self.bring(source, rank)
        replaced = [name for other, name, held in self.taken_out() if other == rank and held != NULL and held.taken == rules.REPLACED]
        if replaced and not self.is_over:
            self.add(f"{rank} mrecv {self.random.choice(replaced)} {self.a_set_buffer(rank)}")
        elif receive is not None and not self.is_over:
            self.add(f"{rank} {self.random.choice(['wait', 'test'])} {self.name_of(rank, receive)}")

    def wait_for_several(self):
        """A wait for any or all of a list, in which now and then one stands twice."""
        rank = self.a_rank()
        names = [name for name, request in self.world.names_of(rank).requests.items() if request is not None]
        self.random.shuffle(names)
        names = names[:self.random.choice([0, 1, 2, 2, 3, 4, 8])]
        if self.random.random() < 0.25:
            names.insert(self.random.randrange(len(names) + 1), self.a_request(rank))
        if self.random.random() < 0.15:
            names.insert(self.random.randrange(len(names) + 1), NULL)
        self.add(" ".join([str(rank), self.random.choice(["waitany", "waitall"])] + names))

    def unblock(self):
        """Somebody sends what a blocked rank waits for, or what comes near it, and the network brings all of it."""
        blocked = self.blocked_ranks()
        if not blocked:
            return
        rank = self.random.choice(blocked)
        receive = self.awaited(rank)
        if receive is None:
            return
        if not receive.is_receive():
            self.receive_from(rank, receive)
            return
        if receive.source is None:
            self.bring_data(rank, receive)
            return
        source = self.another(rank) if receive.source == ANY and self.size > 1 else receive.source
        members = [member for member in receive.group or [] if member != rank]
        if receive.source == ANY and members:
            source = self.random.choice(members)
        if source in (rank, ANY) or not self.is_free(source):
            self.restart_one_of(blocked)
            return
        tag = self.a_tag() if receive.tag == ANY or self.random.random() < 0.1 else receive.tag
        kind = self.a_type() if self.random.random() < 0.15 else receive.type
        shorter = self.random.choices([-1, 0, 1], [1, 6, 2])[0]
        buffer = self.a_buffer(source, kind, min(6000 // TYPES[kind][0], max(0, len(receive.places) - shorter)))
        if not self.is_over:
            named = self.in_context(source, rank, receive.context)
            if named is not None:
                self.add(f"{source} {self.a_send()} {self.a_name('q')} {named} {tag} {buffer}")
                self.bring(source, rank)

    def in_context(self, rank, other, context):
        """How one rank names another one on the communicator of a context, where it can."""
        names = [name for name in self.on(rank, context) if other in self.ranks_of(rank, name)]
        return f"{names[0]} {self.ranks_of(rank, names[0]).index(other)}" if names else None

    def awaited(self, rank):
        """An operation that a blocked rank waits for, one of several."""
        waiting = [request for request in self.world.ranks[rank].blocked.requests if request is not None and request.outcome is None]
        return self.random.choice(waiting) if waiting else None

    def receive_from(self, rank, send):
        """The rank that a blocked send goes to takes its message, and the network brings all of it."""
        if not self.is_free(send.target):
            self.restart_one_of([send.target])
            return
        unanswered = self.world.ranks[rank].session(send.target).unanswered.values()
        message = next(message for request, message in unanswered if request is send)
        shorter = self.random.choices([-1, 0, 1], [1, 6, 2])[0]
        taken = self.name_of_taken(send.target, message)
        buffer = self.a_buffer(send.target, message.type, max(0, len(message.values) + shorter))
        if taken is not None and not self.is_over:
            self.add(f"{send.target} mrecv {taken} {buffer}")
            self.bring(rank, send.target)
        elif not self.is_over:
            tag = self.random.choice([ANY, message.tag])
            named = self.in_context(send.target, rank, message.context)
            if named is not None:
                word = named.split()[0] if self.random.random() < 0.5 else None
                self.add(f"{send.target} irecv {self.a_name('r')} {named if word is None else word + ' any'} {tag} {buffer}")
                self.bring(rank, send.target)

    # Communicators.

    def a_communicator(self, rank):
        """The name of a communicator of a rank: one that isn't null, mostly."""
        names = self.world.names_of(rank).communicators
        null = [name for name, place in names.items() if place is None]
        if null and self.random.random() < 0.25:
            return self.random.choice(null)
        own = self.off_world(rank)[1:]
        return self.random.choice(own) if own and self.random.random() < 0.6 else self.random.choice(["world", "world", "world", "self"])

    def a_rank_with_names(self):
        """A free rank that named communicators, where there is one; mostly one that has MPI_COMM_NULL among them."""
        free = [rank for rank in range(self.size) if self.is_free(rank) and self.world.names_of(rank).communicators]
        null = [rank for rank in free if None in self.world.names_of(rank).communicators.values()]
        if null and self.random.random() < 0.6:
            return self.random.choice(null)
        return self.random.choice(free) if free else self.a_rank()

    def ask(self):
        rank = self.a_rank_with_names()
        kind = self.random.choice(["who", "members", "compare"])
        words = [self.a_communicator(rank) for _ in range(2 if kind == "compare" else 1)]
        several = [name for name in ["world", *self.off_world(rank)] if len(self.ranks_of(rank, name)) > 1]
        if kind == "compare" and several and self.random.random() < 0.7:
            words = [self.random.choice(several) for _ in range(2)]
        self.add(" ".join([str(rank), kind] + words))

    def entering(self, rank, name, kind, colours):
        """One rank enters a collective that makes a communicator."""
        made = self.a_name("c")
        if kind == "dup":
            self.add(f"{rank} dup {made} {name}")
        else:
            self.add(f"{rank} split {made} {name} {self.random.choice(colours)} {self.random.choice(KEYS)}")

    def enter_alone(self):
        """One rank enters a collective, whatever the others do; of self, now and then."""
        rank = self.a_rank()
        self.entering(rank, self.a_communicator(rank), self.random.choice(["dup", "split"]), COLOURS)

    def members_that_enter(self):
        """The free members of a rank's communicator, each with its name for it, in any order; seldom one of them is left out."""
        first = self.a_rank()
        communicator = self.held_as(first, self.a_communicator(first))
        if communicator is None:
            return []
        found = [(rank, self.on(rank, communicator.context)) for rank in communicator.ranks() if self.is_free(rank)]
        found = [(rank, names[0]) for rank, names in found if names]
        self.random.shuffle(found)
        return found[1:] if self.random.random() < 0.06 else found

    def make_communicator(self, until=None):
        """All members of a communicator enter a dup or a split, while the network goes on; seldom one enters the other kind."""
        entering = self.members_that_enter()
        kind = self.random.choice(["dup", "split"])
        colours = self.random.choice([COLOURS, ["undefined", 0], [0, 1], [3], [3]])
        if len(entering) > 40:
            return
        for number, (rank, name) in enumerate(entering):
            if self.is_over or number == until:
                return
            other = {"dup": "split", "split": "dup"}[kind]
            if self.is_free(rank):
                self.entering(rank, name, other if self.random.random() < 0.04 else kind, colours)
            for _ in range(self.random.choice([0, 0, 1, 3])):
                self.deliver_new()
        for _ in range(self.random.choice([0, 4 * len(entering), 6 * len(entering)])):
            self.deliver_new()

    def restart_in_a_collective(self):
        """A member of a communicator is started anew while others are in a collective of it, and they learn of it, mostly."""
        self.random.choice([self.make_communicator, self.move_elements])(until=self.random.choice([1, 1, 2, 3]))
        inside = [rank for rank in self.world.ranks if rank.communicators.is_busy()]
        if not inside or self.is_over:
            return
        ranks = self.random.choice(inside).communicators.present.communicator.ranks()
        rank = self.random.choice(ranks)
        self.add(f"restart {rank}")
        if self.random.random() < 0.8 and len(ranks) > 1:
            other = self.random.choice([member for member in ranks if member != rank])
            self.add(f"{rank} isend {self.a_name('q')} world {other} {self.a_tag()} {self.a_buffer(rank)}")
            self.bring(rank, other)

    def bring_some(self):
        """The network brings what is on its way between two ranks, of which one sent the oldest datagram."""
        if self.new:
            datagram = self.world.datagrams[self.new[0]]
            self.bring(datagram.source, datagram.target)

    def bring(self, source, rank, count=None):
        """Delivers what is on its way between two ranks, the oldest first."""
        for _ in range(self.random.choice([12, 40]) if count is None else count):
            here = [number for number in self.new
                    if {self.world.datagrams[number].source, self.world.datagrams[number].target} == {source, rank}]
            if not here or self.is_over:
                return
            self.new.remove(here[0])
            self.deliver(here[0])

    def restart_one_of(self, blocked):
        """Nobody can send to a rank that waits for itself, or for one that is blocked: one of them is started anew."""
        if self.random.random() < 0.15:
            self.add(f"restart {self.random.choice(blocked)}")

    def is_owed(self, rank):
        """Whether a request of this rank has a name and is finished."""
        return any(request is not None and request.outcome is not None for request in self.world.names_of(rank).requests.values())

    def rename(self):
        """A request's name that is set again while its receive isn't answered."""
        rank = self.a_rank()
        open_names = [name for name, request in self.world.names_of(rank).requests.items() if request is not None]
        if open_names:
            buffer = self.a_set_buffer(rank)
            what = self.random.choice(["irecv", "isend"])
            name, target = self.random.choice(open_names), self.in_communicator(rank, self.random.randrange(self.size))
            self.add(f"{rank} {what} {name} {target} 1 {buffer}")

    def refused_call(self):
        """A call with a fault, or with several."""
        rank = self.a_rank()
        blocked = [other for other in range(self.size) if not self.is_free(other)]
        if blocked and self.random.random() < 0.4:
            rank = self.random.choice(blocked)
        kind = self.random.choice(["long", "tag", "tag", "rank", "rank", "several", "absent", "plain"])
        if communicators.ARE_THERE and self.random.random() < 0.2:
            self.refused_on_communicators(rank if self.random.random() < 0.4 else self.a_rank_with_names())
            return
        target, tag = self.random.randrange(self.size), self.a_tag()
        length = None
        if kind in ("tag", "several"):
            tag = self.random.choice([2**31, 2**31 + 7, 2**32 + 7, 2**64 + 1, 10**30])
        if kind in ("rank", "several"):
            target = self.random.choice([self.size, self.size + 1, 256, 257, 2**16, 2**32, 2**64, 10**25])
        if kind == "absent":
            rank = self.random.choice([self.size, self.size + 3, 256, 2**32])
        sends = self.random.random() < 0.55
        if sends and (kind == "long" or (kind == "several" and self.random.random() < 0.3)):
            length = self.random.choices([128, 129, 2**17, 2**17 + 1], [1, 1, 0.3, 12])[0]
        buffer = self.a_buffer(rank, "uint64" if length else None, length)
        word = "world" if kind == "absent" or not communicators.ARE_THERE or self.random.random() < 0.7 else self.a_communicator(rank)
        if not sends and kind != "absent" and self.random.random() < 0.35:
            self.refused_probe(rank, word, target, tag)
        elif sends:
            if kind == "tag" and self.random.random() < 0.4:
                tag = ANY
            self.add(f"{rank} isend {self.a_name('q')} {word} {target} {tag} {buffer}")
        elif kind == "absent" and self.random.random() < 0.3:
            self.add(f"{rank} wait {NULL}")
        else:
            self.add(f"{rank} irecv {self.a_name('r')} {word} {target} {tag} {buffer}")

    def refused_on_communicators(self, rank):
        """A collective or a question at a rank that isn't there, is blocked, or names MPI_COMM_NULL."""
        names = self.world.names_of(rank).communicators
        null = [name for name, place in names.items() if place is None]
        words = null if null and self.random.random() < 0.6 else ["world", "self", *names]
        if self.random.random() < 0.3:
            rank, words = self.random.choice([self.size, 256, 2**32]), ["world", "self"]
        one, other = self.random.choice(words), self.random.choice(words)
        self.add(f"{rank} " + self.random.choice([f"dup d {one}", f"split d {one} 0 0", f"who {one}", f"members {one}",
                                                  f"compare {one} {other}",
                                                  f"barrier {one}"]))

    # Events.

    def deliver(self, number):
        self.add(f"deliver {number}")

    def deliver_new(self):
        """A datagram that is on its way: the oldest one, mostly."""
        if self.new:
            place = 0 if self.random.random() < 0.75 else self.random.randrange(len(self.new))
            self.deliver(self.new.pop(place))

    def come_early(self):
        """Frames from one rank to another come in any order, but for some that are lost; what their target says of them comes or is lost,
        too. Then the clock of their sender goes on, mostly by as much as it waits before it sends again."""
        here = self.frames_of_a_pair()
        if not here:
            return
        source, target = self.world.datagrams[here[0]].source, self.world.datagrams[here[0]].target
        order = self.random.choice([here[1:] + here[:1], here[::-1], self.random.sample(here, len(here))])
        for number in order:
            self.new.remove(number)
            if self.random.random() < 0.8:
                self.deliver(number)
            told = [new for new in self.new if self.is_told_by(new, target, source)]
            if told and self.random.random() < 0.4:
                self.new.remove(told[-1])
                self.deliver(told[-1])
        if not self.is_over:
            clock = self.world.ranks[source].clock
            self.add(f"tick {source} {min(clock + self.random.choice([0, 10, 20, 20, 20]), reading.LARGEST_TIME)}")

    def is_told_by(self, number, rank, other):
        """Whether a datagram is an acknowledgement from one rank to another one."""
        datagram = self.world.datagrams[number]
        return datagram.kind == "ACK" and (datagram.source, datagram.target) == (rank, other)

    def frames_of_a_pair(self):
        """The frames that are on their way from one rank to another; where there are few, it sends some more before."""
        frames = [number for number in self.new if self.world.datagrams[number].frame is not None]
        if frames:
            drawn = self.world.datagrams[self.random.choice(frames)]
            source, target = drawn.source, drawn.target
        elif self.size > 1:
            source = self.a_rank()
            target = self.another(source)
        else:
            return []
        if self.is_free(source) and self.random.random() < 0.7:
            buffer = self.a_set_buffer(source)
            for _ in range(0 if self.is_over else self.random.choice([1, 2, 3, 5, 8, 66])):
                self.add(f"{source} {self.a_send()} {self.a_name('q')} world {target} {self.a_tag()} {buffer}")
        return [number for number in self.new if self.world.datagrams[number].frame is not None
                and (self.world.datagrams[number].source, self.world.datagrams[number].target) == (source, target)]

    def deliver_of_any_pair(self):
        """The oldest datagram that is on its way from one rank to another one, whichever they are."""
        if not self.new or self.is_over:
            return
        drawn = self.world.datagrams[self.random.choice(self.new)]
        number = next(number for number in self.new
                      if (self.world.datagrams[number].source, self.world.datagrams[number].target) == (drawn.source, drawn.target))
        self.new.remove(number)
        self.deliver(number)

    def deliver_any(self):
        """Any datagram of the last ones, which may have been delivered before."""
        count = len(self.world.datagrams)
        if count:
            self.deliver(self.random.randrange(max(0, count - 12), count))

    def deliver_late(self):
        """Any datagram at all."""
        if self.world.datagrams:
            self.deliver(self.random.randrange(len(self.world.datagrams)))

    def lose(self):
        if self.new:
            self.new.pop(self.random.randrange(len(self.new)))

    def tick(self):
        rank = self.a_rank()
        step = self.random.choices([0, 1, 19, 20, 21, 40, 10**6], [1, 2, 3, 6, 2, 1, 0.2])[0]
        self.add(f"tick {rank} {min(self.world.ranks[rank].clock + step, reading.LARGEST_TIME)}")

    def restart(self):
        self.add(f"restart {self.a_rank()}")

    def stray(self):
        rank = self.random.randrange(self.size + 1) if self.random.random() < 0.1 else self.a_rank()
        self.add(f"stray {rank} {strays.a_stray(self.random, self.size).hex()}")

    def refused_event(self):
        """An event at a rank or of a datagram that isn't there, or a clock that goes back."""
        absent = self.random.choice([self.size, self.size + 1, 256, 2**16, 2**32, 2**64])
        kind = self.random.choice(["restart", "tick", "deliver", "clock", "clock"])
        rank = self.a_rank()
        clock = self.world.ranks[rank].clock
        if kind == "restart":
            self.add(f"restart {absent}")
        elif kind == "tick":
            self.add(f"tick {absent} {self.random.choice([0, 20, reading.LARGEST_TIME])}")
        elif kind == "deliver":
            self.add(f"deliver {self.random.choice([len(self.world.datagrams), 2**32, 2**64, 10**40])}")
        elif clock > 0:
            self.add(f"tick {rank} {self.random.choice([0, clock - 1, self.random.randrange(clock)])}")


def fill_window(maker):
    """More sends of one rank to another than are out at one time."""
    buffer = maker.a_buffer(0, "int32", 1)
    count = maker.random.choice([64, 65, 66, 90, 130, 200])
    for number in range(count):
        maker.add(f"0 isend q{number} world 1 {number % 5} {buffer}")
        if maker.random.random() < 0.1:
            maker.a_line()
    for _ in range(maker.random.choice([0, 3, 40])):
        maker.deliver_new()


def fill_queues(maker):
    """Many receives that wait, or many messages."""
    count = maker.random.choice([30, 65, 70, 100])
    if maker.random.random() < 0.5:
        for _ in range(count):
            maker.a_buffer(1, "int32", 1)
            buffer = next(reversed(maker.world.names_of(1).buffers))
            if buffer in maker.world.names_of(1).lent:
                continue
            source = maker.random.choice([ANY, 0, 0, 1])
            maker.add(f"1 irecv {maker.a_name('r')} world {source} {maker.random.choice(TAGS + [ANY])} {buffer}")
    else:
        buffer = maker.a_buffer(0, "int32", 1)
        for number in range(count):
            maker.add(f"0 isend q{number} world 1 {maker.random.choice(TAGS)} {buffer}")
            maker.deliver_new()
            if maker.random.random() < 0.9:
                maker.deliver_new()


def finish(maker):
    """Delivers what is on its way, and waits for what is finished, so that most outcomes are seen."""
    for _ in range(200 if maker.theme.startswith("large") else min(60, len(maker.new))):
        maker.deliver_new()
    for rank in range(min(maker.size, 8)):
        for _ in range(4):
            if maker.is_free(rank) and maker.is_owed(rank):
                maker.wait(rank)
    for rank, name, message in maker.taken_out()[:6]:
        if maker.is_free(rank) and not maker.is_over:
            maker.receive_taken(rank, name, message)
    for _ in range(2):
        maker.unblock()


def a_world(random):
    """The bytes of a file whose lines are all well formed."""
    theme = random.choices(list(THEMES), [weight for weight, _ in THEMES.values()])[0]
    maker = Maker(random, theme)
    if theme == "window":
        fill_window(maker)
    if theme == "queues":
        fill_queues(maker)
    for _ in range(random.choice([4, 10, 20, 30] if theme == "trees" else [5, 20, 40, 80, 120])):
        if not maker.is_over:
            maker.a_line()
    if not maker.is_over:
        finish(maker)
    return maker.text()
