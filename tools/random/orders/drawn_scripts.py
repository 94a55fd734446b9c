"""Random scripts that are small, and whose outcomes depend on what comes first.

Four kinds in turn: races, in which each message has a receive that may take it, and wild ones, in which each rank draws its lines by
itself; each of the two with and without half of its messages synchronous. Messages over 1,024 bytes are among them all.
"""

SHORT, LONG = "int64 %d", "int64 130*%d"
ROOM = ("int64 0",) * 6 + ("int64 130*0",) * 12 + ("int32 0",)
COLLECTIVES = ("barrier", "bcast", "reduce", "allreduce", "gather", "scatter")

# How many messages a race has at most, and how much a rank of a wild script does, of few ranks and of more.
MOST_MESSAGES, MESSAGES_OF_MORE = {2: 7, 3: 6}, 4
MOST_TURNS, TURNS_OF_MORE = {2: 7, 3: 5}, 3


class Script:
    """A script that is being drawn: lines by rank."""

    def __init__(self, source, size, is_synchronous):
        self.source, self.size, self.is_synchronous = source, size, is_synchronous
        self.lines = [[] for _ in range(size)]
        self.open = [[] for _ in range(size)]  # the requests that a rank has started
        self.received = [[] for _ in range(size)]  # the buffers of its receives, each with its request
        self.comms = ("world",)
        self.count = 0

    def chance(self, share):
        return self.source.random() < share

    def name(self, letter):
        self.count += 1
        return f"{letter}{self.count}"

    def add(self, rank, *lines):
        self.lines[rank] += lines

    def text(self):
        return "".join(f"on {rank}\n" + "".join(line + "\n" for line in lines) for rank, lines in enumerate(self.lines))

    # Messages.

    def sent(self, long=0.35):
        """A buffer to be sent, with a number of its own."""
        name = self.name("b")
        return name, f"buf {name} {(LONG if self.chance(long) else SHORT) % self.count}"

    def copy_world(self):
        """Each rank makes a copy of world, which messages go on as well."""
        for rank in range(self.size):
            self.add(rank, "dup d world")
        self.comms = ("world", "d")

    def comm(self):
        return self.source.choice(self.comms)

    def send(self, rank, target, tag, comm="world"):
        buffer, line = self.sent()
        where = f"{'self 0' if target == rank and self.chance(0.3) else f'{comm} {target}'} {tag} {buffer}"
        if "130*" in line and self.chance(0.15):
            where += f" as {self.name('l')} 1"
            line += f"\ntype l{self.count} contiguous {self.source.choice((1, 130))} int64"
        if self.is_synchronous and self.chance(0.5):
            kind = "issend"
        else:
            kind = self.source.choice(("send", "isend", "isend"))
        if kind == "send":
            self.add(rank, line, f"send {where}")
            return
        request = self.name("q")
        self.add(rank, line, f"{kind} {request} {where}")
        self.open[rank].append(request)

    def receive(self, rank, source, tag, comm="world"):
        """A receive of a message of this source and tag, or of more."""
        wanted = comm + self.source.choice((f" any {tag}", " any any", " any any", f" {source} any", f" {source} {tag}"))
        into = self.name("r")
        line = f"buf {into} {self.source.choice(ROOM)}"
        kind = self.source.random()
        if kind < 0.3:
            self.add(rank, line, f"recv {wanted} {into}", *self.shown(into))
        elif kind < 0.88:
            request = self.name("q")
            self.add(rank, line, f"irecv {request} {wanted} {into}")
            self.open[rank].append(request)
            self.received[rank].append((request, into))
        else:
            message = self.name("m")
            received = (f"mrecv {message} {into}", *self.shown(into)) if self.chance(0.6) else ()
            self.add(rank, line, f"improbe {message} {wanted}", *received)

    def shown(self, buffer):
        return self.source.choice(((f"print {buffer}",), ("status",), ("status",), ()))

    def look(self, rank):
        """A probe, or a test of what was started."""
        if self.open[rank] and self.chance(0.5):
            self.add(rank, f"test {self.source.choice(self.open[rank])}")
            return
        where = self.source.choice(("any", self.source.randrange(self.size)))
        self.add(rank, f"iprobe {self.comm()} {where} {self.source.choice(('any', 0, 1))}", *self.source.choice((("status",), ())))

    def finish(self, rank, share=1.0):
        """What was started is waited for, in one way or another."""
        requests = [it for it in self.open[rank] if self.chance(share)]
        self.source.shuffle(requests)
        if requests and self.chance(0.15):
            self.add(rank, f"cancel {self.source.choice(requests)}")
        if len(requests) > 1 and self.chance(0.4):
            self.add(rank, "waitany " + " ".join(requests), *(f"test {it}" for it in requests if self.chance(0.5)))
        if len(requests) > 1 and self.chance(0.3):
            self.add(rank, "waitall " + " ".join(requests))
        else:
            for request in requests:
                self.add(rank, f"wait {request}")
        for request, into in self.received[rank]:
            if request in requests and self.chance(0.3):
                self.add(rank, f"print {into}")
        self.open[rank] = [it for it in self.open[rank] if it not in requests]

    # Collectives.

    def collective(self, rank, kind, root, long):
        """What a member of world enters; now and then what it gets is printed."""
        element = LONG if long else SHORT
        buffer, into = self.name("c"), self.name("g")
        own, got = f"buf {buffer} {element % (rank + 1)}", into if kind == "allreduce" or rank == root else None
        if kind == "barrier":
            self.add(rank, "barrier world")
            return
        if kind == "bcast":
            lines, got = (own, f"bcast world {root} {buffer}"), buffer
        elif kind == "scatter":
            whole = f"buf {buffer} int64 {(130 if long else 1) * self.size}*{rank + 1}"
            lines, got = (whole, f"buf {into} {element % 0}", f"scatter world {root} {buffer} {into}"), into
        elif kind == "gather":
            lines = own, f"gather world {root} {buffer} {into}"
        else:
            lines = own, f"{kind} world {f'{root} ' if kind == 'reduce' else ''}sum {buffer} {into}"
        self.add(rank, *lines, *((f"print {got}",) if got and self.chance(0.3) else ()))

    def together(self):
        """All members enter a collective alike."""
        kind, root, long = self.source.choice(COLLECTIVES), self.source.randrange(self.size), self.chance(0.2)
        for rank in range(self.size):
            self.collective(rank, kind, root, long)


def race(source, size, is_synchronous):
    """Each message has a receive that may take it, at the ranks in whatever order."""
    script = Script(source, size, is_synchronous)
    if script.chance(0.1):
        script.copy_world()
    turns = []
    for _ in range(source.randint(2, MOST_MESSAGES.get(size, MESSAGES_OF_MORE))):
        one = source.randrange(size)
        other = one if script.chance(0.1) else source.choice([it for it in range(size) if it != one])
        tag, comm = source.choice((0, 0, 1)), script.comm()
        turns += [lambda it=(one, other, tag, comm): script.send(*it), lambda it=(other, one, tag, comm): script.receive(*it)]
    turns += [lambda: script.look(source.randrange(size))] * source.randint(0, 3)
    turns += [script.together] * (script.chance(0.4) + script.chance(0.2))
    if script.chance(0.5):
        source.shuffle(turns)
    for turn in turns:
        turn()
    for rank in range(size):
        script.finish(rank)
    return script.text()


def wild(source, size, is_synchronous):
    """Each rank draws its own lines: nothing need fit, and members may enter different collectives, or none."""
    script = Script(source, size, is_synchronous)
    kind, root, shared, long = source.choice(COLLECTIVES), source.randrange(size), script.chance(0.5), script.chance(0.15)
    for rank in range(size):
        for _ in range(source.randint(1, MOST_TURNS.get(size, TURNS_OF_MORE))):
            other, tag = source.randrange(size), source.choice((0, 0, 1))
            source.choice((script.send, script.send, script.receive, script.receive, lambda rank, *_: script.look(rank)))(rank, other, tag)
        if shared and script.chance(0.9):
            differs = script.chance(0.15)
            entered = (source.choice(COLLECTIVES), source.randrange(size)) if differs else (kind, root)
            script.collective(rank, *entered, long)
            if script.chance(0.5):
                script.look(rank)
        script.finish(rank, 0.8)
    return script.text()


def a_script(source, number, size=None):
    """The script of this number, of one of the four kinds in turn: its text, and how many ranks it has."""
    size = size or source.choice((2, 2, 3, 3, 4))
    make = (race, wild)[number // 2 % 2]
    return make(source, size, number % 2 == 1), size
