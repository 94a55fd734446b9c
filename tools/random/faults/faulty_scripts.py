"""Random scripts that are right, and the same with one fault planted, each fault with what is to be told of it.

A script is a row of rounds that all ranks go through in the same order. Each round is right by itself whatever comes first, and rests on
no message being buffered; so the whole is right. A planted fault takes the place of one round, or stands behind the last one.
"""

TYPES = ("int8", "int16", "int32", "int64", "uint8", "uint16", "uint32", "uint64")


class Script:
    """Lines by rank, written in the order of ranks."""

    def __init__(self, source, is_right):
        self.source, self.is_right = source, is_right
        self.size = source.randint(2, 5)
        self.lines = [[] for _ in range(self.size)]
        self.count = 0

    def name(self, letter):
        self.count += 1
        return f"{letter}{self.count}"

    def add(self, rank, *lines):
        """Adds lines for a rank, and answers the place of the last among the rank's."""
        self.lines[rank] += lines
        return len(self.lines[rank]) - 1

    def number(self, rank, place):
        """The number in the file of the line at this place of a rank."""
        return sum(len(it) + 1 for it in self.lines[:rank]) + 2 + place

    def text(self):
        return "".join(f"on {rank}\n" + "".join(it + "\n" for it in lines) for rank, lines in enumerate(self.lines))

    def pair(self):
        return self.source.sample(range(self.size), 2)

    def values(self, basic, count):
        return f"{basic} {count}*{self.source.randint(0, 99)}" if count else basic

    def buffer(self, rank, basic, count):
        name = self.name("b")
        self.add(rank, f"buf {name} {self.values(basic, count)}")
        return name


# Rounds that are right.


def message(script, comm="world"):
    one, other = script.pair()
    basic, count, tag = script.source.choice(TYPES), script.source.choice((0, 1, 3, 40, 600)), script.source.randint(0, 3)
    sent = script.buffer(one, basic, count)
    into = script.buffer(other, basic, count + script.source.randint(0, 2))
    script.add(one, f"send {comm} {other} {tag} {sent}")
    # Where a fault is planted, a receive of any tag might take what is left over.
    wanted = script.source.choice((tag, "any")) if script.is_right else tag
    script.add(other, f"recv {comm} {script.source.choice((one, one, 'any'))} {wanted} {into}", "status")
    # Nobody else sends before both are through.
    together(script, "barrier")


def exchange(script):
    one, other = script.pair()
    basic, count = script.source.choice(TYPES), script.source.choice((1, 5, 700))
    for rank, peer in ((one, other), (other, one)):
        sent, into, request = script.buffer(rank, basic, count), script.buffer(rank, basic, count), script.name("q")
        script.add(rank, f"irecv {request} world {peer} 7 {into}", f"send world {peer} 7 {sent}", f"wait {request}",
                   f"print {into}" if count < 9 else "status")


def gathered_by_any(script):
    master = script.source.randrange(script.size)
    into = script.buffer(master, "int32", 2)
    for rank in range(script.size):
        if rank != master:
            sent = script.buffer(rank, "int32", 2)
            script.add(rank, f"send world {master} 5 {sent}")
            script.add(master, f"recv world any 5 {into}", *script.source.choice(((), (f"print {into}",), ("status",))))
    together(script, "barrier")


def started(script):
    one, other = script.pair()
    count = script.source.randint(1, 3)
    sends, receives = [script.name("s") for _ in range(count)], [script.name("r") for _ in range(count)]
    for tag, (send, receive) in enumerate(zip(sends, receives)):
        sent, into = script.buffer(one, "uint16", tag + 1), script.buffer(other, "uint16", tag + 1)
        script.add(one, f"{script.source.choice(('isend', 'issend'))} {send} world {other} {tag} {sent}")
        script.add(other, f"irecv {receive} world {one} {tag} {into}")
    script.add(one, "waitall " + " ".join(sends))
    script.add(other, *(["waitall " + " ".join(receives)] if script.source.random() < 0.5 else [f"wait {it}" for it in receives]))


def taken_out(script, is_received=True):
    one, other = script.pair()
    first, second = script.buffer(one, "int32", 2), script.buffer(one, "uint8", 1)
    request, found = script.name("q"), script.name("m")
    into, note = script.buffer(other, "int32", 2), script.buffer(other, "uint8", 1)
    script.add(one, f"isend {request} world {other} 1 {first}", f"send world {other} 2 {second}")
    place = script.add(other, f"recv world {one} 2 {note}", f"improbe {found} world {one} 1")
    if is_received:
        script.add(other, f"mrecv {found} {into}", f"print {into}")
    script.add(one, f"wait {request}")
    return other, place, found


def together(script, kind=None):
    kind = kind or script.source.choice(("barrier", "bcast", "gather", "scatter", "reduce", "allreduce", "dup", "split"))
    root, basic = script.source.randrange(script.size), script.source.choice(("int32", "uint64"))
    for rank in range(script.size):
        if kind == "barrier":
            script.add(rank, "barrier world")
        elif kind == "bcast":
            script.add(rank, f"bcast world {root} {script.buffer(rank, basic, 2)}")
        elif kind == "gather":
            script.add(rank, f"gather world {root} {script.buffer(rank, basic, 2)} {script.name('g')}")
        elif kind == "scatter":
            all_of_them, into = script.buffer(rank, basic, 2 * script.size), script.buffer(rank, basic, 2)
            script.add(rank, f"scatter world {root} {all_of_them} {into}", f"print {into}")
        elif kind == "reduce":
            script.add(rank, f"reduce world {root} sum {script.buffer(rank, basic, 2)} {script.name('g')}")
        elif kind == "allreduce":
            script.add(rank, f"allreduce world max {script.buffer(rank, basic, 2)} {script.name('g')}")
        elif kind == "dup":
            name = script.name("c")
            script.add(rank, f"dup {name} world", f"barrier {name}")
        else:
            name = script.name("c")
            script.add(rank, f"split {name} world {rank % 2} {rank}", f"barrier {name}", f"who {name}")


ROUNDS = (message, exchange, gathered_by_any, started, taken_out, together, together)


# Faults. Each answers a pattern of what is to be told.


def too_long(script):
    one, other = script.pair()
    count = script.source.choice((1, 4, 500))
    sent, into = script.buffer(one, "int32", count + script.source.randint(1, 3)), script.buffer(other, "int32", count)
    script.add(one, f"send world {other} 30 {sent}")
    place = script.add(other, f"recv world {one} 30 {into}")
    return f"rank {other} line {script.number(other, place)}: error 10: .*\n  rank {one} sent it at line \\d+: send"


def wrong_type(script):
    one, other = script.pair()
    first, second = script.source.sample(TYPES, 2)
    sent, into, request = script.buffer(one, first, 2), script.buffer(other, second, 2), script.name("q")
    script.add(one, f"send world {other} 30 {sent}")
    place = script.add(other, f"irecv {request} world {one} 30 {into}", f"wait {request}")
    return f"rank {other} line {script.number(other, place)}: error 2: .*\n  rank {one} sent it at line \\d+: send"


def no_such_rank(script):
    rank = script.source.randrange(script.size)
    place = script.add(rank, f"send world {script.size + script.source.randint(0, 3)} 0 {script.buffer(rank, 'byte', 1)}")
    return f"rank {rank} line {script.number(rank, place)}: error 5: "


def never_waited(script):
    one, other = script.pair()
    request, is_send = script.name("q"), script.source.random() < 0.5
    count = script.source.choice((1, 2000))
    sent, into = script.buffer(one, "int32", count), script.buffer(other, "int32", count)
    if is_send:
        place = script.add(one, f"isend {request} world {other} 30 {sent}")
        script.add(other, f"recv world {one} 30 {into}")
        return f"rank {one} ended with request {request} \\(line {script.number(one, place)}\\) "
    script.add(one, f"send world {other} 30 {sent}")
    place = script.add(other, f"irecv {request} world {one} 30 {into}")
    return f"rank {other} ended with request {request} \\(line {script.number(other, place)}\\) "


def never_received(script):
    one, other = script.pair()
    place = script.add(one, f"send world {other} 31 {script.buffer(one, 'int64', 1)}")
    return f"rank {other} never received a message of rank {one} with tag 31\n  rank {one} sent it at line {script.number(one, place)}: "


def never_sent(script):
    one, other = script.pair()
    into = script.buffer(other, "int8", 1)
    place = script.add(other, f"recv world {one} 32 {into}")
    return f"DEADLOCK\n(.*\n)*rank {other} waits at line {script.number(other, place)}: "


def sends_head_on(script):
    one, other = script.pair()
    places = []
    for rank, peer in ((one, other), (other, one)):
        sent, into = script.buffer(rank, "int32", 1), script.buffer(rank, "int32", 1)
        places.append(script.add(rank, f"send world {peer} 33 {sent}"))
        script.add(rank, f"recv world {peer} 33 {into}")
    return f"only because messages are buffered(.*\n)*rank {one} waits at line {script.number(one, places[0])}: "


def only_tested(script):
    one, other = script.pair()
    request = script.name("q")
    sent, into = script.buffer(one, "int32", 1), script.buffer(other, "int32", 1)
    place = script.add(one, f"isend {request} world {other} 34 {sent}")
    script.add(one, f"test {request}")
    script.add(other, f"recv world {one} 34 {into}")
    line = script.number(one, place)
    return f"well only because messages are buffered(.*\n)*rank {one} ended with request {request} \\(line {line}\\) never waited for"


def entered_differently(script):
    odd, kind = script.source.randrange(script.size), script.source.choice(("kind", "root", "length"))
    for rank in range(script.size):
        buffer = script.buffer(rank, "int32", 3 if kind == "length" and rank == odd else 2)
        if kind == "kind" and rank == odd:
            script.add(rank, "barrier world")
        else:
            script.add(rank, f"bcast world {1 if kind == 'root' and rank == odd else 0} {buffer}")
    return "was entered differently:"


def not_entered(script):
    forgets = script.source.randrange(script.size)
    for rank in range(script.size):
        if rank != forgets:
            script.add(rank, "barrier world")
    return f"was not entered by all members:\n(.*\n)*  rank {forgets} never entered"


def not_taken(script):
    rank, place, found = taken_out(script, is_received=False)
    return f"rank {rank} ended with message {found} \\(line {script.number(rank, place)}\\) not received: "


def not_set(script):
    rank = script.source.randrange(script.size)
    place = script.add(rank, f"print {script.name('z')}")
    return f"rank {rank} ended with status 1 at line {script.number(rank, place)}: "


def race(script):
    """The message that doesn't fit comes to the wrong receive in some schedules alone."""
    if script.size < 3:
        return too_long(script)
    master, one, other = script.source.sample(range(script.size), 3)
    short, long = script.buffer(master, "int32", 1), script.buffer(master, "int32", 4)
    script.add(one, f"send world {master} 34 {script.buffer(one, 'int32', 1)}")
    script.add(other, f"send world {master} 34 {script.buffer(other, 'int32', 4)}")
    place = script.add(master, f"recv world any 34 {short}")
    script.add(master, f"recv world any 34 {long}")
    return f"rank {master} line {script.number(master, place)}: error 10: "


def wrong_tag(script):
    one, other = script.pair()
    sent, into = script.buffer(one, "int32", 1), script.buffer(other, "int32", 1)
    script.add(one, f"send world {other} 36 {sent}")
    place = script.add(other, f"recv world {one} 37 {into}")
    waits = f"rank {other} waits at line {script.number(other, place)}: "
    return f"DEADLOCK\n(.*\n)*{waits}(.*\n)*rank {other} never received a message of rank {one} with tag 36\n"


def wrong_communicator(script):
    """Sent on world, received on a copy of it."""
    one, other = script.pair()
    copy = script.name("c")
    made = [script.add(rank, f"dup {copy} world") for rank in range(script.size)]
    sent, into = script.buffer(one, "int32", 1), script.buffer(other, "int32", 1)
    on_copy = script.source.random() < 0.5
    script.add(one, f"send {copy if on_copy else 'world'} {other} 38 {sent}")
    place = script.add(other, f"recv {'world' if on_copy else copy} {one} 38 {into}")
    where = f" on the communicator that line {script.number(0, made[0])} made" if on_copy else ""
    waits = f"rank {other} waits at line {script.number(other, place)}: "
    return f"{waits}(.*\n)*rank {other} never received a message of rank {one} with tag 38{where}\n"


def overwritten_request(script):
    """Two sends under one name: nobody can wait for the first one."""
    one, other = script.pair()
    request = script.name("q")
    first, second = script.buffer(one, "int32", 1), script.buffer(one, "int32", 1)
    into = script.buffer(other, "int32", 1)
    place = script.add(one, f"isend {request} world {other} 39 {first}")
    script.add(one, f"isend {request} world {other} 39 {second}", f"wait {request}")
    script.add(other, f"recv world {one} 39 {into}", f"recv world {one} 39 {into}")
    return f"rank {one} ended with request {request} \\(line {script.number(one, place)}\\) "


def race_to_a_deadlock(script):
    """A receive of any rank may take the message for which the next one waits by name."""
    if script.size < 3:
        return never_sent(script)
    master, one, other = script.source.sample(range(script.size), 3)
    into = script.buffer(master, "int32", 1)
    for rank in (one, other):
        script.add(rank, f"send world {master} 40 {script.buffer(rank, 'int32', 1)}")
    script.add(master, f"recv world any 40 {into}")
    place = script.add(master, f"recv world {one} 40 {into}")
    return f"DEADLOCK\n(.*\n)*rank {master} waits at line {script.number(master, place)}: "


def other_refusal(script):
    rank = script.source.randrange(script.size)
    kind = script.source.choice(("tag", "root", "operation", "cancel"))
    if kind == "root":
        place = script.add(rank, f"bcast world {script.size + 4} {script.buffer(rank, 'int32', 1)}")
        return f"rank {rank} line {script.number(rank, place)}: error 7: "
    if kind == "operation":
        place = script.add(rank, f"allreduce world sum {script.buffer(rank, 'byte', 1)} {script.name('g')}")
        return f"rank {rank} line {script.number(rank, place)}: error 9: "
    if kind == "cancel":
        place = script.add(rank, "cancel null")
        return f"rank {rank} line {script.number(rank, place)}: error 6: "
    place = script.add(rank, f"send world {rank} 2147483648 {script.buffer(rank, 'int32', 1)}")
    return f"rank {rank} line {script.number(rank, place)}: error 3: "


FAULTS = (
    too_long, wrong_type, no_such_rank, never_waited, never_received, never_sent, sends_head_on, only_tested, entered_differently,
    not_entered, not_taken, not_set, race, other_refusal, wrong_tag, wrong_communicator, overwritten_request, race_to_a_deadlock,
)
# Behind these others can't go on, so that a fault of theirs comes last.
LAST = (never_sent, entered_differently, not_entered, not_set, wrong_tag, wrong_communicator, race_to_a_deadlock)


def right_script(source):
    script = Script(source, True)
    for _ in range(source.randint(1, 5)):
        source.choice(ROUNDS)(script)
    return script


def faulty_script(source, fault):
    """A script with this fault planted, and the pattern of what is to be told. Lines in front are there before it is numbered."""
    script = Script(source, False)
    before = source.randint(0, 3)
    for _ in range(before):
        source.choice(ROUNDS)(script)
    state = source.getstate()
    count, lines = script.count, [list(it) for it in script.lines]
    fault(script)
    if fault not in LAST:
        for _ in range(source.randint(0, 2)):
            source.choice(ROUNDS)(script)
    # Planted once more, now that all lines of lower ranks are known: the pattern then has the numbers of the whole file.
    behind = script.lines
    again = Script.__new__(Script)
    again.source, again.is_right, again.size, again.count, again.lines = source, False, script.size, count, lines
    lengths = [len(it) for it in behind]
    again.number = lambda rank, place: sum(it + 1 for it in lengths[:rank]) + 2 + place
    source.setstate(state)
    return script, fault(again)
