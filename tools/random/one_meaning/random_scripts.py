"""Random scripts that have one meaning: messages of all sizes, collectives on all kinds of communicators, refused calls and questions."""

from meaning import TYPES

import floats

FLOATS = ("0", "-0", "1", "0.1", "-2e3", "9007199254740992", "-9007199254740992", "1e308", "5e-324", "inf", "-inf", "nan")
OPERATIONS = ("max", "min", "sum", "prod", "land", "lor", "lxor", "band", "bor", "bxor")
KINDS = [kind for kind in TYPES if kind != "byte"]
COLLECTIVES = ("barrier", "bcast", "gather", "scatter", "reduce", "allreduce", "dup", "split")
LARGE = 1500


class Making:
    """The lines of each rank, and what its names stand for: the members of each communicator, and the requests that are open."""

    def __init__(self, source, size):
        self.source, self.size = source, size
        self.lines = [[] for _ in range(size)]
        self.comms = {"world": list(range(size))}
        self.open = [[] for _ in range(size)]
        self.count = 0

    def name(self, letter):
        self.count += 1
        return f"{letter}{self.count}"

    def elements(self, kind):
        """The elements of a buffer: mostly few, now and then so many that their message is a large one."""
        if self.source.random() < 0.1:
            return f"{LARGE}*{self.element(kind)}", LARGE
        count = self.source.choice((0, 1, 1, 2, 3, 5))
        return " ".join(self.element(kind) for _ in range(count)), count

    def element(self, kind):
        """An element: of the whole range of its type now and then."""
        size, signed, _ = TYPES[kind]
        is_wide = self.source.random() < 0.3
        if kind in floats.FLOATS:
            pattern = self.source.randrange(2 ** (8 * size))
            return floats.text(kind, pattern) if is_wide else self.source.choice(FLOATS)
        lowest = -(2 ** (8 * size - 1)) if signed else 0
        return str(self.source.randint(lowest, lowest + 2 ** (8 * size) - 1) if is_wide else self.source.randint(0, 9))

    def operation(self, kind):
        """An operation of a reduction, mostly one that is defined on the type."""
        is_for_floats = kind in floats.FLOATS and self.source.random() < 0.9
        return self.source.choice(OPERATIONS[:4] if is_for_floats else OPERATIONS)

    def buffer(self, rank, kind, text):
        name = self.name("b")
        self.lines[rank].append(f"buf {name} {kind} {text}".rstrip())
        return name

    def close(self, rank, share=1.0):
        """Waits for open requests, and prints what was received."""
        closing = [it for it in self.open[rank] if self.source.random() < share]
        self.source.shuffle(closing)
        if len(closing) > 1 and self.source.random() < 0.4:
            self.lines[rank].append("waitall " + " ".join(request for request, _ in closing))
        else:
            self.lines[rank] += [line for request, _ in closing for line in (f"wait {request}", "status")]
        self.lines[rank] += [f"print {buffer}" for _, buffer in closing if buffer]
        self.open[rank] = [it for it in self.open[rank] if it not in closing]

    def message(self):
        """One rank of a communicator sends, another one, or the same, receives."""
        comm, members = self.source.choice(list(self.comms.items()))
        one, other = self.source.randrange(len(members)), self.source.randrange(len(members))
        kind, tag = self.source.choice(KINDS), self.source.choice((0, 1, 1, 7))
        text, count = self.elements(kind)
        sent = self.buffer(members[one], kind, text)
        self.start(members[one], "send", f"{comm} {other} {tag} {sent}", None)
        room = count + self.source.choice((0, 0, 0, 2)) if self.source.random() < 0.95 else count // 2
        into = self.source.choice(KINDS) if self.source.random() < 0.05 else kind
        received = self.buffer(members[other], into, f"{room}*0" if room else "")
        self.start(members[other], "recv", f"{comm} {one} {self.source.choice((tag, tag, 'any'))} {received}", received)

    def start(self, rank, what, words, buffer):
        if self.source.random() < 0.5:
            request = self.name("q")
            self.lines[rank].append(f"i{what} {request} {words}")
            self.open[rank].append((request, buffer))
        else:
            self.lines[rank].append(f"{what} {words}")
            if buffer:
                self.lines[rank] += ["status", f"print {buffer}"]

    def collective(self):
        """All members of a communicator enter the same."""
        comm, members = self.source.choice(list(self.comms.items()))
        what, kind, root = self.source.choice(COLLECTIVES), self.source.choice(KINDS), self.source.randrange(len(members))
        operation, count = self.operation(kind), self.source.choice((1, 1, 2, 3))
        made = self.name("c")
        chosen = {rank: (self.source.choice(("undefined", 0, 0, 1)), self.source.randint(-2, 2)) for rank in members}
        for place, rank in enumerate(members):
            into, values = self.name("i"), " ".join(self.element(kind) for _ in range(count))
            if what == "barrier":
                self.lines[rank].append(f"barrier {comm}")
            elif what in ("dup", "split"):
                self.lines[rank].append(f"dup {made} {comm}" if what == "dup" else "split %s %s %s %s" % (made, comm, *chosen[rank]))
                self.lines[rank] += [f"who {made}", f"compare {made} {comm}"]
            elif what == "scatter":
                whole = self.buffer(rank, kind, " ".join([values] * len(members))) if place == root else "-"
                own = self.buffer(rank, kind, f"{count}*0")
                self.lines[rank] += [f"scatter {comm} {root} {whole} {own}", f"print {own}"]
            else:
                own = self.buffer(rank, kind, values)
                words = {"bcast": f"{root} {own}", "gather": f"{root} {own} {into}", "reduce": f"{root} {operation} {own} {into}",
                         "allreduce": f"{operation} {own} {into}"}
                shown = own if what == "bcast" else into if what == "allreduce" or place == root else own
                self.lines[rank] += [f"{what} {comm} {words[what]}", f"print {shown}"]
        if what == "dup":
            self.comms[made] = members
        elif what == "split":
            self.keep_split(made, chosen)

    def keep_split(self, made, chosen):
        """A communicator of a split goes on being used where all who chose are of one colour."""
        colours = {colour for colour, _ in chosen.values()}
        if len(colours) == 1 and "undefined" not in colours:
            self.comms[made] = [rank for rank in sorted(chosen, key=lambda rank: (chosen[rank][1], list(chosen).index(rank)))]

    def refused(self):
        """One rank makes a call that is refused."""
        rank = self.source.randrange(self.size)
        buffer = self.buffer(rank, "int32", "1 2")
        calls = (f"send world {self.size} 1 {buffer}", f"send self 0 any {buffer}", f"recv world {self.size + 3} 1 {buffer}",
                 f"bcast world {self.size} {buffer}", f"send world 0 2147483648 {buffer}", f"recv self 1 1 {buffer}")
        self.lines[rank].append(self.source.choice(calls))

    def text(self):
        for rank in range(self.size):
            self.close(rank)
            self.lines[rank].append("say done")
            if self.source.random() < 0.06:
                self.lines[rank].pop(self.source.randrange(len(self.lines[rank])))
        return "\n".join(f"on {rank}\n" + "\n".join(lines) for rank, lines in enumerate(self.lines)) + "\n"


def a_script(source):
    """A script and its number of ranks. Now and then a line of it lacks, so that ranks wait for ever."""
    made = Making(source, source.randint(2, 6))
    for _ in range(source.randint(1, 14)):
        source.choice((made.message, made.message, made.message, made.collective, made.refused))()
        if source.random() < 0.3:
            made.close(source.randrange(made.size), 0.6)
    return made.text(), made.size
