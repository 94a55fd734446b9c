"""Messages between ranks in all modes. They have one order; each rank begins its own ends of them in it, and a wait stands somewhere
behind. So whatever waits, waits for something earlier in the order: no such program hangs, whether sends are buffered or not. Of two ranks
the messages and the receives have the same order, so each receive has its message, also of any tag; a receive of any source has a tag that
no other message has."""

import blocks
import data

MODES = {"standard": "", "synchronous": "s", "buffered": "b", "ready": "r"}
WAYS = ("BY_WAITALL", "BY_TESTALL", "BY_WAITANY", "BY_TESTANY", "BY_WAITSOME", "BY_TESTSOME", "BY_WAIT", "BY_TEST", "BY_GET_STATUS")
TAKEN_AT_ONCE = ("recv", "probe", "iprobe", "mprobe", "improbe")
TAKEN_LATER = ("irecv", "irecv", "irecv", "recv_init", "mprobe_imrecv", "improbe_imrecv")
NULL_SHARE, SELF_SHARE = .06, .12


class Message:
    """From a rank of a communicator to another one; None is MPI_PROC_NULL, and the other end stands alone."""

    def __init__(self, place, group, source, target):
        self.place, self.group, self.source, self.target = place, group, source, target
        self.tag, self.mode, self.sending, self.taking = 0, "standard", "blocking", "recv"
        self.names_source = self.names_tag = True
        self.sent = self.taken = None
        self.sent_count = self.taken_count = 0
        self.ends = {}   # how an end that doesn't wait ends: "free", "group", or a place in the order and a way
        self.ignores_status = False

    def is_to_itself(self):
        return self.source == self.target


def length_drawn(chance):
    """How many elements a message has, about."""
    kind = chance.random()
    if kind < .12:
        return 0
    if kind < .6:
        return chance.randint(1, 20)
    if kind < .85:
        return chance.randint(20, 400)
    return chance.randint(400, 4000) if kind < .97 else chance.randint(4000, 30000)


class Traffic(blocks.Block):
    name = "messages"

    def __init__(self, draft, comm, count, is_left_open):
        super().__init__(draft, [comm])
        chance = draft.chance
        self.comm, self.types = comm, data.Drawer(chance, "t%d" % self.number)
        self.parts = [self.drawn(chance, place) for place in range(count)]
        self.way, self.is_left_open = chance.choice(WAYS), is_left_open
        self.makes = {"open %d" % self.number} if is_left_open else set()

    # ---- what is drawn ----

    def drawn(self, chance, place):
        group = chance.randrange(len(self.comm.groups))
        size = len(self.comm.groups[group])
        source = chance.randrange(size)
        target = source if chance.random() < SELF_SHARE else chance.randrange(size)
        it = Message(place, group, source, target)
        if chance.random() < NULL_SHARE:
            setattr(it, chance.choice(("source", "target")), None)
        it.mode = chance.choices(tuple(MODES), (6, 3, 2, 2))[0]
        it.sending = chance.choices(("blocking", "nonblocking", "persistent"), (4, 5, 1))[0]
        it.taking = chance.choice(TAKEN_AT_ONCE if chance.random() < .5 else TAKEN_LATER)
        if it.mode == "ready":
            it.taking = chance.choice(("irecv", "recv_init"))
        if it.is_to_itself():
            self.unhang(chance, it)
        it.tag = chance.randrange(4)
        it.names_source, it.names_tag = chance.random() < .75, chance.random() < .8
        if not it.names_source:
            # A tag of its own, so that there is one sender alone.
            it.tag, it.names_tag = 100 + 64 * self.number + place, True
        self.draw_data(chance, it)
        self.draw_ends(chance, it)
        return it

    @staticmethod
    def unhang(chance, it):
        """A rank that sends to itself begins one end without waiting."""
        if it.sending == "blocking" and it.mode != "buffered" and it.taking not in ("irecv", "recv_init"):
            it.sending = "nonblocking"

    def draw_data(self, chance, it):
        if chance.random() < .15:
            names = [chance.choice(("INT", "DOUBLE", "SHORT", "CHAR", "FLOAT", "LONG", "UINT16_T")) for _ in range(chance.randint(2, 4))]
            if len({data.maps.BASIC[name][2] for name in names}) > 1:
                it.sent, it.taken = self.types.struct(names), self.types.struct(names)
                it.sent_count = chance.randint(0, 20)
                it.taken_count = it.sent_count + chance.choice((0, 0, 1, 3))
                return
        name, length = self.types.a_basic_name(), length_drawn(chance)
        if chance.random() < .06 and it.mode != "buffered":
            name = chance.choice(data.PAIRS)
        it.sent = self.types.typed(name, chance.choice((0, 0, 1, 2)), length)
        it.sent_count = length // max(1, it.sent.length)
        elements = it.sent_count * it.sent.length
        it.taken = self.types.typed(name, chance.choice((0, 0, 1, 2)), elements)
        it.taken_count = -(-elements // it.taken.length) + chance.choice((0, 0, 0, 1, 5))

    def draw_ends(self, chance, it):
        for end in ("send", "receive"):
            if end == "send" and it.mode != "ready" and chance.random() < .1:
                it.ends[end] = "free"
            elif chance.random() < .4:
                it.ends[end] = (chance.randint(it.place, it.place + 4), chance.choice(WAYS))
            else:
                it.ends[end] = "group"
        it.ignores_status = chance.random() < .1

    # ---- what is written ----

    def has(self, word):
        return "%s%d" % (word, self.number)

    def statics(self):
        most = max((it.place for it in self.parts), default=0) + 1
        return ["static MPI_Request %s[%d];" % (self.has("q"), 2 * most), "static MPI_Status %s[%d];" % (self.has("s"), 2 * most),
                "static MPI_Message %s[%d];" % (self.has("m"), most), "static unsigned char *%s[%d];" % (self.has("r"), most),
                self.types.declaration()]

    def sent_text(self, it):
        n, place = self.number, 2 * it.place
        target = "MPI_PROC_NULL" if it.target is None else it.target
        reach = it.sent.reach(it.sent_count)
        room = data.filled(it.sent, data.span(reach), 1000 * n + it.place)
        words = "%s, %d, %s, %s, %d, comm" % (data.pointer(room, reach), it.sent_count, it.sent.expression, target, it.tag)
        letter = MODES[it.mode]
        if it.sending == "blocking":
            return ["MPI_%s(%s);" % ((letter + "send").capitalize(), words)]
        request = "&q%d[%d]" % (n, place)
        if it.sending == "nonblocking":
            lines = ["MPI_I%ssend(%s, %s);" % (letter, words, request)]
        else:
            lines = ["MPI_%s_init(%s, %s);" % ((letter + "send").capitalize(), words, request), "MPI_Start(%s);" % request]
        if it.ends["send"] == "free":
            lines.append("MPI_Request_free(%s);" % request)
        return lines

    def taken_text(self, it):
        n, reach = self.number, it.taken.reach(it.taken_count)
        source = "MPI_PROC_NULL" if it.source is None else it.source if it.names_source else "MPI_ANY_SOURCE"
        tag = it.tag if it.names_tag else "MPI_ANY_TAG"
        room, status, message = "r%d[%d]" % (n, it.place), "&s%d[%d]" % (n, 2 * it.place + 1), "&m%d[%d]" % (n, it.place)
        request = "&q%d[%d]" % (n, 2 * it.place + 1)
        whence = "%s, %s, comm" % (source, tag)
        data_words = "%s, %d, %s" % (data.pointer(room, reach), it.taken_count, it.taken.expression)
        lines = ["%s = room(%d);" % (room, data.span(reach))]
        told_status = "MPI_STATUS_IGNORE" if it.ignores_status else status
        done = ([] if it.ignores_status else self.told_text(it)[:1]) + self.told_text(it)[1:]
        probed = ['tell_status("probe %d", %s, %s);' % (it.place, status, it.taken.told)]
        if it.taking == "recv":
            return lines + ["MPI_Recv(%s, %s, %s);" % (data_words, whence, told_status), *done]
        if it.taking in ("probe", "iprobe"):
            look = "MPI_Probe" if it.taking == "probe" else "probe_often"
            return lines + ["%s(%s, %s);" % (look, whence, status), *probed, "MPI_Recv(%s, %s, %s);" % (data_words, whence, told_status), *done]
        if it.taking in ("irecv", "recv_init"):
            call = "MPI_Irecv" if it.taking == "irecv" else "MPI_Recv_init"
            begin = [] if it.taking == "irecv" else ["MPI_Startall(1, %s);" % request]
            return lines + ["%s(%s, %s, %s);" % (call, data_words, whence, request), *begin]
        look = "MPI_Mprobe" if it.taking.startswith("mprobe") else "mprobe_often"
        is_later, is_marked = it.taking.endswith("imrecv"), self.is_by_rendezvous(it)
        if is_marked:
            probed = [probed[0].replace('"', '"~matched_rendezvous ', 1)]
        matched = ["%s(%s, %s, %s);" % (look, whence, message, status), *probed]
        matched.append("MPI_Imrecv(%s, %s, %s);" % (data_words, message, request) if is_later else
                       "MPI_Mrecv(%s, %s, %s);" % (data_words, message, told_status))
        if is_marked:
            other = "MPI_Irecv(%s, %s, %s);" % (data_words, whence, request) if is_later else "MPI_Recv(%s, %s, %s);" % (
                data_words, whence, told_status)
            matched = ["#ifndef FAULT_matched_rendezvous", *matched, "#else", other, "#endif"]
        return lines + matched + ([] if is_later else done)

    @staticmethod
    def is_by_rendezvous(it):
        """Whether the data of a message may follow its head."""
        return it.is_to_itself() or it.mode == "synchronous" or data.span(it.sent.reach(it.sent_count)) > 2000

    def ended_text(self, it, end):
        at = 2 * it.place + (end == "receive")
        lines = ["end_all(%s, 1, &q%d[%d], &s%d[%d]);" % (it.ends[end][1], self.number, at, self.number, at)]
        return lines + (self.told_text(it) if end == "receive" else [])

    def told_text(self, it):
        n = self.number
        mark = "~null_receive " if it.source is None and it.taking in TAKEN_LATER else ""
        return ['tell_status("%smessage %d", &s%d[%d], %s);' % (mark, it.place, n, 2 * it.place + 1, it.taken.told),
                'tell_room("%smessage %d", r%d[%d]);' % (it.taken.mark, it.place, n, it.place)]

    def events(self):
        """Of each rank what it does, with its place in the order."""
        found, late = {}, {}
        for it in self.parts:
            group = self.comm.groups[it.group]
            is_early = it.mode == "ready" and it.source is not None and it.target is not None
            at = it.place - (2000 if is_early else 0)
            takes_first = is_early or it.taking in ("irecv", "recv_init")
            if it.source is not None:
                events = found.setdefault(group[it.source], [])
                events.append(((at, .2), self.sent_text(it)))
                if it.sending != "blocking" and isinstance(it.ends["send"], tuple):
                    events.append(((it.ends["send"][0], .5 + it.place / 10000), self.ended_text(it, "send")))
            if it.target is None:
                continue
            events = found.setdefault(group[it.target], [])
            events.append(((at - (2000 if is_early else 0), .1 if takes_first else .3), self.taken_text(it)))
            if it.taking in TAKEN_LATER and isinstance(it.ends["receive"], tuple):
                events.append(((it.ends["receive"][0], .6 + it.place / 10000), self.ended_text(it, "receive")))
            elif it.taking in TAKEN_LATER:
                late.setdefault(group[it.target], []).extend(self.told_text(it))
        return found, late

    def lines(self):
        n = self.number
        lines = ["MPI_Comm comm = %s;" % self.comm.expression, "int me, size, need = 0;"]
        lines += ["for (int i = 0; i < (int)(sizeof q%d / sizeof *q%d); i++) q%d[i] = MPI_REQUEST_NULL;" % (n, n, n)]
        lines += ["if (!enter(comm, &me, &size)) return;", *self.types.lines]
        found, _ = self.events()
        has_ready = any(it.mode == "ready" for it in self.parts)
        if self.is_left_open or any(it.ends["send"] == "free" for it in self.parts):
            lines.append("rooms_are_kept = 1;")
        for rank in sorted(found):
            lines += self.lines_of(rank, sorted(found[rank], key=lambda it: it[0]), has_ready)
        if has_ready:
            lines += self.for_others(found)
        if not self.is_left_open:
            lines += self.ends()
        return lines

    def for_others(self, found):
        others = sorted({rank for group in self.comm.groups for rank in group} - set(found))
        return ["if (world_rank == %d) MPI_Barrier(comm);" % it for it in others]

    def lines_of(self, rank, events, has_ready):
        group = next(it for it in self.comm.groups if rank in it)
        sent = [it for it in self.parts if it.mode == "buffered" and it.source is not None
                and self.comm.groups[it.group] is group and group[it.source] == rank]
        inside = ["need += buffered(%d, %s, comm);" % (it.sent_count, it.sent.expression) for it in sent]
        inside += ["attach(need);"] if sent else []
        early = [line for at, text in events if at[0] < -2000 for line in text]
        inside += early + (["MPI_Barrier(comm);"] if has_ready else [])
        inside += [line for at, text in events if at[0] >= -2000 for line in text]
        if sent:
            inside.append("detach(need);")
        return ["if (world_rank == %d) {" % rank, *blocks.indented(inside), "}"]

    def ends(self):
        """The end of what is open: all requests of the block, some of which are null."""
        n, (_, late) = self.number, self.events()
        most = 2 * (max((it.place for it in self.parts), default=0) + 1)
        lines = ["end_all(%s, %d, q%d, s%d);" % (self.way, most, n, n)]
        for rank in sorted(late):
            lines += ["if (world_rank == %d) {" % rank, *blocks.indented(late[rank]), "}"]
        return lines + ["free_all(%d, q%d);" % (most, n), *self.types.frees()]


class TrafficEnd(blocks.Block):
    """Ends what messages were left open."""

    name = "their ends"

    def __init__(self, draft, begun):
        super().__init__(draft, [begun.comm])
        self.begun = begun
        self.needs |= begun.makes

    def lines(self):
        return ["if (%s == MPI_COMM_NULL) return;" % self.begun.comm.expression, *self.begun.ends()]


class AnySource(blocks.Block):
    """Each member sends to one that takes them in any order; what it observes doesn't depend on it."""

    name = "any source"

    def __init__(self, draft, comm):
        super().__init__(draft, [comm])
        chance = draft.chance
        self.comm, self.taking = comm, chance.choice(("recv", "irecv", "probe", "mprobe", "imrecv"))
        self.each, self.most, self.root = chance.randint(1, 5), chance.choice((0, 3, 200, 3000)), chance.randrange(8)
        self.call_word, self.way, self.names_tag = chance.choice(("Send", "Ssend", "Isend", "Issend")), chance.choice(WAYS), chance.random() < .3

    def lines(self):
        tag = "MPI_ANY_TAG" if not self.names_tag else "9"
        sent = "9" if self.names_tag else "i"
        what = "it, length, MPI_INT, root, %s, comm" % sent
        send = "MPI_%s(%s%s);" % (self.call_word, what, ", &q[i]" if self.call_word[0] == "I" else "")
        most = max(self.most, 1)
        lines = ["MPI_Comm comm = %s;" % self.comm.expression, "int me, size;", "if (!enter(comm, &me, &size)) return;",
                 "int root = %d %% size, all = size * %d;" % (self.root, self.each), "uint64_t sum = 0;",
                 "MPI_Request q[%d], *taken = malloc(sizeof *taken * (size_t)all);" % self.each,
                 "MPI_Status s[%d], *statuses = malloc(sizeof *statuses * (size_t)all);" % self.each,
                 "int *rooms_of = numbers(all * %d);" % most]
        first = self.call_word[0] == "I" or self.taking == "irecv"
        posted = ["for (int i = 0; i < all && me == root; i++) {",
                  "    MPI_Irecv(rooms_of + i * %d, %d, MPI_INT, MPI_ANY_SOURCE, %s, comm, &taken[i]);" % (most, self.most, tag), "}"]
        sends = ["for (int i = 0; i < %d%s; i++) {" % (self.each, "" if first else " && me != root"),
                 "    int length = length_of(%d, 64 * me + i, %d);" % (self.number, self.most),
                 "    unsigned char *it = filled(sizeof(int) * (size_t)length, (unsigned)(%d + 64 * me + i));" % self.number, "    " + send, "}"]
        if not first:
            lines.append("all -= me == root ? %d : 0;" % self.each)
        lines += (posted + sends if self.taking == "irecv" else sends + self.takes(tag)) + self.tell()
        lines += ["if (me == root) observe(\"all %016llx\", (unsigned long long)sum);", "MPI_Barrier(comm);", "free(taken), free(statuses);"]
        return lines

    def takes(self, tag):
        most = max(self.most, 1)
        room = "rooms_of + i * %d, %d, MPI_INT" % (most, self.most)
        inside = {"recv": ["MPI_Recv(%s, MPI_ANY_SOURCE, %s, comm, &statuses[i]);" % (room, tag)],
                  "probe": ["MPI_Probe(MPI_ANY_SOURCE, %s, comm, &statuses[i]);" % tag,
                            "MPI_Recv(%s, statuses[i].MPI_SOURCE, statuses[i].MPI_TAG, comm, &statuses[i]);" % room],
                  "mprobe": ["MPI_Message message;", "MPI_Mprobe(MPI_ANY_SOURCE, %s, comm, &message, &statuses[i]);" % tag,
                             "MPI_Mrecv(%s, &message, &statuses[i]);" % room],
                  "imrecv": ["MPI_Message message;", "mprobe_often(MPI_ANY_SOURCE, %s, comm, &message, &statuses[i]);" % tag,
                             "MPI_Imrecv(%s, &message, &taken[i]);" % room]}[self.taking]
        if self.taking in ("mprobe", "imrecv"):
            words = "%s, MPI_ANY_SOURCE, %s, comm" % (room, tag)
            other = "MPI_Recv(%s, &statuses[i]);" % words if self.taking == "mprobe" else "MPI_Irecv(%s, &taken[i]);" % words
            inside = ["#ifndef FAULT_matched_rendezvous", *inside, "#else", other, "#endif"]
        return ["for (int i = 0; i < all && me == root; i++) {", *blocks.indented(inside), "}"]

    def tell(self):
        lines = []
        if self.taking in ("irecv", "imrecv"):
            lines.append("if (me == root) end_all(%s, all, taken, statuses);" % self.way)
        if self.call_word[0] == "I":
            lines.append("end_all(%s, %d, q, s);" % (self.way, self.each))
        inside = ["int count;", "MPI_Get_count(&statuses[i], MPI_INT, &count);",
                  "int words[3] = {statuses[i].MPI_SOURCE, statuses[i].MPI_TAG, count};",
                  "uint32_t of = sum_of(rooms_of + i * %d, sizeof(int) * (size_t)count);" % max(self.most, 1),
                  "sum += mixed(sum_of(words, sizeof words), of, 5);"]
        return lines + ["for (int i = 0; i < all && me == root; i++) {", *blocks.indented(inside), "}"]


class Shift(blocks.Block):
    """Each member sends to one and receives from one at the same time; at the ends of a row there is none."""

    name = "shift"

    def __init__(self, draft, comm):
        super().__init__(draft, [comm])
        chance = draft.chance
        self.comm, self.distance, self.is_row = comm, chance.randint(-3, 3), chance.random() < .4
        self.replaces, self.rounds = chance.random() < .4, chance.randint(1, 3)
        self.types = data.Drawer(chance, "t%d" % self.number)
        name, length = self.types.a_basic_name(), length_drawn(chance)
        self.taken = self.types.typed(name, chance.choice((0, 1)), length)
        self.sent = self.taken if self.replaces else self.types.typed(name, chance.choice((0, 1)), length)
        self.sent_count = length // self.sent.length
        elements = self.sent_count * self.sent.length
        self.taken_count = self.sent_count if self.replaces else -(-elements // self.taken.length) + chance.choice((0, 0, 2))

    def statics(self):
        return [self.types.declaration()]

    def lines(self):
        n, d = self.number, self.distance
        lines = ["MPI_Comm comm = %s;" % self.comm.expression, "int me, size;", "if (!enter(comm, &me, &size)) return;", *self.types.lines]
        if self.is_row:
            lines += ["int to = me + (%d), from = me - (%d);" % (d, d), "if (to < 0 || to >= size) to = MPI_PROC_NULL;",
                      "if (from < 0 || from >= size) from = MPI_PROC_NULL;"]
        else:
            lines += ["int to = (me + (%d) + 3 * size) %% size, from = (me - (%d) + 3 * size) %% size;" % (d, d)]
        taken, sent = self.taken.reach(self.taken_count), self.sent.reach(self.sent_count)
        inside = ["MPI_Status status;", "unsigned char *in = %s;" % ("room(%d)" % data.span(taken) if not self.replaces else
                                                                     data.filled(self.sent, data.span(sent), "(unsigned)(%d + 64 * me + i)" % n))]
        room = data.pointer("in", taken)
        if self.replaces:
            inside.append("MPI_Sendrecv_replace(%s, %d, %s, to, i, from, i, comm, &status);" % (room, self.sent_count, self.sent.expression))
        else:
            out = data.pointer(data.filled(self.sent, data.span(sent), "(unsigned)(%d + 64 * me + i)" % n), sent)
            inside.append("MPI_Sendrecv(%s, %d, %s, to, i, %s, %d, %s, from, %s, comm, &status);" % (
                out, self.sent_count, self.sent.expression, room, self.taken_count, self.taken.expression,
                "MPI_ANY_TAG" if self.distance % 2 else "i"))
        inside += ['tell_status("shift", &status, %s);' % self.taken.told, 'tell_room("%sshift", in);' % self.taken.mark]
        return lines + ["for (int i = 0; i < %d; i++) {" % self.rounds, *blocks.indented(inside), "}", *self.types.frees()]
