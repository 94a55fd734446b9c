"""Communicators that are made of others, told of, compared and freed."""

import blocks


class Making(blocks.Block):
    """Makes a communicator of another one, and tells who is in it."""

    def __init__(self, draft, old, how):
        super().__init__(draft, [old])
        self.old, self.how = old, how
        self.name = how
        self.made_lines, groups, self.topology = getattr(self, "by_" + how)(draft, old)
        self.made = draft.add_comm(groups, self.topology)
        self.makes = {self.made.key}

    def lines(self):
        made = self.made.expression
        return ["MPI_Comm old = %s;" % self.old.expression, "int me, size;", "if (!enter(old, &me, &size)) return;", *self.made_lines,
                'tell_comm("made", %s);' % made]

    # What makes it, the groups that come of it, and its topology.

    def new(self):
        return "&comms[%d]" % self.place

    def begin(self, draft):
        self.place = draft.next_place()

    def by_dup(self, draft, old):
        self.begin(draft)
        return ["MPI_Comm_dup(old, %s);" % self.new()], old.groups, old.topology

    def by_dup_with_info(self, draft, old):
        self.begin(draft)
        return ["MPI_Info info;", "MPI_Info_create(&info);", 'MPI_Info_set(info, "kombazily_hint", "7");',
                "MPI_Comm_dup_with_info(old, info, %s);" % self.new(), "MPI_Info_free(&info);"], old.groups, old.topology

    def by_idup(self, draft, old):
        self.begin(draft)
        how = draft.chance.choice(("MPI_Wait(&q, MPI_STATUS_IGNORE);", "end_all(BY_TEST, 1, &q, &status);"))
        return ["MPI_Request q;", "MPI_Status status;", "MPI_Comm_idup(old, %s, &q);" % self.new(), how], old.groups, old.topology

    def by_split(self, draft, old):
        self.begin(draft)
        chance, groups, words = draft.chance, [], {}
        for group in old.groups:
            colours = {it: chance.choice((0, 0, 1, 7, None)) for it in group}
            keys = {it: chance.choice((0, 1, -3, 5, 2147483647)) for it in group}
            words.update({it: (colours[it], keys[it]) for it in group})
            for colour in sorted({it for it in colours.values() if it is not None}):
                groups.append(sorted((it for it in group if colours[it] == colour), key=lambda it: (keys[it], group.index(it))))
        colours = ", ".join("MPI_UNDEFINED" if words.get(it, (0, 0))[0] is None else str(words.get(it, (0, 0))[0]) for it in range(draft.size))
        keys = ", ".join(str(words.get(it, (0, 0))[1]) for it in range(draft.size))
        return ["static const int colours[] = {%s}, keys[] = {%s};" % (colours, keys),
                "MPI_Comm_split(old, colours[world_rank], keys[world_rank], %s);" % self.new()], groups, None

    def by_split_type(self, draft, old):
        self.begin(draft)
        turned = draft.chance.random() < .5
        groups = [list(reversed(it)) if turned else it for it in old.groups]
        return ["MPI_Comm_split_type(old, MPI_COMM_TYPE_SHARED, %s, MPI_INFO_NULL, %s);" % ("-me" if turned else "0", self.new())], groups, None

    def by_create_group(self, draft, old):
        """The same by those alone who become members (6.4.2)."""
        lines, groups, topology = self.by_create(draft, old)
        at = next(i for i, it in enumerate(lines) if it.startswith("MPI_Comm_create("))
        lines[at:at + 1] = ["int rank_there;", "MPI_Group_rank(some, &rank_there);",
                            "if (rank_there != MPI_UNDEFINED) MPI_Comm_create_group(old, some, %d, %s);" % (self.number, self.new())]
        return lines, groups, topology

    def by_create(self, draft, old):
        """Members of a range, with some left out, turned or not."""
        self.begin(draft)
        chance = draft.chance
        step, first, turned = chance.choice((1, 2, 3)), chance.randrange(2), chance.random() < .5
        groups = []
        for group in old.groups:
            first_here = min(first, len(group) - 1)
            chosen = group[first_here::step]
            groups.append(list(reversed(chosen)) if turned else chosen)
        last = "first + (size - 1 - first) / %d * %d" % (step, step)
        spread = "{last, first, -%d}" % step if turned else "{first, last, %d}" % step
        return ["MPI_Group all, some;", "int first = %d < size ? %d : size - 1, last = %s;" % (first, first, last),
                "int spread[1][3] = {%s};" % spread, "MPI_Comm_group(old, &all);", "MPI_Group_range_incl(all, 1, spread, &some);",
                "MPI_Comm_create(old, some, %s);" % self.new(), "MPI_Group_free(&all);", "MPI_Group_free(&some);"], groups, None


class Freeing(blocks.Block):
    """Frees a communicator."""

    def __init__(self, draft, comm):
        super().__init__(draft, [comm])
        self.comm, self.call_name = comm, draft.chance.choice(("free", "free", "disconnect"))
        self.name = "communicator freed"

    def lines(self):
        comm = self.comm.expression
        return ["if (%s != MPI_COMM_NULL) MPI_Comm_%s(&%s);" % (comm, self.call_name, comm), 'observe("freed %%d", %s == MPI_COMM_NULL);' % comm]


class Comparing(blocks.Block):
    """Compares communicators and their groups."""

    name = "comparisons"

    def __init__(self, draft, one, other):
        super().__init__(draft, [one, other])
        self.one, self.other = one, other

    def lines(self):
        one, other = self.one.expression, self.other.expression
        return ["MPI_Comm one = %s, other = %s;" % (one, other), "if (one == MPI_COMM_NULL || other == MPI_COMM_NULL) return;",
                "int told;", "MPI_Group of_one, of_other;", "MPI_Comm_compare(one, other, &told);",
                'observe("communicators %s", compared_word(told));', "MPI_Comm_group(one, &of_one);", "MPI_Comm_group(other, &of_other);",
                "MPI_Group_compare(of_one, of_other, &told);", 'observe("groups %s", compared_word(told));',
                "MPI_Group_free(&of_one);", "MPI_Group_free(&of_other);"]
