"""Random programs as lists of blocks, any of which may be left out: a block observes something, or makes what others need."""

from pathlib import Path

PRELUDE = Path(__file__).resolve().parent / "prelude.c"


def indented(lines, depth=1):
    return [it if it.startswith("#") else "    " * depth + it for it in lines]


class Comm:
    """A communicator by its place in `comms`, and the ranks in MPI_COMM_WORLD of each communicator that stands there somewhere."""

    def __init__(self, place, groups, topology=None):
        self.place, self.groups, self.topology = place, [list(it) for it in groups], topology
        self.is_quiet = True   # whether no receive of it is open behind the block that began it

    @property
    def key(self):
        return "comm %d" % self.place

    @property
    def expression(self):
        return "comms[%d]" % self.place

    def most(self):
        return max(map(len, self.groups))


class Block:
    """A function of the program. Parts may be left out, too; FAULT is a fault of another MPI for which it has to be left out there."""

    name, fault = "block", None

    def __init__(self, draft, comms=(), parts=("",)):
        self.parts, self.needs, self.makes = list(parts), {it.key for it in comms if it.place > 1}, set()
        self.number = draft.next_number()

    def statics(self):
        """What stands in front of the function."""
        return []

    def lines(self):
        """What the function does."""
        raise NotImplementedError

    def text(self):
        body = self.lines()
        return "\n".join([*self.statics(), "static void block_%d(void) {   /* %s */" % (self.number, self.name), *indented(body), "}", ""])

    def call(self):
        call = ["    block_%d();" % self.number, '    told(%d, "%s");' % (self.number, self.name.replace(" ", "_")), "    leave_rooms();"]
        return ["#ifndef FAULT_%s" % self.fault, *call, "#endif"] if self.fault else call


class Program:
    """A whole program for this number of ranks."""

    def __init__(self, title, size, level, blocks):
        self.title, self.size, self.level, self.blocks = title, size, level, blocks

    def text(self):
        head = "/* %s, for %d ranks. Written by tools/random/c_programs/run. */\n" % (self.title, self.size)
        blocks = "\n".join(it.text() for it in self.blocks)
        calls = "\n".join(line for it in self.blocks for line in it.call())
        main = "int main(int argc, char **argv) {\n    begin(&argc, &argv, %s);\n%s\n    return finish();\n}\n" % (self.level, calls)
        return head + PRELUDE.read_text() + blocks + "\n" + main

    def without(self, block):
        """The program without a block and all that needs what it makes."""
        gone, left = set(block.makes), []
        for it in self.blocks:
            if it is block or it.needs & gone:
                gone |= it.makes
            else:
                left.append(it)
        return Program(self.title, self.size, self.level, left)

    def faults(self):
        """The numbers of the blocks that are left out where another MPI has a fault, with the fault."""
        return {it.number: it.fault for it in self.blocks if it.fault}
