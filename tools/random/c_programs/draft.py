"""Draws a random program from a seed."""

import random

import blocks
import collective_calls
import communicators
import errors
import intercommunicators
import objects
import rounds
import threads
import topologies
import traffic
import type_answers


class Draft:
    """A program while it is drawn."""

    def __init__(self, seed, number, most):
        self.chance = random.Random("%s %d" % (seed, number))
        self.size = min(most, self.chance.choice((1, 2, 2, 2, 3, 3, 3, 4, 4, 4, 5, 5, 6, 7, 8)))
        everyone = list(range(self.size))
        self.comms = [blocks.Comm(0, [everyone]), blocks.Comm(1, [[it] for it in everyone])]
        self.blocks, self.count, self.places, self.open = [], 0, 2, []
        self.level = self.chance.choices(("MPI_THREAD_SINGLE", "MPI_THREAD_FUNNELED", "MPI_THREAD_MULTIPLE"), (6, 1, 2))[0]

    def next_number(self):
        self.count += 1
        return self.count

    def next_place(self):
        self.places += 1
        return self.places - 1

    def add_comm(self, groups, topology):
        made = blocks.Comm(self.places - 1, [it for it in groups if it], topology)
        self.comms.append(made)
        return made

    def a_comm(self):
        """One that has members, more often one with many."""
        some = [it for it in self.comms if it.groups]
        return self.chance.choices(some, [it.most() + (1 if it.place == 0 else 0) for it in some])[0]

    # ---- blocks ----

    def add_traffic(self):
        comm, is_left_open = self.a_comm(), self.chance.random() < .2
        block = traffic.Traffic(self, comm, self.chance.randint(2, 8), is_left_open)
        self.blocks.append(block)
        if is_left_open:
            self.open.append(block)
            comm.is_quiet = False

    def end_traffic(self):
        if self.open:
            begun = self.open.pop(self.chance.randrange(len(self.open)))
            self.blocks.append(traffic.TrafficEnd(self, begun))
            begun.comm.is_quiet = not any(it.comm is begun.comm for it in self.open)

    def add_any_source(self):
        comm = self.a_comm()
        if comm.is_quiet:
            self.blocks.append(traffic.AnySource(self, comm))

    def add_shift(self):
        self.blocks.append(traffic.Shift(self, self.a_comm()))

    def add_collectives(self):
        self.blocks.append(collective_calls.Collectives(self, [self.a_comm() for _ in range(self.chance.choice((1, 1, 2, 3, 4)))]))

    def add_communicator(self):
        if len(self.comms) < 7:
            how = self.chance.choice(("dup", "idup", "dup_with_info", "split", "split", "split_type", "create", "create_group"))
            self.blocks.append(communicators.Making(self, self.a_comm(), how))

    def free_communicator(self):
        some = [it for it in self.comms if it.place > 1 and it.groups and it.is_quiet]
        if some:
            comm = self.chance.choice(some)
            self.comms.remove(comm)
            self.blocks.append(communicators.Freeing(self, comm))

    def add_comparison(self):
        self.blocks.append(communicators.Comparing(self, self.a_comm(), self.a_comm()))

    def add_grid(self):
        some = [it for it in self.comms if len(it.groups) == 1]
        if some and len(self.comms) < 8:
            self.blocks.append(topologies.Grid(self, self.chance.choice(some)))

    def add_part_of_grid(self):
        some = [it for it in self.comms if it.topology and it.topology[0] == "grid" and len(it.groups) == 1]
        if some and len(self.comms) < 8:
            self.blocks.append(topologies.SubGrid(self, self.chance.choice(some)))

    def add_graph(self):
        some = [it for it in self.comms if len(it.groups) == 1]
        if some and len(self.comms) < 8:
            kind = self.chance.choice(("graph", "adjacent", "adjacent", "told by others"))
            self.blocks.append(topologies.Graph(self, self.chance.choice(some), kind))

    def add_neighbours(self):
        some = [it for it in self.comms if it.topology]
        if some:
            self.blocks.append(topologies.Neighbours(self, self.chance.choice(some)))

    def add_dimensions(self):
        self.blocks.append(topologies.Dimensions(self))

    def add_objects(self):
        kind = self.chance.choice((objects.Groups, objects.Attributes, objects.Names, objects.Requests, objects.Info, objects.Surroundings,
                                   objects.ReduceLocal, objects.Handles, objects.OldAttributes))
        takes_comm = kind not in (objects.Info, objects.Surroundings, objects.ReduceLocal)
        self.blocks.append(kind(self, self.a_comm()) if takes_comm else kind(self))

    def add_errors(self):
        comm = self.a_comm()
        if comm.topology is None:
            self.blocks.append(self.chance.choice((errors.Errors, errors.Errors, errors.Truncated))(self, comm))

    def add_types(self):
        self.blocks.append(type_answers.TypeAnswers(self) if self.chance.random() < .7 else type_answers.Packed(self, self.a_comm()))

    def add_threads(self):
        if self.level == "MPI_THREAD_MULTIPLE":
            self.blocks.append(threads.Threads(self, self.a_comm()))

    def add_halves(self):
        self.blocks.append(intercommunicators.Halves(self, self.a_comm()))

    def add_rounds(self):
        self.blocks.append(rounds.Rounds(self, self.a_comm()))

    KINDS = {"add_grid": 1, "add_part_of_grid": 1, "add_graph": 1, "add_neighbours": 2, "add_dimensions": .3, "add_objects": 4,
             "add_errors": 1, "add_types": 2, "add_threads": 1.5, "add_halves": 1, "add_rounds": 1, "add_traffic": 6, "end_traffic": 2,
             "add_any_source": 1,
             "add_shift": 1, "add_collectives": 6, "add_communicator": 3, "free_communicator": 1, "add_comparison": 1}

    def draw(self, title):
        for _ in range(self.chance.randint(8, 16)):
            kind = self.chance.choices(tuple(self.KINDS), tuple(self.KINDS.values()))[0]
            getattr(self, kind)()
        while self.open:
            self.end_traffic()
        return blocks.Program(title, self.size, self.level, self.blocks)


def program(seed, number, most):
    return Draft(seed, number, most).draw("Program %d of the seed %s" % (number, seed))
