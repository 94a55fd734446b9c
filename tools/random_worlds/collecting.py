"""Lines of a barrier and of collectives that move elements, made at random: a part of the maker of files (`making.py`)."""

from dataclasses import dataclass, replace

import reductions
from reading import OPERATIONS, TYPES

KINDS = ["barrier", "bcast", "bcast", "gather", "scatter", "reduce", "reduce", "allreduce", "allreduce"]
KINDS_IN_TREES = ["barrier", "barrier", "bcast", "bcast", "bcast", "reduce", "reduce", "reduce", "reduce", "allreduce", "gather", "scatter"]
LARGE_BYTES = [1008, 1009, 1024, 1025, 2048, 2049, 5000]


@dataclass
class Plan:
    """What the members of a communicator enter: the root by its rank in it, and the type and number of the elements of one block."""

    kind: str
    root: int
    operation: str
    type: str
    count: int


class Collecting:
    """What `Maker` does with collectives."""

    def a_plan(self, members):
        """A collective of so many members: mostly one that they can enter."""
        kind = self.random.choice(KINDS_IN_TREES if self.theme == "trees" else KINDS)
        operation = self.random.choice(OPERATIONS)
        is_defined = kind in ("reduce", "allreduce") and self.random.random() < 0.95
        basic = self.random.choice(sorted(reductions.DEFINED[operation])) if is_defined else self.a_type()
        count = self.a_length()
        if self.random.random() < (0.5 if self.theme == "large" else 0.12):
            count = -(-self.random.choice(LARGE_BYTES) // TYPES[basic][0])
        root = members if self.random.random() < 0.02 else self.random.randrange(members)
        return Plan(kind, root, operation, basic, count)

    def another_plan(self, plan, members):
        """A plan that differs in one thing, mostly."""
        other = self.a_plan(members)
        name = self.random.choice(["kind", "root", "operation", "type", "count"])
        return replace(plan, **{name: getattr(other, name)})

    def into(self, rank):
        """The name of a buffer that is to be set: a new one, or one that is there."""
        names = self.world.names_of(rank)
        free = [name for name in names.buffers if name not in names.lent]
        return self.random.choice(free) if free and self.random.random() < 0.3 else self.a_name("i")

    def enter_planned(self, rank, name, plan, members, is_root):
        """One rank enters a collective."""
        if plan.kind == "barrier":
            self.add(f"{rank} barrier {name}")
            return
        if plan.kind == "scatter":
            into = self.a_buffer(rank, plan.type, plan.count)
            many = plan.count * members + (1 if self.random.random() < 0.03 else 0)
            kind = self.a_type() if self.random.random() < 0.03 else plan.type
            given = self.a_buffer(rank, kind, many) if is_root else self.random.choice(["-", "-", "nothere"])
            self.add(f"{rank} scatter {name} {plan.root} {given} {into}")
            return
        buffer = self.a_buffer(rank, plan.type, plan.count)
        if plan.kind == "bcast":
            self.add(f"{rank} bcast {name} {plan.root} {buffer}")
            return
        into = buffer if self.random.random() < 0.1 else self.into(rank)
        words = {"gather": f"{plan.root}", "reduce": f"{plan.root} {plan.operation}", "allreduce": plan.operation}[plan.kind]
        self.add(f"{rank} {plan.kind} {name} {words} {buffer} {into}")

    def move_elements(self, until=None):
        """All members of a communicator enter one or two collectives, while the network goes on; seldom one enters something else."""
        entering = self.members_that_enter()
        if len(entering) > 40:
            return
        for _ in range(self.random.choice([1, 1, 1, 2])):
            self.enter_all(entering, until)
        if self.theme == "trees":
            self.deliver_all(entering)
            return
        for _ in range(self.random.choice([0, 2 * len(entering), 6 * len(entering)])):
            self.deliver_new()

    def enter_all(self, entering, until):
        differing = 0.05
        if self.theme == "trees":
            differing = self.random.choice([0, 0, 0, 0.4 / max(1, len(entering)), 2 / max(1, len(entering))])
        for number, (rank, name) in enumerate(entering):
            if self.is_over or number == until:
                return
            ranks = self.ranks_of(rank, name)
            if number == 0:
                plan = self.a_plan(len(ranks))
            own = self.another_plan(plan, len(ranks)) if self.random.random() < differing else plan
            if self.is_free(rank):
                self.enter_planned(rank, name, own, len(ranks), own.root < len(ranks) and ranks[own.root] == rank)
            for _ in range(self.random.choice([0, 0, 1, 3])):
                self.deliver_of_any_pair() if self.theme == "trees" else self.deliver_new()

    def deliver_all(self, entering):
        """The network brings all that is on its way, or only some of it, each pair of ranks as it likes; then all clocks go on, now and
        then."""
        for _ in range(self.random.choice([len(entering), 20 * len(entering), 20 * len(entering), 20 * len(entering)])):
            self.deliver_of_any_pair()
        if self.random.random() < 0.1:
            for rank, _ in entering:
                self.add(f"tick {rank} {self.world.ranks[rank].clock + 20}")

    def enter_one(self):
        """One rank enters a collective that moves elements, whatever the others do; of self, now and then."""
        rank = self.a_rank()
        name = self.a_communicator(rank)
        if self.held_as(rank, name) is not None:
            ranks = self.ranks_of(rank, name)
            plan = self.a_plan(len(ranks))
            self.enter_planned(rank, name, plan, len(ranks), plan.root < len(ranks) and ranks[plan.root] == rank)

    def refused_collective(self):
        """A collective that breaks a rule, or several."""
        rank = self.a_rank()
        name = self.a_communicator(rank)
        held = self.held_as(rank, name)
        members = 1 if held is None else len(held.ranks())
        root = self.random.choice([0, members - 1, members, 2**16 - 1, 2**16, 2**64])
        kind = self.a_type()
        count = self.random.choice([0, 1, 1, 1048560 // TYPES[kind][0] + 1])
        is_root = held is not None and root < members and held.ranks()[root] == rank
        self.enter_planned(rank, name, Plan(self.random.choice(KINDS), root, self.random.choice(OPERATIONS), kind, count), members, is_root)
