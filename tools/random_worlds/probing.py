"""Lines of synchronous sends, of probes and of messages that were taken out, made at random: a part of the maker of files (`making.py`)."""

from frames import Message
from reading import ANY, NULL

SHARE_OF_SYNCHRONOUS = {"probes": 0.4, "window": 0.02, "queues": 0.05, "early": 0.05}


class Probing:
    """What `Maker` does with them."""

    def a_send(self):
        """The word of a send."""
        return "issend" if self.random.random() < SHARE_OF_SYNCHRONOUS.get(self.theme, 0.1) else "isend"

    def a_rank_with_messages(self):
        """A free rank to which messages came that nobody received, mostly."""
        ranks = [rank.number for rank in self.world.ranks if rank.unexpected and self.is_free(rank.number)]
        return self.random.choice(ranks) if ranks and self.random.random() < 0.8 else self.a_rank()

    def a_wish(self, rank):
        """A source, a tag and maybe a context: mostly of a message that is there or on its way."""
        there = self.world.ranks[rank].unexpected[:5]
        message = self.random.choice(there) if there and self.random.random() < 0.8 else self.a_message_for(rank)
        if message is None or self.random.random() < 0.25:
            return self.random.choice([ANY, ANY, self.random.randrange(self.size)]), self.random.choice([ANY, ANY, self.a_tag()]), None
        context = None if self.random.random() < 0.1 else message.context
        return self.random.choice([ANY, message.source]), self.random.choice([ANY, message.tag]), context

    def probe(self):
        """A probe, which takes the message out that it finds, or doesn't."""
        rank = self.a_rank_with_messages()
        source, tag, context = self.a_wish(rank)
        if self.random.random() < 0.04:
            source = NULL
        word = "iprobe" if self.random.random() < 0.4 else f"improbe {self.a_name('m')}"
        self.add(f"{rank} {word} {self.in_communicator(rank, source, context)} {tag}")

    def taken_out(self):
        """Each message that was taken out and isn't received, by its rank and its name; that of the null process among them."""
        return [(rank, name, message) for rank, names in self.world.names.items() if rank < self.size and self.is_free(rank)
                for name, message in names.messages.items() if message is not None]

    def receive_message(self):
        """A message that was taken out is received, mostly; now and then one that was received before."""
        taken = self.taken_out()
        received = [(rank, name) for rank, names in self.world.names.items() for name, message in names.messages.items() if message is None]
        if received and self.random.random() < 0.06:
            rank, name = self.random.choice(received)
            self.add(f"{rank} mrecv {name} {self.a_set_buffer(rank)}")
        elif taken:
            self.receive_taken(*self.random.choice(taken))
        else:
            self.probe()

    def receive_taken(self, rank, name, message):
        """It goes into a buffer of its type that has room for it, mostly."""
        taken = None if message == NULL else message.taken
        if isinstance(taken, Message):
            kind = self.a_type() if self.random.random() < 0.1 else taken.type
            longer = self.random.choices([-1, 0, 1, 2], [2, 8, 2, 1])[0]
            buffer = self.a_buffer(rank, kind, max(0, len(taken.values) + longer))
        else:
            buffer = self.a_set_buffer(rank)
        if not self.is_over:
            self.add(f"{rank} mrecv {name} {buffer}{self.through(rank, buffer)}")

    def name_of_taken(self, rank, message):
        """The name under which a rank holds this message; None where it was not taken out."""
        names = self.world.names_of(rank).messages
        return next((name for name, held in names.items() if held not in (None, NULL) and held.taken is message), None)

    def bring_data(self, rank, receive):
        """The network brings the data that a receive waits for which was matched with a message that was taken out."""
        for other, session in self.world.ranks[rank].sessions.items():
            if any(half.receive is receive for half in session.collections.values()):
                self.bring(other, rank)
                return

    def refused_probe(self, rank, word, target, tag):
        """A probe, or a receive of a message, that breaks a rule, or several."""
        if self.random.random() < 0.3:
            name, kind = self.a_name("m"), self.a_type()
            self.add(f"{rank} improbe {name} world {NULL} any")
            self.add(f"{rank} type {self.a_name('l')} indexed 1:0 1:0 {kind}")
            layout = next(reversed(self.world.names_of(rank).layouts))
            ending = self.random.choice(["", f" as {layout} 1", f" as {layout} 5"])
            self.add(f"{rank} mrecv {name} {self.a_buffer(rank, kind if self.random.random() < 0.5 else None)}{ending}")
            return
        named = self.random.choice(["iprobe", f"improbe {self.a_name('m')}"])
        self.add(f"{rank} {named} {word} {target} {tag}")
