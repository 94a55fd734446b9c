"""A script in which a rank that is never killed serves eight others by probes, and what it has to print: a part of `kills`.

A worker sends each of its messages synchronously, says by a second message that it is there, and waits for its send. In each round the
master hears from each worker in turn that a message is there, looks whether any worker's is (`iprobe`), takes the worker's out
(`improbe`) and receives it (`mrecv`). It may learn at any of these calls that the worker was started anew: then what is waited for ends
with 11, and what was there is gone, or is of the new incarnation already.

What this rests on: messages of one worker come in order, so what was announced to be there is there, unless its sender was started anew;
and a synchronous send is finished once a receive has its message, and not before. Of a worker that was killed the data of the last
such message may never come.
"""

import collections

WORKERS = 8
INCARNATIONS = 4  # of each worker, that have lines in the script
PATIENCE = 8_000  # in milliseconds: all wait where one is started anew
ELEMENTS = [3, 3, 3, 300]  # of the messages, by turns: what goes in one piece, and what takes two
LONGEST = max(ELEMENTS)
FROM_NULL = "source null tag any count 0"
REPLACED = "error 11"


class Fault(Exception):
    """What was printed breaks a rule."""


class ProbingMaster:
    """What a run's script looks like. Rank 0 is the master."""

    def __init__(self, messages):
        self.size = WORKERS + 1
        self.rounds = max(1, messages // WORKERS)
        self.safe = {0}
        self.incarnations = INCARNATIONS
        self.patience = PATIENCE

    def count(self, number):
        """How many elements the message of this number has."""
        return ELEMENTS[number % len(ELEMENTS)]

    def script(self):
        lines = []
        for worker in range(1, self.size):
            for incarnation in range(self.incarnations):
                lines += ["on %d.%d" % (worker, incarnation), "say up %d %d" % (worker, incarnation)]
                for number in range(self.rounds):
                    lines += ["buf data int32 %d %d %d %d*7" % (worker, incarnation, number, self.count(number) - 3),
                              "issend q world 0 2 data", "send world 0 1 data", "wait q", "say sent %d" % number]
                lines.append("say end")
        lines += ["on 0.0", "say up 0 0", "buf told int32 %d*0" % LONGEST]
        for _ in range(self.rounds):
            for worker in range(1, self.size):
                lines += ["recv world %d 1 told" % worker, "iprobe world any 2", "improbe m world null any",
                          "improbe m world %d 2" % worker, "status",
                          "buf data int32 %d*-1" % LONGEST, "mrecv m data", "print data", "status"]
        return "\n".join(lines + ["say end"]) + "\n"

    def has_ended(self, rank, incarnation, lines):
        return bool(lines) and lines[-1] == "end"

    def check(self, ranks, killed):
        """Checks what each incarnation of each rank printed. Answers the figures."""
        figures = collections.Counter()
        master = ranks[0].get(0, [])
        received = self.received(master, ranks, killed, figures)
        for endpoint, numbers in received.items():
            if numbers != list(range(len(numbers))):
                raise Fault("the master received %s of %d.%d" % (numbers, *endpoint))
        for rank in range(1, self.size):
            for incarnation, lines in ranks[rank].items():
                self.check_sent((rank, incarnation), lines, master, len(received[rank, incarnation]))
            if self.has_ended(rank, 0, ranks[rank].get(0, [])) and len(ranks[rank]) == 1 and self.has_ended(0, 0, master):
                figures["living pairs"] += 1
                figures["messages of living pairs"] += self.rounds
        figures["messages"] += sum(len(numbers) for numbers in received.values())
        return figures

    def check_sent(self, endpoint, lines, master, received):
        """No synchronous send of a worker was finished before the master had its message. One ends with 11 only where the master itself
        gave up and was started anew."""
        count = 0
        while count < len(lines) and lines[count] == "sent %d" % count:
            count += 1
        if lines[count:] not in ([], ["end"]) and (lines[count] != REPLACED or self.has_ended(0, 0, master)):
            raise Fault("%d.%d: %r in place of its send %d" % (*endpoint, lines[count], count))
        is_whole = lines[count:] == ["end"] and self.has_ended(0, 0, master)
        if count > received + (0 if is_whole else 1):
            raise Fault("%d.%d finished %d synchronous sends, of which the master received %d" % (*endpoint, count, received))

    def received(self, lines, ranks, killed, figures):
        """The numbers of the messages that the master received, by their sender's endpoint, in order."""
        found, at = collections.defaultdict(list), 0
        try:
            for _ in range(self.rounds):
                for worker in range(1, self.size):
                    may_learn = any(rank == worker for rank, _ in killed) or len(ranks[worker]) > 1
                    at = self.one_turn(lines, at, worker, may_learn, found, figures)
        except IndexError:
            return found
        if lines[at:] not in ([], ["end"]):
            raise Fault("the master: %r behind its rounds" % lines[at])
        return found

    def one_turn(self, lines, at, worker, may_learn, found, figures):
        """What the master printed of one turn of a worker, and where that ends."""
        learnt = lines[at] == REPLACED
        at += learnt
        empty = 0
        while lines[at] == "none":
            at, empty = at + 1, empty + 1
        status = lines[at]
        is_gone = status == FROM_NULL
        is_replaced = lines[at + 1] == REPLACED
        values = lines[at + 1 + is_replaced].split()
        if lines[at + 2 + is_replaced] != status or not is_gone <= empty <= 1 + is_gone:
            raise Fault("the master: %r, %r of a message of rank %d" % (status, lines[at + 2 + is_replaced], worker))
        if (learnt or empty or is_replaced) and not may_learn:
            raise Fault("the master found nothing of rank %d, which was never started anew" % worker)
        figures["errors"] += learnt + is_replaced
        figures["found nothing"] += is_gone
        if is_gone or is_replaced:
            if values != ["-1"] * LONGEST:
                raise Fault("the master: %r in place of no message" % values[:4])
        else:
            self.keep(found, worker, status, values)
        return at + 3 + is_replaced

    def keep(self, found, worker, status, values):
        """Keeps a message that was received."""
        number = int(values[2])
        count = self.count(number)
        wanted = [str(worker), values[1], values[2]] + ["7"] * (count - 3) + ["-1"] * (LONGEST - count)
        if status != "source %d tag 2 count %d" % (worker, count) or values != wanted:
            raise Fault("the master: %r, %r of a message of rank %d" % (status, values[:4], worker))
        found[worker, int(values[1])].append(number)
