"""Scripts of 1 to 8 ranks, faulty ones too: what ranks print of them, and how they end."""

from bounds import SEND_LIMIT
from programs import TOP
from starting import OUTSIDE, UNFIT, faulty, gave_up, row, unset

EXTREMES = (("int8", "-128"), ("int16", "-32768"), ("int32", "-2147483648"), ("int64", "-9223372036854775808"), ("uint8", "255"),
            ("uint16", "65535"), ("uint32", "4294967295"), ("uint64", "18446744073709551615"), ("byte", "7"))
LARGE = [(kind, count, value) for (kind, value), count in zip(EXTREMES, (1025, 513, 257, 129, 5000, 2500, 20000, 1300, 2049))]
FROM_NULL = "source null tag any count 0"
NEVER_SET = "source any tag any count 0"
TOLD = "buf g int8 0\nrecv world 0 1 g\n"  # rank 1 hears that what rank 0 sent before is there
TELLS = "buf g int8 0\nsend world 1 1 g\n"
SHORT = 700  # milliseconds of patience, where a rank waits in vain


def example(name):
    return (TOP / "examples" / "scripts" / (name + ".txt")).read_text()


def ring(size):
    lines = ["buf mine int32 0", "buf from int32 0"]
    for rank in range(size):
        lines += ["on %d" % rank, "buf mine int32 %d" % rank, "irecv q world %d 1 from" % ((rank - 1) % size)]
        lines += ["send world %d 1 mine" % ((rank + 1) % size), "wait q", "print from", "status"]
    return "\n".join(lines)


def reversed_ring(size):
    """A ring on a communicator in which the ranks stand the other way round."""
    lines = ["buf mine int32 0", "buf from int32 0"]
    for rank in range(size):
        place = size - 1 - rank
        lines += ["on %d" % rank, "split c world 3 -%d" % rank, "who c", "members c", "compare c world", "buf mine int32 %d" % rank]
        lines += ["irecv q c %d 1 from" % ((place - 1) % size), "send c %d 1 mine" % ((place + 1) % size), "wait q", "print from"]
    return "\n".join(lines)


def reversed_lines(size, rank):
    place = size - 1 - rank
    return ["rank %d of %d" % (place, size), " ".join("%d" % r for r in reversed(range(size))), "similar", "%d" % ((rank + 1) % size)]


def gather(size):
    lines = ["on 0"] + ["buf b%d int16 0" % r for r in range(1, size)]
    for rank in range(1, size):
        lines += ["recv world any 4 b%d" % rank, "print b%d" % rank]
    for rank in range(1, size):
        lines += ["on %d" % rank, "buf a int16 -%d" % rank, "send world 0 4 a"]
    return "\n".join(lines)


def butterfly(size, bits):
    lines = []
    for rank in range(size):
        lines += ["on %d" % rank, "buf a uint8 %d" % rank]
        for bit in range(bits):
            other = rank ^ (1 << bit)
            lines += ["buf b uint8 0", "irecv q world %d %d b" % (other, bit), "send world %d %d a" % (other, bit), "wait q", "print b"]
    return "\n".join(lines)


def large(messages):
    """Rank 0 sends messages of so many elements of a type to rank 1, which prints them."""
    sends = ["buf a %s %d*%s\nsend world 1 1 a" % (kind, count, value) for kind, count, value in messages]
    receives = ["buf b %s %d*0\nrecv world 0 1 b\nprint b" % (kind, count) for kind, count, _ in messages]
    return "\n".join(["on 0"] + sends + ["say sent", "on 1"] + receives)


def large_ring(size):
    lines = ["buf from int32 5000*-1"]
    for rank in range(size):
        lines += ["on %d" % rank, "buf mine int32 5000*%d" % rank, "irecv q world %d 1 from" % ((rank - 1) % size)]
        lines += ["send world %d 1 mine" % ((rank + 1) % size), "wait q", "print from"]
    return "\n".join(lines)


# The elements of a message of the greatest length, in pieces of 1,024 bytes that have a number of their own each.
ELEMENTS, IN_A_PIECE = SEND_LIMIT // 8, 128


def copies(first):
    """The values of such a buffer as a script writes them, from this number on; and as `print` shows them."""
    numbers = range(first, first + ELEMENTS // IN_A_PIECE)
    return " ".join("%d*%d" % (IN_A_PIECE, it) for it in numbers), " ".join(str(it) for it in numbers for _ in range(IN_A_PIECE))


def message_rows():
    row("one says hi", "say hi", [(["hi"], 0)])
    row("nothing at all", "", [([], 0)])
    row("comments and spaces", "# a\n\n   say   a    b  \n  # c\nsay c", [(["a b", "c"], 0)])
    row("ping-pong", example("pingpong"), [(["2"], 0), (["1"], 0)])
    row("to itself", "buf a int8 -128 127\nbuf b int8 0 0\nirecv q world 0 3 b\nsend world 0 3 a\nwait q\nprint b\nstatus",
        [(["-128 127", "source 0 tag 3 count 2"], 0)])
    each = "buf a %s %s\nbuf b %s 0\nsend world 0 1 a\nrecv world 0 1 b\nprint b"
    row("all types", "\n".join(each % (kind, value, kind) for kind, value in EXTREMES), [([value for _, value in EXTREMES], 0)])
    row("empty buffer", "buf e int32\nprint e\nsend world 0 1 e\nbuf b int32 5 6\nrecv world 0 1 b\nprint b\nstatus",
        [(["", "5 6", "source 0 tag 1 count 0"], 0)])
    row("tags out of order", "on 0\nbuf a int32 5\nbuf b int32 6\nsend world 1 5 a\nsend world 1 6 b\non 1\nbuf c int32 0\nbuf d int32 0\n"
        "recv world any 6 c\nprint c\nrecv world any any d\nprint d\nstatus", [([], 0), (["6", "5", "source 0 tag 5 count 1"], 0)])
    row("too long a message", "on 0\nbuf a int32 1 2 3 4\nsend world 1 7 a\non 1\nbuf b int32 9 9 9\nrecv world 0 7 b\nprint b\nstatus",
        [([], 0), (["error 10", "9 9 9", NEVER_SET], 0)])
    row("other type", "on 0\nbuf a int32 1\nsend world 1 7 a\non 1\nbuf b uint32 9\nrecv world 0 7 b\nprint b",
        [([], 0), (["error 2", "9"], 0)])
    row("refused calls", "buf a uint8 %d*9\nsend world 0 1 a\nbuf b uint8 1\nsend world 0 any b\nsend world 0 2147483648 b\n"
        "send world 5 1 b\nirecv q world 7 1 b\nprint b\nsay on" % (SEND_LIMIT + 1),
        [(["error 1", "error 3", "error 3", "error 5", "error 5", "1", "on"], 0)])
    row("null request", "status\nwait null\nstatus\nbuf a int8 1\nisend q world 0 1 a\nwait q\nwait q\nstatus", [([NEVER_SET] * 3, 0)])
    row("fail", "say a\nfail\nsay b", [(["a"], 5)])


def large_rows():
    row("large message to itself",
        "buf a uint8 1025*9\nsend world 0 1 a\nsay sent\nbuf b uint8 1026*8\nrecv world 0 any b\nprint b\nstatus",
        [(["sent", "9 " * 1025 + "8", "source 0 tag 1 count 1025"], 0)])
    row("large messages of all types", large(LARGE), [(["sent"], 0), ([" ".join([v] * n) for _, n, v in LARGE], 0)])
    row("large messages that don't fit", "on 0\nbuf a int32 1000*-1\nsend world 1 1 a\nsend world 1 2 a\nsay sent\non 1\nbuf b int32 1 2\n"
        "buf c uint32 3\nrecv world 0 1 b\nprint b\nrecv world 0 any c\nprint c\nstatus",
        [(["sent"], 0), (["error 10", "1 2", "error 2", "3", NEVER_SET], 0)])
    row("large ring of 6", large_ring(6), [([" ".join(["%d" % ((r - 1) % 6)] * 5000)], 0) for r in range(6)])
    written, shown = copies(0)
    row("the greatest length",
        "on 0\nbuf a uint64 %s\nsend world 1 1 a\nsay sent\non 1\nbuf b uint64 %d*9999\nrecv world 0 1 b\nprint b\nstatus"
        % (written, ELEMENTS), [(["sent"], 0), ([shown, "source 0 tag 1 count %d" % ELEMENTS], 0)])
    both = [copies(rank * ELEMENTS // IN_A_PIECE) for rank in range(2)]
    row("the greatest length both ways at once", "\n".join(
        "on %d\nbuf a uint64 %s\nbuf b uint64 %d*9999\nisend q world %d 1 a\nirecv r world %d any b\nwaitall q r\nprint b"
        % (rank, both[rank][0], ELEMENTS, 1 - rank, 1 - rank) for rank in range(2)), [([both[1 - rank][1]], 0) for rank in range(2)])


def faulty_rows():
    row("lent buffer is used", "say a\nbuf b int8 1\nirecv q world 0 1 b\nprint b\nsay c",
        [(["a"], 1, *faulty(0, 4, "the buffer b is lent to a receive", "print b"))])
    row("lent buffer is set", "buf b int8 1\nirecv q world 0 1 b\nbuf b int8 2",
        [([], 1, *faulty(0, 3, "the buffer b is lent to a receive", "buf b int8 2"))])
    row("unset names", "on 0\nwait q\non 1\nsend world 0 1 a\non 2\nsend self 0 1 a", [
        ([], 1, *unset(0, 2, "q", "wait q")), ([], 1, *unset(1, 4, "a", "send world 0 1 a")),
        ([], 1, *unset(2, 6, "a", "send self 0 1 a"))])
    row("faulty line for another rank", "say hi\non 1\nbuf a int8 128\n", [([], 1, *faulty(0, 3, OUTSIDE, "buf a int8 128"))])
    unfit = ("say", "buf A int8 1", "buf a int9 1", "buf a int8 01", "wait", "print a b", "buf world int8 1",
             "buf a1234567890123456 int8 1", "on",
             "send world 1 1", "recv world -1 1 a", "fail now", "issend q world 1 1", "iprobe world 0", "improbe m world 0",
             "improbe null world 0 0", "mrecv m", "mrecv null b", "mrecv m b as l")
    for bad, why in (("buf a uint8 -1", OUTSIDE), ("bogus", "no such statement"), ("\tsay hi", "a byte that isn't printable ASCII"),
                     ("say hi\r", "a byte that isn't printable ASCII"), ("say h\u00fc", "a byte that isn't ASCII"),
                     *((it, UNFIT) for it in unfit)):
        shown = "".join(chr(it) if 32 <= it <= 126 else "?" for it in bad.encode())
        row("faulty line %r" % bad, "say hi\n" + bad, [([], 1, *faulty(0, 2, why, shown))])


def group_rows():
    row("self", "buf a int32 5\nsend self 0 1 a\nbuf b int32 0\nrecv self any any b\nprint b\nstatus\ndup d self\nwho d\ncompare d self\n"
        "split e d undefined 0\nwho e\nsend e 0 1 a\ncompare e world\ncompare d world",
        [(["5", "source 0 tag 1 count 1", "rank 0 of 1", "congruent", "error 4", "error 4", "error 4", "congruent"], 0)])
    row("two groups", example("two_groups"), [
        (["rank 0 of 2", "0 2", "unequal", "congruent", "7"], 0), (["rank 0 of 2", "1 3", "unequal", "congruent", "7"], 0),
        (["rank 1 of 2", "0 2", "unequal", "0", "congruent"], 0), (["rank 1 of 2", "1 3", "unequal", "1", "congruent"], 0)])
    row("collectives", example("collectives"), [
        (["1 2", "16 20", "42", "error 7", "done"], 0),
        (["3 4", "16 20", "1 2 3 4 5 6 7 8", "42", "2 6", "error 7", "done"], 0),
        (["5 6", "16 20", "42", "error 7", "done"], 0),
        (["7 8", "16 20", "7 8", "42", "2 14", "error 7", "done"], 0)])
    row("sum and product of one", "buf a int8 100 3\nbuf s int8 2*0\nscatter self 0 a a\nreduce self 0 prod a p\nprint p\nbcast self 1 a\n"
        "allreduce self affine a p\ngather self 0 x a", [(["100 3", "error 7", "error 9"], 1, *unset(0, 8, "x", "gather self 0 x a"))])
    row("another count", "on 0\nbuf a int32 1\non 1\nbuf a int32 1 2\non all\nallreduce world sum a b\nprint a\nprint b",
        [(["error 12", "1"], 1, *unset(0, 8, "b", "print b")), (["error 12", "1 2"], 1, *unset(1, 8, "b", "print b"))])
    row("dash at the root", "buf a int32 1\nscatter world 1 - a\nprint a\non 1\nsay no",
        [([], 4, *gave_up(0, SHORT, "at line 2: scatter world 1 - a")), ([], 1, *faulty(1, 2, UNFIT, "scatter world 1 - a"))],
        patience=SHORT)
    row("reversed ring of 6", reversed_ring(6), [(reversed_lines(6, rank), 0) for rank in range(6)])
    row("another kind", "on 0\ndup d world\non 1\nsplit d world 0 0\non all\nsay on\nwho d",
        [(["error 12", "on"], 1, *unset(rank, 7, "d", "who d")) for rank in range(2)])


def traffic_rows():
    row("ring of 8", ring(8), [(["%d" % ((r - 1) % 8), "source %d tag 1 count 1" % ((r - 1) % 8)], 0) for r in range(8)])
    row("gather of 6", gather(6), [(sorted(str(-r) for r in range(1, 6)), 0)] + [([], 0)] * 5, order=False)
    row("butterfly of 8", butterfly(8, 3), [([str(r ^ 1), str(r ^ 2), str(r ^ 4)], 0) for r in range(8)])
    sends, receives = "send world 1 1 a\n" * 3000, "recv world 0 1 b\n" * 3000
    row("many messages", "on 0\nbuf a uint8 4*7\n" + sends + "on 1\nbuf b uint8 4*0\n" + receives + "print b", [([], 0), (["7 7 7 7"], 0)])
    row("a rank that waits for nobody", "on 0\nbuf b int8 1\nrecv world 1 1 b\non 1\nsay bye",
        [([], 4, *gave_up(0, SHORT, "at line 3: recv world 1 1 b")), (["bye"], 0)], patience=SHORT)
    row("a rank alone, with patience", example("pingpong"), [([], 4, *gave_up(0, 500, "at line 6: recv world 1 2 a"))], size=2,
        patience=500)


def probe_rows():
    """Synchronous sends, probes, and messages that are taken out and received. What a rank looks for is there: a later message told so."""
    row("synchronous send and probes", "on 0\nbuf a int32 4\nissend q world 1 5 a\n" + TELLS + "wait q\nsay sent\non 1\n" + TOLD +
        "buf b int32 0\niprobe world any 5\nstatus\nimprobe m world 0 any\nstatus\niprobe world any any\nmrecv m b\nprint b\nstatus\n"
        "mrecv m b\nsay end",
        [(["sent"], 0), (["source 0 tag 5 count 1"] * 2 + ["none", "4", "source 0 tag 5 count 1", "error 6", "end"], 0)])
    row("synchronous sends of nothing and of much", "on 0\nbuf e int32\nbuf l uint8 5000*7\nissend q world 1 5 e\nissend r world 1 6 l\n"
        "waitall q r\nsay sent\non 1\nbuf b int32 9\nrecv world 0 5 b\nprint b\nstatus\nbuf b uint8 5000*0\nrecv world 0 6 b\nprint b\n"
        "status",
        [(["sent"], 0), (["9", "source 0 tag 5 count 0", " ".join(["7"] * 5000), "source 0 tag 6 count 5000"], 0)])
    two = "on 0\nbuf a int32 4 5\nissend q world 1 5 a\nbuf l int32 400*6\nisend r world 1 6 l\n" + TELLS + "waitall q r\nsay sent\non 1\n"
    two += TOLD + "improbe m world 0 5\nimprobe n world any 6\nbuf b int32 0\n"
    row("layouts that don't fit or aren't set",
        two + "buf c uint8 400*0\ntype t contiguous 2 uint8\nmrecv m b as t 1\nmrecv m b as nothing 1",
        [([], 4, *gave_up(0, SHORT, "at line 8: waitall q r")), (["error 2"], 1, *unset(1, 19, "nothing", "mrecv m b as nothing 1"))],
        patience=SHORT)
    row("messages of another type or too long", two + "buf c uint8 0\nmrecv m b\nprint b\nmrecv n c\nprint c\nstatus\nmrecv m b\nmrecv n c",
        [(["sent"], 0), (["error 10", "0", "error 2", "0", "source 0 tag 6 count 400", "error 6", "error 6"], 0)])
    row("synchronous send to itself",
        "buf a int32 4\nbuf b int32 0\nissend q self 0 1 a\niprobe world any any\niprobe self any any\nstatus\n"
        "improbe m self 0 1\nimprobe m self any any\nmrecv m b\nprint b\nwait q\nissend q world 0 2 b\nrecv world any any b\nwait q\n"
        "status",
        [(["none", "source 0 tag 1 count 1", "none", "4", "source 0 tag 2 count 1"], 0)])
    row("message of the null process", "buf b int32 3\nissend q world null 1 b\nwait q\niprobe world null any\nstatus\n"
        "improbe m world null any\nmrecv m b\nprint b\nmrecv m b", [([FROM_NULL, "3", "error 6"], 0)])
    row("refused probes",
        "iprobe world 1 0\niprobe world 0 2147483648\nimprobe m world 7 2147483648\nimprobe m world any any\nbuf b int32 0\n"
        "mrecv m b", [(["error 5", "error 3", "error 3", "none"], 1, *unset(0, 6, "m", "mrecv m b"))])
    row("message of a group", "on all\nsplit c world 0 0\non 0\nbuf a int32 8\nsplit d c 0 1\nissend q d 0 3 a\nwait q\nsay sent\non 1\n"
        "split d c 0 0\nbuf b int32 0\nrecv d 1 any b\nstatus", [(["sent"], 0), (["source 1 tag 3 count 1"], 0)])


def rows():
    for part in (message_rows, large_rows, faulty_rows, group_rows, traffic_rows, probe_rows):
        part()
