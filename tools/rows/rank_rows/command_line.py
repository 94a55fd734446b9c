"""What `rank_main` says of the words that it is given, and of those of its script; and how it is told its place."""

import os
import tempfile

import ports
from bounds import MOST_RANKS
from programs import TOP, version
from starting import OUTSIDE, UNFIT, begun, compare, place, ran, refused, script_in

USAGE = "usage: rank_main --rank R --size N --inc I --job J --port P [--patience MS] [--hosts A,B,..] FILE"
WORDS = "one of --rank, --size, --inc, --job, --port, --patience and --hosts, each once, or one script"
LIST = "IPv4 addresses, one a rank, with commas between them"
HOSTS = "127.0.0.2,127.0.0.3,127.0.0.4"
RING = ("on 0\nbuf a int32 5\nbuf b int32 0\nsend world 1 1 a\nrecv world 2 1 b\nprint b\non 1\nbuf b int32 0\nrecv world 0 1 b\n"
        "send world 2 1 b\non 2\nbuf b int32 0\nrecv world 1 1 b\nsend world 0 1 b\n")
# Lines of a script that are faulty, and what is told of each: which word is wrong, and the form of the statement.
FORMS = [
    ("send world any 7 a", UNFIT, "'any' can't be DEST: the form is send COMM DEST TAG B [as L N]"),
    ("send 1 0 a", UNFIT, "'1' can't be COMM: the form is send COMM DEST TAG B [as L N]"),
    ("send world 1 0 a as v", UNFIT, "N is missing: the form is send COMM DEST TAG B [as L N]"),
    ("buf a int 1", UNFIT, "'int' can't be TYPE: the form is buf B TYPE V .."),
    ("buf a int32 1.5", UNFIT, "'1.5' can't be V: the form is buf B TYPE V .."),
    ("print a # now", UNFIT, "a comment is a line of its own: the form is print B"),
    ("on 0,1", UNFIT, "'0,1' can't be R: the form is on R .."),
    ("type v vector 2 1 int32", UNFIT, "'int32' can't be S: the form is type L vector C N S OLD"),
    ("bcast world", UNFIT, "ROOT is missing: the form is bcast COMM ROOT B"),
    ("bacst world 0 a", "no such statement", "'bcast' may be meant: bcast COMM ROOT B"),
    ("say hi\r", "a byte that isn't printable ASCII", "the line ends with a carriage return (CRLF): lines end with a line feed alone"),
]


def script_words(room):
    """Which word of a script is wrong, in whole."""
    for line, why, told in FORMS:
        shown = line.replace("\r", "?")
        script = script_in(room, line + "\n")
        wanted = refused("51 line 1", "rank 0: %s: %s" % (why, shown), told)
        compare("form: " + shown, ran([*place(0, 1, ports.free()), script]), (1, "", wanted))
    script = script_in(room, "say hi\nbuf a int8 128\n")
    wanted = refused("51 line 2", "rank 0: %s: buf a int8 128" % OUTSIDE)
    compare("form: a value", ran([*place(0, 1, ports.free()), script]), (1, "", wanted))


def errors(room):
    """What is told of an error, in whole."""
    text = "on 0\nbuf a int32 1 2 3 4\nsend world 1 0 a\nsend world 5 0 a\non 1\nbuf b int32 0 0\nirecv q world 0 0 b\nwait q\n"
    script = script_in(room, text)
    port = ports.free(2)
    ranks = [begun([*place(rank, 2, port), script]) for rank in range(2)]
    found = [(*it.communicate(), it.returncode) for it in ranks]
    said = ["rank_main: rank 0 line 4: error 5: the communicator has no rank 5: send world 5 0 a\n",
            "rank_main: rank 1 line 8: error 10: the message has 4 int32, the buffer room for 2 (line 7 started it): wait q\n"]
    compare("errors, rank 0", found[0], ("error 5\n", said[0], 0))
    compare("errors, rank 1", found[1], ("error 10\n", said[1], 0))


def judgements(room):
    """A script is judged without running it."""
    script = script_in(room, "buf a int32 1\nbarrier wrold\non 1\nprint b\non 2\nwait q\n")
    wanted = ["rank_main: line 2: no line sets the name wrold before at rank 0 and one more ('world' may be meant): barrier wrold",
              "rank_main: line 4: no line sets the name b before at rank 1: print b"]
    compare("judged: names", ran(["--judge", 2, script]), (1, "", wanted))
    script = script_in(room, "on 1\nsend world any 0 a\n")
    wanted = refused("51 line 2", UNFIT + ": send world any 0 a", "'any' can't be DEST: the form is send COMM DEST TAG B [as L N]")
    compare("judged: words", ran(["--judge", 2, script]), (1, "", wanted))
    compare("judged: a script that is right", ran(["--judge", 2, TOP / "examples/scripts/pingpong.txt"]), (0, "", []))


def help_and_version():
    status, output, said = ran(["--help"])
    compare("help", (status, output.partition("\n")[0], said), (0, USAGE, []))
    compare("version", ran(["--version"]), (0, "rank_main (Kombazily) %s\n" % version(), []))


def refused_words(fault, command):
    """The refusal, which word is at fault and what may stand there (nothing where words are missing), and the usage."""
    told = ["rank_main: " + fault] if fault else []
    compare("words: " + " ".join(map(str, command)), ran(command), (2, "", ["rank_main: refused 64", *told, USAGE]))


def words(room):
    """Words that are refused; `usual` are those of a rank alone, of which some are replaced (by nothing where it is None)."""
    script, port = script_in(room, "say hi\n"), ports.free()
    usual = {"--rank": 0, "--size": 1, "--inc": 0, "--job": 1, "--port": port}

    def told(fault, more=(), **changed):
        given = {**usual, **{"--" + name: value for name, value in changed.items()}}
        refused_words(fault, [*(it for pair in given.items() if pair[1] is not None for it in pair), script, *more])

    def number(word, low, high, **changed):
        told("'%s': a number from %d to %d" % (word, low, high), **changed)

    refused_words("", [])
    number("1", 0, 0, rank=1)
    number("0", 1, MOST_RANKS, size=0)
    number(MOST_RANKS + 1, 1, MOST_RANKS, size=MOST_RANKS + 1)
    number("65536", 0, 65535, inc=65536)
    number(2**64, 0, 2**64 - 1, job=2**64)
    number("0", 1, 65535, port=0)
    number("3", 4, 65535, rank=3, size=4, port=3)
    number("65535", 1, 65534, size=2, port=65535)
    number("0", 1, 3600000, patience=0)
    number("3600001", 1, 3600000, patience=3600001)
    number("00", 0, MOST_RANKS - 1, rank="00")
    refused_words("'--rank': " + WORDS, ["--rank", 0, "--rank", 0, "--size", 1, "--inc", 0, "--job", 1, "--port", port, script])
    refused_words("", [it for pair in usual.items() for it in pair])
    told("'more': " + WORDS, more=["more"])
    told("", rank=None)
    for size, hosts in ((2, "127.0.0.2"), (1, "127.0.0.2,127.0.0.3"), (2, "127.0.0.2,127.0.0.03"), (2, "127.0.0.2,")):
        told("'%s': a list of %d %s" % (hosts, size, LIST), size=size, hosts=hosts)
    told("'': a list of 1 " + LIST, more=["--hosts="])
    told("'--hosts': " + WORDS, more=["--hosts", "127.0.0.1"], hosts="127.0.0.1")


def places(room):
    """Ranks at three addresses, told by words and by the environment; the greatest values; an address of no interface."""
    script, port = script_in(room, RING), ports.free(3)
    ranks = [begun([*place(rank, 3, port, hosts=HOSTS), script]) for rank in range(3)]
    for rank, process in enumerate(ranks):
        compare("at three addresses, rank %d" % rank, (*process.communicate(), process.returncode), ("5\n" if rank == 0 else "", "", 0))
    job = {"SIZE": 3, "INCARNATION": 0, "JOB": 1, "PORT": ports.free(3)}

    def told(rank, hosts):
        return begun([script], **{"KOMBAZILY_" + name: str(it) for name, it in {**job, "RANK": rank, "HOSTS": hosts}.items()})

    for rank, process in enumerate([told(rank, HOSTS) for rank in range(3)]):
        compare("told by the environment, rank %d" % rank, (*process.communicate(), process.returncode),
                ("5\n" if rank == 0 else "", "", 0))
    few = told(0, "127.0.0.2")
    few.communicate()
    compare("hosts of the environment that are too few", few.returncode, 2)
    script, port = script_in(room, "say hi\n"), ports.free()
    wanted = ["rank_main: rank 0: port %d of 192.0.2.1 can't be used" % port]
    compare("an address of no interface", ran([*place(0, 1, port, hosts="192.0.2.1"), script]), (3, "", wanted))
    greatest = ["--patience", 3600000, "--port", 65535, "--job", 2**64 - 1, "--inc", 65535, "--size", MOST_RANKS, "--rank", MOST_RANKS - 1]
    compare("the greatest values", ran([script, *greatest]), (0, "hi\n", []))


def rows():
    for name in [it for it in os.environ if it.startswith("KOMBAZILY_")]:
        del os.environ[name]
    with tempfile.TemporaryDirectory() as room:
        for part in (script_words, errors, judgements, words, places):
            part(room)
            print("done: " + part.__name__, flush=True)
    help_and_version()
