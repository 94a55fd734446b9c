"""Ranks that are stopped, killed or started anew, and what disturbs ranks: how the others end, and what they print."""

import os
import random
import re
import signal
import socket
import subprocess
import tempfile
import time
from contextlib import contextmanager

import ports
from starting import BEHIND, begun, compare, gave_up, place, ran, refused, script_in, start, unset


@contextmanager
def ranks_of(name, text, size=2):
    """A script in a file, and the first port of so many ranks that run it."""
    with tempfile.TemporaryDirectory() as room:
        yield script_in(room, text), ports.free(size)
    print("done: " + name, flush=True)


def ended(process):
    """The output of a rank, its status and its standard error."""
    output, errors = process.communicate()
    return output, process.returncode, errors


def is_held(port):
    """Waits until a rank holds its port."""
    until = time.monotonic() + 10
    while ports.is_free(socket.SOCK_DGRAM, port) and time.monotonic() < until:
        time.sleep(0.01)


def killed():
    """A rank that is killed in the middle: the other one loses its patience."""
    text = "on 0\nbuf a int32 1\nbuf b int32 0\n" + "send world 1 1 a\nrecv world 1 2 b\n" * 200000
    text += "on 1\nbuf a int32 1\nbuf b int32 0\n" + "recv world 0 1 b\nsend world 0 2 a\n" * 200000
    with ranks_of("killed", text) as (script, port):
        ranks = [start(script, rank, 2, port, patience=800) for rank in range(2)]
        time.sleep(1.2)
        ranks[1].send_signal(signal.SIGKILL)
        compare("killed, rank 1", ended(ranks[1]), ("", -signal.SIGKILL, ""))
        output, status, errors = ended(ranks[0])
        compare("killed, rank 0", (output, status), ("", 4))
        # It stands at a line of its own, which is one of two that come by turns.
        told = re.fullmatch(r"rank_main: rank 0 gave up after 800 ms at line (\d+): (.*)\n", errors)
        compare("killed, rank 0: its line", told and told[2], told and text.split("\n")[int(told[1]) - 1])
        compare("killed, rank 0: which line", bool(told and 4 <= int(told[1]) <= 400003), True)


def restarted():
    """A rank that fails and is started anew at the next incarnation: what named it ends with 11, and the new one goes on."""
    text = "on 0\nbuf b int32 0\nrecv world 1 1 b\nrecv world 1 2 b\nprint b\non 1.0\nsay up\nfail\non 1.1\nsay again\nbuf a int32 8\n"
    with ranks_of("restarted", text + "send world 0 2 a\n") as (script, port):
        zero = start(script, 0, 2, port, patience=3000)
        compare("restarted, rank 1", ended(start(script, 1, 2, port))[:2], ("up\n", 5))
        compare("restarted, rank 1 again", ended(start(script, 1, 2, port, inc=1))[:2], ("again\n", 0))
        compare("restarted, rank 0", ended(zero)[:2], ("error 11\n8\n", 0))


def restarted_in_a_large_message():
    """A rank fails while its large message is on its way: the receive ends with 11, and nothing of the message is in its buffer."""
    text = "on 0.0\nbuf h int32 0\nrecv world 1 3 h\nbuf a uint64 12500*1\nsend world 1 1 a\nfail\non 0.1\nbuf a uint8 5\n"
    text += "send world 1 2 a\non 1\nbuf b uint64 12500*0\nirecv r world 0 1 b\nbuf g int32 1\nsend world 0 3 g\nwait r\nbuf c uint8 0\n"
    name = "restarted in a large message"
    with ranks_of(name, text + "recv world 0 2 c\nprint c\nprint b\n") as (script, port):
        one = start(script, 1, 2, port)
        compare(name + ", rank 0", ended(start(script, 0, 2, port))[:2], ("", 5))
        compare(name + ", rank 0 again", ended(start(script, 0, 2, port, inc=1))[:2], ("", 0))
        compare(name + ", rank 1", ended(one)[:2], ("error 11\n5\n" + " ".join(["0"] * 12500) + "\n", 0))


def stray():
    """Stray datagrams and those of another job change nothing."""
    text = "on 0\nbuf b int32 0\nrecv world 1 1 b\nprint b\non 1\nbuf a int32 3\nsend world 0 1 a\n"
    with ranks_of("stray", text) as (script, port):
        zero = start(script, 0, 2, port)
        is_held(port)
        with socket.socket(socket.AF_INET, socket.SOCK_DGRAM) as sender:
            for _ in range(300):
                sender.sendto(os.urandom(random.randrange(0, 1400)), ("127.0.0.1", port))
        other = start(script, 1, 2, port, job=2, patience=300)
        compare("stray, of another job", ended(other), ("", 4, gave_up(1, 300, BEHIND)[0] + "\n"))
        compare("stray, rank 1", ended(start(script, 1, 2, port))[1], 0)
        compare("stray, rank 0", ended(zero)[:2], ("3\n", 0))


def refused_all_the_time():
    """What is refused keeps no rank waiting: its patience ends as if nothing came."""
    with ranks_of("refused", "on 0\nbuf b int32 0\nrecv world 1 1 b\n") as (script, port):
        with socket.socket(socket.AF_INET, socket.SOCK_DGRAM) as other:
            other.bind(("127.0.0.1", port + 1))
            zero = start(script, 0, 2, port, patience=800)
            until = time.monotonic() + 10
            while zero.poll() is None and time.monotonic() < until:
                other.sendto(b"x", ("127.0.0.1", port))
                time.sleep(0.05)
            if zero.poll() is None:
                zero.kill()
        compare("refused, all the time", ended(zero), ("", 4, gave_up(0, 800, "at line 3: recv world 1 1 b")[0] + "\n"))


def strangers():
    """A datagram of a rank is taken from that rank's own address and port alone."""
    text = "on 0\nbuf b int32 0\nrecv world 1 1 b\nprint b\non 1\nbuf a int32 9\nsend world 0 1 a\n"
    with ranks_of("strangers", text) as (script, port):
        with socket.socket(socket.AF_INET, socket.SOCK_DGRAM) as taken:
            taken.bind(("127.0.0.1", port))
            taken.settimeout(5)
            one = start(script, 1, 2, port)
            message = taken.recv(2048)
            one.kill()
            one.communicate()
        zero = start(script, 0, 2, port, patience=1500)
        is_held(port)
        with socket.socket(socket.AF_INET, socket.SOCK_DGRAM) as stranger:
            for _ in range(50):
                stranger.sendto(message, ("127.0.0.1", port))
        compare("strangers, from another port", ended(zero)[:2], ("", 4))
        zero = start(script, 0, 2, port)
        is_held(port)
        with socket.socket(socket.AF_INET, socket.SOCK_DGRAM) as own:
            own.bind(("127.0.0.1", port + 1))
            own.sendto(message, ("127.0.0.1", port))
            compare("strangers, from its own", ended(zero)[:2], ("9\n", 0))


def stopped():
    """A rank that is told to stop says where it stands."""
    with ranks_of("stopped", "say hi\nbuf a int8 0\nrecv world 1 0 a\n") as (script, port):
        rank = begun([*place(0, 2, port), script], stdin=subprocess.PIPE, RANK_STOPS_WITH_INPUT="1")
        is_held(port)
        time.sleep(0.2)
        rank.stdin.close()
        rank.stdin = None
        compare("stopped", ended(rank), ("hi\n", 7, "rank_main: rank 0 was stopped at line 3: recv world 1 0 a\n"))


def taken_port():
    """Another rank has the port."""
    with ranks_of("a port that is taken", "buf a int8 0\nrecv world 0 1 a\n") as (script, port):
        holder = start(script, 1, 2, port, patience=1500)
        is_held(port + 1)
        compare("a port that is taken", ended(start(script, 1, 2, port)),
                ("", 3, "rank_main: rank 1: port %d can't be used\n" % (port + 1)))
        compare("who has it", ended(holder), ("", 4, gave_up(1, 1500, "at line 2: recv world 0 1 a")[0] + "\n"))


def failing_output():
    """Output that can't be written; a file that isn't there."""
    with ranks_of("output that fails", "say hi\n", 1) as (script, port), open("/dev/full", "w", encoding="ascii") as full:
        compare("output that fails", ran([*place(0, 1, port), script], stdout=full)[::2], (3, ["rank_main: rank 0: its output failed"]))
        compare("help that can't be written", ran(["--help"], stdout=full)[::2], (3, ["rank_main: the output can't be written"]))
        wanted = refused("59", "rank 0: %s.none can't be read" % script)
        compare("a file that isn't there", ran([*place(0, 1, port), script + ".none"]), (1, "", wanted))


def faulty_when_reached():
    """A script whose fault is told beforehand, in whole, and met when it is reached."""
    text = "say hi\n# a comment\nprint a\nsay ho\n"
    with ranks_of("a script that is faulty where it is reached", text, 1) as (script, port):
        said = ["rank_main: line 3: no line sets the name a before at rank 0: print a", *unset(0, 3, "a", "print a")]
        compare("a script that is faulty where it is reached", ran([*place(0, 1, port), script]), (1, "hi\n", said))


def rows():
    for part in (killed, restarted, restarted_in_a_large_message, stray, refused_all_the_time, strangers, stopped, taken_port,
                 failing_output, faulty_when_reached):
        part()
