"""Ports of this machine that a job can have.

usage: python3 tools/modules/ports.py COUNT     writes the first of so many ports in a row that are free
"""

import os
import socket
import sys
import threading
from contextlib import contextmanager

# The lowest of them, and the first one behind: below those that the system gives to whoever asks for any port.
LOWEST, BEHIND = 20000, 32000
# How often ports are drawn before it is given up.
DRAWS = 200
# The ports of jobs of this process that aren't over.
TAKEN, LOCK = set(), threading.Lock()


def is_free(kind, port, address="127.0.0.1"):
    """Whether nobody holds this port of an address for such sockets now."""
    with socket.socket(socket.AF_INET, kind) as tried:
        try:
            tried.bind((address, port))
        except OSError:
            return False
    return True


def are_free(first, count):
    """Whether nobody holds these ports of 127.0.0.1 for datagrams now, nor the first one for connections, as the launcher does."""
    # One after the other: a process may have no more than 1,024 files open, often.
    return is_free(socket.SOCK_STREAM, first) and all(is_free(socket.SOCK_DGRAM, port) for port in range(first, first + count))


def drawn(count):
    """A port that has so many in a row from it on, anywhere among these."""
    return LOWEST + int.from_bytes(os.urandom(8), "little") % (BEHIND - LOWEST - count)


def some_free(count):
    """The first of so many ports in a row that are free; None where none are found."""
    return next((it for it in (drawn(count) for _ in range(DRAWS)) if are_free(it, count)), None)


def free(count=1):
    """The same for tools, which end where none are found."""
    found = some_free(count)
    if found is None:
        sys.exit("no %d ports in a row are free from %d to %d" % (count, LOWEST, BEHIND - 1))
    return found


def take(wanted):
    """Takes ports for a job, if all of them are free: whether they are."""
    with LOCK:
        if wanted & TAKEN or not all(is_free(socket.SOCK_DGRAM, it) for it in wanted):
            return False
        TAKEN.update(wanted)
        return True


@contextmanager
def of_job(size, stride=0):
    """The first of the ports of a job of so many ranks, which no other job of this process gets before it is over. With a stride each rank
    has its own ports for all ranks, so far behind those of the rank below, as a network between them needs it."""
    for _ in range(DRAWS):
        first = drawn(size * stride + size)
        wanted = {first + rank * stride + at for rank in range(size) for at in range(size)}
        if take(wanted):
            break
    else:
        sys.exit("no ports for %d ranks are free from %d to %d" % (size, LOWEST, BEHIND - 1))
    try:
        yield first
    finally:
        with LOCK:
            TAKEN.difference_update(wanted)


if __name__ == "__main__":
    if len(sys.argv) != 2 or not sys.argv[1].isdecimal():
        print(__doc__, end="")
        sys.exit(0 if sys.argv[1:] in (["-h"], ["--help"]) else 2)
    print(free(int(sys.argv[1])))
