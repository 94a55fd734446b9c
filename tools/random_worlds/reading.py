"""Reads a file of events by the rules of docs/EVENT_FILES.md, without a look at the code of `event_files`.

A file is read whole before anything runs: the first line that is at fault is the answer. What a line says is kept in one
of the small classes below, and `rules.py` says what each of them does.
"""

import re
from dataclasses import dataclass

import errors
import floats

# Each basic type by its name: its size in bytes, whether it has a sign, and its code in a frame.
TYPES = {
    "int8": (1, True, 1),
    "int16": (2, True, 2),
    "int32": (4, True, 3),
    "int64": (8, True, 4),
    "uint8": (1, False, 5),
    "uint16": (2, False, 6),
    "uint32": (4, False, 7),
    "uint64": (8, False, 8),
    "byte": (1, False, 9),
    "float32": (4, False, 10),
    "float64": (8, False, 11),
}

# The words of floats are names, too.
RESERVED = {"world", "self", "null"} | set(TYPES) - set(floats.FLOATS)
NAME = re.compile(r"[a-z][a-z0-9]{0,15}")
NUMBER = re.compile(r"0|[1-9][0-9]*")
HEX = re.compile(r"([0-9a-f][0-9a-f])+")

ANY = "any"
NULL = "null"
LARGEST_TIME = 2**64 - 1
MOST_RANKS = 1024


class Refused(Exception):
    """The file is refused with this number, at this line; for this reason, where it isn't that the line says nothing."""

    def __init__(self, number, line, reason=None):
        super().__init__(f"refused {number} line {line}")
        self.number = number
        self.line = line
        self.reason = reason


class Faulty(Exception):
    """These words are no line of a file of events."""


@dataclass
class SetBuffer:
    rank: int
    name: str
    type: str
    values: list


@dataclass
class SetLayout:
    """`form` is `contiguous`, `vector` or `indexed`; `blocks` are the pairs of the last one, length and displacement."""

    rank: int
    name: str
    form: str
    numbers: list
    blocks: list
    old: str


@dataclass
class Isend:
    """`through` is the layout's name and the number of copies, or None."""

    rank: int
    request: str
    communicator: str
    target: object
    tag: object
    buffer: str
    through: object = None


@dataclass
class Issend(Isend):
    """As an `Isend`, but synchronous."""


@dataclass
class Irecv:
    rank: int
    request: str
    communicator: str
    source: object
    tag: object
    buffer: str
    through: object = None


@dataclass
class Iprobe:
    rank: int
    communicator: str
    source: object
    tag: object


@dataclass
class Improbe:
    """`message` is the name that a message gets which is found."""

    rank: int
    message: str
    communicator: str
    source: object
    tag: object


@dataclass
class Mrecv:
    rank: int
    message: str
    buffer: str
    through: object = None


@dataclass
class Wait:
    rank: int
    request: str


@dataclass
class Test:
    rank: int
    request: str


@dataclass
class Cancel:
    rank: int
    request: str


@dataclass
class Waitany:
    rank: int
    requests: list


@dataclass
class Waitall:
    rank: int
    requests: list


@dataclass
class Barrier:
    rank: int
    communicator: str


@dataclass
class Bcast:
    rank: int
    communicator: str
    root: int
    buffer: str


@dataclass
class Gather:
    rank: int
    communicator: str
    root: int
    buffer: str
    into: str


@dataclass
class Scatter:
    """`buffer` is None where it is `-`."""

    rank: int
    communicator: str
    root: int
    buffer: object
    into: str


@dataclass
class Reduce:
    rank: int
    communicator: str
    root: int
    operation: str
    buffer: str
    into: str


@dataclass
class Allreduce:
    rank: int
    communicator: str
    operation: str
    buffer: str
    into: str


@dataclass
class Dup:
    rank: int
    name: str
    communicator: str


@dataclass
class Split:
    """`colour` is None where it is `undefined`."""

    rank: int
    name: str
    communicator: str
    colour: object
    key: int


@dataclass
class Who:
    rank: int
    communicator: str


@dataclass
class Members:
    rank: int
    communicator: str


@dataclass
class Compare:
    rank: int
    one: str
    other: str


@dataclass
class Deliver:
    number: int


@dataclass
class Tick:
    rank: int
    now: int


@dataclass
class Restart:
    rank: int


@dataclass
class Stray:
    rank: int
    bytes: bytes


def lowest(type_name):
    """The lowest value of a basic type."""
    size, signed, _ = TYPES[type_name]
    return -(2 ** (8 * size - 1)) if signed else 0


def highest(type_name):
    """The highest value of a basic type."""
    size, signed, _ = TYPES[type_name]
    return 2 ** (8 * size - 1) - 1 if signed else 2 ** (8 * size) - 1


def number(word):
    """A number in decimal digits, without leading zeros and of any length."""
    if NUMBER.fullmatch(word) is None:
        raise Faulty
    return int(word)


def number_or(word, *others):
    """A number, or one of the words that may stand in its place."""
    return word if word in others else number(word)


def name(word):
    """A name of a buffer, of a layout, of a request, of a message or of a communicator."""
    if NAME.fullmatch(word) is None or word in RESERVED:
        raise Faulty
    return word


def value(type_name, word):
    """A value in the range of its type; only signed types have a `-`, and they have `-0` too."""
    if type_name in floats.FLOATS:
        found = floats.read(type_name, word)
        if found is None:
            raise Faulty
        return found
    negative = word.startswith("-")
    if negative and not TYPES[type_name][1]:
        raise Faulty
    found = -number(word[1:]) if negative else number(word)
    if not lowest(type_name) <= found <= highest(type_name):
        raise Faulty
    return found


def values(type_name, words):
    """The values of a buffer; `N*V` stands for N copies of V."""
    found = []
    for word in words:
        copies, star, one = word.partition("*")
        if star:
            found += [value(type_name, one)] * number(copies)
        else:
            found.append(value(type_name, word))
    return found


def text(type_name, value):
    """A value as it is printed."""
    return floats.text(type_name, value) if type_name in floats.FLOATS else str(value)


def request(word):
    """The name of a request, or `null`."""
    return word if word == NULL else name(word)


def a_layout(rank, words):
    """A layout: its name, how it is made, and the layout or the type that it is made of."""
    if len(words) < 3:
        raise Faulty
    named, form, old = name(words[0]), words[1], words[-1]
    old = old if old in TYPES else name(old)
    between = words[2:-1]
    if form == "indexed":
        blocks = [tuple(number(part) for part in two_parts(word)) for word in between]
        return SetLayout(rank, named, form, [], blocks, old)
    if len(between) != {"contiguous": 1, "vector": 3}.get(form):
        raise Faulty
    return SetLayout(rank, named, form, [number(word) for word in between], [], old)


def two_parts(word):
    """The two parts of a block, which stand before and behind a colon."""
    parts = word.split(":")
    if len(parts) != 2:
        raise Faulty
    return parts


def transfer(words, count=5):
    """So many words of a send or a receive without its ending, and what the ending `as L N` says, if it is there."""
    if len(words) == count:
        return words, None
    if len(words) == count + 3 and words[count] == "as":
        return words[:count], (name(words[count + 1]), number(words[count + 2]))
    raise Faulty


def probed(words):
    """Where a probe looks: a communicator, a source and a tag."""
    communicator, source, tag = words
    return a_communicator(communicator), number_or(source, ANY, NULL), number_or(tag, ANY)


def statement(rank, words):
    """What a rank is told to do."""
    kind, rest = words[0], words[1:]
    if kind == "buf" and len(rest) >= 2:
        if rest[1] not in TYPES:
            raise Faulty
        return SetBuffer(rank, name(rest[0]), rest[1], values(rest[1], rest[2:]))
    if kind == "type":
        return a_layout(rank, rest)
    if kind in ("isend", "issend"):
        (named, communicator, target, tag, buffer), through = transfer(rest)
        sends = {"isend": Isend, "issend": Issend}[kind]
        return sends(rank, name(named), a_communicator(communicator), number_or(target, NULL), number_or(tag, ANY),
                     name(buffer), through)
    if kind == "irecv":
        (named, communicator, source, tag, buffer), through = transfer(rest)
        return Irecv(rank, name(named), a_communicator(communicator), number_or(source, ANY, NULL),
                     number_or(tag, ANY), name(buffer), through)
    if kind == "iprobe" and len(rest) == 3:
        return Iprobe(rank, *probed(rest))
    if kind == "improbe" and len(rest) == 4:
        return Improbe(rank, name(rest[0]), *probed(rest[1:]))
    if kind == "mrecv":
        (message, buffer), through = transfer(rest, 2)
        return Mrecv(rank, name(message), name(buffer), through)
    if kind in ("wait", "test", "cancel") and len(rest) == 1:
        return {"wait": Wait, "test": Test, "cancel": Cancel}[kind](rank, request(rest[0]))
    if kind in ("waitany", "waitall"):
        return {"waitany": Waitany, "waitall": Waitall}[kind](rank, [request(word) for word in rest])
    if kind in COLLECTIVES and len(rest) == COLLECTIVES[kind]:
        return a_collective(rank, kind, rest)
    if kind in COMMUNICATORS and len(rest) == COMMUNICATORS[kind]:
        return of_communicators(rank, kind, rest)
    raise Faulty


# The collectives that make no communicator, and how many words each has behind its first.
COLLECTIVES = {"barrier": 1, "bcast": 3, "gather": 4, "scatter": 4, "reduce": 5, "allreduce": 4}

# The operations of a reduction.
OPERATIONS = ("max", "min", "sum", "prod", "land", "lor", "lxor", "band", "bor", "bxor", "affine")


def a_collective(rank, kind, words):
    """A barrier, or a collective that moves elements."""
    communicator = a_communicator(words[0])
    if kind == "barrier":
        return Barrier(rank, communicator)
    if kind == "allreduce":
        return Allreduce(rank, communicator, an_operation(words[1]), name(words[2]), name(words[3]))
    root = number(words[1])
    if kind == "bcast":
        return Bcast(rank, communicator, root, name(words[2]))
    if kind == "gather":
        return Gather(rank, communicator, root, name(words[2]), name(words[3]))
    if kind == "scatter":
        return Scatter(rank, communicator, root, None if words[2] == "-" else name(words[2]), name(words[3]))
    return Reduce(rank, communicator, root, an_operation(words[2]), name(words[3]), name(words[4]))


def an_operation(word):
    """The word of an operation."""
    if word not in OPERATIONS:
        raise Faulty
    return word


# The statements on communicators, and how many words each has behind its first.
COMMUNICATORS = {"dup": 2, "split": 4, "who": 1, "members": 1, "compare": 2}


def of_communicators(rank, kind, words):
    """A new communicator, or a question about one or two."""
    if kind == "dup":
        return Dup(rank, name(words[0]), a_communicator(words[1]))
    if kind == "split":
        return Split(rank, name(words[0]), a_communicator(words[1]), a_colour(words[2]), value("int32", words[3]))
    if kind == "compare":
        return Compare(rank, a_communicator(words[0]), a_communicator(words[1]))
    return {"who": Who, "members": Members}[kind](rank, a_communicator(words[0]))


def a_colour(word):
    """A colour of 32 bits, or None for `undefined`."""
    return None if word == "undefined" else value("uint32", word)


def a_communicator(word):
    """`world`, `self` or a name."""
    return word if word in ("world", "self") else name(word)


def event(words):
    """What a line behind the first one says."""
    kind = words[0]
    if kind == "deliver" and len(words) == 2:
        return Deliver(number(words[1]))
    if kind == "tick" and len(words) == 3:
        now = number(words[2])
        if now > LARGEST_TIME:
            raise Faulty
        return Tick(number(words[1]), now)
    if kind == "restart" and len(words) == 2:
        return Restart(number(words[1]))
    if kind == "stray" and len(words) == 3:
        if HEX.fullmatch(words[2]) is None:
            raise Faulty
        return Stray(number(words[1]), bytes.fromhex(words[2]))
    if len(words) < 2:
        raise Faulty
    return statement(number(kind), words[1:])


def size_of_world(words):
    """The number of ranks, from the first line that isn't skipped."""
    if len(words) != 2 or words[0] != "world":
        raise Faulty
    size = number(words[1])
    if not 1 <= size <= MOST_RANKS:
        raise Faulty
    return size


def lines_of(text):
    """The lines of a file; the last one may lack its line feed."""
    lines = text.split(b"\n")
    if lines[-1] == b"":
        lines.pop()
    return lines


def line_at(text, place):
    """The line at this place, of which the first is 1; behind the last one an empty one."""
    return (lines_of(text) + [b""])[place - 1]


def words_of(line):
    """The words of one line, which has no byte but spaces and visible ASCII."""
    if any(byte < 32 or byte > 126 for byte in line):
        raise Faulty
    return [word for word in line.decode("ascii").split(" ") if word]


def read(text):
    """The number of ranks and the events, each with its line; or `Refused` with 51 and the first faulty line."""
    size, events = None, []
    lines = lines_of(text)
    for place, line in enumerate(lines, start=1):
        try:
            words = words_of(line)
            if not words or words[0].startswith("#"):
                continue
            if size is None:
                size = size_of_world(words)
            else:
                events.append((place, event(words)))
        except Faulty:
            raise Refused(errors.SCRIPT, place) from None
    if size is None:
        raise Refused(errors.SCRIPT, len(lines) + 1)
    return size, events
