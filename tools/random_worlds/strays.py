"""Makes stray bytes: datagrams of another job, and what is left when one or two of their fields are spoilt."""

from bytes_of_strays import MOST_BYTES, MOST_EAGER_BYTES
from reading import TYPES


def header(random, size, kind, body):
    """A header of another job, whose other fields an engine could have written."""
    return b"".join([
        bytes.fromhex("4d505544"),
        bytes([2, kind]),
        random.randrange(size).to_bytes(2, "big"),
        random.randrange(size).to_bytes(2, "big"),
        random.randrange(2).to_bytes(2, "big"),
        random.randrange(2).to_bytes(2, "big"),
        len(body).to_bytes(2, "big"),
        random.choice([0, 2, 256, 2**32 + 1, 2**64 - 1]).to_bytes(8, "big"),
        (0 if kind == 3 else random.choice([0, 1, 2**64 - 1])).to_bytes(8, "big"),
    ])


def a_frame(random):
    """A frame: mostly of a message that comes whole."""
    return random.choice([a_whole_message, a_whole_message, a_request, a_clear, a_part])(random)


def a_whole_message(random):
    """An EAGER frame, of a rank's calls or of a collective."""
    plane = random.choice([0, 0, 1])
    kind = "byte" if plane == 1 else random.choice(list(TYPES))
    size, _, code = TYPES[kind]
    count = random.choice([0, 1, 3, MOST_EAGER_BYTES // size])
    return frame(random, plane, code, count) + random.randbytes(count * size)


def frame(random, plane, code, count, tag=None):
    tag = random.choice([0, 7, 2**31 - 1]) if tag is None else tag
    return bytes([1, plane, code, 0]) + tag.to_bytes(4, "big") + bytes(8) + count.to_bytes(4, "big")


def a_bad_frame(random):
    """A body that is no frame that is taken."""
    good = a_whole_message(random)
    kind = random.randrange(14)
    if kind == 0:
        return b""
    if kind == 1:
        return good[:random.randrange(20)]
    if kind == 2:
        return bytes([random.choice([0, 2, 3, 4, 5, 255])]) + good[1:]
    if kind == 3:
        return good[:1] + bytes([random.choice([2, 255])]) + good[2:]
    if kind == 4:
        return good[:2] + bytes([random.choice([0, 12, 255])]) + good[3:]
    if kind == 5:
        return good[:3] + bytes([random.choice([1, 255])]) + good[4:]
    if kind == 6:
        return good[:4] + (2**31 + random.choice([0, 5])).to_bytes(4, "big") + good[8:]
    if kind == 7:
        return good + bytes(random.choice([1, 8]))
    if kind == 8:
        return frame(random, 0, 5, 1025) + bytes(1025)
    if kind == 9:
        return frame(random, 1, 3, 2) + bytes(8)
    if kind == 10:
        return frame(random, 0, 8, random.choice([2**29, 2**32 - 1])) + bytes(8)
    if kind == 11:
        return a_bad_request(random)
    if kind == 12:
        return a_bad_clear(random)
    return a_bad_part(random)


def a_transfer(random):
    return random.choice([0, 1, 2**32 - 1]).to_bytes(4, "big")


def a_request(random):
    """The announcement of a message (RTS), of a rank's calls or of a collective: of a large one, or of a synchronous send's of any
    length."""
    plane = random.choice([0, 0, 1])
    kind = "byte" if plane == 1 else random.choice(list(TYPES))
    size, _, code = TYPES[kind]
    mode = random.choice([0, 0, 1])
    count = random.choice([MOST_EAGER_BYTES // size + 1, 5000, MOST_BYTES // size] + [0, 1, MOST_EAGER_BYTES // size] * mode)
    opening = frame(random, plane, code, count)
    return b"\x02" + opening[1:3] + bytes([mode]) + opening[4:] + a_transfer(random)


def a_bad_request(random):
    good = a_request(random)
    kind = random.randrange(6)
    if kind == 0:
        return good[:random.choice([1, 20, 23])]
    if kind == 1:
        return good + bytes(random.choice([1, 1005]))
    if kind == 2:
        size, _, code = TYPES[random.choice(list(TYPES))]
        most = MOST_BYTES // size
        mode, count = random.choice([(0, 0), (0, MOST_EAGER_BYTES // size), (0, most + 1), (0, 2**32 - 1), (1, most + 1), (1, 2**32 - 1)])
        opening = frame(random, 0, code, count)
        return b"\x02" + opening[1:3] + bytes([mode]) + opening[4:] + a_transfer(random)
    if kind == 3:
        return good[:1] + bytes([random.choice([2, 255])]) + good[2:]
    if kind == 4:
        return good[:3] + bytes([random.choice([2, 255])]) + good[4:]
    return good[:4] + (2**31 + random.choice([0, 5])).to_bytes(4, "big") + good[8:]


def a_clear(random):
    """The answer to an announcement (CTS)."""
    return bytes([3, random.randrange(2), 0, 0]) + a_transfer(random)


def a_bad_clear(random):
    good = a_clear(random)
    kind = random.randrange(4)
    if kind == 0:
        return good[:random.randrange(1, 8)]
    if kind == 1:
        return good + bytes(random.choice([1, 12]))
    if kind == 2:
        return good[:1] + bytes([random.choice([2, 255])]) + good[2:]
    return good[:2] + random.choice([b"\x01\x00", b"\x00\x01"]) + good[4:]


def a_part(random):
    """Bytes of a large message (DATA)."""
    return part_at(random, MOST_EAGER_BYTES * random.choice([0, 1, 1023]), random.choice([1, 3, MOST_EAGER_BYTES]))


def part_at(random, offset, length):
    return b"\x04\x00\x00\x00" + a_transfer(random) + offset.to_bytes(4, "big") + random.randbytes(length)


def a_bad_part(random):
    kind = random.randrange(5)
    if kind == 0:
        return part_at(random, 0, random.choice([0, 1025]))
    if kind == 1:
        return part_at(random, random.choice([1, MOST_EAGER_BYTES - 1, MOST_BYTES - 1]), 1)
    if kind == 2:
        return part_at(random, random.choice([MOST_BYTES, 2**32 - MOST_EAGER_BYTES]), 1)
    if kind == 3:
        return a_part(random)[:random.randrange(1, 12)]
    good = a_part(random)
    return good[:1] + random.choice([b"\x01\x00\x00", b"\x00\x01\x00", b"\x00\x00\x01"]) + good[4:]


def a_datagram(random, size):
    kind = random.choice([1, 1, 2, 3])
    body = {1: a_frame, 2: told_as_held, 3: lambda _: b""}[kind](random)
    return header(random, size, kind, body) + body


def told_as_held(random):
    """The body of an acknowledgement, which may say that any frame is held but the one that it waits for; seldom it says that one."""
    told = random.choice([0, 0, 2, 4, 2**63, random.randrange(0, 2**64, 2)])
    return (told + (random.random() < 0.1)).to_bytes(8, "big")


def a_stray(random, size):
    """Bytes with no fault but their job, or with a few faults; never empty."""
    data = a_datagram(random, size)
    for _ in range(random.choice([0, 1, 1, 1, 2])):
        data = spoilt(random, size, data)
    return data or b"\x4d"


def spoilt(random, size, data):
    kind = random.randrange(11)
    if kind == 0:
        return data[:random.choice([1, 4, 16, 23, 24, 31, max(1, len(data) - 1)])]
    if kind == 1:
        place = random.randrange(4)
        return data[:place] + bytes([random.randrange(256)]) + data[place + 1:]
    if kind == 2:
        return data[:4] + bytes([random.choice([0, 1, 3, 255])]) + data[5:]
    if kind == 3:
        return data[:5] + bytes([random.choice([0, 1, 2, 3, 4, 255])]) + data[6:]
    if kind == 4:
        return data[:14] + random.choice([0, 1, 8, 1200, 1201, len(data)]).to_bytes(2, "big") + data[16:]
    if kind == 5:
        return data + bytes(random.choice([1, 5, 8, 1200]))
    if kind == 6:
        return data[:16] + (1).to_bytes(8, "big") + data[24:]
    if kind == 7:
        return data[:24] + random.choice([1, 2**63]).to_bytes(8, "big") + data[32:]
    if kind == 8:
        body = a_bad_frame(random)
        return header(random, size, 1, body) + body
    if kind == 9:
        kind, body = random.choice([2, 3]), bytes(random.choice([0, 1, 7, 8, 9, 16]))
        return header(random, size, kind, body) + body
    length = random.choice([1200, 1201])
    return header(random, size, 1, bytes(length)) + bytes(length)
