"""Judges stray bytes: whether they are a datagram, and of which job (docs/EVENT_FILES.md)."""

import errors
from reading import TYPES

JOB = 1
MAGIC = bytes.fromhex("4d505544")
HEADER = 32
LONGEST_BODY = 1200
MOST_EAGER_BYTES = 1024
MOST_BYTES = 2**20
HIGHEST_TAG = 2**31 - 1


def length_of_message(body):
    """How many bytes of data a message has by bytes 1 to 19 of an EAGER frame or an RTS; None where they say no message. Byte 3 is the
    mode of its send: 0 of a standard one, 1 of a synchronous one."""
    if len(body) < 20 or body[1] > 1 or body[3] > 1:
        return None
    sizes = [size for size, _, code in TYPES.values() if code == body[2]]
    if not sizes or (body[1] == 1 and body[2] != TYPES["byte"][2]):
        return None
    if int.from_bytes(body[4:8], "big") > HIGHEST_TAG:
        return None
    return int.from_bytes(body[16:20], "big") * sizes[0]


def is_eager(body):
    length = length_of_message(body)
    return length is not None and body[3] == 0 and length <= MOST_EAGER_BYTES and len(body) == 20 + length


def is_request(body):
    """Whether a message is announced: of a standard send one that doesn't go in one frame, of a synchronous one any."""
    length = length_of_message(body)
    return length is not None and (body[3] == 1 or MOST_EAGER_BYTES < length) and length <= MOST_BYTES and len(body) == 24


def is_clear(body):
    return len(body) == 8 and body[1] <= 1 and not any(body[2:4])


def is_data(body):
    if not 12 < len(body) <= 12 + MOST_EAGER_BYTES or any(body[1:4]):
        return False
    offset = int.from_bytes(body[8:12], "big")
    return offset % MOST_EAGER_BYTES == 0 and offset < MOST_BYTES


def is_frame(body):
    """Whether these bytes are a frame: a message that comes whole, or one of those of a large message."""
    forms = {1: is_eager, 2: is_request, 3: is_clear, 4: is_data}
    return bool(body) and body[0] in forms and forms[body[0]](body)


def fault_of_bytes(data):
    """Why stray bytes are refused: they carry the world's job number, are no datagram, or are of another job."""
    if data[16:24] == JOB.to_bytes(8, "big"):
        return errors.CARRIES_JOB
    if len(data) < HEADER:
        return errors.SHORT
    if data[:4] != MAGIC:
        return errors.MAGIC
    if data[4] != 2:
        return errors.VERSION
    if data[5] not in (1, 2, 3):
        return errors.KIND
    length = int.from_bytes(data[14:16], "big")
    if length != len(data) - HEADER or length > LONGEST_BODY or (data[5] != 1 and length != {2: 8, 3: 0}[data[5]]):
        return errors.LENGTH
    if data[5] == 2 and data[-1] % 2 == 1:
        return errors.BAD_FRAME
    if data[5] == 1 and not is_frame(data[HEADER:]):
        return errors.BAD_FRAME
    if data[5] == 3 and any(data[24:32]):
        return errors.BAD_FRAME
    return errors.FOREIGN_JOB
