"""Why a line is faulty, as docs/NUMBERS.md has it under the usual causes of 51, and how that and the line's text are told."""

import reading

NOT_ASCII = "a byte that isn't ASCII"
NOT_PRINTABLE = "a byte that isn't printable ASCII"
NO_STATEMENT = "no such statement"
OUTSIDE = "a value outside its type"
UNFIT = "words that don't fit the statement"

# The first words of events, of the line that says how many ranks there are, and of statements behind a rank.
EVENTS = ("world", "deliver", "tick", "restart", "stray")
STATEMENTS = ("buf", "type", "isend", "issend", "irecv", "iprobe", "improbe", "mrecv", "wait", "test", "cancel", "waitany", "waitall",
              *reading.COLLECTIVES, *reading.COMMUNICATORS)

# So many bytes of a line are told.
MOST_TOLD = 80


def unset(name):
    return f"the name {name} isn't set"


def lent(name):
    return f"the buffer {name} is lent to a receive"


def of_line(line):
    """Why these bytes are no line of a file of events; of an empty one: nothing stands where a line is wanted."""
    odd = [byte for byte in line if byte < 32 or byte > 126]
    if odd:
        return NOT_ASCII if odd[0] > 127 else NOT_PRINTABLE
    words = reading.words_of(line)
    if not words:
        return NO_STATEMENT
    if words[0] in EVENTS:
        return OUTSIDE if words[0] == "tick" and is_outside("uint64", words[2:3], False) else UNFIT
    if reading.NUMBER.fullmatch(words[0]) is None:
        return NO_STATEMENT
    return of_statement(words[1:])


def of_statement(words):
    """The same of the words behind a rank."""
    if not words:
        return UNFIT
    if words[0] not in STATEMENTS:
        return NO_STATEMENT
    if words[0] == "buf" and words[2:] and words[2] in reading.TYPES:
        return OUTSIDE if is_outside(words[2], [word.partition("*")[2] if "*" in word else word for word in words[3:]], True) else UNFIT
    if words[0] == "split" and len(words) > 4:
        return OUTSIDE if is_outside("uint32", words[3:4], False) or is_outside("int32", words[4:5], True) else UNFIT
    return UNFIT


def is_outside(type_name, words, may_be_negative):
    """Whether one of the words is a number, with a sign where one may stand, that the type doesn't hold."""
    return any(is_number(word, may_be_negative) and not holds(type_name, word) for word in words)


def is_number(word, may_be_negative):
    return reading.NUMBER.fullmatch(word[1:] if may_be_negative and word.startswith("-") else word) is not None


def holds(type_name, word):
    try:
        reading.value(type_name, word)
    except reading.Faulty:
        return False
    return True


def told(reason, line):
    """The line behind a refusal: the reason, and the text of the line that it is about."""
    text = "".join(chr(byte) if 32 <= byte <= 126 else "?" for byte in line[:MOST_TOLD])
    return f"{reason}: {text}" + (" .." if len(line) > MOST_TOLD else "")
