"""Makes files with a fault in their text, or with one that is found when a line is reached, and files that only look faulty."""

import making
from reading import LARGEST_TIME, TYPES, highest, lowest

# Lines that are no line of a file of events, and their neighbours that are one. Each is put at some place of a good file.
ODD_LINES = [
    "", " ", "   ", "#", "#x", "# deliver 0", "   # x", "#\x7e",
    "world 2", "deliver", "deliver 0 0", "deliver -1", "deliver 00", "deliver 01", "deliver a", "deliver +1", "deliver 1.",
    "tick 0", "tick 0 0 0", "tick 00 0", f"tick 0 {LARGEST_TIME}", f"tick 0 {LARGEST_TIME + 1}", "tick 0 -1", "tick all 0",
    "restart", "restart 0 0", "restart 00", "restart all", "restart -0",
    "stray 0", "stray 0 a", "stray 0 abc", "stray 0 AB", "stray 0 4D", "stray 0 ab cd", "stray 0 0g", "stray 0 00", "stray 00 00",
    "0", "0 frob", "00 wait null", "-1 wait null", "a wait null", "0 wait", "0 wait null null", "0 wait any", "0 wait world",
    "0 wait Q", "0 wait 1q", "0 wait q_1", "0 wait int8", "0 wait self", "0 WAIT null", "0  wait   null", " 0 wait null ",
    "0 test", "0 test null", "0 test null null", "0 test any", "0 cancel", "0 cancel null", "0 cancel 1", "0 waitany", "0 waitany null",
    "0 waitany null null", "0 waitany Q", "0 waitall", "0 waitall null", "0 waitall world", "0 waitall null 1q",
    "0 type l contiguous 2 int8", "0 type l contiguous 0 int8", "0 type l contiguous int8", "0 type l contiguous 1 2 int8",
    "0 type l contiguous -1 int8", "0 type l contiguous 01 int8", "0 type l contiguous 1048576 int8", "0 type l contiguous 1048577 int8",
    "0 type l contiguous 99999999999999999999 int8", "0 type l contiguous 2 Int8", "0 type int8 contiguous 2 int8",
    "0 type world contiguous 2 int8", "0 type l vector 2 1 3 int32", "0 type l vector 2 1 int32", "0 type l vector 2 1 3 4 int32",
    "0 type l vector 2 1 -3 int32", "0 type l vector 2 1 99999999999999999999 int32", "0 type l indexed int32",
    "0 type l indexed 1:2 int32",
    "0 type l indexed 2:1 1:5 int32", "0 type l indexed 1 int32", "0 type l indexed 1: int32", "0 type l indexed :1 int32",
    "0 type l indexed 1:2:3 int32", "0 type l indexed 1:-2 int32", "0 type l indexed 01:2 int32", "0 type l indexed 1 :2 int32",
    "0 type l struct 1 int8", "0 type l", "0 type", "0 type l contiguous 2 world", "0 type l contiguous 2 null", "0 type l indexed 1:2",
    "0 barrier world", "0 dup d world", "0 split d world 0 0", "0 who world", "0 members world", "0 compare world self",
    "0 dup", "0 dup d", "0 dup d world self", "0 dup world world", "0 dup self world", "0 dup null world", "0 dup byte world",
    "0 dup D world",
    "0 dup d null", "0 dup d int8", "0 dup d 1", "0 dup undefined world", "0 split d world", "0 split d world 0", "0 split d world 0 0 0",
    "0 split d world undefined 0", "0 split d world Undefined 0", "0 split d world any 0", "0 split d world -1 0", "0 split d world 00 0",
    "0 split d world 4294967295 0", "0 split d world 4294967296 0", "0 split d world 0 -1", "0 split d world 0 -0", "0 split d world 0 -00",
    "0 split d world 0 2147483647", "0 split d world 0 2147483648", "0 split d world 0 -2147483648", "0 split d world 0 -2147483649",
    "0 split d world 0 +1", "0 split d world 0 undefined", "0 split d world 0 18446744073709551616", "0 split d null 0 0",
    "0 split null world 0 0",
    "0 who", "0 who null", "0 who self", "0 who world self", "0 who World", "0 members", "0 members self", "0 members world world",
    "0 compare world", "0 compare world world", "0 compare world self world", "0 compare null world", "0 compare int8 self",
    "0 send world 0 0 b", "0 recv world 0 0 b", "0 print b", "0 status", "0 count l", "0 say hi", "0 fail", "on 0", "on all",
    "0 on all", "0 ssend world 0 0 b", "0 probe world 0 0", "0 deliver 0",
    "0 issend q world 0 0 b", "0 issend q world 1 0 b", "0 issend q world 0 0", "0 issend q world any 0 b", "0 issend q world 0 0 b as l",
    "0 issend null world 0 0 b", "0 issend q world 0 0 b b", "0 iprobe", "0 iprobe world 0", "0 iprobe world 0 0", "0 iprobe world any any",
    "0 iprobe world null any", "0 iprobe world any null", "0 iprobe world 00 0", "0 iprobe world 0 -1", "0 iprobe null 0 0",
    "0 iprobe int8 0 0",
    "0 iprobe m world 0 0", "0 iprobe world 0 0 0", "0 iprobe self any any", "0 iprobe World 0 0", "0 improbe", "0 improbe m",
    "0 improbe world 0 0",
    "0 improbe m world 0", "0 improbe m world 0 0", "0 improbe m world any any", "0 improbe m world null any", "0 improbe M world 0 0",
    "0 improbe null world 0 0", "0 improbe world world 0 0", "0 improbe byte world 0 0", "0 improbe m null 0 0", "0 improbe m world 0 0 0",
    "0 improbe m world any null", "0 improbe 1 world 0 0", "0 mrecv", "0 mrecv m", "0 mrecv null b", "0 mrecv world b", "0 mrecv m int8",
    "0 mrecv m b b", "0 mrecv M b", "0 mrecv m b as l", "0 mrecv m b as l -1", "0 mrecv m b as int8 1", "0 mrecv m b at l 1",
    "0 mrecv m b as l 1 1",
    "0 mrecv - b", "0 mprobe m world 0 0", "0 imrecv q m b", "0 irsend q world 0 0 b", "0 ibsend q world 0 0 b",
    "0 barrier", "0 barrier null", "0 barrier int8", "0 barrier world self", "0 barrier self", "0 bcast world 0", "0 bcast world 0 -",
    "0 bcast world any b", "0 bcast world -1 b", "0 bcast world 00 b", "0 bcast world 0 b b", "0 bcast 0 world b", "0 gather world 0 b",
    "0 gather world 0 - b", "0 gather world 0 b -", "0 gather world null b b", "0 gather world 0 b b b", "0 scatter world 0 b",
    "0 scatter world 0 -- b", "0 scatter world 0 b -", "0 scatter world 0 null b", "0 scatter world any - b", "0 scatter null 0 - b",
    "0 reduce world 0 b b", "0 reduce world sum 0 b b", "0 reduce world 0 SUM b b", "0 reduce world 0 minloc b b", "0 reduce world 0 sum b",
    "0 reduce world 0 sum b b b", "0 reduce world 0 sum - b", "0 allreduce world b b", "0 allreduce world 0 sum b b",
    "0 allreduce world Sum b b",
    "0 allreduce world sum b", "0 allreduce world sum int8 b", "0 ibarrier world", "0 alltoall world b b",
    "0 buf", "0 buf b", "0 buf b int32", "0 buf b int31 1", "0 buf b INT32 1", "0 buf b uint 1", "0 buf int32 int32 1",
    "0 buf world int32 1", "0 buf self byte 1", "0 buf null byte 1", "0 buf byte byte 1", "0 buf B int8 1", "0 buf 1b int8 1",
    "0 buf b- int8 1", "0 buf b int8 x", "0 buf b int8 1,2", "0 buf b int8 --1", "0 buf b int8 -", "0 buf b int8 -0",
    "0 buf b int8 -00", "0 buf b uint8 -0", "0 buf b uint8 -1", "0 buf b byte -1", "0 buf b int8 00", "0 buf b int8 01",
    "0 buf b int8 +1", "0 buf b int8 0x1", "0 buf b int8 3*1", "0 buf b int8 0*1", "0 buf b int8 3*-1", "0 buf b int8 2*-0",
    "0 buf b int8 -3*1", "0 buf b int8 *1", "0 buf b int8 3*", "0 buf b int8 *", "0 buf b int8 2*3*4", "0 buf b int8 01*1",
    "0 buf b int8 2*01", "0 buf b int8 0*128", "0 buf b int8 0*x", "0 buf b int8 2* 1", "0 buf any int8 1", "0 buf undefined int8 1",
    "0 buf isend int8 1", "0 buf on int8 1", "0 buf float int8 1", "0 buf int int8 1", "0 buf int80 int8 1",
    "0 buf abcdefghijklmnop int8 1", "0 buf abcdefghijklmnopq int8 1", "0 buf a123456789012345 int8 1",
    "0 buf a1234567890123456 int8 1", "7 buf b int8 1", "99999999999999999999 buf b int8 1", "010 buf b int8 1",
    "0 isend q world 0 0", "0 isend q world 0 0 b b", "0 isend q world any 0 b", "0 isend q world 00 0 b",
    "0 isend q world 0 00 b", "0 isend q world 0 -1 b", "0 isend q world null any 0", "0 isend world world 0 0 b",
    "0 isend null world 0 0 b", "0 isend q null 0 0 b", "0 isend q int8 0 0 b", "0 isend q World 0 0 b", "0 isend q world 0 null b",
    "0 isend q world 0 0 int8", "0 isend q world 0 0 b as int32 1", "0 isend q world 0 0 b as l", "0 isend q world 0 0 b as l -1",
    "0 isend q world 0 0 b as l 01", "0 isend q world 0 0 b as l 1 1", "0 isend q world 0 0 b at l 1", "0 isend q world 0 0 b l 1",
    "0 isend q world self 0 b", "0 irecv q world 0 0 b as null 1", "0 irecv q world 0 0 b as byte 1",
    "0 irecv q world 0 0", "0 irecv q world x 0 b", "0 irecv q world 0 x b", "0 irecv q world 0 0 byte", "0 irecv null world 0 0 b",
    "0 irecv q world -1 0 b", "0 irecv q world any null b",
    "0 wait null #", "0 wait # null", "0 # x", "deliver 0 # x",
]

# Bytes that are in no line, spaces and visible letters apart.
BAD_BYTES = [b"\t", b"\r", b"\x7f", b"\x80", b"\xff", b"\xc3\xa9", b"\xe2\x80\x94"]

# First lines, good and bad.
FIRST_LINES = [
    "world 1", "world 2", "world 5", "world 256", "world 257", "world 1024", "world 0", "world 1025", "world 00", "world 02", "world -1",
    "world", "world 2 2",
    "world two", "World 2", "world  3", " world 3 ", "worlds 2", "deliver 0", "0 buf b int8 1", "", "# first", "world 2#", "world 2 #",
    "world 18446744073709551618", "world 65537", "size 2", "\tworld 2",
]

# Statements whose names aren't set, at a rank that is there.
UNSET = [
    "0 isend q world 0 0 nothere", "0 irecv q world 0 0 nothere", "0 wait nothere", "0 isend q world 99 0 nothere",
    "0 isend q other 0 0 okay", "0 irecv q other 0 0 okay", "0 dup d other", "0 split d other 0 0", "0 who other", "0 members other",
    "0 barrier other", "0 bcast other 0 okay", "0 bcast world 0 nothere", "0 bcast world 99 nothere", "0 gather world 0 nothere okay",
    "0 gather other 0 okay okay", "0 scatter world 0 - okay", "0 scatter world 0 okay nothere", "0 scatter world 0 nothere okay",
    "0 scatter other 0 okay okay", "0 reduce world 99 sum nothere okay", "0 allreduce world max nothere okay", "999 barrier other",
    "0 compare world other", "0 compare other world", "999 who other", "0 isend q any 0 0 okay", "0 irecv q okay any any okay",
    "0 test nothere", "0 cancel nothere", "0 waitany null nothere", "0 waitall nothere null", "0 type l contiguous 2 nothere",
    "0 isend q world 0 0 okay as nothere 1", "0 irecv q world 0 0 okay as nothere 1", "0 isend q world 99 0 okay as nothere 1",
    "0 mrecv nothere okay", "0 mrecv okay okay", "0 mrecv nothere nothere", "0 mrecv nothere okay as nothere 1", "999 mrecv m okay",
    "0 iprobe other 0 0", "0 improbe m other 0 0", "999 iprobe other 0 0", "0 improbe m okay any any", "0 issend q other 0 0 okay",
    "0 issend q world 0 0 nothere", "0 issend q world 99 0 okay as nothere 1",
    "0 isend q world 0 4294967303 nothere", "999 wait q", "999 isend q world 0 0 okay", "0 irecv q world null 0 nothere",
]


def value_at_the_edge(random):
    """A value at the edge of its type, or just behind it."""
    kind = random.choice(list(TYPES))
    value = random.choice([lowest(kind), lowest(kind) - 1, highest(kind), highest(kind) + 1])
    copies = random.choice(["", "", "2*", "0*"])
    return f"0 buf edge {kind} {copies}{value}"


def some_lines(random):
    """The lines of a good file, cut at some place."""
    lines = making.a_world(random).split(b"\n")[:-1]
    return lines[:random.randrange(1, min(len(lines), 60) + 1)]


def with_odd_lines(random):
    lines = some_lines(random)
    for _ in range(random.choice([1, 1, 1, 2, 3])):
        odd = value_at_the_edge(random) if random.random() < 0.25 else random.choice(ODD_LINES)
        lines.insert(random.randrange(1, len(lines) + 1), odd.encode())
    return b"\n".join(lines) + random.choice([b"\n", b"\n", b""])


def with_bad_byte(random):
    lines = some_lines(random)
    if random.random() < 0.3:
        lines.insert(random.randrange(len(lines) + 1), b"# a comment")
    place = random.randrange(len(lines))
    at = random.choice([0, len(lines[place]), random.randrange(len(lines[place]) + 1)])
    lines[place] = lines[place][:at] + random.choice(BAD_BYTES) + lines[place][at:]
    return b"\n".join(lines) + b"\n"


def with_changed_letter(random):
    """One letter is dropped, doubled or changed."""
    lines = some_lines(random)
    place = random.randrange(len(lines))
    line = lines[place]
    at = random.randrange(len(line))
    new = random.choice([b"", line[at:at + 1] * 2, random.choice([b" ", b"0", b"x", b"-", b"*", b"#", b"A"])])
    if not is_long_copy(line[:at] + new + line[at + 1:]):
        lines[place] = line[:at] + new + line[at + 1:]
    return b"\n".join(lines) + b"\n"


def is_long_copy(line):
    """Whether `N*V` asks for more copies than a file of this tool should have."""
    return any(len(word.partition(b"*")[0]) > 4 for word in line.split() if b"*" in word)


def with_words_moved(random):
    """A word is dropped, doubled, or changes places with another one."""
    lines = some_lines(random)
    place = random.randrange(len(lines))
    words = lines[place].split()
    at, other = random.randrange(len(words)), random.randrange(len(words))
    kind = random.randrange(3)
    if kind == 0:
        del words[at]
    elif kind == 1:
        words.insert(at, words[other])
    else:
        words[at], words[other] = words[other], words[at]
    lines[place] = b" ".join(words)
    return b"\n".join(lines) + b"\n"


def with_other_first_line(random):
    lines = some_lines(random)
    first = random.choice(FIRST_LINES).encode()
    kind = random.randrange(4)
    if kind == 0:
        lines[0] = first
    elif kind == 1:
        lines.insert(0, first)
    elif kind == 2:
        lines = [first]
    else:
        lines = [random.choice([b"", b"# x", b" "]) for _ in range(random.randrange(4))]
    return b"\n".join(lines) + random.choice([b"\n", b""])


def with_unset_name(random):
    """A line that uses what isn't set or is lent, after lines that print."""
    lines = some_lines(random)
    kind = random.randrange(6)
    if kind == 0:
        lines += [b"0 buf okay int32 1", random.choice(UNSET).encode()]
    elif kind == 1:
        lines += [b"0 buf okay int32 1", b"0 irecv lent world any any okay",
                  random.choice([b"0 buf okay int32 2", b"0 isend q world 0 0 okay", b"0 irecv r world 0 0 okay"])]
    elif kind == 2:
        lines += [b"0 buf okay int32 1", b"restart 0", random.choice([b"0 isend q world 0 0 okay", b"0 wait q1", b"0 mrecv m1 okay"])]
    elif kind == 4:
        lines += [b"0 buf okay int32 1", random.choice([b"0 improbe nothing world 0 7", b"0 improbe refused world 999 0"]),
                  random.choice([b"0 mrecv nothing okay", b"0 mrecv refused okay", b"0 wait nothing"])]
    elif kind == 5:
        lines += [b"0 buf okay int32 1", b"0 improbe m self null any", b"0 irecv lent world any any okay",
                  random.choice([b"0 mrecv m okay", b"0 wait m", b"0 cancel m"])]
    else:
        lines += [b"0 buf okay int32 1", b"0 isend refused world 999 0 okay", b"0 wait refused"]
    return b"\n".join(lines + [b"deliver 0"]) + b"\n"


def rows():
    """Small files that are tried in every run: one for each odd line, first line, bad byte, edge of a type and unset name."""
    start = b"world 2\n0 buf b int32 1 2\n"
    found = [start + line.encode() + b"\n0 wait null\n" for line in ODD_LINES]
    found += [b"world 2\n0 buf okay int32 1\n1 wait null\n" + line.encode() + b"\n0 wait null\n" for line in UNSET]
    found += [line.encode() + ending + b"0 wait null\n" for line in FIRST_LINES for ending in (b"\n", b"\n\n# x\n")]
    for byte in BAD_BYTES:
        found += [start + byte + b"0 wait null\n", start + b"0 wait" + byte + b"null\n", start + b"0 wait null" + byte + b"\n",
                  start + b"# a comment" + byte + b"\n", byte + start]
    for kind in TYPES:
        for value in (lowest(kind), lowest(kind) - 1, highest(kind), highest(kind) + 1):
            for copies in ("", "3*", "0*"):
                text = f"world 1\n0 buf a {kind} {copies}{value}\n0 isend q world 0 0 a\n0 buf b {kind} 4*1\n"
                found.append((text + "0 irecv r world 0 0 b\n0 wait r\n").encode())
    for target in ("0", "1", "null"):
        text = f"world 2\n0 buf a uint8 1048576*7\n0 isend q world {target} 0 a\n0 test q\n"
        text += f"0 buf a uint8 1048577*7\n0 isend r world {target} 0 a\n"
        found.append(text.encode())
    found += [b"", b"\n", b"# x", b"world 1", b"world 1\n", b"world 1\n\n", b"\n\nworld 1\n0 wait null"]
    return found


MAKERS = [
    (with_odd_lines, 40), (with_bad_byte, 8), (with_changed_letter, 14), (with_words_moved, 10), (with_other_first_line, 12),
    (with_unset_name, 16),
]


def a_faulty_file(random):
    maker = random.choices([maker for maker, _ in MAKERS], [weight for _, weight in MAKERS])[0]
    return maker(random)
