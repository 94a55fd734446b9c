"""Random programs as lists of calls, which bindings/explorer/tests/player.c plays: right ones, faulty ones, and any; and the same as
scripts for mpiexplore."""

FAULTS = ("unreceived", "no_send", "type", "too_long", "never_waited", "collective", "head_to_head", "any_then_one", "self_wait", "abort")
KINDS = ("plain", "rich", "sends", "looks", "barriers")


def lines(rows):
    """The list that the player reads: a row for each rank."""
    return "".join("%d %s\n" % (rank, " ".join(call)) for rank, row in enumerate(rows) for call in row)


# ---- right programs, and a fault in each ----

def add_round(drawn, rows, number):
    """One more round of messages or a collective, which all ranks take part in."""
    ranks, tag = len(rows), str(10 + number)
    what = drawn.choice(["ring", "pairs", "barrier", "allreduce", "gather", "blocking", "scan", "iallreduce", "ibarrier"])
    if what == "ring":
        for rank in range(ranks):
            receive, send = str(2 * number), str(2 * number + 1)
            rows[rank] += [("irecv", str((rank - 1) % ranks), tag, receive), ("isend", str((rank + 1) % ranks), tag, send),
                           ("end", receive, "", ""), ("end", send, "", "")]
    elif what == "pairs":
        for rank in range(0, ranks - 1, 2):
            rows[rank] += [("ssend" if drawn.random() < .3 else "send", str(rank + 1), tag, "1"), ("take", str(rank + 1), tag, "")]
            rows[rank + 1] += [("take", str(rank), tag, ""), ("send", str(rank), tag, "1")]
    elif what == "gather":
        for rank in range(1, ranks):
            rows[rank] += [("send", "0", tag, "1")]
            rows[0] += [("take", "any", tag, "")]
    elif what == "blocking":
        one, other = drawn.sample(range(ranks), 2)
        rows[one] += [("send", str(other), tag, "1")]
        rows[other] += [("take", str(one), tag, "")]
    elif what.startswith("i"):
        # Something else is between its beginning and its end.
        request = str(2 * number)
        for row in rows:
            row += [(what, request, "", "")]
        add_round(drawn, rows, number + 6)
        for row in rows:
            row += [("end", request, "", "")]
    else:
        for row in rows:
            row += [(what, "", "", "")]


def right(drawn):
    rows = [[] for _ in range(drawn.choice([2, 3, 3, 4]))]
    for number in range(drawn.randint(2, 5)):
        add_round(drawn, rows, number)
    return rows


def other_collectives(drawn, has_later):
    """Calls of one rank and of all others that enter another collective."""
    kinds = drawn.sample(["barrier", "allreduce", "scan"], 2)
    if not has_later or drawn.random() < .5:
        return [[(it, "", "", "")] for it in kinds]
    return [[(it, "201", "", ""), ("end", "201", "", "")] for it in drawn.sample(["ibarrier", "iallreduce"], 2)]


def never_waited(drawn, one, other, ranks, has_later):
    """A send or a collective that rank `one` never waits for."""
    if not has_later or drawn.random() < .5:
        return {one: [("isend", str(other), "99", "200")], other: [("take", str(one), "99", "")]}
    return {it: [("iallreduce", "200", "", "")] + ([] if it == one else [("end", "200", "", "")]) for it in range(ranks)}


def planted(drawn, kind, rows, has_later=True):
    """The same program with a fault, at its beginning or its end; or None where it has too few ranks for it. Without `has_later` no
    collective that doesn't wait is at fault."""
    ranks = len(rows)
    one, other = drawn.sample(range(ranks), 2)
    at = [0] * ranks if drawn.random() < .5 else [len(it) for it in rows]
    third = [it for it in range(ranks) if it not in (one, other)]
    if kind == "any_then_one" and not third:
        return None
    mine, theirs = other_collectives(drawn, has_later)
    calls = {
        "unreceived": {one: [("send", str(other), "99", "1")]},
        "no_send": {other: [("take", str(one), "99", "")]},
        "type": {one: [("send_double", str(other), "99", "")], other: [("take", str(one), "99", "")]},
        "too_long": {one: [("send_two", str(other), "99", "")], other: [("take", str(one), "99", "")]},
        "never_waited": never_waited(drawn, one, other, ranks, has_later),
        "collective": {it: mine if it == one else theirs for it in range(ranks)},
        "head_to_head": {it: [("send", str(to), "99", "1"), ("take", str(to), "99", "")] for it, to in ((one, other), (other, one))},
        "any_then_one": {one: [("take", "any", "99", ""), ("take", str(other), "99", "")], other: [("send", str(one), "99", "1")]},
        "self_wait": {one: [("take", str(one), "99", "")]},
        "abort": {one: [("abort", "", "", "")]},
    }[kind]
    if kind == "any_then_one":
        calls[third[0]] = [("send", str(one), "99", "1")]
    return [row[:at[rank]] + calls.get(rank, []) + row[at[rank]:] for rank, row in enumerate(rows)]


# ---- any programs, beside scripts ----

def add_message(drawn, kind, rows, number):
    """A message and its receive, so that most runs end."""
    one, other = drawn.sample(range(len(rows)), 2)
    if drawn.random() < 0.6:
        other = 0 if one != 0 else other
    tag = drawn.choice("112")
    how = "send" if kind == "sends" or drawn.random() < 0.85 else "ssend"
    rows[one].insert(drawn.randint(len(rows[one]) // 2, len(rows[one])), (how, str(other), tag, str(number)))
    source, wanted = drawn.choice(["any", "any", str(one)]), drawn.choice([tag, tag, "any"])
    if drawn.random() < 0.6:
        rows[other].append(("recv", source, wanted, ""))
        return
    at = drawn.randint(0, len(rows[other]))
    rows[other].insert(at, ("irecv", source, wanted, str(number)))
    rows[other].insert(drawn.randint(at + 1, len(rows[other])), ("wait", str(number), "", ""))
    if kind == "looks" and drawn.random() < 0.4:
        end = rows[other].index(("wait", str(number), "", ""))
        rows[other].insert(drawn.randint(at + 1, end), ("test", str(number), "", ""))


def rich(drawn, kind):
    rows = [[] for _ in range(drawn.choice([3, 3, 4]))]
    for number in range(drawn.randint(3, 7)):
        add_message(drawn, kind, rows, 101 + number)
    for rank, row in enumerate(rows):
        if kind == "looks" and drawn.random() < 0.4:
            source = drawn.choice(["any", str((rank + 1) % len(rows))])
            row.insert(drawn.randint(0, len(row)), ("iprobe", source, drawn.choice(["1", "2", "any"]), ""))
    if kind == "barriers" and drawn.random() < 0.5:
        for row in rows:
            row.insert(drawn.randint(0, len(row)), ("barrier", "", "", ""))
    return rows


def plain_row(drawn, rank, ranks, number):
    """Calls of a rank that need not fit those of the others."""
    row, begun = [], []
    for _ in range(drawn.randint(1, 5 if ranks < 4 else 4)):
        number += 1
        what = drawn.choices(["send", "ssend", "recv", "irecv", "wait", "barrier"], [4, 1, 4, 2, 1, 0.3])[0]
        other, tag = drawn.choice([it for it in range(ranks) if it != rank]), drawn.choice(["1", "1", "2"])
        source, wanted = drawn.choice(["any", "any", str(other)]), drawn.choice([tag, tag, "any"])
        if what in ("send", "ssend"):
            row.append((what, str(other), tag, str(number)))
        elif what == "recv":
            row.append(("recv", source, wanted, ""))
        elif what == "irecv":
            row.append(("irecv", source, wanted, str(number)))
            begun.append(number)
        elif what == "barrier":
            row.append(("barrier", "", "", ""))
        elif begun:
            row.append(("wait", str(begun.pop(drawn.randrange(len(begun)))), "", ""))
    return row + [("wait", str(it), "", "") for it in begun], number


def drawn_program(drawn, kind):
    if kind != "plain":
        return rich(drawn, kind)
    ranks, number, rows = drawn.choice([2, 3, 3, 3, 4]), 100, []
    for rank in range(ranks):
        row, number = plain_row(drawn, rank, ranks, number)
        rows.append(row)
    return rows


def statements(call, place):
    """What a call is in a script."""
    what, one, two, three = call
    if what == "send":
        return ["buf s%d int32 %s" % (place, three), "send world %s %s s%d" % (one, two, place)]
    if what == "ssend":
        return ["buf s%d int32 %s" % (place, three), "issend r%d world %s %s s%d" % (place, one, two, place), "wait r%d" % place]
    if what == "recv":
        return ["buf b%d int32 0" % place, "recv world %s %s b%d" % (one, two, place), "print b%d" % place, "status"]
    if what == "irecv":
        return ["buf c%s int32 0" % three, "irecv q%s world %s %s c%s" % (three, one, two, three)]
    return {"wait": ["wait q" + one, "print c" + one], "test": ["test q" + one], "iprobe": ["iprobe world %s %s" % (one, two)],
            "barrier": ["barrier world"]}[what]


def script(rows):
    out, place = [], 0
    for rank, row in enumerate(rows):
        out.append("on %d" % rank)
        for call in row:
            place += 1
            out += statements(call, place)
    return "\n".join(out) + "\n"
