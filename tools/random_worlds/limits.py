"""Makes the few long files that reach a limit: they come seldom, since each takes as long as a hundred others."""

import communicators
import making
from bytes_of_strays import MOST_BYTES
from reading import ANY, MOST_RANKS, TYPES


def many_requests(random):
    """As many requests at one time as there may be, and one more; then one is answered."""
    lines = ["world 1", "0 buf a uint8 1"]
    lines += [f"0 isend q world 0 {number % 3} a" for number in range(65535)]
    lines += ["0 buf b uint8 0", "0 irecv r world 0 1 b", "0 isend q world 0 1 a", "0 buf c uint8 0",
              "0 irecv s world 0 1 c", "0 isend q world 0 2147483648 a", "0 wait r", "0 irecv s world 0 1 c", "0 wait s",
              "0 isend q world 0 1 a", "0 wait q"]
    return lines


def many_messages(random):
    """Messages that were taken out count as requests do, of which there may be as many at one time: a matching probe that finds one needs a
    place, and one that finds nothing doesn't."""
    lines = ["world 1", "0 buf a uint8 1", "0 buf b uint8 0"]
    lines += [f"0 {random.choice(['isend', 'issend'])} q world 0 {number % 3} a" for number in range(65534)]
    return lines + ["0 improbe m world any 1", "0 improbe n world 0 any", "0 improbe o world 0 any", "0 improbe o world 0 9",
                    "0 improbe p world null any",
                    "0 iprobe world any any", "0 mrecv p b", "0 mrecv m b", "0 mrecv m b", "0 improbe o world 0 2", "0 improbe p world 0 2",
                    "0 improbe p world 0 2147483648", "0 irecv r world 0 1 b", "0 mrecv o b", "0 irecv r world 0 1 b", "0 wait r",
                    "0 issend q world 0 1 a"]


def many_restarts(random):
    """As many restarts of a rank as there may be, and one more."""
    rank = random.randrange(2)
    lines = ["world 2", f"{rank} buf a int32 1", f"{rank} isend q world {1 - rank} 0 a"]
    lines += [f"restart {rank}"] * 65535
    lines += ["deliver 0", f"restart {rank}", f"{rank} buf a int32 2", f"{rank} isend q world {1 - rank} 0 a", "deliver 1",
              "deliver 0", "deliver 2", "deliver 3", f"tick {rank} 20", f"restart {1 - rank}", "deliver 1"]
    return lines


def many_communicators(random):
    """As many communicators of a rank as there may be, and one more; then they are used."""
    lines = ["world 2", "0 buf a int32 1"]
    lines += [random.choice(["0 dup d self", "0 dup d d", "0 split d self 1 0"]) if place > 1 else "0 dup d self" for place in range(4095)]
    return lines + ["0 split d self undefined 0", "0 dup d world", "0 who d", "0 isend q d 0 1 a", "0 buf b int32 0",
                    "0 irecv r d any any b", "0 wait r", "1 dup d world", "0 compare d self", "restart 0", "0 dup d self", "0 dup d world",
                    "0 who d", "1 dup e world"]


def many_frames(random):
    """Thousands of frames of one session, sent and acknowledged."""
    lines = ["world 2", "0 buf a int16 -3", "1 buf b int16 0"]
    number = 0
    for sent in range(random.choice([700, 3000])):
        lines += [f"0 isend q world 1 {sent % 4} a", f"deliver {number}", f"deliver {number + 1}"]
        number += 2
        if sent % 50 == 49:
            lines += [f"1 irecv r world any {random.randrange(4)} b", "1 wait r"]
    return lines


def whole_crowd(random):
    """Everyone of 1,024 ranks sends to rank 0, which takes them in another order."""
    lines = [f"world {MOST_RANKS}", "0 buf b int32 0"]
    for rank in range(1, MOST_RANKS):
        lines += [f"{rank} buf a int32 {rank}", f"{rank} isend q world 0 {rank % 2} a"]
    order = list(range(1023))
    random.shuffle(order)
    lines += [f"deliver {number}" for number in order]
    for _ in range(1023):
        lines += ["0 irecv r world any any b", "0 wait r"]
    return lines + ["tick 7 20", "tick 1023 19", "restart 1023", "deliver 1022"]


def crowd_in_collectives(random):
    """Many ranks enter three collectives of world, mostly alike, while the network brings what is on its way, each pair as it likes."""
    maker = making.Maker(random, "trees", random.choice([65, 256, 1000, MOST_RANKS]))
    for _ in range(3):
        entering = [(rank, "world") for rank in range(maker.size)]
        random.shuffle(entering)
        maker.enter_all(entering, None)
        bring_all(maker)
    return maker.lines


def crowd_in_a_split(random):
    """A split of 1,024 ranks, most of them of one colour, so that member 0 announces what it tells them; then the new group has a
    barrier."""
    maker = making.Maker(random, "trees", MOST_RANKS)
    entering = list(range(maker.size))
    random.shuffle(entering)
    few = random.choice([0, 5, 500, 530])
    for rank in entering:
        maker.add(f"{rank} split c world {0 if rank >= few else random.choice([0, 7, 'undefined'])} {random.choice([0, 0, -rank])}")
        maker.deliver_of_any_pair()
    bring_all(maker)
    for rank in entering:
        if maker.is_free(rank) and maker.held_as(rank, "c") is not None:
            maker.add(f"{rank} barrier c")
    bring_all(maker)
    return maker.lines


def bring_all(maker):
    while maker.new:
        maker.deliver_of_any_pair()


def largest_messages(random):
    """Messages of the greatest length both ways at once; now and then a datagram is lost, and sent again."""
    maker = making.Maker(random, "queues")
    kinds = [random.choice(["int32", "uint64"]) for _ in range(2)]
    for rank, kind in enumerate(kinds):
        maker.add(f"{rank} isend q world {1 - rank} 1 {maker.a_buffer(rank, kind, MOST_BYTES // TYPES[kind][0])}")
        target = maker.a_buffer(1 - rank, kind, MOST_BYTES // TYPES[kind][0] + random.choice([0, 1]))
        maker.add(f"{1 - rank} irecv r world {random.choice([ANY, rank])} 1 {target}")
    now = 0
    for step in range(12000):
        if not maker.new:
            now += 20
            maker.add(f"tick 0 {now}")
            maker.add(f"tick 1 {now}")
            if not maker.new:
                break
        elif random.random() < 0.002:
            maker.new.pop(0)
        else:
            maker.deliver(maker.new.pop(0))
    return maker.lines + [f"{rank} wait {name}" for rank in range(2) for name in ("q", "r")]


def a_long_file(random):
    kinds = [many_communicators] if communicators.ARE_THERE else []
    lines = random.choice(kinds + [many_requests, many_messages, many_restarts, many_frames, whole_crowd, crowd_in_collectives,
                                   crowd_in_a_split, largest_messages])(random)
    return ("\n".join(lines) + "\n").encode()
