"""Small scripts whose results were worked out by hand: what each result reads, and for how many orders of lines it stands.

In each of them it matters in which order one rank sends to another: what is sent because of a frame that came, and what a call sends.
"""

from dataclasses import dataclass

# A message over 1,024 bytes.
LONG = "int32 300*91"


@dataclass(frozen=True)
class Worked:
    """What it shows, how many ranks it has, its lines, and its results: what is printed and said of how ranks end, with a count."""

    name: str
    size: int
    lines: tuple
    results: tuple

    def text(self):
        return "".join(line + "\n" for line in self.lines)

    def page(self):
        """Its results as `mpiexplore` tells them, but for what is told beside."""
        head = f"{self.size} ranks, 1 play: every choice was tried.\n"
        return head + "".join(f"\nresult {number} of {len(self.results)}, in 1 of 1 play: \n" + "".join(line + "\n" for line in lines)
                              for number, lines in enumerate(self.results, start=1))


SCRIPTS = (
    Worked("a note behind a long message may come behind its data", 2,
           ("on 0", f"buf big {LONG}", "buf note int32 5", "isend s world 1 1 big", "wait null", "send world 1 2 note", "wait s",
            "on 1", "buf r int32 300*0", "recv world 0 1 r", "improbe m world 0 2", "mrecv m r"),
           ((), ("[1] none", "rank 1 ended with status 1 at line 12: the name m isn't set: mrecv m r",
                 "rank 1 never received a message of rank 0 with tag 2"))),
    Worked("a long message may be answered before its receiver sends a note", 2,
           ("on 0", f"buf big {LONG}", "buf note int32 0", "isend s world 1 1 big", "wait s", "iprobe world 1 2",
            "on 1", "buf r int32 300*0", "buf note int32 5", "irecv q world 0 1 r", "wait null", "send world 0 2 note", "wait q"),
           (("rank 0 never received a message of rank 1 with tag 2",),
            ("[0] none", "rank 0 never received a message of rank 1 with tag 2"))),
    Worked("a note behind a synchronous send", 2,
           ("on 0", "buf a int32 1", "issend s world 1 1 a", "wait null", "send world 1 2 a", "wait s",
            "on 1", "buf r int32 0", "recv world 0 1 r", "iprobe world 0 2", "recv world 0 2 r"),
           ((), ("[1] none",))),
    Worked("a test of what comes behind a synchronous send", 2,
           ("on 0", "buf a int32 1", "issend s world 1 1 a", "wait null", "send world 1 2 a", "wait s",
            "on 1", "buf r int32 0", "buf t int32 0", "irecv q world 0 2 t", "recv world 0 1 r", "test q", "wait q"),
           ((), ("[1] pending",))),
    Worked("two receives answer announcements, of which each may have come before", 2,
           ("on 0", "buf a int32 1", "issend s world 1 1 a", "issend t world 1 2 a", "waitany s t", "test s", "wait s", "wait t",
            "on 1", "buf r int32 0", "buf q int32 0", "irecv q2 world 0 2 q", "irecv q1 world 0 1 r", "waitall q1 q2"),
           ((), (), ("[0] pending",))),
    Worked("whose note comes first decides whether a rank waits for ever", 3,
           ("on 0", f"buf big {LONG}", "buf note int32 10", "isend s world 1 1 big", "wait null", "send world 1 2 note", "wait s",
            "on 1", "buf r int32 300*0", "buf go int32 1", "buf x int32 0", "recv world 0 1 r", "send world 2 3 go",
            "recv world any 2 x", "print x", "recv world 2 2 x", "print x",
            "on 2", "buf go int32 0", "buf note int32 20", "recv world 1 3 go", "send world 1 2 note"),
           (("[1] 10", "[1] 20"),
            ("[1] 20", "rank 1 waits at line 16: recv world 2 2 x", "rank 1 never received a message of rank 0 with tag 2"))),
    Worked("a rank goes on before what it sent is received", 3,
           ("on 0", "buf s int32 1", "issend q world 2 2 s", "wait q", "send world 1 2 s", "buf a int32 0", "recv world any 1 a", "print a",
            "buf b int32 0", "recv world any 1 b", "print b",
            "on 1", "buf g int32 0", "recv world 0 2 g", "buf t int32 104", "send world 0 1 t",
            "on 2", "buf h int32 0", "irecv p world 0 2 h", "buf u int32 103", "send world 0 1 u", "wait p"),
           (("one of 2, which differ in nothing but the order in which a rank printed its lines:", "[0] 103", "[0] 104"),)),
    Worked("what a member passes on may overtake its answer to another rank", 4,
           ("on 0", "buf a int32 1", f"buf big {LONG}", "isend s world 3 1 big", "bcast world 1 a", "test s", "wait s",
            "on 1 2", "buf a int32 1", "bcast world 1 a",
            "on 3", "buf a int32 1", "buf r int32 300*0", "irecv q world 0 1 r", "bcast world 1 a", "wait q"),
           ((), ("[0] pending",))),
    Worked("a rank that prints what it was told, and looks again", 2,
           ("on 0", "buf r int32 0", "iprobe world 1 0", "iprobe world 1 0", "recv world 1 0 r"),
           (("[0] none", "[0] none", "rank 0 waits at line 5: recv world 1 0 r"),)),
)
