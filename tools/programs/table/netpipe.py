"""NetPIPE: messages of many lengths back and forth, their bytes verified."""

from described import Program, Run


def passed(printed, _):
    """It says so on standard error, and ends with status 0 also where bytes are wrong."""
    right, wrong = "Integrity check passed" in printed.said, "Integrity Error" in printed.output + printed.said
    return [] if right and not wrong else ["its integrity check didn't pass"]


LINE = "$RUN $TREE/NPmpi -i -n 3 -u %d %s"

PROGRAM = Program(
    "netpipe", "3.7.2", "main/n/netpipe/netpipe_3.7.2.orig.tar.gz", "13dac884ff52951636f651c421f5ff4a853218a95aa28a4a852402ee385a2ab8",
    "make mpi",
    [Run("back and forth", LINE % (1 << 20, ""), passed, (2,)), Run("receives ahead", LINE % (1 << 20, "-a"), passed, (2,)),
     Run("synchronous", LINE % (1 << 18, "-S"), passed, (2,)), Run("both ways", LINE % (1 << 18, "-2 -a"), passed, (2,)),
     Run("any source", LINE % (1 << 18, "-z"), passed, (2,))],
    "its own integrity check", ["NPmpi"])
