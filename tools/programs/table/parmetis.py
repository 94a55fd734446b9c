"""ParMETIS's test of its partitioners: each cut that it reports is counted again, and is the same."""

from described import Program, Run, says

LINE = "$RUN $TREE/build/Linux-*/programs/ptest $TREE/Graphs/rotor.graph $TREE/Graphs/rotor.graph.xyz"

PROGRAM = Program(
    "parmetis", "4.0.3", "non-free/p/parmetis/parmetis_4.0.3.orig.tar.gz",
    "f2d9a231b7cf97f1fee6e8c9663113ebf6c240d407d3c118c55b3633d6be6e5f",
    "make config && make -j$JOBS",
    [Run("partitions", LINE, says(r"reported a cut of \d+ \[OK:\d+\]", times=20, never=[r"\[ERROR"]), (2, 3), seconds=900)],
    "its own count of each cut", ["build/*/programs/ptest"], {"cmake": "cmake"})
