"""PT-Scotch: its own checks of distributed graphs, and orderings and partitions that Scotch's sequential programs judge."""

import re

from described import Program, Run, says

MAKE = """EXE =
LIB = .a
OBJ = .o
MAKE = make
AR = ar
ARFLAGS = -ruv
CAT = cat
CCS = gcc
CCP = mpicc
CCD = mpicc
CFLAGS = -O2 -fPIC -DCOMMON_FILE_COMPRESS_GZ -DCOMMON_PTHREAD -DCOMMON_RANDOM_FIXED_SEED -DSCOTCH_MPI_ASYNC_COLL \\
  -DSCOTCH_PTHREAD -DSCOTCH_PTHREAD_MPI -DSCOTCH_RENAME -Drestrict=__restrict -DIDXSIZE64
CLIBFLAGS =
LDFLAGS = -lz -lm -lrt -pthread
CP = cp
FLEX = flex
LN = ln
MKDIR = mkdir -p
MV = mv
RANLIB = ranlib
BISON = bison
"""
# Its parallel programs, where they are built and where they are put.
TOOLS = ("dgord", "dgpart", "dgmap", "dgscat", "dggath", "dgtst")
# Orders and parts graphs on all ranks; Scotch's sequential programs read the graph again and judge what came: gotst that an order is one
# and what it costs, gmtst that a mapping is one and how many edges it cuts.
ORDERED = """set -e
for g in bump m16x16_b100000 p2-p2; do
    $RUN $TREE/bin/dgord $TREE/src/check/data/$g.grf $g.ord -vs
    $TREE/bin/gotst $TREE/src/check/data/$g.grf $g.ord
done
"""
PARTED = """set -e
for parts in 2 7; do
    echo "cmplt $parts" > target
    for g in bump m16x16_b100000; do
        $RUN $TREE/bin/dgpart $parts $TREE/src/check/data/$g.grf $g.map -vm
        $TREE/bin/gmtst $TREE/src/check/data/$g.grf target $g.map
    done
done
"""


def counted(printed, _):
    """How many edges each partition cuts: dgpart and gmtst say the same, of two graphs in two numbers of parts."""
    cuts = re.findall(r"^M\tCommCutSz=\S+\t\((\d+)\)", printed.output, re.M)
    return [] if len(cuts) == 8 and cuts[::2] == cuts[1::2] else ["edges that are cut, by dgpart and by gmtst: %s" % cuts]


PROGRAM = Program(
    "scotch", "7.0.3", "main/s/scotch/scotch_7.0.3.orig.tar.xz", "09b582e75df3cf91313e8dd83306bc9d59385fa358d6d4052e5bbf8c75a83348",
    "cd src && make -j$JOBS ptscotch && make -j$JOBS scotch",
    [Run("its checks", "make -C $TREE/src/check ptcheck EXECPPROG=mpirun EXECPFLAGS= TMPDIR=$PWD", says("dgtst"), (4,), seconds=600),
     Run("orders", ORDERED, says(r"^O\tNNZ=\d", r"^O\tOPC=\d", times=3), (1, 2, 4, 5)),
     Run("partitions", PARTED, counted, (1, 2, 4, 5))],
    "its own checks; orders and partitions, judged by Scotch's sequential programs",
    [*("bin/" + it for it in TOOLS), *("src/scotch/" + it for it in TOOLS)],
    {"flex": "flex", "bison": "bison", "zlib.h": "zlib1g-dev"}, {"src/Makefile.inc": MAKE})
