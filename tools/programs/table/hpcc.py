"""HPC Challenge: HPL, PTRANS, RandomAccess, FFT, STREAM and the exchanges of b_eff; and HPL alone, of the same sources."""

from described import Program, Run, together, says

# The file by which HPL is built, of those in its folder setup; Fortran's BLAS.
MAKE = """SHELL = /bin/sh
CD = cd
CP = cp
LN_S = ln -s
MKDIR = mkdir
RM = /bin/rm -f
TOUCH = touch
ARCH = $(arch)
TOPdir = ../../..
INCdir = $(TOPdir)/include
BINdir = $(TOPdir)/bin/$(ARCH)
LIBdir = $(TOPdir)/lib/$(ARCH)
HPLlib = $(LIBdir)/libhpl.a
LAlib = -lblas
F2CDEFS = -DAdd_ -DF77_INTEGER=int -DStringSunStyle
HPL_INCLUDES = -I$(INCdir) -I$(INCdir)/$(ARCH)
HPL_LIBS = $(HPLlib) $(LAlib) -lm
HPL_OPTS =
HPL_DEFS = $(F2CDEFS) $(HPL_OPTS) $(HPL_INCLUDES)
CC = mpicc
CCNOOPT = $(HPL_DEFS)
CCFLAGS = $(HPL_DEFS) -O2
LINKER = mpicc
LINKFLAGS = $(CCFLAGS)
ARCHIVER = ar
ARFLAGS = r
RANLIB = echo
"""
# HPL in this archive has no main of its own.
MAIN = """#include <hpcc.h>
int main(int argc, char **argv) {
    HPL_RuntimeData data;
    int failed = 0;
    MPI_Init(&argc, &argv);
    HPL_main(argc, argv, &data, &failed);
    MPI_Finalize();
    return failed != 0;
}
"""
INPUT = """HPLinpack benchmark input file
what it is run for
HPL.out      output file name (if any)
%(device)s   device out (6=stdout,7=stderr,file)
%(sizes)s    # of problems sizes (N)
%(size)s     Ns
%(blocks)s   # of NBs
%(block)s    NBs
%(order)s    PMAP process mapping (0=Row-,1=Column-major)
%(grids)s    # of process grids (P x Q)
%(rows)s     Ps
%(columns)s  Qs
16.0         threshold
2            # of panel fact
1 2          PFACTs (0=left, 1=Crout, 2=Right)
1            # of recursive stopping criterium
2            NBMINs (>= 1)
1            # of panels in recursion
2            NDIVs
1            # of recursive panel fact.
0            RFACTs (0=left, 1=Crout, 2=Right)
%(kinds)s    # of broadcast
%(kind)s     BCASTs (0=1rg,1=1rM,2=2rg,3=2rM,4=Lng,5=LnM)
2            # of lookahead depth
0 1          DEPTHs (>=0)
%(swap)s     SWAP (0=bin-exch,1=long,2=mix)
64           swapping threshold
0            L1 in (0=transposed,1=no-transposed) form
0            U  in (0=transposed,1=no-transposed) form
1            Equilibration (0=no,1=yes)
8            memory alignment in double (> 0)
##### This line (no. 32) is ignored (it serves as a separator). ######
0            Number of additional problem sizes for PTRANS
1200 10000 30000  values of N
0            number of additional blocking sizes for PTRANS
40 9 8 13 13 20 16 32 64  values of NB
"""
ONE = {"device": 8, "sizes": 1, "size": 200, "blocks": 1, "block": 40, "order": 0, "grids": 1, "kinds": 1, "kind": 1, "swap": 2}
GRIDS = {2: (2, "1 2", "2 1"), 3: (2, "1 3", "3 1"), 4: (3, "1 2 4", "4 2 1"), 6: (2, "2 3", "3 2")}


def challenge(ranks, rows, columns):
    """All of HPCC on one grid. It says Success=1, and the residuals and counts of errors by which it means that."""
    given = INPUT % {**ONE, "rows": rows, "columns": columns}
    fine = ["^Success=1$", "0 tests completed and failed residual checks", "^MPIRandomAccess_Errors=0$", "^MPIRandomAccess_LCG_Errors=0$",
            r"^MPIFFT_maxErr=\d\.\d+e-1[5-9]$", "^PTRANS_residual=0$", "^End of HPC Challenge tests"]
    return Run("all tests", "$RUN $TREE/hpcc && cat hpccoutf.txt", says(*fine, never=["FAILED"]), (ranks,), {"hpccinf.txt": given})


def linpack(ranks):
    """HPL on all grids of so many ranks, with each broadcast, factorisation and swap: each solution's residual is below HPL's threshold."""
    grids, rows, columns = GRIDS[ranks]
    given = {**ONE, "size": 60, "block": 16, "grids": grids, "rows": rows, "columns": columns,
             "kinds": 6, "kind": "0 1 2 3 4 5"}
    # Of grids, panel factorisations, broadcasts, depths; for each order of ranks and each swap.
    count = grids * 2 * 6 * 2
    files = {"input%d%d" % (order, swap): INPUT % {**given, "order": order, "swap": swap} for order in (0, 1) for swap in (0, 1, 2)}
    line = "for f in input*; do cp $f hpccinf.txt; rm -f hpccoutf.txt; $RUN $TREE/xhpl && cat hpccoutf.txt || exit; done"
    passed = "^ *%d tests completed and passed residual checks" % count
    failed = "^ *0 tests completed and failed residual checks"
    return Run("HPL", line, together(says(passed, failed, times=6, never=["FAILED"])), (ranks,), files, seconds=300)


PROGRAM = Program(
    "hpcc", "1.5.0", "main/h/hpcc/hpcc_1.5.0.orig.tar.gz", "0a6fef7ab9f3347e549fed65ebb98234feea9ee18aea0c8f59baefbe3cf7ffb8",
    "make -j$JOBS arch=here && mpicc -O2 -DAdd_ -DF77_INTEGER=int -DStringSunStyle -Iinclude -Ihpl/include xhpl.c "
    "hpl/lib/here/libhpl.a -lblas -lm -o xhpl",
    [challenge(2, 1, 2), challenge(4, 2, 2), linpack(2), linpack(3), linpack(4), linpack(6)],
    "HPCC's own Success=1 with its residuals and errors; each of HPL's residual checks", ["hpcc", "xhpl"],
    {"-lblas": "libblas-dev"}, {"hpl/Make.here": MAKE, "xhpl.c": MAIN})
