"""FFTW's tests of its MPI transforms: random problems, each of which FFTW's own bench verifies by the laws of transforms."""

from described import Program, Run, says

LINE = "perl -w $TREE/tests/check.pl --verbose --random --maxsize=%d -c=%d %s --mpi \"$RUN $TREE/mpi/mpi-bench\""


def checked(name, options, ranks, size, count):
    """So many random problems, others in each run; check.pl ends with another status than 0 at the first one that isn't verified."""
    return Run(name, LINE % (size, count, options), says(r"^Executing \"mpirun -n \d+ .*mpi-bench.*--verify"), ranks, seconds=300)


PROGRAM = Program(
    "fftw", "3.3.10", "main/f/fftw3/fftw3_3.3.10.orig.tar.gz", "56c932549852cddcfafdab3820b0200c7742675be92179e59e6215b340e26467",
    "./configure --enable-mpi --disable-fortran --disable-doc --quiet CC=gcc MPICC=mpicc && make -j$JOBS",
    [checked("estimated", "--estimate", (1, 2, 3, 4, 7), 2000, 8), checked("measured", "", (2, 3), 2000, 8),
     checked("large", "--estimate", (4,), 60000, 8)],
    "FFTW's own verification of each transform", ["mpi/mpi-bench"], {"perl": "perl"})
