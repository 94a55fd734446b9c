"""hypre's test drivers and jobs: its own scripts compare what parallel solvers print with what they print on one rank, and with outputs
that hypre's authors saved."""

from described import Program, Run, says

# Copies the folder of jobs, runs some of them, and shows hypre's own verdicts of each.
LINE = """set -e
cp -r $TREE/src/test/TEST_%(kind)s $TREE/src/test/*.sh .
for it in %(drivers)s; do ln -s $TREE/src/test/$it .; done
HOST=here bash ./runtest.sh -mpi "mpirun -n" -rtol 1e-4 -atol 1e-4 %(jobs)s
bash ./checktest.sh TEST_%(kind)s
"""


def jobs(kind, drivers, names, seconds=600):
    """Some of hypre's jobs of a kind, with the numbers of ranks that they name, up to 8."""
    words = {"kind": kind, "drivers": drivers, "jobs": " ".join("TEST_%s/%s.sh" % (kind, it) for it in names.split())}
    fine = [r"    OK : TEST_%s/%s\.err" % (kind, it) for it in names.split()]
    return Run(kind, LINE % words, says(*fine, never=["FAILED"]), (8,), seconds=seconds)


PROGRAM = Program(
    "hypre", "2.26.0", "main/h/hypre/hypre_2.26.0.orig.tar.gz", "c214084bddc61a06f3758d82947f7f831e76d7e3edeac2c78bb82d597686e05d",
    "cd src && ./configure --quiet --disable-fortran CC=mpicc CXX=mpicxx CFLAGS=-O1 && make -s -j$JOBS && "
    "make -s -j$JOBS -C test ij struct sstruct struct_migrate",
    [jobs("ij", "ij", "default air"), jobs("struct", "struct struct_migrate", "migrate cgpfmg3d parflow"),
     jobs("sstruct", "sstruct", "default2d default3d amr2d")],
    "its own scripts: parallel outputs are those of one rank and those that its authors saved",
    ["src/test/" + it for it in ("ij", "struct", "sstruct", "struct_migrate")])
