"""p4est and its library sc: their tests, which check forests of octrees and the exchanges between ranks by assertions."""

from described import Program, Run, ends_well

# Each test by itself, so that a verdict names it. Those of sc are in sc/test: all but node_comm, which is about shared windows, that our
# library doesn't have.
SC = "allgather arrays builtin darray_work dmatrix dmatrix_pool io_sink keyvalue notify reduce search sort sortb".split()
FLAT = ("comm hash order quadrants partition coarsen valid loadsave load ghost conn_transformation search brick partition_corr "
        "conn_complete replace join conn_reduce subcomm balance balance_type iterate lnodes balance_seeds wrap plex connrefine "
        "nodes").split()
SOLID = "face_transform edge_face_corners quadrants partition coarsen valid ghost conn_complete search join".split()


def tests(name, folder, names, prefix, ranks):
    line = "for t in %s; do $RUN $TREE/%s/%s_test_$t || { echo $t; exit 1; }; done" % (" ".join(names), folder, prefix)
    return Run(name, line, ends_well, ranks, seconds=600)


PROGRAM = Program(
    "p4est", "2.2", "main/p/p4est/p4est_2.2.orig.tar.xz", "f09a799d99e541c8f06a9ad3f1e7dc74362ad96a7938a69c7fbd4103516f86c9",
    "./bootstrap && ./configure --enable-mpi --enable-debug --disable-mpiio --disable-shared --without-blas CC=mpicc CXX=mpicxx "
    "F77=gfortran FC=gfortran CFLAGS=-O1 && make -j$JOBS V=0 && make -j$JOBS V=0 -C sc check TESTS= && make -j$JOBS V=0 check TESTS=",
    [tests("library", "sc/test", SC, "sc", (2, 5)), tests("quadtrees", "test", FLAT, "p4est", (2, 5)),
     tests("octrees", "test", SOLID, "p8est", (3,))],
    "its own tests, by assertions and status", ["sc/test/sc_test_*[a-z]", "test/p[48]est_test_*[a-z]"],
    {"libtoolize": "libtool", "automake": "automake", "gfortran": "gfortran", "zlib.h": "zlib1g-dev"})
