"""Tachyon: pictures of scenes, of which each rank traces lines. The picture is the same to the byte under each MPI."""

from described import Program, Run, same

LINE = "$RUN $TREE/compile/linux-mpi/tachyon $TREE/scenes/%s -res 160 120 -format PPM -o it.ppm && cksum it.ppm"

PROGRAM = Program(
    "tachyon", "0.99b6", "main/t/tachyon/tachyon_0.99~b6+dsx.orig.tar.xz",
    "ec90074f569d6d797576611527caa6b1aac96125aea1ec89a31b2867f1cdf7ff",
    "make -C unix linux-mpi",
    [Run(it, LINE % (it + ".dat"), same(r"^\d+ \d+ it\.ppm"), (1, 2, 3, 5), beside=True) for it in ("balls", "lattice", "820spheres")],
    "pictures equal to those under MPICH, byte by byte", ["compile/linux-mpi/tachyon"])
