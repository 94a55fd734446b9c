# Of mpi.h and its parts makes mpi_profiling.h: each function once more under its second name (make profiling-names).
BEGIN {
    print "/* The second names of all functions of mpi.h, for profilers (MPI 3.1, 14.2.1). Made by `make profiling-names`. */"
    print "#ifndef KOMBAZILY_MPI_PROFILING_H"
    print "#define KOMBAZILY_MPI_PROFILING_H\n"
}
/^[A-Za-z].* MPI_[A-Z][A-Za-z_0-9]*\(/ && !/typedef/ { inside = sub(/ MPI_/, " PMPI_") }
inside { print; if (/;/) inside = 0 }
END { print "\n#endif" }
