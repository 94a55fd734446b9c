"""mpif.h: the constants of mpi.h and its parts as Fortran has them, in lines that fixed and free source form both take."""

import re

import fortran_parameters

# What stands in front of the constants of mpi.h.
OWN = """\
      INTEGER MPI_STATUS_SIZE, MPI_SOURCE, MPI_TAG, MPI_ERROR
      PARAMETER (MPI_STATUS_SIZE=6)
      PARAMETER (MPI_SOURCE=1, MPI_TAG=2, MPI_ERROR=3)
      INTEGER MPI_INTEGER_KIND, MPI_ADDRESS_KIND
      INTEGER MPI_COUNT_KIND, MPI_OFFSET_KIND
      PARAMETER (MPI_INTEGER_KIND=4, MPI_ADDRESS_KIND=8)
      PARAMETER (MPI_COUNT_KIND=8, MPI_OFFSET_KIND=8)
      LOGICAL MPI_SUBARRAYS_SUPPORTED
      LOGICAL MPI_ASYNC_PROTECTS_NONBLOCKING
      PARAMETER (MPI_SUBARRAYS_SUPPORTED=.FALSE.)
      PARAMETER (MPI_ASYNC_PROTECTS_NONBLOCKING=.FALSE.)
"""
# What stands in the place of an argument: its address counts; functions.
BEHIND = """\
      INTEGER MPI_BOTTOM, MPI_IN_PLACE
      INTEGER MPI_STATUS_IGNORE(MPI_STATUS_SIZE)
      INTEGER MPI_STATUSES_IGNORE(MPI_STATUS_SIZE,1)
      INTEGER MPI_ERRCODES_IGNORE(1)
      INTEGER MPI_UNWEIGHTED(1), MPI_WEIGHTS_EMPTY(1)
      COMMON /MPI_F_PLACES/ MPI_BOTTOM, MPI_IN_PLACE
      COMMON /MPI_F_PLACES/ MPI_STATUS_IGNORE
      COMMON /MPI_F_PLACES/ MPI_STATUSES_IGNORE
      COMMON /MPI_F_PLACES/ MPI_ERRCODES_IGNORE
      COMMON /MPI_F_PLACES/ MPI_UNWEIGHTED, MPI_WEIGHTS_EMPTY
      CHARACTER*1 MPI_ARGV_NULL(1), MPI_ARGVS_NULL(1,1)
      COMMON /MPI_F_TEXTS/ MPI_ARGV_NULL, MPI_ARGVS_NULL
      SAVE /MPI_F_PLACES/, /MPI_F_TEXTS/
      EXTERNAL MPI_NULL_COPY_FN, MPI_NULL_DELETE_FN, MPI_DUP_FN
      EXTERNAL MPI_COMM_NULL_COPY_FN, MPI_COMM_NULL_DELETE_FN
      EXTERNAL MPI_TYPE_NULL_COPY_FN, MPI_TYPE_NULL_DELETE_FN
      EXTERNAL MPI_WIN_NULL_COPY_FN, MPI_WIN_NULL_DELETE_FN
      EXTERNAL MPI_COMM_DUP_FN, MPI_TYPE_DUP_FN, MPI_WIN_DUP_FN
      EXTERNAL MPI_CONVERSION_FN_NULL
      DOUBLE PRECISION MPI_WTIME, MPI_WTICK
      DOUBLE PRECISION PMPI_WTIME, PMPI_WTICK
      EXTERNAL MPI_WTIME, MPI_WTICK, PMPI_WTIME, PMPI_WTICK
      INTEGER(KIND=MPI_ADDRESS_KIND) MPI_AINT_ADD, MPI_AINT_DIFF
      INTEGER(KIND=MPI_ADDRESS_KIND) PMPI_AINT_ADD
      INTEGER(KIND=MPI_ADDRESS_KIND) PMPI_AINT_DIFF
      EXTERNAL MPI_AINT_ADD, MPI_AINT_DIFF
      EXTERNAL PMPI_AINT_ADD, PMPI_AINT_DIFF
"""
DEFINITION = re.compile(r"(?m)^#define (MPI_\w+) (.+)$")


def value_of(name, told, known):
    """The number of a constant: it is written in mpi.h, or as another one's name."""
    bare = re.sub(r"^\(\(MPI_\w+\)(.+)\)$", r"\1", told.strip()).strip("()")
    return known[bare] if bare in known else int(bare, 0)


def constants(table):
    """Names and numbers of all constants that Fortran has."""
    known, made = {}, {}
    for name, told in DEFINITION.findall(fortran_parameters.headers()):
        own = name[len("MPI_"):]
        if table.fits("unlike", own):
            continue
        known[name] = value_of(name, told, known)
        made[name] = known[name] - 1 if table.fits("shorter", own) else known[name]
    return made


def header(table, made):
    lines = ["! The constants of MPI for Fortran, in fixed and free source form: INCLUDE 'mpif.h'.", "! " + made, OWN.rstrip()]
    for name, number in constants(table).items():
        lines += ["      INTEGER %s" % name, "      PARAMETER (%s=%d)" % (name, number)]
    text = "\n".join([*lines, BEHIND])
    # The last column of fixed source form.
    assert all(len(it) <= 72 or it.startswith("!") for it in text.splitlines())
    return text
