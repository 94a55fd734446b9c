"""The numbers of errors and refusals by their names in docs/NUMBERS.md."""

# Of calls and operations.
COUNT, TYPE, TAG, COMM, RANK, REQUEST, ROOT, GROUP, OP, TRUNCATE, REPLACED, MISMATCH, LIMIT, OUT_OF_MEMORY = range(1, 15)
# Of datagrams and clocks.
SHORT, MAGIC, VERSION, KIND, LENGTH, FOREIGN_JOB, NOT_FOR_ME, STALE_SOURCE, STALE_TARGET, BAD_FRAME, OUT_OF_WINDOW = range(21, 32)
CLOCK_BACK = 41
# Of files of events, and of their lines.
SCRIPT = 51
NO_SUCH_RANK, NO_SUCH_DATAGRAM, CARRIES_JOB = range(61, 64)
