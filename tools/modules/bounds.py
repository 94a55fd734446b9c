"""Numbers of the runtime that tools speak of, with the names that they have in the sources."""

# crates/vocabulary/src/limits.rt: bytes of one datagram's data, bytes of one message of a script, ranks of one job.
EAGER_LIMIT = 1024
SEND_LIMIT = 1_048_576
MOST_RANKS = 1024
# crates/reliable_link: frames that are out at one time.
WINDOW = 64
# crates/launch_plan: the port of rank 0 where the launcher is told none.
BASE_PORT = 47000
# Statuses of rank_main: what ranks end with that found nothing wrong, and whose patience is over.
ENDED, GAVE_UP = 0, 4
