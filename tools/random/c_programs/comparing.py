"""Compares what two runs of a program observed, rank by rank."""

import known


def lines_of(ended, rank, faults_of_blocks, faults):
    """The lines of a rank that are compared: none of blocks that are left out for one of these faults, none that one touches."""
    found = []
    for line in ended.lines[rank]:
        block, _, text = line.partition(" ")
        mark = text[1:].partition(" ")[0] if text.startswith("~") else None
        if not (block.isdecimal() and faults_of_blocks.get(int(block)) in faults) and mark not in faults:
            found.append(line)
    return found


def difference(program, one, other, mpi=None):
    """The first difference: rank, block, both lines; or None. With an MPI its known faults are left out."""
    if one.fault or other.fault:
        return one.fault or other.fault
    faults, of_blocks = known.of(mpi) if mpi else set(), program.faults()
    for rank in range(program.size):
        ours, theirs = (lines_of(it, rank, of_blocks, faults) for it in (one, other))
        for mine, its in zip([*ours, "nothing"], [*theirs, "nothing"]):
            if mine != its:
                return "rank %d: '%s', and not '%s'" % (rank, mine, its)
    return None
