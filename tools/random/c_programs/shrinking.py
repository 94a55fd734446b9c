"""Leaves out of a program what a fault doesn't need."""

import copy


def without_part(program, block, part):
    """The program with a part of a block left out."""
    made = copy.copy(program)
    smaller = copy.copy(block)
    smaller.parts = [it for it in block.parts if it is not part]
    made.blocks = [smaller if it is block else it for it in program.blocks]
    for it in made.blocks:
        if getattr(it, "begun", None) is block:
            at = made.blocks.index(it)
            made.blocks[at] = copy.copy(it)
            made.blocks[at].begun = smaller
    return made


def shrunk(program, is_wrong, most=60):
    """A program that is wrong, too, and of which no block and no part can be left out; by so many tries at most."""
    tries, goes_on = 0, True
    while goes_on and tries < most:
        goes_on = False
        for block in list(reversed(program.blocks)):
            if block not in program.blocks:
                continue
            smaller, tries = program.without(block), tries + 1
            if len(program.blocks) > 1 and smaller.blocks and is_wrong(smaller):
                program, goes_on = smaller, True
    for block in list(program.blocks):
        for part in list(block.parts):
            current = next((it for it in program.blocks if it.number == block.number), None)
            if current is None or len(current.parts) < 2 or tries >= 2 * most:
                continue
            smaller, tries = without_part(program, current, part), tries + 1
            if is_wrong(smaller):
                program = smaller
    return program
