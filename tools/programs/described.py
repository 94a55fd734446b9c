"""What the table of programs is made of: a program, its runs, and how what a run printed is judged."""

import re
from dataclasses import dataclass, field
from typing import Callable


@dataclass
class Printed:
    """What a run printed and wrote: its standard output and standard error, and how it ended (None: it took too long)."""

    status: object
    output: str
    said: str
    seconds: float


@dataclass
class Run:
    """A shell line that is run in a folder of its own. In it $RUN is the launcher with the number of ranks, and $TREE the folder in which
    the program was built. It has to end with status 0. A judge gets what it printed and, where it is `beside` MPICH, what the same line
    printed there, on as many ranks or, with `alone`, on one; it answers with the faults that it found."""

    name: str
    line: str
    judge: Callable
    ranks: tuple = (2, 4)
    files: dict = field(default_factory=dict)
    beside: bool = False
    alone: bool = False
    seconds: int = 120


@dataclass
class Program:
    """A program: its archive in Debian's pool with the checksum (SHA-256), the shell line that builds it, and its runs. In the line
    `mpicc`, `mpicxx`, `mpirun` and `mpiexec` are those of the MPI for which it is built, and $JOBS is a number for `make -j`. `needs`
    names commands, headers and libraries of the system, each with the package of Debian that has it; `files` are written into the tree
    first. `programs` are patterns of what has to be there at the end, and to speak MPI by that MPI."""

    name: str
    version: str
    archive: str
    checksum: str
    build: str
    runs: list
    judged: str
    programs: list
    needs: dict = field(default_factory=dict)
    files: dict = field(default_factory=dict)


def says(*patterns, never=(), times=1):
    """A judge: each of these patterns is found so many times at least, and none of the others."""
    def judge(printed, _):
        text = printed.output
        lacks = ["no %r" % it for it in patterns if len(re.findall(it, text, re.M)) < times]
        return lacks + ["there is %r" % it for it in never if re.search(it, text, re.M)]
    return judge


def counts(pattern, wanted):
    """A judge: this pattern is found exactly so many times."""
    def judge(printed, _):
        found = len(re.findall(pattern, printed.output, re.M))
        return [] if found == wanted else ["%r stands there %d times, not %d" % (pattern, found, wanted)]
    return judge


def same(*patterns):
    """A judge: what these patterns find is found, and is the same under MPICH."""
    def judge(printed, other):
        faults = []
        for it in patterns:
            here, there = re.findall(it, printed.output, re.M), re.findall(it, other.output, re.M)
            if not here:
                faults.append("no %r" % it)
            elif here != there:
                faults.append("%r: %s, and under MPICH %s" % (it, shown(here), shown(there)))
        return faults
    return judge


def near(pattern, tolerance):
    """A judge: the numbers that this pattern finds are those under MPICH but for so great a part of them."""
    def judge(printed, other):
        here, there = ([float(it) for it in re.findall(pattern, text.output, re.M)] for text in (printed, other))
        if not here or len(here) != len(there):
            return ["%r: %d numbers, and under MPICH %d" % (pattern, len(here), len(there))]
        far = [it for it in zip(here, there) if not abs(it[0] - it[1]) <= tolerance * max(abs(it[0]), abs(it[1]))]
        return ["%r: %r, and under MPICH %r" % (pattern, *far[0])] if far else []
    return judge


def small(pattern, bound, times=1):
    """A judge: this pattern finds so many texts at least, and no number in them is farther from 0 than this."""
    def judge(printed, _):
        texts = re.findall(pattern, printed.output, re.M)
        numbers = [float(it) for text in texts for it in re.findall(r"[-+]?\d+\.\d+(?:e[-+]?\d+)?", text)]
        far = [it for it in numbers if not abs(it) <= bound]
        lacks = [] if len(texts) >= times and numbers else ["%r stands there %d times" % (pattern, len(texts))]
        return lacks + (["%r: %r" % (pattern, far[0])] if far else [])
    return judge


def together(*judges):
    """A judge: the faults of all of these."""
    return lambda printed, other: [fault for it in judges for fault in it(printed, other)]


def ends_well(_printed, _other):
    """A judge: the status tells all."""
    return []


def shown(found):
    text = repr(found)
    return text if len(text) <= 200 else text[:200] + " .."
