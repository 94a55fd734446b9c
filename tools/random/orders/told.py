"""What `mpiexplore` tells of a script: each result, and whether these are all."""

import collections
import re
import subprocess

LONGEST = 900  # seconds
RESULTS = 1_000_000
ALIKE = re.compile(r"one of (\d+), which differ in nothing but the order in which a rank printed its lines:")
PRINTED = re.compile(r"\[(\d+)\] ?(.*)")
WAITS = re.compile(r"rank (\d+) waits at line (\d+): ")
ENDED = re.compile(r"rank (\d+) ended with status (\d+) at line (\d+): ")
ERROR = re.compile(r"rank (\d+) line (\d+): error (\d+): ")
LEFT = re.compile(r"rank (\d+) ended with (?:request|message) \S+ \(line (\d+)\) ")
UNRECEIVED = re.compile(r"rank (\d+) never received a message of rank (\d+)(?: \(.*?\))? with tag (\d+)")
# A long search tells some results when they are found, and at its end only that they were told.
TOLD_BEFORE = ", as was told when it was found"


class NoAnswer(Exception):
    """The program ended with another status than those of what it found, or didn't end."""


class Result:
    """One result: `shown` is what each rank printed, in whatever order, and how it ended; `details` what is told beside; `count` for how
    many results it stands that differ in the order of a rank's lines."""

    def __init__(self, lines, size):
        printed, endings = [[] for _ in range(size)], [("status", 0)] * size
        details, self.count = collections.Counter(), 1
        for line in lines:
            if found := PRINTED.fullmatch(line):
                printed[int(found[1])].append(found[2])
            elif found := WAITS.match(line):
                endings[int(found[1])] = ("waits", int(found[2]))
            elif found := ENDED.match(line):
                rank, status, number = map(int, found.groups())
                endings[rank] = ("status", status)
                details["ended", rank, status, number] += 1
            elif found := ERROR.match(line):
                details["error", *map(int, found.groups())] += 1
            elif found := LEFT.match(line):
                details["left", *map(int, found.groups())] += 1
            elif found := UNRECEIVED.match(line):
                details["unreceived", *map(int, found.groups())] += 1
            elif found := ALIKE.fullmatch(line):
                self.count = int(found[1])
        self.shown = tuple((tuple(sorted(lines)), ending) for lines, ending in zip(printed, endings))
        self.details = frozenset(details.items())


class Told:
    """All results. `is_whole`: every choice was tried; `has_findings`: all but plays that stood as another one. `is_counted`: of each result
    it is said for how many it stands."""

    def __init__(self, text, size):
        head, *parts = re.split(r"^(result \d+(?: of|, found in) .*)\n", text, flags=re.M)
        titles, bodies = parts[::2], parts[1::2]
        self.has_findings = "plays that stood alike were broken off" in text
        self.is_whole = "not every choice was tried" not in text
        self.is_counted = not any(title.endswith(TOLD_BEFORE) for title in titles)
        self.results = [Result(body.splitlines(), size) for title, body in zip(titles, bodies) if not title.endswith(TOLD_BEFORE)]
        self.plays = int(re.search(r"^\d+ ranks?, (\d+) plays?: ", text, re.M)[1])


def told_of(program, file, size, *more):
    """What the program tells of the script in a file, with more words."""
    command = [program, "-n", str(size), "--results", str(RESULTS), *more, file]
    try:
        done = subprocess.run(command, stdin=subprocess.DEVNULL, capture_output=True, text=True, timeout=LONGEST)
    except subprocess.TimeoutExpired:
        raise NoAnswer(f"mpiexplore didn't end within {LONGEST} seconds") from None
    if done.returncode not in (0, 1) or not done.stdout:
        raise NoAnswer(f"mpiexplore: status {done.returncode}, {done.stderr.strip()}")
    return Told(done.stdout, size)
