"""Grades C programs of an exercise: each file of a folder is compiled, explored in both passes, and compared with what is expected.

usage: kombazily grade FOLDER EXERCISE [--junit FILE] [--seconds S] [--jobs K]

  FOLDER         its files NAME.c, one line of output for each: right, or wrong and why
  EXERCISE       one of examples/lab (ring, workers, reuse), or a folder with exercise.txt and expected.txt
  --junit FILE   the verdicts in JUnit's form, a test case a file
  --seconds S    so long a pass of one file may take (10)
  --jobs K       so many files at a time (as many as there are processors)

A file is right if it compiles, kombazily check has nothing wrong to tell, and each rank prints what expected.txt has, on every way that
was tried. The status is 0 where all are right, 1 where one is wrong, 2 where these words are wrong, 125 where nothing can be run. The
files are run with your rights.
"""

import argparse
import concurrent.futures
import os
import re
import signal
import subprocess
import tempfile
import time
from pathlib import Path
from xml.sax.saxutils import quoteattr

import c_programs
import explorer
import programs
import words

LAB = programs.TOP / "examples" / "lab"
RIGHT, WRONG, WORDS, OWN_FAILURE = 0, 1, 2, 125
# What a verdict says of a finding, and what of a file that isn't through, is cut here.
LONGEST = 300
# So much longer than its passes a file's exploration may take.
FURTHER = 30
PRINTED = re.compile(r"\[(\d+)\] ?(.*)")


class Fault(Exception):
    """Why the words are wrong."""


class Exercise:
    """What is expected of a file: how it is run, and what each rank prints."""

    def __init__(self, named):
        folder = LAB / named if (LAB / named / "exercise.txt").is_file() else Path(named)
        self.name, self.ranks, self.words = folder.resolve().name, 2, []
        try:
            lines = (folder / "exercise.txt").read_text().splitlines()
            self.expected = by_rank((folder / "expected.txt").read_text(errors="replace").splitlines())
        except OSError as why:
            raise Fault("%s is no exercise: %s: %s" % (named, why.filename, why.strerror)) from why
        for line in lines:
            key, _, value = line.partition(" ")
            if key == "ranks" and value.isdigit() and 1 <= int(value) <= 64:
                self.ranks = int(value)
            elif key == "words":
                self.words = value.split()
            elif key and not key.startswith("#"):
                raise Fault("%s: no such line of an exercise: %s" % (folder / "exercise.txt", line))


def by_rank(lines):
    """The lines of each rank, in their order, of lines that stand behind the numbers of their ranks."""
    found = {}
    for line in lines:
        if printed := PRINTED.fullmatch(line):
            found.setdefault(int(printed[1]), []).append(printed[2])
    return found


class Result:
    """One result of an exploration: how it ended, what was told of it, and what was printed."""

    def __init__(self, head):
        self.head, self.findings, self.printed = head, [], []

    def told(self):
        ending = self.head.partition(": ")[2]
        told = self.findings[0] if self.findings else ending
        return ("DEADLOCK: " + told) if ending.startswith("DEADLOCK") and self.findings else told


def results_of(text):
    """The results of both passes, in the order in which they are told."""
    found = []
    for line in text.splitlines():
        if re.match(r"result \d+ of \d+, in \d+ runs?: ", line):
            found.append(Result(line))
        elif found and PRINTED.fullmatch(line):
            found[-1].printed.append(line)
        elif found and line.startswith("  "):
            found[-1].findings.append(line.strip())
    return found


def difference(expected, printed):
    """The first line that is printed and not expected, or the other way round; None where there is none."""
    for rank in sorted({*expected, *printed}):
        wanted, got = expected.get(rank, []), printed.get(rank, [])
        for at in range(max(len(wanted), len(got))):
            if at >= len(got):
                return "it doesn't print: [%d] %s" % (rank, wanted[at])
            if at >= len(wanted) or wanted[at] != got[at]:
                return "it prints otherwise: [%d] %s" % (rank, got[at])
    return None


class Verdict:
    """What becomes of a file: right or wrong, and why."""

    def __init__(self, file, is_right, why, took):
        self.name, self.is_right, self.took = file.name, is_right, took
        self.why = re.sub(r"[^\x20-\x7e\xa0-\ud7ff]", "?", why)[:LONGEST]

    def line(self):
        word = "right" if self.is_right else "wrong"
        return "%s: %s%s" % (self.name, word, ": " + self.why if self.why else "")

    def case(self, suite):
        head = '  <testcase classname=%s name=%s time="%.2f"' % (quoteattr(suite), quoteattr(self.name), self.took)
        return head + ("/>" if self.is_right else ">\n    <failure message=%s/>\n  </testcase>" % quoteattr(self.why))


class Grader:
    def __init__(self, exercise, seconds, compiler, program, room):
        self.exercise, self.seconds, self.compiler, self.program, self.room = exercise, seconds, compiler, program, room

    def run(self, command, folder, longest):
        """Status and output; status None where it took too long: what was started is ended then."""
        with subprocess.Popen([str(it) for it in command], cwd=folder, stdin=subprocess.DEVNULL, stdout=subprocess.PIPE,
                              stderr=subprocess.STDOUT, start_new_session=True) as ran:
            try:
                text = ran.communicate(timeout=longest)[0]
            except subprocess.TimeoutExpired:
                os.killpg(ran.pid, signal.SIGKILL)
                text = ran.communicate()[0]
                return None, text.decode(errors="replace")
        return ran.returncode, text.decode(errors="replace")

    def compile(self, file, made):
        """Why it doesn't compile, or None."""
        status, text = self.run([self.compiler, "-O1", "-g", file.name, "-o", made, "-lm"], file.parent, 60)
        if status == 0:
            return None
        errors = [it for it in text.splitlines() if "error" in it or "undefined" in it]
        return "it doesn't compile: " + (errors or text.splitlines() or ["it took too long"])[0]

    def explore(self, made):
        """Whether it is right, and why not, or as far as what."""
        command = [self.program, "-n", self.exercise.ranks, "--output", "--results", 1000, "--seconds", self.seconds, made,
                   *self.exercise.words]
        status, text = self.run(command, made.parent, 2 * self.seconds + FURTHER)
        results, is_all = results_of(text), "not every choice was tried" not in text
        if status is None:
            return False, "it wasn't through after %d s" % (2 * self.seconds + FURTHER)
        if not results:
            return False, "no way came to its end within %d s" % self.seconds if status in (0, 1) else last_line(text)
        if status != 0:
            return False, next((it.told() for it in results if it.findings or "nothing to tell" not in it.head), last_line(text))
        for result in results:
            if why := difference(self.exercise.expected, by_rank(result.printed)):
                return False, why
        return True, "" if is_all else "as far as was tried in %d s" % self.seconds

    def grade(self, file):
        begun = time.monotonic()
        with tempfile.TemporaryDirectory(dir=self.room) as folder:
            made = Path(folder) / file.stem
            why = self.compile(file, made)
            is_right, why = self.explore(made) if why is None else (False, why)
        return Verdict(file, is_right, why, time.monotonic() - begun)


def last_line(text):
    return next(reversed(text.split("\n")[:-1]), "nothing was told")


def write_junit(name, suite, verdicts):
    wrong = sum(not it.is_right for it in verdicts)
    counts = (quoteattr(suite), len(verdicts), wrong, sum(it.took for it in verdicts))
    head = '<testsuite name=%s tests="%d" failures="%d" time="%.2f">' % counts
    lines = ['<?xml version="1.0" encoding="UTF-8"?>', head, *(it.case(suite) for it in verdicts), "</testsuite>"]
    Path(name).write_text("\n".join(lines) + "\n", encoding="utf-8")


def given(arguments):
    parser = words.Parser(__doc__)
    parser.prog = "grade"
    parser.add_argument("folder", metavar="FOLDER", help=argparse.SUPPRESS)
    parser.add_argument("exercise", metavar="EXERCISE", help=argparse.SUPPRESS)
    parser.add_argument("--junit", metavar="FILE", help=argparse.SUPPRESS)
    parser.add_argument("--seconds", metavar="S", type=int, default=10, help=argparse.SUPPRESS)
    parser.add_argument("--jobs", metavar="K", type=int, default=len(os.sched_getaffinity(0)), help=argparse.SUPPRESS)
    found = parser.parse_args(arguments)
    if found.seconds < 1 or found.jobs < 1:
        raise Fault("--seconds and --jobs want a number above 0")
    return found


def grade(asked, say):
    exercise = Exercise(asked.exercise)
    files = sorted(Path(asked.folder).resolve().glob("*.c"))
    if not files:
        raise Fault("%s has no file NAME.c" % asked.folder)
    program = explorer.taken(say)
    compiler = (programs.RELEASED or programs.TOP / "tools") / "mpicc"
    verdicts = []
    with tempfile.TemporaryDirectory() as room, concurrent.futures.ThreadPoolExecutor(asked.jobs) as pool:
        grader = Grader(exercise, asked.seconds, compiler, program, room)
        for verdict in pool.map(grader.grade, files):
            print(verdict.line(), flush=True)
            verdicts.append(verdict)
    right = sum(it.is_right for it in verdicts)
    print("%d file%s: %d right, %d wrong" % (len(files), "" if len(files) == 1 else "s", right, len(files) - right), flush=True)
    if asked.junit:
        write_junit(asked.junit, exercise.name, verdicts)
    return RIGHT if right == len(files) else WRONG


def main(arguments, say):
    """Grades by these words: the status."""
    try:
        return grade(given(arguments), say)
    except (Fault, OSError) as why:
        say(why)
        return WORDS
    except (c_programs.Fault, programs.NotBuilt) as why:
        say(why)
        return OWN_FAILURE
