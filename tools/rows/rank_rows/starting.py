"""Starts ranks as processes of `rank_main`, and compares what each prints, what it says on the standard error, and its status."""

import os
import re
import subprocess
import sys
import tempfile
from concurrent.futures import ThreadPoolExecutor
from pathlib import Path

sys.path.insert(0, str(Path(__file__).resolve().parents[2] / "modules"))
import ports

# The program, once `run` has set it; what was compared, and what of it is wrong.
PROGRAM, DONE, WRONG = None, [], []
UNFIT, OUTSIDE = "words that don't fit the statement", "a value outside its type"
BEHIND = "behind the end of its script: what it sent is not all acknowledged"
# What a rank says of an error that it was answered: the number, and the line of the script.
TOLD = re.compile(r"rank_main: rank (\d+) line (\d+): error (\d+): .*")
# What it says beside a refusal, to help: the rows of words have the texts.
HELPS = re.compile(r"rank_main: (.*: the form is .*|line \d+: no line sets the name .*|a tab stands there.*|the line ends with .*)")


def refused(number, *lines):
    """A refusal, and the lines behind it."""
    return ["rank_main: refused " + number, *("rank_main: " + it for it in lines)]


def faulty(rank, number, why, line):
    """What a rank says that ends at a faulty line."""
    return refused("51 line %d" % number, "rank %d: %s: %s" % (rank, why, line))


def unset(rank, number, name, line):
    return faulty(rank, number, "the name %s isn't set" % name, line)


def gave_up(rank, patience, where):
    """What a rank says whose patience is over."""
    return ["rank_main: rank %d gave up after %d ms %s" % (rank, patience, where)]


def compare(name, found, wanted):
    """Notes whether what was found is what is wanted."""
    DONE.append(name)
    if found != wanted:
        WRONG.append(name)
        print("FAILED: %s: found %s, wanted %s" % (name, cut(found), cut(wanted)), flush=True)


def cut(value):
    text = repr(value)
    return text if len(text) <= 1000 else text[:1000] + " .."


def place(rank, size, port, inc=0, job=1, patience=None, hosts=None):
    """The words that tell a rank its place."""
    told = ["--rank", rank, "--size", size, "--inc", inc, "--job", job, "--port", port + rank]
    told += ["--patience", patience] if patience else []
    return [str(it) for it in told + (["--hosts", hosts] if hosts else [])]


def start(script, rank, size, port, **more):
    """A rank that runs a script, with its output and its standard error to be read."""
    return begun([*place(rank, size, port, **more), script])


def begun(command, stdin=subprocess.DEVNULL, stdout=subprocess.PIPE, **environment):
    how = {"stdin": stdin, "stdout": stdout, "stderr": subprocess.PIPE, "text": True, "env": {**os.environ, **environment}}
    return subprocess.Popen([PROGRAM, *map(str, command)], **how)


def ran(command, **more):
    """The status, the output and the lines of the standard error of one process, once it has ended."""
    process = begun(command, **more)
    output, errors = process.communicate(timeout=60)
    return process.returncode, output, errors.splitlines()


def script_in(room, text):
    path = os.path.join(room, "script.txt")
    Path(path).write_text(text)
    return path


def judged(text, rank, output, errors):
    """The lines of the standard error without those that tell an error or help; and what is wrong with those that tell one: each error that
    is printed is told, in order, with its line."""
    told = [it for it in map(TOLD.fullmatch, errors) if it]
    lines = text.split("\n")
    printed = [it.removeprefix("error ") for it in output if re.fullmatch(r"error \d+", it)]
    numbers = [it[3] for it in told]
    strange = [it[0] for it in told if int(it[1]) != rank or not it[0].endswith(": " + lines[int(it[2]) - 1].strip())]
    left = [it for it in errors if not TOLD.fullmatch(it) and not HELPS.fullmatch(it)]
    return left, strange if printed == numbers else ["told %s" % numbers, *strange]


def row(name, text, wanted, size=None, order=True, **more):
    """Runs a script with as many ranks as there are wanted (output, status, errors), of so many."""
    with tempfile.TemporaryDirectory() as room:
        size = size or len(wanted)
        path, port = script_in(room, text), ports.free(size)
        ranks = [start(path, rank, size, port, **more) for rank in range(len(wanted))]
        # All are read at once: a rank whose output nobody reads comes to a stop once its pipe is full.
        with ThreadPoolExecutor(len(ranks)) as pool:
            texts = list(pool.map(subprocess.Popen.communicate, ranks))
    for rank, (process, (out, err), (output, status, *errors)) in enumerate(zip(ranks, texts, wanted)):
        lines = out.splitlines()
        left, strange = judged(text, rank, lines, err.splitlines())
        compare("%s, rank %d" % (name, rank), (lines if order else sorted(lines), process.returncode, left), (output, status, errors))
        compare("%s, rank %d: errors are told" % (name, rank), strange, [])
    print("done: " + name, flush=True)
