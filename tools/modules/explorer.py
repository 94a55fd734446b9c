"""The explorer of C programs: kombazily-check, of bindings/explorer, and programs that are explored.

It is made over the static library of the crate c_explorer: the proved one, which `rt lib` leaves in crates/c_explorer/out, or one that was
built of the same sources before any proof, in out/unproved.
"""

import ast
import hashlib
import os
import re
import subprocess
import tempfile
from pathlib import Path

import c_programs
import programs

FOLDER = programs.TOP / "bindings" / "explorer"
TESTS = FOLDER / "tests"
OUT = programs.TOP / "out" / "explorer"
PROGRAM = OUT / "kombazily-check"
CRATE = "c_explorer"
PROVED = programs.TOP / "crates" / CRATE / "out" / ("lib%s.a" % CRATE)
# The proved library with what takes its memory from C.
WHOLE = OUT / ("lib%s.a" % CRATE)
UNPROVED = programs.UNPROVED / ("lib%s.a" % CRATE)


def sum_of_unproved():
    """A sum of all that the unproved library is built from."""
    return programs.sum_of_sources(CRATE) + " " + hashlib.sha256(c_programs.BUILDER.read_bytes()).hexdigest()


def is_built():
    stamp = UNPROVED.with_suffix(".sum")
    return UNPROVED.is_file() and stamp.is_file() and stamp.read_text() == sum_of_unproved()


def is_proved():
    """Whether the proved library is there and newer than all that it was built from."""
    if not PROVED.is_file():
        return False
    built = PROVED.stat().st_mtime_ns
    parts = programs.files_of(programs.crates_of(CRATE), ("src", "specs", "proofs"))
    return all(os.stat(it).st_mtime_ns < built for it in [programs.TOP / "crates.txt", *parts])


def prove(say):
    """Proves the library and all below it where it isn't."""
    if is_proved():
        return
    say("proving what the explorer decides by")
    made = subprocess.run([programs.TOP / "tools" / "build" / "proved_build", "--library", CRATE])
    if made.returncode != 0 or not is_proved():
        raise c_programs.Fault("what the explorer decides by isn't proved")


def choices(say):
    """The library of the crate c_explorer: a given one, the proved one, or one that is built where it isn't there."""
    if given := os.environ.get("RUN_CHOICES"):
        return Path(given).absolute()
    if is_proved():
        with c_programs.alone(OUT), tempfile.TemporaryDirectory() as room:
            c_programs.put_where(WHOLE, c_programs.with_memory(PROVED, Path(room)))
        return WHOLE
    programs.build_unproved(say, (), (), [("what the explorer decides by", is_built, begin_build)])
    return UNPROVED


def begin_build():
    """Begins to build the unproved library."""
    return programs.Build(CRATE, c_programs.BUILDER, UNPROVED, sum_of_unproved())


def make(say, flags=None, out=OUT):
    """Makes the explorer current; the library for C programs is made first. Returns where it stands."""
    c_programs.make_library(say)
    parts = {"OUT": out, "CHOICES": choices(say)}
    command = ["make", "-s", "-j2", "-C", FOLDER, *("%s=%s" % (name, os.path.relpath(it, FOLDER)) for name, it in parts.items())]
    with c_programs.alone(out):
        made = subprocess.run(command + (["CFLAGS=%s" % flags] if flags else []), stdin=subprocess.DEVNULL, stdout=subprocess.PIPE,
                              stderr=subprocess.STDOUT)
    if made.returncode != 0:
        raise c_programs.Fault("the explorer wasn't made:\n%s" % made.stdout.decode(errors="replace"))
    return out / PROGRAM.name


def taken(say):
    """The explorer that is run: a release has it; else it is made current."""
    return programs.RELEASED / PROGRAM.name if programs.RELEASED else make(say)


def usage():
    """The explorer's page of usage, as its source has it: so that help builds nothing."""
    lines = re.search(r"usage\[\] =\n(.*?);\n", (FOLDER / "src" / "words.c").read_text(), re.DOTALL)[1]
    return "".join(ast.literal_eval(it.strip()) for it in lines.split("\n"))


def compile_program(source, into, flags=("-g", "-O0")):
    """Compiles a C program with the library, and with the calls that aren't supported."""
    include = c_programs.OUT / "include"
    library = c_programs.LIBRARY.with_name("libkombazily_unsupported.a")
    command = ["cc", *flags, "-w", "-I%s" % include, source, library, "-lm", "-o", into]
    made = subprocess.run(command, stdin=subprocess.DEVNULL, stdout=subprocess.PIPE, stderr=subprocess.STDOUT)
    if made.returncode != 0:
        raise c_programs.Fault("%s isn't compiled:\n%s" % (source, made.stdout.decode(errors="replace")))
    return into


def explore(explorer, words, seconds=120):
    """Status and output; status None where it took too long."""
    try:
        done = subprocess.run([str(it) for it in [explorer, *words]], stdin=subprocess.DEVNULL, stdout=subprocess.PIPE,
                              stderr=subprocess.STDOUT, text=True, errors="replace", timeout=seconds)
        return done.returncode, done.stdout
    except subprocess.TimeoutExpired as late:
        return None, (late.stdout or b"").decode(errors="replace")
