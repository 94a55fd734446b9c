"""C programs over the engine: the library libmpi.a, and programs that are linked with it.

The engine is the static library of the crate c_exports: the proved one, which `rt lib` leaves in crates/c_exports/out, or one that was
built of the same sources before any proof, which is kept in out/unproved. bindings/c/Makefile makes libmpi.a of it in out/c.
"""

import fcntl
import hashlib
import os
import shutil
import subprocess
import tempfile
from contextlib import contextmanager
from pathlib import Path

import programs

TOP, CRATE = programs.TOP, "c_exports"
BINDING, OUT = TOP / "bindings" / "c", TOP / "out" / "c"
LIBRARY, ENGINE = OUT / "lib" / "libmpi.a", OUT / "libengine.a"
PROVED = TOP / "crates" / CRATE / "out" / ("lib%s.a" % CRATE)
UNPROVED = programs.UNPROVED / ("lib%s.a" % CRATE)
BUILDER = TOP / "tools" / "build" / "unproved_static"
FORTRAN = TOP / "bindings" / "fortran"
MODULE = OUT / "include" / "mpi.mod"
# Programs that are compiled here: by the ends of their names, the compiler.
COMPILERS = {".c": "mpicc", **{it: "mpifort" for it in (".f90", ".F90", ".f", ".F", ".f95", ".f03", ".f08")}}


class Fault(Exception):
    """Why there is no library or no program."""


def sources():
    """All files that the library is made of."""
    own = [it for part in ("src", "include") for it in sorted((BINDING / part).iterdir())]
    crates = programs.crates_of(CRATE) if CRATE in programs.dependencies() else []
    made_by = [BINDING / it for it in ("Makefile", "exported.map", "kombazily.pc.in")]
    return [*own, *made_by, *fortran_sources(), TOP / "VERSION", *programs.files_of(crates, ("src",))]


def fortran_sources():
    """The same of Fortran's calls."""
    tool = [TOP / "tools" / "fortran_calls", *sorted((TOP / "tools" / "modules").glob("fortran_*.py"))]
    return [*tool, *(FORTRAN / it for it in ("Makefile", "exported.map", "table.txt")), *sorted((FORTRAN / "src").iterdir())]


def has_fortran():
    return shutil.which("gfortran") is not None


def may_be_old():
    """Whether some source is newer than the library, or there is none."""
    if not LIBRARY.is_file() or has_fortran() and not MODULE.is_file():
        return True
    made = LIBRARY.stat().st_mtime_ns
    return any(os.stat(it).st_mtime_ns >= made for it in sources())


def is_proved():
    """Whether the proved engine is there and newer than all that it was built from."""
    if not PROVED.is_file() or CRATE not in programs.dependencies():
        return False
    built = PROVED.stat().st_mtime_ns
    parts = programs.files_of(programs.crates_of(CRATE), ("src", "specs", "proofs"))
    return all(os.stat(it).st_mtime_ns < built for it in [TOP / "crates.txt", *parts])


def sum_of_unproved():
    """A sum of all that the unproved engine is built from."""
    return programs.sum_of_sources(CRATE) + " " + hashlib.sha256(BUILDER.read_bytes()).hexdigest()


def is_built():
    stamp = UNPROVED.with_suffix(".sum")
    return UNPROVED.is_file() and stamp.is_file() and stamp.read_text() == sum_of_unproved()


def need_kit():
    if programs.kit() is None:
        raise programs.NotBuilt(programs.NO_TOOLCHAIN)
    return programs.kit()


def begin_build():
    """Begins to build the unproved engine."""
    return programs.Build(CRATE, BUILDER, UNPROVED, sum_of_unproved())


def build_unproved(say, names=()):
    """Builds the unproved engine where it isn't current, and these programs beside it."""
    if CRATE not in programs.dependencies():
        raise Fault("crates.txt names no crate %s, which gives the engine to C" % CRATE)
    programs.build_unproved(say, names, (), [("the engine for C", is_built, begin_build)])


def build_with(say, names):
    """Builds these programs and the engine side by side, where neither proved nor unproved ones are current; a release has them."""
    if programs.RELEASED:
        return
    lacking = [it for it in names if not programs.is_proved(it)]
    if not is_proved() and (lacking and programs.unproved_folders(lacking) is None or not is_built()):
        build_unproved(say, lacking)


def prove(say):
    """Proves the engine and all below it where it isn't."""
    if is_proved():
        return
    need_kit()
    say("proving the engine for C and all below it: up to an hour on 4 processors")
    made = subprocess.run([TOP / "tools" / "build" / "proved_build", "--library", CRATE])
    if made.returncode != 0 or not is_proved():
        raise Fault("the engine isn't proved")


def take_proved(say):
    """The proved engine, with the kit's piece by which it takes its memory from C."""
    with tempfile.TemporaryDirectory() as room:
        put_engine(with_memory(PROVED, Path(room)), say, "libmpi.a is made of the proved engine, under a library in C")


def with_memory(library, room):
    """A copy of a proved static library in this folder, with the kit's piece by which it takes its memory from C: `rt lib` leaves it out."""
    made = room / library.name
    shutil.copy(library, made)
    subprocess.run(["ar", "x", need_kit() / "c" / "liblibc_c.a", "heap.pic.o"], cwd=room, check=True)
    subprocess.run(["ar", "rs", made, room / "heap.pic.o"], check=True, stderr=subprocess.DEVNULL)
    return made


def put_engine(made, say, what):
    """Puts an engine where the library is made of it, and says which one, unless the same one is there."""
    if put_where(ENGINE, made):
        say(what)


def put_where(place, made):
    """Puts a file at a place, unless the same one is there: what is made of it is then current. Returns whether it did."""
    place.parent.mkdir(parents=True, exist_ok=True)
    if place.is_file() and place.read_bytes() == made.read_bytes():
        return False
    shutil.copy(made, place.with_suffix(".new"))
    os.replace(place.with_suffix(".new"), place)
    return True


@contextmanager
def alone(folder):
    """One at a time makes things in a folder."""
    folder.mkdir(parents=True, exist_ok=True)
    with open(folder / "lock", "w") as lock:
        fcntl.flock(lock, fcntl.LOCK_EX)
        yield


def make_library(say, wants_proved=False):
    """Makes libmpi.a current; says whether its engine is proved where that is another one than before. Returns whether it is."""
    with alone(OUT):
        return make_library_alone(say, wants_proved)


def make_library_alone(say, wants_proved):
    if given := os.environ.get("RUN_ENGINE"):
        put_engine(Path(given), say, "libmpi.a is made of the engine %s" % given)
        proved = False
    else:
        if wants_proved:
            prove(say)
        proved = is_proved()
        if proved:
            take_proved(say)
        else:
            build_unproved(say)
            put_engine(UNPROVED, say, "libmpi.a is made of an engine that was built before any proof ('./run --proved' proves it first)")
    run_make(BINDING, OUT, "libmpi.a")
    if has_fortran():
        run_make(FORTRAN, OUT, "libmpifort.a")
    # What is linked with it is linked anew where it is newer, so its time stays where nothing was made.
    if may_be_old():
        os.utime(LIBRARY)
    return proved


def run_make(folder, out, what, *words):
    """Makes a library into a folder, which is named from where make runs, since it takes no name with a blank."""
    command = ["make", "-s", "-j%d" % (os.cpu_count() or 1), "-C", folder, "OUT=%s" % os.path.relpath(out, folder), *words]
    made = subprocess.run(command, stdin=subprocess.DEVNULL, stdout=subprocess.PIPE, stderr=subprocess.STDOUT)
    if made.returncode != 0:
        raise Fault("%s wasn't made:\n%s" % (what, made.stdout.decode(errors="replace")))


def compiled(say, source, wants_proved=False, further=()):
    """Compiles a program in C or Fortran, of one file or several, and returns where it stands: it has the name of the first one."""
    sources = [source, *further]
    name = max((COMPILERS[it.suffix] for it in sources), key=lambda it: it == "mpifort")
    if programs.RELEASED:
        compiler, folder = programs.RELEASED / name, Path(os.environ.get("XDG_CACHE_HOME") or Path.home() / ".cache") / "kombazily"
    else:
        make_library(say, wants_proved)
        compiler, folder = TOP / "tools" / name, OUT / "programs"
    program = folder / source.stem
    folder.mkdir(parents=True, exist_ok=True)
    made = subprocess.run([compiler, "-O2", "-g", "-Wall", *sources, "-o", program, "-lm"], stdout=subprocess.DEVNULL)
    if made.returncode != 0:
        raise Fault("%s wasn't compiled" % ", ".join(map(str, sources)))
    return program
