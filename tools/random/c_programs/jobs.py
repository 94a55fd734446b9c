"""Compiles and runs a program over the library, over a network that loses, and under other MPIs: what each rank observed."""

import os
import random
import shutil
import signal
import subprocess
from pathlib import Path

import c_programs
import known
import ports
import programs

STRIDE = 40       # from the ports of a rank to those of the next, over a network that loses
OTHERS = {"mpich": (["mpicc.mpich"], ["mpiexec.mpich"]),
          "openmpi": (["mpicc.openmpi"], ["mpiexec.openmpi", "--allow-run-as-root", "--oversubscribe"])}
LATE = "it took more than"
SANITIZERS = ["-fsanitize=address,undefined", "-fno-sanitize-recover=all"]


class Fault(Exception):
    """Why nothing can be run."""


class Ended:
    """What came of a run: the lines of each rank, and why it isn't whole, or None."""

    def __init__(self, folder, size, fault):
        self.lines = []
        for rank in range(size):
            file = folder / str(rank)
            self.lines.append(file.read_text(errors="replace").splitlines() if file.is_file() else [])
        is_whole = all(it and it[-1] == "end" for it in self.lines)
        self.fault = fault or (None if is_whole else "a rank ended early")


def found_mpirun():
    """The launcher that tools take, or the one that was built before its proof."""
    taken = programs.taken("mpirun")
    found = {"mpirun": taken} if programs.is_there(taken) else programs.unproved_folders(["mpirun"])
    if found is None:
        raise Fault("there is no mpirun: `./run build` builds it")
    return found["mpirun"]


def is_installed(mpi):
    return shutil.which(OTHERS[mpi][0][0]) is not None and shutil.which(OTHERS[mpi][1][0]) is not None


def finished(started, seconds):
    """Waits for processes, and ends them where they take too long: statuses and what they said. A signal has ours tell what they wait for."""
    said, statuses, is_late = [], [], False
    for it in started:
        try:
            out = it.communicate(timeout=2 if is_late else seconds)[0]
        except subprocess.TimeoutExpired:
            if not is_late:
                for other in started:
                    other.send_signal(signal.SIGTERM)
            is_late = True
            try:
                out = it.communicate(timeout=3)[0]
            except subprocess.TimeoutExpired:
                os.killpg(it.pid, signal.SIGKILL)
                out = it.communicate()[0]
        said.append(out)
        statuses.append(it.returncode)
    text = " | ".join("".join(said).strip().splitlines()[:12])[:1500]
    if is_late:
        return "%s %d s: %s" % (LATE, seconds, text)
    return "statuses %s: %s" % (statuses, text) if any(statuses) else None


def start(words, **more):
    return subprocess.Popen([str(it) for it in words], stdin=subprocess.DEVNULL, stdout=subprocess.PIPE, stderr=subprocess.STDOUT, text=True,
                            errors="replace", start_new_session=True, **more)


def make_library(room, engine, flags=()):
    """The static library in a folder of its own."""
    targets = [room / "lib" / "libmpi.a", *(room / "include" / it.name for it in (c_programs.BINDING / "include").glob("*.h"))]
    words = ["make", "-s", "-j%d" % (os.cpu_count() or 1), "-C", c_programs.BINDING, "OUT=%s" % room, "ENGINE=%s" % Path(engine).resolve()]
    made = subprocess.run([*words, *map(str, targets), *(["CFLAGS=-g -O1 %s" % " ".join(flags)] if flags else [])], stdin=subprocess.DEVNULL,
                          stdout=subprocess.PIPE, stderr=subprocess.STDOUT, text=True)
    if made.returncode != 0:
        raise Fault(made.stdout[-2000:])


class Jobs:
    """What runs programs: the library in `library`, and other MPIs."""

    def __init__(self, room, library, mpirun, seconds, flags=()):
        self.room, self.library, self.mpirun, self.seconds, self.flags = room, library, mpirun, seconds, list(flags)

    def add_network(self):
        subprocess.run(["cc", "-O2", "-w", programs.TOP / "tools" / "networks" / "bad_network.c", "-o", self.room / "bad_network"], check=True)

    def compiled(self, source, mpi):
        """Where the program stands for an MPI, or for the library."""
        made = source.with_suffix("." + (mpi or "ours"))
        words = ["-std=gnu11", "-O0", "-w", "-pthread", source, "-o", made]
        if mpi:
            words = [*OTHERS[mpi][0], *["-DFAULT_" + it for it in sorted(known.of(mpi))], *words, "-lm"]
        else:
            words = ["cc", "-I", self.library / "include", *self.flags, *words, self.library / "lib" / "libmpi.a", "-lm"]
        done = subprocess.run([str(it) for it in words], stdin=subprocess.DEVNULL, stdout=subprocess.PIPE, stderr=subprocess.STDOUT, text=True)
        if done.returncode != 0:
            raise Fault("%s isn't compiled: %s" % (source, done.stdout[-1500:]))
        return made

    def folder(self, program):
        made = program.with_name(program.name + ".told")
        shutil.rmtree(made, ignore_errors=True)
        made.mkdir()
        return made

    def plain(self, program, size):
        folder = self.folder(program)
        with ports.of_job(size) as first:
            job = start([self.mpirun, "-baseport", first, "-n", size, program, "details", folder])
            return Ended(folder, size, finished([job], self.seconds))

    def under(self, mpi, program, size):
        """Once more with more time where it takes long: others poll, which on a busy machine takes tens of seconds."""
        ended = self.once_under(mpi, program, size, self.seconds)
        return self.once_under(mpi, program, size, 4 * self.seconds) if LATE in (ended.fault or "") else ended

    def once_under(self, mpi, program, size, seconds):
        folder = self.folder(program)
        job = start([*OTHERS[mpi][1], "-n", size, program, "details", folder])
        return Ended(folder, size, finished([job], seconds))

    def over_loss(self, program, size):
        """The network between the ranks loses one datagram of ten, repeats one of twenty, and has each wait up to a millisecond."""
        folder = self.folder(program)
        with ports.of_job(size, STRIDE) as first:
            network = start([self.room / "bad_network", size, first, STRIDE, 10, 5, 1, random.randrange(1 << 30)])
            try:
                network.stdout.readline()
                job, started = random.randrange(1 << 40), []
                for rank in range(size):
                    place = {"RANK": rank, "SIZE": size, "INCARNATION": 0, "JOB": job, "PORT": first + rank * STRIDE}
                    own = {**os.environ, **{"KOMBAZILY_" + name: str(value) for name, value in place.items()}}
                    started.append(start([program, "details", folder], env=own))
                return Ended(folder, size, finished(started, 3 * self.seconds))
            finally:
                network.kill()
                network.communicate()
