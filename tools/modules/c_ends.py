"""What people see of C programs under mpirun: lines as they are printed, ends, waits that never end. Rows of tools/rows/c_tests, over the
programs in bindings/c/tests/ends.
"""

import fcntl
import os
import pty
import re
import select
import shutil
import signal
import socket
import subprocess
import tempfile
import termios
import time
from pathlib import Path

import ports

TESTS = Path(__file__).resolve().parents[2] / "bindings" / "c" / "tests"
LONGEST = 60
BEGUN = 0.5    # so long behind their first lines the ranks wait for one another
WORLD = "in MPI_COMM_WORLD"
# What is told of buffers that are used while an operation has them, without the lines of the program.
MISUSED = ["rank 0: " + it for it in (
    "MPI_Irecv: its buffer overlaps that of MPI_Irecv, which isn't complete",
    "MPI_Sendrecv: two of its buffers overlap, and data come into one",
    "MPI_Wait: the buffer of MPI_Isend changed before it was complete",
    "MPI_Wait: the buffer of MPI_Irecv was written before it was complete",
    "MPI_Wait: the buffer of MPI_Irecv: its memory is gone before it was complete")]
# Programs that wait for ever, by their word: what ranks 0 and 1 of two say.
STUCK = {
    "receive": ["MPI_Recv waits for a message of rank %d with tag 5 " + WORLD] * 2,
    "any_source": ["MPI_Recv waits for a message of any rank with tag 5 " + WORLD] * 2,
    "send": ["MPI_Send waits for rank %d to receive 80000 bytes with tag 0 " + WORLD] * 2,
    "synchronous": ["MPI_Ssend waits for rank %d to receive 4 bytes with tag 0 " + WORLD] * 2,
    "crowded": ["MPI_Send waits for rank %d to receive 4 bytes with tag 0 " + WORLD
                + ", behind 1000 bytes that it hasn't asked for (KOMBAZILY_UNASKED)"] * 2,
    "probe": ["MPI_Probe waits for a message of rank %d with tag 5 " + WORLD] * 2,
    "matched_probe": ["MPI_Mprobe waits for a message of rank %d with tag 5 " + WORLD] * 2,
    "one": ["MPI_Wait waits for a message of rank %d with tag 3 " + WORLD] * 2,
    "started": ["MPI_Wait waits for a message of rank %d with tag 8 " + WORLD] * 2,
    "threads": ["MPI_Recv waits for a message of rank %d with tag 5 " + WORLD] * 2,
    "detach": ["MPI_Buffer_detach waits for rank %d to receive 80000 bytes with tag 0 " + WORLD] * 2,
    "any": ["MPI_Waitany waits for any of 2 requests: a message of rank %d with tag 0 " + WORLD + "; a message of rank %d with tag 1 "
            + WORLD] * 2,
    "all": ["MPI_Waitall waits for all of 5 requests: " + "; ".join("a message of rank %%d with tag %d %s" % (it, WORLD)
                                                                    for it in (0, 2, 3, 4)) + "; and 1 more"] * 2,
    "barrier": ["MPI_Barrier waits for the other ranks of MPI_COMM_WORLD", "MPI_Recv waits for a message of rank 0 with tag 1 " + WORLD],
    "broadcast": ["MPI_Bcast waits for the other ranks of MPI_COMM_WORLD (root 1)",
                  "MPI_Recv waits for a message of rank 0 with tag 1 " + WORLD],
    "split": ["MPI_Comm_dup waits for the other ranks of MPI_COMM_WORLD", "MPI_Recv waits for a message of rank 0 with tag 1 " + WORLD],
    "part": ["MPI_Recv waits for a message of rank %d with any tag in a communicator of 2 without a name, where it is rank 0",
             "MPI_Recv waits for a message of rank %d with any tag in a communicator of 2 without a name, where it is rank 1"],
    "named": ["MPI_Recv waits for a message of rank %d with any tag in 'turned?', where it is rank 0",
              "MPI_Recv waits for a message of rank %d with any tag in 'turned?', where it is rank 1"],
    # Communicators that a group makes alone, and intercommunicators.
    "group_entered": ["MPI_Recv waits for a message of rank 1 with tag 1 " + WORLD,
                      "MPI_Comm_create_group waits for rank 0 to enter it " + WORLD],
    "group_copied": ["MPI_Recv waits for a message of rank 1 with tag 1 " + WORLD, "MPI_Wait waits for rank 0 to enter it " + WORLD],
    "group_alone": ["MPI_Recv waits for a message of rank %%d with tag 2 in a communicator of 2 without a name, where it is rank %d" % it
                    for it in (1, 0)],
    "group_leader": ["MPI_Intercomm_create waits for rank 1 to enter it " + WORLD,
                     "MPI_Recv waits for a message of rank 0 with tag 1 " + WORLD],
    "group_paired": ["MPI_Recv waits for a message of rank %d with tag 2 in an intercommunicator of 1 and 1 without a name, where it is rank 0"]
    * 2,
    "group_entry": ["MPI_Barrier waits for rank 1 to enter it in 'pair'", "MPI_Recv waits for a message of rank 0 with tag 1 " + WORLD],
    # A rank that computes is ended at once, and says nothing.
    "computes": ["MPI_Finalize waits for the other ranks of MPI_COMM_WORLD", None],
}
# How rank 1 of three leaves, by the word: the status, and what is said.
WITHOUT = "rank 1: the program ended without MPI_Finalize"
LEAVING = {
    "return": (16, [WITHOUT, "mpirun: rank 1 ended with status 16; the other ranks are ended"]),
    "exit": (16, [WITHOUT, "mpirun: rank 1 ended with status 16; the other ranks are ended"]),
    "seven": (7, ["mpirun: rank 1 ended with status 7; the other ranks are ended"]),
    "abort": (134, ["mpirun: rank 1 was ended by signal 6 (aborted); the other ranks are ended"]),
    "MPI_Abort": (5, ["rank 1: MPI_Abort: code 5", "mpirun: rank 1 ended with status 5; the other ranks are ended"]),
}
# What two ranks leave undone, beside two messages of twelve that aren't told one by one.
SELF = "rank 0: MPI_Finalize: nobody received a message of rank 0 with tag 4 in MPI_COMM_SELF, where it is rank 0: 1 bytes"
LEFT = ["rank 0: MPI_Finalize: 2 more messages"] + 10 * [SELF] + [
    "rank 0: MPI_Finalize: no call ended this receive: a message of any rank with tag 3 in 'part'",
    "rank 0: MPI_Finalize: no call ended this receive: a message of rank 1 with tag 6 in MPI_COMM_WORLD",
    "rank 0: MPI_Finalize: no call ended this send: 40 bytes to rank 1 with tag 1 in MPI_COMM_WORLD",
    "rank 0: MPI_Finalize: no call ended this send: 4000 bytes to rank 1 with tag 2 in 'part', where it is rank 0",
    "rank 1: MPI_Finalize: nobody received a message of rank 0 with tag 1 in MPI_COMM_WORLD: 40 bytes",
    "rank 1: MPI_Finalize: nobody received a message of rank 0 with tag 2 in 'part', where it is rank 1: 4000 bytes",
]
# What rank 1 of two is told, errors being fatal, by whichever call ends a collective that rank 0 entered with less: status, line.
SHORT = "the block of rank 0 has 4 bytes, and 40 are wanted (1)"
DIFFERING = {it: (2, "MPI_%s: %s" % (it, SHORT)) for it in ("Wait", "Test", "Waitany", "Request_get_status", "Request_free")}
DIFFERING.update({it: (19, "MPI_%s: request 0 of 1: %s" % (it, SHORT)) for it in ("Waitall", "Testsome")})
DIFFERING["Request_free_receive"] = (15, "MPI_Request_free: a message of 40 bytes from rank 0 with tag 1 is longer than its receive of "
                                         "4 bytes")
KEPT = ("crash", "kill", "abort", "error")
# How rank 1 of three ends before MPI_Init, by the word, and with which words of mpirun: the status, and what is said.
NEVER = "rank 0: rank 1 has ended before MPI_Init; all others wait, and nothing has moved for 1 s; the job ends"
UNBEGUN = {
    ("never",): (16, [NEVER, "mpirun: rank 0 ended with status 16; the other ranks are ended"]),
    ("lacks",): (3, ["mpirun: rank 1 ended with status 3; the other ranks are ended"]),
    ("lacks", "-keep-going"): (3, [NEVER, "mpirun: rank 0 ended with status 16", "mpirun: rank 1 ended with status 3",
                                   "mpirun: rank 2 ended with status 16"]),
    ("help",): (0, []),
}
# What rank 0 says behind a second without any movement, where no patience was told: on a slow machine before an interrupt, too.
STANDS = "rank 0: all ranks wait, and nothing has moved for 1 s; Ctrl-C ends the job and tells what each waits for"
# What stands behind it that a rank is gone.
GONE = "all others wait, and nothing has moved for 1 s; Ctrl-C ends the job and tells what each waits for"


def is_wait(line):
    """Whether a rank says by this line what it waits for."""
    return re.match(r"rank \d+: MPI_\w+ waits for ", line) is not None


def without_source(line):
    """The same without the line of the source, which is there where it could be found within a moment."""
    return re.sub(r" \(\w+\.c:\d+\)", "", line)


def without_standstill(text):
    return [it for it in text.splitlines() if it != STANDS]


def waits_and_others(lines):
    """Of lines that mpirun -prefix printed: what ranks say that they wait for, without more, and the others."""
    lines = [it for it in lines if not it.endswith(STANDS)]
    waits = [it for it in lines if is_wait(it.partition(" ")[2])]
    return [without_source(it).partition("; gave up ")[0] for it in waits], [it for it in lines if it not in waits]


def wanted_lines(lines):
    """What the ranks say, each of the other one."""
    return ["rank %d: %s" % (rank, it.replace("%d", str(1 - rank))) for rank, it in enumerate(lines) if it]


def await_end_of_all(program):
    """Waits until no rank of an earlier job runs this program any more, at most some seconds: mpirun comes back before they have ended."""
    until = time.monotonic() + 10
    while names_of_files(program) and time.monotonic() < until:
        time.sleep(0.05)


def is_running(process):
    """Whether a process is there, and hasn't ended."""
    try:
        return (Path("/proc") / str(process) / "stat").read_text().rpartition(")")[2].split()[0] not in "ZX"
    except OSError:
        return False


def is_below(process, other):
    """Whether a process was started by another one, or by one that was."""
    while process not in (0, other):
        process = int((Path("/proc") / str(process) / "stat").read_text().rpartition(")")[2].split()[1])
    return process == other


def names_of_files(program, launcher=None):
    """The files in memory that the processes of a program have open: all of them, or those that a launcher started."""
    names = []
    for folder in Path("/proc").glob("[0-9]*"):
        try:
            if os.readlink(folder / "exe") == str(Path(program).resolve()) and (launcher is None or is_below(int(folder.name), launcher)):
                names += [os.readlink(it) for it in (folder / "fd").iterdir()]
        except OSError:   # it has ended, or isn't ours
            continue
    return [it for it in names if it.startswith("/dev/shm/kombazily-")]


def read_until(file, is_enough, most=4096):
    """What comes from a terminal or a pipe, so many bytes at a time, until it is enough, or for some seconds."""
    return read_within(file, is_enough, 20, most)


def read_within(file, is_enough, seconds, most=4096):
    """The same for so many seconds."""
    found, until = b"", time.monotonic() + seconds
    while not is_enough(found) and time.monotonic() < until:
        if select.select([file], [], [], 0.1)[0]:
            try:
                more = file.read(most)
            except OSError:   # nobody writes to the terminal any more
                break
            if not more:
                break
            found += more
    return found


class Ends:
    """The rows, with the programs of a library."""

    def __init__(self, mode, library, mpirun, verdict, longest=LONGEST):
        self.mode, self.library, self.mpirun, self.verdict, self.longest = mode, library, mpirun, verdict, longest

    def add(self, name, is_so, found):
        self.verdict.add("%s: %s" % (self.mode, name), None if is_so else str(found)[-900:])

    def words(self, size, program, *words, options=()):
        return [str(it) for it in (self.mpirun, *options, "-n", size, self.library.program(program), *words)]

    def run(self, size, program, *words, options=(), **variables):
        """Status, and the lines of both streams; status None where it took too long."""
        words = self.words(size, program, *words, options=options)
        how = {"stdin": subprocess.DEVNULL, "capture_output": True, "text": True, "timeout": self.longest}
        try:
            told = subprocess.run(words, env={**os.environ, **variables}, **how)
        except subprocess.TimeoutExpired:
            return None, [], []
        return told.returncode, told.stdout.splitlines(), without_standstill(told.stderr)

    def lines(self):
        """Each line is seen when it is printed: the times are those behind it until the end."""
        for size, word, wanted in ((2, "lines", ["one 1", "two", "three"]), (1, "before", ["before", "one 1", "two", "three"])):
            with subprocess.Popen(self.words(size, "speaks", word), stdout=subprocess.PIPE, text=True) as ran:
                seen = [(it.strip(), time.monotonic()) for it in ran.stdout]
            left = [time.monotonic() - at for _, at in seen][-3:]
            is_live = [it for it, _ in seen] == wanted and left[0] > 2.4 and left[1] > 1.4 and left[2] > 0.4
            self.add("%s are seen as they are printed" % word, is_live, (seen, left))

    def prompts(self):
        """The beginning of a line is there before its answer is given, under mpirun too; and what the program said of its room holds."""
        for word in ("prompt", "quiet_prompt"):
            pipes = {"stdin": subprocess.PIPE, "stdout": subprocess.PIPE, "bufsize": 0}
            with subprocess.Popen([str(self.library.program("speaks")), word], **pipes) as ran:
                prompt = read_until(ran.stdout, lambda it: it == b"n: ", 3)
                rest = ran.communicate(b"42\n", LONGEST)[0]
            self.add("a %s is seen before its answer" % word, (prompt, rest) == (b"n: ", b"rank 0 has 42\n"), (prompt, rest))
            with subprocess.Popen(self.words(2, "speaks", word), **pipes) as ran:
                prompt = read_until(ran.stdout, lambda it: it == b"n: ", 3)
                rest = sorted(ran.communicate(b"42\n", LONGEST)[0].splitlines())
            is_so = (prompt, rest) == (b"n: ", [b"rank 0 has 42", b"rank 1 has 42"])
            self.add("a %s under mpirun" % word, is_so, (prompt, rest))
        with subprocess.Popen([str(self.library.program("speaks")), "dots"], stdout=subprocess.PIPE, bufsize=0) as ran:
            began = (read_until(ran.stdout, lambda it: len(it) == 2, 1), time.monotonic())
            rest = ran.communicate(timeout=LONGEST)[0]
            took = time.monotonic() - began[1]
        self.add("dots are seen that the program lets out at once", (began[0], rest) == (b"..", b"done\n") and took > 0.7, (began, rest))

    def kept(self):
        """What was printed isn't lost where a rank is ended."""
        for word in KEPT:
            _, output, errors = self.run(3, "speaks", word)
            self.add("lines stay behind %s" % word, sorted(output) == ["line of %d" % it for it in range(3)], (output, errors))

    def leaving(self):
        for word, (status, said) in LEAVING.items():
            found = self.run(3, "leaves", word)
            is_so = (found[0], found[1], sorted(found[2])) == (status, ["rank 1 leaves"], sorted(said))
            self.add("rank 1 leaves by %s" % word, is_so, found)
        found = self.run(2, "leaves", "child")
        self.add("a child isn't the rank", found == (0, ["rank 1 leaves", "the child's status is 0"], []), found)
        found = self.run(1, "leaves", "return")
        self.add("a job of one rank leaves nobody waiting", found == (0, ["rank 1 leaves"], []), found)

    def differing(self):
        for word, (status, said) in DIFFERING.items():
            found = self.run(2, "differs", word)
            wanted = ["mpirun: rank 1 ended with status %d; the other ranks are ended" % status, "rank 1: " + said]
            is_so = (found[0], found[1], sorted(map(without_source, found[2]))) == (status, [], wanted)
            self.add("a collective whose members differ, by " + word, is_so, found)

    def unbegun(self):
        """A rank that ends before MPI_Init isn't waited for, unless it is all of them that do. Of those that wait any may end first."""
        for (word, *options), (status, said) in UNBEGUN.items():
            found = self.run(3, "leaves", word, options=options)
            told = [re.sub("rank 2 ended with status 16;", "rank 0 ended with status 16;", it) for it in found[2]]
            is_so = (found[0], found[1], sorted(told)) == (status, [], sorted(said))
            self.add("rank 1 ends before MPI_Init: %s" % " ".join((word, *options)), is_so, found)

    def by_hand(self, program, *words, **variables):
        """Two ranks that are started without a launcher, with a patience: their statuses."""
        with ports.of_job(2) as port:
            place = {"KOMBAZILY_SIZE": "2", "KOMBAZILY_INCARNATION": "0", "KOMBAZILY_JOB": "7", "KOMBAZILY_PORT": str(port),
                     "KOMBAZILY_PATIENCE": "700", **variables}
            ran = [subprocess.Popen([str(self.library.program(program)), *words], stdin=subprocess.DEVNULL, stdout=subprocess.DEVNULL,
                                    stderr=subprocess.DEVNULL, env={**os.environ, **place, "KOMBAZILY_RANK": str(it)}) for it in range(2)]
            return [it.wait(LONGEST) for it in ran]

    def foreign(self):
        """A file that no launcher made is left as it is."""
        with tempfile.NamedTemporaryFile() as file:
            file.write(b"hi")
            file.flush()
            found = self.by_hand("stuck", "receive", KOMBAZILY_STANDSTILL=file.name)
            left = Path(file.name).read_bytes()
        self.add("a file of the user is left as it is", (found, left) == ([4, 4], b"hi"), (found, left))
        variables = {**os.environ, "KOMBAZILY_EXPLORER": "7"}
        told = subprocess.run([str(self.library.program("stuck"))], stdin=subprocess.DEVNULL, capture_output=True, text=True, env=variables)
        wanted = "MPI_Init: its place is told wrongly: KOMBAZILY_EXPLORER=7 is no socket of an explorer\n"
        self.add("an explorer that isn't there is told", (told.returncode, told.stderr) == (125, wanted), (told.returncode, told.stderr))

    def doors(self):
        """Whoever has the port of a rank that hasn't begun hears nothing, and so doesn't learn the job's number."""
        for options in ((), ("-patience", "20000")):
            with ports.of_job(2) as port, socket.socket(socket.AF_INET, socket.SOCK_DGRAM) as other:
                other.bind(("127.0.0.1", port + 1))
                words = self.words(2, "begins", "later", options=("-baseport", port, *options))
                with subprocess.Popen(words, stdin=subprocess.DEVNULL, stdout=subprocess.PIPE, stderr=subprocess.STDOUT, text=True) as ran:
                    heard = select.select([other], [], [], 2.5)[0]
                    other.close()
                    found = (ran.communicate(timeout=LONGEST)[0], ran.returncode)
            is_so = not heard and found == ("it came soon\n", 0)
            self.add("a port hears nothing before its rank has it%s" % "".join(" " + it for it in options), is_so, (heard, found))

    def keeper(self):
        """A rank doesn't outlive the keeper that started it, here a shell, which is killed once the rank has begun or before."""
        for rank, (program, *words) in enumerate((("stuck", "receive"), ("begins",))):
            with ports.of_job(2) as port:
                place = {"KOMBAZILY_SIZE": "2", "KOMBAZILY_INCARNATION": "0", "KOMBAZILY_JOB": "7", "KOMBAZILY_PORT": str(port),
                         "KOMBAZILY_RANK": str(rank)}
                starts = ["sh", "-c", 'KOMBAZILY_KEEPER=$$ "$@" & echo $!; wait', "sh", str(self.library.program(program)), *words]
                pipes = {"stdin": subprocess.DEVNULL, "stdout": subprocess.PIPE, "text": True}
                with subprocess.Popen(starts, env={**os.environ, **place}, **pipes) as ran:
                    own = int(ran.stdout.readline())
                    begun = ran.stdout.readline() if rank == 0 else "rank 1 sleeps"
                    ran.kill()
                    ran.stdout.close()
                    ran.wait()
                    until = time.monotonic() + 5
                    while is_running(own) and time.monotonic() < until:
                        time.sleep(0.05)
                    lives = is_running(own)
                    if lives:
                        os.kill(own, signal.SIGKILL)
            self.add("a rank doesn't outlive its keeper: %s" % program, begun and not lives, (begun, lives))

    def interrupted(self, word, options=()):
        """What the ranks of a program say that is interrupted once they wait."""
        with subprocess.Popen(self.words(2, "stuck", word, options=options), stdin=subprocess.DEVNULL, stdout=subprocess.PIPE,
                              stderr=subprocess.PIPE, text=True) as ran:
            begun = sorted(ran.stdout.readline() for _ in range(2))
            time.sleep(BEGUN)
            ran.send_signal(signal.SIGINT)
            output, errors = ran.communicate(timeout=LONGEST)
        return begun == ["rank 0 begins\n", "rank 1 begins\n"] and not output, without_standstill(errors)

    def terminal(self):
        """The same at Ctrl-C on a terminal; what was printed is there before."""
        master, slave = pty.openpty()
        ran = subprocess.Popen(self.words(2, "stuck", "receive"), stdin=slave, stdout=slave, stderr=slave, start_new_session=True,
                               preexec_fn=lambda: fcntl.ioctl(0, termios.TIOCSCTTY, 0))
        os.close(slave)
        with open(master, "rb", buffering=0) as screen:
            before = read_until(screen, lambda it: it.count(b"begins") == 2)
            time.sleep(BEGUN)
            os.write(master, b"\x03")
            after = read_until(screen, lambda it: it.count(b"MPI_Recv waits for ") == 2 and it.endswith(b"\n"))
            ran.wait(LONGEST)
        waits = sorted(without_source(it) for it in after.decode().splitlines() if is_wait(it))
        self.add("Ctrl-C on a terminal", waits == wanted_lines(STUCK["receive"]), (before, after))

    def stuck(self, name):
        """At an interrupt each rank that waits says what for."""
        is_so, errors = self.interrupted(name)
        waits = sorted(without_source(it) for it in errors if is_wait(it))
        self.add("a wait is told: " + name, is_so and waits == wanted_lines(STUCK[name]), errors)

    def patience(self):
        """Who loses patience first says so, and the others what they wait for."""
        status, _, errors = self.run(2, "stuck", "receive", options=("-patience", "700"))
        waits = sorted(without_source(it) for it in errors if is_wait(it))
        gave_up = [it.replace("; gave up after 700 ms", "") for it in waits]
        self.add("patience", status == 4 and gave_up != waits and gave_up == wanted_lines(STUCK["receive"]), (status, errors))


    def left(self):
        """What is left undone is told where that is asked for; the status is that of the program."""
        for wanted, said in (("1", sorted(LEFT)), ("0", [])):
            status, _, errors = self.run(2, "leaks", KOMBAZILY_CHECK=wanted)
            found = sorted(map(without_source, errors))
            self.add("what is left with KOMBAZILY_CHECK=%s" % wanted, (status, found) == (0, said), (status, errors))

    def misused(self):
        """Buffers that are used while an operation has them are told where that is asked for, with the lines where they can be had."""
        for wanted, words in (("1", ()), ("1", ("right",)), ("0", ())):
            status, _, errors = self.run(2, "misuses", *words, KOMBAZILY_CHECK=wanted)
            said = sorted(MISUSED) if wanted == "1" and not words else []
            told = sorted(re.sub(r" \(\w+\.c:\d+\)", "", it) for it in errors if it.startswith("rank 0: MPI_"))
            # Where memory is gone, a run that isn't checked may end by a signal.
            is_so = (status == 0 or wanted == "0") and told == said
            self.add("misused buffers with KOMBAZILY_CHECK=" + " ".join((wanted, *words)), is_so, (status, errors))

    def standstill(self):
        """With a patience of all: rank 0 tells once that all wait, and they give up; while one computes nobody does."""
        status, _, errors = self.run(2, "stuck", "receive", options=("-patience", "1500"), KOMBAZILY_TOGETHER="1")
        told = "rank 0: all ranks wait, and nothing has moved for 1 s: after 1500 ms they give up (-patience MS)"
        waits = sorted(without_source(it).split(";")[0] for it in errors if is_wait(it))
        is_so = status == 4 and errors.count(told) == 1 and waits == wanted_lines(STUCK["receive"])
        self.add("a standstill", is_so, (status, errors))
        found = self.run(3, "speaks", "lines", options=("-patience", "700"), KOMBAZILY_TOGETHER="1")
        self.add("no standstill while a rank computes", found == (0, ["one 1", "two", "three"], []), found)

    def hang(self, word, seconds, starter=()):
        """What two ranks tell in so many seconds before they are interrupted, and the files in memory that they have open."""
        words = self.words(2, "stuck", word)
        words[-2:-2] = starter
        await_end_of_all(self.library.program("stuck"))
        with subprocess.Popen(words, stdin=subprocess.DEVNULL, stdout=subprocess.DEVNULL, stderr=subprocess.PIPE, bufsize=0) as ran:
            told = read_within(ran.stderr, lambda it: it.endswith(b"\n"), seconds)
            names = names_of_files(self.library.program("stuck"), ran.pid)
            ran.send_signal(signal.SIGINT)
            rest = ran.communicate(timeout=LONGEST)[1]
        return told.decode().splitlines(), names, rest.decode().splitlines()

    def hangs(self):
        """Where no patience was told rank 0 says once that all wait; the file by which it knows has no name."""
        told, names, rest = self.hang("receive", 20)
        waits = sorted(without_source(it) for it in rest if is_wait(it))
        is_so = told == [STANDS] and STANDS not in rest and waits == wanted_lines(STUCK["receive"])
        self.add("a job that hangs says so", is_so, (told, rest))
        self.add("the file of a standstill has no name", len(names) == 2 and all(it.endswith(" (deleted)") for it in names), names)
        told, names, _ = self.hang("receive", 20, ("sh", "-c", '[ $KOMBAZILY_RANK != 0 ] || sleep 1; exec "$@"', "sh"))
        is_so = told == [STANDS] and len(names) == 2 and all(it.endswith(" (deleted)") for it in names)
        self.add("nor where rank 0 comes last", is_so, (told, names))
        for word, gone in (("quits", 1), ("quits_first", 0)):
            told, _, rest = self.hang(word, 20)
            wanted = "rank %d: rank %d has ended without MPI_Finalize; %s" % (1 - gone, gone, GONE)
            self.add("a rank that is gone without a word", told == [wanted], (told, rest))
        told, _, rest = self.hang("computes", 3)
        self.add("while a rank computes nobody says so", told == [] and STANDS not in rest, (told, rest))

    def beginning(self):
        """The first message comes at once to a rank that begins late, though its sender is in no call behind it."""
        found = self.run(2, "begins")
        self.add("the first message comes to a rank that begins late", found == (0, ["it came soon"], []), found)
        found = self.run(2, "begins", options=("-patience", "10000"))
        self.add("the same with a patience", found == (0, ["it came soon"], []), found)

    def synchronous(self):
        """With every send synchronous two that send first wait for one another, which else go on."""
        found = self.run(2, "stuck", "small_send", options=("-patience", "700"))
        self.add("small sends go on", (found[0], found[2]) == (0, []), found)
        status, _, errors = self.run(2, "stuck", "small_send", options=("-patience", "700"), KOMBAZILY_SYNCHRONOUS="1")
        waits = sorted(without_source(it).split(";")[0] for it in errors if is_wait(it))
        wanted = wanted_lines(["MPI_Send waits for rank %d to receive 4 bytes with tag 0 " + WORLD] * 2)
        self.add("with every send synchronous they wait", (status, waits) == (4, wanted), (status, errors))

    def bounded(self):
        """How much may wait unasked is a number of bytes, or none."""
        status, _, errors = self.run(2, "stuck", "small_send", KOMBAZILY_UNASKED="4k")
        wanted = ["rank %d: MPI_Init: its place is told wrongly: KOMBAZILY_UNASKED is neither a number of bytes nor none" % it
                  for it in range(2)]
        told = [it for it in errors if not it.startswith("mpirun: ")]
        self.add("a bound that is no number", status == 2 and told and set(told) <= set(wanted), (status, errors))
        for bound, ended in (("none", 0), ("0", 4)):
            status, _, errors = self.run(2, "stuck", "small_send", options=("-patience", "700"), KOMBAZILY_UNASKED=bound)
            self.add("a bound of %s" % bound, status == ended, (status, errors))

    def too_early(self):
        """A call before MPI_Init names the rank that made it."""
        found = self.run(2, "leaves", "early", options=("-keep-going",))
        said = sorted(it for it in found[2] if not it.startswith("mpirun: "))
        wanted = ["rank %d: MPI_Comm_rank: called before MPI_Init" % it for it in range(2)]
        self.add("a call that comes too early", (found[0], said) == (16, wanted), found)

    def source(self):
        """The line of the source is told, where addr2line is there: on a busy machine at some time."""
        tries = range(5 if shutil.which("addr2line") else 0)
        found = next((it for it in tries if any(" (stuck.c:" in line for line in self.interrupted("receive")[1])), None)
        self.add("a wait is told with its line", found is not None or not tries, "five times without")
        lines = (TESTS / "ends" / "leaks.c").read_text().splitlines()
        start = " (leaks.c:%d)" % next(number for number, line in enumerate(lines, 1) if "MPI_Start(" in line)
        found = next((it for it in tries if any(start in line for line in self.run(2, "leaks", KOMBAZILY_CHECK="1")[2])), None)
        self.add("what was begun again is told with the line of its start", found is not None or not tries, "five times without")


    def under(self, checker):
        """Under a checker, which has a status of its own where it finds something."""
        for word, name in ((("leaks",), "leaks"), (("stuck", "all"), "a wait")):
            words = [self.mpirun, "-patience", "3000", "-n", "2", *checker, self.library.program(word[0]), *word[1:]]
            told = subprocess.run([str(it) for it in words], stdin=subprocess.DEVNULL, capture_output=True, text=True, timeout=3 * LONGEST,
                                  env={**os.environ, "KOMBAZILY_CHECK": "1"})
            self.add(name, told.returncode == (4 if word[1:] else 0) and "==" not in told.stderr, (told.returncode, told.stderr))


class Found:
    """Which rows weren't right."""

    def __init__(self):
        self.wrong = []

    def add(self, name, fault=None):
        self.wrong += [name] if fault is not None else []


def tells(library, mpirun, names, longest):
    """Whether each of these rows, as `kept` or `stuck:part`, tells that the library is wrong."""
    for name in names:
        found = Found()
        row, _, word = name.partition(":")
        getattr(Ends("faults", library, mpirun, found, longest), row)(*filter(None, [word]))
        if not found.wrong:
            return False
    return True


def all_rows(mode, library, mpirun, verdict, side_by_side):
    it = Ends(mode, library, mpirun, verdict)
    rows = [it.lines, it.beginning, it.standstill, it.hangs, it.prompts, it.kept, it.leaving, it.differing, it.patience, it.left,
            it.misused, it.synchronous, it.bounded, it.too_early, it.terminal, it.source, it.unbegun, it.foreign, it.doors, it.keeper]
    side_by_side(lambda row: row(), rows)
    side_by_side(it.stuck, list(STUCK))
