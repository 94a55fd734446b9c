"""Programs of other MPIs under the explorer: their runs are recorded, and the records explored.

A library that is preloaded (bindings/record/src) writes what each rank calls. A player (bindings/record/player), linked with this library,
makes the same calls again, and kombazily-check explores it as any program. What another order of matching may bring is looked for in the
calls that were recorded, and the program is then run again, steered to it. docs/CHECKING.md says what that finds.
"""

import hashlib
import os
import re
import shlex
import shutil
import signal
import struct
import subprocess
import tempfile
import time
from pathlib import Path

import c_programs
import programs

# Tests name other sources, which are wrong.
FOLDER = Path(os.environ.get("KOMBAZILY_RECORD_SOURCES") or programs.TOP / "bindings" / "record")
OUT = programs.TOP / "out" / "record" if FOLDER == programs.TOP / "bindings" / "record" else FOLDER / "out"
PLAYER = "kombazily-play"
MATCH, SEE = 1, 2
OPEN, RUN_ENDED = "open", "the run ended there"
NOT_SURE = r"  (rank \d+ (waits|asks for ever|is in MPI_Finalize)|what was recorded of rank )"
WORTH_KNOWING = r".*(ended with a communicator never freed|ended with \d+ (types?|persistent requests?) never freed|is not tried both ways)"
WITH_WAITS = "with sends and collectives that wait"
# What the explorer says where some sends were longer than is buffered.
HINT = "sends of more than "
CLEAN, FOUND, WORDS, START = 0, 1, 2, 6
# How far the calls of the first run are explored in other orders: what is found there is run first.
MOST_OTHERWISE, SECONDS_OTHERWISE = 100, 5


class Fault(Exception):
    """Why nothing is recorded: with the status."""

    def __init__(self, status, text):
        super().__init__(text)
        self.status = status


# ---- by which MPI a program runs ----

def needed(file):
    """The libraries that a program asks for when it is started; none where it is no program of this kind."""
    try:
        data = Path(file).read_bytes()
    except OSError:
        return []
    if data[:6] != b"\x7fELF\x02\x01":
        return []
    start, = struct.unpack_from("<Q", data, 32)
    size, count = struct.unpack_from("<HH", data, 54)
    parts = [struct.unpack_from("<IIQQQQQQ", data, start + size * i) for i in range(count)]
    loaded = [(it[3], it[5], it[2]) for it in parts if it[0] == 1]
    for kind, _, at, _, _, length, _, _ in parts:
        if kind == 2:
            tags = [struct.unpack_from("<qQ", data, at + 16 * i) for i in range(length // 16)]
            texts = [it[1] for it in tags if it[0] == 5]
            base = next((texts[0] - it[0] + it[2] for it in loaded if texts and it[0] <= texts[0] < it[0] + it[1]), None)
            return [] if base is None else [text_at(data, base + value) for tag, value in tags if tag == 1]
    return []


def text_at(data, at):
    return data[at:data.index(b"\0", at)].decode(errors="replace")


class Kind:
    """An MPI of other people: its name, how its library is named, its compilers and what starts its ranks."""

    def __init__(self, name, library, compilers, launchers, options=()):
        self.name, self.library, self.compilers, self.launchers, self.options = name, library, compilers, launchers, options


MPICH = Kind("MPICH", r"libmpich\.so|libmpi\.so\.1[0-9]$", ("mpicc.mpich", "mpicc"), ("mpiexec.hydra", "mpiexec.mpich", "mpiexec"))
OPEN_MPI = Kind("Open MPI", r"libmpi\.so\.[2-9]", ("mpicc.openmpi", "mpicc"), ("mpirun.openmpi", "mpiexec.openmpi", "mpirun"),
                ("--oversubscribe",))


def kind_of(file):
    """The MPI of other people by which a program runs, and its library; (None, None): it is none of these."""
    for library in needed(file):
        for kind in (MPICH, OPEN_MPI):
            if re.match(kind.library, library):
                return kind, library
    return None, None


def refuse_static(file):
    """Says so where a program has such an MPI within itself."""
    try:
        data = Path(file).read_bytes()
    except OSError:
        return
    if data[:4] != b"\x7fELF" or b"KOMBAZILY_EXPLORER" in data or b"PMPI_Init" not in data:
        return
    for name in (MPICH.name, OPEN_MPI.name):
        if name.encode() in data:
            raise Fault(START, "%s has %s within itself, so nothing can be preloaded: link it with the shared library" % (file, name))


# ---- the recorder and the player ----

def cache():
    return Path(os.environ.get("XDG_CACHE_HOME") or Path.home() / ".cache") / "kombazily"


def sum_of(parts):
    return hashlib.sha256("\0".join(str(it) for it in parts).encode()).hexdigest()[:16]


def recorder(kind, library, compiler, say):
    """The library that is preloaded, made by the compiler of the MPI at hand, once."""
    sources = sorted((FOLDER / "src").iterdir())
    for command in [compiler] if compiler else kind.compilers:
        found = shutil.which(command)
        if found is None:
            continue
        mark = sum_of([os.path.realpath(found), os.stat(found).st_mtime_ns, library, *(it.read_text() for it in sources)])
        made = cache() / ("recorder-" + mark) / "librecord.so"
        if not made.is_file():
            say("the recorder is made by %s, once: %s" % (command, made))
            make_recorder(found, made)
        if library in needed(made):
            return made
    raise Fault(START, "no compiler of the MPI that has %s: --mpicc COMMAND names it, and the recorder is made by it" % library)


def make_recorder(compiler, into):
    into.parent.mkdir(parents=True, exist_ok=True)
    with tempfile.TemporaryDirectory(dir=into.parent) as room:
        command = ["make", "-s", "-C", FOLDER, "recorder", "MPICC=" + compiler, "OUT=" + room]
        done = subprocess.run(command, stdin=subprocess.DEVNULL, stdout=subprocess.PIPE, stderr=subprocess.STDOUT, text=True)
        if done.returncode != 0:
            raise Fault(START, "the recorder isn't made:\n" + done.stdout)
        os.replace(Path(room) / "librecord.so", into)


def player():
    """The player of records, of a release or made current."""
    if programs.RELEASED:
        return programs.TOP / PLAYER
    return make_player(OUT)


def make_player(out, flags=None, library=c_programs.OUT):
    """Makes the player current, over the library for C programs."""
    command = ["make", "-s", "-C", FOLDER, "player", "OUT=" + os.path.relpath(out, FOLDER),
               "LIBRARY=" + os.path.relpath(library, FOLDER)]
    with c_programs.alone(out):
        done = subprocess.run(command + (["CFLAGS=" + flags] if flags else []), stdin=subprocess.DEVNULL, stdout=subprocess.PIPE,
                              stderr=subprocess.STDOUT, text=True)
    if done.returncode != 0:
        raise Fault(START, "the player of records isn't made:\n" + done.stdout)
    return out / PLAYER


# ---- words ----

class Words:
    """What was asked for."""

    # Of another MPI's standard sends those of up to 64 KiB are taken to be buffered.
    NUMBERS = {"-n": 2, "--most": 1000, "--seconds": 60, "--patience": 10, "--results": 10, "--runs": 20, "--buffered": 65536}
    TEXTS = ("--records", "--mpiexec", "--mpicc", "--stdin", "--html")
    PASSES = ("--both", "--only-buffered", "--synchronous", "--each")
    FLAGS = (*PASSES, "--output", "--quiet", "--fork", "--go-on", "--count")

    def __init__(self, words):
        self.numbers, self.texts, self.flags = dict(self.NUMBERS), {}, set()
        rest = list(words)
        while rest and rest[0].startswith("-"):
            word = rest.pop(0)
            if word in self.FLAGS:
                self.flags.add(word)
            elif word not in self.NUMBERS and word not in self.TEXTS:
                raise Fault(WORDS, "%s isn't for programs of other MPIs (docs/CHECKING.md)" % word)
            elif not rest:
                raise Fault(WORDS, "something has to stand behind " + word)
            elif word in self.TEXTS:
                self.texts[word] = rest.pop(0)
            else:
                self.numbers[word] = self.number(rest.pop(0))
        if {"--synchronous", "--each"} <= self.flags:
            raise Fault(WORDS, "--synchronous and --each: a send waits always, or by a choice; one of them")
        if "--only-buffered" in self.flags and len(self.flags & set(self.PASSES)) > 1:
            raise Fault(WORDS, "--only-buffered is a pass of its own: no other one stands beside it")
        if not 1 <= self.numbers["-n"] <= 64:
            raise Fault(WORDS, "1 to 64 ranks")
        self.program, self.arguments = rest[0], rest[1:]
        self.size = int(self.numbers["-n"])

    @staticmethod
    def number(text):
        if not re.fullmatch(r"\d+(\.\d+)?", text):
            raise Fault(WORDS, "no such number: " + text)
        return float(text)

    def passes(self):
        """Words of kombazily-check for the calls as they were matched in the run: it makes both passes, unless one is asked for."""
        return [it for it in self.PASSES if it in self.flags]


OWN_TEXTS = {"--stdin", "--html", "--replay", "--out", "--format", "--sarif", "--junit"}
TAKE_ONE = OWN_TEXTS | {"--debug", "--random", "--noes", "--mix"} | set(Words.NUMBERS) | set(Words.TEXTS)


def place_of_program(words):
    """The place of the program among the words of `check`, or how many there are."""
    at = 0
    while at < len(words) and words[at].startswith("-"):
        at += 2 if words[at] in TAKE_ONE else 1
    return min(at, len(words))


def program_of(words):
    """The program among the words of `check`, or None."""
    rest = words[place_of_program(words):]
    if not rest:
        return None
    return rest[0] if "/" in rest[0] or os.access(rest[0], os.X_OK) else shutil.which(rest[0]) or rest[0]


# ---- records ----

class Record:
    """What was recorded of a run: what each choice took, by rank and number; what lacks; where each rank stands."""

    def __init__(self, folder, size):
        self.folder, self.took, self.lacks, self.errors, self.open, self.ranks = folder, {}, {}, [], [], 0
        for rank in range(size):
            try:
                data = (folder / ("rank.%d" % rank)).read_bytes()
            except OSError:
                continue
            self.ranks += 1
            lines = data[:data.rfind(b"\n") + 1].decode(errors="replace").splitlines()
            self.read(rank, [it.split(" ") for it in lines if it])

    def read(self, rank, lines):
        places, names, call, ended, in_call = {}, {}, None, False, 0
        for words in lines:
            what = words[0]
            if what == "place":
                places[words[1]] = words[2:]
            elif what == "call":
                call, ended, in_call = (words[2], places.get(words[1], [])), False, 0
            elif what == "recv":
                in_call = int(words[6])
            elif what == "irecv":
                names[words[1]] = int(words[7])
            elif what == "took":
                choice = in_call if words[1] == "0" else names.get(words[1], 0)
                if choice:
                    self.took[rank, choice] = int(words[2]) if words[2].isdecimal() else -1
            elif what == "saw":
                self.took[rank, int(words[1])] = int(words[2]) if words[2].isdecimal() else -1
            elif what == "lacks":
                self.lacks.setdefault(" ".join(words[1:]), set()).add(rank)
            elif what == "threads":
                self.lacks.setdefault("which thread makes a call (MPI_THREAD_MULTIPLE)", set()).add(rank)
            elif what == "error":
                self.errors.append((rank, words[1], call))
            ended = ended or what == "end"
        if not ended and call is not None:
            self.open.append((rank, call))

    def follows(self, schedule):
        return all(self.took.get(key) == source for key, source in schedule.items())


class Run:
    """A recorded run: as it came, or steered to what a schedule names for some choices."""

    def __init__(self, number, schedule, words):
        self.number, self.schedule, self.words = number, schedule, words
        self.status, self.output, self.record, self.silence = None, "", None, 0.0

    def has_hung(self):
        return self.status is None

    def ending(self):
        return "no rank made a new call for %.1f s, and it was ended" % self.silence if self.has_hung() else "ended with status %d" % self.status


class Launcher:
    """Runs the program under its own MPI, recorded."""

    def __init__(self, kind, library, words, room, say):
        self.words, self.room = words, room
        self.library = recorder(kind, library, words.texts.get("--mpicc"), say)
        given = words.texts.get("--mpiexec")
        found = shlex.split(given) if given else [next((it for it in kind.launchers if shutil.which(it)), None), *kind.options]
        if found[0] is None or shutil.which(found[0]) is None:
            raise Fault(START, "nothing is found that starts ranks of %s: --mpiexec WORDS names it" % kind.name)
        self.start = found
        self.patience = words.numbers["--patience"]

    def run(self, run):
        folder = self.room / ("run%d" % run.number)
        folder.mkdir(parents=True, exist_ok=True)
        for old in folder.glob("rank.*"):
            old.unlink()
        steer = folder / "steer"
        steer.write_text("".join("%d %d %d\n" % (*key, source) for key, source in sorted(run.schedule.items())))
        command = [*self.start, "-n", str(self.words.size), "env", "LD_PRELOAD=%s" % self.library, "KOMBAZILY_RECORD=%s" % folder,
                   "KOMBAZILY_STEER=%s" % steer, self.words.program, *self.words.arguments]
        began = time.monotonic()
        with open(self.words.texts.get("--stdin", os.devnull), "rb") as given, open(folder / "output", "wb") as out:
            child = subprocess.Popen(command, stdin=given, stdout=out, stderr=subprocess.STDOUT, start_new_session=True)
            run.status, run.silence = self.wait(child, folder), self.patience
        run.output = (folder / "output").read_text(errors="replace")
        run.record = Record(folder, self.words.size)
        if run.number == 1 and run.status is not None:
            self.patience = min(self.patience, 2 + 4 * (time.monotonic() - began))
        return run

    def wait(self, child, folder):
        """The status, or None: no rank made a new call for as long as patience lasts, and it was ended."""
        read, last = [0] * self.words.size, time.monotonic()
        while True:
            try:
                return child.wait(0.02)
            except subprocess.TimeoutExpired:
                pass
            now = time.monotonic()
            if self.have_grown(folder, read):
                last = now
            if now - last > self.patience:
                end(child)
                return None

    def have_grown(self, folder, read):
        grown = False
        for rank in range(self.words.size):
            try:
                with open(folder / ("rank.%d" % rank), "rb") as file:
                    file.seek(read[rank])
                    more = len(file.read(1 << 20).rstrip(b"\0"))
            except OSError:
                continue
            read[rank] += more
            grown = grown or more > 0
        return grown


def end(child):
    """Ends a job by its launcher, which ends its ranks."""
    for how in (signal.SIGTERM, signal.SIGKILL):
        try:
            os.killpg(child.pid, how)
            child.wait(5)
            return
        except subprocess.TimeoutExpired:
            continue
        except ProcessLookupError:
            child.wait()
            return


# ---- exploring a record ----

class Result:
    """A result that kombazily-check told: how it ended, what is told of it, and the matches that led there."""

    def __init__(self, waits, ending, number):
        self.waits, self.ending, self.number, self.lines, self.moves, self.words = waits, ending, number, [], [], []

    def is_faulty(self):
        return bool(self.sure())

    def sure(self):
        """What is wrong in a result. Where a record was over, it isn't known what its rank would have done for those that wait."""
        found = [it for it in self.lines if not re.match(WORTH_KNOWING, it)]
        return [it for it in found if not re.match(NOT_SURE, it)] if self.ending == OPEN else found

    def stands(self):
        """Where each rank stands, whatever it waits for there."""
        return [re.sub(r"(at \S+( \(\w+\))?).*", r"\1", it) for it in self.lines if it.startswith("  rank ")]

    def worth_knowing(self):
        return [it for it in self.lines if re.match(WORTH_KNOWING, it)]

    def key(self):
        return self.ending.split(" (")[0], tuple(self.sure())


class Explorer:
    """Explores records by kombazily-check."""

    def __init__(self, check, play, words):
        self.check, self.play, self.words, self.hint = check, play, words, None

    def needs(self, run):
        """The words that the player needs for all ranks of a record."""
        done = subprocess.run([self.play, "--look", run.record.folder], stdin=subprocess.DEVNULL, stdout=subprocess.PIPE, text=True)
        return done.stdout.split()

    def command(self, run, *words):
        cut = ["--go-on", "--fork", "--plays", self.words.program, "--most", str(int(self.words.numbers["--most"])),
               "--seconds", str(self.words.numbers["--seconds"] / 4), "--buffered", str(int(self.words.numbers["--buffered"]))]
        return [str(it) for it in (self.check, "-n", self.words.size, *cut, *words, self.play, *self.needs(run), run.record.folder)]

    def tell(self, run, words, pinned, out=None):
        command = self.command(run, *words, "--results", "100000", "--quiet", *(["--out", str(out)] if out else []))
        command[-1:-1] = self.as_in(run) if pinned else []
        done = subprocess.run(command, stdin=subprocess.DEVNULL, stdout=subprocess.PIPE, stderr=subprocess.STDOUT, text=True,
                              errors="replace")
        if done.returncode not in (CLEAN, FOUND):
            raise Fault(START, "the record of run %d isn't explored:\n%s" % (run.number, done.stdout[-2000:]))
        self.hint = next((it for it in done.stdout.splitlines() if it.startswith(HINT)), self.hint)
        return results_of(done.stdout)

    @staticmethod
    def as_in(run):
        """Words of the player: receives of any source take what they took; where one ended the run, what it was steered to."""
        return ["--pinned"] if run.has_hung() or run.status == 0 else ["--pinned", "--steered"]

    def as_it_was(self, run):
        """With each receive of any source as it was in the run: whether all was tried, and the results."""
        return self.tell(run, self.words.passes(), True)

    def otherwise(self, run):
        """In other orders, with the calls as they were: the results, with the matches of each."""
        with tempfile.TemporaryDirectory() as folder:
            _, results = self.tell(run, ["--only-buffered", "--most", MOST_OTHERWISE, "--seconds", SECONDS_OTHERWISE], False, folder)
            for it in results:
                read_moves(it, Path(folder) / ("choices%d.txt" % it.number))
        return results

    def can_hang(self, run, result):
        """Whether ranks can stand so where sends wait, and each receive of any source takes whoever comes."""
        _, results = self.tell(run, ["--synchronous"], False)
        return any(it.ending == result.ending and it.stands() == result.stands() for it in results)

    def others(self, run):
        """What each receive of any source might have taken in place of what it took: schedules, each with that in words."""
        with tempfile.TemporaryDirectory() as folder:
            followed = Path(folder) / "followed"
            followed.write_text("".join("%d %d %d\n" % (*key, source) for key, source in sorted(run.record.took.items())))
            self.tell(run, ["--follow", followed], False, folder)
            return read_others(Path(folder) / "choices1.txt")

    def write_page(self, run, file):
        command = self.command(run, *self.words.passes(), "--html", file)
        command[-1:-1] = self.as_in(run)
        subprocess.run(command, stdin=subprocess.DEVNULL, stdout=subprocess.DEVNULL)


def results_of(text):
    results, is_all, waits = [], True, False
    for line in text.splitlines():
        found = re.match(r"result (\d+) of \d+, in \d+ runs?: (.*)", line)
        if re.search(r"\d+ ranks?, \d+ runs?: ", line) and not line.startswith(" "):
            waits = line.startswith(WITH_WAITS)
            is_all = is_all and "every choice was tried" in line
        elif found:
            results.append(Result(waits, found[2], int(found[1])))
        elif line.startswith("  ") and results and not re.match(r"  +(it parts from result|and there: )", line):
            results[-1].lines.append(line)
    return is_all, results


def read_moves(result, file):
    """The matches that led to a result, in their order, and each in words."""
    for line in file.read_text().splitlines() if file.is_file() else []:
        words = line.split(" ")
        if words[0] in (str(MATCH), str(SEE)):
            result.moves.append(((int(words[1]), int(words[2])), int(words[3])))
            result.words.append(line.split("# ", 1)[-1])


def read_others(file):
    found, before, schedule = [], {}, {}
    for line in file.read_text().splitlines() if file.is_file() else []:
        words = line.removeprefix("or ").split(" ")
        if words[0] not in (str(MATCH), str(SEE)):
            continue
        key, source = (int(words[1]), int(words[2])), int(words[3])
        if line.startswith("or "):
            found.append(({**before, key: source}, line.split("# ", 1)[-1]))
        else:
            before, schedule = schedule, {**schedule, key: source}
    return found


def parting(result, took):
    """The matches of a result up to the first one that isn't as in the run, and that one in words; or None."""
    schedule = {}
    for (key, source), words in zip(result.moves, result.words):
        schedule[key] = source
        if took.get(key) != source:
            return schedule, words
    return None


# ---- the search over runs ----

class Finding:
    """Something wrong: in which runs' calls, or what may happen."""

    def __init__(self, result, run, is_shown=True):
        self.result, self.run, self.is_shown = result, run, is_shown


class Search:
    """Recorded runs, each explored, and what is to be run next."""

    def __init__(self, launcher, explorer, words):
        self.launcher, self.explorer, self.words = launcher, explorer, words
        self.runs, self.findings, self.notes, self.astray, self.is_all = [], {}, [], [], True
        self.first, self.later, self.known, self.worth = [], [], [], {}
        self.began = time.monotonic()

    def is_over(self):
        return len(self.runs) >= self.words.numbers["--runs"] or time.monotonic() - self.began > self.words.numbers["--seconds"]

    def next_schedule(self):
        """What isn't covered by a run: first where something was found to be wrong."""
        for waiting in (self.first, self.later):
            while waiting:
                schedule, words = waiting.pop(0)
                if not any(it.record.follows(schedule) for it in self.runs) and schedule not in self.known:
                    return schedule, words
        return None

    def make(self):
        at = ({}, None)
        while at is not None:
            run = self.launcher.run(Run(len(self.runs) + 1, *at))
            if run.record.ranks == 0:
                raise Fault(START, "run %d left no record (%s):\n%s" % (run.number, run.ending(), run.output[-2000:]))
            self.runs.append(run)
            self.known.append(run.schedule)
            self.explore(run)
            at = None if self.is_over() else self.next_schedule()

    def explore(self, run):
        is_all, results = self.explorer.as_it_was(run)
        self.is_all = self.is_all and is_all
        if self.is_astray(run, results):
            self.astray.append(run)
            return
        for line in (line for it in results for line in it.worth_knowing()):
            self.worth.setdefault(line, run)
        faulty = [it for it in results if it.is_faulty()]
        is_told = any(not it.waits for it in faulty)
        for it in faulty:
            if it.waits and it.ending.startswith("DEADLOCK") and run.record.took and not self.explorer.can_hang(run, it):
                continue
            # What the pass with sends that wait is for; the rest was told of the other one.
            if not it.waits or not is_told or it.ending.startswith("DEADLOCK"):
                self.findings.setdefault(it.key(), Finding(it, run))
        self.later = self.explorer.others(run) + self.later
        for it in self.explorer.otherwise(run) if run.number == 1 and self.later else []:
            found = parting(it, run.record.took)
            if found is not None and it.is_faulty():
                it.schedule, it.parts = found
                self.first.append(found)
                self.notes.append((it, run))

    def is_astray(self, run, results):
        """A steered run that took something else, or stood still though by its calls it could have gone on: it says nothing."""
        if any(run.record.took.get(key, source) != source for key, source in run.schedule.items()):
            return True
        if run.has_hung():
            return bool(run.schedule) and not all(it.ending.startswith("DEADLOCK") for it in results)
        return run.status == 0 and not run.record.follows(run.schedule)

    def unshown(self):
        """What may happen, and no run has gone there."""
        kept = {}
        for result, run in self.notes:
            there = [it for it in self.runs if it not in self.astray]
            if not any(it.schedule == result.schedule or it.record.follows(result.schedule) for it in there):
                kept.setdefault(result.key(), Finding(result, run, False))
        return [it for key, it in kept.items() if key not in self.findings]


# ---- telling ----

def place_in_words(program, frames):
    """Where a call stands in the program."""
    if not frames:
        return "a place that isn't in the program"
    command = ["addr2line", "-f", "-C", "-e", program, "%#x" % (int(frames[0], 16) - 1)]
    try:
        told = subprocess.run(command, stdin=subprocess.DEVNULL, stdout=subprocess.PIPE, stderr=subprocess.DEVNULL, text=True).stdout
    except OSError:
        told = ""
    lines = told.splitlines()
    if len(lines) < 2 or lines[1].startswith("?"):
        return "a place without lines (compile with -g)"
    return "%s (%s)" % (os.path.basename(re.sub(r" \(discriminator.*", "", lines[1])), lines[0])


class Teller:
    """Writes what was found."""

    def __init__(self, search, kind, library, words):
        self.search, self.kind, self.library, self.words = search, kind, library, words

    def tell(self):
        runs = self.search.runs
        print("%s runs by %s (%s): what is told holds for the calls that were recorded" % (self.words.program, self.kind.name, self.library))
        left = self.search.next_schedule() is not None
        print("%d rank%s, %d recorded run%s: %s (%.2f s)" % (
            self.words.size, "s"[self.words.size == 1:], len(runs), "s"[len(runs) == 1:], "not each order of matching that was found was run"
            if left or not self.search.is_all else "each order of matching that was found was run", time.monotonic() - self.search.began))
        for run in runs:
            self.tell_run(run)
        shown, unshown = list(self.search.findings.values()), self.search.unshown()
        for number, finding in enumerate((shown + unshown)[:int(self.words.numbers["--results"])]):
            self.tell_finding(number + 1, len(shown) + len(unshown), finding)
        for line, run in self.search.worth.items():
            print("worth knowing, by the calls of run %d: %s" % (run.number, line.strip()))
        if not shown and not unshown:
            print("nothing wrong was found in the calls that were recorded")
            if self.search.explorer.hint:
                print(self.search.explorer.hint)
        self.tell_outputs()
        return FOUND if shown or unshown or any(self.is_wrong(it) for it in runs) else CLEAN

    def is_wrong(self, run):
        return run not in self.search.astray and (run.has_hung() or run.status != 0)

    def tell_run(self, run):
        if run.number > 1 and len(self.search.runs) > 12 and not self.is_wrong(run):
            return
        how = "as it came" if run.words is None else "steered: " + run.words
        astray = ", and is left out: it went another way than it was steered" if run in self.search.astray else ""
        print("run %d, %s: %s%s" % (run.number, how, run.ending(), astray))
        for what, ranks in sorted(run.record.lacks.items()):
            print("  not recorded: %s (rank %s)" % (what, ", ".join(map(str, sorted(ranks)))))
        for rank, number, call in run.record.errors:
            print("  rank %d: %s at %s returned an error of class %s" % (rank, call[0], place_in_words(self.words.program, call[1]), number))
        if run in self.search.astray or not self.is_wrong(run):
            return
        for rank, call in run.record.open:
            print("  what was recorded of rank %d ends with %s at %s" % (rank, call[0], place_in_words(self.words.program, call[1])))

    def tell_finding(self, number, count, finding):
        result, run = finding.result, finding.run
        waits = ", with sends and collectives that wait" if result.waits else ""
        if not finding.is_shown:
            of = "may happen, found in the calls of run %d in another order, which no run has shown" % run.number
        elif run.has_hung() and result.ending.startswith("DEADLOCK") and not result.waits:
            of = "shown by run %d, which stood there" % run.number
        else:
            of = "by the calls of run %d%s" % (run.number, waits)
        print("finding %d of %d, %s: %s" % (number, count, of, RUN_ENDED if result.ending == OPEN else result.ending))
        for line in result.sure():
            print(line)
        if not finding.is_shown:
            print("  it parts from run %d where %s" % (run.number, result.parts))

    def tell_outputs(self):
        runs = [it for it in self.search.runs if it not in self.search.astray and it.status == 0]
        kinds = {}
        for run in runs:
            kinds.setdefault("\n".join(sorted(run.output.splitlines())), []).append(run)
        if len(kinds) > 1:
            print("what the runs printed differs: %s" % "; ".join("as run %d: %d" % (it[0].number, len(it)) for it in kinds.values()))
        if "--output" in self.words.flags or (len(kinds) > 1 and "--quiet" not in self.words.flags):
            for it in list(kinds.values())[:int(self.words.numbers["--results"])]:
                print("run %d printed:\n%s" % (it[0].number, it[0].output.rstrip("\n")))


def check(words, kind, library, check_program, say):
    """Records and explores a program; the status."""
    given = Words(words)
    given.program = str(Path(program_of(words)).absolute())
    if not os.access(given.program, os.X_OK):
        raise Fault(START, given.program + ": it can't be started")
    with tempfile.TemporaryDirectory() as own:
        room = Path(given.texts.get("--records", own)).absolute()
        search = Search(Launcher(kind, library, given, room, say), Explorer(check_program, player(), given), given)
        search.make()
        status = Teller(search, kind, library, given).tell()
        if "--html" in given.texts:
            shown = list(search.findings.values())
            search.explorer.write_page(shown[0].run if shown else search.runs[0], given.texts["--html"])
    return status
