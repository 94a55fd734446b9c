"""Runs ranks as processes, or a world of ranks from a file of events.

usage: ./run                            two ranks play ping-pong
       ./run [-n N] [OPTION ..] SCRIPT  N ranks run a script; without -n as many as it names
       ./run FILE                       a file of events: its first line is 'world N'
       ./run --lines FILE               the same, each line with its answers
       ./run --picture FILE             the same as a picture in the terminal, a column a rank
       ./run --picture [-n N] SCRIPT    one play of a script as a picture
       ./run --svg PICTURE.svg ..       the same, written as an SVG
       ./run --explore [-n N] SCRIPT    plays a script by the schedules that can matter: what may go wrong
       ./run --explore [-n N] FILE.c    compiles a C program and runs it again and again, by other choices each time
       ./run check -n N [..] PROGRAM    explores a C program that is compiled (tools/mpicc); ./run check --help has all options
       ./run check -n N [..] FILE.c ..  the same of one that is compiled first, of one file or several
       ./run grade FOLDER EXERCISE      grades the C programs of a folder by an exercise of examples/lab; ./run grade --help
       ./run .. -                       what stands on the standard input, in place of a file
       ./run [-n N] FILE.c [WORD ..]    compiles a C program (tools/mpicc) and runs it with these words; without -n 2 ranks.
                                        Lines come as they are printed; rank 0 has the standard input
       ./run .. FILE.f90 ..             the same two of a program in Fortran (tools/mpifort)
       ./run build                      builds the programs, and runs nothing
       ./run --proved [..]              as above, by proved programs alone; proves them first
       ./run --help, ./run --version

options, as mpiexec and mpirun have them:
       -restart K      how often a rank may be started again (0)
       -patience MS    how long nothing may move until a rank gives up (10000); of a C program: until all ranks wait for so long
       -job J          the job's number (one at random)
       -baseport P     the port of rank 0; the others have the ports behind it (free ones)
       -v              says which programs are taken, and the command that is run

Options stand in any order, in front of the file or behind it; behind a C program's file stand -n N and the program's own
words alone. Those of mpiexplore (--most K, --states K, --seed S, ..) may stand beside --explore, and those of mpidraw
(--width W, --datagrams) beside --picture and --svg; of those of mpiexplore the exploration of a C program has --most,
--results, --out, --synchronous and --both, and it has those of `./run check`.

A script is judged before ranks are started: what is wrong with it is told once, and the status is 1. Scripts are
run by mpiexec and rank_main and explored by mpiexplore, files of events are run by mpisim and drawn by mpidraw, C programs
are run by mpirun and explored by kombazily-check.

In the repository the proved programs are taken where `rt ci` or `./run --proved` has left them and no source has changed
since. Else programs of the same sources are taken, of which nothing is proved: they are built once, in some three
minutes, and kept in out/unproved. RUN_PROGRAMS may name a folder whose programs are taken as they are.

What `run` itself says stands on standard error behind 'run:'. The status is that of mpiexec, mpirun,
mpisim, mpidraw, mpiexplore or kombazily-check; 125 where `run` itself fails. Begin with docs/TUTORIAL.md.
"""

import itertools
import os
import re
import shlex
import signal
import subprocess
import sys
from pathlib import Path

sys.dont_write_bytecode = True
sys.path.insert(0, str(Path(__file__).resolve().parent / "modules"))
import bounds
import c_programs
import explorer
import grading
import launchers
import recorded
import ports
import programs

TOP = programs.TOP
PINGPONG = TOP / "examples" / "scripts" / "pingpong.txt"
OWN_FAILURE = 125
VIEWS = ("--lines", "--picture", "--svg", "--explore")
PICTURES = ("--picture", "--svg")
PASSED_ON = ("-job", "-baseport", "-restart", "-patience")
# Options of the programs that show something, each with how many values it has.
SHOWING = {
    "--explore": {"--most": 1, "--seed": 1, "--states": 1, "--events": 1, "--out": 1, "--results": 1, "--findings": 0, "--synchronous": 0,
                  "--both": 0},
    "--picture": {"--width": 1, "--datagrams": 0},
    "--svg": {"--datagrams": 0},
}
# The same of a C program that is explored.
EXPLORING_C = {"--most": 1, "--results": 1, "--out": 1, "--html": 1, "--format": 1, "--sarif": 1, "--junit": 1,
               "--seconds": 1, "--random": 1, "--noes": 1, "--mix": 1, "--replay": 1, "--debug": 1, "--patience": 1,
               "--stdin": 1, "--both": 0, "--only-buffered": 0, "--synchronous": 0, "--each": 0, "--buffered": 1, "--fork": 0, "--go-on": 0, "--output": 0, "--quiet": 0, "--count": 0}
OPTIONS_OF_C = ("-n", "-np")
# Milliseconds for which all ranks of a C program may wait for one another.
PATIENCE_OF_C = 10000
# How this is called.
CALLED = "kombazily" if programs.RELEASED else "./run"
HELP = "(%s --help)" % CALLED


class Fault(Exception):
    """Why `run` itself can't go on."""


def say(text):
    print("\n".join("%s: %s" % (CALLED.removeprefix("./"), it) for it in str(text).splitlines()), file=sys.stderr, flush=True)


def is_program(file):
    """Whether it is the source of a program in C or Fortran."""
    return Path(file).suffix in c_programs.COMPILERS


class Request:
    """What the words of the command line ask for."""

    def __init__(self, words):
        self.ranks, self.options, self.shown, self.words, self.is_proved = None, {}, [], [], False
        self.svg, self.is_verbose = None, False
        words, files = list(words), []
        own = next((place for place, it in enumerate(words) if is_program(it)), len(words))
        self.view = next((it for it in words[:own] if it in VIEWS), None)
        self.shows = EXPLORING_C if self.view == "--explore" and own < len(words) else SHOWING.get(self.view, {})
        self.builds_only = [it for it in words if it != "--proved"] == ["build"]
        while words:
            if self.is_c(words):
                files, self.words, words = [*files, words[0]], words[1:], []
            elif words[0].startswith("-") and words[0] != "-":
                self.take_option(words)
            else:
                files.append(words.pop(0))
        if self.builds_only:
            return
        if len(files) > 1:
            raise Fault("'%s': one file is run, and '%s' is named too %s" % (files[1], files[0], HELP))
        if self.view and not files:
            raise Fault("beside '%s' a file is missing" % self.view)
        self.file = Path(files[0]) if files else PINGPONG

    def mention(self, text):
        """Says what only some want to know."""
        if self.is_verbose:
            say(text)

    def is_c(self, words):
        """Whether a C program is named; behind it stand its own words, among which `-n N` may stand first."""
        if not words or not is_program(words[0]):
            return False
        while len(words) > 1 and words[1] in OPTIONS_OF_C and self.ranks is None:
            option = [words.pop(1) for _ in words[1:3]]
            self.take_option(option)
        return True

    @staticmethod
    def svg_in(words):
        """The file that an SVG is written to. By its end it is told from what is drawn."""
        if not words or not words[0].endswith(".svg"):
            raise Fault("behind '--svg' stands the picture's file, PICTURE.svg")
        return Path(words.pop(0))

    def why_not(self, option):
        """Why this option can't stand here."""
        others = [view for view, it in SHOWING.items() if option in it]
        if re.fullmatch(r"-np?\d+", option):
            return "no such option: a value is a word of its own, behind its option"
        if self.view == "--explore" and option in EXPLORING_C:
            return "it stands beside '--explore' of a C program, in front of its file"
        if self.view == "--explore" and option in SHOWING["--explore"]:
            return "it stands beside '--explore' of a script alone"
        if not self.view and others:
            return "it stands beside %s alone" % " and ".join("'%s'" % it for it in others)
        return "no such option" + (" beside '%s'" % self.view if self.view else "")

    def take_option(self, words):
        option = words.pop(0)
        shown = self.shows
        if option == "--proved":
            self.is_proved = True
        elif option == "-v":
            self.is_verbose = True
        elif option in VIEWS:
            if option != self.view:
                raise Fault("'%s' and '%s': one of them at a time" % (self.view, option))
            if option == "--svg":
                self.svg = self.svg_in(words)
        elif option not in ("-n", "-np", *PASSED_ON, *shown):
            raise Fault("'%s': %s %s" % (option, self.why_not(option), HELP))
        elif shown.get(option) == 0:
            self.shown.append(option)
        elif not words:
            raise Fault("behind '%s' a value is missing" % option)
        elif option in ("-n", "-np"):
            self.ranks = words.pop(0)
        elif option in shown:
            self.shown += [option, words.pop(0)]
        else:
            self.options[option] = words.pop(0)


def taken(file):
    """The file itself; of a pipe, or of the standard input for '-', a copy that is there as long as this process."""
    try:
        if str(file) != "-" and (file.is_file() or not file.exists()):
            return file
        text = sys.stdin.buffer.read() if str(file) == "-" else file.read_bytes()
    except OSError as why:
        raise Fault("%s can't be read: %s" % (file, why.strerror))
    copy = os.memfd_create("script", 0)
    with open(copy, "wb", closefd=False) as it:
        it.write(text)
    return Path("/proc/%d/fd/%d" % (os.getpid(), copy))


def lines_of(file):
    """The words of each line of a file that isn't empty and no comment."""
    try:
        text = file.read_bytes().decode("latin-1")
    except OSError as why:
        raise Fault("%s can't be read: %s" % (file, why.strerror))
    lines = (it.split() for it in text.split("\n"))
    return [it for it in lines if it and not it[0].startswith("#")]


def is_compiled(file):
    """Whether it begins as a program that is compiled does."""
    try:
        with open(file, "rb") as it:
            return it.read(4) == b"\x7fELF"
    except OSError:
        return False


def is_events(lines):
    return bool(lines) and lines[0][0] == "world"


def ranks_named(lines):
    """How many ranks a script names: one more than the highest number behind an `on`."""
    numbers = [it.partition(".")[0] for line in lines if line[0] == "on" for it in line[1:]]
    return max((int(it) + 1 for it in numbers if it.isascii() and it.isdigit() and len(it) < 10), default=None)


def random_below(bound):
    """A number from 0 on below a bound that is far below 2^64."""
    return int.from_bytes(os.urandom(8), "little") % bound


def free_ports(count):
    """The first of so many ports in a row that are free."""
    first = ports.some_free(count)
    if first is not None:
        return first
    raise Fault("no %d ports in a row are free from %d to %d: give -baseport" % (count, ports.LOWEST, ports.BEHIND - 1))


def find(names, request):
    """These programs: proved ones where all of them are there, else, unless proved ones are asked for, unproved ones."""
    is_proved = request.is_proved
    if given := os.environ.get("RUN_PROGRAMS"):
        request.mention("the programs in %s" % given)
        return {it: Path(given) / it for it in names}
    if programs.RELEASED:
        return programs.released(names)
    found = programs.proved_folders(names)
    if found is None and is_proved:
        if programs.kit() is None:
            raise programs.NotBuilt(programs.NO_TOOLCHAIN)
        # It says itself what it does, and why it fails.
        if subprocess.run([TOP / "tools" / "build" / "proved_build", *names]).returncode != 0:
            raise Fault("the programs aren't proved")
        found = programs.proved_folders(names)
        if found is None:
            raise Fault("a source changed while the programs were proved: run it again")
    if found is not None:
        request.mention("the proved programs")
        return found
    if programs.unproved_folders(names) is None:
        say("nothing is proved of the programs that are built now ('./run --proved' proves them first)")
        programs.build_unproved(say, names)
    found = programs.unproved_folders(names)
    if found is None:
        raise Fault("a source changed while the programs were built: run it again")
    return found


def short(path):
    """A path as it is shortest from here."""
    return min(str(path), os.path.relpath(path), key=len)


class Judged(Exception):
    """A script is at fault, which is told."""


def judge(rank_main, ranks, file):
    """Lets a script be judged for so many ranks, unless their number is mpiexec's to refuse."""
    if str(ranks).isdecimal() and 0 < int(ranks) <= bounds.MOST_RANKS:
        words = [str(rank_main.resolve()), "--judge", str(int(ranks)), str(file)]
        if subprocess.run(words, stdin=subprocess.DEVNULL, stdout=subprocess.DEVNULL).returncode == 1:
            raise Judged


def command(request):
    """The words to run."""
    if is_program(request.file):
        return command_of_c(request)
    request.file = taken(request.file)
    if is_compiled(request.file):
        raise Fault("%s is a compiled program, and no script: 'mpirun -n N PROGRAM' runs it, '%s check -n N PROGRAM' explores it" % (
            request.file, CALLED))
    lines = lines_of(request.file)
    if is_events(lines):
        if request.view == "--explore":
            raise Fault("%s is a file of events: it has one schedule, its own" % request.file)
        if request.ranks or request.options:
            raise Fault("%s is a file of events, which takes no options: its first line says how many ranks there are" % request.file)
        if request.view in PICTURES:
            return [*drawing(request), short(request.file)]
        return [short(find(["mpisim"], request)["mpisim"]), short(request.file)]
    if request.view == "--lines":
        raise Fault("%s is no file of events" % request.file)
    if request.view and request.options:
        option = next(iter(request.options))
        raise Fault("'%s': a script is explored and drawn without processes %s" % (option, HELP))
    ranks = request.ranks or ranks_named(lines)
    if ranks is None:
        say("the script names no rank, so one runs it: '-n N' for more")
        ranks = 1
    named = ranks_named(lines) or 0
    if str(ranks).isdecimal() and 0 < int(ranks) < named:
        say("the script names rank %d, and '-n %s' starts the ranks below %s" % (named - 1, ranks, ranks))
    if request.view in PICTURES:
        return [*drawing(request), "--ranks", str(ranks), short(request.file)]
    if request.view:
        # Unless other sends or one result are asked for, the script is explored as it is and with synchronous sends.
        both = [] if {"--synchronous", "--both", "--events"} & set(request.shown) else ["--both"]
        return [short(find(["mpiexplore"], request)["mpiexplore"]), *request.shown, "-n", str(ranks), *both, short(request.file)]
    found = find(["mpiexec", "rank_main"], request)
    judge(found["rank_main"], ranks, request.file)
    return [*launch(found["mpiexec"], request, ranks), short(found["rank_main"]), short(request.file)]


def drawing(request):
    """The words that draw, up to what is drawn."""
    form = "--svg" if request.svg else "--text"
    return [short(find(["mpidraw"], request)["mpidraw"]), form, *request.shown]


def launch(mpiexec, request, ranks):
    """The words that launch so many ranks, up to the program."""
    options = {"-job": random_below(10**15), **request.options}
    if "-baseport" not in options:
        # Numbers that are none are mpiexec's to refuse.
        count = min(max(int(ranks), 1), bounds.MOST_RANKS) if str(ranks).isdecimal() else None
        options["-baseport"] = free_ports(count) if count else ports.LOWEST
    words = [short(mpiexec)]
    for option, value in options.items():
        words += [option, str(value)]
    return words + ["-n", str(ranks)]


def command_of_c(request):
    """The same for a C program, which is compiled first."""
    if request.view and request.view != "--explore":
        raise Fault("'%s' shows scripts and files of events: a C program can be run and explored" % request.view)
    if not request.file.is_file():
        raise Fault("%s can't be read" % request.file)
    if request.view:
        return exploration_of_c(request)
    if not request.is_proved and not {"RUN_PROGRAMS", "RUN_ENGINE"} & set(os.environ):
        c_programs.build_with(say, ["mpirun"])
    mpirun = launchers.made(find(["mpirun"], request)["mpirun"])
    program = c_programs.compiled(say, request.file, request.is_proved)
    os.environ["KOMBAZILY_TOGETHER"] = "1"
    options = {"-patience": PATIENCE_OF_C, **request.options}
    told = [str(it) for option in options.items() for it in option]
    return [short(mpirun), "-prefix", *told, "-n", str(request.ranks or 2), short(program), *request.words]


def exploration_of_c(request):
    """The words that explore a C program, which is compiled first."""
    if request.options:
        raise Fault("'%s': a C program is explored without ports %s" % (next(iter(request.options)), HELP))
    for word in request.words:
        if word in EXPLORING_C:
            say("'%s' stands behind %s, so it is handed to the program" % (word, request.file))
    program = c_programs.compiled(say, request.file, request.is_proved)
    return [short(explorer.taken(say)), *request.shown, "-n", str(request.ranks or 2), short(program), *request.words]


def with_program(words):
    """The words of `check`, with a program where source files stand: they are compiled."""
    at = recorded.place_of_program(words)
    files = [Path(it) for it in itertools.takewhile(is_program, words[at:])]
    if not files:
        return words
    for file in files:
        if not file.is_file():
            raise c_programs.Fault("%s can't be read" % file)
    return [*words[:at], short(c_programs.compiled(say, files[0], False, files[1:])), *words[at + len(files):]]


def check(words):
    """Explores a C program, which is compiled first where its source is named."""
    if words in (["-h"], ["--help"]) and not programs.RELEASED:
        return written(explorer.usage(), 0)
    try:
        words = with_program(words)
        named = recorded.program_of(words)
        if named and Path(named).is_file() and not os.access(named, os.X_OK):
            raise recorded.Fault(recorded.START, "%s is no program: '%s --explore' takes a script or FILE.c" % (named, CALLED))
        kind, library = recorded.kind_of(named) if named else (None, None)
        if named and kind is None:
            recorded.refuse_static(named)
        program = str(explorer.taken(say))
        if kind is not None:
            return recorded.check(words, kind, library, program, say)
    except recorded.Fault as why:
        say(why)
        return why.status
    except (c_programs.Fault, programs.NotBuilt) as why:
        say(why)
        return OWN_FAILURE
    os.execv(program, [program, *words])


def written(text, status):
    """Writes this, and what was printed before it: the status, or that of an output that can't be written, which is told."""
    try:
        sys.stdout.write(text)
        sys.stdout.flush()
        return status
    except OSError as why:
        say("the output can't be written: %s" % why.strerror)
        # Else Python tries once more when it ends.
        os.dup2(os.open(os.devnull, os.O_WRONLY), sys.stdout.fileno())
        return OWN_FAILURE


def show(program, file):
    """Shows a file of events with its answers; what a fault is, and the status, the program itself tells."""
    import answered

    ended = subprocess.run([program, file], stdin=subprocess.DEVNULL, stdout=subprocess.PIPE)
    if not ended.stdout and ended.returncode:
        return ended.returncode
    rows = answered.rows(program, file.read_bytes().decode("latin-1").split("\n"))
    return written("".join("%s\n" % it for it in rows), ended.returncode)


def write(chosen, file):
    """Writes the picture into the file; where nothing was drawn the file stays as it was."""
    ended = subprocess.run(chosen, stdin=subprocess.DEVNULL, stdout=subprocess.PIPE)
    if ended.stdout:
        try:
            file.write_bytes(ended.stdout)
        except OSError as why:
            say("%s can't be written: %s" % (file, why.strerror))
            return OWN_FAILURE
    return ended.returncode


def usage():
    """What --help prints; in a release without what a clone of the repository alone has."""
    if not programs.RELEASED:
        return __doc__
    text = re.sub(r"(?m)^ *\./run (?:build|--proved) .*\n|^In the repository (?:.*\n)*?\n", "", __doc__)
    for one, other in (("./run", CALLED), ("`run`", "`%s`" % CALLED), ("'run:'", "'%s:'" % CALLED), ("tools/mpi", "mpi")):
        text = text.replace(one, other)
    return text.replace("docs/TUTORIAL.md", "share/doc/kombazily/docs/TUTORIAL.md, seen from the folder of the release")


def main(words):
    if words[:1] in (["-h"], ["--help"], ["help"]):
        return written(usage(), 0)
    if words == ["--version"]:
        return written("%s (Kombazily) %s\n" % (CALLED.removeprefix("./"), programs.version()), 0)
    if words[:1] == ["check"]:
        return check(words[1:])
    if words[:1] == ["grade"]:
        return grading.main(words[1:], say)
    signal.signal(signal.SIGTERM, lambda *_: sys.exit(128 + signal.SIGTERM))
    try:
        request = Request(words)
        if programs.RELEASED and (request.builds_only or request.is_proved):
            raise Fault("a release has its programs, and the file BUILT says which of them are proved")
        if request.builds_only:
            found = find(programs.NAMES, request)
            folders = sorted({str(it.parent) for it in found.values()})
            say("they stand in %s (a shell finds them after: export PATH=%s:$PATH)" % (", ".join(folders), ":".join(folders)))
            return 0
        chosen = command(request)
    except (Fault, c_programs.Fault, programs.NotBuilt) as why:
        say(why)
        return OWN_FAILURE
    except Judged:
        return 1
    except KeyboardInterrupt:
        return 128 + signal.SIGINT
    request.mention(shlex.join(chosen))
    program = chosen[0] if os.sep in chosen[0] else os.path.join(".", chosen[0])
    if request.view == "--lines":
        return show(program, request.file)
    if request.svg:
        return write([program, *chosen[1:]], request.svg)
    signal.signal(signal.SIGTERM, signal.SIG_DFL)
    os.execv(program, chosen)


sys.exit(written("", main(sys.argv[1:])))
