"""What pages and examples show is run here, and compared with what they say."""

import difflib
import os
import re
import shlex
import subprocess
import tempfile
from itertools import count
from pathlib import Path
from threading import Lock

import bounds
import ports

# What stands on a page for anything that differs from run to run: within a line, or as a line for any number of lines.
ANYTHING = "…"
SECONDS = 90
# The base port that a page shows, which is the launcher's own, and more ranks than any page starts.
SHOWN_PORT, SHOWN_RANKS = bounds.BASE_PORT, 256
# The launcher, with a free base port where it gets none.
LAUNCHER = """#!/bin/sh
launcher=%s
case " $* " in *" -baseport "*) exec "$launcher" "$@" ;; esac
case "$1" in -n | -job | -restart | -patience | -configfile) exec "$launcher" -baseport %d "$@" ;; esac
exec "$launcher" "$@"
"""


class Ports:
    """Ports in a row that nobody holds and that no other run of this check has."""

    def __init__(self):
        # Two checks at one time begin at different ones.
        self.lock, self.next = Lock(), ports.LOWEST + os.getpid() % 40 * 300

    def take(self, ranks):
        """Returns the first of so many ports."""
        with self.lock:
            for _ in range(1000):
                first = self.next
                self.next = first + ranks if first + ranks + SHOWN_RANKS <= ports.BEHIND else ports.LOWEST
                if ports.are_free(first, ranks):
                    return first
        raise OSError("no %d ports in a row are free" % ranks)


class Ended:
    """How a run ended."""

    def __init__(self, status, output, errors):
        self.status, self.output, self.errors = status, output, errors


class Runner:
    """Runs the programs."""

    def __init__(self, programs, top):
        self.programs, self.top, self.ports, self.jobs = programs, top, Ports(), count(os.getpid() * 1000)

    def run(self, words, folder, environment=None):
        """Runs a command in a folder; one that doesn't end in time has no status."""
        how = {"cwd": folder, "env": environment, "stdin": subprocess.DEVNULL, "timeout": SECONDS}
        try:
            done = subprocess.run([str(it) for it in words], stdout=subprocess.PIPE, stderr=subprocess.PIPE, **how)
        except subprocess.TimeoutExpired as late:
            return Ended("none within %d s" % SECONDS, (late.stdout or b"").decode("latin-1"), (late.stderr or b"").decode("latin-1"))
        return Ended(done.returncode, *(it.decode("utf-8", "replace") for it in (done.stdout, done.stderr)))

    def ranks(self, size, options, script, folder):
        """A script on so many ranks; options of its own stand in place of the job number and the base port."""
        given = {"-job": next(self.jobs), "-baseport": None, **dict(zip(options[::2], options[1::2]))}
        given["-baseport"] = given["-baseport"] or self.ports.take(int(size))
        words = [str(it) for pair in given.items() for it in pair]
        return self.run([self.programs["mpiexec"], *words, "-n", size, self.programs["rank_main"], script], folder)

    def events(self, file, folder):
        """A file of events."""
        return self.run([self.programs["mpisim"], file], folder)

    def shell(self, folder):
        """Lays the programs, ./run and examples/ into a page's folder, and returns what runs its commands there."""
        port, bin_folder = self.ports.take(SHOWN_RANKS), folder / ".bin"
        bin_folder.mkdir()
        for name in ("rank_main", "mpisim", "mpidraw", "mpiexplore", "mpirun"):
            (bin_folder / name).symlink_to(self.programs[name])
        # Another process writes what is to be run: a fork of another thread would hold this one's open file, and the system then refuses
        # to run it (ETXTBSY).
        text = folder / ".mpiexec"
        text.write_text(LAUNCHER % (shlex.quote(str(self.programs["mpiexec"])), port))
        subprocess.run(["install", "-m", "755", text, bin_folder / "mpiexec"], check=True)
        for name in ("run", "examples"):
            (folder / name).symlink_to(self.top / name)
        # `run` is to take these very programs.
        taken = folder / ".programs"
        taken.mkdir()
        for name, program in self.programs.items():
            (taken / name).symlink_to(program)
        path = "%s%s%s" % (bin_folder, os.pathsep, os.environ["PATH"])
        return Shell(self, folder, {**os.environ, "PATH": path, "RUN_PROGRAMS": str(taken)}, port)


class Shell:
    """Runs the commands of a page in its folder."""

    def __init__(self, runner, folder, environment, port):
        self.runner, self.folder, self.environment, self.port = runner, folder, environment, port

    def shown(self, text):
        """A text with the ports of a launch as a page shows them."""
        first, last = self.port, self.port + SHOWN_RANKS
        return re.sub(r"\b\d{5}\b", lambda it: str(int(it[0]) - first + SHOWN_PORT) if first <= int(it[0]) < last else it[0], text)

    def pasted(self, lines):
        """Runs lines as they are; what ./run itself says, or kombazily of a release, is left out of the standard error."""
        ended = self.runner.run(["bash", "-c", "\n".join(lines)], self.folder, self.environment)
        errors = re.sub(r"(?m)^(?:run|kombazily): .*\n", "", ended.errors)
        return Ended(ended.status, self.shown(ended.output), self.shown(errors))

    def prompted(self, lines):
        """Runs the commands behind '$ ' in one shell, and compares what each prints with the lines behind it."""
        commands = commands_of(lines)
        if commands is None:
            return ["the first line is no command"]
        with tempfile.TemporaryDirectory() as room:
            script = []
            for number, (command, _) in enumerate(commands):
                Path(room, "%d.sh" % number).write_text(command + "\n")
                script.append(". {0}/{1}.sh > {0}/{1}.out 2> {0}/{1}.err".format(room, number))
            ended = self.runner.run(["bash", "-c", "\n".join(script)], self.folder, self.environment)
            found = ["status %s" % ended.status] if isinstance(ended.status, str) else []
            for number, (command, shown) in enumerate(commands):
                files = (Path(room, "%d.%s" % (number, it)) for it in ("out", "err"))
                out, errors = (self.shown(it.read_text(errors="replace")) if it.exists() else "" for it in files)
                if not is_shown(shown, out, errors):
                    found.append("$ %s\n%s" % (command, difference(shown, out + errors)))
        return found


def commands_of(lines):
    """Each command behind '$ ', and behind '> ' where it goes on, with the lines that are shown of what it prints."""
    commands = []
    for line in lines:
        if line.startswith("$ "):
            commands.append((line[2:], []))
        elif not commands:
            return None
        elif line.startswith("> ") and not commands[-1][1]:
            commands[-1] = (commands[-1][0] + "\n" + line[2:], [])
        else:
            commands[-1][1].append(line)
    return commands


def is_shown(shown, out, errors):
    """Whether lines show a command's standard output alone, or all that it wrote, its standard error's lines in any place."""
    if is_text(shown, out):
        return True
    if any(ANYTHING in it for it in shown):
        return are_lines(shown, out + errors)
    rest = left_over(errors.splitlines(), shown)
    return rest is not None and is_text(rest, out)


def pattern(line):
    return ".*".join(re.escape(it) for it in line.split(ANYTHING))


def is_text(shown, text):
    """Whether a text is what these lines show, in their order."""
    wanted = "".join("(?:.*\n)*" if it == ANYTHING else pattern(it) + "\n" for it in shown)
    return re.fullmatch(wanted, text) is not None


def left_over(shown, lines):
    """The lines that are left of `lines` where each line shown has taken one that is like it; None where one finds none."""
    left = list(lines)
    for it in sorted((it for it in shown if it != ANYTHING), key=lambda it: ANYTHING in it):
        like = next((one for one in left if re.fullmatch(pattern(it), one)), None)
        if like is None:
            return None
        left.remove(like)
    return left


def are_lines(shown, text):
    """Whether a text has these lines, in any order."""
    left = left_over(shown, text.splitlines())
    return left == [] or (left is not None and ANYTHING in shown)


def difference(shown, text):
    """What a page shows and what was printed, side by side."""
    return "\n".join("    " + it for it in list(difflib.unified_diff(shown, text.splitlines(), "shown", "printed", lineterm="", n=2)))


def faults_of_run(ended, output, errors, status):
    """How a run differs from what is shown of it; output and errors are lines, errors None where they aren't shown."""
    found = []
    if ended.status != status:
        found.append("status %s, and not %d as shown\n%s" % (ended.status, status, difference([], ended.errors)))
    if not is_text(output, ended.output):
        found.append("standard output:\n" + difference(output, ended.output))
    if errors is not None and not are_lines(errors, ended.errors):
        found.append("standard error:\n" + difference(sorted(errors), "\n".join(sorted(ended.errors.splitlines()))))
    if errors is None and status == ended.status == 0 and ended.errors:
        found.append("standard error, which isn't shown:\n" + difference([], ended.errors))
    return found
