"""What a release is made of. Its folder can stand anywhere, and needs libc alone; `kombazily` needs Python, compiling a compiler.

It is a table: of each file, by its name in the release, a file that is copied, a text, or where a link leads.
"""

import hashlib
import os
import re
import shutil
import subprocess
from pathlib import Path

import c_programs
import explorer
import launchers
import programs
import recorded
import release_pages

TOP = programs.TOP
# Programs by their names in a release: there `mpiexec` is another name of `mpirun`.
NAMES = {**{it: it for it in programs.NAMES}, "mpiexec": programs.JOINING}
IN_CXX = ("mpicxx", "mpic++", "mpiCC")
IN_FORTRAN = ("mpifort", "mpif77", "mpif90")
COMMANDS = (*NAMES.values(), "mpiexec", "mpicc", *IN_CXX, *IN_FORTRAN, "kombazily", "kombazily-check")
# Commands whose page is another one's.
PAGES = {"mpiexec": "mpirun", **{it: "mpicc" for it in (*IN_CXX, *IN_FORTRAN)}}
OWN, DOCS, MANUALS = "share/kombazily/", "share/doc/kombazily/", "share/man/man1/"
COMPLETIONS = "share/bash-completion/completions/"
# What a release in an archive has at its top, too.
HEADS = {it: DOCS + it for it in ("README.md", "LICENSE", "NOTICE", "BUILT", "docs")} | {"examples": OWN + "examples"}
INSTALLED = OWN + "installed"


class Fault(Exception):
    """Why there is no release."""


class Copy:
    """A file that is copied; it may be a program."""

    def __init__(self, source, mode=0o644):
        self.source, self.mode = source, mode

    def put(self, at):
        shutil.copyfile(self.source, at)
        at.chmod(self.mode)


class Text:
    """A file with this text."""

    def __init__(self, text):
        self.text = text

    def put(self, at):
        at.write_text(self.text)
        at.chmod(0o644)


class Link:
    """A symbolic link, by a name from the folder in which it stands."""

    def __init__(self, to):
        self.to = to

    def put(self, at):
        at.symlink_to(self.to)


class Parts:
    """The programs and the library of a release: where they stand now, and which are proved."""

    def __init__(self, found, room):
        self.programs, self.room = found, room
        self.proved = [it for it in found if programs.is_proved(it) and same(found[it], programs.proved(it))]

    def make_library(self, say, wants_proved):
        """The library for C, in which no path of this machine stands."""
        if c_programs.make_library(say, wants_proved):
            self.proved.append("libmpi")
        engine = "ENGINE=%s" % os.path.relpath(c_programs.ENGINE, c_programs.BINDING)
        self.make_part(c_programs.BINDING, "the library", engine)
        if c_programs.has_fortran():
            self.make_part(c_programs.FORTRAN, "Fortran's library", "FFLAGS=-O2 '-ffile-prefix-map=%s=.'" % c_programs.FORTRAN)
        else:
            say("there is no Fortran in it: gfortran isn't here")
        subprocess.run(["strip", "--strip-debug", *(self.room / "lib").glob("lib*.*[a0]")], check=True)

    def make_part(self, folder, what, *words):
        c_programs.run_make(folder, self.room, what, "CFLAGS=-O2 '-ffile-prefix-map=%s=.'" % folder, *words)

    def make_explorer(self, say, wants_proved):
        """The explorer of C programs, with the proved library where that is there or wanted."""
        if wants_proved:
            explorer.prove(say)
        if explorer.is_proved() and "RUN_CHOICES" not in os.environ:
            self.proved.append(explorer.PROGRAM.name)
        parts = {"OUT": self.room / "explorer", "CHOICES": explorer.choices(say)}
        flags = "CFLAGS=-O2 '-ffile-prefix-map=%s=.'" % explorer.FOLDER
        named = ["%s=%s" % (name, os.path.relpath(it, explorer.FOLDER)) for name, it in parts.items()]
        made = subprocess.run(["make", "-s", "-C", explorer.FOLDER, *named, flags], capture_output=True, text=True)
        if made.returncode != 0:
            raise Fault("the explorer wasn't made:\n" + made.stdout + made.stderr)
        subprocess.run(["strip", self.explorer()], check=True)

    def make_player(self):
        """The player of records of other MPIs, over the same library."""
        flags = "-O2 '-ffile-prefix-map=%s=.'" % recorded.FOLDER
        subprocess.run(["strip", recorded.make_player(self.room / "record", flags, self.room)], check=True)

    def make_front(self):
        """The process that a user starts as mpirun."""
        flags = "CFLAGS=-O2 '-ffile-prefix-map=%s=.'" % launchers.FOLDER
        launchers.make_front(self.room / "launcher", flags)
        subprocess.run(["strip", self.front()], check=True)

    def front(self):
        return self.room / "launcher" / "mpirun"

    def player(self):
        return self.room / "record" / recorded.PLAYER

    def explorer(self):
        return self.room / "explorer" / explorer.PROGRAM.name

    def is_proved(self):
        return len(self.proved) == len(self.names())

    def names(self):
        """What a release has of which BUILT says whether it is proved, or C over a library that is."""
        return [*self.programs, "libmpi", explorer.PROGRAM.name]


def same(one, other):
    return Path(one).read_bytes() == Path(other).read_bytes()


def sum_of(file):
    return hashlib.sha256(Path(file).read_bytes()).hexdigest()


def below(folder, to, suffixes):
    """The files of a folder and of those in it, with their names in a release."""
    files = sorted(it for it in (TOP / folder).rglob("*") if it.is_file() and it.suffix in suffixes)
    return {to + str(it.relative_to(TOP / folder)): Copy(it) for it in files}


def modules_of(file):
    """The modules in tools/modules that a script in Python needs."""
    found, waiting = [], [file]
    while waiting:
        for name in re.findall(r"^ *(?:import|from) (\w+)", waiting.pop().read_text(), re.M):
            module = TOP / "tools" / "modules" / (name + ".py")
            if module.is_file() and module not in found:
                found.append(module)
                waiting.append(module)
    return sorted(found)


def binaries(parts):
    """Programs, libraries, and what compiles with them."""
    found = {"bin/" + NAMES[name]: Copy(file, 0o755) for name, file in parts.programs.items()}
    found |= {str(launchers.LAUNCHER): found["bin/mpirun"], "bin/mpirun": Copy(parts.front(), 0o755)}
    found |= {"bin/kombazily-check": Copy(parts.explorer(), 0o755)}
    found |= {"bin/mpicc": Copy(TOP / "tools" / "mpicc", 0o755), **{"bin/" + it: Link("mpicc") for it in (*IN_CXX, *IN_FORTRAN)}}
    found |= {"bin/mpiexec": Link("mpirun"), "bin/kombazily": Link("../" + OWN + "run")}
    for it in sorted((parts.room / "lib").rglob("*")):
        name = "lib/" + str(it.relative_to(parts.room / "lib"))
        if it.is_symlink():
            found[name] = Link(os.readlink(it))
        elif it.is_file():
            found[name] = Copy(it)
    return found | {"include/" + it.name: Copy(it) for it in sorted((parts.room / "include").iterdir())}


def own_files(parts):
    """What `kombazily` is made of: ./run, and what that needs; and the examples."""
    found = {OWN + "run": Copy(TOP / "run", 0o755), **{OWN + it: Copy(TOP / it) for it in ("VERSION", "tools/run.py")}}
    found |= {OWN + "tools/modules/" + it.name: Copy(it) for it in modules_of(TOP / "tools" / "run.py")}
    found |= {OWN + recorded.PLAYER: Copy(parts.player(), 0o755), OWN + "bindings/record/Makefile": Copy(recorded.FOLDER / "Makefile")}
    found |= below("bindings/record/src", OWN + "bindings/record/src/", (".c", ".h"))
    return found | below("examples", OWN + "examples/", (".md", ".txt", ".out", ".err", ".c", ".f90", ".svg"))


def as_released(pages):
    """The table with those of these files that are pages or examples as a release has them."""
    # Names from the top of the repository on, of all that a page may lead to.
    own = {it.removeprefix(DOCS).removeprefix(OWN): it for it in pages}
    texts = {}
    for name, it in own.items():
        if isinstance(pages[it], Copy) and name.endswith((".md", ".txt", ".c", ".f90")) and not name.startswith(("tools/", "bindings/")):
            text = Path(pages[it].source).read_text()
            texts[it] = Text(release_pages.of_release(text, name, own) if name.endswith(".md") else release_pages.commands(text))
    return pages | texts


def manual_of_joining():
    """The page of the launcher with joined output, under its name in a release."""
    text, name = (TOP / "docs" / "man" / "mpiexec.1").read_text(), programs.JOINING.replace("-", "\\-")
    text = re.sub(r"^\.TH MPIEXEC", ".TH " + name.upper(), text, flags=re.M)
    return re.sub(r"^((?:\.BR? )?)mpiexec(?!:)\b", lambda it: it[1] + name, text, flags=re.M)


def manual(file):
    """A page as a release has it: its `mpiexec` is mpirun's."""
    return Text(re.sub(r"^(\.BR )mpiexec (\(1\))", r"\1kombazily\\-mpiexec \2", file.read_text(), flags=re.M))


def manuals():
    found = {MANUALS + it.name: manual(it) for it in sorted((TOP / "docs" / "man").glob("*.1"))}
    found |= {MANUALS + programs.JOINING + ".1": Text(manual_of_joining())}
    return found | {MANUALS + one + ".1": Text(".so man1/%s.1\n" % other) for one, other in PAGES.items()}


def completions():
    """What bash completes; it looks for a file of the command's name."""
    links = {COMPLETIONS + it: Link("kombazily") for it in COMMANDS if it != "kombazily"}
    return {COMPLETIONS + "kombazily": Copy(TOP / "tools" / "completions.bash"), **links}


def licences(names):
    """The licences of the toolchain's crates that are linked into programs, as far as they have one."""
    files = [(it, file) for it in names for file in sorted((programs.kit() / "rattle" / it).glob("LICENSE*"))]
    return {DOCS + "licences/%s/%s" % (name, file.name): Copy(file) for name, file in files}


def documents():
    found = {DOCS + it: Copy(TOP / it) for it in ("LICENSE", "NOTICE", "README.md", "CHANGELOG.md")}
    found |= {DOCS + "examples": Link(os.path.relpath(OWN + "examples", DOCS))}
    found |= {DOCS + "docs/" + it.name: Copy(it) for it in sorted((TOP / "docs").glob("*.md"))}
    return found | below("docs/pictures", DOCS + "docs/pictures/", (".svg",))


def run_output(words):
    done = subprocess.run(words, stdin=subprocess.DEVNULL, capture_output=True, text=True)
    return done.stdout.strip() if done.returncode == 0 else ""


def commit():
    """Which commit this tree is of."""
    git = ["git", "-C", str(TOP)]
    head = run_output([*git, "rev-parse", "HEAD"]) or "not known"
    return head + (", with changes" if run_output([*git, "status", "--porcelain"]) else "")


def libc_needed(files):
    """The least version of glibc that has all that these programs and libraries ask for."""
    asked = re.findall(r"GLIBC_([0-9.]+)", run_output(["readelf", "-V", *map(str, files)]))
    return max(asked, key=lambda it: [int(part) for part in it.split(".")])


def built(parts, table):
    """What a release says of how it was built; `sha256sum -c` takes its last lines."""
    names = parts.names()
    sums = [it for it in table if it.startswith(("bin/", "lib/")) and isinstance(table[it], Copy)]
    lines = ["Kombazily %s for x86_64-linux" % programs.version(), "commit: %s" % commit(),
             "toolchain: %s" % run_output([programs.kit() / "bin" / "rt", "--version"]),
             "compiler of the library's C: %s" % run_output(["cc", "--version"]).partition("\n")[0],
             "needs glibc: %s" % libc_needed(table[it].source for it in sums if it != "bin/mpicc" and table[it].mode == 0o755),
             "proved: %s" % (" ".join(it for it in names if it in parts.proved) or "none"),
             "not proved: %s" % (" ".join(it for it in names if it not in parts.proved) or "none"), ""]
    return "\n".join([*lines, *("%s  %s" % (sum_of(table[it].source), it) for it in sums)]) + "\n"


def table_of(parts, kit_crates):
    """A whole release."""
    found = binaries(parts) | as_released(own_files(parts) | documents()) | manuals() | completions() | licences(kit_crates)
    return found | {DOCS + "BUILT": Text(built(parts, found))}


def put(table, folder):
    """Puts a release into a folder; returns the folders that were made for it, by names from there."""
    made = []
    for name, what in table.items():
        at = folder / name
        lacking = [it for it in at.parents if not it.exists()]
        at.parent.mkdir(parents=True, exist_ok=True)
        made += lacking
        at.unlink(missing_ok=True)
        what.put(at)
    return [os.path.relpath(it, folder) for it in made]


def is_taken(at):
    return at.is_symlink() or at.exists()


def installed_in(folder):
    """What an earlier release left in this folder: its files, and the folders that were made for them."""
    told = folder / INSTALLED
    lines = told.read_text().splitlines() if told.is_file() else []
    return [it for it in lines if not it.endswith("/")], [it[:-1] for it in lines if it.endswith("/")]


def install(table, folder):
    """Puts a release into a folder, beside what is there, in which it replaces no file of others."""
    files, folders = installed_in(folder)
    strange = [it for it in table if it not in files and is_taken(folder / it)]
    if strange:
        raise Fault("%s is there, and isn't Kombazily's: another PREFIX is needed" % (folder / strange[0]))
    uninstall(folder)
    made = put(table | {INSTALLED: Text("")}, folder)
    (folder / INSTALLED).write_text("".join([*(it + "\n" for it in [*table, INSTALLED]), *(it + "/\n" for it in {*folders, *made})]))


def uninstall(folder):
    """Removes what was installed, and the folders that were made for it, unless something else is in them."""
    files, folders = installed_in(folder)
    for it in files:
        (folder / it).unlink(missing_ok=True)
    # The longest name first: what stands in a folder is gone before it.
    for it in sorted((os.path.normpath(folder / it) for it in folders), key=len, reverse=True):
        if os.path.isdir(it) and not os.listdir(it):
            os.rmdir(it)
    return bool(files)
