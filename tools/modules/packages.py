"""Debian's packages that a tool needs: they are installed by apt-get where what it needs of them isn't there."""

import shutil
import subprocess
import sys

# The status of a tool that looked at nothing, since apt-get reaches no registry.
NO_REGISTRY = 77


def can(*command):
    quiet = {"stdin": subprocess.DEVNULL, "stdout": subprocess.DEVNULL, "stderr": subprocess.DEVNULL}
    return shutil.which(command[0]) is not None and subprocess.run(command, **quiet).returncode == 0


def compiles(compiler):
    """A command that ends well where a compiler of an MPI has its header: the compiler may be there without."""
    return (compiler, "-fsyntax-only", "-include", "mpi.h", "-x", "c", "/dev/null")


def need(tool, commands, packages):
    """Installs packages where some command doesn't end well. Ends the tool where that can't be, by NO_REGISTRY where apt-get fetches no
    lists."""
    def are_there():
        return all(can(*it) for it in commands)
    install = ("apt-get", "install", "-y", "--no-install-recommends", *packages)
    if are_there():
        return
    print("installing " + " ".join(packages), flush=True)
    if can(*install) and are_there():
        return
    if not can("apt-get", "-o", "APT::Update::Error-Mode=any", "update"):
        print("%s: left out: it needs %s, and apt-get reaches no registry" % (tool, " ".join(packages)))
        sys.exit(NO_REGISTRY)
    if not can(*install) or not are_there():
        sys.exit("%s: apt-get doesn't bring %s" % (tool, " ".join(packages)))
