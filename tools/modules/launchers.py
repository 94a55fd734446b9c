"""mpirun as a user starts it: a front in C, which outlives the signals that ask for a job's end (bindings/launcher), and in the folder
../lib/kombazily the launcher, which is the program of the crate mpirun.
"""

import filecmp
import os
import shutil
import signal
from pathlib import Path

import c_programs
import programs

FOLDER, OUT = programs.TOP / "bindings" / "launcher", programs.TOP / "out" / "launcher"
# Where the launcher stands, from the folder of releases and of this module on.
LAUNCHER = Path("lib") / "kombazily" / "mpirun"


def take_interrupts():
    """What is started from here ends by Ctrl-C, also where the shell that started this in the background ignores it."""
    signal.signal(signal.SIGINT, signal.default_int_handler)
    signal.signal(signal.SIGQUIT, signal.SIG_DFL)


def has_front(program):
    """Whether this is a front already, as a release has it."""
    return (Path(program).resolve().parents[1] / LAUNCHER).is_file()


def make_front(folder, *flags):
    """Makes the front alone."""
    c_programs.run_make(FOLDER, folder, "the front of mpirun", *flags)


def made(launcher, folder=OUT):
    """mpirun over this launcher, which is put into the folder where it isn't there."""
    if has_front(launcher):
        return Path(launcher)
    beside = folder / LAUNCHER
    with c_programs.alone(folder):
        make_front(folder / "bin")
        if not beside.is_file() or not filecmp.cmp(launcher, beside, shallow=False):
            beside.parent.mkdir(parents=True, exist_ok=True)
            shutil.copy(launcher, beside.with_suffix(".new"))
            os.replace(beside.with_suffix(".new"), beside)
    return folder / "bin" / "mpirun"
